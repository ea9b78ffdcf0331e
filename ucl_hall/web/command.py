"""The command `ucl_serve`: opens records, serves their pages, and prints what to open."""

import asyncio
import contextlib
import errno
import resource
import ssl
import sys
from collections.abc import Mapping, Sequence
from urllib.parse import urlsplit

from ucl_hall.faults import BadArgument, Over
from ucl_hall.program import ending, program_named, until_ended
from ucl_hall.record import begin, places
from ucl_hall.record.record import Record
from ucl_hall.rows import GROUPS
from ucl_hall.terminal.setup import rows_by_questions
from ucl_hall.text import warn
from ucl_hall.web import links
from ucl_hall.web.connections import Screens
from ucl_hall.web.groups import Group
from ucl_hall.web.mirror import Mirror
from ucl_hall.web.options import Options, options_of
from ucl_hall.web.server import Server
from ucl_hall.web.shared_keys import Keys, keys_held, keys_of
from ucl_hall.web.shown import Shown
from ucl_hall.web.source import follow

# Files that are open beside those of screens: records, pipes, connections that have just begun.
OTHER_FILES = 400
OPEN = (
    "Without --certificate whoever is on this network can read links and enter events: give one, "
    "or use a network of your own."
)
SEEN = "Whoever sees a code can enter events: keep this terminal off every projector."


def urls_of(options: Options) -> list[str]:
    """Under which addresses the page of screens is reached."""
    if options.url:
        return [options.url]
    scheme, (host, port) = "https" if options.certificate else "http", options.listen
    return [links.url_of(scheme, name, port) for name in links.hosts_of(host)]


def names_of(options: Options) -> list[str]:
    """The names under which the server is asked."""
    return [urlsplit(url).hostname or "" for url in (*urls_of(options), *options.at)]


def tell_links(options: Options, named: Sequence[tuple[str, str]]) -> None:
    """Prints links of reporters, each by a name and a key, with a code for phones: one for each
    address of this machine."""
    has_codes = options.url or not links.is_of_this_machine(options.listen[0])
    if has_codes and named and sys.stdout.isatty():
        print(SEEN)
    for name, key in named:
        for url in urls_of(options):
            print(f"{name}: {url}report/{key}")
            if has_codes and sys.stdout.isatty():
                print(links.code_of(f"{url}report/{key}"))


def tell(options: Options, groups: Sequence[Group]) -> None:
    """Prints what to open: keys at a terminal alone, since other output may be kept."""
    for url in urls_of(options):
        print(f"Screens: {url}")
    if sys.stdout.isatty():
        named = list[tuple[str, str]]()
        for group in groups:
            name = f"Group {group.letter}, reporter" if len(groups) > 1 else "Reporter"
            named += [(f"{name} {it}", group.keys[it]) for it in group.reporters]
        tell_links(options, named)
    if links.is_of_this_machine(options.listen[0]):
        print(f"For phones give --listen 0.0.0.0:{options.listen[1]}")
    elif not options.certificate and not (options.url or "").startswith("https"):
        print(OPEN)
    sys.stdout.flush()


def first_rows(options: Options) -> dict[str, bytes]:
    """The rows of records that are not there, by files of clubs or by questions at a terminal."""
    rows: dict[str, bytes] = {}
    for place, path in enumerate(options.records):
        if places.exists(path):
            continue
        if place < len(options.rows):
            rows[path] = begin.all_rows(options.rows[place])
        elif place < len(options.clubs):
            letter = options.groups[place]
            rows[path] = begin.rows_of_file(options.clubs[place], letter, options.order)
        elif sys.stdin.isatty():
            print(f"{path} is not there yet.")
            rows[path] = rows_by_questions(GROUPS[place % len(GROUPS)])
        else:
            raise Over(f"there is no {path}: give --clubs FILE, or type this line at a terminal")
    return rows


async def serve(options: Options, first: Mapping[str, bytes]) -> int:
    """Serves until no record can be followed any more, each file for this server alone, and gives
    the status.

    Begins the records of which there are first rows. Raises BadArgument where the records are not
    of the groups that are meant, Over where the port is taken, and what `keys.held` and
    `Record.open` raise.
    """
    program, groups = program_named("ucl_live"), list[Group]()
    server = _server(options, groups)
    async with contextlib.AsyncExitStack() as stack:
        opened = list[tuple[Record, Keys]]()
        for path in options.records:
            if path in first and not await begin.begin(path, program, first[path]):
                warn(f"ucl_serve: another program has begun {path} meanwhile, which is served")
            keys = await stack.enter_async_context(keys_held(path))
            record = await Record.open(path, program, is_durable=True)
            stack.push_async_callback(record.close)
            # A phone that asks what became of a tap needs to know the events that stand.
            await record.ready()
            opened.append((record, keys))
        _check_groups(options, [record.moment.title.group for record, _ in opened])
        for record, keys in opened:
            groups.append(await _group(options, record, keys, server.screens))
        await _listen(server, options)
        stack.push_async_callback(server.close)
        tell(options, groups)
        await asyncio.wait([group.record.over for group in groups])
    return 1


def _server(options: Options, groups: Sequence[Shown]) -> Server:
    most = min(options.most_screens, files_for_screens())
    return Server(groups, options.title, most, names_of(options), options.at)


async def _group(options: Options, record: Record, keys: Keys, screens: Screens) -> Group:
    """The group of a record, with the links that the command line wants."""
    evening = options.evening(record.moment.title.group)
    numbers = [*evening.reporters]
    known = await keys.of(numbers, evening.revoked, all_new=options.new_keys)
    group = Group(record, known, evening.reporters, screens, evening.tonight, options.at)
    keys.follow(group.rekey)
    return group


async def mirror(options: Options) -> int:
    """Serves what other servers show, until a signal."""
    groups = list[Shown]()
    server = _server(options, groups)
    shown = Mirror(server, groups, program_named("ucl_follow"))
    async with contextlib.AsyncExitStack() as stack:
        stack.push_async_callback(shown.close)
        await _listen(server, options)
        stack.push_async_callback(server.close)
        for url in urls_of(options):
            print(f"Screens: {url}", flush=True)
        await asyncio.gather(*(follow(it, shown.take) for it in options.follow))
        # Standard input has ended: what came stays, and is called old.
        await asyncio.Event().wait()
    return 0


def _check_groups(options: Options, groups: Sequence[str]) -> None:
    """Raises BadArgument where the records of these groups are not those that are meant."""
    twice = [group for group in groups if groups.count(group) > 1]
    strangers = options.strangers(groups)
    if twice:
        raise BadArgument(f"two records are of group {twice[0]}")
    if strangers:
        raise BadArgument(f"no record is of group {strangers[0]}")


async def _listen(server: Server, options: Options) -> None:
    context, (host, port) = None, options.listen
    if options.certificate is not None:
        context = ssl.SSLContext(ssl.PROTOCOL_TLS_SERVER)
        context.load_cert_chain(options.certificate, options.key)
    try:
        await server.start(host, port, context)
    except UnicodeError as error:
        raise Over(f"{host} is no name of a host") from error
    except OSError as error:
        is_taken = error.errno == errno.EADDRINUSE
        why = "another program listens there" if is_taken else str(error.strerror)
        raise Over(f"{host}:{port}: {why}") from error


def files_for_screens() -> int:
    """How many screens the limit of open files allows, which is raised as far as it may be."""
    soft, hard = resource.getrlimit(resource.RLIMIT_NOFILE)
    with contextlib.suppress(OSError, ValueError):
        # A service may not raise it, and has its own.
        resource.setrlimit(resource.RLIMIT_NOFILE, (hard, hard))
        soft = hard
    return max(1, (1 << 20 if soft == resource.RLIM_INFINITY else soft) - OTHER_FILES)


def main() -> None:
    """The command."""
    options = options_of(sys.argv[1:])
    with ending("ucl_serve"):
        if options.follow:
            sys.exit(asyncio.run(until_ended(mirror(options))))
        if not options.links:
            program_named("ucl_live")  # before anything is asked
            sys.exit(asyncio.run(until_ended(serve(options, first_rows(options)))))
        named = list[tuple[str, str]]()
        for path in options.records:
            named += [(f"{path}, reporter {it}", key) for it, key in keys_of(path).items()]
        tell_links(options, named)
