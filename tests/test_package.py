"""`./build package`: what is in the packages, and that they are installed, work and are taken away, in roots where nothing else is.

The roots are made by mmdebstrap, so these tests need root and a mirror of Debian. No root runs systemd: its units are looked at, and what they start is run.
"""

import contextlib
import hashlib
import json
import os
import pathlib
import re
import shlex
import shutil
import tempfile

import conftest
import model
import pytest
from conftest import EXAMPLES, TOP, command, needs, text_of
from test_serve import Socket, free_port

PROGRAMS = "ucl_live ucl_follow ucl_night".split()
PACKAGES = "ucl-board ucl-board-hall libuclboard1 libuclboard-dev python3-uclboard".split()
DOC = "/usr/share/doc/ucl-board/examples"
LIBRARIES = "usr/lib/x86_64-linux-gnu"
ONE_GOAL = tuple(text_of(EXAMPLES / f"one_goal.{ending}") for ending in ("csv", "expected"))
# What the packages and these tests recommend.
RECOMMENDED = "python3,python3-aiohttp,python3-prompt-toolkit,man-db,bash-completion,zsh,gcc,libc6-dev,pkg-config"

# One worker makes the packages and the roots, and has all these tests.
pytestmark = [pytest.mark.limit(600), pytest.mark.xdist_group("package")]


def packed(top, folder):
    """Has the repository that stands there write its packages into a folder."""
    run = command([top / "packaging/package", folder])
    assert (run.status, run.output) == (0, ""), run.errors
    return folder


@pytest.fixture(scope="session")
def dist(program, place, pytestconfig, tmp_path_factory):
    """The folder of the packages."""
    needs("dpkg-deb", "git", "help2man", "objcopy", "pandoc", "readelf")
    for name in PROGRAMS:
        program(name)
    is_built = place == TOP and command([TOP / "build", "--built", "ucl_c"]).status == 0
    if not is_built or not (TOP / "library/libuclboard.so.1").exists():
        (pytest.fail if pytestconfig.getoption("must_run") else pytest.skip)(
            "not built here: the library; './build library' proves and builds it"
        )
    return packed(TOP, tmp_path_factory.mktemp("dist") / "dist")


@pytest.fixture(scope="session")
def tree(dist, tmp_path_factory):
    """A folder in which all packages are unpacked."""
    folder = tmp_path_factory.mktemp("tree")
    for path in dist.glob("*.deb"):
        assert command(["dpkg-deb", "-x", path, folder]).status == 0
    return folder


# ---- what is in them

# Copies the repository to another folder, and last what is built, which is then the newest there.
ELSEWHERE = """git clone -q --shared . "$0" &&
{ git ls-files && ls -d library crates/{ucl_live,ucl_follow,ucl_night}/out/ucl_*; } | tar -cT - | tar -xm -C "$0"
"""


def test_two_folders_give_the_same_bytes(dist, tmp_path):
    """The same programs, sources and commit in another folder; SHA256SUMS has the sums of all files."""
    other = tmp_path / "a folder of another name"
    assert command(["bash", "-c", ELSEWHERE, other]) == (0, "", "")
    again = packed(other, tmp_path / "elsewhere")
    sums = text_of(dist / "SHA256SUMS")
    assert text_of(again / "SHA256SUMS") == sums
    checked = command(["sha256sum", "-c", "--quiet", "--strict", "SHA256SUMS"], cwd=dist)
    assert checked == (0, "", "")
    named = {line.split()[1] for line in sums.splitlines()}
    assert {path.name for path in dist.iterdir()} == named | {"SHA256SUMS"}


def test_what_was_proved_is_told(dist, tree):
    """Sums of what is installed, the logic, the commit, and the sum of a crate's sources by the line that the file has for it."""
    told = text_of(dist / "PROVED")
    commands = {f"usr/bin/{name}": name for name in PROGRAMS}
    commands |= dict.fromkeys([f"{LIBRARIES}/libuclboard{it}" for it in (".so.1", ".a")], "library")
    for path, name in commands.items():
        number = hashlib.sha256((tree / path).read_bytes()).hexdigest()
        assert f"{number}  {path.split('/')[-1]}\n    ./build {name}\n" in told
    (line,) = re.findall(r"^    (git ls-files .*)$", told, re.M)
    crates = dict(re.findall(r"^([0-9a-f]{64})  (ucl_\w+)$", told.split("Crates by")[1], re.M))
    assert {"ucl_word", "ucl_c", *PROGRAMS} <= {*crates.values()}
    for number, name in crates.items():
        ran = command(["bash", "-c", line], cwd=TOP / "crates" / name)
        assert ran.output.split()[0] == number
    version = command([tree / "usr/bin/ucl_live", "--version"]).output
    assert f"logic     {re.search(r'logic ([0-9a-f]{16})', version)[1]}\n" in told
    assert f"commit    {command(['git', 'rev-parse', 'HEAD']).output.strip()} of" in told
    for trusted in "The prover: ", "Compiler, linker, processor, ", "checks/looks: ":
        assert f"\n- {trusted}" in told


def test_lintian_finds_nothing(dist):
    needs("lintian")
    words = ["lintian", "--allow-root", "--fail-on", "error,warning"]
    assert command([*words, *sorted(dist.glob("*.deb"))]) == (0, "", "")


# The protections of systemd that the service does without: it is asked by the network, and starts programs.
UNPROTECTED = {
    *("RootDirectory=/RootImage=", "PrivateNetwork=", "IPAddressDeny=", "DeviceAllow="),
    *("RestrictAddressFamilies=~AF_UNIX", "RestrictAddressFamilies=~AF_(INET|INET6)"),
}


def test_units(tree, tmp_path):
    """What systemd says of the one there is by its own units, beside which it stands; that it has all protections but some, starts a server that ended again, however often, and lets nobody else read its folder."""
    needs("systemd-analyze")
    units = [*tree.glob("usr/lib/systemd/system/ucl-*")]
    for line in "Restart=always", "StartLimitIntervalSec=0", "StateDirectoryMode=0750":
        assert [f"\n{line}\n" in text_of(path) for path in units] == [True], line
    root = shutil.copytree(tree, tmp_path / "root", symlinks=True)
    beside = "usr/lib/systemd/system"
    shutil.copytree(f"/{beside}", root / beside, symlinks=True, dirs_exist_ok=True)
    words = [f"--root={root}", "ucl-serve.service"]
    assert command(["systemd-analyze", "verify", "--man=no", *words]) == (0, "", "")
    run = command(["systemd-analyze", "security", "--offline=true", "--json=short", *words])
    lacking = {it["name"] for it in json.loads(run.output) if it["set"] is False}
    assert run.status == 0 and lacking <= UNPROTECTED


def test_archive(dist, tmp_path):
    """It is installed under a prefix, from where a program runs and another is compiled, and is taken away by its list."""
    needs("cc", "pkg-config")
    (archive,) = dist.glob("*.tar.gz")
    assert command(["tar", "-xf", archive, "-C", tmp_path]).status == 0
    prefix, script = tmp_path / "a prefix", tmp_path / archive.stem[:-4] / "install.sh"
    own = {**os.environ, "PKG_CONFIG_PATH": "lib/pkgconfig", "LD_LIBRARY_PATH": "lib"}

    def typed(line, text=""):
        return command(["bash", "-c", line, EXAMPLES / "c/feed.c"], text, cwd=prefix, env=own)

    assert command([script, "--prefix", prefix]) == (0, "", "")
    assert typed("bin/ucl_night feed", ONE_GOAL[0]) == (0, ONE_GOAL[1], "")
    assert typed('cc "$0" -o ../feed $(pkg-config --cflags --libs uclboard)') == (0, "", "")
    assert typed("../feed", ONE_GOAL[0]) == (0, ONE_GOAL[1], "")
    assert typed("PYTHONPATH=share/ucl-board/python python3 -Bc 'import uclboard'") == (0, "", "")
    completed = ". share/bash-completion/completions/ucl_live; _ucl bin/ucl_live '' --format"
    assert typed(f"{completed}; echo ${{COMPREPLY[@]}}").output == "text json\n"
    assert typed("tr '\\n' '\\0' <share/ucl-board/installed | xargs -0 rm").status == 0
    assert [path for path in prefix.rglob("*") if not path.is_dir()] == []


# ---- roots

SPACES = "--mount --pid --fork --kill-child --mount-proc".split()
OWN = "env -i PATH=/usr/local/bin:/usr/sbin:/usr/bin:/sbin:/bin HOME=/ LC_ALL=C.UTF-8 TERM=dumb"
# What dpkg and the linker keep of what was.
KEPT = r"\./(proc|tmp|packages)(/|$)|\./var/(lib/dpkg/[\w-]+-old|log/.*|cache/ldconfig/.*)$|\./etc/.*-$"


class Root:
    """A root of Debian."""

    def __init__(self, path):
        self.path = path

    def words(self, line):
        """A command that runs a line in the root, with processes of its own."""
        return ["unshare", *SPACES, f"--root={self.path}", *OWN.split(), "bash", "-c", line]

    def run(self, line, input=""):
        return command(self.words(line), input, cwd="/")

    def needs(self, line):
        """Runs a line that has to end well."""
        run = self.run(line)
        assert run.status == 0, (line, run)
        return run.output

    def files(self):
        """All that is there, but for what is kept of what was."""
        found = command(["find", ".", "-xdev"], cwd=self.path).output.splitlines()
        return {name for name in found if not re.match(KEPT, name)}

    def install(self, dist, *names):
        (self.path / "packages").mkdir(exist_ok=True)
        for name in names:
            shutil.copy(*dist.glob(f"{name}_*.deb"), self.path / f"packages/{name}.deb")
        self.needs("dpkg -i " + " ".join(f"/packages/{name}.deb" for name in names))


@pytest.fixture(scope="session")
def roots(dist):
    """A bare root and a full one, which are made at the same time."""
    needs("mmdebstrap", "unshare")
    if os.geteuid() != 0:
        pytest.skip("not root, so no root is made")
    made = "mmdebstrap --quiet --variant=minbase bookworm"
    line = f"{made} bare & {made} full --include={RECOMMENDED} && wait $!"
    with tempfile.TemporaryDirectory(prefix="roots-") as folder:
        run = command(["bash", "-c", line], cwd=folder)
        if run.status != 0:
            pytest.skip(f"no root could be made: {run.errors[-600:]}")
        yield [Root(pathlib.Path(folder) / name) for name in ("bare", "full")]


def test_where_nothing_is(roots, dist, place):
    """Installed, an evening, a follower, a program in C that was compiled before; removed and purged with nothing left."""
    needs("cc")
    root = roots[0]
    feed = ["-o", root.path / "usr/local/bin/feed"]
    compiled = command(
        ["cc", EXAMPLES / "c/feed.c", *"-Ilibrary -Llibrary -luclboard".split(), *feed]
    )
    assert compiled == (0, "", "")
    before = root.files()
    root.install(dist, "ucl-board", "libuclboard1")
    rows = f"(cat {DOC}/two_matches.csv; echo screen,,,)"
    evening = f"{rows} | ucl_live --format json | ucl_follow 2>/dev/null | tail -n 6"
    assert root.needs(evening) == text_of(EXAMPLES / "two_matches_sheet.expected")
    assert root.run("feed", ONE_GOAL[0]) == (0, ONE_GOAL[1], "")
    root.needs("dpkg -r ucl-board libuclboard1")
    assert root.run("command -v ucl_live").status == 1
    root.needs("dpkg -P ucl-board libuclboard1")
    assert root.files() == before


# A record of a service that goes on, with a screen that was asked for in it.
OLD_ROWS = (
    f"group,A,uefa,0\n{model.CLUBS}screen,,,\n1,1,0,kickoff\n1,1,1,goal-home\n1,1,2,yellow-away\n"
)
ARGUMENTS = "ARGUMENTS=--listen 127.0.0.1:8123 a.csv c.csv --clubs /etc/ucl-board/a.csv --group A --clubs /etc/ucl-board/c.csv --group C\n"


@pytest.fixture(scope="session")
def full(roots, dist):
    """A root with a compiler, Python and the manual, in which all packages are installed, over themselves once."""
    root = roots[1]
    root.install(dist, *PACKAGES)
    root.needs("mkdir -p /var/lib/ucl-board")
    for group in "ac":
        (root.path / f"etc/ucl-board/{group}.csv").write_text(model.CLUBS)
    (root.path / "etc/ucl-board/serve").write_text(ARGUMENTS)
    (root.path / "var/lib/ucl-board/a.csv").write_text(OLD_ROWS)
    root.install(dist, *PACKAGES)
    return root


def test_examples_where_they_are_installed(full):
    """Python, and C by the developers' package: over the shared library and over the archive."""
    night = f"python3 /usr/share/doc/python3-uclboard/examples/night.py A <{DOC}/first_night.csv"
    assert full.needs(night) == text_of(EXAMPLES / "first_night.expected")
    for library in "$(pkg-config --cflags --libs uclboard)", f"/{LIBRARIES}/libuclboard.a":
        full.needs(f"cc /usr/share/doc/libuclboard-dev/examples/feed.c {library} -o /feed")
        assert full.run("/feed", ONE_GOAL[0]) == (0, ONE_GOAL[1], "")


def test_manual(full):
    """Each page is there, is found by its name, has what the help has, and is laid out without a warning but of long lines of JSON."""
    of = "ucl-board ucl-board-hall libuclboard-dev"
    pages = full.needs(f"dpkg -L {of} | grep '/man[135]/.'").split()
    names = "ucl_reporter ucl_serve ucl_night-feed ucl_night-show ucl_night-night".split()
    wanted = {f"{name}.1.gz" for name in [*PROGRAMS, *names]} | {"ucl_rows.5.gz", "uclboard.3.gz"}
    assert {pathlib.Path(page).name for page in pages} == wanted
    for page in pages:
        run = full.run(f"man --warnings {page} >/dev/null")
        assert (run.status, re.sub(r".*can.t break line\n", "", run.errors)) == (0, ""), page
    for name in PROGRAMS:
        shown, help = full.needs(f"MANWIDTH=200 man {name}"), full.needs(f"{name} --help")
        words = {*re.findall(r"--[a-z]+|\b[A-Z]{4,}\b", help)}
        lines = [" ".join(line.split()) for line in re.findall(r"^  \d .*", help, re.M)]
        assert words <= {*re.findall(r"--[a-z]+|\b[A-Z]{4,}\b", shown)}
        assert [line for line in lines if line not in " ".join(shown.split())] == []
    assert "uclboard_pass_report" in full.needs("man uclboard")
    assert "second-yellow-home" in full.needs("man 5 ucl_rows")


# What is typed, and what then stands on the line.
TYPED = [
    ("ucl_live --fo\\t", "--format "),
    ("j\\t", "json"),
    ("\\025ucl_night sh\\t", "show "),
    ("--or\\t", "--order "),
    ("aw\\t", "away-in-tie"),
]
BEGIN = {
    "bash --norc --noprofile": ". /usr/share/bash-completion/bash_completion",
    "zsh -f": "autoload -U compinit; compinit -u",
}


@pytest.mark.parametrize("shell", BEGIN)
def test_completion(full, tmp_path, shell):
    """Words that a program's help names, as they are typed at a terminal."""
    needs("expect")
    words = " ".join("{" + str(word) + "}" for word in full.words(f"exec {shell} -i"))
    lines = ["set timeout 20", f"spawn -noecho {words}"]
    for sent, wanted in [(f"{BEGIN[shell]}; echo re''ady\\n", "ready"), *TYPED]:
        not_seen = f'default {{ puts "\\nnot seen: {wanted}"; exit 1 }}'
        lines += [f'send -- "{sent}"', f'expect -ex "{wanted}" {{}} {not_seen}']
    (tmp_path / "dialogue").write_text("\n".join(lines) + "\n")
    run = command(["expect", "-f", tmp_path / "dialogue"], cwd="/")
    assert run.status == 0, run.output


# Starts a command that may make these system calls and no other.
FILTERED = """import ctypes, os, sys
of = ctypes.CDLL("libseccomp.so.2")
of.seccomp_init.restype = ctypes.c_void_p
calls = ctypes.c_void_p(of.seccomp_init(0x50001))
for name in sys.argv[1].split(","):
    of.seccomp_rule_add(calls, 0x7FFF0000, of.seccomp_syscall_resolve_name(name.encode()), 0)
assert of.seccomp_load(calls) == 0
os.execv(sys.argv[2], sys.argv[2:])
"""


def calls_of(unit):
    """The system calls that a unit allows."""
    told = command(["systemd-analyze", "syscall-filter"]).output
    sets = dict(re.findall(r"^(@\S+)\n((?:    .+\n)+)", told, re.M))

    def found(names):
        parts = {it: re.findall(r"^    ([\w@-]+)$", sets.get(it, ""), re.M) for it in names}
        return {call for it in names for call in (found(parts[it]) if it in sets else [it])}

    allowed = found(["@default"])
    for is_refused, names in re.findall(r"^SystemCallFilter=(~?)(.*)$", unit, re.M):
        them = found(names.split())
        allowed = allowed - them if is_refused else allowed | them
    return allowed


def test_service(full):
    """What the unit starts, with the system calls that it allows and the arguments and the record that an upgrade left as they were, goes on with the table
    of before: rows come in by a link and by a terminal, a second one ends at the lock, and a killed one goes on.
    """
    needs("systemd-analyze")
    record, arguments = full.path / "var/lib/ucl-board/a.csv", full.path / "etc/ucl-board/serve"
    assert (text_of(arguments), text_of(record)) == (ARGUMENTS, OLD_ROWS)
    unit = text_of(full.path / "usr/lib/systemd/system/ucl-serve.service").replace("%S", "/var/lib")
    folder, started = (
        re.search(f"^{name}=(.*)$", unit, re.M)[1] for name in ("WorkingDirectory", "ExecStart")
    )
    port = free_port()
    words = ARGUMENTS.removeprefix("ARGUMENTS=").strip().replace("8123", str(port))
    filtered = shlex.join(["python3", "-c", FILTERED, ",".join(calls_of(unit))])
    server = f"cd {folder} && exec {filtered} {started.replace('$ARGUMENTS', words)}"
    matches = model.fresh()
    for word in "kickoff", "goal-home", "yellow-away":
        matches[0].enter(1, word)
    with contextlib.ExitStack() as running:

        def begin():
            """Starts the server, and waits until it listens."""
            process = running.enter_context(conftest.Started(full.words(server)))
            assert process.lines(1) == f"Screens: http://127.0.0.1:{port}/\n"
            return process

        first, screen = begin(), Socket(port, "/lines")
        assert screen.until("screen", group="A")["words"] == [match.word() for match in matches]
        key = full.needs(f"cd {folder} && ucl_serve --links a.csv").split("/")[-1].strip()
        phone = Socket(port, f"/report/{key}/taps")
        assert phone.until("recent") and phone.answer(1, 3, "goal-away") == "entered"
        second = full.run(server)
        assert second.status == 1 and "a.csv is served already" in second.errors
        first.kill()
        first.wait()
        begin()
        run = full.run("ucl_reporter /var/lib/ucl-board/a.csv --number 2", "1 fulltime\n")
        assert (run.status, run.output.count(" entered")) == (0, 1), run
        assert text_of(record).endswith("1,1,3,goal-away\n2,1,4,fulltime\n")
    full.needs("dpkg -P ucl-board-hall ucl-board python3-uclboard libuclboard-dev libuclboard1")
    assert not record.parent.exists() and not arguments.parent.exists()
