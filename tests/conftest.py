"""What all tests have: options, programs of the repository by fixtures, a limit on each wait.

`pytest-3 tests` tries all that is built; `pytest-3 tests --help` has the options of "programs of
this repository", which come after `tests`; `-k WORD` and `-m quick` choose. Text is str, where a
byte that is no UTF-8 stands as Python's surrogate escape. What tests drive is in `drivers`.
"""

import contextlib
import os
import pathlib
import shutil as shutil
import signal
import sys
import time
from collections.abc import Callable, Iterator
from typing import Any

import hypothesis
import pytest
from drivers.browser import browser_of
from drivers.case import Case as Case
from drivers.case import Has as Has
from drivers.case import Unproved, differs
from drivers.case import tabled as tabled
from drivers.loop import loop as loop
from drivers.loop import pytest_pyfunc_call as pytest_pyfunc_call
from drivers.nodes import Nodes
from drivers.port import free_port as free_port
from drivers.port import is_reached as is_reached
from drivers.program import Run, Started, built, command
from drivers.program import lines_of as lines_of
from drivers.program import needs as needs
from drivers.server import Server
from drivers.text import EXAMPLES, TOP
from drivers.text import decoded as decoded
from drivers.text import encoded as encoded
from drivers.text import lines_to_type as lines_to_type
from drivers.text import text_of as text_of

# The package of what people touch, and the seasons.
sys.path[:0] = [str(TOP), str(EXAMPLES / "seasons")]
# How long a test may take, in seconds, where it does not say `limit`; all take a few with nothing
# beside, and most of them milliseconds.
LIMIT = 120
OPTIONS: dict[str, dict[str, Any]] = {
    "--programs": {
        "metavar": "FOLDER",
        "type": lambda it: pathlib.Path(it).resolve(),
        "default": TOP,
        "help": "try what is built in another checkout",
    },
    "--unproved": {
        "action": "store_true",
        "help": "where a program is not built, try cases of words and input on the code as it is",
    },
    "--picture": {
        "metavar": "FILE",
        "help": "write a picture of the page of an evening, as PNG",
    },
    "--seed": {
        "type": int,
        "default": None,
        "help": "the seed of kills and hostile messages; each test that has one prints it",
    },
    "--kills": {
        "type": int,
        "default": 100,
        "help": "how often a test kills what it kills: 100, and thousands at night",
    },
    "--groups": {
        "type": int,
        "default": 20_000,
        "help": "how many random groups are ordered: 20,000, and 200,000 at night",
    },
    "--must-run": {
        "action": "store_true",
        "help": "a test whose program is not built fails, and is not skipped",
    },
}
MARKERS = [
    "quick: needs words and input alone, or no program that is built; ./test --quick runs it",
    "xdist_group(name): has one worker run all tests of this name, where pytest-xdist is there",
    "limit(seconds): how long the test may take; more at night, and with more kills or groups",
]

GATE = {"deadline": None, "database": None, "print_blob": True}
hypothesis.settings.register_profile("gate", max_examples=100, **GATE)
hypothesis.settings.register_profile("night", max_examples=5_000, **GATE)
hypothesis.settings.load_profile("gate")


def pytest_addoption(parser: pytest.Parser) -> None:
    group = parser.getgroup("programs of this repository")
    for name, how in OPTIONS.items():
        group.addoption(name, **how)


def pytest_configure(config: pytest.Config) -> None:
    # Who starts the tests in the background has them ignore Ctrl-C and SIGHUP, and what they start
    # too: some tests end a program by these.
    signal.signal(signal.SIGINT, signal.default_int_handler)
    signal.signal(signal.SIGHUP, signal.SIG_DFL)
    for marker in MARKERS:
        config.addinivalue_line("markers", marker)


def limit_of(test: pytest.Item) -> int:
    """How long a test may take, in seconds, with nothing asked for beyond what the gate tries."""
    marker = test.get_closest_marker("limit")
    return int(marker.args[0]) if marker else LIMIT


def case_of(test: pytest.Item) -> Case | None:
    """The case of a table that a test tries."""
    case = getattr(test, "callspec").params.get("case") if hasattr(test, "callspec") else None
    return case if isinstance(case, Case) else None


@pytest.hookimpl(tryfirst=True)
def pytest_collection_modifyitems(config: pytest.Config, items: list[pytest.Item]) -> None:
    """Tests that may take long begin first, so that none is left to run alone at the end. Cases
    that are tried without proofs are tried by one worker, which has each program built once."""
    items.sort(key=limit_of, reverse=True)
    if config.getoption("unproved"):
        folder = config.getoption("programs")
        for item in items:
            if (case := case_of(item)) and built(case.program, folder) is None:
                item.add_marker(pytest.mark.xdist_group("unproved"))
        items.sort(key=lambda item: item.get_closest_marker("xdist_group") is None)


@pytest.fixture(autouse=True)
def limited(request: pytest.FixtureRequest) -> Iterator[None]:
    """No test waits for ever."""
    asked = request.config.getoption
    examples = hypothesis.settings.default.max_examples // 100
    times = max(1, examples, asked("kills") // 100, asked("groups") // 20_000)
    seconds = limit_of(request.node) * times
    signal.signal(signal.SIGALRM, lambda *_: pytest.fail(f"waited for {seconds} seconds"))
    signal.setitimer(signal.ITIMER_REAL, seconds, seconds)
    yield
    signal.setitimer(signal.ITIMER_REAL, 0)


def pytest_assertrepr_compare(op: str, left: object, right: object) -> list[str] | None:
    """Of a run that is not as wanted the first line that differs of each part."""
    is_so = op == "==" and isinstance(left, Run) and isinstance(right, tuple)
    return differs(left, right) if is_so else None  # type: ignore[arg-type]


# ---- programs


@pytest.fixture(scope="session")
def place(pytestconfig: pytest.Config) -> Any:
    """The folder where the programs are: the repository, or another checkout."""
    return pytestconfig.getoption("programs")


@pytest.fixture(scope="session")
def program(pytestconfig: pytest.Config, place: pathlib.Path) -> Callable[[str], pathlib.Path]:
    """A function from the name of a program to its path; it skips the test where the program is
    not built."""

    def path_of(name: str) -> pathlib.Path:
        path = built(name, place)
        if path is None:
            ends = pytest.fail if pytestconfig.getoption("must_run") else pytest.skip
            ends(f"not built: {name}; './build {name}' proves and builds it")
        return path

    return path_of


@pytest.fixture(scope="session")
def seed(pytestconfig: pytest.Config) -> int:
    """The seed of what is random, another one in each run."""
    asked = pytestconfig.getoption("seed")
    return int(time.time()) if asked is None else asked


@pytest.fixture(scope="session")
def kills(pytestconfig: pytest.Config) -> Any:
    """How often a test kills what it kills."""
    return pytestconfig.getoption("kills")


@pytest.fixture(scope="session")
def live(program: Callable[[str], pathlib.Path]) -> str:
    """The path of `ucl_live`, or of what the environment names in its place, as
    tests/stand_in_live.py."""
    return os.environ.get("UCL_LIVE") or str(program("ucl_live"))


@pytest.fixture(scope="session")
def follow(program: Callable[[str], pathlib.Path]) -> str:
    """The path of `ucl_follow`, or of what the environment names in its place, as
    tests/stand_in_follow.py."""
    return os.environ.get("UCL_FOLLOW") or str(program("ucl_follow"))


@pytest.fixture(scope="session")
def run(
    pytestconfig: pytest.Config,
    place: pathlib.Path,
    program: Callable[[str], pathlib.Path],
    unproved: Unproved,
) -> Callable[..., Run]:
    """A function that runs a program to its end, by its name, words and input."""

    def ran(name: str, *words: str, input: str = "", **how: Any) -> Run:
        if pytestconfig.getoption("unproved") and built(name, place) is None and not how:
            return unproved.run(Case(name, words, input))
        return command([program(name), *words], input, **how)

    return ran


@pytest.fixture(scope="session")
def unproved(request: pytest.FixtureRequest) -> Unproved:
    """Runs by `rt try` of what is in the tables of tests."""
    return Unproved([case for item in request.session.items if (case := case_of(item))])


@pytest.fixture
def start(
    program: Callable[[str], pathlib.Path], tmp_path: pathlib.Path
) -> Iterator[Callable[..., Started]]:
    """A function that starts a program of the repository, or a command that has a slash, in the
    test's folder; at the test's end all are killed."""
    with contextlib.ExitStack() as started:

        def begun(name: str, *words: str, **how: Any) -> Started:
            path = name if "/" in name else program(name)
            return started.enter_context(Started([path, *words], **{"cwd": tmp_path, **how}))

        yield begun


@pytest.fixture
def hall(tmp_path: pathlib.Path, live: str) -> Iterator[Callable[..., Server]]:
    """A function that starts a server in the test's folder."""
    pytest.importorskip("aiohttp", reason="not installed: python3-aiohttp")
    servers: list[Server] = []

    def started(*words: str, **how: Any) -> Server:
        servers.append(Server(tmp_path, live, *words, **how))
        return servers[-1]

    yield started
    for one in servers:
        one.kill()


@pytest.fixture(scope="session")
def nodes() -> Iterator[Nodes]:
    """Three nodes of etcd, which are there again where a test has ended one."""
    with Nodes() as three:
        yield three


@pytest.fixture(scope="module")
def browsers(tmp_path_factory: pytest.TempPathFactory) -> Iterator[Callable[[str], Any]]:
    """A function that gives a browser by a name, which stays for all tests of a file."""
    begun: dict[str, Any] = {}

    def named(name: str) -> Any:
        if name not in begun:
            begun[name] = browser_of(tmp_path_factory.mktemp(name))
        return begun[name]

    yield named
    for one in begun.values():
        one.quit()


@pytest.fixture(scope="module")
def browser(browsers: Callable[[str], Any]) -> Any:
    """A browser, which is one for all tests of a file."""
    return browsers("browser")
