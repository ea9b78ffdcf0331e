"""`./build` and `./start`, over a small repository and a script in the place of `rt`."""

import os
import shutil
from concurrent.futures import ThreadPoolExecutor

import pytest
from conftest import EXAMPLES, TOP, command, text_of

pytestmark = pytest.mark.quick


class Repository:
    """A program and a library below it; what they are proved with is a script."""

    def __init__(self, path, rt):
        self.path = path
        self.change("crates/one/src/main.rt", "")
        self.change("crates/low/src/lib.rt", "")
        self.change("crates.txt", "low:\none: low\nother: low\n")
        self.change("HANDLES", "")
        self.change("rt", f"#!/bin/sh\n{rt}")
        (path / "rt").chmod(0o755)
        for name in "build", "start":
            shutil.copy(TOP / name, path)

    def change(self, name, text):
        """Writes a file."""
        (self.path / name).parent.mkdir(parents=True, exist_ok=True)
        (self.path / name).write_text(text)

    def run(self, name, *words):
        """Runs a script of it."""
        own = {**os.environ, "PATH": f"{self.path}:{os.environ['PATH']}"}
        return command([self.path / name, *words], "input\n", cwd="/", env=own)


STATUS_3 = "checked: ended status=3\nraces: not looked for\nrun=ended status=3 runners=1 races=unchecked proved=no\n"


@pytest.mark.parametrize(
    "told, status, output, errors",
    [
        (STATUS_3, 3, "input\n", ["without its proofs", "input refused", "before it is proved"]),
        ("run=hang runners=1 races=unchecked proved=no\n", 6, "", ["no answer"]),
        ("the crate is refused\n", 3, "", ["no answer"]),
    ],
    ids=["an answer", "a run that hangs", "a crate that is refused"],
)
def test_start_of_what_is_not_built(tmp_path, told, status, output, errors):
    """It runs without its proofs: all is its own, but a line before and a line after. If `rt try` gives no answer, nothing is passed off as one."""
    rt = f"cat\nprintf '%s' 'input refused\n{told}' >&2\nexit {status}\n"
    ran = Repository(tmp_path, rt).run("start", "one", "word")
    assert (ran.status, ran.output) == (3 if output else 1, output)
    lines = ran.errors.splitlines() if output else [ran.errors]
    assert len(lines) == len(errors) and all(map(str.__contains__, lines, errors))


# Proves what a file allows, tells with what, and builds a program.
PROVES = """[ "$1" = ci ] || exit 9
(ls crates && cat crates.txt) | paste -sd ' ' >>%s/runs
[ ! -e crates/low/fails ] || { echo 'rt: low NOT PROVED' && exit 1; }
mkdir crates/one/out && echo 'echo built' >crates/one/out/one && chmod +x crates/one/out/one
"""


def test_proves_what_has_changed(tmp_path):
    """On a copy of the crates that are needed, and no more; a link starts what was built, and a proof that fails builds nothing."""
    small = Repository(tmp_path, PROVES % tmp_path)
    unbuilt = lambda: small.run("build", "--built", "one")[:2]
    assert small.run("build", "--below", "one") == (0, "low\none\n", "")
    assert small.run("build", "two").status == 2
    first = small.run("build", "one")
    assert first.status == 0 and "one: proved and built" in first.errors
    assert small.run("build", "one") == (0, "", "")
    for link, to in ("one", "start"), ("apart/one", "../one"):
        (tmp_path / link).parent.mkdir(exist_ok=True)
        (tmp_path / link).symlink_to(to)
        assert command([tmp_path / link]) == (0, "built\n", "")
    sources = [f"crates/low/{it}" for it in ("src/lib.rt", "specs/Low.antt", "proofs/Low.antt")]
    for name in *sources, "HANDLES":
        small.change(name, "changed")
        assert unbuilt() == (1, "one\n"), name
        assert small.run("build", "one").status == 0 and unbuilt() == (0, "")
    small.change("crates/low/fails", "")
    small.change("crates/one/src/main.rt", "changed")
    failed = small.run("build", "one")
    assert failed.status == 1 and "low NOT PROVED" in failed.errors and unbuilt()[0] == 1
    assert text_of(tmp_path / "runs") == "low one low: one: low\n" * 6


def test_two_builds_at_once(tmp_path):
    """The second waits for the first, and then has nothing to prove."""
    small = Repository(tmp_path, f"sleep 0.5\n{PROVES % tmp_path}")
    with ThreadPoolExecutor() as pool:
        builds = [pool.submit(small.run, "build", "one") for _ in range(2)]
    assert [it.result().status for it in builds] == [0, 0]
    assert text_of(tmp_path / "runs") == "low one low: one: low\n"


def test_start_of_what_is_built(program, place):
    """It starts at once, with nothing more on standard error."""
    program("ucl_night")
    script, output = (text_of(EXAMPLES / f"two_matches.{it}") for it in ("csv", "expected"))
    assert command(["./ucl_night", "feed"], script, cwd=place) == (0, output, "")
