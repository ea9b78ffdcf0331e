"""A case of a table: a run of a program by its words and its input, and what is wanted of it."""

import concurrent.futures
import itertools
import pathlib
import re
import signal
import tempfile
from collections.abc import Callable, Iterable, Mapping
from typing import Any, NamedTuple

import pytest

from drivers.program import Run, command
from drivers.text import TOP, encoded

# How long all cases of all programs may take to be tried without proofs, in seconds.
LONGEST = 1_080


class Case(NamedTuple):
    """A run of a program by its words and its input. What is wanted of the run stands beside it in
    a table."""

    program: str
    words: tuple[str, ...]
    input: str


class Has:
    """Any text that has these parts, the first of them at its start."""

    def __init__(self, first: str, *parts: str) -> None:
        self.first, self.parts = first, parts

    def __eq__(self, text: object) -> bool:
        is_begun = isinstance(text, str) and text.startswith(self.first)
        return is_begun and all(part in str(text) for part in self.parts)

    def __repr__(self) -> str:
        return f"a text that begins with {self.first!r} and has all of {self.parts!r}"


def differs(got: Run, wanted: tuple[object, ...]) -> list[str]:
    """Of a run that is not as wanted the first line that differs of each part."""
    told = ["the run is not as wanted"]
    for part, one, other in zip(Run._fields, got, wanted):
        if one != other and isinstance(one, str) and isinstance(other, str):
            lines = enumerate(
                itertools.zip_longest(one.splitlines(True), other.splitlines(True)), 1
            )
            number, pair = next((at, it) for at, it in lines if it[0] != it[1])
            told.append(
                f"line {number} of the {part}: {pair[0]!r:.2000}, and wanted is {pair[1]!r:.2000}"
            )
        elif one != other:
            told.append(f"{part}: {one!r:.2000}, and wanted is {other!r:.2000}")
    return told


def tabled(rows: Mapping[str, tuple[Any, ...]]) -> Any:
    """A test of a table: by the name of each case the command line, the input, and what is wanted:
    the output, the status, the errors."""
    pairs = []
    for row in rows.values():
        given: tuple[Any, ...] = row + ("", "", 0, "")[len(row) - 1 :]
        line, text, output, status, errors = given
        name, *words = line.split()
        pairs.append((Case(name, tuple(words), text), Run(status, output, errors)))

    @pytest.mark.quick
    @pytest.mark.parametrize("case, wanted", pairs, ids=list(rows))
    def test(run: Callable[..., Run], case: Case, wanted: Run) -> None:
        assert run(case.program, *case.words, input=case.input) == wanted

    return test


class Unproved:
    """Runs of cases by `rt try --cases`, which builds a program once for all of its cases and
    proves nothing: the first one takes about a minute.

    What is larger than a megabyte it gives no answer to, so such a case is skipped, as are runs
    that stand in no table.
    """

    END = re.compile(r"^case=(c\d+) run=(\w+)(?: status=(\d+))?.*\n", re.M)
    START = re.compile(r"^== (c\d+)\n", re.M)

    def __init__(self, cases: Iterable[Case]) -> None:
        self.cases = [case for case in cases if len(case.input) <= 1 << 20]
        self.runs: dict[str, dict[Case, Run | str]] = {}

    def run(self, case: Case) -> Run:
        """The run of a case. The first one takes longer than a test may: all programs are tried
        then."""
        if case not in self.cases:
            pytest.skip(f"needs the built program: './build {case.program}'")
        if not self.runs:
            signal.setitimer(signal.ITIMER_REAL, LONGEST)
            programs = sorted({case.program for case in self.cases})
            with concurrent.futures.ThreadPoolExecutor() as all_at_once:
                self.runs = dict(zip(programs, all_at_once.map(self.tried, programs)))
        ran = self.runs[case.program][case]
        assert isinstance(ran, Run), f"no answer without the proofs: {ran}"
        return ran

    def tried(self, program: str) -> dict[Case, Run | str]:
        """The runs of the cases of a program. `rt try` calls each program `program`."""
        cases = [case for case in self.cases if case.program == program]
        with tempfile.TemporaryDirectory(prefix="cases-") as folder:
            for number, case in enumerate(cases):
                path = pathlib.Path(folder) / f"c{number:04}"
                path.write_bytes(encoded(case.input))
                path.with_suffix(".args").write_text("".join(word + "\n" for word in case.words))
            tried = command(["rt", "try", "--cases", folder], cwd=TOP / "crates" / program)
        parts, told = self.START.split(tried.output), self.END.split(tried.errors)
        outputs = dict(zip(parts[1::2], parts[2::2]))
        ends = {told[at]: (told[at - 1], *told[at + 1 : at + 3]) for at in range(1, len(told), 4)}
        runs: dict[Case, Run | str] = {}
        for number, case in enumerate(cases):
            name = f"c{number:04}"
            errors, how, status = ends.get(name, ("", tried.errors[-2000:], ""))
            output = named(outputs.get(name, ""), program)
            is_over = how == "ended"
            runs[case] = Run(int(status), output, named(errors, program)) if is_over else how
        return runs


def named(text: str, program: str) -> str:
    """What a program that is called `program` writes, under its name."""
    text = text.replace("Usage: program ", f"Usage: {program} ")
    return text.replace("'program'", f"'{program}'")
