"""What stands in `examples/`, in the README and in doc comments is what programs do, and what tests try."""

import fnmatch
import re
import shlex
import shutil

import pytest
from conftest import EXAMPLES, TOP, command, needs, tabled, text_of

from ucl_hall.terminal import command as terminal
from ucl_hall.web import options as server

README, LIBRARY = (text_of(TOP / name) for name in ("README.md", "docs/LIBRARY.md"))
WORD_OF = {"sheet": "show", "night": "night"}
TOLD = "8 lines, 2 shown, 6 passed over\n"
answers, screens = (text_of(EXAMPLES / f"followed.{ending}") for ending in ("jsonl", "expected"))
ROWS = {
    path.stem: (
        f"ucl_night {WORD_OF.get(path.stem.split('_')[-1], 'feed')}",
        text_of(path),
        text_of(path.with_suffix(".expected")),
    )
    for path in sorted(EXAMPLES.glob("*.csv"))
}
ROWS["what is shown of an evening that is followed"] = ("ucl_follow", answers, screens, 0, TOLD)

test_examples = tabled(ROWS)


def test_writers_that_share_a_pipe(program, place):
    program("ucl_live")
    assert command([place / "examples/evening"]) == (0, text_of(EXAMPLES / "evening.expected"), "")


def test_night_in_a_cell_by_the_kits_own_compiler(program):
    """`rt ci` builds each program twice, by LLVM and by the kit's own compiler."""
    by_rattle = f"{program('ucl_hostile')}.by-rattle"
    needs(by_rattle)
    script, screen = (text_of(EXAMPLES / f"group_a_2021_night.{it}") for it in ("csv", "expected"))
    ran = command([by_rattle, "refused", "night_run_in_a_cell", "50"], script)
    assert ran == (0, screen.replace("FINAL\n", "first None\nkept true\n"), "")


@pytest.mark.parametrize(
    "page, line, shown",
    [
        (README, r"^(\(cat .*)$", r"^```\n( +Club(?s:.*?))^```$"),
        (text_of(TOP / "docs/REFERENCE.md"), r"^\$ (.*)$", r"^\$ .*\n((?s:.*?))^```$"),
    ],
    ids=["README", "REFERENCE"],
)
def test_command_of_a_page(program, place, page, line, shown):
    """The first one, typed as it stands there, gives what the page shows."""
    program("ucl_live"), program("ucl_night")
    run = command(["bash", "-c", re.search(line, page, re.M)[1]], cwd=place)
    assert run.output == re.search(shown, page, re.M)[1]


@pytest.mark.quick
def test_lines_of_pages():
    """The lines by which pages have one start the server and the reporter's program are such as these take."""
    lines = re.findall(
        r"^ *\./ucl_(serve|reporter) ([^>$\n]*)", README + text_of(TOP / "docs/OPERATE.md"), re.M
    )
    assert len(lines) >= 5
    for name, words in lines:
        (server if name == "serve" else terminal).options_of(shlex.split(words, comments=True))


@pytest.mark.quick
def test_lines_of_c():
    """The README's lines of C are lines of a program of docs/LIBRARY.md, which is compiled and run by its own test."""
    (lines,), programs = (
        re.findall(r"^```c\n(.*?)^```$", re.sub(r"^ +", "", page, flags=re.M), re.M | re.S)
        for page in (README, LIBRARY)
    )
    assert any(lines in program for program in programs)


@pytest.mark.quick
def test_line_that_is_broken():
    """The change of one line that the README shows refused is a mutant, which the gate has refused."""
    new, old = re.search(r"put\s+`(\S+)`\s+in\s+place\s+of\s+`(\S+)`", README).groups()
    edits = [text_of(path) for path in TOP.glob("crates/ucl_order/must-fail/*.edit")]
    edit = f"file: src/order.rt\nold: for _round in {old} {{\nnew: for _round in {new} {{\n"
    assert any(edit in text for text in edits)


@pytest.mark.quick
def test_index():
    """The index of examples/ names each file and folder that is there."""
    names = ["README.md", *re.findall(r"`([^` ]+)`", text_of(EXAMPLES / "README.md"))]
    is_named = lambda path: any(fnmatch.fnmatch(path.name, name) for name in names)
    assert [path.name for path in EXAMPLES.iterdir() if not is_named(path)] == []


# ---- sources

CRATES = {line.split()[0].strip(":"): line for line in text_of(TOP / "crates.txt").splitlines()}


@pytest.mark.quick
def test_program_of_the_page():
    """A page shows lines of the crate ucl_example, which the gate proves and runs, and its line of crates.txt."""
    shown = re.search(r"^```rust\n(.*?)^```$", LIBRARY, re.M | re.S)[1]
    program = text_of(TOP / "crates/ucl_example/src/main.rt")
    assert f"\n{shown}" in re.sub(r"^ +", "", program, flags=re.M)
    assert CRATES["ucl_example"] in " ".join(LIBRARY.split())


# The calls that lend out a pass's seat are there for their contracts, and have no example; nor have laws, whose body is empty.
FOR_THEIR_CONTRACTS = {"seat"}
CALL = re.compile(
    r"((?:^ *///(?: .*)?\n)*)(?:^ *#\[.*\n)*^(    )?(pub )?fn (\w+)((?s:.*?)(?:\{\}?|;)$)", re.M
)
BLOCK = re.compile(r"^ *//[/!] ```\w*\n(.*?)^ *//[/!] ```$", re.M | re.S)


def calls_in(text):
    """Each public call of a file that is no law, with the blocks of its doc comment."""
    for comment, is_inside, is_public, name, rest in CALL.findall(text):
        is_law = rest.endswith("\n{}") or name in FOR_THEIR_CONTRACTS
        if (is_public or is_inside and "pub trait " in text) and not is_law:
            yield name, [
                re.sub(r"^ */// ?", "", block, flags=re.M) for block in BLOCK.findall(comment)
            ]


BOARD_CRATES = ["ucl_live_board", "ucl_pass", "ucl_words"]
FILES = [path for it in BOARD_CRATES for path in sorted(TOP.glob(f"crates/{it}/src/*.rt"))]
CALLS = [call for path in FILES for call in calls_in(text_of(path))]
HEAD = """#![tactic(auto)]

use std::test::Fail;
use ucl_pass::{CellBoard, LiveBoard, TooManyReporters, settle};
use ucl_word::{Accepted, EventCall, Kind, MatchNo};
use ucl_words::WordBoard;
"""


@pytest.mark.quick
def test_doc_comments():
    """Each public call of a board has one example of 3 to 10 lines, which calls it, and there are no other blocks but at the heads of crates."""
    for call, found in CALLS:
        assert len(found) == 1 and re.search(rf"\b{call}\(", found[0]), call
        assert 3 <= found[0].count("\n") <= 10, call
    texts = [re.sub(r"^//!.*\n", "", text_of(path), flags=re.M) for path in FILES]
    assert sum(len(BLOCK.findall(text)) for text in texts) == len(CALLS) > 0


@pytest.mark.limit(300)
def test_examples_of_doc_comments(tmp_path):
    """They are tried as the tests of a crate of their own, unproved."""
    needs("rt")
    below = ["ucl_word", "ucl_board", "ucl_log", "ucl_steps", *BOARD_CRATES]
    ignored = shutil.ignore_patterns("out", "must-fail")
    for crate in below:
        shutil.copytree(TOP / "crates" / crate, tmp_path / "crates" / crate, ignore=ignored)
    shutil.copy(TOP / "HANDLES", tmp_path)
    tried = "tried tests_may=Threads+Wait: ucl_word ucl_pass ucl_words"
    (tmp_path / "crates.txt").write_text("\n".join([*map(CRATES.get, below), tried, ""]))
    (tmp_path / "crates/tried/src").mkdir(parents=True)
    tests = [
        f"\n#[test]\nfn example_{number}(rt: HostRuntime) -> Result<(), Fail> {{\n{block}Ok(())\n}}\n"
        for number, (_, (block,)) in enumerate(CALLS)
    ]
    (tmp_path / "crates/tried/src/lib.rt").write_text(HEAD + "".join(tests))
    ran = command(["rt", "try", "--test"], cwd=tmp_path / "crates/tried")
    assert ran.status == 0 and f"ok. {len(CALLS)} passed" in ran.output, ran
