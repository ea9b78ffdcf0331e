"""The library's interface: types of the header beside those of the code, of Rust and of Python; and each call, made once in four languages."""

import contextlib
import ctypes as c
import re

import conftest
import declared
import model
import pytest
from conftest import EXAMPLES, TOP
from test_library import (
    HEADER,
    NUMBERS,
    RUST,
    SOURCES,
    STRICT,
    board,
    calls,
    cargo,
    compiled,
    library,
)  # noqa: F401, fixtures

CODE = "".join(path.read_text() for path in sorted(SOURCES.glob("*.rt")))
STRUCTS = {f"uclboard_{name}" for name in ("match", "club", "row", "reply")}

# ---- types


@pytest.mark.quick
@pytest.mark.parametrize("text", [CODE, RUST], ids=["the code", "the crate in Rust"])
def test_header_has_the_types_of(text):
    assert declared.calls(text).keys() == calls().keys()
    assert declared.structs(text).keys() == STRUCTS
    words = ["gcc", "-std=c11", *STRICT.split(), "-fsyntax-only", "-x", "c", "-"]
    assert compiled(words, declared.file_of_c(text)) == (0, "", "")


# What a header may have in place of what it has; each is another type.
OTHERS = [
    ("uclboard_pass **pass, uint32_t *number);", "uclboard_pass **pass, uint8_t *number);"),
    ("uint64_t word, uint64_t *read);", "uint64_t word, uint32_t *read);"),
    ("uclboard_script(const char *script", "uclboard_script(char *script"),
    ("uint32_t uclboard_version(void)", "uint64_t uclboard_version(void)"),
    ("home_goals, away_goals;", "away_goals, home_goals;"),
    ("    uint32_t reporter;  ", "    uint16_t reporter;  "),
]


@pytest.mark.quick
@pytest.mark.parametrize("old, new", OTHERS, ids=[new for _, new in OTHERS])
def test_another_header_is_seen(tmp_path, old, new):
    text = HEADER.read_text()
    assert text.count(old) == 1
    (tmp_path / "uclboard.h").write_text(text.replace(old, new))
    (tmp_path / "types.c").write_text(declared.file_of_c(CODE))
    assert conftest.command(["gcc", "-std=c11", "-fsyntax-only", tmp_path / "types.c"]).status == 1


@pytest.mark.quick
def test_header_says_of_each_output_that_it_may_not_be_null():
    comments = r"/\* ((?:(?!\*/).)*)\*/\n[^/;]*?\b(uclboard_\w+)\(([^)]*)\);"
    lacking = {}
    for comment, name, given in re.findall(comments, HEADER.read_text(), re.S):
        outputs = {it.split("*")[-1] for it in given.split(", ") if "*" in it and "const" not in it}
        told = [it for it in comment.split(". ") if re.search(r"may (not )?be\s+null", it)]
        lacking[name] = outputs - {*re.findall(r"`(\w+)`", " ".join(told))}
    assert lacking == {name: set() for name in calls()}


def type_of(given):
    """A type of ctypes, as C has it; what is only read has no mark of it, and where it is a pointer to bytes or to a handle is not told."""
    named = {
        c.c_uint32: "uint32_t",
        c.c_uint64: "uint64_t",
        c.c_char_p: "char *",
        c.c_void_p: "uclboard_pass *",
        c.c_char * 20: "char[20]",
        None: "void",
    }
    if given not in named and issubclass(given, c._Pointer):
        return f"{type_of(given._type_)} *"
    return named.get(given) or f"uclboard_{given.__name__.lower()}"


def test_python_has_the_types_of_the_code(board):
    """ctypes has one type for a size and for 64 bits."""
    plain = lambda told: told.replace("const ", "").replace("size_t", "uint64_t")
    for name, (taken, gives) in declared.calls(CODE).items():
        name = name.removeprefix("uclboard_")
        call = getattr(board, {"open": "new_board"}.get(name, name))
        assert [type_of(it) for it in call.argtypes or ()] == [*map(plain, taken)], name
        assert type_of(call.restype) == gives, name
    for name, fields in declared.structs(CODE).items():
        made = getattr(board, name.removeprefix("uclboard_").title())
        wanted = [(field, told + "[20]" * bool(length)) for field, told, length in fields]
        assert [(field, type_of(of)) for field, of in made._fields_] == wanted


# ---- each call, once

SCRIPT = conftest.text_of(EXAMPLES / "away_goals_night.csv") + "1,1,0,kickoff\n"
FIRST_WORD = "003ffffffffffbff"


def wanted():
    """What the calls give by the rules: a line for each, and for each club."""
    roster, events = model.parsed(SCRIPT)
    matches, version = model.entered(events)[0], len(events) - 1
    begun, largest = model.Match(), model.match_of(FIRST_WORD)
    begun.enter(2, "kickoff")
    style = model.Style(["--group", "C", "--order", "away-in-tie"])
    screen, said = style.screen(matches, roster), style.json(matches, roster, 77)
    del said["edition"], said["matches"]
    line = model.line_of(said)
    lines = [
        f"library {NUMBERS['VERSION_NUMBER']}",
        "name 13 limit-reached",
        f"next {begun.word()} found 1",
        f"read {largest.word()} {largest.number} {largest.reporter}",
        *(f"club {name} {coefficient}" for name, coefficient in roster),
        f"reply {len(events) + 4} 1 1 {matches[0].number} {version}",
        f"version {version}",
        *(f"row {it['slot']} {it['points']}" for it in said["table"]),
        f"length {len(screen)}",
        f"{len(screen)} {screen}{len(line)} {line}shared 1 2 1 {begun.word()} 1",
    ]
    return "\n".join(lines) + "\n"


def in_python(board):
    """What the calls give by the module in Python."""
    new = board.Board()
    new.report(match=3, reporter=2, expected=0, kind="kickoff")
    with pytest.raises(board.Stale) as stale:
        new.report(match=3, reporter=2, expected=9, kind="goal-away")
    read = board.Board([int(FIRST_WORD, 16)] * 12)
    match, name = read.match(1), board.name_of(8)
    played, clubs, replies = board.play(SCRIPT.encode())
    last = [getattr(replies[-1], name) for name, _ in board.Reply._fields_]
    rows = played.standings([coefficient for _, coefficient in clubs], "away-in-tie")
    length, at, made = c.c_size_t(), c.c_uint32(), board.clubs_of(clubs)
    assert board.screen_length(played.words, 12, made, 4, ord("C"), 1, length, at) == 0
    screen = played.screen(clubs, "C", "away-in-tie")
    line = played.json(clubs, "C", "away-in-tie", 77)
    first = board.Pass.open()
    shown, _, two = first.split(), first.enlist(), first.enlist()
    first.drop()
    number, event, reading = two.number(), two.report(3, 0, "kickoff"), shown.read()
    shared = int(not first.handle.value), number, event, f"{reading.words[2]:016x}"
    lines = [
        ("library", board.version()),
        ("name", len(name), name),
        ("next", f"{new.words[2]:016x}", "found", stale.value.told),
        ("read", f"{read.words[0]:016x}", match.number, match.reporter),
        *(("club", *club) for club in clubs),
        ("reply", *last),
        ("version", played.version()),
        *(("row", row.slot, row.points) for row in rows),
        ("length", length.value),
        (len(screen), f"{screen}{len(line)}", f"{line}shared", *shared, reading.version()),
    ]
    return "".join(" ".join(map(str, line)) + "\n" for line in lines)


@pytest.mark.parametrize(
    "compiler",
    ["gcc -std=c11", "clang -std=c11", "g++ -std=c++17 -x c++", "clang++ -std=c++17 -x c++"],
)
def test_each_call_in_c_and_in_cpp(library, tmp_path, compiler):
    """The sanitizers see what is written beside an output."""
    source, made = TOP / "tests/every_call.c", tmp_path / "calls"
    assert {*calls()} <= {*re.findall(r"\w+(?=\()", source.read_text())}
    words = [*compiler.split(), *STRICT.split(), "-fsanitize=address,undefined", source]
    words += ["-fno-sanitize-recover", "-x", "none", library / "libuclboard.a", "-o", made]
    assert compiled(words) == (0, "", "")
    assert conftest.command([made], SCRIPT) == (0, wanted(), "")


def test_each_call_in_rust(library, cargo):
    program = (TOP / "tests/every_call.rs").read_text()
    assert cargo(program, library, SCRIPT) == (0, wanted(), "")


def test_each_call_in_python(board):
    assert in_python(board) == wanted()


USES = {
    "pass_split": lambda it: it.split(),
    "pass_enlist": lambda it: it.enlist(),
    "pass_report": lambda it: it.report(1, 0, "kickoff"),
    "pass_number": lambda it: it.number(),
    "pass_read": lambda it: it.read(),
    "pass_drop": lambda it: it.drop(),
}


@pytest.mark.parametrize("name", USES)
def test_a_pass_of_python_is_in_one_call_at_a_time(board, monkeypatch, name):
    """Its lock is held while a call of the library has it, and is free again when that has come back, also refused."""
    it, call, held = board.Pass.open(), getattr(board, name), []
    lock = it.one_at_a_time
    monkeypatch.setattr(board, name, lambda *given: held.append(lock.locked()) or call(*given))
    with contextlib.suppress(board.Refused):
        USES[name](it)
    assert held == [True] and not lock.locked()
