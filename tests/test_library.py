"""The library for other languages: its header, its numbers and names, its examples, and races."""

import ctypes as c
import importlib.util
import os
import re
import shutil

import conftest
import model
import pytest
import seasons
from conftest import EXAMPLES, TOP
from test_seasons import closing_screen, joined

HEADER, MODULE = TOP / "crates/ucl_c/uclboard.h", TOP / "examples/python/uclboard.py"
SOURCES, SPECS = TOP / "crates/ucl_c/src", TOP / "crates/ucl_c/specs"
PAGE = (TOP / "docs/LIBRARY.md").read_text()
RUST = (EXAMPLES / "rust/uclboard.rs").read_text()
STRICT = "-O2 -Wall -Wextra -pedantic -Werror"


@pytest.fixture(scope="session")
def library(place, pytestconfig):
    """The folder of the library that is built from the sources as they are, or stands in another checkout."""
    is_built = place != TOP or conftest.command([TOP / "build", "--built", "ucl_c"]).status == 0
    if not is_built or not (place / "library/libuclboard.a").exists():
        (pytest.fail if pytestconfig.getoption("must_run") else pytest.skip)(
            "not built: the library; './build library' proves and builds it"
        )
    return (place / "library").resolve()


def module_over(path):
    """The module in Python over this shared library."""
    spec = importlib.util.spec_from_file_location("uclboard", MODULE)
    module = importlib.util.module_from_spec(spec)
    os.environ["UCLBOARD_LIBRARY"] = str(path)
    spec.loader.exec_module(module)
    del os.environ["UCLBOARD_LIBRARY"]
    return module


@pytest.fixture(scope="session")
def board(library):
    """The module in Python."""
    return module_over(library / "libuclboard.so")


def compiled(words, program=""):
    """What a compiler says of a program, or of nothing."""
    conftest.needs(words[0])
    return conftest.command([*words, "-I", HEADER.parent], program)


# ---- the header


def shouted(name):
    """A name as the header writes it: `NotTwelve` as `UCLBOARD_NOT_TWELVE`."""
    return "UCLBOARD_" + re.sub(r"(?<!^)(?=[A-Z])", "_", name.replace(" ", "")).upper()


def in_header():
    """The numbers of the header by their names."""
    numbers = r"\b(UCLBOARD_[A-Z_]+)(?: = | )(?:UINT64_C\()?(0x[0-9a-f]+|\d+)\b"
    return {name: int(number, 0) for name, number in re.findall(numbers, HEADER.read_text())}


def calls():
    """The calls of the header, with how many arguments each takes."""
    found = re.findall(r"^[^/\n]*?\b(uclboard_[a-z_]+)\(([^)]*)\);", HEADER.read_text(), re.M)
    return {name: 0 if given == "void" else given.count(",") + 1 for name, given in found}


def statuses():
    """The number and the name of each status but 0, by the variants of the definitions."""
    rules = (TOP / "crates/ucl_word/specs/Names.antt").read_text()
    names = dict(re.findall(r'^refusal_name \(?(\w+).* = codes "(.*)"$', rules, re.M))
    codes = re.findall(r"^refusal_code \(?(\w+).* = (\d+)$", rules, re.M)
    found = [(it, code, names[it]) for it, code in codes]
    others = r'^status_of \(?(\w+).* = \((\d+), codes "(.*)"\)$'
    found += re.findall(others, (SPECS / "Faults.antt").read_text(), re.M)
    return {it: (int(code), name) for it, code, name in found}


def defined():
    """The numbers of statuses, marks, states, kinds and orders, by the definitions."""
    codes = r"^(?:mark_code|state_code_in_c) (\w+) = (\d+)$"
    found = [("Done", 0), *((it, code) for it, (code, _) in statuses().items())]
    for it, code in re.findall(codes, (SPECS / "Codes.antt").read_text(), re.M):
        found.append((it.replace("Finished", "Ended"), code))
    for crate, name in ("ucl_word", "kinds"), ("ucl_order", "profiles"):
        text = (TOP / f"crates/{crate}/specs/Names.antt").read_text()
        listed = re.search(rf"^{name} =(.*?) ∷ \[\]$", text, re.M | re.S)[1].split("∷")
        found += [(it.strip(), code) for code, it in enumerate(listed)]
    return {shouted(it): int(code) for it, code in found}


# Numbers that no definition has.
ROOMS = {"WORDS": 12, "CLUBS": 4, "NAME": 20, "NAME_ROOM": 32, "SCREEN_ROOM": 320}
NUMBERS = {**ROOMS, "JSON_ROOM": 1536, "SCHEDULED_WORD": 2 << 60, "VERSION_NUMBER": 1_000_000}


@pytest.mark.quick
def test_numbers_of_the_header_are_those_of_the_definitions_and_of_rust():
    others = {"UCLBOARD_" + name: number for name, number in NUMBERS.items()}
    assert in_header() == {**defined(), **others}
    told = re.findall(r"^(?:pub )?const ([A-Z_]+): \w+ = ([0-9x_]+);$", RUST, re.M)
    assert {name: int(number, 0) for name, number in told} == NUMBERS
    for name in "Kind", "Profile":
        listed = re.search(rf"pub enum {name} \{{\n(.*?),\n\}}", RUST, re.S)[1].split(",")
        for number, it in enumerate(listed):
            assert in_header()[shouted(it.strip())] == number


@pytest.mark.quick
def test_each_name_of_the_header_has_its_prefix():
    text = re.sub(r"/\*.*?\*/", "", HEADER.read_text(), flags=re.S)
    of_types = r"(?<=struct )\w+|(?<=\} )\w+(?=;)|(?<=typedef uint32_t )\w+"
    names = re.findall(rf"\b[A-Z][A-Z_0-9]+\b|\w+(?=\()|{of_types}", text)
    others = {name for name in names if not name.lower().startswith("uclboard_")}
    assert others == {"UINT64_C", "__attribute__", "defined"}


@pytest.mark.quick
@pytest.mark.parametrize("compiler", ["gcc", "clang"])
def test_a_compiler_warns_where_a_status_is_thrown_away(compiler):
    answering = {**calls()}
    del answering["uclboard_version"], answering["uclboard_pass_drop"]
    lines = [f"{name}({', '.join('0' * count)});" for name, count in answering.items()]
    words = [compiler, "-std=c99", "-S", "-o", "/dev/null", "-x", "c", "-"]
    told = compiled(words, f'#include "uclboard.h"\nvoid f(void) {{ {" ".join(lines)} }}\n')
    assert told.errors.count("ignoring return value") == len(answering) > 0, told


def blocks(language):
    """The programs of the page in a language."""
    return re.findall(rf"^```{language}\n(.*?)^```$", PAGE, re.M | re.S)


@pytest.mark.quick
@pytest.mark.parametrize(
    "compiler", ["gcc -std=c99", "clang -std=c99", "g++ -std=c++11", "clang++ -std=c++11"]
)
def test_header_and_programs_of_the_page_compile_without_a_warning(compiler):
    """All lines of C on the page are in programs."""
    words = [*f"{compiler} {STRICT} -Wconversion -Wshadow -c -o /dev/null -x".split()]
    words += ["c++" if "+" in compiler else "c", "-"]
    assert [compiled(words, text) for text in blocks("c")] == [(0, "", "")] * 2
    others = re.sub(r"^```.*?^```$", "", PAGE, flags=re.M | re.S)
    assert re.findall(r"^    .*;$", others, re.M) == []


# ---- what is built


@pytest.mark.parametrize("name, which", [("a", "--extern-only"), ("so", "--dynamic")])
def test_calls_of_the_header_are_all_that_is_shown(library, name, which):
    """But for what linkers add."""
    words = f"nm {which} --defined-only --format=just-symbols".split()
    shown = conftest.command([*words, library / f"libuclboard.{name}"]).output
    names = {*re.findall(r"^\w+$", shown, re.M)}
    assert names - {"_init", "_fini", "_edata", "_end", "__bss_start"} == calls().keys()


def test_header_code_soname_and_pkg_config_have_one_version(library, board):
    told = conftest.command(["pkg-config", "--modversion", library / "uclboard.pc"]).output
    first, second, third = map(int, told.split("."))
    number = first * 1_000_000 + second * 1000 + third
    assert number == board.version() == board.VERSION_NUMBER == NUMBERS["VERSION_NUMBER"]
    dynamic = conftest.command(["readelf", "-d", library / "libuclboard.so"]).output
    assert f"Library soname: [libuclboard.so.{first}]" in dynamic


def test_numbers_and_names_of_statuses_in_python(board):
    assert {name: getattr(board, name) for name in NUMBERS} == NUMBERS
    raised = {it.__name__: status for status, it in board.EXCEPTIONS.items()}
    assert raised == {it: status for it, (status, _) in statuses().items()}
    names = {0: "done", **dict(statuses().values())}
    for code in [*range(70), 256, 2**32 - 1]:
        length_of = len(names.get(code, ""))
        for room in length_of, length_of + 1:
            out, length = c.create_string_buffer(b"\x55" * 40, 40), c.c_size_t(78)
            status = board.text_of_status(code, out, room, length)
            assert status == (58 if code not in names else 0 if room > length_of else 56)
            text = b"" if status else names[code].encode() + b"\0"
            assert out.raw == text.ljust(40, b"\x55")
            assert length.value == (78 if status == 58 else length_of)


# ---- the examples, as docs/LIBRARY.md has them typed

LINES = re.findall(r"^    (\S.*) < (examples/\w+\.csv)$", PAGE.split("\n## Examples\n")[-1], re.M)
LINKED = "-I library library/libuclboard.a"
SANITIZED = f"{STRICT} -fsanitize=address,undefined -fno-sanitize-recover"
# How a line of C or C++ is compiled: by which compiler, with which options, and by what in place
# of the archive.
VARIANTS = {
    "the sanitizers": (0, SANITIZED, LINKED),
    "clang": (1, STRICT, LINKED),
    "pkg-config": (0, STRICT, "$(pkg-config --cflags --libs uclboard)"),
}


def typed(*variants):
    """Each line, and each of these ways to compile it."""
    assert len(LINES) >= 6, "docs/LIBRARY.md has other examples"
    for line, _ in LINES:
        name = re.search(r"examples/([\w/]+\.\w+)", line)[1]
        for variant in variants if line.startswith(("cc ", "c++ ")) else [""]:
            yield pytest.param(line, variant, id=f"{name} {variant}".strip())


def scripts(is_night):
    """Scripts with the words for an example and what it has to write: the closing screen of a night, or the replies."""
    read, beside = conftest.text_of, lambda path: conftest.text_of(path.with_suffix(".expected"))
    if not is_night:
        every = [(read(path), "", beside(path)) for path in sorted(EXAMPLES.glob("*.csv"))]
        return [row for row in every if row[2].startswith("5 ok ")]
    found = [(read(path), "A uefa", beside(path)) for path in sorted(EXAMPLES.glob("*_night.csv"))]
    for it in seasons.groups(["2021-22"]):
        found.append((joined(it.rows()), f"{it.letter} uefa", "FINAL\n" + closing_screen(it)))
    away = EXAMPLES / "away_goals_night.csv"
    return [*found, (read(away), "A away-in-tie", read(away.with_suffix(".away_in_tie")))]


def dressed(text):
    """The same rows behind a byte order mark, with each field in quotes, other line ends and empty lines."""
    return "\ufeff\n" + "\r\n\n".join(
        ",".join(f'"{field}"' for field in row.split(",")) for row in text.splitlines()
    )


@pytest.fixture
def shell(tmp_path, library):
    """A folder with the library and the examples, in which a line is typed: it gives what the line ends with."""
    (tmp_path / "library").symlink_to(library)
    ignored = shutil.ignore_patterns("target", "Cargo.lock")
    shutil.copytree(EXAMPLES, tmp_path / "examples", ignore=ignored)
    own = {
        **os.environ,
        "LD_LIBRARY_PATH": "library",
        "PKG_CONFIG_PATH": "library",
        "CARGO_NET_OFFLINE": "true",
        "RUSTFLAGS": "-D warnings",
        "PYTHONDONTWRITEBYTECODE": "1",
    }
    return lambda line, text="": conftest.command(["bash", "-c", line], text, cwd=tmp_path, env=own)


def built(shell, line, variant):
    """Compiles the example of a line so. Gives what runs it."""
    building, _, running = line.rpartition(" && ")
    conftest.needs(*[tool for tool in ("cargo", "python3") if f"{tool} " in running])
    if building:
        number, options, linked = VARIANTS[variant]
        compiler, rest = building.split(" ", 1)
        compiler = {"cc": ["gcc", "clang"], "c++": ["g++", "clang++"]}[compiler][number]
        conftest.needs(compiler, *["pkg-config"] * ("pkg-config" in linked))
        ran = shell(f"{compiler} {options} {rest.replace(LINKED, linked)}")
        assert LINKED in rest and ran == (0, "", "")
    return running


@pytest.mark.parametrize("line, variant", typed(*VARIANTS))
def test_an_example_writes_what_stands_beside_each_script(shell, line, variant):
    running = built(shell, line, variant)
    for plain, words, wanted in scripts(running.endswith(" A")):
        for text in plain, dressed(plain):
            run = shell(f"{running.removesuffix(' A')} {words}", text)
            assert (run.status, run.output) == (0, wanted), run.errors


GOOD = model.CLUBS + "1,1,0,kickoff\n\n"
BAD_CLUBS = model.CLUBS.replace("Bravo", '"Al,pha"').replace("Charlie", 21 * "C")
# Scripts that are refused, with the status, its name, and where it is.
FAULTY = [
    ("", 20, "bad-row", "row 1"),
    ("club,1,Alpha,1\n", 20, "bad-row", "row 2"),
    (GOOD + "+1,1,1,goal-home\n", 20, "bad-row", "row 6"),
    (GOOD + "1,1,1,goal-hoem\n1,1,1,goal-home\n", 20, "bad-row", "row 6"),
    (GOOD + '1,1,1,"goal""-home"\n', 20, "bad-row", "row 6"),
    (GOOD + "3,1,1,goal-home\n1,1,1,x\n", 20, "bad-row", "row 7"),
    (model.CLUBS.replace("Delta", ""), 21, "bad roster", "slot 4"),
    (BAD_CLUBS, 21, "bad roster", "slot 3"),
    ("x" * 4_194_305, 24, "too long", "too long"),
]
STRANGER = GOOD + "3,1,1,goal-home\n", 25, "of a reporter other than 1 and 2", "row 6"


@pytest.mark.parametrize("line, variant", typed("clang"))
def test_an_example_tells_why_it_fails(shell, line, variant):
    """Of a script in C as `ucl_night` tells it, in other languages by the name of the status and the place."""
    running = built(shell, line, variant)
    has_reporters = "pthread" in line or "cargo" in line
    for text, code, name, where in FAULTY + [STRANGER] * has_reporters:
        run = shell(running, text)
        if line.startswith("cc "):
            assert run == (3, "", f"input refused {code}: {where}\n")
            continue
        told = run.errors.splitlines()[-1]
        assert (run.status, run.output) == (1, "") and re.match(f"night: .*{name}", told), run
        assert {*re.findall(r"\d+", where)} <= {*re.findall(r"\d+", told)}
    if running.endswith(" A"):
        run = shell(running[:-1] + "Z", GOOD)
        assert (run.status, run.output) == (1, "") and "no group" in run.errors


def test_programs_of_the_page_print_the_screen_after_their_events(shell, tmp_path):
    """The first in C and that in Python enter a kick-off and a goal, in Python after one that is stale; the second in C only a kick-off."""
    in_c = re.search(r"^    (cc board\.c .*)$", PAGE, re.M)[1] + " && ./board"
    in_python = re.search(r"^    (PYTHONPATH=\S+ .*) board\.py$", PAGE, re.M)[1]
    matches = model.fresh()
    matches[0].enter(1, "kickoff")
    check = f"return kick_off(words) != 0 || words[0] != UINT64_C(0x{matches[0].word()});"
    matches[0].enter(2, "goal-home")
    scored = (0, model.screen(matches), "")
    first, second = blocks("c")
    (tmp_path / "board.c").write_text(first)
    assert shell(in_c) == scored
    for path in MODULE, tmp_path / "library/libuclboard.so":
        shutil.copy(path, tmp_path)
    for how in in_python, "python3":
        assert [shell(f"{how} -", text) for text in blocks("python")] == [scored]
    main = f"int main(void) {{ uint64_t words[UCLBOARD_WORDS]; {check} }}\n"
    (tmp_path / "board.c").write_text(second + main)
    assert shell(in_c) == (0, "", "")


@pytest.fixture
def cargo(tmp_path):
    """Runs a program in Rust, over the crate as the page has it and the library of a folder."""
    conftest.needs("cargo")
    (needed,) = blocks("toml")
    needed = needed.replace("PATH", str(TOP))
    (tmp_path / "Cargo.toml").write_text(f'[package]\nname = "it"\nedition = "2021"\n{needed}')
    (tmp_path / "src").mkdir()
    own = {**os.environ, "PWD": str(tmp_path), "CARGO_NET_OFFLINE": "true"}
    own["RUSTFLAGS"] = "-D warnings"

    def run(program, folder, text=""):
        (tmp_path / "src/main.rs").write_text(program)
        own["UCLBOARD_FOLDER"] = str(folder)
        return conftest.command(["cargo", "run", "--quiet"], text, cwd=tmp_path, env=own)

    return run


@pytest.mark.quick
def test_a_program_in_rust_sees_a_new_library_in_a_relative_folder(cargo, tmp_path):
    """The libraries are none: all that their calls answer is a number."""
    folder = tmp_path / "libraries"
    folder.mkdir()
    for number in 1, 2:
        stubs = [f"unsigned {name}(void) {{ return {number}; }}\n" for name in calls()]
        (folder / "calls.c").write_text("".join(stubs))
        made = "cc -c calls.c && rm -f libuclboard.a && ar rc libuclboard.a calls.o"
        assert conftest.command(["bash", "-c", made], cwd=folder) == (0, "", "")
        program = 'fn main() { println!("{}", uclboard::version()); }\n'
        assert cargo(program, "libraries") == (0, f"{number}\n", "")


def test_a_name_that_no_roster_takes_is_a_bad_roster_in_python(board):
    for name in "\ud800", "Delta\udc80", "D\u00e9lta", 21 * "D", "":
        with pytest.raises(board.BadRoster) as raised:
            board.Board().screen([*model.ROSTER[:3], (name, 81_500)])
        assert (raised.value.status, raised.value.told) == (21, 4)


@pytest.mark.parametrize("how", ["sound", "racy"])
def test_threads_under_helgrind(library, tmp_path, how):
    conftest.needs("valgrind")
    sources, made = [TOP / "tests/races.c", library / "libuclboard.a"], tmp_path / "races"
    words = ["cc", "-std=c11", *STRICT.split(), "-pthread", *sources, "-o", made]
    assert compiled(words) == (0, "", "")
    run = conftest.command(["valgrind", "-q", "--tool=helgrind", made, how])
    races = re.findall(r"Possible data race .*\n.*Locks held.*\n.* at 0x\w+: (\S+)", run.errors)
    assert run == (0, "", "") if how == "sound" else any(name.startswith("ucl") for name in races)
