"""Looks at the sources for what no contract can see: what a value does when it is let go, steps that go beside the log, what a board and an evening
hold, what threads share; and for what has gone out of step: wrong bodies, names of definitions, crates that are not used."""

import collections
import hashlib
import re
import shutil
import subprocess

import sources

# What goes beside the log: a load, a wait or a wake of a cell or a table that is no step of a pass; and that a board's own is lent out to make one.
UNCOUNTED = re.compile(
    r"\b(peek|park\w*|wake_\w+|load_new_seat|swap_new_seat|into_badge|close|close_with)\b|(?:\.|::)(pass|table|cell)\("
)
STEP = re.compile(
    r"\bimpl\b[^{]*\b(Play|Outcome|Split|Join)\b[^{]* for (?:\w+::)*([A-Za-z]+)"
    r"|\b((?:load|store|swap|fetch|compare_exchange|split|join)(?:_\w+)?)::<(?!(?:Brand|Kind|Way)\b)(\w+)"
)
# The kinds of step of each board, in the order of the file of its rule, and the calls by which its steps are taken, of which a load writes nothing. A call of
# any `Kind` or `Way` is one that passes on what it is given.
KINDS = {
    "crates/ucl_pass/src/rule.rt": "Outcome Looks, Outcome Reads, Outcome Adds, Outcome Enlists, Split SecondPass, Split Note, Join Note",
    "crates/ucl_words/src/rule.rt": "Play Look, Play First, Play Second, Play CountEnlisted, Play Swap, Play Enlist, Split SecondPass, Split Note, Join Note",
    "crates/ucl_pass/src/cell_board.rt": "load_as Looks, compare_exchange_as Adds, load_as Reads, split_pass SecondPass, compare_exchange_as Enlists, split_pass Note, join_pass Note",
    "crates/ucl_words/src/board.rt": "load Look, compare_exchange_with Swap, load First, load Second, compare_exchange Enlist, load CountEnlisted, split_seat SecondPass, split_seat Note, join_seat Note",
}
# What steps each call of a board takes, also by functions that it calls, in the order of their texts, and the loops that they stand in: so a step in no loop
# is taken once, and no call waits or idles in a loop of its own, nor does `settle`, which has no loop. A split and a join of a table are a load each. A call
# of `LiveBoard` on a word board takes those of the board's own call.
STEPS = {
    "ucl_pass": {
        "report": "for, load_as Looks, compare_exchange_as Adds",
        "read": "load_as Reads",
        "read_own": "load_as Reads",
        "split": "split_pass SecondPass",
        "enlist": "for, load_as Looks, compare_exchange_as Enlists",
        "meet": "split_pass Note, join_pass Note, load_as Looks",
    },
    "ucl_words": {
        "report_now": "load Look, compare_exchange_with Swap",
        "read_now": "loop, for, load First, for, load Second",
        "read_own_now": "loop, for, load First, for, load Second",
        "split_now": "split_seat SecondPass",
        "enlist_now": "while, compare_exchange Enlist",
        "meet_now": "split_seat Note, join_seat Note, load CountEnlisted",
    },
}
STEPS["ucl_words"].update(
    {name[: -len("_now")]: steps for name, steps in STEPS["ucl_words"].items()}
)
STEPS["ucl_live_board"] = {"settle": ""}
# Those of C take none of their own, beside those of the board's call.
STEPS["ucl_c"] = dict.fromkeys(
    "open split_off enlist_another report number read with_held let_go uclboard_open uclboard_next_word".split(),
    "",
)
STEPS["ucl_c"].update(
    dict.fromkeys(
        [
            f"uclboard_pass_{name}"
            for name in ("split", "enlist", "report", "number", "read", "drop")
        ],
        "",
    )
)
STEPS["ucl_c"]["uclboard_script"] = "for"
# What else the code of the boards and of C calls, but for its own functions and those of the crates below; and its loops and closures, in the order of their texts.
# A call that is not here could take turns of its own, as `for_each` does.
CALLS = {
    "ucl_word": "as_slice copied default is_ok",
    "ucl_board": "default",
    "ucl_live_board": "",
    "ucl_pass": "copy_from_slice forever is_ok ruled",
    "ucl_words": "compare_exchange compare_exchange_with copy_from_slice join_seat load split_seat",
    "ucl_c": "as_bytes as_mut copy_from_slice drop enumerate from_raw into_raw_with_allocator iter len null_mut ok_or try_clone try_from unwrap_or",
}
TURNS = {
    "ucl_board": "for i in 0..12u8, for word in &self.words",
    "ucl_pass": "for _ in rt.forever(), for _ in rt.forever()",
    "ucl_words": "for i in 0..12, for checked in 0..12, loop, while known < MAX_REPORTERS",
    "ucl_c": "|held| held.split_off(alloc), |held| held.enlist_another(alloc), |held| held.report(&call), |held| held.number(), |held| held.read(), "
    "for (i, event) in events.iter().enumerate()",
}
CALLED = re.compile(
    r"(?<!fn )\b(?!(?:for|while|loop|match|if|in|return|call)\b)([a-z]\w*)(?:::<[^()]*?>)?\("
)
TURN = re.compile(
    r"\b((?:for\b(?! *<)[^{};]* in |while\b)[^{};]*[^{}; ]|loop)(?= *\{)"
    r"|(?:[(,={;>&\[:]|\b(?:move|mut|return|else))\s*(\|[^|]*\|[^;{]*?\)?)(?=[,;{]|\)[,;)])"
)
# Calls of another type's function that has the name of the one that makes them.
NAMESAKES = re.compile(
    r"\bself\.cell\s*\.\w+|\bboard\.report\b(?=\(pass\.number, call\))|\bWordBoard::open\b|\bself\.at\.is_null\b"
)
# Leave to wait, where a call has it: a name for it in what it is given, and that it is handed on to a call of a board.
LEAVE = re.compile(r"\b_?rt\b")
PASSED_ON = {
    "ucl_words": re.compile(r"\b_rt: &R\b"),
    "ucl_live_board": re.compile(r"\brt: &R\b|\bboard\.\w+\(rt, "),
}
TAKEN = re.compile(
    r"\b((?:load|store|swap|fetch|compare_exchange|split|join)(?:_\w+)?::<(?!(?:Brand|Kind|Way)\b)\w+|(?:for|while|loop)\b)|\b(\w+)(?:::<[^()]*?>)?\("
)
# What boards, passes and handles of C have, and what that is of.
PARTS = """struct WordBoard { table: Table, }
struct WordReaderPass { seat: Seat, }
struct WordReporterPass { seat: Seat, number: ReporterNo, accepted: u16, }
type Table = atomic_table::Table<Entry, View, (), WordRule, Global>;
type Seat = atomic_table::Seat<Entry, View>;
struct CellBoard { cell: Cell, }
struct CellReaderPass { seat: Seat, }
struct CellReporterPass { seat: Seat, number: ReporterNo, accepted: u16, }
type Cell = RuledSeqCell<[u64; 13], View, CellRule, 13>;
type Seat = Pass<[u64; 13], View>;
struct BoardPass { board: Arc<WordBoard, Global>, pass: AnyPass, }
enum AnyPass { Nobody, Reader(WordReaderPass), Reporter(WordReporterPass), }
struct Handle { at: *mut UclboardPass, ghost value: { BoardPass }, }""".split(
    "\n"
)
TESTS = re.compile(
    r"_tests$|_hostile$|_bench"
)  # crates of tests and of the benchmark, which hold no board of a user
# What threads may share, by the lines that name such: a pointer, whose count of handles changes where one is made, leave to wait, a board's table or cell, and
# a flag by which the example's loops end.
SHARED = re.compile(r"\bsync\b|\bstatic mut\b|\b(?:atomic_table|crossbeam_\w+)::|\bArc::|\bclone\(")
SHARES = re.compile(
    r": (?:ghost |use std::sync::(?:Arc|Wait);$)|/ucl_example/.*: use std::sync::atomic::{AtomicBool, Ordering};$"
    r"|/ucl_c/.*: +let board = Arc::(?:new\(alloc, board\)|try_clone\(board\))\?;$"
    r"|/ucl_words/.*\batomic_table::|/ucl_theorems/.*: use atomic_table::TableRule;$|/ucl_pass/.*: use (?:atomic_table|crossbeam_utils::(?:atomic::seq_cell|rule))::"
)
# What types of boards, tables, inputs and traces implement, derived and behind a bar written, and no more: so no equality and no load is of its own kind.
PLAIN = "Clone Copy Debug Eq PartialEq"
TRAITS = {
    "ucl_word": {
        **dict.fromkeys(["Accepted", "EventCall", "Kind", "Side"], PLAIN),
        **dict.fromkeys(["MatchRecord", "State"], "Clone Copy Debug Default Eq PartialEq"),
        **dict.fromkeys(["MatchNo", "ReporterNo"], f"{PLAIN} | Model"),
        "BadWord": "Clone Copy Debug Eq Error PartialEq",
        "OutOfMemory": "Clone Copy Debug Eq Error PartialEq | From<AllocError> From<AllocFailed<T>>",
        "Refusal": f"{PLAIN} | error::Error fmt::Display",
    },
    "ucl_order": {
        **dict.fromkeys(["Appearance", "Mark", "PointBounds", "Profile", "Results", "Row"], PLAIN),
        **dict.fromkeys(["Match", "Score"], "Clone Copy Debug Default Eq PartialEq"),
        "BadRoster": "Clone Copy Debug Eq Error PartialEq",
        **dict.fromkeys(["Club", "Member"], "Debug Drop"),
        "LentClub": "Clone Copy",
        "Roster": "Debug Drop | Model",
    },
    "ucl_screen": {
        **dict.fromkeys(["FirstRow", "Four", "RowFields"], "Clone Copy"),
        "FaultLine": "Clone Copy | fmt::Display",
        "Rows": "Drop",
        **dict.fromkeys(["Night", "Sheet"], "Debug Drop"),
        "InputFault": f"{PLAIN} | From<AllocError> From<AllocFailed<T>> error::Error fmt::Display",
    },
    "ucl_steps": {
        **dict.fromkeys(["Call", "CallRecord", "Caller", "Cast", "Reply", "Step"], PLAIN),
        "Held": "Clone Copy",
        "Machine": "Drop",
        "Trace": "Debug Drop",
        "StepFault": "Clone Copy Debug Eq Error PartialEq | From<AllocError>",
    },
    "ucl_board": {
        "BadWordAt": "Clone Copy Debug Eq Error PartialEq",
        "Board": f"{PLAIN} | Model",
        **dict.fromkeys(["Entry", "NightEvent"], PLAIN),
        "Reading": PLAIN,
    },
    "ucl_live_board": {
        "Brand": "| Asking",
        "Strangers": "Clone Copy Debug Eq Error PartialEq",
        "TooManyReporters": "Drop Error",
        "View": "| Model",
    },
    "ucl_pass": {
        **dict.fromkeys(["Adds<K>", "Enlists", "Looks", "Reads"], "| Outcome<[u64; 13], View>"),
        **dict.fromkeys(["CellReaderPass", "CellReporterPass"], "Drop | Model"),
        "CellBoard": "Drop | LiveBoard Model",
        "CellRule": "| BoardRule Protocol<[u64; 13], View>",
        "Note": "| Join<View> Split<View>",
        "SecondPass": "| Split<View>",
    },
    "ucl_words": {
        **dict.fromkeys(
            ["CountEnlisted<K>", "Enlist<K>", "First", "Look<K>", "Second<K>", "Swap<K>"],
            "| Play<Entry, View>",
        ),
        **dict.fromkeys(["WordReaderPass", "WordReporterPass"], "Drop | Model"),
        "WordBoard": "Drop | LiveBoard Model",
        "Note": "| Join<View> Split<View>",
        "SecondPass": "| Split<View>",
        "WordRule": "Clone Copy | BoardRule TableRule<Entry, View, ()>",
    },
}
DERIVES = re.compile(
    r"#\s*\[derive\(([^)]*)\)\](?:\s*#\s*\[[^\]]*\])*\s*(?:pub(?:\([^)]*\))?\s+)?(?:struct|enum)\s+(\w+)"
)
IMPL = re.compile(r"\bimpl\b\s*(?:<[^{]*?>\s*)?([\w:]+(?:<[^{]*?>)?)\s+for\s+([^{]+?)\s*\{")
ALIAS = re.compile(r"(?<!ghost )\buse\b[^;]*\bas\b[^;]*;|\bmacro_rules\b")
# What is written of letting go: a handle of C keeps its pass until it lets it go.
LETS_GO = re.compile(
    r"[^{}]*{ fn drop\b|\bfn (?:drop|let_go|uclboard_pass_drop)\b|\b(?:forget|leak|into_raw\w*|ManuallyDrop)\b"
)
LET_GO = re.compile(
    r"fn let_go\(&mut self, alloc: Global\) ensures {[^{}]*} { if !self\.is_null\(\) { drop\(self\.take\(alloc\)\.into_box\(\)\); } }"
    r"|let \(ptr, alloc\) = Box::into_raw_with_allocator\(b\);"
    r"|fn uclboard_pass_drop\(alloc: Global, pass: &mut Handle\)(?: ensures \w+ {[^{}]*})+ { pass\.let_go\(alloc\); }"
)
# What makes, lengthens or replaces the list of the times at which a source was called; `logged_io.rt` does so twice.
LISTS = re.compile(
    r"\blog\.and\(|\.log\s*=(?!=)|&mut [\w.]+\.log\b|(?<!calls: )\bCallLog::(?:new|and)\b"
)
LISTED = ["log: CallLog::new(),", "self.log = self.log.and(&self.source, &self.sink, handler);"]
# What a device does in a call after it is listed: it calls its reader or its writer once with all that it is given, and fails if that does.
DEVICES = [
    "if self.has_failed { return None; } if buf.is_empty() { return Some(0); } "
    "let taken = self.reader.read(buf).ok(); self.has_failed = taken.is_none(); taken }",
    "if self.has_failed { return None; } if text.is_empty() { return Some(0); } "
    "let given = match self.writer.write(text) { Ok(0) | Err(_) => None, Ok(count) => Some(count), }; self.has_failed = given.is_none(); given }",
]
# Crates of rules, and how values are put in an order: a sort, an exchange of two, the lower and the higher of two, an item that moves within its list.
RULES = ["ucl_word", "ucl_board", "ucl_order", "ucl_screen", "ucl_mends", "ucl_log", "ucl_steps"]
SORTS = re.compile(
    r"[^;{}]*(?:\w*sort\w*\(|(?<!fn )\b(?:swap|replace|rotate_\w+|min\w*|max\w*|reverse)\((?!\*caller\))"
    r"|\blet \((\w+), (\w+)\) = \w+\((?:&\w* ?)*(?:\1, (?:&\w* ?)*\2|\2, (?:&\w* ?)*\1)\)|\b(\w+)\[[^]]+\] = \3\[|\(\w+\[[^]]+\], \w+\[[^]]+\]\) =)[^;]*;"
)
SORTED = ["clubs.sort_unstable();"]
# Where a night tells that there is no thread: a worker's did not start.
NO_THREAD = re.compile(
    r"let started = scope\.spawn_with\( promise, move \|\| (?:(?!started)[^;])*?, \); started\.map_err\(\|_\| RunFault::NoThread\)"
    r"|match \(reporter_1, reporter_2, reader_1, reader_2\) {"
    r" \(Ok\(\w+\), Ok\(\w+\), Ok\(\w+\), Ok\(\w+\)\) => Ok\(Workers {[^{}]*}\), _ => Err\(RunFault::NoThread\), }"
)
# What the programs for users do: one call, over the words of the command line and the standard streams, whose result is the exit status.
MAIN = re.compile(
    r"fn main\(rt: HostRuntime\) -> ExitCode { let alloc = rt\.alloc\(\); "
    r"(?:let (?:mut )?\w+ = (?:LoggedIo::new\()?(?:(?:FromRead|ToWrite)::new\(rt\.std\w+\(\)\)(?:, |\)?;) ?)+)+"
    r"ExitCode::from\(run_(?:words|live|follow)\( ?(?:&rt, )?alloc, words_of\(&rt, alloc\), "
    r"(?:\|\| WordBoard::open\(&rt, alloc\), )?(?:(?:&mut )?\w+,? ?)+\)\) }"
)
HANDLES = "e3846fb4d06c"
DEFINED = re.compile(r"^ *(?:abbrev pub|unfoldable pub|pub record|pub data) (\S+)", re.M)
# Names that definitions of two files have, and that stand for one thing of two kinds, as the words of either board.
TWICE = {
    "taken_by",
    "club_at",
    "rows_of",
    "words_after",
    "ImpliesInvariant",
    "LogsOneStep",
    "Takes",
    "◌>>=◌",
    "state_of",
}
# A struct or an enum with its parts; what a part is of; and the types of other crates and of the language that have a fixed size, as an
# option of one has. A roster and a club hold names, each of which came on one line.
TYPE = re.compile(
    r"^(?:pub(?:\(crate\))? )?(?:struct|enum) (\w+)(?:<[^>]*>)? \{\n(.*?)^\}", re.M | re.S
)
PART = re.compile(r"^ *(?:pub(?:\(crate\))? )?\w+: (.*),$|^ *\w+\((.*)\),$", re.M)
FIXED = {
    "u8",
    "u16",
    "u32",
    "u64",
    "usize",
    "bool",
    "ArrayVec",
    "Board",
    "Club",
    "FollowArgs",
    "FollowShape",
    "Global",
    "LiveArgs",
    "BoardState",
    "Option",
    "Profile",
    "Roster",
    "BoardHeader",
    # It has room for all events that can stand, from the start on.
    "StandingEvents",
}
# What is kept from one line to the next: the crate, the type, and types that have to be found among its parts.
KEPT = [
    ("ucl_live_runs", "Session", {"Phase", "OpenBoard"}),
    ("ucl_live_runs", "Follower", {"FollowState"}),
    ("ucl_io", "LineBuffer", {"Output"}),
]
# Where a lemma begins, or a module with parameters, in which lemmas stand two columns further in.
LEMMA = re.compile(r"( *)(?:(module _)\b|(?:pub )?([^\s:(){}]+) :(?: |$))")


def lines_of(top, *crates):
    """Each line of the code of these crates that is no comment, with where it stands."""
    for crate in crates:
        for path in sorted((top / "crates" / crate / "src").glob("**/*.rt")):
            for number, line in enumerate(path.read_text().split("\n"), 1):
                if not line.lstrip().startswith("//"):
                    yield path, f"{path.relative_to(top)}:{number}", line


def text_of(top, crate, part):
    """All texts of a part of a crate, as one."""
    return "\n".join(
        path.read_text() for path in sorted((top / "crates" / crate / part).glob("**/*.*t"))
    )


def boards_go_through_passes(top):
    """Any source loads, exchanges, waits and wakes through passes of a board alone, and makes none from nothing."""
    return [
        f"{at}: {line.strip()}"
        for _, at, line in lines_of(top, *sources.crates_of(top))
        if UNCOUNTED.search(line)
    ]


def kinds_of_step(top):
    """The kinds of step of a board are these, and stand in the file of its rule: each leaves a mark in the log. Each is taken by one call of the board's."""
    texts = collections.defaultdict(str, dict.fromkeys(KINDS, ""))
    for path, _, line in lines_of(top, *sources.crates_of(top)):
        texts[str(path.relative_to(top))] += f"{line.strip()} "
    told = (
        (file, ", ".join(" ".join(filter(None, step)) for step in STEP.findall(text)))
        for file, text in texts.items()
    )
    return [
        f"{file}: the steps are {steps}" for file, steps in told if steps != KINDS.get(file, "")
    ]


def steps_in(name, bodies, callers=()):
    """The steps and the loops in the texts of the functions of this name, and of those that they call but for the callers."""
    for taken, called in TAKEN.findall(bodies.get(name, "")):
        if taken:
            yield taken.replace("::<", " ")
        elif called not in (name, *callers):
            yield from steps_in(called, bodies, (name, *callers))


def bodies_of(top, crate):
    """The texts of a crate's functions, with no comment, by their names."""
    bodies = collections.defaultdict(str)
    for it in sources.functions_of(top / "crates" / crate):
        lines = (top / "crates" / crate / it.path).read_text().split("\n")
        bodies[it.name] += re.sub(r"//[^\n]*", "", "\n".join(lines[it.body : it.last + 1]))
    return bodies


def calls_take_their_steps(top):
    """Each call of a board takes the steps that are listed of it, and no other: so a bound counts each, or the page names it."""
    found = []
    for crate, listed in STEPS.items():
        bodies = bodies_of(top, crate)
        told = {name: ", ".join(steps_in(name, bodies)) for name in bodies}
        found += [
            f"{crate}: `{name}` takes the steps {told.get(name)}"
            for name, steps in listed.items()
            if told.get(name) != steps
        ]
    return found


def reached(name, called):
    """The functions that a function calls, that these call, and so on."""
    seen, waiting = set(), [name]
    while waiting:
        more = called.get(waiting.pop(), set()) - seen
        seen |= more
        waiting += more
    return seen


def calls_take_no_other_turns(top):
    """No code of a board or of C idles: its loops, closures and calls of others are listed, and no function calls itself."""
    found, uses = [], sources.crates_of(top)
    for crate, lent in CALLS.items():
        own = {
            it.name
            for used in [crate, *sources.below(uses, crate)]
            for it in sources.functions_of(top / "crates" / used)
        }
        called = {
            name: {*CALLED.findall(NAMESAKES.sub("", body))}
            for name, body in bodies_of(top, crate).items()
        }
        found += [
            f"{crate}: `{name}` calls `{it}`"
            for name, calls in called.items()
            for it in sorted(calls - own - {*lent.split()})
        ]
        found += [
            f"{crate}: `{name}` calls itself" for name in called if name in reached(name, called)
        ]
        turns = ", ".join(
            " ".join("".join(turn).split()) for turn in TURN.findall(code_of(top, crate))
        )
        found += [f"{crate}: its turns are {turns}"] if turns != TURNS.get(crate, "") else []
    return found


def leave_to_wait_is_passed_on(top):
    """No call of the word board has a name for its leave to wait, and `settle` only passes its own on to calls of its board."""
    return [
        f"{crate}: {it}"
        for crate, form in PASSED_ON.items()
        for it in LEAVE.findall(form.sub("", code_of(top, crate)))
    ]


def code_of(top, crate):
    """The code of a crate, with no comment."""
    return "\n".join(
        re.sub(r"//[^\n]*", "", path.read_text())
        for path in sorted((top / "crates" / crate / "src").glob("**/*.rt"))
    )


def devices_pass_on(top):
    """A source and a sink of std do what is listed, whatever the bytes, which no clause says."""
    text = " ".join(code_of(top, "ucl_io").split())
    return [
        f"no device has: {body}"
        for body in DEVICES
        if f"self.calls = self.calls.and(&(), &(), &()); {body}" not in text
    ]


def traits_are_listed(top):
    """What the types of the boards, of tables and of inputs implement is listed, however it is written; and no trait goes by another name."""
    found = []
    for crate, known in TRAITS.items():
        text = code_of(top, crate)
        has = collections.defaultdict(lambda: ([], []))
        for derived, name in DERIVES.findall(text):
            has[next((it for it in known if it.split("<")[0] == name), name)][0].extend(
                derived.replace(" ", "").replace("\n", "").split(",")
            )
        for trait, name in IMPL.findall(text):
            has[" ".join(name.split())][1].append(" ".join(trait.split()))
        told = {
            name: " ".join(
                [*sorted(filter(None, derived)), *(["|", *sorted(written)] if written else [])]
            )
            for name, (derived, written) in has.items()
        }
        found += [
            f"{crate}: `{name}` implements {told.get(name, 'nothing')}"
            for name in sorted({*told, *known})
            if told.get(name) != known.get(name)
        ]
        found += [f"{crate}: {' '.join(line.split())}" for line in ALIAS.findall(text)]
    return found


def one_sort_orders(top):
    """In crates of rules nothing is put in an order but the clubs of a group, by std's sort."""
    found = [
        (crate, it.group().strip())
        for crate in RULES
        for it in SORTS.finditer(" ".join(code_of(top, crate).split()))
    ]
    return (
        []
        if found == [("ucl_order", line) for line in SORTED]
        else [f"{crate}: {line}" for crate, line in found] or ["no sort"]
    )


def no_thread_is_told_of_threads(top):
    """A night says that there is no thread only where a worker's did not start."""
    rest, count = NO_THREAD.subn("", " ".join(code_of(top, "ucl_runs").split()))
    found = re.findall(r"[^;{}]*(?<!RunFault\.)NoThread[^;{}]*", rest)
    return found + ([] if count == 3 else [f"it is told of threads {count} times"])


def programs_are_one_call(top):
    """The `main` of each program for users makes one call, and ends with its result."""
    return [
        name
        for name in ("ucl_night", "ucl_live", "ucl_follow")
        if not MAIN.search(" ".join(code_of(top, name).split()))
    ]


def nothing_acts_when_let_go(top):
    """No value of any crate does anything when it is let go, but let go of its parts; and each is let go."""
    rest, count = LET_GO.subn(
        "", " ".join(" ".join(code_of(top, crate) for crate in sources.crates_of(top)).split())
    )
    return LETS_GO.findall(rest) + ([] if count == 3 else ["a handle is not let go as it was"])


def boards_hold_words_alone(top):
    """A board, a pass and a handle have these parts: no lock, and no copy. And no crate but of tests has anything else that threads share."""
    crates = [crate for crate in sources.crates_of(top) if not TESTS.search(crate)]
    text = re.sub(
        r"\bpub(\([^)]*\))? ",
        "",
        " ".join(" ".join(code_of(top, crate) for crate in crates).split()),
    )
    starts = [" ".join(part.split()[:3]) for part in PARTS]
    found = [f"not there: {part}" for part in PARTS if part not in text] + [
        f"declared again: {it}" for it in starts if text.count(it) > starts.count(it)
    ]
    return found + [
        f"{at}: {line.strip()}"
        for _, at, line in lines_of(top, *crates)
        if SHARED.search(line) and not SHARES.search(f"{at}: {line}")
    ]


def calls_are_listed_once(top):
    """The list of the times at which a source was called begins empty, and `take` alone adds to it, once. Devices of tests have lists of their own."""
    crates = [crate for crate in sources.crates_of(top) if not TESTS.search(crate)]
    found = [(at, line.strip()) for _, at, line in lines_of(top, *crates) if LISTS.search(line)]
    other = [
        f"{at}: lists when a source was called"
        for at, line in found
        if line not in LISTED or "/ucl_io/src/logged_io.rt:" not in at
    ]
    return other + (
        []
        if [line for _, line in found] == LISTED
        else ["logged_io.rt does not list each call of `take` once"]
    )


def parts_are_of_fixed_size(top):
    """What an evening and a follower keep from one step to the next has a fixed size, by their parts, theirs and so on."""
    found = []
    for crate, start, known in KEPT:
        parts = {
            name: {
                word
                for part in PART.findall(body)
                for word in re.findall(r"[A-Za-z]\w*", "".join(part))
                if not word.isupper()
            }
            for name, body in TYPE.findall(text_of(top, crate, "src"))
        }
        waiting, seen = [start], set()
        while waiting:
            name = waiting.pop()
            seen.add(name)
            others = parts.get(name, set()) - FIXED - seen
            waiting += others & set(parts)
            found += [
                f"{crate}: `{name}` has a part of type `{word}`"
                for word in sorted(others - set(parts))
            ]
        found += (
            []
            if known <= seen
            else [f"{crate}: only these were found of `{start}`: {', '.join(sorted(seen))}"]
        )
    return found


def handles_are_unchanged(top):
    """The file HANDLES is as it was from the start."""
    return (
        []
        if hashlib.sha256((top / "HANDLES").read_bytes()).hexdigest()[:12] == HANDLES
        else ["HANDLES was changed"]
    )


def wrong_bodies_fit(top):
    """Each wrong body fits the text, changes code, and names clauses that exist."""
    found = []
    for crate in sorted(path.parent for path in top.glob("crates/*/must-fail")):
        known = set()
        every = [
            it
            for folder in [
                crate,
                *(top / "crates" / it for it in sources.below(sources.crates_of(top), crate.name)),
            ]
            for it in sources.functions_of(folder)
        ]
        of_traits = {
            (it.trait, it.name): it.labels for it in every if it.trait and it.trait == it.owner
        }
        for it in every:
            known |= {it.named} | {
                f"{it.named} {label}"
                for label in it.labels or of_traits.get((it.trait, it.name), ())
            }
        for edit in sorted((crate / "must-fail").glob("*.edit")):
            name, broken = edit.relative_to(top), sources.broken_by(edit)
            found += [
                f"{name}: breaks {clause}, and there is no such clause"
                for clause in broken
                if clause not in known
            ]
            found += [] if broken else [f"{name}: it does not tell what it breaks"]
            found += (
                []
                if "file: src/" in edit.read_text()
                else [f"{name}: an edit of a definition or a proof shows nothing"]
            )
            try:
                sources.edited(crate, edit)
            except (OSError, ValueError) as error:
                found.append(f"{name}: {error}")
    return found


def names_are_defined_once(top):
    """A name is defined once over all specs/, so that it means one thing wherever it is read, but for a few."""
    files = collections.defaultdict(list)
    for path in sorted(top.glob("crates/*/specs/**/*.antt")):
        for name in DEFINED.findall(path.read_text()):
            files[name].append(str(path.relative_to(top / "crates")))
    return [
        f"{name}: defined in {', '.join(where)}"
        for name, where in files.items()
        if len(where) > 1 and name not in TWICE
    ]


def crates_use_what_they_stand_on(top):
    """A crate names each crate that crates.txt has it stand on; and the program of nights can open a word board alone."""
    found = (
        ["ucl_night stands on ucl_pass"]
        if "ucl_pass" in sources.crates_of(top)["ucl_night"]
        else []
    )
    for crate, uses in sources.crates_of(top).items():
        code, logic = text_of(top, crate, "src"), text_of(top, crate, "specs") + text_of(
            top, crate, "proofs"
        )
        named = lambda used: re.search(
            rf"(?<![\w.]){used}::|\bRattle\.{used}\b", code
        ) or re.search(rf"\bRattle\.{used}\b", logic)
        found += [
            f"{crate} stands on {used}, and does not name it" for used in uses if not named(used)
        ]
    return found


def lemmas_of(lines):
    """The lemmas of a file, each by its first line and its number of lines: to the last that is no comment before what comes next."""
    starts, base = [], 0
    texts = [
        (at, line)
        for at, line in enumerate(lines)
        if line.strip() and not line.strip().startswith("--")
    ]
    for at, line in texts:
        base = min(base, len(line) - len(line.lstrip()))
        begins = LEMMA.match(line)
        if begins and len(begins[1]) == base:
            starts.append((at, begins[3]))
            base += 2 if begins[2] else 0
    for (at, name), (end, _) in zip(starts, starts[1:] + [(len(lines), None)]):
        if name:
            yield at, max(number for number, _ in texts if at <= number < end) - at + 1


def proofs_are_short(top):
    """A line of a proof has at most 200 columns, and a lemma at most 60 lines."""
    found = []
    for path in sorted(top.glob("crates/*/proofs/**/*.antt")):
        name, lines = path.relative_to(top), path.read_text().split("\n")
        found += [
            f"{name}:{at + 1}: {len(line)} columns"
            for at, line in enumerate(lines)
            if len(line) > 200
        ]
        found += [
            f"{name}:{at + 1}: a lemma of {count} lines"
            for at, count in lemmas_of(lines)
            if count > 60
        ]
    return found


def scripts_are_clean(top):
    """ShellCheck finds nothing in a shell script; where it is not installed, that is told."""
    scripts = [
        path for path in sources.files_of(top) if re.match(rb"#!.*sh\n", path.read_bytes()[:40])
    ]
    if not shutil.which("shellcheck"):
        print("not looked at: shellcheck is not installed")
        return []
    ran = subprocess.run(
        ["shellcheck", "-f", "gcc", *map(str, scripts)],
        stdout=subprocess.PIPE,
        universal_newlines=True,
    )
    return [line.replace(f"{top}/", "") for line in ran.stdout.split("\n") if line]


LOOKS = [
    ("all go to the boards through passes", boards_go_through_passes),
    ("the kinds of step of the boards", kinds_of_step),
    ("what steps each call of a board takes", calls_take_their_steps),
    ("what loops, closures and calls of others the code of boards has", calls_take_no_other_turns),
    ("leave to wait is not used, or passed on", leave_to_wait_is_passed_on),
    ("what the types of boards and tables implement is listed", traits_are_listed),
    ("std's sort orders the clubs, and nothing else is ordered", one_sort_orders),
    ("no thread is told of threads alone", no_thread_is_told_of_threads),
    ("programs are one call", programs_are_one_call),
    ("nothing is done where a value is let go", nothing_acts_when_let_go),
    ("boards, passes and handles hold their parts alone", boards_hold_words_alone),
    ("a source's calls are listed where they are made", calls_are_listed_once),
    ("devices of std pass on what they are given", devices_pass_on),
    ("what an evening and a follower keep is of fixed size", parts_are_of_fixed_size),
    ("HANDLES is as it was", handles_are_unchanged),
    ("wrong bodies fit the text, and name clauses that exist", wrong_bodies_fit),
    ("each definition's name is defined once", names_are_defined_once),
    ("each crate uses what it stands on", crates_use_what_they_stand_on),
    ("lines of proofs and lemmas are short", proofs_are_short),
    ("shell scripts are clean", scripts_are_clean),
]
