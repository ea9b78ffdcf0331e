"""Looks and lists of checks/: a look finds a fault that is planted, and a list has what it is for."""

import functools
import re
import shutil
import sys

import pytest
from conftest import TOP, command

sys.path.insert(0, str(TOP / "checks"))

import looks_at_package
import looks_at_pages
import looks_at_sources

LOOKS = {
    look.__name__: look
    for of in (looks_at_sources, looks_at_package, looks_at_pages)
    for _, look in of.LOOKS
}
# Faults: what each is, the look that has to find it, and the file; a text that stands there once, or
# nothing for a new file, and what it becomes: `…` is the text itself, `¶` a line end; what is said.
FAULTS = """
a lock in a board: boards_hold_words_alone: crates/ucl_words/src/board.rt
    table: Table, ~> … lock: AtomicBool,
    not there: struct WordBoard { table: Table, }
a lock behind a handle: boards_hold_words_alone: crates/ucl_c/src/board_pass.rt
    pass: AnyPass, ~> … turn: Arc<Mutex<()>, Global>,
    not there: struct BoardPass { board: Arc<WordBoard, Global>, pass: AnyPass, }
another type behind a handle: boards_hold_words_alone: crates/ucl_c/src/board_pass.rt
    impl BoardPass { ~> mod turns { pub struct BoardPass {} } …
    declared again: struct BoardPass {
a lock of a night: boards_hold_words_alone: crates/ucl_runs/src/night.rt
    use std::sync::Wait; ~> use std::sync::{Mutex, Wait};
    use std::sync::{Mutex, Wait};
a report that counts handles: boards_hold_words_alone: crates/ucl_c/src/board_pass.rt
    Ok(self.board.report_now(pass, call)) ~> { let _one_more = Clone::clone(&self.board); … }
    let _one_more = Clone::clone(&self.board);
a reading that waits for handles: boards_hold_words_alone: crates/ucl_c/src/board_pass.rt
    Ok(self.board.read_now(pass)) ~> { while Arc::strong_count(&self.board) > 2 {} … }
    while Arc::strong_count(&self.board) > 2 {}
a load of its own kind: traits_are_listed: crates/ucl_words/src/board.rt
    impl WordBoard { ~> impl atomic_table::Play<Entry, View> for Glance {} …
    ucl_words: `Glance` implements | atomic_table::Play<Entry, View>
a trait by another name: traits_are_listed: crates/ucl_pass/src/passes.rt
    use std::marker::Model; ~> … use std::ops::{Drop as Quiet};
    ucl_pass: use std::ops::{Drop as Quiet};
an equality by hand: traits_are_listed: crates/ucl_board/src/reading.rt
    Debug, PartialEq, Eq)] ~> Debug, Eq)]
    ucl_board: `Reading` implements Clone Copy Debug Eq
rows of a table that are all equal: traits_are_listed: crates/ucl_order/src/table.rt
    Debug, PartialEq, Eq)] ~> Debug, Eq)]
    ucl_order: `Row` implements Clone Copy Debug Eq
a load of a handle's own kind: kinds_of_step: crates/ucl_c/src/board_pass.rt
    impl BoardPass { ~> impl Play<Entry, View> for Glance {} …
    the steps are Play Glance
a reading that writes: kinds_of_step: crates/ucl_words/src/board.rt
    load::<First>(seat, i + 1) ~> fetch_max::<First>(seat, i + 1, 0)
    compare_exchange_with Swap, fetch_max First, load Second
a reading of a cell that locks it: kinds_of_step: crates/ucl_pass/src/cell_board.rt
    load_as::<Reads, R>(rt, seat) ~> swap_as::<Reads, R>(rt, seat, words)
    compare_exchange_as Adds, swap_as Reads, split_pass SecondPass
a look of a handle: boards_go_through_passes: crates/ucl_c/src/board_pass.rt
    match &self.pass { ~> self.board.table().shared.peek(0); …
    self.board.table().shared.peek(0);
a wait of a night: boards_go_through_passes: crates/ucl_runs/src/workers.rt
    let mut last = None; ~> words.park_timeout(rt, 0, 0, A_SECOND); …
    words.park_timeout(rt, 0, 0, A_SECOND);
a wake by a program: boards_go_through_passes: crates/ucl_night/src/main.rt
    let alloc = rt.alloc(); ~> words.wake_all(0); …
    words.wake_all(0);
a reader that fails by what was read: devices_pass_on: crates/ucl_io/src/devices.rt
    let taken = self ~> if buf.starts_with(b"club") { return None; } …
    let taken = self.reader.read(buf).ok();
a byte at a time: devices_pass_on: crates/ucl_io/src/devices.rt
    self.writer.write(text) ~> self.writer.write(&text[..1])
    let given = match self.writer.write(text) {
a settling that idles: calls_take_their_steps: crates/ucl_live_board/src/settling.rt
    board.meet(rt, first, second); ~> … for _ in rt.forever() {}
    `settle` takes the steps for
a reading of C in a loop: calls_take_their_steps: crates/ucl_c/src/passes.rt
    words.copy_from_slice( ~> for (_, _) in words.iter().enumerate() {} …
    `uclboard_pass_read` takes the steps for
a pass that acts: nothing_acts_when_let_go: crates/ucl_words/src/passes.rt
    impl WordReporterPass { ~> impl ops::Drop for WordReporterPass { fn drop(self) {} } …
    impl ops::Drop for WordReporterPass { fn drop
a writer that writes a line more: nothing_acts_when_let_go: crates/ucl_io/src/devices.rt
    impl<W: Write> ToWrite<W> { ~> impl<W: Write + Drop> Drop for ToWrite<W> { fn drop(self) { self.tell(FORGED); } } …
    impl<W: Write + Drop> Drop for ToWrite<W> { fn drop
memory that is never given back: nothing_acts_when_let_go: crates/ucl_live_runs/src/open_board.rt
    let before = self.events.version(); ~> … mem::forget(text);
    forget
a handle that acts: nothing_acts_when_let_go: crates/ucl_c/src/calls.rt
    drop(self.take(alloc).into_box()); ~> report(self.take(alloc));
    fn let_go
a call of C that acts: nothing_acts_when_let_go: crates/ucl_c/src/passes.rt
    pass.let_go(alloc); ~> report(pass); …
    fn uclboard_pass_drop
a reading that idles: calls_take_no_other_turns: crates/ucl_words/src/board.rt
    return Reading::of( ~> (0..1_000_000_000_u32).for_each(|_| std::hint::spin_loop()); …
    ucl_words: `read_by` calls `for_each`
a report in a cell that idles: calls_take_no_other_turns: crates/ucl_pass/src/cell_board.rt
    pass.accepted += 1; ~> (0..1_000_000_000_u32).for_each(|_| std::hint::spin_loop()); …
    ucl_pass: `report` calls `for_each`
an event that idles: calls_take_no_other_turns: crates/ucl_word/src/rules.rt
    let changed = changed(word, kind)?; ~> for _ in 0..1_000_000_000_u32 {} …
    ucl_word: its turns are for _ in 0..1_000_000_000_u32
an event that idles by itself: calls_take_no_other_turns: crates/ucl_word/src/rules.rt
    let changed = changed(word, kind)?; ~> let _ = next_word(word, reporter, expected, kind); …
    ucl_word: `next_word` calls itself
a reading of C that idles: calls_take_no_other_turns: crates/ucl_c/src/passes.rt
    words.copy_from_slice( ~> (0..1_000_000_000_u32).for_each(|_| std::hint::spin_loop()); …
    ucl_c: `uclboard_pass_read` calls `for_each`
a report that waits: leave_to_wait_is_passed_on: crates/ucl_words/src/live_words.rt
    self.report_now(pass, call) ~> _rt.forever().for_each(|_| ()); …
    ucl_words: _rt
a settling that waits: leave_to_wait_is_passed_on: crates/ucl_live_board/src/settling.rt
    let reading = board. ~> rt.forever().for_each(|_| ()); …
    ucl_live_board: rt
a sort by hand: one_sort_orders: crates/ucl_order/src/order.rt
    clubs.sort_unstable(); ~> … let (first, second) = falling(first, second);
    ucl_order: let (first, second) = falling(first, second);
a sort of rows: one_sort_orders: crates/ucl_order/src/table.rt
    let (results, ended) = ~> rows.swap(0, 1); …
    ucl_order: rows.swap(0, 1);
a night of many readings without a thread: no_thread_is_told_of_threads: crates/ucl_runs/src/night.rt
    check_duty(&night.events)?; ~> … if readings > 30 { return Err(RunFault::NoThread); }
    return Err(RunFault::NoThread)
a follower without memory that ends well: programs_are_one_call: crates/ucl_follow/src/main.rt
    &mut errors, ~> … ) % 5
    ucl_follow
the record asks the prompt: imports_point_one_way: ucl_hall/record/log.py
    from typing import Protocol ~> …; from ucl_hall.terminal import words
    record.log imports terminal.words
the text is a terminal's: imports_point_one_way: ucl_hall/text.py
    import sys ~> …; import ucl_hall.terminal.words
    text imports terminal.words
a ring: imports_point_one_way: ucl_hall/record/log.py
    from typing import Protocol ~> …; from ucl_hall.record import record
    in a ring of imports: record.
a module of no part: imports_point_one_way: ucl_hall/other.py
     ~> import sys
    other: is in no part of the package
a long function: functions_are_short: ucl_hall/text.py
    import sys ~> …¶def long():¶    pass¶¶¶¶¶¶¶¶¶¶¶¶¶¶¶¶¶¶¶¶¶¶¶¶¶¶¶¶¶¶¶¶¶¶¶¶¶¶¶¶¶    pass
    text.long: 43 lines
a sentence of the record: storage_has_no_words: ucl_hall/record/file.py
    "record") ~> "the disk is full")
    'the disk is full'
other words on the page: refusals_are_as_they_are_told: docs/OPERATE.md
    is over; if it goes on, type 1 reopen ~> is over; if it goes on, type reopen
    finished: the page has ('match 1 is over; if it goes on, type reopen first'
other words on a phone: refusals_are_as_they_are_told: docs/OPERATE.md
    tap Kick-off first, or ~> tap Kick-off, or
    'tap Kick-off, or is it another match?'), and it is (
a refusal that is not on the page: refusals_are_as_they_are_told: docs/OPERATE.md
    | 7 | `no-caution` | ~> | 7 | `caution` |
    no-caution: is not on the page
a long line: lines_fit: docs/PROOF.md
    The answers are in JSON ~> … … … … … …
     columns
a long cell: lines_fit: docs/OPERATE.md
    tap Kick-off first, or ~> … … … … … … … … …
    : a cell of 
no reader: pages_name_their_readers: docs/OPERATE.md
    For whoever ~> To whoever
    docs/OPERATE.md: its third line does not begin with 'For'
a link to no file: links_lead_somewhere: CONTRIBUTING.md
    (docs/READING.md) ~> (docs/GONE.md)
    docs/GONE.md is not there
a link to no heading: links_lead_somewhere: CONTRIBUTING.md
    #where-a-thing-is ~> #another-place
    docs/ARCHITECTURE.md#another-place is not there
a quote that is not there: pages_quote: docs/PROOF.md
    pub within : ~> pub beside :
    docs/PROOF.md: these lines are not in crates/ucl_live_runs/specs/Moments.antt
a crate that is not trusted: crates_are_listed: crates.txt
    ucl_runs: ~> … libc
    libc: of the kit, and trusted or used alone
another kit: logic_sum_is_told: README.md
    print logic ~> … 0123456789abcdef or logic
    README.md: tells the logic sum 0123456789abcdef
"""
PLANTED = {
    name: row
    for name, *row in re.findall(r"^(\S.*): (\w+): (\S+)\n +(.*) ~> (.*)\n +(.*)$", FAULTS, re.M)
}


@pytest.fixture(scope="module")
def sources(tmp_path_factory):
    """A copy of the repository, in which tests plant their faults."""
    folder = tmp_path_factory.mktemp("planted") / "sources"
    return shutil.copytree(
        TOP, folder, True, shutil.ignore_patterns(".*", "__pycache__", "out", "library")
    )


@functools.lru_cache
def finds_nothing(look, sources):
    """Whether the look finds nothing where no fault is planted."""
    return look(sources) == []


@pytest.mark.quick
@pytest.mark.parametrize("look, file, old, new, said", PLANTED.values(), ids=PLANTED)
def test_planted(sources, look, file, old, new, said):
    """The look finds nothing in the sources, and says this where a fault is planted."""
    path, look = sources / file, LOOKS[look]
    text = path.read_text() if old else ""
    assert text.count(old) == 1 and finds_nothing(look, sources)
    path.write_text(text.replace(old, new.replace("…", old).replace("¶", "\n")))
    try:
        found = look(sources)
    finally:
        path.write_text(text) if old else path.unlink()
    assert any(said in line for line in found), found


# A definition of the calls of a program, what is kept, the types of that program, and what one of these names.
CLOSED = {
    "specs/Rule.antt": """-- A rule.
use Rattle.ucl_a.specs.declared.call.Call.{Call}

abbrev pub Holds : Call → Type 0
Holds call = Unit {0}
""",
    "specs/Kept.antt": """-- What is kept.
abbrev pub Log : Type 0
Log = Unit {0}

abbrev pub Unread : Type 0
Unread = Log
""",
    "src/call.rt": """ghost use Rattle.ucl_a.specs.Kept.{Log, Unread};

/// A call.
#[derive(Debug)]
pub enum Call {
    /// By a pass.
    By(Pass),
    Other,
}

pub struct Pass {
    pub ghost log: { Log },
}

pub struct Other;
""",
}


@pytest.mark.quick
def test_closure_has_types(tmp_path):
    """What one reads to believe a definition has the types of the program that it names, the types of their fields, and what those name."""
    for name, text in CLOSED.items():
        path = tmp_path / "crates/ucl_a" / name
        path.parent.mkdir(parents=True, exist_ok=True)
        path.write_text(text)
    (tmp_path / "checks").mkdir()
    shutil.copy(TOP / "checks/closure", tmp_path / "checks")
    assert command([tmp_path / "checks/closure", "Holds"]).output.splitlines() == [
        "ucl_a/Kept: 1 definitions, 2 lines",
        "ucl_a/Rule: 1 definitions, 2 lines",
        "ucl_a/src/call.rt: Call, Pass, 7 lines",
        "2 definitions, 4 lines in 2 files; 2 types, 7 lines; 0 names of the kit",
    ]


# What a list prints of one thing: how its text begins, and how later lines begin. A function has its
# comment and its clauses, those of its trait if it has none; a law its statement; a statement its
# parts; a file what it begins with, and each of its definitions with the comment above it.
PRINTED = {
    ("promises", "ucl_board"): {
        "Board::report\n    Enters an event in its match": [
            "    Errors: The [`Refusal`] by the first rule",
            "        reply: result ≡ reply_of",
            "            IsLegal: a legal history",
        ]
    },
    ("promises", "ucl_live_runs"): {"Session::answer\n": ["        stops: IfErr result (stops"]},
    ("promises", "ucl_words"): {"WordBoard::open (allocates)\n": []},
    ("promises", "ucl_order"): {"plus_is_certain\n": ["            PlusIsCertain: "]},
    ("promises", "ucl_runs"): {
        "IsNightEnd: how a night": [
            "    each reporter's pass has entered the reporter's rows",
            "        merge: IsInterleaving (numbers_of end) rows",
        ]
    },
    ("definitions", "ucl_board"): {
        "ucl_board/specs/History.antt: Histories: ": [
            "    IsLegal: a legal history: each entry is of a match of the group, and is accepted"
        ]
    },
    ("definitions",): {"ucl_io/specs/": [], "ucl_words/specs/": [], "ucl_c/specs/": []},
}


@pytest.mark.quick
@pytest.mark.parametrize("words, wanted", PRINTED.items(), ids=map(" ".join, PRINTED))
def test_lists(words, wanted):
    name, *crates = words
    texts = command([TOP / "checks" / name, *crates]).output.split("\n\n")
    for begins, lines in wanted.items():
        found = [text.strip() for text in texts if text.strip().startswith(begins)]
        assert found and all(f"\n{line}" in found[0] for line in lines)
