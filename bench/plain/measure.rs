//! What one thread measures: calls of a board that no other thread uses, and the table and the screen of the boards of a file.

use crate::boards::{events_of, read_once, report_once, Board, ALL_EVENTS};
use crate::table::{screen, standings, CLUBS};
use crate::word::{Event, Words};
use std::fmt;
use std::time::{Duration, Instant};

/// How many calls are timed as one.
const CHUNK: usize = 4096;

/// How many events are entered in each match before a board is read.
const EVENTS_BEFORE: u16 = 100;

/// The least time of some rounds of as many calls. The answers of a round are added up, so that no call is left out.
pub struct Least {
    calls: usize,
    time: Duration,
    answers: u64,
}

impl Least {
    fn of(calls: usize) -> Least {
        Least {
            calls,
            time: Duration::MAX,
            answers: 0,
        }
    }

    /// Times a round.
    fn time(&mut self, round: impl FnOnce() -> u64) {
        let begun = Instant::now();
        self.answers = round();
        self.time = self.time.min(begun.elapsed());
    }
}

impl fmt::Display for Least {
    fn fmt(&self, f: &mut fmt::Formatter) -> fmt::Result {
        let (calls, nanos, answers) = (self.calls, self.time.as_nanos(), self.answers);
        write!(
            f,
            "{{\"calls\":{calls},\"least_ns\":{nanos},\"answers\":{answers}}}"
        )
    }
}

/// Does something again and again for so many milliseconds, once at least.
fn for_millis(millis: u64, mut once: impl FnMut()) {
    let begun = Instant::now();
    loop {
        once();
        if begun.elapsed() >= Duration::from_millis(millis) {
            return;
        }
    }
}

/// Enters events, and adds up the numbers that they were given.
fn enter<B: Board>(board: &B, events: &[Event]) -> u64 {
    let numbers = events
        .iter()
        .filter_map(|event| report_once(board, 1, event));
    numbers.map(u64::from).sum()
}

/// Reads a board for so many milliseconds.
pub fn measure_read<B: Board>(millis: u64) -> Least {
    let board = B::fresh();
    enter(&board, &events_of(EVENTS_BEFORE));
    let mut least = Least::of(CHUNK);
    let versions = || {
        (0..CHUNK)
            .map(|_| u64::from(read_once(&board).version))
            .sum()
    };
    for_millis(millis, || least.time(versions));
    least
}

/// Enters all events of fresh boards for so many milliseconds, and times each whole chunk of them.
pub fn measure_report<B: Board>(millis: u64) -> Least {
    let events = events_of(ALL_EVENTS);
    let mut least = Least::of(CHUNK);
    for_millis(millis, || {
        let board = B::fresh();
        for chunk in events.chunks_exact(CHUNK) {
            least.time(|| enter(&board, chunk));
        }
    });
    least
}

/// A table that is really made: the call is not put into the caller, so its answer is made in full. Answers the slot of the first club.
#[inline(never)]
fn first_once(words: &Words) -> u64 {
    u64::from(standings(words, &CLUBS)[0].slot)
}

/// A screen that is really made, and how long it is.
#[inline(never)]
fn screen_once(words: &Words) -> u64 {
    screen(words, &CLUBS).len() as u64
}

/// Measures the table or the screen of boards; nothing for another name.
pub fn measure_table(name: &str, boards: &[Words], millis: u64) -> Option<Least> {
    let answer = match name {
        "standings" => first_once,
        "screen" => screen_once,
        _ => return None,
    };
    let mut least = Least::of(boards.len());
    for_millis(millis, || least.time(|| boards.iter().map(answer).sum()));
    Some(least)
}
