//! Three boards that threads share: twelve match words, each board with another way to read them all of one moment; and the events that are
//! entered in them.

use crate::word::{
    next_word, number_of, version_of, Event, Kind, Refusal, Side, Words, FRESH, LAST_NUMBER,
    LAST_NUMBER_IN_PLAY,
};
use std::array;
use std::hint::spin_loop;
use std::sync::atomic::{fence, AtomicU64, Ordering};
use std::sync::Mutex;

/// How many events a match takes.
pub const ALL_EVENTS: u16 = LAST_NUMBER;

/// The twelve words of one moment, and the sum of their event numbers.
pub struct Reading {
    pub words: Words,
    pub version: u16,
}

impl Reading {
    fn of(words: Words) -> Reading {
        let version = version_of(&words);
        Reading { words, version }
    }
}

/// A board.
pub trait Board: Send + Sync {
    /// The board on which no match has begun.
    fn fresh() -> Self;

    fn read(&self) -> Reading;

    /// Enters an event, and answers with the event number of its match after it.
    fn report(&self, reporter: u8, event: &Event) -> Result<u16, Refusal>;
}

/// A reading that is really taken: the call is not put into the caller, so its answer is made in full.
#[inline(never)]
pub fn read_once<B: Board>(board: &B) -> Reading {
    board.read()
}

/// A report that is really made, and the event number that it was given; nothing if it was refused.
#[inline(never)]
pub fn report_once<B: Board>(board: &B, reporter: u8, event: &Event) -> Option<u16> {
    board.report(reporter, event).ok()
}

/// The kind of a match's event: a kick-off, then a home goal and a home goal disallowed in turn, and last full time.
fn kind_at(expected: u16) -> Kind {
    match expected {
        0 => Kind::KickOff,
        LAST_NUMBER_IN_PLAY => Kind::FullTime,
        _ if expected % 2 == 1 => Kind::Goal(Side::Home),
        _ => Kind::Disallow(Side::Home),
    }
}

/// The first events of all matches, so many of each, one match after the other.
pub fn events_of(each: u16) -> Vec<Event> {
    let event = |game, expected| Event {
        game,
        expected,
        kind: kind_at(expected),
    };
    (1..=12)
        .flat_map(|game| (0..each).map(move |expected| event(game, expected)))
        .collect()
}

/// The index of an event's match.
fn index_of(event: &Event) -> usize {
    usize::from(event.game) - 1
}

/// Fresh words that threads may change one by one.
fn fresh_words() -> [AtomicU64; 12] {
    array::from_fn(|_| AtomicU64::new(FRESH))
}

/// A double collect: all words are loaded, and loaded again; where one is another, anew from the first. An event number never comes
/// again, so words that are the same stood at all times between. An event is entered by one compare and exchange of its match's word.
pub struct DoubleCollect {
    words: [AtomicU64; 12],
}

impl Board for DoubleCollect {
    fn fresh() -> DoubleCollect {
        DoubleCollect {
            words: fresh_words(),
        }
    }

    fn read(&self) -> Reading {
        loop {
            let words = array::from_fn(|i| self.words[i].load(Ordering::SeqCst));
            let is_same =
                |(shared, word): (&AtomicU64, &u64)| shared.load(Ordering::SeqCst) == *word;
            if self.words.iter().zip(&words).all(is_same) {
                return Reading::of(words);
            }
        }
    }

    fn report(&self, reporter: u8, event: &Event) -> Result<u16, Refusal> {
        let shared = &self.words[index_of(event)];
        let before = shared.load(Ordering::SeqCst);
        let after = next_word(before, reporter, event)?;
        match shared.compare_exchange(before, after, Ordering::SeqCst, Ordering::SeqCst) {
            Ok(_) => Ok(number_of(after)),
            Err(found) => Err(Refusal::Stale(number_of(found))),
        }
    }
}

/// A sequence lock: its count is odd while a reporter changes a word, and a reading that saw two counts is taken anew.
pub struct SequenceLock {
    count: AtomicU64,
    words: [AtomicU64; 12],
}

impl SequenceLock {
    /// Makes an even count odd, and gives it as it was.
    fn lock(&self) -> u64 {
        loop {
            let count = self.count.load(Ordering::Relaxed);
            let is_ours = |even| {
                self.count
                    .compare_exchange_weak(even, even + 1, Ordering::Acquire, Ordering::Relaxed)
                    .is_ok()
            };
            if count % 2 == 0 && is_ours(count) {
                fence(Ordering::Release);
                return count;
            }
            spin_loop();
        }
    }
}

impl Board for SequenceLock {
    fn fresh() -> SequenceLock {
        SequenceLock {
            count: AtomicU64::new(0),
            words: fresh_words(),
        }
    }

    fn read(&self) -> Reading {
        loop {
            let before = self.count.load(Ordering::Acquire);
            let words = array::from_fn(|i| self.words[i].load(Ordering::Relaxed));
            fence(Ordering::Acquire);
            if before % 2 == 0 && self.count.load(Ordering::Relaxed) == before {
                return Reading::of(words);
            }
            spin_loop();
        }
    }

    fn report(&self, reporter: u8, event: &Event) -> Result<u16, Refusal> {
        let count = self.lock();
        let shared = &self.words[index_of(event)];
        let after = next_word(shared.load(Ordering::Relaxed), reporter, event);
        if let Ok(word) = after {
            shared.store(word, Ordering::Relaxed);
        }
        self.count.store(count + 2, Ordering::Release);
        after.map(number_of)
    }
}

impl Board for Mutex<Words> {
    fn fresh() -> Mutex<Words> {
        Mutex::new([FRESH; 12])
    }

    fn read(&self) -> Reading {
        let words = *self.lock().expect("no thread has panicked");
        Reading::of(words)
    }

    fn report(&self, reporter: u8, event: &Event) -> Result<u16, Refusal> {
        let word = &mut self.lock().expect("no thread has panicked")[index_of(event)];
        *word = next_word(*word, reporter, event)?;
        Ok(number_of(*word))
    }
}
