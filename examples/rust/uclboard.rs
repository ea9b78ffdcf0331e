//! The table board of one group of the UEFA Champions League: safe functions over the library's calls, and its boards that threads share.
//!
//! All that is `unsafe` stands in this crate. What the library does not do it answers by a [`Refused`], with its status.

use std::fmt;
use std::os::raw::c_char;
use std::ptr::null_mut;

/// How many words a board has, and how many clubs a group.
pub const WORDS: usize = 12;
pub const CLUBS: usize = 4;
/// The word of a match before its kick-off. A new board is twelve of them.
pub const SCHEDULED_WORD: u64 = 0x2000_0000_0000_0000;
/// The version of the library that this crate is for.
pub const VERSION_NUMBER: u32 = 1_000_000;
const NAME: usize = 20;
const SCREEN_ROOM: usize = 320;
const JSON_ROOM: usize = 1536;
const NAME_ROOM: usize = 32;

/// The kind of an event.
#[repr(u32)]
#[derive(Clone, Copy, Debug, PartialEq, Eq)]
pub enum Kind {
    KickOff,
    GoalHome,
    GoalAway,
    DisallowHome,
    DisallowAway,
    YellowHome,
    YellowAway,
    SecondYellowHome,
    SecondYellowAway,
    RedHome,
    RedAway,
    FullTime,
    Reopen,
}

/// The kinds by the words of a script.
const KINDS: [(&str, Kind); 13] = [
    ("kickoff", Kind::KickOff),
    ("goal-home", Kind::GoalHome),
    ("goal-away", Kind::GoalAway),
    ("disallow-home", Kind::DisallowHome),
    ("disallow-away", Kind::DisallowAway),
    ("yellow-home", Kind::YellowHome),
    ("yellow-away", Kind::YellowAway),
    ("second-yellow-home", Kind::SecondYellowHome),
    ("second-yellow-away", Kind::SecondYellowAway),
    ("red-home", Kind::RedHome),
    ("red-away", Kind::RedAway),
    ("fulltime", Kind::FullTime),
    ("reopen", Kind::Reopen),
];

impl Kind {
    /// The kind that a script calls by this word.
    pub fn named(word: &str) -> Option<Kind> {
        KINDS.iter().find(|(name, _)| *name == word).map(|(_, kind)| *kind)
    }
}

/// The order of clubs that are level on points: that of the Regulations, or with away goals after goals scored in the matches among them.
#[repr(u32)]
#[derive(Clone, Copy, Debug, PartialEq, Eq)]
pub enum Profile {
    Uefa,
    AwayInTie,
}

/// The record of a match. `state` is 0 scheduled, 1 in play, 2 finished.
#[repr(C)]
#[derive(Clone, Copy, Debug, Default, PartialEq, Eq)]
pub struct Match {
    pub number: u32,
    pub state: u32,
    pub home_goals: u32,
    pub away_goals: u32,
    pub home_yellows: u32,
    pub away_yellows: u32,
    pub home_expulsions: u32,
    pub away_expulsions: u32,
    pub reporter: u32,
}

/// A club as the library takes it: the name in its first bytes, and how many they are.
#[repr(C)]
#[derive(Clone, Copy, Debug, Default, PartialEq, Eq)]
pub struct Club {
    name: [u8; NAME],
    length: u32,
    pub coefficient: u32,
}

impl Club {
    /// A club of this name and coefficient, in thousandths. A name that is too long is kept as too long, so that the library refuses it.
    pub fn new(name: &str, coefficient: u32) -> Club {
        let length = u32::try_from(name.len()).unwrap_or(u32::MAX);
        let mut club = Club { length, coefficient, ..Club::default() };
        let kept = name.len().min(NAME);
        club.name[..kept].copy_from_slice(&name.as_bytes()[..kept]);
        club
    }

    /// The name.
    pub fn name(&self) -> String {
        String::from_utf8_lossy(&self.name[..NAME.min(self.length as usize)]).into_owned()
    }
}

/// A club at its place of the table. `mark` is 0 blank, 1 plus, 2 minus.
#[repr(C)]
#[derive(Clone, Copy, Debug, Default, PartialEq, Eq)]
pub struct Row {
    pub slot: u32,
    pub place: u32,
    pub mark: u32,
    pub played: u32,
    pub wins: u32,
    pub draws: u32,
    pub losses: u32,
    pub goals_for: u32,
    pub goals_against: u32,
    pub points: u32,
}

/// What became of an event of a script: `status` is 0 where it was entered, else the rule that refuses it.
#[repr(C)]
#[derive(Clone, Copy, Debug, Default, PartialEq, Eq)]
pub struct Reply {
    pub row: u32,
    pub match_number: u32,
    pub status: u32,
    pub event_number: u32,
    pub version: u32,
}

/// A script that was played: its clubs, the words after its events, and a reply for each.
#[derive(Clone, Debug)]
pub struct Night {
    pub clubs: [Club; CLUBS],
    pub words: [u64; WORDS],
    pub replies: Vec<Reply>,
}

/// Twelve words of one moment, and how many events had been entered by then.
#[derive(Clone, Copy, Debug, PartialEq, Eq)]
pub struct Reading {
    pub words: [u64; WORDS],
    pub version: u32,
}

/// A status that is not 0, and the number found, the word, the row or the slot where the status has one; else 0.
#[derive(Clone, Copy, Debug, PartialEq, Eq)]
pub struct Refused {
    pub status: u32,
    pub told: u32,
}

impl fmt::Display for Refused {
    fn fmt(&self, f: &mut fmt::Formatter<'_>) -> fmt::Result {
        write!(f, "{} {}, {}", self.status, name_of(self.status), self.told)
    }
}

impl std::error::Error for Refused {}

/// What a handle points to. Nothing of it is known.
#[repr(C)]
struct Opaque {
    nothing: [u8; 0],
}

#[rustfmt::skip]
#[link(name = "uclboard", kind = "static")]
extern "C" {
    fn uclboard_version() -> u32;
    fn uclboard_next_word(word: u64, reporter: u32, expected: u32, kind: u32, next: *mut u64, found: *mut u32) -> u32;
    fn uclboard_read_word(word: u64, read: *mut u64) -> u32;
    fn uclboard_match_of(word: u64, out: *mut Match) -> u32;
    fn uclboard_board_version(words: *const u64, words_length: usize, version: *mut u32, at: *mut u32) -> u32;
    fn uclboard_standings(
        words: *const u64, words_length: usize, coefficients: *const u32, coefficients_length: usize, profile: u32,
        rows: *mut Row, rows_length: usize, at: *mut u32,
    ) -> u32;
    fn uclboard_screen(
        words: *const u64, words_length: usize, clubs: *const Club, clubs_length: usize, group: u32, profile: u32,
        out: *mut c_char, out_length: usize, length: *mut usize, at: *mut u32,
    ) -> u32;
    fn uclboard_screen_length(
        words: *const u64, words_length: usize, clubs: *const Club, clubs_length: usize, group: u32, profile: u32,
        length: *mut usize, at: *mut u32,
    ) -> u32;
    fn uclboard_screen_json(
        row: u64, words: *const u64, words_length: usize, clubs: *const Club, clubs_length: usize, group: u32, profile: u32,
        out: *mut c_char, out_length: usize, length: *mut usize, at: *mut u32,
    ) -> u32;
    fn uclboard_script(
        script: *const c_char, script_length: usize, clubs: *mut Club, clubs_length: usize, words: *mut u64, words_length: usize,
        replies: *mut Reply, replies_length: usize, count: *mut usize, at: *mut u32,
    ) -> u32;
    fn uclboard_text_of_status(status: u32, out: *mut c_char, out_length: usize, length: *mut usize) -> u32;
    fn uclboard_open(pass: *mut *mut Opaque) -> u32;
    fn uclboard_pass_split(pass: *mut *mut Opaque, other: *mut *mut Opaque) -> u32;
    fn uclboard_pass_enlist(pass: *mut *mut Opaque, other: *mut *mut Opaque) -> u32;
    fn uclboard_pass_report(pass: *mut *mut Opaque, game: u32, expected: u32, kind: u32, number: *mut u32) -> u32;
    fn uclboard_pass_number(pass: *mut *mut Opaque, number: *mut u32) -> u32;
    fn uclboard_pass_read(pass: *mut *mut Opaque, words: *mut u64, words_length: usize, version: *mut u32) -> u32;
    fn uclboard_pass_drop(pass: *mut *mut Opaque);
}

// Of each `unsafe` block below: every pointer is that of a value or a slice of its own, with its length beside it, and what a call writes to is
// borrowed by nothing else. That is all that the library asks.

fn done(status: u32, told: u32) -> Result<(), Refused> {
    if status == 0 {
        Ok(())
    } else {
        Err(Refused { status, told })
    }
}

/// The version of the library.
pub fn version() -> u32 {
    unsafe { uclboard_version() }
}

/// The word of a match after an event.
pub fn next_word(word: u64, reporter: u32, expected: u32, kind: Kind) -> Result<u64, Refused> {
    let (mut next, mut found) = (0, 0);
    let status = unsafe { uclboard_next_word(word, reporter, expected, kind as u32, &mut next, &mut found) };
    done(status, found).map(|()| next)
}

/// The word of today's layout of a word of today's or the first layout.
pub fn read_word(word: u64) -> Result<u64, Refused> {
    let mut read = 0;
    let status = unsafe { uclboard_read_word(word, &mut read) };
    done(status, 0).map(|()| read)
}

/// The record of a word.
pub fn match_of(word: u64) -> Result<Match, Refused> {
    let mut out = Match::default();
    let status = unsafe { uclboard_match_of(word, &mut out) };
    done(status, 0).map(|()| out)
}

/// The sum of the event numbers of twelve words.
pub fn board_version(words: &[u64]) -> Result<u32, Refused> {
    let (mut version, mut at) = (0, 0);
    let status = unsafe { uclboard_board_version(words.as_ptr(), words.len(), &mut version, &mut at) };
    done(status, at).map(|()| version)
}

/// The rows of the table of twelve words and four coefficients, by places.
#[rustfmt::skip]
pub fn standings(words: &[u64], coefficients: &[u32], profile: Profile) -> Result<[Row; CLUBS], Refused> {
    let (mut rows, mut at) = ([Row::default(); CLUBS], 0);
    let status = unsafe {
        uclboard_standings(
            words.as_ptr(), words.len(), coefficients.as_ptr(), coefficients.len(), profile as u32, rows.as_mut_ptr(), rows.len(), &mut at,
        )
    };
    done(status, at).map(|()| rows)
}

/// The screen of twelve words and four clubs.
#[rustfmt::skip]
pub fn screen(words: &[u64], clubs: &[Club], group: char, profile: Profile) -> Result<String, Refused> {
    let (mut out, mut length, mut at) = ([0u8; SCREEN_ROOM], 0, 0);
    let status = unsafe {
        uclboard_screen(
            words.as_ptr(), words.len(), clubs.as_ptr(), clubs.len(), group as u32, profile as u32,
            out.as_mut_ptr().cast(), out.len(), &mut length, &mut at,
        )
    };
    done(status, at).map(|()| String::from_utf8_lossy(&out[..length]).into_owned())
}

/// How many bytes that screen has.
#[rustfmt::skip]
pub fn screen_length(words: &[u64], clubs: &[Club], group: char, profile: Profile) -> Result<usize, Refused> {
    let (mut length, mut at) = (0, 0);
    let status = unsafe {
        uclboard_screen_length(
            words.as_ptr(), words.len(), clubs.as_ptr(), clubs.len(), group as u32, profile as u32, &mut length, &mut at,
        )
    };
    done(status, at).map(|()| length)
}

/// That screen as a line of JSON, which says that it answers this row.
#[rustfmt::skip]
pub fn screen_json(row: u64, words: &[u64], clubs: &[Club], group: char, profile: Profile) -> Result<String, Refused> {
    let (mut out, mut length, mut at) = ([0u8; JSON_ROOM], 0, 0);
    let status = unsafe {
        uclboard_screen_json(
            row, words.as_ptr(), words.len(), clubs.as_ptr(), clubs.len(), group as u32, profile as u32,
            out.as_mut_ptr().cast(), out.len(), &mut length, &mut at,
        )
    };
    done(status, at).map(|()| String::from_utf8_lossy(&out[..length]).into_owned())
}

/// Plays a whole script, the bytes of its rows.
#[rustfmt::skip]
pub fn play(script: &[u8]) -> Result<Night, Refused> {
    let room = 1 + script.iter().filter(|byte| matches!(byte, b'\n' | b'\r')).count();
    let (mut clubs, mut words, mut replies) = ([Club::default(); CLUBS], [0; WORDS], vec![Reply::default(); room]);
    let (mut count, mut at) = (0, 0);
    let status = unsafe {
        uclboard_script(
            script.as_ptr().cast(), script.len(), clubs.as_mut_ptr(), clubs.len(), words.as_mut_ptr(), words.len(),
            replies.as_mut_ptr(), replies.len(), &mut count, &mut at,
        )
    };
    done(status, at)?;
    replies.truncate(count);
    Ok(Night { clubs, words, replies })
}

/// The name of a status.
pub fn name_of(status: u32) -> String {
    let (mut out, mut length) = ([0u8; NAME_ROOM], 0);
    let told = unsafe { uclboard_text_of_status(status, out.as_mut_ptr().cast(), out.len(), &mut length) };
    if told == 0 {
        String::from_utf8_lossy(&out[..length]).into_owned()
    } else {
        format!("status {status}")
    }
}

/// A pass of a board that threads share: a reader's, or a reporter's. The board is there as long as one of its passes is. No call waits.
///
/// A pass may be sent to another thread, and is in one call at a time: it is `Send`, and not `Sync`.
pub struct Pass {
    at: *mut Opaque,
}

// SAFETY: the library proves that what a handle owns may go to another thread, and the pass is the only one that has the handle.
unsafe impl Send for Pass {}

impl Pass {
    fn given(status: u32, at: *mut Opaque) -> Result<Pass, Refused> {
        done(status, 0).map(|()| Pass { at })
    }

    /// A new board, and its first pass, a reader's.
    pub fn open() -> Result<Pass, Refused> {
        let mut at = null_mut();
        let status = unsafe { uclboard_open(&mut at) };
        Pass::given(status, at)
    }

    /// A second reader's pass of the same board. Refused where this is a reporter's.
    pub fn split(&mut self) -> Result<Pass, Refused> {
        let mut other = null_mut();
        let status = unsafe { uclboard_pass_split(&mut self.at, &mut other) };
        Pass::given(status, other)
    }

    /// A reporter's pass of the same board, under a number of its own. Refused where this is a reporter's.
    pub fn enlist(&mut self) -> Result<Pass, Refused> {
        let mut other = null_mut();
        let status = unsafe { uclboard_pass_enlist(&mut self.at, &mut other) };
        Pass::given(status, other)
    }

    /// Enters an event of a match, 1 to 12, under the number of this reporter's pass: the match's event number after it. A stale event tells
    /// the number found.
    pub fn report(&mut self, game: u32, expected: u32, kind: Kind) -> Result<u32, Refused> {
        let mut number = 0;
        let status = unsafe { uclboard_pass_report(&mut self.at, game, expected, kind as u32, &mut number) };
        done(status, number).map(|()| number)
    }

    /// The number of this reporter's pass, by which its events stand in words.
    pub fn number(&mut self) -> Result<u32, Refused> {
        let mut number = 0;
        let status = unsafe { uclboard_pass_number(&mut self.at, &mut number) };
        done(status, 0).map(|()| number)
    }

    /// The board as it stood at one moment of the call.
    pub fn read(&mut self) -> Result<Reading, Refused> {
        let (mut words, mut version) = ([0; WORDS], 0);
        let status = unsafe { uclboard_pass_read(&mut self.at, words.as_mut_ptr(), words.len(), &mut version) };
        done(status, 0).map(|()| Reading { words, version })
    }
}

impl Drop for Pass {
    fn drop(&mut self) {
        unsafe { uclboard_pass_drop(&mut self.at) }
    }
}
