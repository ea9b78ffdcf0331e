//! A script of events, entered on a board of one thread: a reply for each event, and the twelve match words.

use crate::records::{Record, Records};
use crate::table::Club;
use crate::word::{next_word, number_of, Event, Kind, Refusal, Side, Words, FRESH};
use std::fmt;
use std::io::{self, Read};
use std::ops::RangeInclusive;

/// How many bytes a script has at most.
const MOST_BYTES: usize = 4_194_304;

/// Room for a reply line.
const REPLY_BYTES: usize = 24;

/// Why a script is not taken.
pub enum Fault {
    Row(usize),
    Slot(usize),
    TooLong,
    Reading(usize),
}

impl Fault {
    /// The exit status.
    pub fn status(&self) -> u8 {
        match self {
            Fault::Reading(_) => 4,
            _ => 3,
        }
    }
}

impl fmt::Display for Fault {
    fn fmt(&self, f: &mut fmt::Formatter) -> fmt::Result {
        match self {
            Fault::Row(row) => write!(f, "input refused 20: row {row}"),
            Fault::Slot(slot) => write!(f, "input refused 21: slot {slot}"),
            Fault::TooLong => f.write_str("input refused 24: too long"),
            Fault::Reading(bytes) => write!(f, "reading failed 22: after {bytes} bytes"),
        }
    }
}

/// An event with the number of its reporter.
pub struct Report {
    pub reporter: u8,
    pub event: Event,
}

/// The number of a field of so many decimal digits at most, where it is in a range.
fn number(field: &[u8], digits: usize, range: RangeInclusive<u32>) -> Option<u32> {
    if field.is_empty() || field.len() > digits || !field.iter().all(u8::is_ascii_digit) {
        return None;
    }
    let number = field
        .iter()
        .fold(0, |number, digit| 10 * number + u32::from(digit - b'0'));
    range.contains(&number).then_some(number)
}

fn kind_of(word: &[u8]) -> Option<Kind> {
    Some(match word {
        b"kickoff" => Kind::KickOff,
        b"goal-home" => Kind::Goal(Side::Home),
        b"goal-away" => Kind::Goal(Side::Away),
        b"disallow-home" => Kind::Disallow(Side::Home),
        b"disallow-away" => Kind::Disallow(Side::Away),
        b"yellow-home" => Kind::Yellow(Side::Home),
        b"yellow-away" => Kind::Yellow(Side::Away),
        b"second-yellow-home" => Kind::SecondYellow(Side::Home),
        b"second-yellow-away" => Kind::SecondYellow(Side::Away),
        b"red-home" => Kind::Red(Side::Home),
        b"red-away" => Kind::Red(Side::Away),
        b"fulltime" => Kind::FullTime,
        b"reopen" => Kind::Reopen,
        _ => return None,
    })
}

/// The club of a record in this slot; nothing where it is no such record, and no club where it can be in no roster.
pub fn club_of(record: &Record, slot: usize) -> Option<Option<Club>> {
    let [first, row, name, coefficient] = record.four_fields()?;
    let coefficient = number(coefficient, 9, 0..=999_999_999)?;
    if first != b"club" || row != slot.to_string().as_bytes() {
        return None;
    }
    let is_named =
        (1..=20).contains(&name.len()) && name.iter().all(|byte| (0x20..=0x7e).contains(byte));
    if !is_named || coefficient > 999_999 {
        return Some(None);
    }
    let name = String::from_utf8_lossy(name).into_owned().leak();
    Some(Some(Club { name, coefficient }))
}

/// The report of a row.
pub fn report_of(record: &Record) -> Option<Report> {
    let [reporter, game, expected, word] = record.four_fields()?;
    Some(Report {
        reporter: number(reporter, 3, 1..=255)? as u8,
        event: Event {
            game: number(game, 2, 1..=12)? as u8,
            expected: number(expected, 5, 0..=65_535)? as u16,
            kind: kind_of(word)?,
        },
    })
}

/// The reports of a script, or its first fault.
fn reports_of(input: &[u8]) -> Result<Vec<Report>, Fault> {
    let mut records = Records::of(input);
    let mut record = Record::default();
    let mut bad_slot = None;
    for slot in 1..=4 {
        let is_there = records.read(&mut record);
        let club = is_there.then(|| club_of(&record, slot)).flatten();
        if club.ok_or(Fault::Row(slot))?.is_none() {
            bad_slot = bad_slot.or(Some(slot));
        }
    }
    if let Some(slot) = bad_slot {
        return Err(Fault::Slot(slot));
    }
    let mut reports = Vec::new();
    while records.read(&mut record) {
        reports.push(report_of(&record).ok_or(Fault::Row(reports.len() + 5))?);
    }
    Ok(reports)
}

/// Appends a number in decimal digits, and a byte after it.
pub fn push_number(text: &mut Vec<u8>, number: usize, after: u8) {
    let mut digits = [0; 20];
    let mut first = digits.len();
    let mut rest = number;
    loop {
        first -= 1;
        digits[first] = b'0' + (rest % 10) as u8;
        rest /= 10;
        if rest == 0 {
            break;
        }
    }
    text.extend_from_slice(&digits[first..]);
    text.push(after);
}

/// Appends the reply to an event.
pub fn push_reply(text: &mut Vec<u8>, event: &Event, reply: Result<u64, Refusal>, version: usize) {
    match reply {
        Ok(word) => {
            text.extend_from_slice(b"ok ");
            push_number(text, usize::from(event.game), b' ');
            push_number(text, usize::from(number_of(word)), b' ');
            push_number(text, version, b'\n');
        }
        Err(refusal) => {
            text.extend_from_slice(b"refused ");
            text.extend_from_slice(refusal.text().as_bytes());
            if let Refusal::Stale(found) = refusal {
                text.push(b' ');
                push_number(text, usize::from(found), b'\n');
            } else {
                text.push(b'\n');
            }
        }
    }
}

/// The replies to the reports of a script, and the match words after them.
fn replies_to(reports: &[Report]) -> Vec<u8> {
    let mut text = Vec::with_capacity(REPLY_BYTES * (reports.len() + 24));
    let mut words: Words = [FRESH; 12];
    let mut version = 0;
    for (row, Report { reporter, event }) in (5..).zip(reports) {
        let word = &mut words[usize::from(event.game) - 1];
        let reply = next_word(*word, *reporter, event);
        if let Ok(next) = reply {
            *word = next;
            version += 1;
        }
        push_number(&mut text, row, b' ');
        push_reply(&mut text, event, reply, version);
    }
    for (index, word) in (1..).zip(words) {
        text.extend_from_slice(format!("word,{index},{word:016x},\n").as_bytes());
    }
    text
}

/// The whole input.
fn read_all(source: impl Read) -> Result<Vec<u8>, Fault> {
    let mut input = Vec::new();
    let most = MOST_BYTES as u64 + 1;
    if source.take(most).read_to_end(&mut input).is_err() {
        return Err(Fault::Reading(input.len()));
    }
    if input.len() > MOST_BYTES {
        return Err(Fault::TooLong);
    }
    Ok(input)
}

/// What `feed` writes of a script on standard input.
pub fn feed() -> Result<Vec<u8>, Fault> {
    let input = read_all(io::stdin().lock())?;
    Ok(replies_to(&reports_of(&input)?))
}
