//! The board through an evening, by lines: each row is answered as text before more input is awaited. It begins on the board of no event.

use crate::feed::{club_of, push_number, push_reply, report_of, Fault};
use crate::records::{Record, Records};
use crate::table::{screen, Club};
use crate::word::{next_word, Words, FRESH};
use std::io::{self, BufRead, BufReader, Write};

/// How many bytes are asked for at a time, and wait to be written at most.
const PIECE: usize = 16_384;

/// The most bytes of a line, without its end.
const MOST_LINE: usize = 256;

/// Why an evening did not end well.
pub enum Failure {
    Input(Fault),
    Device(io::Error),
}

impl From<io::Error> for Failure {
    fn from(error: io::Error) -> Failure {
        Failure::Device(error)
    }
}

/// A board with the clubs of its group.
struct Table {
    clubs: [Club; 4],
    words: Words,
    version: usize,
}

/// The record of a line, where it is one of at most so many bytes whose quotes are closed.
fn read_record(line: &[u8], record: &mut Record) -> bool {
    let mut records = Records::of(line);
    line.len() <= MOST_LINE
        && records.read(record)
        && !record.is_open()
        && !records.read(&mut Record::default())
}

/// The line without its end.
fn without_end(line: &[u8]) -> &[u8] {
    let line = line.strip_suffix(b"\n").unwrap_or(line);
    line.strip_suffix(b"\r").unwrap_or(line)
}

impl Table {
    /// Appends the answer to a row.
    fn answer(&mut self, row: usize, record: Option<&Record>, text: &mut Vec<u8>) {
        let fields = record.and_then(Record::four_fields);
        if let Some([b"screen", b"", b"", b""]) = fields {
            text.extend_from_slice(screen(&self.words, &self.clubs).as_bytes());
        } else if let Some([b"words", b"", b"", b""]) = fields {
            for (index, word) in (1..).zip(self.words) {
                text.extend_from_slice(format!("word,{index},{word:016x},\n").as_bytes());
            }
        } else if let Some(report) = record.and_then(report_of) {
            let word = &mut self.words[usize::from(report.event.game) - 1];
            let reply = next_word(*word, report.reporter, &report.event);
            if let Ok(next) = reply {
                *word = next;
                self.version += 1;
            }
            push_number(text, row, b' ');
            push_reply(text, &report.event, reply, self.version);
        } else {
            push_number(text, row, b' ');
            text.extend_from_slice(b"refused 20 bad-row\n");
        }
    }
}

/// Lines of standard input, and what waits to be written.
struct Wire<R, W> {
    input: BufReader<R>,
    output: W,
    line: Vec<u8>,
    row: usize,
    text: Vec<u8>,
}

impl<R: io::Read, W: Write> Wire<R, W> {
    fn new(input: R, output: W) -> Wire<R, W> {
        Wire {
            input: BufReader::with_capacity(PIECE, input),
            output,
            line: Vec::new(),
            row: 0,
            text: Vec::with_capacity(2 * PIECE),
        }
    }

    /// Reads the next line, and tells whether there is one. What waits is written before more input is awaited.
    fn read_line(&mut self) -> io::Result<bool> {
        if self.text.len() >= PIECE || !self.input.buffer().contains(&b'\n') {
            self.flush()?;
        }
        self.line.clear();
        self.row += 1;
        Ok(self.input.read_until(b'\n', &mut self.line)? > 0)
    }

    fn flush(&mut self) -> io::Result<()> {
        self.output.write_all(&self.text)?;
        self.text.clear();
        self.output.flush()
    }

    /// Reads the next line with something on it.
    fn read_row(&mut self) -> io::Result<bool> {
        while self.read_line()? {
            if !without_end(&self.line).is_empty() {
                return Ok(true);
            }
        }
        Ok(false)
    }
}

/// The clubs of the first four rows.
fn read_clubs<R: io::Read, W: Write>(wire: &mut Wire<R, W>) -> Result<[Club; 4], Failure> {
    let mut record = Record::default();
    let mut clubs = Vec::new();
    let mut bad_slot = None;
    for slot in 1..=4 {
        let is_there = wire.read_row()? && read_record(without_end(&wire.line), &mut record);
        let club = is_there.then(|| club_of(&record, slot)).flatten();
        match club.ok_or(Failure::Input(Fault::Row(wire.row)))? {
            Some(club) => clubs.push(club),
            None => bad_slot = bad_slot.or(Some(slot)),
        }
    }
    clubs
        .try_into()
        .map_err(|_| Failure::Input(Fault::Slot(bad_slot.unwrap_or(1))))
}

/// Answers the rows of standard input until it ends.
pub fn live() -> Result<(), Failure> {
    let mut wire = Wire::new(io::stdin().lock(), io::stdout().lock());
    let mut table = Table {
        clubs: read_clubs(&mut wire)?,
        words: [FRESH; 12],
        version: 0,
    };
    let mut record = Record::default();
    while wire.read_row()? {
        let is_record = read_record(without_end(&wire.line), &mut record);
        table.answer(wire.row, is_record.then_some(&record), &mut wire.text);
    }
    Ok(wire.flush()?)
}

/// Writes each line of standard input back.
pub fn echo() -> Result<(), Failure> {
    let mut wire = Wire::new(io::stdin().lock(), io::stdout().lock());
    while wire.read_line()? {
        wire.text.extend_from_slice(&wire.line);
    }
    Ok(wire.flush()?)
}
