//! A night in Rust: two reporters and two screens in threads, each with a pass of one board. It reads a script, and writes the closing screen, as
//! `ucl_night night` does.
//!
//!     cargo run --manifest-path examples/rust/Cargo.toml -- A < examples/first_night.csv

use std::error::Error;
use std::io::Read;
use std::process::ExitCode;
use std::thread;
use uclboard::{Club, Kind, Pass, Profile, Refused, CLUBS};

const READINGS: u32 = 50;

/// A row of a script.
struct Event {
    reporter: usize,
    game: u32,
    expected: u32,
    kind: Kind,
}

/// The event of a good row, which has no quote but those around a field.
fn event_of(row: &str) -> Result<Event, Box<dyn Error>> {
    let row = row.replace('"', "");
    let fields: Vec<&str> = row.split(',').collect();
    let [reporter, game, expected, kind] = fields[..] else { return Err("no row of an event".into()) };
    let kind = Kind::named(kind).ok_or("no kind of event")?;
    Ok(Event { reporter: reporter.parse()?, game: game.parse()?, expected: expected.parse()?, kind })
}

/// The clubs and the events of a script, once the library has found it good: then no row has a line end within it.
fn read(script: &[u8]) -> Result<([Club; CLUBS], Vec<Event>), Box<dyn Error>> {
    let night = uclboard::play(script)?;
    let rows = std::str::from_utf8(script)?.trim_start_matches('\u{feff}').split(['\r', '\n']).filter(|row| !row.is_empty());
    let events = rows.skip(CLUBS).map(event_of).collect::<Result<Vec<Event>, _>>()?;
    match events.iter().zip(&night.replies).find(|(event, _)| event.reporter > 2) {
        Some((_, reply)) => Err(format!("row {} is of a reporter other than 1 and 2", reply.row).into()),
        None => Ok((night.clubs, events)),
    }
}

/// Enters the events of one reporter, in turn. One that the rules refuse is not entered again.
fn report(mut pass: Pass, number: usize, events: &[Event]) -> Result<(), Refused> {
    for event in events.iter().filter(|event| event.reporter == number) {
        match pass.report(event.game, event.expected, event.kind) {
            Err(refused) if refused.status > 9 => return Err(refused),
            _ => {}
        }
    }
    Ok(())
}

/// Reads the board, and sees that its versions never fall.
fn watch(mut pass: Pass) -> Result<bool, Refused> {
    let (mut seen, mut is_whole) = (0, true);
    for _ in 0..READINGS {
        let reading = pass.read()?;
        is_whole &= reading.version >= seen && uclboard::board_version(&reading.words)? == reading.version;
        seen = reading.version;
    }
    Ok(is_whole)
}

fn night() -> Result<(), Box<dyn Error>> {
    let options: Vec<String> = std::env::args().skip(1).collect();
    let group = options.first().and_then(|word| word.chars().next()).unwrap_or('A');
    let profile = if options.get(1).is_some_and(|word| word == "away-in-tie") { Profile::AwayInTie } else { Profile::Uefa };
    if uclboard::version() / 1_000_000 != uclboard::VERSION_NUMBER / 1_000_000 {
        return Err("another version of the library".into());
    }
    let mut script = Vec::new();
    std::io::stdin().read_to_end(&mut script)?;
    let (clubs, events) = read(&script)?;
    let events = &events[..];
    let mut first = Pass::open()?;
    let (reporters, screens) = ([first.enlist()?, first.enlist()?], [first.split()?, first.split()?]);
    thread::scope(|threads| -> Result<(), Box<dyn Error>> {
        let watching = screens.map(|pass| threads.spawn(move || watch(pass)));
        let mut number = 0;
        let reporting = reporters.map(|pass| {
            number += 1;
            let number = number;
            threads.spawn(move || report(pass, number, events))
        });
        for thread in reporting {
            thread.join().map_err(|_| "a reporter has failed")??;
        }
        for thread in watching {
            if !thread.join().map_err(|_| "a screen has failed")?? {
                return Err("words of no one moment, or a version that has fallen".into());
            }
        }
        Ok(())
    })?;
    print!("FINAL\n{}", uclboard::screen(&first.read()?.words, &clubs, group, profile)?);
    Ok(())
}

fn main() -> ExitCode {
    match night() {
        Ok(()) => ExitCode::SUCCESS,
        Err(fault) => {
            eprintln!("night: {fault}");
            ExitCode::FAILURE
        }
    }
}
