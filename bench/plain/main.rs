//! References for the benchmark, in plain Rust with its standard library alone: boards, the table with its screen, `feed` and evenings. They do
//! what docs/RULES.md and docs/REFERENCE.md say, without a proof. `rustc -O --edition 2021 main.rs` builds them; bench/compare does so, and compares.

mod boards;
mod feed;
mod live;
mod measure;
mod nights;
mod records;
mod samples;
mod table;
mod trips;
mod word;

use boards::{Board, DoubleCollect, SequenceLock};
use nights::Plan;
use samples::Sample;
use std::io::{self, Write};
use std::process::ExitCode;
use std::sync::Mutex;
use std::{env, fs};
use word::Words;

const USAGE: &str = "plain run BOARD WORKLOAD MS              double_collect, sequence_lock or mutex; read, report, mix-R-W or paced-R-W
plain run table standings|screen MS FILE
                                        measures, and prints a line of JSON
plain screens FILE                      the screens of the boards of a file
plain boards KIND                       1,000 boards: mixed, evening, finished, goalless or fresh; 20,000: narrow
plain feed                              enters a script of events from standard input
plain live                              an evening: answers each row of standard input as it comes
plain echo                              writes each line of standard input back as it comes
plain trips ROW COUNT PROGRAM [WORD..]  a row to an evening's program and its answer back: the least time and the median, in nanoseconds";

/// Why nothing was done: the exit status, and what to say.
type Failure = (u8, String);

fn usage() -> Failure {
    (2, USAGE.to_string())
}

/// Nights by the name of a workload: `mix-R-W` or `paced-R-W`, with R readers, 0 to 16, and W reporters, 0 to 12.
fn plan_of(name: &str) -> Option<Plan> {
    let (style, numbers) = name.split_once('-')?;
    let (readers, reporters) = numbers.split_once('-')?;
    let number = |digits: &str, most| digits.parse().ok().filter(|number| *number <= most);
    Some(Plan {
        is_paced: match style {
            "mix" => false,
            "paced" => true,
            _ => return None,
        },
        readers: number(readers, 16)?,
        reporters: number(reporters, 12)?,
    })
}

/// Measures a board, and gives the figures.
fn measured<B: Board>(workload: &str, millis: u64) -> Result<String, Failure> {
    match workload {
        "read" => Ok(measure::measure_read::<B>(millis).to_string()),
        "report" => Ok(measure::measure_report::<B>(millis).to_string()),
        _ => Ok(nights::hold_nights::<B>(plan_of(workload).ok_or_else(usage)?, millis).to_string()),
    }
}

/// The board of a line: twelve words of hexadecimal digits.
fn board_of(line: &str) -> Option<Words> {
    let words = line
        .split(' ')
        .map(|digits| u64::from_str_radix(digits, 16).ok());
    words.collect::<Option<Vec<u64>>>()?.try_into().ok()
}

/// The boards of a file, one a line.
fn boards_in(path: &str) -> Result<Vec<Words>, Failure> {
    let text = fs::read_to_string(path).map_err(|error| (1, format!("{path}: {error}")))?;
    let boards: Option<Vec<Words>> = text.lines().map(board_of).collect();
    boards.ok_or_else(|| (1, format!("{path}: not boards, one a line")))
}

fn run(subject: &str, workload: &str, millis: &str, path: Option<&str>) -> Result<(), Failure> {
    let millis = millis.parse().map_err(|_| usage())?;
    let figures = match (subject, path) {
        ("double_collect", None) => measured::<DoubleCollect>(workload, millis)?,
        ("sequence_lock", None) => measured::<SequenceLock>(workload, millis)?,
        ("mutex", None) => measured::<Mutex<Words>>(workload, millis)?,
        ("table", Some(path)) => measure::measure_table(workload, &boards_in(path)?, millis)
            .ok_or_else(usage)?
            .to_string(),
        _ => return Err(usage()),
    };
    println!("{figures}");
    Ok(())
}

/// Prints the boards of a kind, one a line.
fn print_boards(kind: &str) -> Result<(), Failure> {
    let (_, sample) = Sample::ALL
        .into_iter()
        .find(|(name, _)| *name == kind)
        .ok_or_else(usage)?;
    for words in sample.boards() {
        println!("{}", words.map(|word| format!("{word:016x}")).join(" "));
    }
    Ok(())
}

/// The exit status and the text of an evening that did not end well.
fn failure_of(failure: live::Failure) -> Failure {
    match failure {
        live::Failure::Input(fault) => (fault.status(), fault.to_string()),
        live::Failure::Device(error) => (4, error.to_string()),
    }
}

/// Measures trips of a row, after the clubs and a first row.
fn print_trips(program: &[&str], row: &str, count: usize) -> Result<(), Failure> {
    let clubs: String = (1..)
        .zip(table::CLUBS)
        .map(|(slot, club)| format!("club,{slot},{},{}\n", club.name, club.coefficient))
        .collect();
    let row = format!("{row}\n");
    let lines = if program.contains(&"echo") { 5 } else { 1 };
    let times = trips::trips(program, &format!("{clubs}{row}"), lines, &row, count)
        .map_err(|error| (1, error.to_string()))?;
    let (least, median) = (times.first(), times.get(count / 2));
    let (Some(least), Some(median)) = (least, median) else {
        return Err(usage());
    };
    println!("{least} {median}");
    Ok(())
}

fn obey(words: &[&str]) -> Result<(), Failure> {
    match words {
        ["run", board, workload, millis] => run(board, workload, millis, None)?,
        ["run", board, workload, millis, path] => run(board, workload, millis, Some(path))?,
        ["screens", path] => {
            for words in boards_in(path)? {
                print!("{}", table::screen(&words, &table::CLUBS));
            }
        }
        ["boards", kind] => print_boards(kind)?,
        ["feed"] => {
            let text = feed::feed().map_err(|fault| (fault.status(), fault.to_string()))?;
            io::stdout()
                .write_all(&text)
                .map_err(|error| (4, error.to_string()))?;
        }
        ["live"] => live::live().map_err(failure_of)?,
        ["echo"] => live::echo().map_err(failure_of)?,
        ["trips", row, count, program @ ..] if !program.is_empty() => {
            let count = count.parse().map_err(|_| usage())?;
            print_trips(program, row, count)?;
        }
        _ => return Err(usage()),
    }
    Ok(())
}

fn main() -> ExitCode {
    let words: Vec<String> = env::args().skip(1).collect();
    let words: Vec<&str> = words.iter().map(String::as_str).collect();
    match obey(&words) {
        Ok(()) => ExitCode::SUCCESS,
        Err((status, text)) => {
            eprintln!("{text}");
            ExitCode::from(status)
        }
    }
}
