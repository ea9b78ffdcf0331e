//! As `every_call.c`, over the crate in Rust.

use std::io::{self, Read};
use uclboard::{Kind, Pass, Profile::AwayInTie, Refused, SCHEDULED_WORD};

fn of_a_match() -> Result<(), Refused> {
    let next = uclboard::next_word(SCHEDULED_WORD, 2, 0, Kind::KickOff)?;
    let found = uclboard::next_word(next, 2, 9, Kind::GoalAway).expect_err("a stale event").told;
    let read = uclboard::read_word(0x003f_ffff_ffff_fbff)?;
    let it = uclboard::match_of(read)?;
    println!("next {next:016x} found {found}\nread {read:016x} {} {}", it.number, it.reporter);
    Ok(())
}

fn of_words(words: &[u64], clubs: &[uclboard::Club]) -> Result<(), Refused> {
    let coefficients: Vec<u32> = clubs.iter().map(|club| club.coefficient).collect();
    println!("version {}", uclboard::board_version(words)?);
    for it in uclboard::standings(words, &coefficients, AwayInTie)? {
        println!("row {} {}", it.slot, it.points);
    }
    println!("length {}", uclboard::screen_length(words, clubs, 'C', AwayInTie)?);
    let text = uclboard::screen(words, clubs, 'C', AwayInTie)?;
    let line = uclboard::screen_json(77, words, clubs, 'C', AwayInTie)?;
    print!("{} {text}{} {line}", text.len(), line.len());
    Ok(())
}

fn of_a_script(script: &[u8]) -> Result<(), Refused> {
    let night = uclboard::play(script)?;
    for it in &night.clubs {
        println!("club {} {}", it.name(), it.coefficient);
    }
    let it = night.replies.last().expect("a reply");
    println!("reply {} {} {} {} {}", it.row, it.match_number, it.status, it.event_number, it.version);
    of_words(&night.words, &night.clubs)
}

fn of_a_shared_board() -> Result<(), Refused> {
    let mut first = Pass::open()?;
    let (mut screen, _one, mut two) = (first.split()?, first.enlist()?, first.enlist()?);
    drop(first);
    let (number, event) = (two.number()?, two.report(3, 0, Kind::KickOff)?);
    let reading = screen.read()?;
    println!("shared 1 {number} {event} {:016x} {}", reading.words[2], reading.version);
    Ok(())
}

fn main() -> Result<(), Box<dyn std::error::Error>> {
    let mut script = Vec::new();
    io::stdin().read_to_end(&mut script)?;
    let name = uclboard::name_of(8);
    println!("library {}\nname {} {name}", uclboard::version(), name.len());
    of_a_match()?;
    of_a_script(&script)?;
    of_a_shared_board()?;
    Ok(())
}
