//! A row through a pipe to a program and its answer back, again and again.

use std::io::{self, BufRead, BufReader, Write};
use std::process::{Command, Stdio};
use std::time::Instant;

/// How long so many trips took, in nanoseconds, from the least to the most. The rows before them are written first; of these the last is
/// awaited, by so many lines.
pub fn trips(
    program: &[&str],
    before: &str,
    lines: usize,
    row: &str,
    count: usize,
) -> io::Result<Vec<u128>> {
    let mut child = Command::new(program[0])
        .args(&program[1..])
        .stdin(Stdio::piped())
        .stdout(Stdio::piped())
        .spawn()?;
    let (Some(mut input), Some(output)) = (child.stdin.take(), child.stdout.take()) else {
        return Err(io::ErrorKind::BrokenPipe.into());
    };
    let mut output = BufReader::new(output);
    let mut line = String::new();
    input.write_all(before.as_bytes())?;
    for _ in 0..lines {
        output.read_line(&mut line)?;
    }
    let mut times = Vec::with_capacity(count);
    for _ in 0..count {
        line.clear();
        let from = Instant::now();
        input.write_all(row.as_bytes())?;
        if output.read_line(&mut line)? == 0 {
            return Err(io::ErrorKind::UnexpectedEof.into());
        }
        times.push(from.elapsed().as_nanos());
    }
    drop(input);
    child.wait()?;
    times.sort_unstable();
    Ok(times)
}
