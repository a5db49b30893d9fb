//! How fast `replay` is on a long trace, and how much memory it takes: document 01's session of two pages over and over, each turn
//! with the numbers that come next. What must be printed is known from the session's rows, so no model has to run that long.

use crate::model::record::Record;
use crate::traces::folder::difference;
use crate::traces::program::{Pieces, Program, feed};
use std::io::Read;
use std::time::Instant;

/// A record of the session, and its line without the place. `before` numbers were given in the turns before.
fn session(before: u32) -> Vec<(Record, String)> {
    let create = |block, offset, data: &[u8], named: &[u32], number: u32, hold: &str| {
        let record = Record::Create { block, offset, named: named.to_vec(), data: data.to_vec() };
        (record, format!("create 0 {number} {hold}"))
    };
    let write = |block, answer: &str| (Record::Write { block }, format!("write {answer}"));
    let complete = |block| (Record::Complete { block }, String::from("complete 0"));
    let (one, two, three) = (before + 1, before + 2, before + 3);
    vec![
        create(1, 0, &[65; 8], &[], one, "hard"),
        create(2, 0, &[1; 2], &[one], two, "hard"),
        create(2, 2, &[2; 2], &[], two, "hard"),
        create(1, 8, &[66; 8], &[two], three, "soft"),
        write(2, "13"),
        write(1, "0 1"),
        write(1, "11"),
        complete(1),
        write(2, "0 1"),
        write(1, "13"),
        complete(2),
        write(1, "0 1"),
        complete(1),
    ]
}

/// Numbers given and changes made in a turn.
const NUMBERS: u32 = 3;
const CHANGES: u64 = 4;

/// A trace of at least so many records, with its lines, and how many records it has.
fn trace(at_least: u64) -> (Vec<u8>, String, u64) {
    let turn = session(0).len() as u64;
    let turns = at_least.saturating_sub(2).div_ceil(turn);
    let mut rows = vec![(Record::Open { first: 1 }, String::from("open 0"))];
    rows.extend((0..turns as u32).flat_map(|turn| session(NUMBERS * turn)));
    rows.push((Record::Cut { landed: 0 }, format!("cut {}", CHANGES * turns)));
    let bytes = rows.iter().filter_map(|(record, _)| record.bytes()).flatten().collect();
    let lines = rows.iter().enumerate().map(|(at, (_, line))| format!("{} {line}\n", at + 1)).collect();
    (bytes, lines, rows.len() as u64)
}

/// Runs a hundredth of the trace and the whole: memory that grows with the trace shows.
pub fn run(program: &Program, at_least: u64) -> Result<bool, String> {
    Ok(measure(program, at_least / 100)? && measure(program, at_least)?)
}

/// Runs a trace and prints the figures.
fn measure(program: &Program, at_least: u64) -> Result<bool, String> {
    let (bytes, wanted, records) = trace(at_least);
    let start = Instant::now();
    let mut child = program.start()?;
    let (stdin, stdout) = (child.stdin.take(), child.stdout.take());
    let (mut output, mut memory) = (Vec::new(), String::from("not known"));
    std::thread::scope(|scope| {
        scope.spawn(|| stdin.map(|pipe| feed(pipe, &bytes, Pieces::Whole)));
        let (mut some, mut pipe) = (vec![0; 1 << 16], stdout);
        while let Some(got @ 1..) = pipe.as_mut().and_then(|pipe| pipe.read(&mut some).ok()) {
            output.extend(&some[..got]);
            most_resident(child.id()).into_iter().for_each(|most| memory = most);
        }
    });
    let ended = child.wait().map_err(|error| error.to_string())?;
    let seconds = start.elapsed().as_secs_f64();
    if let Some(what) = difference(&String::from_utf8_lossy(&output), &wanted) {
        return Err(what);
    }
    let figures =
        format!("{seconds:.2} s, {:.0} records a second, {memory} resident", records as f64 / seconds);
    println!("replay, {records} records, {} bytes in, {} bytes out: {figures}", bytes.len(), output.len());
    Ok(ended.success())
}

/// The most memory that a process has had resident so far, as Linux says it. It is read while the process runs.
fn most_resident(process: u32) -> Option<String> {
    let status = std::fs::read_to_string(format!("/proc/{process}/status")).ok()?;
    let line = status.lines().find_map(|line| line.strip_prefix("VmHWM:"))?;
    Some(String::from(line.trim()))
}

#[cfg(test)]
mod tests {
    use super::*;
    use crate::model::replay::Replay;
    use crate::model::rules::Right;

    #[test]
    fn the_model_prints_the_sessions_lines() {
        let (bytes, wanted, records) = trace(1_000);
        assert!(records >= 1_000);
        assert_eq!(difference(&Right.printed(&bytes).text, &wanted), None);
    }
}
