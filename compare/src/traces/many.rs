//! Random traces: what `replay` prints, held to what the second model prints.

use crate::model::record::HEAD_BYTES;
use crate::model::replay::Replay;
use crate::model::rules::Right;
use crate::orders::random::Random;
use crate::traces::folder::difference;
use crate::traces::maker::{Made, made};
use crate::traces::program::Pieces;
use crate::traces::sums::{ENOUGH, Sums};
use crate::traces::tested::Tested;
use std::time::Instant;

/// A trace for which something else was printed.
struct Failed {
    place: u64,
    bytes: Vec<u8>,
}

/// Runs so many traces from a seed, on every processor there is.
pub fn run(tested: &Tested, traces: u64, seed: u64) -> bool {
    let (start, threads) =
        (Instant::now(), std::thread::available_parallelism().map_or(1, usize::from) as u64);
    let parts: Vec<Result<Sums, Failed>> = std::thread::scope(|scope| {
        let part =
            |first| scope.spawn(move || one_part(tested, seed, (first..traces).step_by(threads as usize)));
        let parts: Vec<_> = (0..threads).map(part).collect();
        parts.into_iter().filter_map(|part| part.join().ok()).collect()
    });
    let mut sums = Sums::default();
    let ran = parts.len() as u64 == threads;
    for part in parts {
        match part {
            Ok(part) => sums.add(part),
            Err(failed) => {
                report(tested, seed, failed);
                return false;
            }
        }
    }
    let seconds = start.elapsed().as_secs_f64();
    sums.print();
    println!(
        "seed {seed}: no difference, {seconds:.1} s, {:.0} traces a second",
        sums.traces as f64 / seconds
    );
    ran && reached(&sums)
}

fn reached(sums: &Sums) -> bool {
    let missing = sums.missing();
    let enough = sums.traces >= ENOUGH;
    if enough {
        missing.iter().for_each(|what| println!("NOT REACHED: {what}"));
    } else if !missing.is_empty() {
        println!(
            "{} on the list not reached: {} traces are too few for all of it",
            missing.len(),
            sums.traces
        );
    }
    missing.is_empty() || !enough
}

fn one_part(tested: &Tested, seed: u64, places: impl Iterator<Item = u64>) -> Result<Sums, Failed> {
    let mut sums = Sums::default();
    for place in places {
        let Made { bytes, damage } = made(seed_of(seed, place));
        let wanted = Right.printed(&bytes);
        if tested.printed(&bytes, Pieces::Whole).as_ref() != Ok(&wanted.text) {
            return Err(Failed { place, bytes });
        }
        sums.see(&wanted, damage);
    }
    Ok(sums)
}

/// The seed of the trace with this place in a run.
pub fn seed_of(run: u64, place: u64) -> u64 {
    Random::new(run ^ place.rotate_left(32)).number()
}

fn what_differs(tested: &Tested, bytes: &[u8]) -> Option<String> {
    match tested.printed(bytes, Pieces::Whole) {
        Err(why) => Some(why),
        Ok(printed) => difference(&printed, &Right.printed(bytes).text),
    }
}

/// Prints a trace that fails, shortened, as the folder's cases have it.
fn report(tested: &Tested, seed: u64, failed: Failed) {
    let mut pieces = pieces(&failed.bytes);
    println!("difference in trace {} of seed {seed}, {} pieces, shrunk to:", failed.place, pieces.len());
    while let Some(shorter) = shorter(tested, &pieces) {
        pieces = shorter;
    }
    for piece in &pieces {
        println!("    {}", hex(piece));
    }
    println!("  {}", what_differs(tested, &pieces.concat()).unwrap_or_default());
}

/// With all pieces left out, from the last to the first, without which the outputs still differ; none where there is no such piece.
fn shorter(tested: &Tested, pieces: &[Vec<u8>]) -> Option<Vec<Vec<u8>>> {
    let mut left = pieces.to_vec();
    for at in (0..pieces.len()).rev() {
        let mut without = left.clone();
        without.remove(at);
        if what_differs(tested, &without.concat()).is_some() {
            left = without;
        }
    }
    Some(left).filter(|left| left.len() < pieces.len())
}

/// The bytes parted where one record seems to end and the next to begin.
fn pieces(bytes: &[u8]) -> Vec<Vec<u8>> {
    let (mut pieces, mut left) = (Vec::new(), bytes);
    while !left.is_empty() {
        let value =
            if let [_, high, low, ..] = left { 256 * usize::from(*high) + usize::from(*low) } else { 0 };
        let (piece, rest) = left.split_at((HEAD_BYTES + value).min(left.len()));
        pieces.push(piece.to_vec());
        left = rest;
    }
    pieces
}

/// Tag, length and value, parted by blanks.
fn hex(record: &[u8]) -> String {
    let digits = |bytes: &[u8]| bytes.iter().map(|byte| format!("{byte:02x}")).collect::<String>();
    let (tag, rest) = record.split_at(record.len().min(1));
    let (length, value) = rest.split_at(rest.len().min(2));
    format!("{} {} {}", digits(tag), digits(length), digits(value))
}
