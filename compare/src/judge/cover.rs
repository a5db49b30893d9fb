//! Counts how often each refusal and each branch was reached. One that was not fails the run. Each setting has a list of its own.

use crate::model::rules::{Model, Right};
use crate::model::setting::Setting;
use crate::model::table::{CLAUSES, KINDS, Kind, MOST_NAMED, Refusal, SLOTS};
use crate::orders::tables::BREAKS;
use std::collections::BTreeMap;

#[derive(Default)]
pub struct Cover(BTreeMap<(&'static str, u32), u64>);

/// The name under which a call's answers are counted.
pub fn answered(kind: Kind) -> &'static str {
    match kind {
        Kind::Open => "open answered",
        Kind::Create => "create answered",
        Kind::Write => "write answered",
        Kind::Complete => "complete answered",
        Kind::Ask => "ask answered",
        Kind::Count => "count answered",
        Kind::CompleteWrite => "complete and write: completing answered",
    }
}

/// The name under which it is counted that a call was refused while a later test held too.
pub fn refused_early(kind: Kind) -> &'static str {
    match kind {
        Kind::Open => "open refused so, a later test held too",
        Kind::Create => "create refused so, a later test held too",
        Kind::Write => "write refused so, a later test held too",
        Kind::Complete => "complete refused so, a later test held too",
        Kind::Ask => "ask refused so, a later test held too",
        Kind::Count => "count refused so, a later test held too",
        Kind::CompleteWrite => "complete and write: completing refused so, a later test held too",
    }
}

/// The refusals of each call, in rising number. Open refuses a table of another length besides. Where each slot has a room, none is
/// ever without one while a slot is free, and 9 comes first.
fn refusals(setting: Setting, kind: Kind) -> Vec<u32> {
    let other_length = if kind == Kind::Open { Some(Refusal::NotSound.number()) } else { None };
    let never = if setting.rooms() as usize >= SLOTS { Some(Refusal::NoFreeRoom) } else { None };
    let tests = Right.tests(kind).into_iter().filter(|&test| Some(test) != never);
    other_length.into_iter().chain(tests.map(Refusal::number)).collect()
}

/// Everything that must be reached under a setting: a name, and the numbers it goes with.
fn wanted(setting: Setting) -> Vec<(&'static str, Vec<u32>)> {
    let mut wanted: Vec<(&'static str, Vec<u32>)> = Vec::new();
    for kind in KINDS {
        let refusals = refusals(setting, kind);
        wanted.push((answered(kind), [&[0], &refusals[..]].concat()));
        // After the last there is no later test, and no block in flight is one of which none may go.
        let early = refusals.iter().copied().filter(|refusal| Some(refusal) != refusals.last());
        let never =
            [Refusal::NoneWaits.number(), if kind == Kind::Open { Refusal::NotSound.number() } else { 0 }];
        wanted.push((refused_early(kind), early.filter(|refusal| !never.contains(refusal)).collect()));
    }
    wanted.extend([
        ("create: soft in room", (0..setting.rooms()).collect()),
        ("create: in slot", (0..SLOTS as u32).collect()),
        ("create: so many numbers named", (0..=MOST_NAMED as u32).collect()),
        ("ask: state", vec![1, 2, 3]),
        ("complete and write: the write answered", vec![0, 1, 3, 11, 12, 13]),
        ("complete and write: not tried, a write alone would be answered", vec![0, 1, 2, 3, 11, 12, 13]),
        ("unsound by one clause alone", (0..CLAUSES.len() as u32).collect()),
        ("unsound in this way", (0..BREAKS.len() as u32).collect()),
        ("open: the first history", vec![0, 15]),
        ("open: another history", vec![0, 15]),
        ("cut: ask as noted", vec![1, 2, 3]),
    ]);
    wanted.retain(|(_, numbers): &(&str, Vec<u32>)| !numbers.is_empty());
    wanted.extend(singles(setting).map(|name| (name, vec![0])));
    wanted
}

fn singles(setting: Setting) -> impl Iterator<Item = &'static str> {
    let hard = if setting.all_soft() { &[][..] } else { HARD };
    let joining = if setting.joins() { JOINING } else { &[][..] };
    SINGLE.iter().chain(hard).chain(joining).copied()
}

/// Branches without a number, where a change can be hard.
const HARD: &[&str] = &[
    "create: hard",
    "create: hard, some soft turned hard",
    "create: hard, two or more soft turned hard",
    "create: hard, only one in flight is followed from elsewhere",
    "create: hard, a soft one of another block stays soft",
    "create: hard, only one in flight on its block",
];

/// Branches without a number, where changes join.
const JOINING: &[&str] = &[
    "create: joined",
    "create: joined a patch that was soft",
    "create: joined, another soft one turned hard",
    "create: joined a hard one, a soft one turned hard",
    "create: joined, two or more wait",
    "create: joined, the lowest number not in the lowest slot",
    "create: joined, one of the block in flight",
    "create: joined, all slots in use",
    "create: joined, no number left",
    "create: joined outside the patch's range",
    "create: joined, a before that waits added",
    "create: joined, a before in flight added",
    "create: joined, a before named that is one already",
    "create: joined, its own patch named",
    "create: joined, another of its block named that waits",
    "create: joined, one of its block named that is in flight",
    "create: joined, a number below first named",
    "create: joined, one below first named and a before added",
    "create: soft beside a waiting hard one, not joined",
    "create: refused 8, would be soft and some of the block wait",
    "create: refused 8, none of the block waits",
    "create: refused 8, only one in flight on the block",
    "create: refused 9, would be soft and some of the block wait",
    "create: refused 9, none of the block waits",
    "create: refused 9, only one in flight on the block",
    "cut: a number of several changes sent",
    "cut: a number of several changes called committed",
];

/// Branches without a number, under every setting.
const SINGLE: &[&str] = &[
    "create: soft, a lower room taken again",
    "create: a lower slot taken again",
    "create: into a slot with remains",
    "create: overlap is a before",
    "create: overlap with one in flight is a before",
    "create: only touching a soft one, no before",
    "create: a hard one that waits is a before without overlap",
    "create: a hard one in flight is a before without overlap",
    "create: a soft one in flight is no before without overlap",
    "create: same range on another block, no before",
    "create: named is a before",
    "create: named and in flight is a before",
    "create: named and overlapping",
    "create: committed name dropped",
    "create: number named twice",
    "create: length 1",
    "create: length 64",
    "create: ends with the block",
    "create: in the last 64 bytes of the image",
    "create: number 1,000,000,000",
    "create: refused 5, offset 4,294,967,295",
    "create: refused 5, offset + length is 257",
    "create: refused 5, the sum wraps in 32 bits",
    "create: refused 4, length 65",
    "create: refused 4, the length's low byte is 1",
    "create: refused 6, nine named",
    "create: refused 6, 264 named",
    "create: refused 7, its own coming number",
    "create: refused 7, 0 where first is above 1",
    "create: refused 7, first itself, nothing issued yet",
    "create: refused 7, one below first named too",
    "create: refused 6, one below first among them",
    "create: names a number below first",
    "create: names 1, with first above 1",
    "create: names first - 1",
    "create: names only numbers below first, and has no befores",
    "create: names a number below first, and is soft",
    "create: names a number below first twice",
    "create: names a number below first, and nothing was issued since",
    "create: names one below first and one that waits",
    "create: names one below first and one in flight",
    "create: names one below first and one committed since",
    "create: names one that waits after one below first",
    "create: names one below first, slot 0 in use and no before",
    "create: names one below first, alike in its low digits with one in use",
    "create: names one below first that stands in a free slot",
    "ask: committed more than 65,536 numbers ago",
    "ask: below first",
    "ask: 1, with first above 1",
    "ask: first - 1",
    "ask: below first, and nothing was issued since",
    "ask: below first, slot 0 in use",
    "ask: below first, more than 65,536 below next",
    "ask: below first, alike in its low digits with one in use",
    "ask: below first, and stands in a free slot",
    "ask: refused 7, next",
    "ask: refused 7, 0 where first is above 1",
    "ask: refused 7, first itself, nothing issued yet",
    "write: all went",
    "write: hard and soft went together",
    "write: one went with its before",
    "write: soft left behind",
    "write: two or more left behind",
    "write: two left behind overlap",
    "write: two left behind overlap, their low 16 binary digits in the other order",
    "write: sixteen left behind",
    "write: striking takes two rounds or more",
    "write: striking takes three rounds or more",
    "write: striking takes nine rounds or more",
    "write: every subset tried",
    "write: befores followed",
    "write: befores in a circle went",
    "write: refused 13, a hard one held",
    "write: refused 13, only soft wait",
    "write: refused 13, held by one in flight",
    "write: refused 13, hard one struck after the first round",
    "write: refused 13, hard one struck after the eighth round",
    "complete: a before elsewhere removed",
    "complete: two or more commit",
    "complete: others of the block wait on",
    "complete: remains in free slots kept",
    "complete and write: both granted, of two blocks",
    "complete and write: both granted, of the same block",
    "complete and write: granted since completed, 11 before",
    "complete and write: granted since completed, 13 before",
    "complete and write: more patches went since completed",
    "complete and write: write granted, soft left behind",
    "complete and write: the same block, completing refused",
    "complete and write: the same block, write refused 12",
    "complete and write: the same block, write refused 13",
    "complete and write: write refused 13, held by another in flight",
    "complete and write: write refused 13, held by what landed too",
    "complete and write: completed the last patch",
    "count: 0",
    "count: more than 0",
    "count: more than 0, some in flight",
    "count: numbers in use a multiple of 1,024 apart",
    "buffer too short: image",
    "buffer too long: image",
    "buffer too short: undo area",
    "buffer too long: undo area",
    "buffer too short: block handed out",
    "buffer too long: block handed out",
    "table of another length",
    "a tag above 4",
    "a room field that is not read",
    "cut: no write out landed",
    "cut: all writes out landed",
    "cut: one write out of several landed",
    "cut: a history after a cut",
    "cut: a landed change names a landed one",
    "cut: a lower number landed after a higher one of its block",
    "cut: all committed, store equals working image",
    "cut: between the two calls of a joint one",
    "life: opened at the old next",
    "life: opened above the old next",
    "life: opened below the old next",
    "life: opened with all committed, without a cut",
    "life: a fourth history or a later one",
    "life: a number given that an earlier history gave",
    "life: names a number that an earlier history gave too",
    "life: names a number below first that landed earlier",
    "life: names a number below first that was lost",
    "life: ask of a number below first that landed earlier",
    "life: ask of a number below first that was lost",
];

impl Cover {
    pub fn add(&mut self, name: &'static str, number: u32) {
        *self.0.entry((name, number)).or_insert(0) += 1;
    }

    fn count(&self, name: &'static str, number: u32) -> u64 {
        self.0.get(&(name, number)).copied().unwrap_or(0)
    }

    /// What must be reached and was not.
    pub fn missing(&self, setting: Setting) -> Vec<String> {
        let mut missing = Vec::new();
        for (name, numbers) in wanted(setting) {
            for number in numbers {
                if self.count(name, number) == 0 {
                    missing.push(label(setting, name, number));
                }
            }
        }
        missing
    }

    /// Prints every count, a line for each name.
    pub fn print(&self, setting: Setting) {
        println!("reached (how often):");
        for (name, numbers) in wanted(setting) {
            if numbers == [0] {
                println!("  {:>9}  {name}", self.count(name, 0));
                continue;
            }
            let counts: Vec<String> =
                numbers.iter().map(|&n| format!("{n}: {}", self.count(name, n))).collect();
            println!("  {name}:\n      {}", counts.join("   "));
        }
        for (i, clause) in CLAUSES.iter().enumerate() {
            print!("{} {i} {clause:?}", if i == 0 { "  clauses:" } else { "," });
        }
        for (i, way) in BREAKS.iter().enumerate() {
            print!("{} {i} {}", if i == 0 { "\n  ways:" } else { "," }, way.name);
        }
        println!();
    }
}

fn label(setting: Setting, name: &str, number: u32) -> String {
    if singles(setting).any(|single| single == name) {
        String::from(name)
    } else {
        format!("{name} {number}")
    }
}
