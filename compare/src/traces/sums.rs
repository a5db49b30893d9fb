//! What a run of random traces came to: how many there were, how each ended, and which lines were printed. A run that is long enough
//! fails when something on the list was not reached.

use crate::model::replay::{Bad, Ended, Printed};
use crate::traces::damage::Damage;
use std::collections::BTreeMap;

/// With any seed so many traces reach all that is on the list.
pub const ENOUGH: u64 = 2_000;

#[derive(Default)]
pub struct Sums {
    pub traces: u64,
    pub records: u64,
    damaged: BTreeMap<Damage, u64>,
    ended: BTreeMap<Ended, u64>,
    /// Each without its place and its numbers of patches and changes.
    lines: BTreeMap<String, u64>,
}

const LINES: [&str; 24] = [
    "open 0",
    "open 15",
    "create 0 hard",
    "create 0 hard joined",
    "create 0 soft",
    "create 3",
    "create 4",
    "create 5",
    "create 6",
    "create 7",
    "create 8",
    "create 9",
    "create 10",
    "write 0",
    "write 3",
    "write 11",
    "write 12",
    "write 13",
    "complete 0",
    "complete 3",
    "complete 14",
    "cut none",
    "cut some",
    "bad 16",
];

const ENDED: [Ended; 11] = [
    Ended::Cut,
    Ended::End,
    Ended::Bad(Bad::Empty),
    Ended::Bad(Bad::Tag),
    Ended::Bad(Bad::TooLong),
    Ended::Bad(Bad::Form),
    Ended::Bad(Bad::EndsInHead),
    Ended::Bad(Bad::EndsInValue),
    Ended::Bad(Bad::OpenMissing),
    Ended::Bad(Bad::OpenAgain),
    Ended::Bad(Bad::AfterCut),
];

impl Sums {
    pub fn see(&mut self, printed: &Printed, damage: Option<Damage>) {
        self.traces += 1;
        self.records += printed.text.lines().count() as u64;
        if let Some(damage) = damage {
            *self.damaged.entry(damage).or_default() += 1;
        }
        *self.ended.entry(printed.ended).or_default() += 1;
        let mut highest = 0;
        for line in printed.text.lines() {
            *self.lines.entry(kind_of(line, &mut highest)).or_default() += 1;
        }
    }

    pub fn add(&mut self, other: Sums) {
        self.traces += other.traces;
        self.records += other.records;
        add(&mut self.damaged, other.damaged);
        add(&mut self.ended, other.ended);
        add(&mut self.lines, other.lines);
    }

    pub fn print(&self) {
        let damaged: u64 = self.damaged.values().sum();
        println!("{} traces, {} records; {damaged} of the traces damaged", self.traces, self.records);
        println!("  damaged: {}", listed(&self.damaged, |damage| format!("{damage:?}")));
        println!("  ended: {}", listed(&self.ended, |ended| format!("{ended:?}")));
        println!("  lines: {}", listed(&self.lines, String::clone));
    }

    /// What is on the list and was not reached.
    pub fn missing(&self) -> Vec<String> {
        let lines = LINES.iter().map(|&line| String::from(line));
        let lines = lines.filter(|line| !self.lines.contains_key(line));
        let ended = ENDED.iter().filter(|ended| !self.ended.contains_key(ended));
        lines.chain(ended.map(|ended| format!("{ended:?}"))).collect()
    }
}

fn add<K: Ord>(into: &mut BTreeMap<K, u64>, from: BTreeMap<K, u64>) {
    for (key, count) in from {
        *into.entry(key).or_default() += count;
    }
}

fn listed<K>(counts: &BTreeMap<K, u64>, name: impl Fn(&K) -> String) -> String {
    let each: Vec<String> = counts.iter().map(|(key, count)| format!("{} {count}", name(key))).collect();
    each.join(", ")
}

/// A line without its place, and without the numbers of patches and changes. A change that is not given a number above the highest so
/// far has joined.
fn kind_of(line: &str, highest: &mut u64) -> String {
    match line.split(' ').collect::<Vec<_>>()[..] {
        [_, "create", "0", number, hold] => {
            let number = number.parse().unwrap_or(0);
            let joined = if number <= *highest { " joined" } else { "" };
            *highest = number.max(*highest);
            format!("create 0 {hold}{joined}")
        }
        [_, "cut", "0"] => String::from("cut none"),
        [_, "cut", _] => String::from("cut some"),
        [_, word, answer, ..] => format!("{word} {answer}"),
        _ => String::from(line),
    }
}
