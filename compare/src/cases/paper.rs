//! The source paper's own examples (000), scaled to our blocks, with the numbers that it gives: figure 3, appending four blocks to a
//! file, and figure 2b, a circle between two blocks. How many patches, hard ones, entries and writes there are is the paper's word and
//! none of ours; what a change has in bytes is ours, so the bytes of undo are.
//!
//! On the board they run on what is under test, beside the model and with cuts; under the two other settings on the model.

use crate::cases::fixed::{Case, Row, granted, hard, refused, run_cases, sends, soft};
use crate::judge::cover::Cover;
use crate::judge::run::{Order, Pair, Run};
use crate::judge::shrink::line;
use crate::library::mock::Mock;
use crate::model::rules::Under;
use crate::model::setting::Setting;
use crate::model::table::LONGEST_DATA;
use crate::orders::steps::{Answer, Step, complete, create, open, write};
use std::collections::BTreeMap;

const SUPERBLOCK: u32 = 0;
const GROUP: u32 = 1;
const BITMAP: u32 = 2;
const INODE: u32 = 3;
/// The first of four data blocks.
const DATA: u32 = 4;
/// The order in which a drain tries the blocks. Where every patch is soft, i'' follows nothing: an inode block written earlier
/// would go with it alone, and once more with the rest.
const DRAINED: [u32; 8] = [SUPERBLOCK, GROUP, BITMAP, DATA, DATA + 1, DATA + 2, DATA + 3, INODE];

/// A count, a pointer, a size or a time: 32 bits.
const NUMBER: usize = 4;
/// The paper flips single bits of the bitmap, each for itself; the smallest change that we have is a byte.
const BIT: usize = 1;
/// A data block, scaled to the longest change that we have.
const WHOLE: usize = LONGEST_DATA;
/// The paper's own.
const WHOLE_THERE: usize = 4_096;

/// Where the inode's fields stand: the block's pointer (i), the size (i'), the time of change (i'').
const ATTACHED: u32 = 0;
const SIZE: u32 = 8;
const TIME: u32 = 16;

/// A patch of figure 3 by its name there, and the names of those that it is made to follow. Overlaps are left to the cache.
struct Patch {
    name: String,
    block: u32,
    offset: u32,
    length: usize,
    after: Vec<String>,
}

fn patch(name: &str, block: u32, offset: u32, length: usize, after: &[&str]) -> Patch {
    Patch {
        name: String::from(name),
        block,
        offset,
        length,
        after: after.iter().map(|&name| String::from(name)).collect(),
    }
}

fn figure_3() -> Vec<Patch> {
    let mut patches = vec![patch("s", SUPERBLOCK, 0, NUMBER, &[]), patch("g", GROUP, 0, NUMBER, &[])];
    for n in 0..4 {
        let [b, d, i] = ["b", "d", "i"].map(|name| format!("{name}{}", n + 1));
        let ([d2, i2], data) = ([&d, &i].map(|name| format!("{name}'")), DATA + n);
        patches.extend([
            patch(&b, BITMAP, n, BIT, &[]),
            patch(&d, data, 0, WHOLE, &[&b]),
            patch(&i, INODE, ATTACHED, NUMBER, &[&b, &d]),
            patch(&d2, data, 0, WHOLE, &[]),
            patch(&i2, INODE, SIZE, NUMBER, &[&d2]),
        ]);
    }
    patches.push(patch("i''", INODE, TIME, NUMBER, &[]));
    patches
}

/// What figure 3 comes to.
#[derive(Clone, Copy, PartialEq, Eq, Debug)]
struct Found {
    changes: usize,
    hard: usize,
    entries: usize,
    /// Bytes of undo held once all changes are made, and by how many patches of a whole data block.
    undo: usize,
    undo_blocks: usize,
    /// Blocks written until nothing waits.
    writes: usize,
}

/// The paper's numbers at our sizes: 23 patches, 16 of them hard; 8 of these merged; eight blocks written.
fn wanted(setting: Setting) -> Found {
    let base = Found { changes: 23, hard: 16, entries: 23, undo: 259, undo_blocks: 4, writes: 8 };
    match setting {
        Setting::AllSoft => Found { hard: 0, undo: 560, undo_blocks: 8, ..base },
        Setting::HardRule => base,
        Setting::Board => Found { entries: 15, ..base },
    }
}

/// Counts the calls of an example while it makes them.
struct Example<'a> {
    run: Run<'a>,
    calls: usize,
}

impl Example<'_> {
    fn call(&mut self, step: &Step, cover: &mut Cover) -> Result<Answer, (usize, String)> {
        self.calls += 1;
        let failed = |what: &str| (self.calls, format!("figure 3, {}: {what}", line(step)));
        self.run.step(step, cover).map_err(|failure| failed(&failure.what))
    }

    /// Makes the changes; gives how many were hard.
    fn make(&mut self, cover: &mut Cover) -> Result<usize, (usize, String)> {
        let mut numbers = BTreeMap::new();
        let mut hard = 0;
        for (place, patch) in figure_3().into_iter().enumerate() {
            let after: Vec<u32> = patch.after.iter().map(|name| numbers[name]).collect();
            let data = vec![place as u8; patch.length];
            let answer = self.call(&create(patch.block, patch.offset, &data, &after), cover)?;
            hard += usize::from(answer.hold == 1);
            numbers.insert(patch.name, answer.number);
        }
        Ok(hard)
    }

    /// Writes and completes one block after the other, over and over, until nothing waits; gives how many writes were granted.
    fn drain(&mut self, cover: &mut Cover) -> Result<usize, (usize, String)> {
        let mut writes = 0;
        for block in DRAINED.into_iter().cycle().take(DRAINED.len() * DRAINED.len()) {
            if self.run.table.as_ref().is_none_or(|table| table.patches().next().is_none()) {
                break;
            }
            if self.call(&write(block), cover)?.refusal == 0 {
                writes += 1;
                self.call(&complete(block), cover)?;
            }
        }
        Ok(writes)
    }
}

/// Runs figure 3; gives what it came to, and after how many calls.
fn append(pair: Pair, cover: &mut Cover) -> Result<(Found, usize), (usize, String)> {
    let run = Run::start(pair, &Order { fill: 3, ..Order::of(&[]) });
    let mut example = Example { run, calls: 0 };
    example.call(&open(1), cover)?;
    let hard = example.make(cover)?;
    let patches: Vec<_> = example.run.table.iter().flat_map(|table| table.slots.clone()).collect();
    let entries = patches.iter().filter(|slot| slot.used()).count();
    let held: Vec<usize> =
        patches.iter().filter(|slot| slot.room().is_some()).map(|slot| slot.length as usize).collect();
    let undo_blocks = held.iter().filter(|&&length| length == WHOLE).count();
    let (changes, undo) = (figure_3().len(), held.iter().sum());
    let writes = example.drain(cover)?;
    Ok((Found { changes, hard, entries, undo, undo_blocks, writes }, example.calls))
}

/// Figure 2b: a block is appended (b, d, i, i'), and before that commits another file on the same inode block is removed (i2, then b2 on
/// the bitmap after it). Neither block can go first whole, so the bitmap goes without b2.
fn figure_2b(setting: Setting) -> Vec<Row> {
    // The number and the slots of i, i' and i2: one patch where they join.
    let (size, removed, inode) = if setting.joins() { (3, 3, &[2][..]) } else { (4, 5, &[2, 3, 4][..]) };
    let (last, slot) = (removed + 1, removed);
    vec![
        ("open", open(1), granted()),
        ("b", create(BITMAP, 0, &[1], &[]), hard(1)),
        ("d after b", create(DATA, 0, &[7; WHOLE], &[1]), hard(2)),
        ("i after b and d", create(INODE, 0, &[3; NUMBER], &[1, 2]), hard(3)),
        ("i' after d", create(INODE, 8, &[4; NUMBER], &[2]), hard(size)),
        ("i2 of the other file", create(INODE, 128, &[5; NUMBER], &[]), hard(removed)),
        ("b2 after i2", create(BITMAP, 9, &[1], &[removed]), soft(last, 0)),
        ("the inode block cannot go first", write(INODE), refused(13)),
        ("the bitmap goes without b2", write(BITMAP), sends(&[0], &[(1, 1)])),
        ("it lands", complete(BITMAP), granted()),
        ("b2 waits for the inode block", write(BITMAP), refused(13)),
        ("the data block", write(DATA), sends(&[1], &[(WHOLE, 7)])),
        ("it lands", complete(DATA), granted()),
        ("the inode block follows", write(INODE), sends(inode, &[(4, 3), (4, 0), (4, 4), (116, 0), (4, 5)])),
        ("b2 waits until that has landed", write(BITMAP), refused(13)),
        ("it lands", complete(INODE), granted()),
        ("the bitmap with b2", write(BITMAP), sends(&[slot], &[(1, 1), (8, 0), (1, 1)])),
    ]
}

fn one_setting(pair: Pair, cover: &mut Cover) -> Result<(Found, usize), (usize, String)> {
    let setting = pair.library.setting();
    let (found, calls) = append(pair, cover)?;
    if found != wanted(setting) {
        return Err((calls, format!("figure 3, {setting:?}: {found:?}, wanted {:?}", wanted(setting))));
    }
    // Where every patch is soft nothing keeps i2 from going alone, and there is no circle to break.
    let circle = Case { name: "figure 2b", table: None, rows: figure_2b(setting) };
    let circles = if setting.all_soft() { Vec::new() } else { vec![circle] };
    let rows = run_cases(pair, cover, circles).map_err(|(row, what)| (calls + row, what))?;
    Ok((found, calls + rows))
}

/// The settings on which the examples run, in the figure's order, and what they came to.
fn all(pair: Pair, cover: &mut Cover) -> Result<(Vec<Found>, usize), (usize, String)> {
    let (mut results, mut calls) = (Vec::new(), 0);
    for setting in [Setting::AllSoft, Setting::HardRule, Setting::Board] {
        let model = Mock(Under(setting));
        let alone = Pair { library: &model, model: Some(&model) };
        let on = if setting == pair.library.setting() { pair } else { alone };
        // What the model reaches alone is not reached by what is under test.
        let mut unused = Cover::default();
        let reached = if setting == pair.library.setting() { &mut *cover } else { &mut unused };
        let (found, made) = one_setting(on, reached).map_err(|(call, what)| (calls + call, what))?;
        calls += made;
        results.push(found);
    }
    Ok((results, calls))
}

/// Runs both figures; gives how many calls that took, or what went wrong first, and at which.
pub fn run(pair: Pair, cover: &mut Cover) -> Result<usize, (usize, String)> {
    all(pair, cover).map(|(_, calls)| calls)
}

/// Prints the paper's numbers beside ours.
pub fn print(pair: Pair) -> bool {
    let results = match all(pair, &mut Cover::default()) {
        Ok((results, _)) => results,
        Err((call, what)) => {
            println!("at call {call}, {what}");
            return false;
        }
    };
    let [soft, hard, board] = results[..] else { return false };
    let there = |found: Found| found.undo + found.undo_blocks * (WHOLE_THERE - WHOLE);
    let less = |all: usize, left: usize| 100.0 * (all - left) as f64 / all as f64;
    println!("figure 3, four blocks appended to a file              paper            ours");
    let line = |what: &str, paper: &str, ours: String| println!("{what:46} {paper:>12} {ours:>15}");
    line("a, every patch soft: patches", "23", soft.entries.to_string());
    line("   undo bytes, a data block of 64", "", soft.undo.to_string());
    line("   undo bytes, a data block of 4,096", "some 33,000", there(soft).to_string());
    line("b, the hard rule: hard patches", "16", hard.hard.to_string());
    line("   undo bytes, a data block of 64", "", hard.undo.to_string());
    line("   less by", "over half", format!("{:.1} %", less(soft.undo, hard.undo)));
    line("   undo bytes, a data block of 4,096", "", there(hard).to_string());
    line("   less by", "over half", format!("{:.1} %", less(there(soft), there(hard))));
    line("c, hard patches merged, joining: patches", "15", board.entries.to_string());
    line("   undo bytes, a data block of 64", "", board.undo.to_string());
    let writes: Vec<String> = results.iter().map(|found| found.writes.to_string()).collect();
    line("blocks written, the inode block last: a, b, c", "8", writes.join(", "));
    println!("(undo bytes for 4,096 are reckoned from the patches held, not run)");
    println!(
        "figure 2b, without joining and with it: the bitmap without b2, the inode block, the bitmap with b2"
    );
    true
}
