//! Makes traces from a seed: orders of calls as the bench makes them elsewhere, recorded, mostly with a cut at the end. The calls are
//! chosen with an eye on the table as it stands. Some traces are damaged afterwards (damage.rs).

use crate::model::record::{LONGEST_VALUE, Record, Recorded};
use crate::model::replay::{Replay, Run};
use crate::model::rules::{Model, Right};
use crate::model::setting::Setting;
use crate::model::table::{Refusal, Table};
use crate::orders::maker::{Maker, Taste, first_number};
use crate::orders::random::Random;
use crate::orders::steps::Call;
use crate::traces::damage::{self, Damage};

pub struct Made {
    pub bytes: Vec<u8>,
    pub damage: Option<Damage>,
}

/// The trace of one seed; four in ten are damaged.
pub fn made(seed: u64) -> Made {
    let mut random = Random::new(seed);
    let damaged = random.percent(40);
    let records = sensible(&mut random);
    if damaged {
        let other = sensible(&mut random);
        let (bytes, damage) = damage::damaged(&mut random, records, other);
        return Made { bytes, damage: Some(damage) };
    }
    Made { bytes: records.concat(), damage: None }
}

/// A good trace, record by record.
fn sensible(random: &mut Random) -> Vec<Vec<u8>> {
    let mut made = vec![Record::Open { first: opening(random) }];
    let taste = taste(random);
    let calls = if random.percent(1) { 1_000 } else { random.pick(&[0, 2, 10, 20, 30, 60, 60, 140]) };
    let mut run = Run::new();
    Right.line(&mut run, &made[0]);
    let mut maker = Maker::new(Random::new(random.number()), taste);
    while made.len() <= calls
        && let Some(table) = &run.table
    {
        for record in recorded(maker.step(table).call, table) {
            Right.line(&mut run, &record);
            made.push(record);
        }
    }
    if random.percent(75) {
        let table = run.table.unwrap_or_else(|| Table::empty(Setting::Board, 1));
        made.push(Record::Cut { landed: landed(random, &table) });
    }
    made.iter().filter_map(Record::bytes).collect()
}

/// A first number; at times one that is refused.
fn opening(random: &mut Random) -> u32 {
    let refused = random.pick(&[0, 1_000_000_001, 1 << 30, 1 << 31, u32::MAX]);
    if random.percent(5) { refused } else { first_number(random) }
}

/// Ask and count are in no trace.
fn taste(random: &mut Random) -> Taste {
    let taste = Taste::of_seed(random).with_joint_calls(random);
    let [create, write, complete, ..] = taste.weights;
    Taste { weights: [create, write, complete, 0, 0], faults: 10, ..taste }
}

/// The call on a table as records have it: what does not fit is made to. None for a call that has no record.
fn recorded(call: Call, table: &Table) -> Vec<Record> {
    let byte = |block: u32| block.min(u32::from(u8::MAX));
    match call {
        Call::Open { first } => vec![Record::Open { first }],
        Call::Create { block, offset, mut data, mut named } => {
            named.truncate(usize::from(u8::MAX));
            data.truncate(LONGEST_VALUE - 4 - 4 * named.len());
            let offset = offset.min(u32::from(u16::MAX));
            vec![Record::Create { block: byte(block), offset, named, data }]
        }
        Call::Write { block } => vec![Record::Write { block: byte(block) }],
        Call::Complete { block } => vec![Record::Complete { block: byte(block) }],
        Call::CompleteWrite { x, y } => {
            let (x, y) = (byte(x), byte(y));
            let first = Right.given_by_completing(table, x).map_or_else(Refusal::number, |_| 0);
            Recorded::CompleteWrite { x, y, first }.made()
        }
        Call::Ask { .. } | Call::Count { .. } => Vec::new(),
    }
}

/// The bits of a cut: of the writes in flight all, none, or some; bits of other blocks with them or alone.
fn landed(random: &mut Random, table: &Table) -> u64 {
    let out: u64 = (0..64).filter(|&block| !table.in_flight(block).is_empty()).map(|block| 1 << block).sum();
    let any = random.number();
    match random.below(7) {
        0 => out,
        1 => u64::MAX,
        2 => 0,
        3 => !out,
        4 => out & any,
        5 => out.reverse_bits(),
        _ => any,
    }
}
