//! Shows that the folder of cases can fail: replays with one rule wrong each. Some case must catch each.

use crate::model::record::Record;
use crate::model::replay::{Accepted, Bad, Ended, Printed, Replay, Run, Taken};
use crate::model::rules::{Model, Right};
use crate::model::table::*;
use crate::traces::folder::{Case, difference};
use crate::traces::maker::made;
use crate::traces::many::seed_of;

/// Declares a wrong replay: a name, and the rule it has instead.
macro_rules! wrong {
    ($name:ident: $($rule:tt)*) => {
        struct $name;
        impl Replay for $name { $($rule)* }
    };
}

// ---- Records ----

wrong!(LengthLowFirst: fn length(&self, high: u8, low: u8) -> usize { Right.length(low, high) });
wrong!(LengthInOneByte: fn length(&self, _: u8, low: u8) -> usize { usize::from(low) });
wrong!(OneMoreTaken: fn longest_value(&self) -> usize { 1_201 });
wrong!(AnyLengthTaken: fn longest_value(&self) -> usize { 65_535 });
wrong!(OneLessTaken: fn longest_value(&self) -> usize { 1_199 });
wrong!(NumbersLowFirst: fn number(&self, bytes: &[u8]) -> u64 { bytes.iter().rev().fold(0, |n, &byte| 256 * n + u64::from(byte)) });
wrong!(NumbersOfThreeBytes: fn number(&self, bytes: &[u8]) -> u64 {
    if bytes.len() == 4 { Right.number(&bytes[1..]) } else { Right.number(bytes) }
});
wrong!(OffsetInOneByte: fn number(&self, bytes: &[u8]) -> u64 {
    if bytes.len() == 2 { u64::from(bytes[1]) } else { Right.number(bytes) }
});
wrong!(CutInFourBytes: fn number(&self, bytes: &[u8]) -> u64 {
    if bytes.len() == 8 { Right.number(&bytes[4..]) } else { Right.number(bytes) }
});
wrong!(NamesRunIntoData: fn names_and_data(&self, count: u8, bytes: &[u8]) -> Option<(Vec<u32>, Vec<u8>)> {
    Right.names_and_data(count, bytes).map(|(named, _)| (named, bytes.to_vec()))
});
wrong!(NamesDropped: fn names_and_data(&self, count: u8, bytes: &[u8]) -> Option<(Vec<u32>, Vec<u8>)> {
    Right.names_and_data(count, bytes).map(|(_, data)| (Vec::new(), data))
});
wrong!(MissingNamesTaken: fn names_and_data(&self, count: u8, bytes: &[u8]) -> Option<(Vec<u32>, Vec<u8>)> {
    Right.names_and_data(count.min((bytes.len() / 4) as u8), bytes)
});
wrong!(NoDataIsBad: fn names_and_data(&self, count: u8, bytes: &[u8]) -> Option<(Vec<u32>, Vec<u8>)> {
    Right.names_and_data(count, bytes).filter(|(_, data)| !data.is_empty())
});
wrong!(LongDataIsBad: fn names_and_data(&self, count: u8, bytes: &[u8]) -> Option<(Vec<u32>, Vec<u8>)> {
    Right.names_and_data(count, bytes).filter(|(_, data)| data.len() <= LONGEST_DATA)
});
wrong!(ManyNamesAreBad: fn names_and_data(&self, count: u8, bytes: &[u8]) -> Option<(Vec<u32>, Vec<u8>)> {
    Right.names_and_data(count, bytes).filter(|(named, _)| named.len() <= MOST_NAMED)
});
wrong!(HighBlockIsBad: fn formed(&self, tag: u8, value: &[u8]) -> Option<Record> {
    if (2..=4).contains(&tag) && *value.first()? > 63 { None } else { Right.formed(tag, value) }
});
wrong!(BlockInSixBits: fn formed(&self, tag: u8, value: &[u8]) -> Option<Record> {
    let mut value = value.to_vec();
    if (2..=4).contains(&tag) { *value.first_mut()? %= 64 }
    Right.formed(tag, &value)
});
wrong!(UnknownTagSkipped: fn record<'a>(&self, input: &'a [u8]) -> Result<Taken<'a>, Bad> {
    match (Right.record(input), input) {
        (Err(Bad::Tag), [_, high, low, rest @ ..]) => {
            let value = Right.length(*high, *low);
            rest.get(value..).filter(|rest| !rest.is_empty()).map_or(Err(Bad::Tag), |rest| self.record(rest))
        }
        (taken, _) => taken,
    }
});
wrong!(TagZeroIsWrite: fn record<'a>(&self, input: &'a [u8]) -> Result<Taken<'a>, Bad> {
    match input {
        [0, 0, 1, block, rest @ ..] => Ok((Record::Write { block: u32::from(*block) }, rest)),
        _ => Right.record(input),
    }
});
wrong!(TagSixIsComplete: fn record<'a>(&self, input: &'a [u8]) -> Result<Taken<'a>, Bad> {
    match input {
        [6, 0, 1, block, rest @ ..] => Ok((Record::Complete { block: u32::from(*block) }, rest)),
        _ => Right.record(input),
    }
});
/// Reads a missing rest of the value as zeros.
struct EarlyEndFilled;

impl Replay for EarlyEndFilled {
    fn record<'a>(&self, input: &'a [u8]) -> Result<Taken<'a>, Bad> {
        match (Right.record(input), input) {
            (Err(Bad::EndsInValue), [tag, high, low, value @ ..]) => {
                let mut value = value.to_vec();
                value.resize(Right.length(*high, *low), 0);
                Right.formed(*tag, &value).map(|record| (record, &[][..])).ok_or(Bad::Form)
            }
            (taken, _) => taken,
        }
    }
}

/// Takes a value that is shorter, or longer, than its tag's form: its first bytes, with zeros behind them.
struct FormUnjudged {
    tag: u8,
    size: usize,
    longer: bool,
}

impl Replay for FormUnjudged {
    fn formed(&self, tag: u8, value: &[u8]) -> Option<Record> {
        let mut value = value.to_vec();
        if tag == self.tag && (value.len() > self.size) == self.longer {
            value.resize(self.size, 0);
        }
        Right.formed(tag, &value)
    }
}

// ---- The trace ----

wrong!(EmptyPrintsNothing: fn bad_line(&self, place: u64, bad: Bad) -> String { silent(Bad::Empty, place, bad) });
wrong!(EndInHeadPrintsNothing: fn bad_line(&self, place: u64, bad: Bad) -> String { silent(Bad::EndsInHead, place, bad) });
wrong!(EndInValuePrintsNothing: fn bad_line(&self, place: u64, bad: Bad) -> String { silent(Bad::EndsInValue, place, bad) });
wrong!(AfterCutPrintsNothing: fn bad_line(&self, place: u64, bad: Bad) -> String { silent(Bad::AfterCut, place, bad) });
wrong!(BadSaysWhy: fn bad_line(&self, place: u64, bad: Bad) -> String { format!("{place} bad {}\n", bad as u32 + 16) });
wrong!(PlaceOfTheLastGood: fn bad_line(&self, place: u64, bad: Bad) -> String { Right.bad_line(place - 1, bad) });

fn silent(about: Bad, place: u64, bad: Bad) -> String {
    if bad == about { String::new() } else { Right.bad_line(place, bad) }
}

wrong!(SecondOpenTaken: fn misplaced(&self, run: &Run, record: &Record) -> Option<Bad> {
    Right.misplaced(run, record).filter(|&bad| bad != Bad::OpenAgain)
});
wrong!(OpenAgainAtOnce: fn misplaced(&self, run: &Run, record: &Record) -> Option<Bad> {
    let untouched = run.table.as_ref().is_some_and(|table| *table == Table::empty(table.setting, 1));
    Right.misplaced(run, record).filter(|_| !untouched)
});
/// Without an opening the table is that of an opening at 1.
struct OpenNotAsked;

impl Replay for OpenNotAsked {
    fn misplaced(&self, run: &Run, record: &Record) -> Option<Bad> {
        Right.misplaced(run, record).filter(|&bad| bad != Bad::OpenMissing)
    }

    fn line(&self, run: &mut Run, record: &Record) -> String {
        run.table.get_or_insert_with(|| Right.calls().open(1).1);
        Right.line(run, record)
    }
}

wrong!(AfterCutTaken: fn next<'a>(&self, run: &Run, input: &'a [u8]) -> Result<Option<Taken<'a>>, Bad> {
    if run.cut && !input.is_empty() { self.record(input).map(Some) } else { Right.next(run, input) }
});
wrong!(LooseEndAfterCutTaken: fn next<'a>(&self, run: &Run, input: &'a [u8]) -> Result<Option<Taken<'a>>, Bad> {
    if run.cut && self.record(input).is_err() { Ok(None) } else { Right.next(run, input) }
});
wrong!(SecondCutTaken: fn next<'a>(&self, run: &Run, input: &'a [u8]) -> Result<Option<Taken<'a>>, Bad> {
    match Right.record(input) {
        Ok(taken) if run.cut && matches!(taken.0, Record::Cut { .. }) => Ok(Some(taken)),
        _ => Right.next(run, input),
    }
});
wrong!(RefusedOpenEnds: fn printed(&self, input: &[u8]) -> Printed {
    let Printed { text, ended } = Right.printed(input);
    let refused = text.starts_with("1 open 15\n");
    Printed { text: if refused { String::from("1 open 15\n") } else { text }, ended }
});
wrong!(GoesOnAfterBad: fn printed(&self, input: &[u8]) -> Printed {
    let Printed { mut text, ended } = Right.printed(input);
    let lines = text.lines().count();
    let behind = behind_record(input, lines).filter(|_| matches!(ended, Ended::Bad(_)));
    if let Some((record, _)) = behind.and_then(|rest| Right.record(rest).ok()) {
        let word = ["open", "create", "write", "complete", "cut"][usize::from(record.tag()) - 1];
        text += &format!("{} {word} 0\n", lines + 1);
    }
    Printed { text, ended }
});

/// What stands behind the record with this place.
fn behind_record(input: &[u8], place: usize) -> Option<&[u8]> {
    (0..place).try_fold(input, |left, _| match left {
        [_, high, low, rest @ ..] => rest.get(Right.length(*high, *low)..),
        _ => None,
    })
}

// ---- Lines ----

wrong!(PlacesFromZero: fn first_place(&self) -> u64 { 0 });
/// The place, and no other number, in so many binary digits.
struct PlaceIn(u32);

impl Replay for PlaceIn {
    fn printed(&self, input: &[u8]) -> Printed {
        let Printed { text, ended } = Right.printed(input);
        let line = |line: &str| {
            let (place, rest) = line.split_once(' ').unwrap_or_default();
            format!("{} {rest}\n", place.parse().unwrap_or(0u64) % (1 << self.0))
        };
        Printed { text: text.lines().map(line).collect(), ended }
    }
}

/// Reads so many bytes and no more.
struct Reads(usize);

impl Replay for Reads {
    fn printed(&self, input: &[u8]) -> Printed {
        Right.printed(&input[..input.len().min(self.0)])
    }
}

wrong!(NoLastNewline: fn printed(&self, input: &[u8]) -> Printed {
    let Printed { text, ended } = Right.printed(input);
    Printed { text: String::from(text.trim_end()), ended }
});
wrong!(RefusedCreateSaysNumber: fn said(&self, word: &str, judged: Result<String, Refusal>) -> String {
    let more = if word == "create" && judged.is_err() { " 0" } else { "" };
    Right.said(word, judged) + more
});
wrong!(RefusedWriteSaysCount: fn said(&self, word: &str, judged: Result<String, Refusal>) -> String {
    let more = if word == "write" && judged.is_err() { " 0" } else { "" };
    Right.said(word, judged) + more
});
wrong!(CutSaysAnswer: fn line(&self, run: &mut Run, record: &Record) -> String { Right.line(run, record).replace("cut ", "cut 0 ") });
wrong!(WriteSaysChanges: fn went(&self, run: &Run, sent: &Slots) -> u64 {
    let number_of = |&slot: &usize| run.table.as_ref().map(|table| table.slots[slot].number);
    let numbers: Vec<_> = sent.iter().filter_map(number_of).collect();
    run.accepted.iter().filter(|change| numbers.contains(&change.number)).count() as u64
});
wrong!(WriteSaysSet: fn went(&self, _: &Run, sent: &Slots) -> u64 { sent.iter().map(|&slot| 1 << slot).sum() });
wrong!(WriteSaysSlot: fn went(&self, _: &Run, sent: &Slots) -> u64 { sent.first().map_or(0, |&slot| slot as u64) });
wrong!(WriteSaysOne: fn went(&self, _: &Run, _: &Slots) -> u64 { 1 });
wrong!(AlwaysHard: fn created(&self, run: &mut Run, change: &Change) -> Result<String, Refusal> {
    Right.created(run, change).map(|more| more.replace("soft", "hard"))
});
wrong!(HoldsSwapped: fn created(&self, run: &mut Run, change: &Change) -> Result<String, Refusal> {
    Right.created(run, change).map(swapped)
});
wrong!(JoinsSaidSoft: fn created(&self, run: &mut Run, change: &Change) -> Result<String, Refusal> {
    let joins = joins(run, change);
    Right.created(run, change).map(|more| if joins { swapped(more) } else { more })
});
wrong!(JoinsSaidNext: fn created(&self, run: &mut Run, change: &Change) -> Result<String, Refusal> {
    let next = run.table.as_ref().filter(|_| joins(run, change)).map(|table| table.next);
    let more = Right.created(run, change)?;
    Ok(next.map_or(more, |next| format!(" {next} hard")))
});
wrong!(RoomSaid: fn created(&self, run: &mut Run, change: &Change) -> Result<String, Refusal> {
    Right.created(run, change).map(|more| more.replace("soft", "soft 0"))
});

fn swapped(more: String) -> String {
    if more.contains("hard") { more.replace("hard", "soft") } else { more.replace("soft", "hard") }
}

fn joins(run: &Run, change: &Change) -> bool {
    run.table.as_ref().is_some_and(|table| Right.calls().joined(table, change.block).is_some())
}

// ---- The table that open gave ----

struct KeepsFirst;

impl Model for KeepsFirst {
    fn open(&self, first: u32) -> (Result<(), Refusal>, Table) {
        (Right.calls().open(first).0, Table::empty(self.setting(), first))
    }
}

struct StartsAtOne;

impl Model for StartsAtOne {
    fn open(&self, first: u32) -> (Result<(), Refusal>, Table) {
        (Right.calls().open(first).0, Table::empty(self.setting(), 1))
    }
}

wrong!(RefusedOpenKeepsFirst: fn calls(&self) -> &dyn Model { &KeepsFirst });
wrong!(OpenedAtOne: fn calls(&self) -> &dyn Model { &StartsAtOne });

// ---- The cut ----

wrong!(PatchesCounted: fn on_the_store(&self, run: &Run, landed: u64) -> usize {
    let mut numbers: Vec<u32> = there(run, landed).map(|change| change.number).collect();
    numbers.sort_unstable();
    numbers.dedup();
    numbers.len()
});
wrong!(BlocksCounted: fn on_the_store(&self, run: &Run, landed: u64) -> usize {
    let mut blocks: Vec<u32> = there(run, landed).map(|change| change.block).collect();
    blocks.sort_unstable();
    blocks.dedup();
    blocks.len()
});
wrong!(CountInSixteenBits: fn on_the_store(&self, run: &Run, landed: u64) -> usize { Right.on_the_store(run, landed) % 65_536 });
wrong!(AllAccepted: fn has_landed(&self, _: &Run, _: &Accepted, _: u64) -> bool { true });
wrong!(OnlyCompleted: fn has_landed(&self, run: &Run, change: &Accepted, _: u64) -> bool { Right.has_landed(run, change, 0) });
wrong!(OnlyInFlight: fn has_landed(&self, run: &Run, change: &Accepted, landed: u64) -> bool {
    Right.has_landed(run, change, landed) && !Right.has_landed(run, change, 0)
});
wrong!(AllInFlightLanded: fn has_landed(&self, run: &Run, change: &Accepted, _: u64) -> bool { Right.has_landed(run, change, u64::MAX) });
wrong!(AnyBitLandsAll: fn bit(&self, landed: u64, _: u32) -> bool { landed != 0 });
wrong!(WaitingWithBitLanded: fn has_landed(&self, run: &Run, change: &Accepted, landed: u64) -> bool {
    Right.has_landed(run, change, landed) || Right.bit(landed, change.block)
});
wrong!(BitOfTheSlot: fn has_landed(&self, run: &Run, change: &Accepted, landed: u64) -> bool {
    let slot = run.table.as_ref().and_then(|table| table.slot_of(change.number)).unwrap_or(0);
    Right.has_landed(run, &Accepted { number: change.number, block: slot as u32 }, landed)
});
wrong!(BitInverted: fn bit(&self, landed: u64, block: u32) -> bool { !Right.bit(landed, block) });
wrong!(BitsFromTheHigh: fn bit(&self, landed: u64, block: u32) -> bool { Right.bit(landed.reverse_bits(), block) });
wrong!(BitsOfSixteen: fn bit(&self, landed: u64, block: u32) -> bool { Right.bit(landed, block % 16) });
wrong!(BitsFromOne: fn bit(&self, landed: u64, block: u32) -> bool { Right.bit(landed, block + 1) });
wrong!(OtherBitsCount: fn on_the_store(&self, run: &Run, landed: u64) -> usize {
    let out = |block| run.table.as_ref().is_some_and(|table| !table.in_flight(block).is_empty());
    let others = (0..64).filter(|&block| Right.bit(landed, block) && !out(block)).count();
    Right.on_the_store(run, landed) + others
});
wrong!(BitsCounted: fn on_the_store(&self, run: &Run, landed: u64) -> usize {
    Right.on_the_store(run, 0) + landed.count_ones() as usize
});

/// The changes that are on the store.
fn there(run: &Run, landed: u64) -> impl Iterator<Item = &Accepted> {
    run.accepted.iter().filter(move |change| Right.has_landed(run, change, landed))
}

type Entry = (&'static str, Box<dyn Replay>);

fn entries() -> Vec<Entry> {
    let mut entries = of_records();
    entries.extend(of_the_trace());
    entries.extend(of_lines());
    entries.extend(of_the_cut());
    let forms = [
        ("a short open taken", 1, 4, false),
        ("a long open taken", 1, 4, true),
        ("a short create taken", 2, 4, false),
        ("a short write taken", 3, 1, false),
        ("a long write taken", 3, 1, true),
        ("a short complete taken", 4, 1, false),
        ("a long complete taken", 4, 1, true),
        ("a short cut taken", 5, 8, false),
        ("a long cut taken", 5, 8, true),
    ];
    for (name, tag, size, longer) in forms {
        entries.push((name, Box::new(FormUnjudged { tag, size, longer })));
    }
    entries
}

fn of_records() -> Vec<Entry> {
    vec![
        ("length low byte first", Box::new(LengthLowFirst)),
        ("length in one byte", Box::new(LengthInOneByte)),
        ("1,201 bytes taken", Box::new(OneMoreTaken)),
        ("a value of any length taken", Box::new(AnyLengthTaken)),
        ("1,200 bytes refused", Box::new(OneLessTaken)),
        ("numbers low byte first", Box::new(NumbersLowFirst)),
        ("numbers of three bytes", Box::new(NumbersOfThreeBytes)),
        ("offset in one byte", Box::new(OffsetInOneByte)),
        ("the cut's bits in four bytes", Box::new(CutInFourBytes)),
        ("numbers run into the data", Box::new(NamesRunIntoData)),
        ("numbers dropped", Box::new(NamesDropped)),
        ("a create shorter than its numbers taken", Box::new(MissingNamesTaken)),
        ("a create of 0 bytes called bad", Box::new(NoDataIsBad)),
        ("a create above 64 bytes called bad", Box::new(LongDataIsBad)),
        ("a create above 8 numbers called bad", Box::new(ManyNamesAreBad)),
        ("a block above 63 called bad", Box::new(HighBlockIsBad)),
        ("block in six bits", Box::new(BlockInSixBits)),
        ("an unknown tag skipped", Box::new(UnknownTagSkipped)),
        ("tag 0 taken for write", Box::new(TagZeroIsWrite)),
        ("tag 6 taken for complete", Box::new(TagSixIsComplete)),
        ("a value that ends early filled up", Box::new(EarlyEndFilled)),
    ]
}

fn of_the_trace() -> Vec<Entry> {
    vec![
        ("empty input prints nothing", Box::new(EmptyPrintsNothing)),
        ("an end in the head prints nothing", Box::new(EndInHeadPrintsNothing)),
        ("an end in the value prints nothing", Box::new(EndInValuePrintsNothing)),
        ("a record after cut prints nothing", Box::new(AfterCutPrintsNothing)),
        ("bad says why", Box::new(BadSaysWhy)),
        ("bad has the place before it", Box::new(PlaceOfTheLastGood)),
        ("a second open taken", Box::new(SecondOpenTaken)),
        ("a second open taken while nothing was done", Box::new(OpenAgainAtOnce)),
        ("a missing open taken", Box::new(OpenNotAsked)),
        ("a record after cut taken", Box::new(AfterCutTaken)),
        ("a loose end after cut taken", Box::new(LooseEndAfterCutTaken)),
        ("a second cut taken", Box::new(SecondCutTaken)),
        ("a refused open ends the run", Box::new(RefusedOpenEnds)),
        ("goes on after bad", Box::new(GoesOnAfterBad)),
        ("a refused open keeps its first number", Box::new(RefusedOpenKeepsFirst)),
        ("every table opened at 1", Box::new(OpenedAtOne)),
    ]
}

fn of_lines() -> Vec<Entry> {
    vec![
        ("places from 0", Box::new(PlacesFromZero)),
        ("place in 8 bits", Box::new(PlaceIn(8))),
        ("place in 16 bits", Box::new(PlaceIn(16))),
        ("reads 65,536 bytes", Box::new(Reads(65_536))),
        ("no newline at the end", Box::new(NoLastNewline)),
        ("a refused create says number 0", Box::new(RefusedCreateSaysNumber)),
        ("a refused write says 0 patches", Box::new(RefusedWriteSaysCount)),
        ("cut says an answer too", Box::new(CutSaysAnswer)),
        ("write says how many changes went", Box::new(WriteSaysChanges)),
        ("write says the set of slots", Box::new(WriteSaysSet)),
        ("write says a slot", Box::new(WriteSaysSlot)),
        ("write says 1", Box::new(WriteSaysOne)),
        ("always hard", Box::new(AlwaysHard)),
        ("hard and soft swapped", Box::new(HoldsSwapped)),
        ("a join said to be soft", Box::new(JoinsSaidSoft)),
        ("a join said to have the next number", Box::new(JoinsSaidNext)),
        ("soft with its room", Box::new(RoomSaid)),
    ]
}

fn of_the_cut() -> Vec<Entry> {
    vec![
        ("patches counted for changes", Box::new(PatchesCounted)),
        ("blocks counted for changes", Box::new(BlocksCounted)),
        ("count in 16 bits", Box::new(CountInSixteenBits)),
        ("waiting changes counted", Box::new(AllAccepted)),
        ("only completed ones counted", Box::new(OnlyCompleted)),
        ("completed ones not counted", Box::new(OnlyInFlight)),
        ("all in flight counted", Box::new(AllInFlightLanded)),
        ("any bit lands all", Box::new(AnyBitLandsAll)),
        ("a bit lands what waits on its block", Box::new(WaitingWithBitLanded)),
        ("the slot's bit for the block's", Box::new(BitOfTheSlot)),
        ("a bit set for a write that did not land", Box::new(BitInverted)),
        ("bits from the high end", Box::new(BitsFromTheHigh)),
        ("bits of 16 blocks", Box::new(BitsOfSixteen)),
        ("bits from block 1 on", Box::new(BitsFromOne)),
        ("bits of other blocks counted", Box::new(OtherBitsCount)),
        ("bits counted for changes", Box::new(BitsCounted)),
    ]
}

/// So many random traces are tried as well.
const TRACES: u64 = 2_000;
const SEED: u64 = 7;

/// The first of the random traces that catches it.
fn caught_by_random(replay: &dyn Replay) -> Option<u64> {
    (0..TRACES).find(|&place| {
        let bytes = made(seed_of(SEED, place)).bytes;
        replay.printed(&bytes).text != Right.printed(&bytes).text
    })
}

/// Runs every wrong replay over the cases, and says by which each is caught; true when all were. What random traces catch is said
/// beside it.
pub fn run(cases: &[Case]) -> bool {
    let mut all_caught = true;
    println!("{:46} {:>12}  caught by the case", "wrong replay", "random trace");
    for (name, replay) in entries() {
        let random = caught_by_random(&*replay).map_or(String::from("-"), |place| (place + 1).to_string());
        let differs = |case: &&Case| difference(&replay.printed(&case.input).text, &case.wanted).is_some();
        let by = cases.iter().find(differs).map(|case| case.name.as_str());
        println!("{name:46} {random:>12}  {}", by.unwrap_or("NOT CAUGHT"));
        all_caught &= by.is_some();
    }
    all_caught
}
