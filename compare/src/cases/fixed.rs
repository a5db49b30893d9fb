//! The rows and edges of document 01 with their exact numbers, as requests a, b and d have them, and these requests' own examples. Each
//! row is run on the library, checked against what the documents say, and compared with the model like any other call.

use crate::judge::cover::Cover;
use crate::judge::run::{Failure, Order, Pair, Run};
use crate::judge::shrink::{line, said};
use crate::model::bytes::{TABLE_BYTES, encoded};
use crate::model::setting::Setting;
use crate::model::table::{LAST_NUMBER, NOT_TRIED, Slot, Slots, State, Table};
use crate::orders::steps::*;

/// What a row must answer, hand out and leave in a slot: a state, and befores.
#[derive(Clone, Default)]
pub struct Want {
    answer: Answer,
    handed: Option<Vec<u8>>,
    slot: Option<(usize, State)>,
    befores: Option<(usize, Slots)>,
}

pub type Row = (&'static str, Step, Want);

/// Rows on a table, and what the case is called.
pub struct Case {
    pub name: &'static str,
    pub table: Option<Table>,
    pub rows: Vec<Row>,
}

pub fn granted() -> Want {
    Want::default()
}

pub fn refused(refusal: u32) -> Want {
    Want { answer: Answer { refusal, ..Answer::default() }, ..Want::default() }
}

pub fn hard(number: u32) -> Want {
    Want { answer: Answer { number, hold: 1, ..Answer::default() }, ..Want::default() }
}

pub fn soft(number: u32, room: u32) -> Want {
    Want { answer: Answer { number, hold: 2 + room, ..Answer::default() }, ..Want::default() }
}

fn state(state: u32) -> Want {
    Want { answer: Answer { state, ..Answer::default() }, ..Want::default() }
}

fn counts(count: u32) -> Want {
    Want { answer: Answer { count, ..Answer::default() }, ..Want::default() }
}

/// Slots sent, and the block handed out as runs of (how many, which byte), then zeros. Of a joint call both are granted.
pub fn sends(slots: &[u32], runs: &[(usize, u8)]) -> Want {
    let set = slots.iter().map(|slot| 1u64 << slot).sum();
    Want { answer: Answer { set, ..Answer::default() }, ..Want::default() }.handing(runs)
}

/// A joint call that completes, and whose write is refused.
fn completes(second: u32) -> Want {
    Want { answer: Answer { second, ..Answer::default() }, ..Want::default() }
}

/// A joint call whose completion is refused.
fn not_tried(refusal: u32) -> Want {
    Want { answer: Answer { refusal, second: NOT_TRIED, ..Answer::default() }, ..Want::default() }
}

impl Want {
    /// The block handed out, now or before, is this.
    fn handing(mut self, runs: &[(usize, u8)]) -> Want {
        let mut handed: Vec<u8> = runs.iter().flat_map(|&(count, byte)| vec![byte; count]).collect();
        handed.resize(256, 0);
        self.handed = Some(handed);
        self
    }

    pub fn leaving(mut self, slot: usize, state: State) -> Want {
        self.slot = Some((slot, state));
        self
    }

    pub fn following(mut self, slot: usize, befores: &[usize]) -> Want {
        self.befores = Some((slot, befores.iter().copied().collect()));
        self
    }
}

fn up_to_p6() -> Vec<Row> {
    vec![
        ("open", open(1), granted()),
        ("P1", create(1, 0, &[65; 8], &[]), hard(1)),
        ("P2", create(2, 0, &[1; 2], &[1]), hard(2)),
        ("P3 joins 2", create(2, 2, &[2; 2], &[]), hard(2).following(1, &[0])),
        ("P4", create(1, 8, &[66; 8], &[2]), soft(3, 0).leaving(2, State::WaitingSoft { room: 0 })),
        ("P5", write(2), refused(13)),
        ("P6", write(1), sends(&[0], &[(8, 65)]).leaving(0, State::InFlightHard)),
    ]
}

fn two_pages() -> Vec<Row> {
    let mut rows = up_to_p6();
    rows.extend([
        ("P7", write(1), refused(11)),
        ("P8 complete", complete(1), granted().leaving(0, State::Free)),
        ("P8 write", write(2), sends(&[1], &[(2, 1), (2, 2)])),
        ("P9", write(1), refused(13)),
        ("P10 complete", complete(2), granted()),
        ("P10 write", write(1), sends(&[2], &[(8, 65), (8, 66)]).leaving(2, State::InFlightSoft)),
    ]);
    rows
}

fn branch_after_p6() -> Vec<Row> {
    let mut rows = up_to_p6();
    rows.extend([
        (
            "branch: joins 3, which turns hard",
            create(1, 0, &[67], &[]),
            hard(3).leaving(2, State::WaitingHard),
        ),
        ("branch: 3 follows 1 and 2 as before", count(1), counts(1).following(2, &[0, 1])),
        ("branch: in flight still", write(1), refused(11)),
        ("branch: complete 1", complete(1), granted().following(2, &[1])),
        ("branch: 13 while 2 waits", write(1), refused(13)),
        ("branch: 2 goes", write(2), sends(&[1], &[(2, 1), (2, 2)])),
        ("branch: 13 while 2 is in flight", write(1), refused(13)),
        ("branch: 2 commits", complete(2), granted()),
        ("branch: 3 goes, with both changes", write(1), sends(&[2], &[(1, 67), (7, 65), (8, 66)])),
    ]);
    rows
}

fn edges_of_create() -> Vec<Row> {
    vec![
        ("open", open(1), granted()),
        ("length 64 at 192", create(0, 192, &[7; 64], &[]), hard(1)),
        ("length 64 at 193", create(0, 193, &[7; 64], &[]), refused(5)),
        ("1 byte at 255", create(0, 255, &[7], &[]), hard(1)),
        ("1 byte at 256", create(0, 256, &[7], &[]), refused(5)),
        ("1 byte at 4,294,967,295", create(0, u32::MAX, &[7], &[]), refused(5)),
        ("64 bytes at 4,294,967,232", create(0, u32::MAX - 63, &[7; 64], &[]), refused(5)),
        ("length 0", create(0, 0, &[], &[]), refused(4)),
        ("length 65", create(0, 0, &[7; 65], &[]), refused(4)),
        ("8 numbers", create(0, 0, &[7], &[1; 8]), hard(1)),
        ("9 numbers", create(0, 0, &[7], &[1; 9]), refused(6)),
        ("264 numbers", create(0, 0, &[7], &[1; 264]), refused(6)),
        ("65,544 numbers", create(0, 0, &[7], &[1; 65_544]), refused(6)),
        ("length 257", create(0, 0, &[7; 257], &[]), refused(4)),
        ("length 65,537", create(0, 0, &[7; 65_537], &[]), refused(4)),
        ("9 numbers, one never issued", create(0, 0, &[7], &[9; 9]), refused(6)),
        ("8 numbers, on another block", create(1, 0, &[7], &[1; 8]), hard(2)),
        ("its own coming number", create(2, 0, &[7], &[3]), refused(7)),
        ("the coming number, though it would join", create(1, 0, &[7], &[3]), refused(7)),
        ("number 0", create(0, 0, &[7], &[0]), refused(7)),
        ("block 63", create(63, 255, &[7], &[]), hard(3)),
        ("block 64", create(64, 0, &[7], &[]), refused(3)),
        ("image short", create(0, 0, &[7], &[]).lending(Buffer::Image, 16_383), refused(1)),
        ("undo area long", create(0, 0, &[7], &[]).lending(Buffer::Undo, 1_025), refused(1)),
        ("table short", create(0, 0, &[7], &[]).lending(Buffer::Table, 2_055), refused(2)),
        ("block handed out short", write(0).lending(Buffer::Handed, 255), refused(1)),
    ]
}

fn edges_of_open() -> Vec<Row> {
    vec![
        ("open 0", open(0), refused(15)),
        ("then first is 1", create(0, 0, &[7], &[]), hard(1)),
        ("open 1,000,000,001", open(1_000_000_001), refused(15)),
        ("then first is 1 and 1 not issued", ask(1), refused(7)),
        ("open a short table", open(0).lending(Buffer::Table, 2_055), refused(2)),
        ("open 1,000,000,000", open(1_000_000_000), granted()),
        ("one create is granted", create(0, 0, &[7], &[]), hard(1_000_000_000)),
        ("the next is 8, on another block", create(1, 0, &[7], &[]), refused(8)),
        ("on this one it joins", create(0, 1, &[8], &[]), hard(1_000_000_000)),
        ("and again, with a name", create(0, 2, &[9], &[1_000_000_000]), hard(1_000_000_000)),
        ("7 comes before 8", create(1, 0, &[7], &[1_000_000_001]), refused(7)),
        ("7 also where it would join", create(0, 0, &[7], &[1_000_000_001]), refused(7)),
        ("the last number waits", ask(1_000_000_000), state(1)),
        ("it goes", write(0), sends(&[0], &[(1, 7), (1, 8), (1, 9)])),
        ("it is in flight", ask(1_000_000_000), state(2)),
        ("one in flight is not joined", create(0, 0, &[7], &[]), refused(8)),
        ("it commits", complete(0), granted()),
        ("it has committed", ask(1_000_000_000), state(3)),
        ("still 8", create(0, 0, &[7], &[1_000_000_000]), refused(8)),
    ]
}

/// At the last number a creation joins or is refused 8: a soft one does not join.
fn last_number() -> Vec<Row> {
    vec![
        ("open", open(999_999_999), granted()),
        ("one on block 1", create(1, 0, &[1], &[]), hard(999_999_999)),
        ("one on block 2 names it", create(2, 0, &[2], &[999_999_999]), hard(1_000_000_000)),
        ("it would be soft: 8", create(1, 1, &[3], &[]), refused(8)),
        ("on block 2 it joins", create(2, 1, &[4], &[1_000_000_000, 999_999_999]), hard(1_000_000_000)),
        ("block 1 goes", write(1), sends(&[0], &[(1, 1)])),
        ("nothing waits there: 8", create(1, 1, &[3], &[]), refused(8)),
    ]
}

/// Sixty-four creates on block 0 use one slot, and so do the next thousand.
fn one_slot() -> Vec<Row> {
    let mut rows = vec![("open", open(1), granted())];
    for change in 0..1_064u32 {
        let name = if change < 64 { "one of 64" } else { "one of the next thousand" };
        rows.push((name, create(0, change % 250, &[change as u8; 3], &[]), hard(1)));
    }
    rows.push(("one patch waits", count(0), counts(1).following(0, &[])));
    rows.push(("the next number", create(1, 0, &[1], &[]), hard(2).leaving(1, State::WaitingHard)));
    rows
}

/// A patch on each block. With the table full a creation joins or is refused 9.
fn full_slots() -> Vec<Row> {
    let mut rows = vec![("open", open(1), granted())];
    for block in 0..64 {
        rows.push(("one of 64", create(block, 0, &[block as u8], &[]), hard(1 + block)));
    }
    rows.extend([
        ("a join into the full table", create(7, 3, &[9; 2], &[]), hard(8)),
        ("block 5 goes", write(5), sends(&[5], &[(1, 5)])),
        ("no slot, and 6 in flight is not joined", create(5, 0, &[1], &[]), refused(9)),
        ("a join that names 10", create(8, 1, &[2], &[10]), hard(9).following(8, &[9])),
        ("soft on 10's block now: it does not join", create(9, 1, &[3], &[]), refused(9)),
        ("block 5 lands", complete(5), granted()),
        ("a slot is free", create(5, 1, &[4], &[]), hard(65).leaving(5, State::WaitingHard)),
        ("block 7 goes with both changes", write(7), sends(&[7], &[(1, 7), (2, 0), (2, 9)])),
    ]);
    rows
}

/// Befores on other blocks come to the joined patch, waiting or in flight; the patches of those blocks are soft from then on.
fn join_adds_befores() -> Vec<Row> {
    vec![
        ("open", open(1), granted()),
        ("1 on block 1", create(1, 0, &[10; 4], &[]), hard(1)),
        ("2 on block 2", create(2, 0, &[20; 4], &[]), hard(2)),
        ("3 on block 3", create(3, 0, &[30; 4], &[]), hard(3)),
        ("3 goes", write(3), sends(&[2], &[(4, 30)])),
        ("joins 1, after 2 and 3", create(1, 8, &[11; 2], &[2, 3, 2]), hard(1).following(0, &[1, 2])),
        ("once more after 2", create(1, 9, &[12; 2], &[2]), hard(1).following(0, &[1, 2])),
        ("1 follows 2 and 3", write(1), refused(13)),
        ("soft: 1 follows 2", create(2, 8, &[21], &[]), soft(4, 0).following(3, &[1])),
        ("2 and 4 go", write(2), sends(&[1, 3], &[(4, 20), (4, 0), (1, 21)])),
        ("complete block 2", complete(2), granted().following(0, &[2])),
        ("13 while 3 is in flight", write(1), refused(13)),
        ("complete block 3", complete(3), granted().following(0, &[])),
        ("1 goes with its three changes", write(1), sends(&[0], &[(4, 10), (4, 0), (1, 11), (2, 12)])),
    ]
}

/// A patch in flight is not joined: the change makes a patch of its own, which follows it; the next one joins that.
fn beside_one_in_flight() -> Vec<Row> {
    vec![
        ("open", open(1), granted()),
        ("1 on block 1", create(1, 0, &[10; 4], &[]), hard(1)),
        ("1 goes", write(1), sends(&[0], &[(4, 10)])),
        ("1 in flight is not joined, but followed", create(1, 8, &[20; 4], &[]), hard(2).following(1, &[0])),
        ("2 is joined", create(1, 0, &[30; 2], &[1]), hard(2).following(1, &[0])),
        ("2 waits alone", count(1), counts(1)),
        ("1 has landed", complete(1), granted().following(1, &[])),
        ("2 goes with both changes", write(1), sends(&[1], &[(2, 30), (2, 10), (4, 0), (4, 20)])),
    ]
}

/// Names of the change's own block bring nothing to the patch it joins: 4 is in flight, 5 waits, 3 is joined itself.
fn join_names_its_block() -> Vec<Row> {
    vec![
        ("open", open(1), granted()),
        ("1 on block 1", create(1, 0, &[10; 4], &[]), hard(1)),
        ("2 on block 2 after 1", create(2, 0, &[20], &[1]), hard(2)),
        ("3 on block 1 after 2", create(1, 8, &[30; 4], &[2]), soft(3, 0).following(2, &[0, 1])),
        ("4 on block 1", create(1, 16, &[40; 4], &[]), soft(4, 1).following(3, &[0])),
        ("5 on block 1 after 2", create(1, 24, &[50; 4], &[2]), soft(5, 2).following(4, &[0, 1])),
        ("1 and 4 go", write(1), sends(&[0, 3], &[(4, 10), (12, 0), (4, 40)])),
        ("joins 3, names 4 in flight", create(1, 32, &[31], &[4]), hard(3).following(2, &[0, 1])),
        ("joins 3, names 5 that waits", create(1, 33, &[32], &[5]), hard(3).following(2, &[0, 1])),
        ("joins 3, names 3 itself", create(1, 34, &[33], &[3, 1]), hard(3).following(2, &[0, 1])),
        ("1 and 4 have landed", complete(1), granted().following(2, &[1])),
        ("joins 3, names committed ones", create(1, 35, &[34], &[4, 1]), hard(3).following(2, &[1])),
        ("13: 3 and 5 follow 2", write(1), refused(13)),
        ("2 goes", write(2), sends(&[1], &[(1, 20)])),
        ("2 has landed", complete(2), granted().following(2, &[])),
        ("3 and 5 go", write(1), sends(&[2, 4], &joined_bytes())),
    ]
}

/// Block 1 at the end of the case above.
fn joined_bytes() -> Vec<(usize, u8)> {
    let patches = [10, 30, 40, 50].into_iter().flat_map(|byte| [(4, byte), (4, 0)]);
    patches.chain([(1, 31), (1, 32), (1, 33), (1, 34)]).collect()
}

/// Soft patches that turned hard are joined: the lowest number of them answers, their rooms are free again.
fn join_after_turning() -> Vec<Row> {
    vec![
        ("open", open(1), granted()),
        ("1 on block 1", create(1, 0, &[10; 4], &[]), hard(1)),
        ("2 on block 2 after 1", create(2, 0, &[20; 4], &[1]), hard(2)),
        ("3 on block 1 after 2", create(1, 8, &[30], &[2]), soft(3, 0)),
        ("4 on block 1 after 2", create(1, 12, &[40], &[2]), soft(4, 1)),
        ("1 goes alone", write(1), sends(&[0], &[(4, 10)])),
        ("1 has landed", complete(1), granted()),
        ("joins 3", create(1, 16, &[50], &[]), hard(3).leaving(2, State::WaitingHard)),
        ("4 has turned too", count(1), counts(2).leaving(3, State::WaitingHard)),
        ("the answer stays 3", create(1, 17, &[51], &[4]), hard(3).following(2, &[1])),
        ("5 on block 3 after 3", create(3, 0, &[60], &[3]), hard(5)),
        ("room 0 is free again", create(1, 20, &[70], &[5]), soft(6, 0)),
        ("13: 3 follows 2", write(1), refused(13)),
        ("2 goes", write(2), sends(&[1], &[(4, 20)])),
        ("2 has landed", complete(2), granted()),
        (
            "3 and 4 go with what joined, 6 stays",
            write(1),
            sends(&[2, 3], &[(4, 10), (4, 0), (1, 30), (3, 0), (1, 40), (3, 0), (1, 50), (1, 51)]),
        ),
    ]
}

/// A later soft patch that overlaps only a joined change follows the joined patch, and what is taken back is that change's bytes.
fn over_a_joined_change() -> Vec<Row> {
    vec![
        ("open", open(1), granted()),
        ("1 on block 1", create(1, 0, &[1; 4], &[]), hard(1)),
        ("joins 1", create(1, 8, &[2; 4], &[]), hard(1)),
        ("2 on block 2 after 1", create(2, 0, &[3], &[1]), hard(2)),
        ("3 over the joined change is soft", create(1, 10, &[4; 4], &[]), soft(3, 0).following(2, &[0])),
        ("4 over it too, after 2", create(1, 11, &[5; 4], &[2]), soft(4, 1).following(3, &[0, 1, 2])),
        ("1 and 3 go", write(1), sends(&[0, 2], &[(4, 1), (4, 0), (2, 2), (4, 4)])),
        ("joins 4, which turns hard", create(1, 40, &[6], &[]), hard(4).following(3, &[0, 1, 2])),
    ]
}

/// Two that wait on block 1, the lower number in the higher slot and soft, and one in flight with a number below both: no order of
/// calls leaves it.
fn crossed() -> Table {
    let mut table = Table { next: 9, ..Table::empty(Setting::Board, 1) };
    let slot = |state, number| {
        let befores = Slots::new();
        Slot { state, number, block: 1, offset: 8 * number, length: 4, befores }
    };
    table.slots[0] = slot(State::WaitingHard, 7);
    table.slots[1] = slot(State::InFlightHard, 2);
    table.slots[2] = slot(State::WaitingSoft { room: 3 }, 5);
    table.slots[3] = slot(State::WaitingHard, 6);
    table
}

fn lowest_number() -> Vec<Row> {
    vec![
        ("the lowest that waits is joined", create(1, 0, &[1], &[]), hard(5).leaving(2, State::WaitingHard)),
        ("and again", create(1, 1, &[2], &[7, 2, 8]), hard(5).following(2, &[])),
        ("three wait", count(1), counts(3)),
    ]
}

fn full_rooms() -> Vec<Row> {
    let mut rows = vec![
        ("open", open(1), granted()),
        ("one on block 1", create(1, 0, &[1], &[]), hard(1)),
        ("one on block 2 names it", create(2, 0, &[2], &[1]), hard(2)),
    ];
    for room in 0..16 {
        rows.push(("one of sixteen", create(1, 0, &[room as u8], &[]), soft(3 + room, room)));
    }
    rows.push(("the seventeenth", create(1, 0, &[16], &[]), refused(10)));
    rows.push(("count", count(1), counts(17)));
    rows.push((
        "all go together",
        write(1),
        sends(&(0..=17).filter(|&s| s != 1).collect::<Vec<_>>(), &[(1, 15)]),
    ));
    rows.push(("the rooms are free", create(1, 9, &[1], &[]), hard(19)));
    rows
}

/// Two soft patches that overlap: one is struck only because the other is, and both are taken back.
fn shortcuts() -> Vec<Row> {
    vec![
        ("open", open(1), granted()),
        ("1 on block 1", create(1, 0, &[10; 4], &[]), hard(1)),
        ("2 on block 2 after 1", create(2, 0, &[20; 4], &[1]), hard(2)),
        ("3 on block 1 after 2", create(1, 2, &[30; 4], &[2]), soft(3, 0)),
        ("4 on block 1 over 3", create(1, 4, &[40; 4], &[]), soft(4, 1)),
        ("5 on block 1 beside them", create(1, 8, &[50; 2], &[]), soft(5, 2)),
        ("offset inside, end outside", create(1, 250, &[9; 8], &[]), refused(5)),
        ("1 and 5 go", write(1), sends(&[0, 4], &[(4, 10), (4, 0), (2, 50)])),
        ("2 follows 1 in flight", write(2), refused(13)),
        ("complete block 1", complete(1), granted()),
        ("1 has committed", ask(1), state(3)),
        ("2 goes", write(2), sends(&[1], &[(4, 20)])),
        ("3 follows 2 in flight", write(1), refused(13)),
        ("a committed number named", create(3, 0, &[1], &[1]), hard(6).leaving(0, State::WaitingHard)),
        ("complete block 2", complete(2), granted()),
        ("3 and 4 go", write(1), sends(&[2, 3], &[(2, 10), (2, 30), (4, 40), (2, 50)])),
    ]
}

/// Sixteen soft patches stay behind, each over the one before it, and the last is the first to be taken back.
fn sixteen_taken_back() -> Vec<Row> {
    let mut rows = vec![
        ("open", open(1), granted()),
        ("one on block 1", create(1, 0, &[1; 17], &[]), hard(1)),
        ("one on block 2 names it", create(2, 0, &[2], &[1]), hard(2)),
    ];
    for room in 0..16 {
        let over = create(1, room, &[10 + room as u8; 2], &[2]);
        rows.push(("one of sixteen that follow it", over, soft(3 + room, room)));
    }
    rows.push(("1 goes alone", write(1), sends(&[0], &[(17, 1)])));
    rows
}

/// Each of sixteen soft patches follows the one before it, the first one on another block: a round strikes one.
fn many_rounds() -> Vec<Row> {
    let mut rows = vec![
        ("open", open(1), granted()),
        ("one on block 1", create(1, 0, &[1], &[]), hard(1)),
        ("one on block 2 names it", create(2, 0, &[2], &[1]), hard(2)),
    ];
    for room in 0..16 {
        let chained = create(1, 10 * room, &[7; 5], &[2 + room]);
        rows.push(("one that follows the last", chained, soft(3 + room, room)));
    }
    rows.push(("1 goes alone", write(1), sends(&[0], &[(1, 1)])));
    rows
}

/// Two soft patches that overlap, the later number with the lower sixteen binary digits: it is the first to be taken back.
fn past_sixteen_digits() -> Vec<Row> {
    vec![
        ("open", open(65_533), granted()),
        ("one on block 1", create(1, 0, &[1], &[]), hard(65_533)),
        ("one on block 2 names it", create(2, 0, &[2], &[65_533]), hard(65_534)),
        ("65,535 follows that", create(1, 2, &[3; 4], &[65_534]), soft(65_535, 0)),
        ("65,536 lies over it", create(1, 4, &[4; 4], &[]), soft(65_536, 1)),
        ("65,533 goes alone", write(1), sends(&[0], &[(1, 1)])),
    ]
}

/// Fifteen soft patches in a chain and a hard one at its end, which only the sixteenth round strikes, beside a soft one that follows
/// nothing: no order of calls leaves it.
fn late_hard_one() -> Table {
    let mut table = Table { next: 20, ..Table::empty(Setting::Board, 1) };
    let slot = |i: usize| {
        let state = if i == 15 { State::WaitingHard } else { State::WaitingSoft { room: i as u32 } };
        let (number, befores) = (1 + i as u32, Slots::from([if i == 0 { 16 } else { i - 1 }]));
        Slot { state, number, block: 1, offset: number, length: 1, befores }
    };
    (0..16).for_each(|i| table.slots[i] = slot(i));
    table.slots[16] = Slot { block: 2, befores: Slots::new(), number: 17, ..slot(15) };
    table.slots[17] =
        Slot { befores: Slots::new(), number: 18, state: State::WaitingSoft { room: 15 }, ..slot(15) };
    table
}

/// Numbers that are issued and far apart, up to all there are.
fn far_numbers() -> Vec<Row> {
    vec![
        ("the first number has committed", ask(1), state(3)),
        ("65,537 numbers ago", ask(999_934_464), state(3)),
        ("the last number issued", ask(1_000_000_000), state(1)),
        ("the one after it", ask(1_000_000_001), refused(7)),
        ("a committed one named", create(2, 0, &[1], &[2]), refused(8)),
        ("and by one that joins", create(1, 0, &[1], &[2]), hard(1_000_000_000)),
    ]
}

fn all_issued() -> Table {
    let mut table = Table { next: LAST_NUMBER + 1, ..Table::empty(Setting::Board, 1) };
    let befores = Slots::new();
    table.slots[3] =
        Slot { state: State::WaitingHard, number: LAST_NUMBER, block: 1, offset: 0, length: 1, befores };
    table
}

/// Opened at 7, the numbers 1 to 6 have committed, and nothing else has.
fn opened_at_7() -> Vec<Row> {
    vec![
        ("open", open(7), granted()),
        ("3 has committed", ask(3), state(3)),
        ("6 has", ask(6), state(3)),
        ("1 has", ask(1), state(3)),
        ("0 was never issued", ask(0), refused(7)),
        ("7 is not issued yet", ask(7), refused(7)),
        ("8 is not", ask(8), refused(7)),
        ("0 named", create(1, 0, &[65], &[0]), refused(7)),
        ("0 named after 3", create(1, 0, &[65], &[3, 0]), refused(7)),
        ("7 named before it is issued", create(1, 0, &[65], &[7]), refused(7)),
        ("7 named between two that have committed", create(1, 0, &[65], &[6, 7, 1]), refused(7)),
        ("nine that have committed", create(1, 0, &[65], &[3; 9]), refused(6)),
        (
            "3 named: 7 follows nothing",
            create(1, 0, &[65; 8], &[3]),
            hard(7).leaving(0, State::WaitingHard).following(0, &[]),
        ),
        ("7 waits", ask(7), state(1)),
        ("3 has committed still", ask(3), state(3)),
        ("6 too", ask(6), state(3)),
        ("8 is the coming one", ask(8), refused(7)),
        ("and 0 is none", ask(0), refused(7)),
        ("8 named", create(1, 8, &[66], &[3, 8]), refused(7)),
        ("7 goes at once", write(1), sends(&[0], &[(8, 65)])),
        ("6 beside it in flight", ask(6), state(3)),
        ("7 has landed", complete(1), granted()),
        ("7 has committed", ask(7), state(3)),
        ("7 and 6 named, both committed", create(2, 0, &[67], &[7, 6]), hard(8).following(0, &[])),
    ]
}

/// Opened at 1, no number is below first.
fn opened_at_1() -> Vec<Row> {
    vec![
        ("open", open(1), granted()),
        ("0 was never issued", ask(0), refused(7)),
        ("nor was 1", ask(1), refused(7)),
        ("0 named", create(0, 0, &[7], &[0]), refused(7)),
        ("1 named", create(0, 0, &[7], &[1]), refused(7)),
        ("the first change is 1", create(0, 0, &[7], &[]), hard(1)),
        ("0 is none still", ask(0), refused(7)),
        ("1 waits", ask(1), state(1)),
    ]
}

/// Old names beside others, in every order: those that wait or are in flight are followed, and those alone. 7 in slot 0 is nobody's
/// before for an old name.
fn old_names_beside_others() -> Vec<Row> {
    let block_2: [(usize, u8); 4] = [(1, 20), (1, 21), (1, 22), (1, 23)];
    vec![
        ("open", open(7), granted()),
        ("7 on block 1, in slot 0", create(1, 0, &[10; 4], &[]), hard(7)),
        ("only old ones named", create(2, 0, &[20], &[3]), hard(8).following(1, &[])),
        ("an old one first", create(3, 0, &[30], &[3, 7]), hard(9).following(2, &[0])),
        ("an old one last", create(4, 0, &[40], &[7, 6]), hard(10).following(3, &[0])),
        ("eight old ones", create(5, 0, &[50], &[1, 2, 3, 4, 5, 6, 6, 1]), hard(11).following(4, &[])),
        ("soft on block 1, an old one named", create(1, 8, &[11], &[2]), soft(12, 0).following(5, &[0])),
        ("joins 8, an old one named", create(2, 1, &[21], &[5]), hard(8).following(1, &[])),
        ("7 and 12 go", write(1), sends(&[0, 5], &[(4, 10), (4, 0), (1, 11)])),
        ("an old one and one in flight", create(6, 0, &[60], &[1, 7]), hard(13).following(6, &[0])),
        ("joins 8, old ones and 11 named", create(2, 2, &[22], &[6, 11, 1]), hard(8).following(1, &[4])),
        ("7 and 12 have landed", complete(1), granted().following(2, &[])),
        ("an old one and one committed since", create(1, 0, &[12], &[7, 4]), hard(14).following(0, &[])),
        ("joins 8, both again and 14", create(2, 3, &[23], &[4, 7, 14]), hard(8).following(1, &[0, 4])),
        ("11 goes", write(5), sends(&[4], &[(1, 50)])),
        ("11 has landed", complete(5), granted()),
        ("13: 8 follows 14", write(2), refused(13)),
        ("14 goes", write(1), sends(&[0], &[(1, 12), (3, 10), (4, 0), (1, 11)])),
        ("14 has landed", complete(1), granted().following(1, &[])),
        ("8 goes with what joined", write(2), sends(&[1], &block_2)),
    ]
}

/// Opened at the last number there is, all others have committed; what joins or is refused 8 may name them.
fn opened_at_the_last() -> Vec<Row> {
    vec![
        ("open", open(1_000_000_000), granted()),
        ("the one before it", ask(999_999_999), state(3)),
        ("the first of all", ask(1), state(3)),
        ("itself", ask(1_000_000_000), refused(7)),
        ("it follows nothing", create(0, 0, &[7], &[999_999_999, 1]), hard(1_000_000_000).following(0, &[])),
        ("it waits", ask(1_000_000_000), state(1)),
        ("no number comes after it", ask(1_000_000_001), refused(7)),
        ("8, with an old one named", create(1, 0, &[7], &[999_999_999]), refused(8)),
        ("7 comes before 8", create(1, 0, &[7], &[999_999_999, 0]), refused(7)),
        (
            "it is joined, with an old one named",
            create(0, 1, &[8], &[999_999_999]),
            hard(1_000_000_000).following(0, &[]),
        ),
    ]
}

/// Numbers with the same low digits as one in use: 65,543 is 7 in sixteen binary digits, and in eight.
fn old_digits_alike() -> Vec<Row> {
    vec![
        ("open", open(65_543), granted()),
        ("one on block 1", create(1, 0, &[1], &[]), hard(65_543)),
        ("7 has committed", ask(7), state(3)),
        ("64 is not slot 0", ask(64), state(3)),
        ("7 named", create(2, 0, &[2], &[7]), hard(65_544).following(1, &[])),
        ("64 and 65 named", create(3, 0, &[3], &[64, 65]), hard(65_545).following(2, &[])),
        ("the one before first", ask(65_542), state(3)),
    ]
}

/// The radio sleeps with all committed, opens at its next number, and its menus name the old one.
fn after_a_sleep() -> Vec<Row> {
    vec![
        ("open", open(1), granted()),
        ("1 on block 1", create(1, 0, &[10; 4], &[]), hard(1)),
        ("1 goes", write(1), sends(&[0], &[(4, 10)])),
        ("1 has landed", complete(1), granted()),
        ("1 has committed", ask(1), state(3)),
        ("the sleep", open(2), granted()),
        ("1 has committed", ask(1), state(3)),
        ("2 is not issued yet", ask(2), refused(7)),
        ("1 named", create(2, 0, &[20; 4], &[1]), hard(2).following(0, &[])),
        ("1 and 2 named", create(1, 2, &[30; 4], &[1, 2]), hard(3).following(1, &[0])),
        ("2 goes at once", write(2), sends(&[0], &[(4, 20)])),
        ("3 follows 2", write(1), refused(13)),
        ("2 has landed", complete(2), granted()),
        ("3 goes, over what 1 left", write(1), sends(&[1], &[(2, 10), (4, 30)])),
    ]
}

/// The supply is cut, and again. 2 is lost; it is taken for committed all the same where first is above it, and given again where
/// first is not.
fn after_cuts() -> Vec<Row> {
    vec![
        ("open", open(1), granted()),
        ("1 on block 1", create(1, 0, &[10; 4], &[]), hard(1)),
        ("2 on block 2 after 1", create(2, 0, &[20; 4], &[1]), hard(2)),
        ("1 goes", write(1), sends(&[0], &[(4, 10)])),
        ("a cut, block 1 landed", open(3).after_cut(&[1]), granted()),
        ("1 has committed", ask(1), state(3)),
        ("2 was lost, and is below first", ask(2), state(3)),
        ("both named", create(2, 2, &[30; 4], &[2, 1]), hard(3).following(0, &[])),
        ("3 goes at once, without 2", write(2), sends(&[0], &[(2, 0), (4, 30)])),
        ("a cut, block 2 did not land", open(3).after_cut(&[]), granted()),
        ("3 is not issued yet", ask(3), refused(7)),
        ("3 named", create(3, 0, &[40], &[3]), refused(7)),
        ("3 again, on block 3", create(3, 0, &[40], &[2]), hard(3).following(0, &[])),
        ("3 goes", write(3), sends(&[0], &[(1, 40)])),
        ("a cut, block 3 landed; a lower first", open(2).after_cut(&[3]), granted()),
        ("3 is not issued now", ask(3), refused(7)),
        ("2 again, on block 1", create(1, 4, &[50; 2], &[1]), hard(2).following(0, &[])),
        ("2 waits", ask(2), state(1)),
        ("3 again, after 2 and 1", create(2, 0, &[60], &[1, 2]), hard(3).following(1, &[0])),
        ("3 follows this 2", write(2), refused(13)),
        ("2 goes, over what 1 left", write(1), sends(&[0], &[(4, 10), (2, 50)])),
        ("a cut, block 1 landed; far above", open(500).after_cut(&[1]), granted()),
        ("3 has committed", ask(3), state(3)),
        ("so has 499", ask(499), state(3)),
        ("the first change of block 2 that lands", create(2, 8, &[70], &[3, 499]), hard(500)),
        ("it goes at once", write(2), sends(&[0], &[(8, 0), (1, 70)])),
    ]
}

/// Slot 0 waits, slot 1 is free and has a number below first among its remains: no order of calls leaves it.
fn old_remains() -> Table {
    let mut table = Table { next: 9, ..Table::empty(Setting::Board, 7) };
    let slot =
        Slot { state: State::WaitingHard, number: 7, block: 1, offset: 0, length: 4, befores: Slots::new() };
    table.slots[1] = Slot { state: State::Free, number: 3, block: 2, ..slot.clone() };
    table.slots[0] = slot;
    table
}

fn old_in_a_free_slot() -> Vec<Row> {
    vec![
        ("3 has committed", ask(3), state(3)),
        ("3 named", create(3, 0, &[1], &[3]), hard(9).following(1, &[])),
        ("8 has committed since", create(4, 0, &[1], &[8, 2]), hard(10).following(2, &[])),
    ]
}

/// P8 and P10 each in one call.
fn two_pages_in_joint_calls() -> Vec<Row> {
    let mut rows = up_to_p6();
    rows.extend([
        ("P7", write(1), refused(11)),
        ("P8", complete_write(1, 2), sends(&[1], &[(2, 1), (2, 2)]).leaving(0, State::Free)),
        ("P9", write(1), refused(13)),
        (
            "P10",
            complete_write(2, 1),
            sends(&[2], &[(8, 65), (8, 66)]).leaving(2, State::InFlightSoft).following(2, &[]),
        ),
        ("the last one lands", complete_write(1, 2), completes(12).leaving(2, State::Free)),
    ]);
    rows
}

/// Completing is refused by each of its numbers: nothing is tried, whatever a write would be answered.
fn joint_not_tried() -> Vec<Row> {
    let image = |step: Step| step.lending(Buffer::Image, 16_383);
    vec![
        ("open", open(1), granted()),
        ("1 on block 1", create(1, 0, &[10; 4], &[]), hard(1)),
        ("2 on block 2 after 1", create(2, 0, &[20; 4], &[1]), hard(2)),
        ("3 on block 3", create(3, 0, &[30; 4], &[]), hard(3)),
        ("14, a write of 3 would go", complete_write(1, 3), not_tried(14).leaving(2, State::WaitingHard)),
        ("14, a write of 2 would be 13", complete_write(1, 2), not_tried(14)),
        ("14, a write of 4 would be 12", complete_write(1, 4), not_tried(14)),
        ("14, y above 63", complete_write(1, 64), not_tried(14)),
        ("14, the same block", complete_write(1, 1), not_tried(14).leaving(0, State::WaitingHard)),
        ("14, the image short", image(complete_write(1, 3)), not_tried(14)),
        ("3, a write of 3 would go", complete_write(64, 3), not_tried(3)),
        ("3, x in its low byte 1", complete_write(257, 3), not_tried(3)),
        ("3, both above 63", complete_write(u32::MAX, u32::MAX), not_tried(3)),
        ("3, the image short", image(complete_write(64, 3)), not_tried(3)),
        ("2, the table short", complete_write(1, 3).lending(Buffer::Table, 2_055), not_tried(2)),
        ("2, both short", image(complete_write(1, 3)).lending(Buffer::Table, 2_055), not_tried(2)),
        ("1 goes", write(1), sends(&[0], &[(4, 10)])),
        ("14, a write of 1 would be 11", complete_write(2, 1), not_tried(14).handing(&[(4, 10)])),
        ("14, and 3 would go still", complete_write(2, 3), not_tried(14).handing(&[(4, 10)])),
        ("1 is in flight still", ask(1), state(2)),
        ("3 waits still", ask(3), state(1)),
    ]
}

/// Only the write is refused, by each of its numbers that can come: the completion stands, the block handed out keeps its bytes.
fn joint_write_refused() -> Vec<Row> {
    let mut rows = vec![("open", open(1), granted())];
    for block in 1..=9 {
        rows.push(("one on each block", create(block, 0, &[block as u8; 4], &[]), hard(block)));
    }
    let short = |x| complete_write(x, 9);
    let kept =
        |second: u32, x: u32| completes(second).handing(&[(4, x as u8)]).leaving(x as usize - 1, State::Free);
    let goes = |x: u32| ("one goes", write(x), sends(&[x - 1], &[(4, x as u8)]));
    rows.extend([
        goes(1),
        ("1, the image short", short(1).lending(Buffer::Image, 16_383), kept(1, 1)),
        ("block 1 has landed", complete(1), refused(14)),
        goes(2),
        ("1, the undo area long", short(2).lending(Buffer::Undo, 1_025), kept(1, 2)),
        ("2 has committed", ask(2), state(3)),
        goes(3),
        ("1, the block handed out short", short(3).lending(Buffer::Handed, 255), kept(1, 3)),
        ("3 has committed", ask(3), state(3)),
        goes(4),
        ("1 before 3", complete_write(4, 64).lending(Buffer::Handed, 0).lending(Buffer::Undo, 0), kept(1, 4)),
        goes(5),
        ("3, y is 64", complete_write(5, 64), kept(3, 5)),
        goes(6),
        ("3, y in its low byte 9", complete_write(6, 265), kept(3, 6)),
        goes(7),
        goes(8),
        (
            "11, y is in flight",
            complete_write(7, 8),
            completes(11).handing(&[(4, 8)]).leaving(6, State::Free),
        ),
        ("12, none of y waits", complete_write(8, 7), kept(12, 8)),
        ("10 on block 1", create(1, 8, &[11; 4], &[]), hard(10).leaving(0, State::WaitingHard)),
        ("11 on block 2 after 10", create(2, 8, &[12; 4], &[10]), hard(11)),
        ("9 goes", write(9), sends(&[8], &[(4, 9)])),
        ("13, y follows 10", complete_write(9, 2), kept(13, 9)),
        ("9 has committed", ask(9), state(3)),
        ("none is in flight", complete_write(9, 1), not_tried(14)),
    ]);
    rows
}

/// The same block completed and written: the write alone is refused 11 before it.
fn joint_same_block() -> Vec<Row> {
    vec![
        ("open", open(1), granted()),
        ("1 on block 1", create(1, 0, &[10; 4], &[]), hard(1)),
        ("14, none is in flight", complete_write(1, 1), not_tried(14)),
        ("1 goes", write(1), sends(&[0], &[(4, 10)])),
        ("2 follows 1", create(1, 8, &[20; 4], &[]), hard(2).following(1, &[0])),
        ("11 alone", write(1), refused(11)),
        (
            "1 lands and 2 goes",
            complete_write(1, 1),
            sends(&[1], &[(4, 10), (4, 0), (4, 20)]).leaving(0, State::Free).following(1, &[]),
        ),
        ("1 has committed", ask(1), state(3)),
        ("2 is in flight", ask(2), state(2)),
        ("3 on block 2", create(2, 0, &[30], &[]), hard(3)),
        ("4 on block 1 after 3", create(1, 0, &[40], &[3]), hard(4).following(2, &[0, 1])),
        ("13, 4 follows 3", complete_write(1, 1), completes(13).following(2, &[0]).leaving(1, State::Free)),
        ("14 again", complete_write(1, 1), not_tried(14)),
        ("3 goes", write(2), sends(&[0], &[(1, 30)])),
        ("12, none waits", complete_write(2, 2), completes(12).handing(&[(1, 30)]).following(2, &[])),
        ("4 goes", write(1), sends(&[2], &[(1, 40), (3, 10), (4, 0), (4, 20)])),
        ("12, the last one", complete_write(1, 1), completes(12).leaving(2, State::Free)),
    ]
}

/// A write that goes only since the completion, where it was refused 13, or that has more patches since it.
fn joint_helps_the_write() -> Vec<Row> {
    vec![
        ("open", open(1), granted()),
        ("1 on block 1", create(1, 0, &[10; 4], &[]), hard(1)),
        ("2 on block 2 after 1", create(2, 0, &[20; 4], &[1]), hard(2)),
        ("3 on block 3", create(3, 0, &[30; 4], &[]), hard(3)),
        ("4 on block 4 after 3", create(4, 0, &[40; 4], &[3]), hard(4)),
        ("1 goes", write(1), sends(&[0], &[(4, 10)])),
        ("13 alone", write(2), refused(13)),
        ("1 lands and 2 goes", complete_write(1, 2), sends(&[1], &[(4, 20)]).leaving(0, State::Free)),
        ("5 on block 3 after 2, soft", create(3, 2, &[50; 4], &[2]), soft(5, 0).following(0, &[1, 2])),
        ("6 on block 3 after 4, soft", create(3, 8, &[60; 4], &[4]), soft(6, 1).following(4, &[2, 3])),
        (
            "2 lands; 3 and 5 go, 6 is taken back",
            complete_write(2, 3),
            sends(&[0, 2], &[(2, 30), (4, 50)]).leaving(4, State::WaitingSoft { room: 1 }),
        ),
        ("3 and 5 land, 4 goes", complete_write(3, 4), sends(&[3], &[(4, 40)])),
        ("4 lands, 6 goes", complete_write(4, 3), sends(&[4], &[(2, 30), (4, 50), (2, 0), (4, 60)])),
    ]
}

/// The supply is cut after a joint call: what it completed is there, what it wrote landed or not.
fn joint_then_cuts() -> Vec<Row> {
    vec![
        ("open", open(1), granted()),
        ("1 on block 1", create(1, 0, &[10; 4], &[]), hard(1)),
        ("2 on block 2 after 1", create(2, 0, &[20; 4], &[1]), hard(2)),
        ("1 goes", write(1), sends(&[0], &[(4, 10)])),
        ("1 lands and 2 goes", complete_write(1, 2), sends(&[1], &[(4, 20)])),
        ("a cut, block 2 did not land", open(3).after_cut(&[]), granted()),
        ("nothing is in flight", complete_write(2, 1), not_tried(14)),
        ("3 on block 2", create(2, 2, &[30; 4], &[1, 2]), hard(3).following(0, &[])),
        ("4 on block 1 after 3", create(1, 2, &[40; 4], &[3]), hard(4)),
        ("3 goes, without 2", write(2), sends(&[0], &[(2, 0), (4, 30)])),
        ("3 lands and 4 goes", complete_write(2, 1), sends(&[1], &[(2, 10), (4, 40)])),
        ("a cut, block 1 landed", open(5).after_cut(&[1]), granted()),
        ("5 on block 1", create(1, 8, &[50], &[4]), hard(5)),
        ("5 goes over 1 and 4", write(1), sends(&[0], &[(2, 10), (4, 40), (2, 0), (1, 50)])),
        ("the last one lands", complete_write(1, 1), completes(12).leaving(0, State::Free)),
    ]
}

/// One in flight on block 1 and one that waits on block 2, with the same number: not sound.
fn same_number() -> Table {
    let mut table = Table { next: 9, ..Table::empty(Setting::Board, 1) };
    let slot = |state, block| {
        let befores = Slots::new();
        Slot { state, number: 7, block, offset: 0, length: 4, befores }
    };
    table.slots[0] = slot(State::InFlightHard, 1);
    table.slots[1] = slot(State::WaitingHard, 2);
    table
}

fn joint_not_sound() -> Vec<Row> {
    vec![
        ("2", complete_write(1, 2), not_tried(2).leaving(0, State::InFlightHard)),
        ("2, the same block", complete_write(1, 1), not_tried(2)),
        ("2 before 3", complete_write(64, 2), not_tried(2)),
        ("2, the image short", complete_write(1, 2).lending(Buffer::Image, 0), not_tried(2)),
    ]
}

fn all() -> Vec<Case> {
    let case = |name, rows| Case { name, table: None, rows };
    let on = |name, table, rows| Case { name, table: Some(table), rows };
    let held =
        vec![("a hard one struck late", write(1), refused(13)), ("none elsewhere", write(3), refused(12))];
    vec![
        case("P1 to P10", two_pages()),
        case("the branch after P6", branch_after_p6()),
        case("edges of create", edges_of_create()),
        case("edges of open", edges_of_open()),
        case("the last number", last_number()),
        case("one slot for many changes", one_slot()),
        case("full slots", full_slots()),
        case("a join that adds befores", join_adds_befores()),
        case("beside one in flight", beside_one_in_flight()),
        case("a join that names its own block", join_names_its_block()),
        case("a join after soft ones turned hard", join_after_turning()),
        case("over a joined change", over_a_joined_change()),
        on("the lowest number in a higher slot", crossed(), lowest_number()),
        case("full rooms", full_rooms()),
        case("the shortcuts", shortcuts()),
        case("sixteen taken back", sixteen_taken_back()),
        case("many rounds", many_rounds()),
        case("numbers past sixteen digits", past_sixteen_digits()),
        on("a hard one at the end of a chain", late_hard_one(), held),
        on("all numbers issued", all_issued(), far_numbers()),
        case("opened at 7", opened_at_7()),
        case("opened at 1", opened_at_1()),
        case("old names beside others", old_names_beside_others()),
        case("opened at 1,000,000,000", opened_at_the_last()),
        case("old numbers alike in their low digits", old_digits_alike()),
        case("after a sleep", after_a_sleep()),
        case("after cuts", after_cuts()),
        on("an old number in a free slot", old_remains(), old_in_a_free_slot()),
        case("P1 to P10 in joint calls", two_pages_in_joint_calls()),
        case("a joint call, completing refused", joint_not_tried()),
        case("a joint call, only the write refused", joint_write_refused()),
        case("a joint call of the same block", joint_same_block()),
        case("a completion that lets the write go", joint_helps_the_write()),
        case("joint calls and cuts", joint_then_cuts()),
        on("a joint call on a table that is not sound", same_number(), joint_not_sound()),
    ]
}

/// Runs all fixed cases; gives how many rows were run, or what went wrong first, and at which.
pub fn run(pair: Pair, cover: &mut Cover) -> Result<usize, (usize, String)> {
    run_cases(pair, cover, all())
}

pub fn run_cases(pair: Pair, cover: &mut Cover, cases: Vec<Case>) -> Result<usize, (usize, String)> {
    let mut rows_run = 0;
    for case in cases {
        rows_run += run_case(pair, cover, case).map_err(|(row, what)| (rows_run + row, what))?;
    }
    Ok(rows_run)
}

fn run_case(pair: Pair, cover: &mut Cover, case: Case) -> Result<usize, (usize, String)> {
    let Case { name, table, rows } = case;
    let cuts = table.is_none();
    let table = table.map_or(vec![0; TABLE_BYTES], |table| encoded(&table));
    let mut run = Run::start(pair, &Order { table, cuts, ..Order::of(&[]) });
    let count = rows.len();
    for (at, (row, step, want)) in rows.into_iter().enumerate() {
        let found = |what: String| (at + 1, format!("{name}, row \"{row}\", {}: {what}", line(&step)));
        let answer = run.step(&step, cover).map_err(|failure| found(both(&failure)))?;
        check(&run, &answer, &want).map_err(found)?;
    }
    Ok(count)
}

fn both(failure: &Failure) -> String {
    let model = failure.model.as_ref().map_or(String::from("not asked"), said);
    format!("{}\n  library: {}\n  model:   {model}", failure.what, said(&failure.library))
}

fn check(run: &Run, answer: &Answer, want: &Want) -> Result<(), String> {
    if *answer != want.answer {
        return Err(format!("\n  answered {}\n  wanted   {}", said(answer), said(&want.answer)));
    }
    if want.handed.as_ref().is_some_and(|handed| *handed != run.lent.handed) {
        return Err(format!("the block handed out is {:?}", run.lent.handed));
    }
    let slot_of = |slot: usize| run.table.as_ref().map(|table| &table.slots[slot]);
    if let Some((slot, state)) = want.slot {
        let found = slot_of(slot).map(|slot| slot.state);
        if found != Some(state) {
            return Err(format!("slot {slot} is {found:?}, wanted {state:?}"));
        }
    }
    if let Some((slot, befores)) = &want.befores {
        let found = slot_of(*slot).map(|slot| &slot.befores);
        if found != Some(befores) {
            return Err(format!("slot {slot} follows {found:?}, wanted {befores:?}"));
        }
    }
    Ok(())
}
