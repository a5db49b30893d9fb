//! Tables no order of calls would leave: random sound ones (befores in circles, in flight after
//! waiting, remains in free slots), and ones with a single clause of soundness broken.

use crate::model::bytes::{SLOT_BYTES, TABLE_BYTES, encoded};
use crate::model::setting::Setting;
use crate::model::table::{LAST_BLOCK, LAST_NUMBER, SLOTS, Slot, Slots, State, Table};
use crate::orders::maker::first_number;
use crate::orders::random::Random;

struct Likes {
    blocks: Vec<u32>,
    /// Blocks of which some patches are in flight.
    flying: Vec<u32>,
    used: u32,
    soft: u32,
    befores: u32,
    remains: bool,
}

impl Likes {
    fn of_seed(random: &mut Random) -> Likes {
        let count = 1 + random.below(5);
        let few: Vec<u32> = (0..count).map(|_| random.pick(&[0, 1, 2, 31, 62, 63])).collect();
        let blocks = if random.percent(15) { (0..=LAST_BLOCK).collect() } else { few };
        let flying = blocks.iter().copied().filter(|_| random.percent(35)).collect();
        Likes {
            blocks,
            flying,
            used: random.pick(&[5, 20, 40, 80, 90, 97, 100]),
            soft: random.pick(&[0, 20, 60, 90, 95, 100]),
            befores: random.pick(&[0, 1, 2, 5, 20]),
            remains: random.percent(50),
        }
    }
}

/// How many numbers a table has issued: from none to all there are.
const ISSUED: [u32; 9] = [0, 5, 64, 90, 300, 3_000, 200_000, 1 << 25, LAST_NUMBER];

/// Different issued numbers in any order: next to each other, or alike in their low binary digits.
fn some_numbers(random: &mut Random, first: u32, next: u32) -> Vec<u32> {
    let issued = next - first;
    let step = random.pick(&[1, 1, 7, 1_024, 4_096, 65_536, 1 << 24]);
    let start = if issued == 0 { 0 } else { random.between(0, issued - 1) };
    let mut places: Vec<u32> =
        (0..300u64).map(|k| u64::from(start) + k * step).filter_map(|place| place.try_into().ok()).collect();
    places.extend([0, issued.saturating_sub(1)]);
    places.extend((0..20).map(|_| random.between(0, issued)));
    places.retain(|&place| place < issued);
    places.sort_unstable();
    places.dedup();
    random.shuffle(&mut places);
    places.into_iter().map(|place| first + place).collect()
}

pub fn sound(random: &mut Random, setting: Setting) -> Table {
    let likes = Likes::of_seed(random);
    let issued = random.pick(&ISSUED);
    let first =
        if issued > 3_000 { random.between(1, 1 + LAST_NUMBER - issued) } else { first_number(random) };
    let next = (first + issued).min(LAST_NUMBER + 1);
    let mut table = Table { next, ..Table::empty(setting, first) };
    let mut numbers = some_numbers(random, first, next);
    let mut rooms: Vec<u32> = (0..setting.rooms()).collect();
    random.shuffle(&mut rooms);
    for i in 0..SLOTS {
        if random.percent(likes.used)
            && let Some(number) = numbers.pop()
        {
            table.slots[i] = patch(random, &likes, number, &mut rooms);
        } else if likes.remains && random.percent(30) {
            table.slots[i] = remains(random, first);
        }
    }
    if random.percent(40) {
        add_chains(random, &mut table);
    } else {
        add_befores(random, &likes, &mut table);
    }
    table
}

fn patch(random: &mut Random, likes: &Likes, number: u32, rooms: &mut Vec<u32>) -> Slot {
    let block = random.pick(&likes.blocks);
    let soft = random.percent(likes.soft);
    let state = if likes.flying.contains(&block) && random.percent(50) {
        if soft { State::InFlightSoft } else { State::InFlightHard }
    } else {
        match if soft { rooms.pop() } else { None } {
            Some(room) => State::WaitingSoft { room },
            None => State::WaitingHard,
        }
    };
    let length = random.pick(&[1, 2, 8, 63, 64]);
    let offset = random.pick(&[0, 1, 7, 8, 100, 256 - length]);
    Slot { state, number, block, offset, length, befores: Slots::new() }
}

/// A free slot in which anything may stand, a number from before the opening among it.
fn remains(random: &mut Random, first: u32) -> Slot {
    let mut any = || random.number() as u32 >> (random.number() % 32);
    let (number, block, offset, length) = (any(), any(), any(), any());
    let number = if random.percent(50) { number } else { random.between(1, first) };
    let befores = (0..SLOTS).filter(|_| random.percent(10)).collect();
    Slot { state: State::Free, number, block, offset, length, befores }
}

/// Any used slot may stand before any other; a third of the tables keep to earlier numbers.
fn add_befores(random: &mut Random, likes: &Likes, table: &mut Table) {
    let earlier_only = random.percent(33);
    let used: Vec<(usize, u32)> = table.patches().map(|(i, p)| (i, p.number)).collect();
    for &(slot, number) in &used {
        for &(before, earlier) in &used {
            if before != slot && random.percent(likes.befores) && (!earlier_only || earlier < number) {
                table.slots[slot].befores.insert(before);
            }
        }
    }
}

/// Most patches follow the next one of their block, the last of a block one of another.
fn add_chains(random: &mut Random, table: &mut Table) {
    let mut used: Vec<usize> = table.patches().map(|(i, _)| i).collect();
    random.shuffle(&mut used);
    used.sort_by_key(|&slot| table.slots[slot].block);
    let links = random.pick(&[85, 97]);
    for pair in used.windows(2) {
        if random.percent(links) {
            table.slots[pair[0]].befores.insert(pair[1]);
        }
    }
}

/// The table's bytes, with something in room fields that are not read.
pub fn bytes_with_unread_rooms(random: &mut Random, table: &Table) -> Vec<u8> {
    let mut bytes = encoded(table);
    for (i, slot) in table.slots.iter().enumerate() {
        if slot.room().is_none() && random.percent(20) {
            bytes[8 + i * SLOT_BYTES + 4] = random.byte();
        }
    }
    bytes
}

/// One way to break a clause of soundness, and no other if that can be.
pub struct Break {
    pub name: &'static str,
    pub values: &'static [u32],
    /// Breaks the table at a used slot, with another used slot and one of the values.
    pub apply: fn(&mut Table, usize, usize, u32),
}

/// Values at the bound, just past it and far past it; those among them that pass when only some of their bytes are read.
pub const BREAKS: [Break; 16] = [
    Break { name: "first 0", values: &[0], apply: |t, _, _, v| t.first = v },
    Break {
        name: "first above 1,000,000,000",
        values: &[LAST_NUMBER + 1, 1 << 30 | 1, 1 << 31 | 1, u32::MAX],
        apply: |t, _, _, v| *t = Table::empty(t.setting, v),
    },
    Break {
        name: "next below first by",
        values: &[1, 2, 256, 65_536],
        apply: |t, _, _, v| {
            *t = Table { next: t.first.saturating_sub(v), ..Table::empty(t.setting, t.first) }
        },
    },
    Break {
        name: "next above 1,000,000,001",
        values: &[LAST_NUMBER + 2, LAST_NUMBER + 3, 1 << 30, 1 << 31, u32::MAX],
        apply: |t, _, _, v| t.next = v,
    },
    Break {
        name: "number below first by",
        values: &[1, 2, 256, 65_536, u32::MAX],
        apply: |t, i, _, v| t.slots[i].number = t.first.saturating_sub(v),
    },
    Break {
        name: "number at next or above by",
        values: &[0, 1, 256, 65_536, 1 << 24, u32::MAX],
        apply: |t, i, _, v| t.slots[i].number = t.next.saturating_add(v),
    },
    Break { name: "number twice", values: &[0], apply: |t, i, j, _| t.slots[i].number = t.slots[j].number },
    Break {
        name: "block above 63",
        values: &[64, 65, 127, 128, 255, 256, 257, 319, 65_535, 65_536, 65_599, 1 << 24, 1 << 31, u32::MAX],
        apply: |t, i, _, v| t.slots[i].block = v,
    },
    Break { name: "length 0", values: &[0], apply: |t, i, _, v| t.slots[i].length = v },
    Break {
        name: "length above 64",
        values: &[65, 66, 127, 128, 255, 256, 257, 320, 65_536, 65_537, 1 << 24 | 1, 1 << 31 | 1, u32::MAX],
        apply: |t, i, _, v| (t.slots[i].offset, t.slots[i].length) = (0, v),
    },
    Break {
        name: "offset + length past 256 by",
        values: &[1, 2, 63, 64, 256],
        apply: |t, i, _, v| t.slots[i].offset = 256 - t.slots[i].length + v,
    },
    Break {
        name: "offset above 255",
        values: &[256, 257, 512, 65_535, 65_536, 1 << 24, 1 << 31, u32::MAX - 255, u32::MAX - 63, u32::MAX],
        apply: |t, i, _, v| t.slots[i].offset = v,
    },
    Break {
        name: "before is its own slot",
        values: &[0],
        apply: |t, i, _, _| t.slots[i].befores.extend([i]),
    },
    Break {
        name: "before is a free slot, without remains and with",
        values: &[0, 1],
        apply: |t, i, j, v| {
            let gone = empty_slot(t, j);
            if v == 1 {
                t.slots[j] = Slot { state: State::Free, ..gone };
            }
            t.slots[i].befores.insert(j);
        },
    },
    Break {
        name: "room past the last by",
        values: &[
            1,
            2,
            16,
            17,
            33,
            48,
            49,
            64,
            240,
            241,
            242,
            65_520,
            65_521,
            16_777_201,
            2_147_483_633,
            u32::MAX,
        ],
        apply: |t, i, _, v| {
            let room = (t.setting.rooms() - 1).saturating_add(v);
            t.slots[i].state = State::WaitingSoft { room };
        },
    },
    Break {
        name: "room shared",
        values: &[0, 1, 2, 3, 4, 5, 6, 7, 8, 9, 10, 11, 12, 13, 14, 15],
        apply: |t, i, j, v| {
            t.slots[i].state = State::WaitingSoft { room: v };
            t.slots[j].state = State::WaitingSoft { room: v };
        },
    },
];

/// Takes a patch out of its slot and out of all befores.
fn empty_slot(table: &mut Table, slot: usize) -> Slot {
    for other in &mut table.slots {
        other.befores.remove(&slot);
    }
    std::mem::replace(&mut table.slots[slot], Slot::free())
}

/// A table broken in one way.
pub fn broken(random: &mut Random, setting: Setting, which: &Break) -> Table {
    loop {
        let mut table = sound(random, setting);
        let mut used: Vec<usize> = table.patches().map(|(i, _)| i).collect();
        random.shuffle(&mut used);
        if let [i, j, ..] = used[..] {
            (which.apply)(&mut table, i, j, random.pick(which.values));
            return table;
        }
    }
}

/// A sound table of the board with every slot in use and every room taken, far from all bounds.
pub fn full() -> Table {
    let slot = |i: usize| {
        let state = match i % 4 {
            0 => State::WaitingHard,
            1 => State::WaitingSoft { room: i as u32 / 4 },
            2 => State::InFlightHard,
            _ => State::InFlightSoft,
        };
        let (number, block) = (100_000 + 977 * i as u32, i as u32);
        Slot {
            state,
            number,
            block,
            offset: 3 * block,
            length: 1 + block % 63,
            befores: Slots::from([i ^ 1]),
        }
    };
    let setting = Setting::Board;
    Table { setting, first: 90_000, next: 300_000, slots: (0..SLOTS).map(slot).collect() }
}

/// Bytes that are no table: a tag above 4 in one slot, used or free.
pub fn bad_tag(random: &mut Random, setting: Setting) -> Vec<u8> {
    let mut bytes = encoded(&sound(random, setting));
    let tag: u32 = random.pick(&[5, 6, 255, 256, 1 << 24, u32::MAX]);
    let at = 8 + random.below(SLOTS) * SLOT_BYTES;
    bytes[at..at + 4].copy_from_slice(&tag.to_le_bytes());
    assert_eq!(bytes.len(), TABLE_BYTES);
    bytes
}
