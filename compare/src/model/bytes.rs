//! The table as bytes: first, next, then 64 slots of 32 bytes, every number little-endian. The setting is not among them: the
//! library's bytes mean the board's, and who runs the model under another says which.

use crate::model::setting::Setting;
use crate::model::table::{SLOTS, Slot, Slots, State, Table};

pub const TABLE_BYTES: usize = 8 + SLOTS * SLOT_BYTES;
pub const SLOT_BYTES: usize = 32;

fn number_at(bytes: &[u8], at: usize) -> u32 {
    u32::from_le_bytes([bytes[at], bytes[at + 1], bytes[at + 2], bytes[at + 3]])
}

fn put_number(bytes: &mut [u8], at: usize, number: u32) {
    bytes[at..at + 4].copy_from_slice(&number.to_le_bytes());
}

/// None when the bytes are no table: another length, or a tag above 4.
pub fn decode(setting: Setting, bytes: &[u8]) -> Option<Table> {
    if bytes.len() != TABLE_BYTES {
        return None;
    }
    let mut slots = Vec::with_capacity(SLOTS);
    for slot in bytes[8..].chunks(SLOT_BYTES) {
        slots.push(decode_slot(slot)?);
    }
    Some(Table { setting, first: number_at(bytes, 0), next: number_at(bytes, 4), slots })
}

fn decode_slot(bytes: &[u8]) -> Option<Slot> {
    let state = match number_at(bytes, 0) {
        0 => State::Free,
        1 => State::WaitingHard,
        2 => State::WaitingSoft { room: number_at(bytes, 4) },
        3 => State::InFlightHard,
        4 => State::InFlightSoft,
        _ => return None,
    };
    Some(Slot {
        state,
        number: number_at(bytes, 8),
        block: number_at(bytes, 12),
        offset: number_at(bytes, 16),
        length: number_at(bytes, 20),
        befores: set_at(&bytes[24..]),
    })
}

pub fn encode(table: &Table, bytes: &mut [u8]) {
    put_number(bytes, 0, table.first);
    put_number(bytes, 4, table.next);
    for (slot, place) in table.slots.iter().zip(bytes[8..].chunks_mut(SLOT_BYTES)) {
        encode_slot(slot, place);
    }
}

fn encode_slot(slot: &Slot, bytes: &mut [u8]) {
    let (tag, room) = match slot.state {
        State::Free => (0, 0),
        State::WaitingHard => (1, 0),
        State::WaitingSoft { room } => (2, room),
        State::InFlightHard => (3, 0),
        State::InFlightSoft => (4, 0),
    };
    let numbers = [tag, room, slot.number, slot.block, slot.offset, slot.length];
    for (i, number) in numbers.into_iter().enumerate() {
        put_number(bytes, 4 * i, number);
    }
    bytes[24..].copy_from_slice(&mask(&slot.befores).to_le_bytes());
}

/// The set of slots as the interface passes it: bit i for slot i.
pub fn mask(slots: &Slots) -> u64 {
    slots.iter().map(|&i| 1u64 << i).sum()
}

pub fn set_of(mask: u64) -> Slots {
    set_at(&mask.to_le_bytes())
}

fn set_at(bytes: &[u8]) -> Slots {
    let mut slots = Slots::new();
    for (i, byte) in bytes.iter().enumerate().filter(|(_, byte)| **byte != 0) {
        slots.extend((0..8).filter(|bit| byte >> bit & 1 == 1).map(|bit| 8 * i + bit));
    }
    slots
}

pub fn encoded(table: &Table) -> Vec<u8> {
    let mut bytes = vec![0; TABLE_BYTES];
    encode(table, &mut bytes);
    bytes
}
