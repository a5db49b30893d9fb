//! What the model is about: sizes, the table with its slots, and what is asked of it.

use crate::model::setting::Setting;
use std::collections::BTreeSet;

pub const SLOTS: usize = 64;
pub const LAST_BLOCK: u32 = 63;
pub const BLOCK_BYTES: usize = 256;
pub const IMAGE_BYTES: usize = 16_384;
pub const ROOM_BYTES: usize = 64;
pub const LONGEST_DATA: usize = 64;
pub const MOST_NAMED: usize = 8;
pub const LAST_NUMBER: u32 = 1_000_000_000;
/// Up to this many waiting patches every subset is tried.
pub const FEW: usize = 6;

pub type Slots = BTreeSet<usize>;

/// The undo area's exact size: so many rooms as the setting has.
pub fn undo_bytes(setting: Setting) -> usize {
    ROOM_BYTES * setting.rooms() as usize
}

/// The refusals of document 01, by their numbers.
#[derive(Clone, Copy, PartialEq, Eq, PartialOrd, Ord, Debug)]
pub enum Refusal {
    BufferSize = 1,
    NotSound = 2,
    BlockAbove63 = 3,
    DataLength = 4,
    PastTheEnd = 5,
    ManyNames = 6,
    NeverIssued = 7,
    NoNumberLeft = 8,
    NoFreeSlot = 9,
    NoFreeRoom = 10,
    OneInFlight = 11,
    NoneWaits = 12,
    NoneMayGo = 13,
    NoneInFlight = 14,
    FirstNumber = 15,
}

impl Refusal {
    pub fn number(self) -> u32 {
        self as u32
    }
}

#[derive(Clone, Copy, PartialEq, Eq, Debug)]
pub enum State {
    Free,
    WaitingHard,
    WaitingSoft { room: u32 },
    InFlightHard,
    InFlightSoft,
}

#[derive(Clone, PartialEq, Eq, Debug)]
pub struct Slot {
    pub state: State,
    pub number: u32,
    pub block: u32,
    pub offset: u32,
    pub length: u32,
    pub befores: Slots,
}

#[derive(Clone, PartialEq, Eq, Debug)]
pub struct Table {
    /// What open gave it and every call keeps. The table's bytes do not have it.
    pub setting: Setting,
    pub first: u32,
    pub next: u32,
    pub slots: Vec<Slot>,
}

/// What create is asked for.
pub struct Change<'a> {
    pub block: u32,
    pub offset: u32,
    pub data: &'a [u8],
    pub named: &'a [u32],
}

/// What the write of a joint call came to.
#[derive(Clone, Copy, PartialEq, Eq, Debug)]
pub enum Second {
    Granted,
    Refused(Refusal),
    /// Completing was refused.
    NotTried,
}

/// Stands where the number of a refusal would; it is none's.
pub const NOT_TRIED: u32 = u32::MAX;

impl Second {
    pub fn number(self) -> u32 {
        match self {
            Second::Granted => 0,
            Second::Refused(refusal) => refusal.number(),
            Second::NotTried => NOT_TRIED,
        }
    }
}

/// What a joint call answers: of completing, and of writing with the patches sent.
pub struct Both {
    pub first: Result<(), Refusal>,
    pub second: Second,
    pub sent: Slots,
}

/// What ask says of a number.
#[derive(Clone, Copy, PartialEq, Eq, Debug)]
pub enum Standing {
    Waiting,
    InFlight,
    Committed,
}

#[derive(Clone, Copy, PartialEq, Eq, PartialOrd, Ord, Debug)]
pub enum Kind {
    Open,
    Create,
    Write,
    Complete,
    Ask,
    Count,
    CompleteWrite,
}

pub const KINDS: [Kind; 7] =
    [Kind::Open, Kind::Create, Kind::Write, Kind::Complete, Kind::Ask, Kind::Count, Kind::CompleteWrite];

/// All that the refusal tests look at besides the table. A call leaves out what it has not.
#[derive(Default)]
pub struct Asked<'a> {
    pub sizes_wrong: bool,
    pub block: u32,
    pub offset: u32,
    pub length: usize,
    pub numbers: &'a [u32],
}

/// The clauses of "It is sound when".
#[derive(Clone, Copy, PartialEq, Eq, Debug)]
pub enum Clause {
    First,
    Next,
    NumbersIssued,
    NumbersDiffer,
    Blocks,
    Lengths,
    Ends,
    BeforesUsed,
    BeforesNotOwn,
    Rooms,
    RoomsDiffer,
}

pub const CLAUSES: [Clause; 11] = [
    Clause::First,
    Clause::Next,
    Clause::NumbersIssued,
    Clause::NumbersDiffer,
    Clause::Blocks,
    Clause::Lengths,
    Clause::Ends,
    Clause::BeforesUsed,
    Clause::BeforesNotOwn,
    Clause::Rooms,
    Clause::RoomsDiffer,
];

impl Slot {
    pub fn free() -> Slot {
        Slot { state: State::Free, number: 0, block: 0, offset: 0, length: 0, befores: Slots::new() }
    }

    pub fn used(&self) -> bool {
        self.state != State::Free
    }

    pub fn waiting(&self) -> bool {
        matches!(self.state, State::WaitingHard | State::WaitingSoft { .. })
    }

    pub fn in_flight(&self) -> bool {
        matches!(self.state, State::InFlightHard | State::InFlightSoft)
    }

    pub fn hard(&self) -> bool {
        matches!(self.state, State::WaitingHard | State::InFlightHard)
    }

    pub fn room(&self) -> Option<u32> {
        match self.state {
            State::WaitingSoft { room } => Some(room),
            State::Free | State::WaitingHard | State::InFlightHard | State::InFlightSoft => None,
        }
    }

    /// The first byte after the patch, counted from the start of its block.
    pub fn end(&self) -> u64 {
        u64::from(self.offset) + u64::from(self.length)
    }
}

impl Table {
    pub fn empty(setting: Setting, first: u32) -> Table {
        Table { setting, first, next: first, slots: vec![Slot::free(); SLOTS] }
    }

    /// The used slots with what they hold.
    pub fn patches(&self) -> impl Iterator<Item = (usize, &Slot)> {
        self.slots.iter().enumerate().filter(|(_, slot)| slot.used())
    }

    pub fn waiting(&self, block: u32) -> Slots {
        self.patches().filter(|(_, p)| p.block == block && p.waiting()).map(|(i, _)| i).collect()
    }

    pub fn in_flight(&self, block: u32) -> Slots {
        self.patches().filter(|(_, p)| p.block == block && p.in_flight()).map(|(i, _)| i).collect()
    }

    pub fn hard_waiting(&self, block: u32) -> Slots {
        self.waiting(block).into_iter().filter(|&i| self.slots[i].state == State::WaitingHard).collect()
    }

    pub fn slot_of(&self, number: u32) -> Option<usize> {
        self.patches().find(|(_, p)| p.number == number).map(|(i, _)| i)
    }

    pub fn rooms_taken(&self) -> Vec<u32> {
        self.patches().filter_map(|(_, p)| p.room()).collect()
    }
}
