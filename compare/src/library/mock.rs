//! A model behind the library's byte interface: it takes the table's bytes apart, runs the model
//! and, if the call was granted, puts the whole table back.

use crate::library::calls::Library;
use crate::model::bytes::{TABLE_BYTES, decode, encode, mask};
use crate::model::record::{HEAD_BYTES, LONGEST_VALUE, Recorded};
use crate::model::replay::BAD;
use crate::model::rules::Model;
use crate::model::setting::Setting;
use crate::model::table::Refusal::NotSound;
use crate::model::table::*;

pub struct Mock<M>(pub M);

impl<M: Model> Library for Mock<M> {
    fn setting(&self) -> Setting {
        self.0.setting()
    }

    fn open(&self, table: &mut [u8], first: u32) -> u32 {
        if table.len() != TABLE_BYTES {
            return NotSound.number();
        }
        let (judged, opened) = self.0.open(first);
        encode(&opened, table);
        judged.map_or_else(Refusal::number, |()| 0)
    }

    fn create(
        &self,
        table: &mut [u8],
        image: &mut [u8],
        undo: &mut [u8],
        block: u32,
        offset: u32,
        data: &[u8],
        named: &[u32],
        number: &mut u32,
        hold: &mut u32,
    ) -> u32 {
        (*number, *hold) = (0, 0);
        let Some(mut taken) = decode(self.0.setting(), table) else {
            return no_table(image.len() == IMAGE_BYTES && undo.len() == undo_bytes(self.setting()));
        };
        match self.0.create(&mut taken, image, undo, &Change { block, offset, data, named }) {
            Err(refusal) => refusal.number(),
            Ok((new, state)) => {
                (*number, *hold) = (new, hold_word(state));
                encode(&taken, table);
                0
            }
        }
    }

    fn write(
        &self,
        table: &mut [u8],
        image: &[u8],
        undo: &[u8],
        handed: &mut [u8],
        block: u32,
        set: &mut u64,
    ) -> u32 {
        *set = 0;
        let Some(mut taken) = decode(self.0.setting(), table) else {
            let exact = image.len() == IMAGE_BYTES && undo.len() == undo_bytes(self.setting());
            return no_table(exact && handed.len() == BLOCK_BYTES);
        };
        match self.0.write(&mut taken, image, undo, handed, block) {
            Err(refusal) => refusal.number(),
            Ok(sent) => {
                *set = mask(&sent);
                encode(&taken, table);
                0
            }
        }
    }

    fn complete(&self, table: &mut [u8], block: u32) -> u32 {
        let Some(mut taken) = decode(self.0.setting(), table) else { return NotSound.number() };
        match self.0.complete(&mut taken, block) {
            Err(refusal) => refusal.number(),
            Ok(()) => {
                encode(&taken, table);
                0
            }
        }
    }

    fn complete_write(
        &self,
        table: &mut [u8],
        image: &[u8],
        undo: &[u8],
        handed: &mut [u8],
        x: u32,
        y: u32,
        second: &mut u32,
        set: &mut u64,
    ) -> u32 {
        (*second, *set) = (NOT_TRIED, 0);
        let Some(mut taken) = decode(self.0.setting(), table) else { return NotSound.number() };
        let both = self.0.complete_write(&mut taken, image, undo, handed, x, y);
        (*second, *set) = (both.second.number(), mask(&both.sent));
        if self.0.writes_the_table(&both) {
            encode(&taken, table);
        }
        both.first.map_or_else(Refusal::number, |()| 0)
    }

    fn ask(&self, table: &[u8], asked: u32, state: &mut u32) -> u32 {
        *state = 0;
        let Some(taken) = decode(self.0.setting(), table) else { return NotSound.number() };
        match self.0.ask(&taken, asked) {
            Err(refusal) => refusal.number(),
            Ok(standing) => {
                *state = standing_word(standing);
                0
            }
        }
    }

    fn count(&self, table: &[u8], block: u32, count: &mut u32) -> u32 {
        *count = 0;
        let Some(taken) = decode(self.0.setting(), table) else { return NotSound.number() };
        match self.0.count(&taken, block) {
            Err(refusal) => refusal.number(),
            Ok(waiting) => {
                *count = waiting;
                0
            }
        }
    }

    fn record(&self, buffer: &mut [u8], recorded: &Recorded, length: &mut u32) -> u32 {
        *length = 0;
        if buffer.len() != HEAD_BYTES + LONGEST_VALUE {
            return Refusal::BufferSize.number();
        }
        let Some(bytes) = recorded.bytes() else { return BAD };
        buffer[..bytes.len()].copy_from_slice(&bytes);
        *length = bytes.len() as u32;
        0
    }
}

/// Bytes that are no table are refused 2, after 1.
fn no_table(sizes_exact: bool) -> u32 {
    if sizes_exact { NotSound.number() } else { Refusal::BufferSize.number() }
}

fn hold_word(state: State) -> u32 {
    match state {
        State::WaitingHard => 1,
        State::WaitingSoft { room } => 2 + room,
        State::Free | State::InFlightHard | State::InFlightSoft => 0,
    }
}

fn standing_word(standing: Standing) -> u32 {
    match standing {
        Standing::Waiting => 1,
        Standing::InFlight => 2,
        Standing::Committed => 3,
    }
}
