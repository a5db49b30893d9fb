//! The seven calls and the writer over plain buffers. Each answers a refusal number (0 granted); what else it
//! answers goes through the numbers lent last, which every call writes.

use crate::model::record::Recorded;
use crate::model::setting::Setting;

#[allow(clippy::too_many_arguments)]
pub trait Library {
    /// What its table's bytes mean: the board's setting, but for a model that stands in for the library.
    fn setting(&self) -> Setting {
        Setting::Board
    }

    fn open(&self, table: &mut [u8], first: u32) -> u32;

    /// hold: 0 no word, 1 hard, 2 + r soft with undo room r.
    fn create(
        &self,
        table: &mut [u8],
        image: &mut [u8],
        undo: &mut [u8],
        block: u32,
        offset: u32,
        data: &[u8],
        named: &[u32],
        number: &mut u32,
        hold: &mut u32,
    ) -> u32;

    /// set: bit i where slot i was sent.
    fn write(
        &self,
        table: &mut [u8],
        image: &[u8],
        undo: &[u8],
        handed: &mut [u8],
        block: u32,
        set: &mut u64,
    ) -> u32;

    fn complete(&self, table: &mut [u8], block: u32) -> u32;

    /// Completes x, and answers that; then writes y. second: the write's answer, or that it was not tried.
    fn complete_write(
        &self,
        table: &mut [u8],
        image: &[u8],
        undo: &[u8],
        handed: &mut [u8],
        x: u32,
        y: u32,
        second: &mut u32,
        set: &mut u64,
    ) -> u32;

    /// state: 0 no word, 1 waiting, 2 in flight, 3 committed.
    fn ask(&self, table: &[u8], asked: u32, state: &mut u32) -> u32;

    fn count(&self, table: &[u8], block: u32, count: &mut u32) -> u32;

    /// Writes a record, or those of a joint call, into the buffer's first bytes. length: how many bytes that are.
    fn record(&self, buffer: &mut [u8], recorded: &Recorded, length: &mut u32) -> u32;

    /// What the last call did to bytes that were not lent to be written, where that is watched.
    fn harm(&self) -> Option<&'static str> {
        None
    }
}
