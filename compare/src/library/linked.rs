//! The library linked in, called through the declarations of the shipped board.rs. This and board.rs are the only files with
//! unsafe code.
//!
//! Buffers are lent from a place of their own, with bytes beside them that are watched: a table starts at an odd address, which the
//! header allows, and names at one that is a multiple of 4 and of no higher power, which is all that it asks.

use super::board::raw::*;
use crate::library::calls::Library;
use crate::model::record::{Record, Recorded};
use std::cell::{Cell, RefCell};

/// Bytes watched before and after a buffer.
const BESIDE: usize = 32;
const WATCHED: u8 = 0xC3;

/// A buffer as it is lent: its bytes, with watched ones beside them.
#[derive(Default)]
struct Lent {
    area: Vec<u64>,
    start: usize,
    len: usize,
}

impl Lent {
    /// Puts the bytes where their address is `past` more than a multiple of 8.
    fn place(&mut self, bytes: &[u8], past: usize) -> *mut u8 {
        (self.start, self.len) = (BESIDE + past, bytes.len());
        let whole = self.start + self.len + BESIDE;
        self.area.clear();
        self.area.resize(whole.div_ceil(8), u64::from_ne_bytes([WATCHED; 8]));
        // Safety: the area has that many bytes, and any byte is a part of some number.
        let area = unsafe { std::slice::from_raw_parts_mut(self.area.as_mut_ptr().cast::<u8>(), whole) };
        area[self.start..self.start + self.len].copy_from_slice(bytes);
        area[self.start..].as_mut_ptr()
    }

    fn area(&self) -> &[u8] {
        // Safety: as in `place`, whose length this is.
        unsafe { std::slice::from_raw_parts(self.area.as_ptr().cast::<u8>(), self.start + self.len + BESIDE) }
    }

    fn bytes(&self) -> &[u8] {
        &self.area()[self.start..self.start + self.len]
    }

    fn beside_changed(&self) -> bool {
        let (before, rest) = self.area().split_at(self.start);
        before.iter().chain(&rest[self.len..]).any(|&byte| byte != WATCHED)
    }
}

#[derive(Default)]
struct Places {
    table: Lent,
    image: Lent,
    undo: Lent,
    handed: Lent,
    data: Lent,
    named: Lent,
    record: Lent,
}

#[derive(Default)]
pub struct Linked {
    places: RefCell<Places>,
    harm: Cell<Option<&'static str>>,
}

impl Linked {
    /// Brings back what was lent to be written, and looks at what was not.
    fn settle(&self, written: &mut [(&Lent, &mut [u8])], read: &[(&Lent, &[u8])]) {
        for (lent, bytes) in written.iter_mut() {
            bytes.copy_from_slice(lent.bytes());
        }
        let beside = written.iter().any(|(lent, _)| lent.beside_changed())
            || read.iter().any(|(lent, _)| lent.beside_changed());
        let changed = read.iter().any(|(lent, bytes)| lent.bytes() != *bytes);
        self.harm.set(match (beside, changed) {
            (true, _) => Some("a byte beside a buffer was written"),
            (_, true) => Some("a buffer lent to be read was written"),
            (false, false) => None,
        });
    }
}

fn bytes_of(numbers: &[u32]) -> Vec<u8> {
    numbers.iter().flat_map(|number| number.to_ne_bytes()).collect()
}

// Safety, for all of them: every pointer is to a place that lives through the call and has the length that is passed with it, or comes
// from a reference; names are aligned.
impl Library for Linked {
    fn open(&self, table: &mut [u8], first: u32) -> u32 {
        let Places { table: place, .. } = &mut *self.places.borrow_mut();
        let refusal = unsafe { board_open(place.place(table, 1), table.len(), first) };
        self.settle(&mut [(place, table)], &[]);
        refusal
    }

    fn create(
        &self,
        table: &mut [u8],
        image: &mut [u8],
        undo: &mut [u8],
        block: u32,
        offset: u32,
        data: &[u8],
        named: &[u32],
        number: &mut u32,
        hold: &mut u32,
    ) -> u32 {
        let places = &mut *self.places.borrow_mut();
        let names = bytes_of(named);
        let refusal = unsafe {
            board_create(
                places.table.place(table, 1),
                table.len(),
                places.image.place(image, 3),
                image.len(),
                places.undo.place(undo, 5),
                undo.len(),
                block,
                offset,
                places.data.place(data, 7),
                data.len(),
                places.named.place(&names, 4).cast::<u32>(),
                named.len(),
                number,
                hold,
            )
        };
        let Places { table: t, image: i, undo: u, data: d, named: n, .. } = places;
        self.settle(&mut [(t, table), (i, image), (u, undo)], &[(d, data), (n, &names)]);
        refusal
    }

    fn write(
        &self,
        table: &mut [u8],
        image: &[u8],
        undo: &[u8],
        handed: &mut [u8],
        block: u32,
        set: &mut u64,
    ) -> u32 {
        let places = &mut *self.places.borrow_mut();
        let refusal = unsafe {
            board_write(
                places.table.place(table, 1),
                table.len(),
                places.image.place(image, 3),
                image.len(),
                places.undo.place(undo, 5),
                undo.len(),
                places.handed.place(handed, 7),
                handed.len(),
                block,
                set,
            )
        };
        let Places { table: t, image: i, undo: u, handed: h, .. } = places;
        self.settle(&mut [(t, table), (h, handed)], &[(i, image), (u, undo)]);
        refusal
    }

    fn complete(&self, table: &mut [u8], block: u32) -> u32 {
        let Places { table: place, .. } = &mut *self.places.borrow_mut();
        let refusal = unsafe { board_complete(place.place(table, 1), table.len(), block) };
        self.settle(&mut [(place, table)], &[]);
        refusal
    }

    fn complete_write(
        &self,
        table: &mut [u8],
        image: &[u8],
        undo: &[u8],
        handed: &mut [u8],
        x: u32,
        y: u32,
        second: &mut u32,
        set: &mut u64,
    ) -> u32 {
        let places = &mut *self.places.borrow_mut();
        let refusal = unsafe {
            board_complete_write(
                places.table.place(table, 1),
                table.len(),
                places.image.place(image, 3),
                image.len(),
                places.undo.place(undo, 5),
                undo.len(),
                places.handed.place(handed, 7),
                handed.len(),
                x,
                y,
                second,
                set,
            )
        };
        let Places { table: t, image: i, undo: u, handed: h, .. } = places;
        self.settle(&mut [(t, table), (h, handed)], &[(i, image), (u, undo)]);
        refusal
    }

    fn ask(&self, table: &[u8], asked: u32, state: &mut u32) -> u32 {
        let Places { table: place, .. } = &mut *self.places.borrow_mut();
        let refusal = unsafe { board_ask(place.place(table, 1), table.len(), asked, state) };
        self.settle(&mut [], &[(place, table)]);
        refusal
    }

    fn count(&self, table: &[u8], block: u32, count: &mut u32) -> u32 {
        let Places { table: place, .. } = &mut *self.places.borrow_mut();
        let refusal = unsafe { board_count(place.place(table, 1), table.len(), block, count) };
        self.settle(&mut [], &[(place, table)]);
        refusal
    }

    fn record(&self, buffer: &mut [u8], recorded: &Recorded, length: &mut u32) -> u32 {
        let Places { record: place, data: d, named: n, .. } = &mut *self.places.borrow_mut();
        let (at, len) = (place.place(buffer, 1), buffer.len());
        let (mut data, mut names) = (&[][..], Vec::new());
        let refusal = match recorded {
            Recorded::Call(Record::Open { first }) => unsafe { board_record_open(at, len, *first, length) },
            Recorded::Call(Record::Create { block, offset, named, data: given }) => {
                (data, names) = (given, bytes_of(named));
                let (bytes, numbers) = (d.place(data, 7), n.place(&names, 4).cast::<u32>());
                let (bytes_len, many) = (data.len(), named.len());
                unsafe {
                    board_record_create(at, len, *block, *offset, bytes, bytes_len, numbers, many, length)
                }
            }
            Recorded::Call(Record::Write { block }) => unsafe { board_record_write(at, len, *block, length) },
            Recorded::Call(Record::Complete { block }) => unsafe {
                board_record_complete(at, len, *block, length)
            },
            Recorded::Call(Record::Cut { landed }) => unsafe { board_record_cut(at, len, *landed, length) },
            Recorded::CompleteWrite { x, y, first } => unsafe {
                board_record_complete_write(at, len, *x, *y, *first, length)
            },
        };
        let change = matches!(recorded, Recorded::Call(Record::Create { .. }));
        let read: &[(&Lent, &[u8])] = if change { &[(d, data), (n, &names)] } else { &[] };
        self.settle(&mut [(place, buffer)], read);
        refusal
    }

    fn harm(&self) -> Option<&'static str> {
        self.harm.take()
    }
}

#[cfg(test)]
mod tests {
    use super::*;

    #[test]
    fn a_byte_beside_is_seen() {
        let mut lent = Lent::default();
        for (written, seen) in [(-1, true), (0, false), (2, false), (3, true)] {
            let at = lent.place(&[1, 2, 3], 1);
            assert_eq!(at as usize % 8, 1);
            // Safety: the place has three bytes, and more than one beside them on either side.
            unsafe { *at.offset(written) = 0 };
            assert_eq!(lent.beside_changed(), seen, "written at {written}");
        }
    }
}
