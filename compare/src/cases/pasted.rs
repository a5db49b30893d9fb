//! A place to paste orders that a failure printed. `cargo run --release -- pasted` runs them.

#![allow(unused_imports)]

use crate::judge::run::Order;
use crate::model::bytes::{TABLE_BYTES, encoded};
use crate::model::setting::Setting;
use crate::model::table::{Slot, State, Table};
use crate::orders::steps::{Buffer, ask, complete, complete_write, count, create, open, write};

pub fn orders() -> Vec<Order> {
    vec![
        // The branch after P6 of document 01, as an example.
        Order {
            table: vec![0; TABLE_BYTES],
            fill: 0,
            cuts: true,
            steps: vec![
                open(1),
                create(1, 0, &[65; 8], &[]),
                create(2, 0, &[1; 2], &[1]),
                create(2, 2, &[2; 2], &[]),
                create(1, 8, &[66; 8], &[2]),
                write(1),
                create(1, 0, &[67], &[]),
                complete(1),
                write(1),
            ],
        },
        // A table given slot by slot: two patches that stand before one another.
        Order {
            table: table(
                1,
                9,
                &[
                    (0, State::WaitingHard, 3, 1, 0, 8, &[5]),
                    (5, State::WaitingSoft { room: 2 }, 4, 1, 4, 8, &[0]),
                ],
            ),
            fill: 0,
            cuts: false,
            steps: vec![write(1), complete(1)],
        },
    ]
}

/// Slot, state, number, block, offset, length, befores.
type Given<'a> = (usize, State, u32, u32, u32, u32, &'a [usize]);

fn table(first: u32, next: u32, slots: &[Given]) -> Vec<u8> {
    let mut table = Table { next, ..Table::empty(Setting::Board, first) };
    for &(slot, state, number, block, offset, length, befores) in slots {
        let befores = befores.iter().copied().collect();
        table.slots[slot] = Slot { state, number, block, offset, length, befores };
    }
    encoded(&table)
}

/// A table given byte by byte: its bytes that are not 0.
#[allow(dead_code)]
fn bytes(places: &[(usize, u8)]) -> Vec<u8> {
    let mut bytes = vec![0; TABLE_BYTES];
    for &(place, byte) in places {
        bytes[place] = byte;
    }
    bytes
}
