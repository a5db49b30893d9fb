//! What joining gains: how many one-byte changes go onto one page, or onto eight in turn, with nothing named and nothing written,
//! until one is refused. Before: document 01's rules, by the model. After: what is under test.

use crate::library::calls::Library;
use crate::library::mock::Mock;
use crate::model::bytes::{TABLE_BYTES, decode};
use crate::model::rules::Under;
use crate::model::setting::Setting;
use crate::model::table::BLOCK_BYTES;
use crate::orders::steps::{Lent, create, open, play};

/// How a run ended.
struct Ended {
    accepted: u32,
    /// 0 where it was stopped.
    refusal: u32,
    soft: u32,
    slots: usize,
}

/// A run that is not refused is stopped after `most` changes.
fn changes(library: &dyn Library, pages: u32, most: u64) -> Ended {
    let mut lent = Lent::filled(library.setting(), &[0; TABLE_BYTES], 0);
    play(library, &mut lent, &open(1).call);
    let mut ended = Ended { accepted: 0, refusal: 0, soft: 0, slots: 0 };
    while u64::from(ended.accepted) < most && ended.refusal == 0 {
        let (page, place) = (ended.accepted % pages, ended.accepted / pages);
        let change = create(page, place % BLOCK_BYTES as u32, &[place as u8], &[]);
        let answer = play(library, &mut lent, &change.call);
        ended.refusal = answer.refusal;
        ended.accepted += u32::from(answer.refusal == 0);
        ended.soft += u32::from(answer.hold > 1);
    }
    ended.slots = decode(library.setting(), &lent.table).map_or(0, |table| table.patches().count());
    ended
}

/// Prints the table. Document 01 has 16 rooms, the model without joining 64: a run in which nothing is soft asks for none, so it is
/// document 01's run as well; one in which something is soft fails.
pub fn print(library: &dyn Library, most: u64) -> bool {
    let before = Mock(Under(Setting::HardRule));
    println!(
        "one-byte changes, nothing named, nothing written: the refusal that ends the run, and after how many"
    );
    println!("{:14} {:>26} {:>26}", "pages", "without joining", "under test");
    let mut as_in_document_01 = true;
    for pages in [1, 8] {
        let (before, after) = (changes(&before, pages, most), changes(library, pages, most));
        as_in_document_01 &= before.soft == 0;
        println!("{pages:14} {:>26} {:>26}", said(&before), said(&after));
    }
    println!("{}", if as_in_document_01 { NO_ROOM_ASKED } else { "a change without joining was soft" });
    as_in_document_01
}

const NO_ROOM_ASKED: &str = "without joining is the model with 64 rooms; none was asked for, so 16 rooms, as document 01 has them, give \
the same";

fn said(ended: &Ended) -> String {
    let Ended { accepted, refusal, slots, .. } = ended;
    let slots = format!("{slots} slot{}", if *slots == 1 { "" } else { "s" });
    match refusal {
        0 => format!("none in {accepted}, {slots}"),
        refusal => format!("{refusal} after {accepted}, {slots}"),
    }
}
