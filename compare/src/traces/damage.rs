//! Damages a trace, as a faulty line or a faulty recorder would. What is then read may still be good.

use crate::model::record::{HEAD_BYTES, framed};
use crate::orders::random::Random;

#[derive(Clone, Copy, PartialEq, Eq, PartialOrd, Ord, Debug)]
pub enum Damage {
    ByteChanged,
    CutOff,
    BytesPutIn,
    BytesTakenOut,
    EndToEnd,
    OrderChanged,
    RecordTwice,
    RecordLeftOut,
    /// A value longer or shorter than it was, with the length that it has.
    Resized,
    Noise,
    Nothing,
}

use Damage::*;

/// The first ones come more often: they can be done in more ways.
const CHOICE: [Damage; 18] = [
    ByteChanged,
    ByteChanged,
    ByteChanged,
    ByteChanged,
    CutOff,
    CutOff,
    BytesPutIn,
    BytesTakenOut,
    EndToEnd,
    EndToEnd,
    OrderChanged,
    OrderChanged,
    RecordTwice,
    RecordLeftOut,
    Resized,
    Resized,
    Noise,
    Nothing,
];

/// The bytes of a trace damaged in one way, and in which; `other` is a second trace.
pub fn damaged(random: &mut Random, mut records: Vec<Vec<u8>>, other: Vec<Vec<u8>>) -> (Vec<u8>, Damage) {
    let damage = random.pick(&CHOICE);
    let at = random.below(records.len());
    match damage {
        ByteChanged => change_byte(random, &mut records[at]),
        CutOff => {
            let kept = random.below(records[at].len());
            records.truncate(at + 1);
            records[at].truncate(kept);
        }
        BytesPutIn => {
            let (place, many) = (random.below(records[at].len()), 1 + random.below(4));
            let bytes = random.bytes(many);
            records[at].splice(place..place, bytes);
        }
        BytesTakenOut => {
            let place = random.below(records[at].len());
            let end = (place + 1 + random.below(4)).min(records[at].len());
            records[at].drain(place..end);
        }
        EndToEnd => records.extend(other),
        OrderChanged => {
            let to = random.below(records.len());
            records.swap(at, to);
        }
        RecordTwice => records.insert(at, records[at].clone()),
        RecordLeftOut => _ = records.remove(at),
        Resized => records[at] = resized(random, &records[at]),
        Noise => {
            let many = random.below(40);
            records = vec![random.bytes(many)];
        }
        Nothing => records.clear(),
    }
    (records.concat(), damage)
}

/// Half of the time a byte of the head.
fn change_byte(random: &mut Random, record: &mut [u8]) {
    let among = if random.percent(50) { HEAD_BYTES } else { record.len() };
    let at = random.below(among);
    record[at] = match random.below(4) {
        0 => record[at].wrapping_add(1),
        1 => record[at].wrapping_sub(1),
        2 => record[at] ^ 1 << random.below(8),
        _ => random.byte(),
    };
}

fn resized(random: &mut Random, record: &[u8]) -> Vec<u8> {
    let mut value = record[HEAD_BYTES..].to_vec();
    let size = random.pick(&[0, value.len() - 1, value.len() + 1, 3, 1_199, 1_200, 1_201, 1_456, 65_535]);
    value.resize(size, random.byte());
    framed(record[0], &value)
}
