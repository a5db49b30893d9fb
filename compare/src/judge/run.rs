//! Runs call orders on the library and on the model side by side and compares everything.

use crate::judge::cover::Cover;
use crate::judge::cut::{History, both_agree};
use crate::judge::life::Past;
use crate::judge::watch;
use crate::library::calls::Library;
use crate::model::bytes::{SLOT_BYTES, TABLE_BYTES, decode};
use crate::model::setting::Setting;
use crate::model::table::{BLOCK_BYTES, Kind, ROOM_BYTES, Refusal, Table};
use crate::orders::steps::{Answer, Call, Lent, Step, play};

/// An order of calls and what it starts from.
#[derive(Clone)]
pub struct Order {
    /// The table's bytes at the start.
    pub table: Vec<u8>,
    /// Fills image, undo area and block handed out (0: all zero).
    pub fill: u64,
    /// Whether a history is kept and cuts are made. Not for tables no order of calls would leave.
    pub cuts: bool,
    pub steps: Vec<Step>,
}

impl Order {
    /// An order that opens its table itself, on all zero buffers.
    pub fn of(steps: &[Step]) -> Order {
        Order { table: vec![0; TABLE_BYTES], fill: 0, cuts: true, steps: steps.to_vec() }
    }
}

pub struct Failure {
    /// Which call of the order it was, from 0.
    pub at: usize,
    pub what: String,
    pub library: Answer,
    pub model: Option<Answer>,
}

/// The library under test and the model beside it. Without a model only the cuts are tested.
#[derive(Clone, Copy)]
pub struct Pair<'a> {
    pub library: &'a dyn Library,
    pub model: Option<&'a dyn Library>,
}

pub struct Run<'a> {
    pair: Pair<'a>,
    pub lent: Lent,
    beside: Lent,
    /// The table as it stands; None when the bytes are no table.
    pub table: Option<Table>,
    history: Option<History>,
    cuts: bool,
    made: usize,
}

impl<'a> Run<'a> {
    pub fn start(pair: Pair<'a>, order: &Order) -> Run<'a> {
        let setting = pair.library.setting();
        let lent = Lent::filled(setting, &order.table, order.fill);
        let (beside, table) = (lent.clone(), decode(setting, &order.table));
        Run { pair, lent, beside, table, history: None, cuts: order.cuts, made: 0 }
    }

    /// Makes one call on both sides and compares all there is.
    pub fn step(&mut self, step: &Step, cover: &mut Cover) -> Result<Answer, Failure> {
        self.power_up(step, cover);
        let exact: Vec<_> =
            step.odd.iter().map(|&(which, _)| (which, self.lent.buffer(which).clone())).collect();
        self.lent.resize(&step.odd);
        let bytes_before = self.lent.table.clone();
        let answer = play(self.pair.library, &mut self.lent, &step.call);
        let mut other = None;
        let mut what = self.pair.library.harm().map(String::from);
        if let Some(model) = self.pair.model {
            self.beside.resize(&step.odd);
            let wanted = play(model, &mut self.beside, &step.call);
            what = what.or_else(|| difference(&answer, &wanted, &self.lent, &self.beside));
            other = Some(wanted);
        }
        // What was lent in another size is as it was; the rest is what the call made of it.
        for (which, bytes) in exact {
            self.beside.buffer(which).clone_from(&bytes);
            *self.lent.buffer(which) = bytes;
        }
        if what.is_none() && other.is_some() {
            let seen = self.table.as_ref().filter(|_| bytes_before.len() == TABLE_BYTES);
            watch::see(cover, self.pair.library.setting(), seen, &bytes_before, step, &answer);
        }
        if self.lent.table != bytes_before {
            self.table = decode(self.pair.library.setting(), &self.lent.table);
        }
        let what = match what {
            Some(what) => Some(what),
            None => self.cut(step, &answer, cover).err(),
        };
        self.made += 1;
        match what {
            None => Ok(answer),
            Some(what) => Err(Failure { at: self.made - 1, what, library: answer, model: other }),
        }
    }

    /// After a cut the working image is filled from the store.
    fn power_up(&mut self, step: &Step, cover: &mut Cover) {
        if let (Some(landed), Some(history)) = (&step.after_cut, &self.history) {
            cover.add("cut: a history after a cut", 0);
            self.lent.image = history.store_after(landed);
            self.beside.image.clone_from(&self.lent.image);
        }
    }

    /// The blocks with a write out, where a history is kept.
    pub fn blocks_out(&self) -> Vec<u32> {
        self.history.as_ref().map_or(Vec::new(), History::blocks_out)
    }

    /// Every opening that gives a table begins a history, refused or not: the image is what its store holds.
    fn cut(&mut self, step: &Step, answer: &Answer, cover: &mut Cover) -> Result<(), String> {
        if !self.cuts {
            return Ok(());
        }
        if let Call::Open { first } = step.call {
            if answer.refusal != Refusal::NotSound.number() {
                let again =
                    if self.history.is_some() { "open: another history" } else { "open: the first history" };
                cover.add(again, answer.refusal);
                self.begin(step, if answer.refusal == 0 { first } else { 1 }, cover)?;
            }
        } else {
            self.note(step, answer, cover)?;
        }
        match &self.history {
            None => Ok(()),
            Some(history) => {
                history.settled(&self.lent, cover)?;
                history.cut(cover)
            }
        }
    }

    /// Notes the granted calls that were made. Between the two of a joint one the power may go as well.
    fn note(&mut self, step: &Step, answer: &Answer, cover: &mut Cover) -> Result<(), String> {
        let Some(history) = &mut self.history else { return Ok(()) };
        if step.kind() == Kind::CompleteWrite {
            both_agree(answer)?;
        }
        for (place, (made, answer)) in step.made(answer).into_iter().enumerate() {
            if place > 0 {
                cover.add("cut: between the two calls of a joint one", 0);
                history.cut(cover)?;
            }
            if answer.refusal == 0 {
                history.record(&made.call, &answer, &self.lent.handed, cover)?;
            }
        }
        Ok(())
    }

    /// Begins a history. After a cut, or with all committed, the life of the store goes on; on an image that is not the store's
    /// another life begins.
    fn begin(&mut self, step: &Step, first: u32, cover: &mut Cover) -> Result<(), String> {
        let past = match (self.history.take(), &step.after_cut) {
            (Some(before), Some(landed)) => before.ended(landed, cover)?,
            (Some(before), None) if before.at_rest() => {
                cover.add("life: opened with all committed, without a cut", 0);
                before.ended(&[], cover)?
            }
            (Some(_) | None, _) => Past::none(&self.lent.image),
        };
        past.see_opening(first, cover);
        self.history = Some(History::opened(self.pair.library.setting(), first, past, &self.lent.image));
        Ok(())
    }
}

/// Runs a whole order; the failure if there is one.
pub fn replay(pair: Pair, order: &Order) -> Option<Failure> {
    let mut run = Run::start(pair, order);
    let mut cover = Cover::default();
    order.steps.iter().find_map(|step| run.step(step, &mut cover).err())
}

fn difference(library: &Answer, model: &Answer, left: &Lent, right: &Lent) -> Option<String> {
    if library != model {
        return Some(String::from("the answers differ"));
    }
    let places: [(&str, usize, &[u8], &[u8]); 4] = [
        ("table", SLOT_BYTES, &left.table, &right.table),
        ("image", BLOCK_BYTES, &left.image, &right.image),
        ("undo area", ROOM_BYTES, &left.undo, &right.undo),
        ("block handed out", BLOCK_BYTES, &left.handed, &right.handed),
    ];
    for (name, unit, left, right) in places {
        if left != right {
            return Some(describe(name, unit, left, right));
        }
    }
    None
}

/// Says where two buffers differ first, in the buffer's own terms.
fn describe(name: &str, unit: usize, left: &[u8], right: &[u8]) -> String {
    let at = (0..left.len().min(right.len())).find(|&i| left[i] != right[i]).unwrap_or(0);
    if name != "table" || at < 8 {
        let place =
            format!("{name} differs at byte {at} ({} of {unit}, byte {} in it)", at / unit, at % unit);
        return format!("{place}: library {}, model {}", left[at], right[at]);
    }
    let slot = (at - 8) / unit;
    let show = |bytes: &[u8]| match decode(Setting::Board, bytes) {
        Some(table) => format!("{:?}", table.slots[slot]),
        None => String::from("no table"),
    };
    format!(
        "table differs in slot {slot}, byte {}:\n  library {}\n  model   {}",
        (at - 8) % unit,
        show(left),
        show(right)
    )
}
