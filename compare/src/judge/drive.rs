//! Makes and runs orders, one for each seed, and keeps the sums.

use crate::judge::cover::Cover;
use crate::judge::run::{Failure, Order, Pair, Run};
use crate::judge::shrink::{line, said, table_lines};
use crate::model::rules::{Model, Right};
use crate::model::setting::Setting;
use crate::model::table::{Refusal, Table};
use crate::orders::faults;
use crate::orders::maker::{Maker, Taste, first_number};
use crate::orders::random::Random;
use crate::orders::steps::{Buffer, Step, open};
use crate::orders::tables::{self, BREAKS};

#[derive(Default)]
pub struct Sums {
    pub calls: u64,
    pub orders: u64,
    pub drained: u64,
    /// Orders that could not be drained: patches wait, none is in flight, no write is granted.
    pub stuck: u64,
}

/// An order that failed.
pub struct Failed {
    pub seed: u64,
    pub order: Order,
    pub failure: Failure,
}

/// An order as far as it was made, and its failure.
type Stop = Box<(Order, Failure)>;

pub struct Driver<'a> {
    pub pair: Pair<'a>,
    pub cover: Cover,
    pub sums: Sums,
    /// Says each seed before its order.
    pub show_seeds: bool,
    /// Says the starting table, each call before it is made, and its answer.
    pub show_calls: bool,
}

/// The seed of the order with this place in a run.
pub fn seed_of(run: u64, place: u64) -> u64 {
    Random::new(run ^ place.rotate_left(32)).number() | 1
}

impl<'a> Driver<'a> {
    pub fn new(pair: Pair<'a>) -> Driver<'a> {
        let (cover, sums) = (Cover::default(), Sums::default());
        Driver { pair, cover, sums, show_seeds: false, show_calls: false }
    }

    fn setting(&self) -> Setting {
        self.pair.library.setting()
    }

    /// Runs orders until so many calls are made, or one fails.
    pub fn run(&mut self, seed: u64, calls: u64, progress: &mut dyn FnMut(&Sums)) -> Result<(), Box<Failed>> {
        let mut place = 0;
        while self.sums.calls < calls {
            self.order(seed_of(seed, place))?;
            place += 1;
            progress(&self.sums);
        }
        Ok(())
    }

    /// Makes and runs the order of one seed.
    pub fn order(&mut self, seed: u64) -> Result<(), Box<Failed>> {
        let mut random = Random::new(seed);
        self.sums.orders += 1;
        if self.show_seeds {
            println!("order of seed {seed}");
        }
        let done = match random.below(100) {
            0..30 => self.with_history(random, seed),
            30..72 => self.odd_table(random, seed),
            72..94 => self.broken_table(random, seed),
            _ => self.no_table(random, seed),
        };
        done.map_err(|stop| {
            let (order, failure) = *stop;
            Box::new(Failed { seed, order, failure })
        })
    }

    /// Opens a table and works on it, with cuts after every call; half of the time drains it. Half of the orders are lives: they open
    /// again and again.
    fn with_history(&mut self, mut random: Random, fill: u64) -> Result<(), Stop> {
        let mut order = Order { fill, ..Order::of(&[]) };
        let calls = random.between(10, 260) as usize;
        let first = first_number(&mut random);
        let first = opening(&mut random, self.setting(), first);
        let taste = Taste::of_seed(&mut random).with_joint_calls(&mut random);
        let drain = random.percent(50);
        let opens_again = random.pick(&[0, 0, 2, 6]);
        let mut maker = Maker::new(random, taste);
        let mut run = Run::start(self.pair, &order);
        self.call(&mut run, &mut order, first)?;
        for _ in 0..calls {
            let Some(table) = &run.table else { break };
            let again = opens_again > 0 && maker.random.percent(opens_again);
            let step = if again { open_again(&mut maker, table, &run) } else { maker.step(table) };
            self.call(&mut run, &mut order, step)?;
        }
        if drain {
            self.drain(&mut run, &mut order, &mut maker)?;
        }
        Ok(())
    }

    fn drain(&mut self, run: &mut Run, order: &mut Order, maker: &mut Maker) -> Result<(), Stop> {
        for _ in 0..400 {
            let Some(table) = &run.table else { return Ok(()) };
            let Some(step) = maker.drain_step(table) else {
                self.sums.drained += 1;
                return Ok(());
            };
            self.call(run, order, step)?;
        }
        if run.table.as_ref().is_some_and(is_stuck) {
            self.sums.stuck += 1;
        }
        Ok(())
    }

    /// A sound table that no order would leave, and some calls on it.
    fn odd_table(&mut self, mut random: Random, fill: u64) -> Result<(), Stop> {
        let table = tables::sound(&mut random, self.setting());
        let bytes = tables::bytes_with_unread_rooms(&mut random, &table);
        let calls = random.between(1, 12) as usize;
        self.on_table(random, fill, bytes, table, calls).map(|_| ())
    }

    /// A table with one clause of soundness broken: every call is refused.
    fn broken_table(&mut self, mut random: Random, fill: u64) -> Result<(), Stop> {
        let way = random.below(BREAKS.len());
        let table = tables::broken(&mut random, self.setting(), &BREAKS[way]);
        let bytes = tables::bytes_with_unread_rooms(&mut random, &table);
        if self.on_table(random, fill, bytes, table, 4)? {
            self.cover.add("unsound in this way", way as u32);
        }
        Ok(())
    }

    /// Bytes that are no table, as far as the first open.
    fn no_table(&mut self, mut random: Random, fill: u64) -> Result<(), Stop> {
        let bytes = tables::bad_tag(&mut random, self.setting());
        self.on_table(random, fill, bytes, Table::empty(self.setting(), 1), 4).map(|_| ())
    }

    /// Makes calls on given bytes, without history. Says whether the first was refused 2.
    fn on_table(
        &mut self,
        random: Random,
        fill: u64,
        bytes: Vec<u8>,
        shown: Table,
        calls: usize,
    ) -> Result<bool, Stop> {
        let mut order = Order { table: bytes, fill, cuts: false, steps: Vec::new() };
        let mut maker = single_maker(random, &shown);
        let mut run = Run::start(self.pair, &order);
        let mut refused_2 = false;
        for call in 0..calls {
            let step = single_step(&mut maker, run.table.as_ref().unwrap_or(&shown));
            let refusal = self.call(&mut run, &mut order, step)?;
            refused_2 = refused_2 || (call == 0 && refusal == Refusal::NotSound.number());
        }
        Ok(refused_2)
    }

    fn call(&mut self, run: &mut Run, order: &mut Order, step: Step) -> Result<u32, Stop> {
        self.sums.calls += 1;
        if self.show_calls && order.steps.is_empty() {
            println!("{}", table_lines(&order.table));
        }
        if self.show_calls {
            println!("  {}", line(&step));
        }
        order.steps.push(step);
        match run.step(&order.steps[order.steps.len() - 1], &mut self.cover) {
            Ok(answer) => {
                if self.show_calls {
                    println!("      {}", said(&answer));
                }
                Ok(answer.refusal)
            }
            Err(failure) => Err(Box::new((order.clone(), failure))),
        }
    }
}

/// An opening, at times one that is refused.
fn opening(random: &mut Random, setting: Setting, first: u32) -> Step {
    let step = open(first);
    if random.percent(5) { faults::spoil(random, &Table::empty(setting, 1), step) } else { step }
}

/// Another opening in the midst of an order: on the image as it stands, or, mostly, after a cut that some of the writes out survived.
/// The numbers given last are held from then on.
fn open_again(maker: &mut Maker, table: &Table, run: &Run) -> Step {
    maker.held.extend((table.first..table.next).rev().take(NUMBERS_HELD));
    let random = &mut maker.random;
    let first = next_first(random, table.next);
    let step = opening(random, table.setting, first);
    if random.percent(15) {
        return step;
    }
    let landed: Vec<u32> = run.blocks_out().into_iter().filter(|_| random.percent(50)).collect();
    step.after_cut(&landed)
}

/// How many of an opening's numbers are held when it ends.
const NUMBERS_HELD: usize = 20;

/// The first number after a sleep: mostly the old next, as a radio has it; else one above it, one not above it, or any.
fn next_first(random: &mut Random, next: u32) -> u32 {
    match random.below(8) {
        0..4 => next,
        4 => next.saturating_add(random.between(1, 300)),
        5 | 6 => random.between(1, next.max(1)),
        _ => first_number(random),
    }
}

/// Likes the blocks of the table, and holds the numbers that stand in its free slots.
fn single_maker(mut random: Random, table: &Table) -> Maker {
    let mut taste = Taste::of_seed(&mut random).with_joint_calls(&mut random);
    taste.blocks.truncate(2);
    taste.blocks.extend(table.patches().map(|(_, p)| p.block).filter(|&block| block < 64));
    taste.weights =
        random.pick(&[[40, 25, 20, 8, 7], [20, 60, 10, 5, 5], [10, 10, 60, 10, 10], [80, 10, 5, 3, 2]]);
    taste.faults = 15;
    let mut maker = Maker::new(random, taste);
    maker.held.extend(table.slots.iter().filter(|slot| !slot.used()).map(|slot| slot.number));
    maker.held.retain(|&number| number != 0);
    maker
}

/// A call as the maker likes it, at times an open.
fn single_step(maker: &mut Maker, table: &Table) -> Step {
    if !maker.random.percent(8) {
        return maker.step(table);
    }
    let mut step = open(first_number(&mut maker.random));
    if maker.random.percent(50) {
        step = faults::spoil(&mut maker.random, table, step);
    }
    if maker.random.percent(40) {
        let size = maker.random.pick(&[0, 8, 2_055, 2_057, 4_112]);
        step = step.lending(Buffer::Table, size);
    }
    step
}

fn is_stuck(table: &Table) -> bool {
    let some_wait = table.patches().next().is_some();
    some_wait
        && table.patches().all(|(_, p)| p.waiting() && Right.largest_that_may_go(table, p.block).is_empty())
}
