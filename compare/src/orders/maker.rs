//! Makes call orders from a seed. The next call is chosen with an eye on the table as it stands,
//! so that orders reach full slots, full rooms, overlaps, chains over blocks, joins and every refusal.

use crate::model::table::{BLOCK_BYTES, Kind, LAST_BLOCK, LAST_NUMBER, LONGEST_DATA, MOST_NAMED, Table};
use crate::orders::faults;
use crate::orders::random::Random;
use crate::orders::steps::{Step, ask, complete, complete_write, count, create, open, write};

/// The calls that an order chooses among. Openings come from elsewhere.
const KINDS_CHOSEN: [Kind; 5] = [Kind::Create, Kind::Write, Kind::Complete, Kind::Ask, Kind::Count];

/// What an order likes to do.
#[derive(Clone, Debug)]
pub struct Taste {
    pub blocks: Vec<u32>,
    /// Percent of the changes that look for a block where none waits: they join nothing, and the table fills.
    pub fresh: u32,
    /// Changes start at an offset below this.
    pub span: u32,
    pub longest: u32,
    /// Percent of the changes that name numbers.
    pub naming: u32,
    /// Each change names the number issued last.
    pub chain: bool,
    /// How often each of the calls in `KINDS_CHOSEN` comes.
    pub weights: [u32; KINDS_CHOSEN.len()],
    /// Percent of the completions that go on with a write in the same call.
    pub joint: u32,
    /// Percent of the calls that have some fault.
    pub faults: u32,
}

fn some_blocks(random: &mut Random, count: usize) -> Vec<u32> {
    let mut blocks: Vec<u32> = (0..=LAST_BLOCK).collect();
    random.shuffle(&mut blocks);
    blocks.truncate(count);
    if random.percent(30) && !blocks.contains(&LAST_BLOCK) {
        blocks[0] = LAST_BLOCK;
    }
    blocks
}

impl Taste {
    /// The same with joint calls, at times many of them.
    pub fn with_joint_calls(self, random: &mut Random) -> Taste {
        Taste { joint: random.pick(&[0, 30, 60, 100]), ..self }
    }

    /// One that makes no joint calls.
    pub fn of_seed(random: &mut Random) -> Taste {
        let few = 2 + random.below(4);
        let blocks = some_blocks(random, few);
        let (span, longest, faults) = (64, 12, 6);
        let (fresh, naming, chain, joint) = (0, 50, false, 0);
        let mixed =
            Taste { blocks, fresh, span, longest, naming, chain, weights: [45, 22, 22, 6, 5], joint, faults };
        let all: Vec<u32> = (0..=LAST_BLOCK).collect();
        match random.below(9) {
            0 => Taste { naming: 0, weights: [90, 3, 3, 2, 2], ..mixed },
            1 => Taste { blocks: some_blocks(random, 2), naming: 70, weights: [80, 8, 8, 2, 2], ..mixed },
            2 => Taste { chain: true, naming: 90, weights: [55, 20, 20, 3, 2], ..mixed },
            3 => Taste { span: 10, longest: 8, naming: 60, ..mixed },
            4 => Taste {
                blocks: all,
                fresh: 50,
                span: BLOCK_BYTES as u32,
                longest: LONGEST_DATA as u32,
                weights: [60, 15, 15, 5, 5],
                ..mixed
            },
            5 => Taste { weights: [70, 14, 10, 3, 3], naming: 65, ..mixed },
            6 => Taste { blocks: all, fresh: 85, naming: 25, weights: [80, 12, 4, 2, 2], ..mixed },
            7 => Taste { blocks: some_blocks(random, 40), fresh: 60, weights: [85, 8, 3, 2, 2], ..mixed },
            _ => mixed,
        }
    }
}

/// A first number: mostly small, at times near the last.
pub fn first_number(random: &mut Random) -> u32 {
    match random.below(10) {
        0 => LAST_NUMBER - random.between(0, 100),
        1 if random.percent(20) => LAST_NUMBER,
        2 => random.between(1, LAST_NUMBER),
        3..=5 => random.between(2, 300),
        _ => 1,
    }
}

/// All slots or all rooms are taken.
fn crowded(table: &Table) -> bool {
    table.slots.iter().all(|slot| slot.used()) || table.rooms_taken().len() == table.setting.rooms() as usize
}

fn none_in_flight(table: &Table) -> bool {
    !table.patches().any(|(_, patch)| patch.in_flight())
}

pub struct Maker {
    pub random: Random,
    pub taste: Taste,
    /// Numbers that the caller has from elsewhere: from earlier openings of the store, or from free slots.
    pub held: Vec<u32>,
}

impl Maker {
    pub fn new(random: Random, taste: Taste) -> Maker {
        Maker { random, taste, held: Vec::new() }
    }

    /// The next call for this table.
    pub fn step(&mut self, table: &Table) -> Step {
        let step = self.proper_step(table);
        // Just after an opening next is first itself, and a fault may take it for one from before.
        let just_opened = table.first > 1 && table.first == table.next;
        if self.random.percent(self.taste.faults * if just_opened { 3 } else { 1 }) {
            faults::spoil(&mut self.random, table, step)
        } else {
            step
        }
    }

    fn proper_step(&mut self, table: &Table) -> Step {
        let total: u32 = self.taste.weights.iter().sum();
        let mut at = self.random.between(0, total - 1);
        let mut choice = 0;
        while at >= self.taste.weights[choice] {
            at -= self.taste.weights[choice];
            choice += 1;
        }
        match KINDS_CHOSEN[choice] {
            Kind::Open => open(first_number(&mut self.random)),
            Kind::Create if crowded(table) && self.random.percent(70) => self.relieve(table),
            Kind::Create => self.create(table),
            Kind::Write => self.write(table),
            Kind::Complete if none_in_flight(table) && self.random.percent(70) => self.write(table),
            Kind::Complete | Kind::CompleteWrite => self.complete(table),
            Kind::Ask => ask(self.number(table)),
            Kind::Count => count(self.random.pick(&self.taste.blocks)),
        }
    }

    /// Sends or completes something.
    fn relieve(&mut self, table: &Table) -> Step {
        self.drain_step(table).unwrap_or_else(|| self.create(table))
    }

    fn create(&mut self, table: &Table) -> Step {
        let block = self.block_where(&|b| table.waiting(*b).is_empty(), self.taste.fresh);
        let length = match self.random.below(20) {
            0 => LONGEST_DATA as u32,
            1 => 1,
            _ => self.random.between(1, self.taste.longest),
        };
        let last_start = BLOCK_BYTES as u32 - length;
        let offset = match self.random.below(12) {
            0 => last_start,
            1 => self.touching(table, block).min(last_start),
            _ => self.random.between(0, self.taste.span - 1).min(last_start),
        };
        let data = self.random.bytes(length as usize);
        let named = if self.random.percent(self.taste.naming) { self.names(table) } else { Vec::new() };
        create(block, offset, &data, &named)
    }

    /// An offset just after some patch of the block.
    fn touching(&mut self, table: &Table, block: u32) -> u32 {
        let ends: Vec<u64> =
            table.patches().filter(|(_, p)| p.block == block).map(|(_, p)| p.end()).collect();
        if ends.is_empty() { 0 } else { self.random.pick(&ends).min(BLOCK_BYTES as u64) as u32 }
    }

    /// One to eight numbers that were issued, since the opening or before it.
    fn names(&mut self, table: &Table) -> Vec<u32> {
        if table.next <= 1 {
            return Vec::new();
        }
        let mut named = if self.taste.chain { vec![table.next - 1] } else { Vec::new() };
        let many = match self.random.below(10) {
            0 => MOST_NAMED,
            1 => 4 + self.random.below(4),
            _ => self.random.below(4),
        };
        while named.len() < many {
            let number = if !named.is_empty() && self.random.percent(10) {
                self.random.pick(&named)
            } else {
                self.number(table).clamp(1, table.next - 1)
            };
            named.push(number);
        }
        named
    }

    /// A number: often one from before the opening, if there was any; else mostly one in a slot, else one issued since, if there is one.
    fn number(&mut self, table: &Table) -> u32 {
        if table.first > 1 && self.random.percent(30) {
            return self.old_number(table);
        }
        let in_use: Vec<u32> = table.patches().map(|(_, p)| p.number).collect();
        if !in_use.is_empty() && self.random.percent(70) {
            return self.random.pick(&in_use);
        }
        if table.first < table.next && table.next - 1 <= LAST_NUMBER {
            return self.random.between(table.first, table.next - 1);
        }
        table.first
    }

    /// A number from before the opening: the first or last there is below first, one with the low digits of one in use, one that is
    /// held, which this opening may have given too, or not yet; or any.
    fn old_number(&mut self, table: &Table) -> u32 {
        let last = table.first - 1;
        match self.random.below(8) {
            0 => 1,
            1 | 2 => last,
            3 => self.like_one_in_use(table).clamp(1, last),
            4 | 5 if !self.held.is_empty() => self.random.pick(&self.held),
            _ => self.random.between(1, last),
        }
    }

    fn like_one_in_use(&mut self, table: &Table) -> u32 {
        let in_use: Vec<u32> = table.patches().map(|(_, p)| p.number).collect();
        let digits = self.random.pick(&[64, 256, 65_536]);
        if in_use.is_empty() { 0 } else { self.random.pick(&in_use) % digits }
    }

    /// Mostly a block where patches wait and none is in flight.
    fn write(&mut self, table: &Table) -> Step {
        let ready = |b: &u32| !table.waiting(*b).is_empty() && table.in_flight(*b).is_empty();
        write(self.block_where(&ready, 85))
    }

    /// Mostly a block with patches in flight.
    fn complete(&mut self, table: &Table) -> Step {
        let x = self.block_where(&|b| !table.in_flight(*b).is_empty(), 85);
        self.completion(table, x)
    }

    /// A completion; at times it goes on with a write in the same call.
    fn completion(&mut self, table: &Table, x: u32) -> Step {
        if self.taste.joint > 0 && self.random.percent(self.taste.joint) {
            complete_write(x, self.next_block(table, x))
        } else {
            complete(x)
        }
    }

    /// What is written after x has landed: x itself, a block in flight, one that follows what landed, or, mostly, one that could go.
    fn next_block(&mut self, table: &Table, x: u32) -> u32 {
        let landed = table.in_flight(x);
        let follows =
            |b: &u32| table.waiting(*b).iter().any(|&i| !table.slots[i].befores.is_disjoint(&landed));
        let ready = |b: &u32| *b != x && !table.waiting(*b).is_empty() && table.in_flight(*b).is_empty();
        match self.random.below(10) {
            0 | 1 => x,
            2 => self.block_where(&|b| *b != x && !table.in_flight(*b).is_empty(), 100),
            3..6 => self.block_where(&follows, 100),
            _ => self.block_where(&ready, 90),
        }
    }

    fn block_where(&mut self, test: &dyn Fn(&u32) -> bool, percent: u32) -> u32 {
        if self.random.percent(percent) {
            for _ in 0..12 {
                let block = self.random.pick(&self.taste.blocks);
                if test(&block) {
                    return block;
                }
            }
        }
        self.random.pick(&self.taste.blocks)
    }

    /// The next call that empties the table, or none when nothing is left to send or complete.
    pub fn drain_step(&mut self, table: &Table) -> Option<Step> {
        let mut in_flight: Vec<u32> = Vec::new();
        let mut waiting: Vec<u32> = Vec::new();
        for (_, patch) in table.patches() {
            if patch.in_flight() { in_flight.push(patch.block) } else { waiting.push(patch.block) }
        }
        waiting.retain(|block| !in_flight.contains(block));
        let send = !waiting.is_empty() && (in_flight.is_empty() || self.random.percent(60));
        if send {
            return Some(write(self.random.pick(&waiting)));
        }
        if in_flight.is_empty() {
            return None;
        }
        let x = self.random.pick(&in_flight);
        Some(self.completion(table, x))
    }
}
