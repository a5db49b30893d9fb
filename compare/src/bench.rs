//! Time per call of the library and of the plain program on the same recorded orders, each behind a pipe and timed on its own
//! side of it; and one pass without a clock, for a tool that counts instructions. What the joint call takes stands beside what its two
//! calls take on the same orders; there the model makes all other calls, so that nothing else is counted.

use crate::judge::cover::Cover;
use crate::judge::run::{Order, Pair, Run};
use crate::library::calls::Library;
use crate::library::mock::Mock;
use crate::library::pipe::Pipe;
use crate::library::through;
use crate::model::rules::Right;
use crate::model::table::{KINDS, Kind};
use crate::orders::maker::{Maker, Taste};
use crate::orders::random::Random;
use crate::orders::steps::{Call, Lent, Step, complete, open, play, write};

const ORDERS: u64 = 200;
const CALLS: usize = 200;
const PASSES: usize = 5;

/// Which calls go through what is measured.
#[derive(Clone, Copy, PartialEq, Eq)]
pub enum Measured {
    /// Every call, of orders without joint ones.
    Single,
    /// The joint calls, of orders that complete in no other way.
    Joint,
    /// The same, each as the two calls that it makes.
    Parted,
}

impl Measured {
    fn orders(self, count: u64) -> Vec<Order> {
        let joint = if self == Measured::Single { 0 } else { 100 };
        (1..=count).map(|seed| recorded(seed, joint)).collect()
    }
}

/// An order without faults, chosen with the model's answers.
fn recorded(seed: u64, joint: u32) -> Order {
    let mut random = Random::new(seed);
    let taste = Taste { faults: 0, joint, ..Taste::of_seed(&mut random) };
    let mut maker = Maker::new(random, taste);
    let mut order = Order { fill: seed, cuts: false, ..Order::of(&[open(1)]) };
    let model = Mock(Right);
    let mut run = Run::start(Pair { library: &model, model: None }, &order);
    let mut cover = Cover::default();
    let _ = run.step(&order.steps[0], &mut cover);
    while let (Some(table), true) = (&run.table, order.steps.len() < CALLS) {
        let step = maker.step(table);
        let _ = run.step(&step, &mut cover);
        order.steps.push(step);
    }
    order
}

/// As board.h has them.
fn name_of(kind: Kind) -> &'static str {
    match kind {
        Kind::Open => "open",
        Kind::Create => "create",
        Kind::Write => "write",
        Kind::Complete => "complete",
        Kind::Ask => "ask",
        Kind::Count => "count",
        Kind::CompleteWrite => "complete_write",
    }
}

/// Every call of the orders, and what is to be done after one that is measured.
fn play_all(library: &dyn Library, orders: &[Order], measured: Measured, after: &mut dyn FnMut(Kind)) {
    for order in orders {
        let mut lent = Lent::filled(library.setting(), &order.table, order.fill);
        for step in &order.steps {
            match step.call {
                Call::CompleteWrite { x, y } if measured == Measured::Parted => {
                    if play_one(library, &mut lent, &complete(x), after) == 0 {
                        play_one(library, &mut lent, &write(y), after);
                    }
                }
                _ if measured == Measured::Single || step.kind() == Kind::CompleteWrite => {
                    play_one(library, &mut lent, step, after);
                }
                _ => {
                    play(&Mock(Right), &mut lent, &step.call);
                }
            }
        }
    }
}

fn play_one(library: &dyn Library, lent: &mut Lent, step: &Step, after: &mut dyn FnMut(Kind)) -> u32 {
    let answer = play(library, lent, &step.call);
    after(step.kind());
    answer.refusal
}

/// All orders once, and how many calls of each kind that makes.
pub fn once(library: &dyn Library, orders: u64, measured: Measured) -> bool {
    let mut calls = [0; KINDS.len()];
    play_all(library, &measured.orders(orders), measured, &mut |kind| calls[kind as usize] += 1);
    for kind in KINDS.into_iter().filter(|&kind| calls[kind as usize] > 0) {
        println!("{} {}", name_of(kind), calls[kind as usize]);
    }
    true
}

/// What the calls of a kind took in a pass.
#[derive(Clone, Copy, Default)]
struct Took {
    calls: u64,
    nanoseconds: u64,
}

/// The best of some passes, for each kind.
fn measure(program: &Pipe, orders: &[Order], measured: Measured) -> [Took; KINDS.len()] {
    let pass = || {
        let mut took = [Took::default(); KINDS.len()];
        play_all(program, orders, measured, &mut |kind| {
            took[kind as usize].calls += 1;
            took[kind as usize].nanoseconds += u64::from(program.took());
        });
        took
    };
    let mut best = pass();
    for _ in 1..PASSES {
        for (best, took) in best.iter_mut().zip(pass()) {
            best.nanoseconds = best.nanoseconds.min(took.nanoseconds);
        }
    }
    best
}

fn line(name: &str, calls: u64, library: u64, plain: u64) {
    let each = |nanoseconds: u64| nanoseconds as f64 / calls as f64;
    let ratio = library as f64 / plain as f64;
    println!("{name:16} {calls:>8} {:>10.0} {:>10.0} {ratio:>6.2}", each(library), each(plain));
}

pub fn run() -> Result<(), String> {
    let (library, plain) = (through::board()?, through::plain()?);
    println!(
        "nanoseconds a call, the clock's own among them; {ORDERS} orders of {CALLS} calls, best of {PASSES} passes"
    );
    println!("{:16} {:>8} {:>10} {:>10} {:>6}", "call", "calls", "library", "plain", "ratio");
    for measured in [Measured::Single, Measured::Joint] {
        let orders = measured.orders(ORDERS);
        let (library, plain) = (measure(&library, &orders, measured), measure(&plain, &orders, measured));
        for kind in KINDS.into_iter().filter(|&kind| library[kind as usize].calls > 0) {
            let (library, plain) = (library[kind as usize], plain[kind as usize]);
            line(name_of(kind), library.calls, library.nanoseconds, plain.nanoseconds);
        }
    }
    let orders = Measured::Parted.orders(ORDERS);
    let both = |program| {
        let took = measure(program, &orders, Measured::Parted);
        let (complete, write) = (took[Kind::Complete as usize], took[Kind::Write as usize]);
        (complete.calls, complete.nanoseconds + write.nanoseconds)
    };
    let ((calls, library), (_, plain)) = (both(&library), both(&plain));
    line("complete + write", calls, library, plain);
    Ok(())
}
