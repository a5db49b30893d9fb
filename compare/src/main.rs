//! Compares the library, and the program that replays a trace, with a second, independent model. See README.md.

#![deny(unsafe_code)]

mod bench;
mod cases;
mod gain;
mod judge;
mod library;
mod model;
mod orders;
mod traces;
mod words;

use cases::{fixed, paper, pasted, sweep, twoways, wrong};
use judge::drive::{Driver, Failed};
use judge::run::Pair;
use judge::{run, shrink};
use library::mock::Mock;
use library::through::{self, Through};
use model::rules::{Right, Under};
use model::setting::Setting;
use traces::program::Program;
use traces::tested::Tested;
use traces::{folder, long, many, writer};

use std::process::ExitCode;
use std::time::{Duration, Instant};
use words::Command;

const QUICK_SEED: u64 = 1;
const QUICK_CALLS: u64 = 500_000;
const QUICK_CALLS_PIPED: u64 = 50_000;
/// With any seed so many calls reach all that is on the list.
const ENOUGH_CALLS: u64 = 300_000;

fn main() -> ExitCode {
    end_quietly_on_a_closed_pipe();
    let words: Vec<String> = std::env::args().skip(1).collect();
    let (command, way) = match words::asked(&words) {
        Ok((Command::Help, _)) => {
            println!("{}", words::USAGE);
            return ExitCode::SUCCESS;
        }
        Ok(asked) => asked,
        Err(wrong) => {
            eprintln!("{wrong}\n{}", words::USAGE);
            return ExitCode::from(2);
        }
    };
    let stood_in = match way {
        Through::Link | Through::Pipe => "",
        Through::Plain => " (the plain program in the library's place)",
        Through::Model if command.is_of_replay() => " (the model in replay's place)",
        Through::Model => " (the model in the library's place)",
    };
    let passed = perform(command, way).unwrap_or_else(|why| {
        println!("{why}");
        false
    });
    println!("{}{stood_in}", if passed { "passed" } else { "FAILED" });
    if passed { ExitCode::SUCCESS } else { ExitCode::FAILURE }
}

/// Who reads the output may stop reading: that is no fault of the run, and no reason for a message.
fn end_quietly_on_a_closed_pipe() {
    let usual = std::panic::take_hook();
    std::panic::set_hook(Box::new(move |panic| {
        let closed =
            panic.payload().downcast_ref::<String>().is_some_and(|said| said.contains("Broken pipe"));
        if closed {
            std::process::exit(1);
        }
        usual(panic);
    }));
}

/// Whether what was asked for has passed; or why it could not be tried.
fn perform(command: Command, way: Through) -> Result<bool, String> {
    let pair = |library| Pair { library, model: Some(&Mock(Right)) };
    let under_test = || {
        let (name, library) = through::library(way)?;
        println!("library: {name}");
        Ok::<_, String>(library)
    };
    Ok(match command {
        Command::Help => true,
        Command::Quick => quick(pair(&*under_test()?), way),
        Command::Long { calls, seed } => all_cases(pair(&*under_test()?), seed, calls, ENOUGH_CALLS),
        Command::One { seed } => one(pair(&*under_test()?), seed),
        Command::Pasted => pasted_orders(pair(&*under_test()?)),
        Command::Wrong { show } => wrong::run(show) & traces::wrong::run(&folder::cases()?),
        Command::Paper => paper::print(pair(&*under_test()?)),
        Command::Gain { most } => gain::print(&*under_test()?, most),
        Command::Settings { calls } => settings(calls),
        Command::Once { orders, measured } => bench::once(&*through::library(way)?.1, orders, measured),
        Command::Bench => bench::run().map(|()| true)?,
        Command::Folder => folder::run(&Tested::through(way)?, &folder::cases()?),
        Command::Traces { traces, seed } => many::run(&Tested::through(way)?, traces, seed),
        Command::Replay { records } => long::run(&Program::find()?, records)?,
    })
}

fn quick(pair: Pair, way: Through) -> bool {
    let piped = matches!(way, Through::Pipe | Through::Plain);
    let calls = if piped { QUICK_CALLS_PIPED } else { QUICK_CALLS };
    twoways::agree(QUICK_SEED) && all_cases(pair, QUICK_SEED, calls, 0)
}

/// The model alone, with cuts, under the two settings that are not the board's and that no library has.
fn settings(calls: u64) -> bool {
    [Setting::AllSoft, Setting::HardRule].into_iter().all(|setting| {
        println!("the model alone, {setting:?}: no joining, {} rooms", setting.rooms());
        let model = Mock(Under(setting));
        let mut driver = Driver::new(Pair { library: &model, model: Some(&model) });
        orders(&mut driver, QUICK_SEED, calls) && reached(&driver, calls >= words::SETTING_CALLS)
    })
}

/// The fixed cases, the sweep over tables, and orders for at least so many calls. What is on the list and was not reached fails the
/// run if it had this many calls.
fn all_cases(pair: Pair, seed: u64, calls: u64, enough: u64) -> bool {
    let mut driver = Driver::new(pair);
    for (run, what) in [
        (
            fixed::run(pair, &mut driver.cover),
            "fixed cases: rows as document 01 and requests a, b and d have them",
        ),
        (paper::run(pair, &mut driver.cover), "the source paper's figures 3 and 2b, with its numbers"),
        (
            sweep::run(pair, &mut driver.cover),
            "tables: broken in every way in every slot, and at every bound",
        ),
        (writer::run(pair.library), "the writer: every field of a record at its bounds, and random calls"),
    ] {
        match run {
            Ok(made) => println!("{what}, {made} calls"),
            Err((call, wrong)) => {
                println!("{what}: at call {call}, {wrong}");
                return false;
            }
        }
    }
    orders(&mut driver, seed, calls) && reached(&driver, calls >= enough)
}

/// Runs orders for at least so many calls, with a line of progress every few seconds.
fn orders(driver: &mut Driver, seed: u64, calls: u64) -> bool {
    let start = Instant::now();
    let mut last = start;
    driver.show_seeds = std::env::var_os("SHOW_SEEDS").is_some();
    let result = driver.run(seed, calls, &mut |sums| {
        if last.elapsed() > Duration::from_secs(5) {
            let left = start.elapsed().mul_f64(calls.saturating_sub(sums.calls) as f64 / sums.calls as f64);
            println!("  {} of {calls} calls, {} orders, {left:.0?} left", sums.calls, sums.orders);
            last = Instant::now();
        }
    });
    if let Err(failed) = result {
        report(driver.pair, *failed);
        return false;
    }
    let sums = &driver.sums;
    let speed = sums.calls as f64 / start.elapsed().as_secs_f64();
    println!("{} calls in {} orders, seed {seed}: no difference", sums.calls, sums.orders);
    println!(
        "{} orders drained to the last patch, {} stuck; {speed:.0} calls a second",
        sums.drained, sums.stuck
    );
    true
}

/// Prints what was reached; false when something was not, though there were calls enough for it.
fn reached(driver: &Driver, enough: bool) -> bool {
    let setting = driver.pair.library.setting();
    driver.cover.print(setting);
    let missing = driver.cover.missing(setting);
    for name in &missing {
        println!("NOT REACHED: {name}");
    }
    if !missing.is_empty() && !enough {
        println!(
            "{} on the list not reached: fewer than {ENOUGH_CALLS} calls are too few for all of it",
            missing.len()
        );
    }
    missing.is_empty() || !enough
}

fn report(pair: Pair, failed: Failed) {
    println!("difference in the order of seed {} (again: `-- one {}`)", failed.seed, failed.seed);
    let length = failed.order.steps.len();
    let (order, failure) = shrink::shrink(pair, failed.order, failed.failure);
    println!("{length} calls, shrunk to {}:", order.steps.len());
    shrink::print(&order, &failure);
}

/// Runs the order of one seed again and says each call before it is made.
fn one(pair: Pair, seed: u64) -> bool {
    let mut driver = Driver::new(pair);
    driver.show_calls = true;
    match driver.order(seed) {
        Ok(()) => true,
        Err(failed) => {
            report(pair, *failed);
            false
        }
    }
}

fn pasted_orders(pair: Pair) -> bool {
    let mut passed = true;
    for (i, order) in pasted::orders().iter().enumerate() {
        match run::replay(pair, order) {
            None => println!("pasted order {}: no difference", i + 1),
            Some(failure) => {
                passed = false;
                println!("pasted order {}:", i + 1);
                shrink::print(order, &failure);
            }
        }
    }
    passed
}

#[cfg(test)]
mod tests {
    use super::*;
    use crate::judge::cover::Cover;
    use crate::model::replay::Replay;
    use crate::traces::sums;

    fn cases_pass(library: &dyn library::calls::Library) {
        let pair = Pair { library, model: Some(&Mock(Right)) };
        let mut cover = Cover::default();
        assert_eq!(fixed::run(pair, &mut cover).map_err(|(_, what)| what).err(), None);
        assert_eq!(paper::run(pair, &mut cover).map_err(|(_, what)| what).err(), None);
        assert_eq!(sweep::run(pair, &mut cover).map_err(|(_, what)| what).err(), None);
        assert_eq!(writer::run(library).map_err(|(_, what)| what).err(), None);
    }

    #[test]
    fn fixed_cases_and_tables_on_the_library() {
        cases_pass(&*through::library(Through::Link).expect("the library").1);
    }

    #[test]
    fn the_plain_program() {
        let (_, plain) = through::library(Through::Plain).expect("the plain program");
        cases_pass(&*plain);
        assert!(quick(Pair { library: &*plain, model: Some(&Mock(Right)) }, Through::Plain));
    }

    #[test]
    fn the_other_settings() {
        assert!(settings(words::SETTING_CALLS));
    }

    #[test]
    fn two_ways_to_the_largest_set() {
        assert!(twoways::agree(QUICK_SEED));
    }

    #[test]
    fn every_wrong_model_is_caught() {
        assert!(wrong::run(false));
    }

    #[test]
    fn the_model_prints_what_the_folder_expects() {
        assert!(folder::run(&Tested::Model, &folder::cases().expect("the folder")));
    }

    #[test]
    fn the_folder_reaches_all_that_is_on_the_list() {
        let mut sums = sums::Sums::default();
        for case in folder::cases().expect("the folder") {
            sums.see(&Right.printed(&case.input), None);
        }
        assert_eq!(sums.missing(), Vec::<String>::new());
    }

    #[test]
    fn every_wrong_replay_is_caught_by_the_folder() {
        assert!(traces::wrong::run(&folder::cases().expect("the folder")));
    }

    #[test]
    fn random_traces_reach_all_that_is_on_the_list() {
        assert!(many::run(&Tested::Model, sums::ENOUGH, 3));
    }
}
