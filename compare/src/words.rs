//! The words of the command line: what is asked for, and which way to what is under test.

use crate::bench::Measured;
use crate::library::through::Through;

pub const USAGE: &str = "\
usage: compare COMMAND [WAY]
  quick             fixed cases, the source paper's figures, tables, the writer, then calls from a fixed seed
  long N [SEED]     the same with at least N calls
  one SEED          the order of one seed again, call by call
  pasted            the orders pasted into src/cases/pasted.rs
  wrong [show]      wrong models stand in for the library, and wrong replays for the program; each must be caught
  settings [N]      the model alone, with cuts, under the two settings without joining; 100,000 calls each, or N
  paper             the source paper's figures 3 and 2b: its numbers beside ours
  gain [N]          what ends a run of one-byte changes on one page and on eight, without joining and under test;
                    stopped after 1,000,000, or N
  once [ORDERS [joint | parted]]
                    the benchmark's calls once, for a tool that counts instructions; the joint ones alone, or each as its two
  bench             time a call of the library and of the plain program, both behind a pipe
  folder            every case of the folder traces/ through replay
  traces [N [SEED]] random traces, damaged ones among them, through replay; a quick run's, or N
  replay [N]        time and memory of replay on a trace of 1,000,000 records, or N
ways, other than linked in
  --pipe            the library behind a pipe
  --plain           the plain program, behind a pipe, in the library's place
  --model           the model in the library's place, and in replay's";

/// Calls under each of the other settings: enough to reach all that is on their lists.
pub const SETTING_CALLS: u64 = 100_000;
const LONG_SEED: u64 = 2;
const ORDERS: u64 = 100;
const GAIN_CHANGES: u64 = 1_000_000;
/// A process for each.
const QUICK_TRACES: u64 = 20_000;
const TRACES_SEED: u64 = 1;
const LONG_TRACE: u64 = 1_000_000;

pub enum Command {
    Help,
    Quick,
    Long { calls: u64, seed: u64 },
    One { seed: u64 },
    Pasted,
    Wrong { show: bool },
    Settings { calls: u64 },
    Paper,
    Gain { most: u64 },
    Once { orders: u64, measured: Measured },
    Bench,
    Folder,
    Traces { traces: u64, seed: u64 },
    Replay { records: u64 },
}

impl Command {
    /// Whether replay is under test, and not the library.
    pub fn is_of_replay(&self) -> bool {
        matches!(self, Command::Folder | Command::Traces { .. } | Command::Replay { .. })
    }
}

/// What the words ask for; or what is wrong with them.
pub fn asked(words: &[String]) -> Result<(Command, Through), String> {
    let mut way = None;
    let mut plain = Vec::new();
    for word in words {
        match word.as_str() {
            "--help" | "-h" => return Ok((Command::Help, Through::Link)),
            "--pipe" => way = Some(Through::Pipe),
            "--plain" => way = Some(Through::Plain),
            "--model" => way = Some(Through::Model),
            flag if flag.starts_with('-') => return Err(format!("there is no {flag}")),
            word => plain.push(word),
        }
    }
    let command = match plain[..] {
        [] => return Err(String::from("no command")),
        ["quick"] => Command::Quick,
        ["long", calls] => Command::Long { calls: number(calls)?, seed: LONG_SEED },
        ["long", calls, seed] => Command::Long { calls: number(calls)?, seed: number(seed)? },
        ["one", seed] => Command::One { seed: number(seed)? },
        ["pasted"] => Command::Pasted,
        ["wrong"] => Command::Wrong { show: false },
        ["wrong", "show"] => Command::Wrong { show: true },
        ["paper"] => Command::Paper,
        ["gain"] => Command::Gain { most: GAIN_CHANGES },
        ["gain", most] => Command::Gain { most: number(most)? },
        ["settings"] => Command::Settings { calls: SETTING_CALLS },
        ["settings", calls] => Command::Settings { calls: number(calls)? },
        ["once"] => Command::Once { orders: ORDERS, measured: Measured::Single },
        ["once", orders] => Command::Once { orders: number(orders)?, measured: Measured::Single },
        ["once", orders, "joint"] => Command::Once { orders: number(orders)?, measured: Measured::Joint },
        ["once", orders, "parted"] => Command::Once { orders: number(orders)?, measured: Measured::Parted },
        ["bench"] => Command::Bench,
        ["folder"] => Command::Folder,
        ["traces"] => Command::Traces { traces: QUICK_TRACES, seed: TRACES_SEED },
        ["traces", traces] => Command::Traces { traces: number(traces)?, seed: TRACES_SEED },
        ["traces", traces, seed] => Command::Traces { traces: number(traces)?, seed: number(seed)? },
        ["replay"] => Command::Replay { records: LONG_TRACE },
        ["replay", records] => Command::Replay { records: number(records)? },
        _ => return Err(format!("there is no command \"{}\"", plain.join(" "))),
    };
    if command.is_of_replay() && matches!(way, Some(Through::Pipe | Through::Plain)) {
        return Err(String::from("replay is a program: there is one way to it"));
    }
    Ok((command, way.unwrap_or(Through::Link)))
}

fn number(word: &str) -> Result<u64, String> {
    word.parse().map_err(|_| format!("{word} is no number"))
}
