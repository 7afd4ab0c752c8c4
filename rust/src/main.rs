//! Compares the proved bench with documents 01 and 02 written once more: `guard-bench-again SEED CASES COMMAND...`, with so many
//! random cases, and as many of the written form, after those that are always tried; the command starts the server that has the bench.

mod agreement;
mod answer;
#[cfg(test)]
mod by_hand;
mod call;
mod cases;
mod compare;
mod in_turn;
mod paper;
mod server;
mod tally;
#[cfg(test)]
mod viable;
#[cfg(test)]
mod written_by_hand;

use compare::{Bench, Stop};
use server::Server;
use std::process::ExitCode;

/// Enough for the deepest tree of 1,024 nodes many times over.
const STACK: usize = 256 << 20;

fn main() -> ExitCode {
    let words: Vec<String> = std::env::args().skip(1).collect();
    let said = std::thread::Builder::new()
        .stack_size(STACK)
        .spawn(move || run(&words))
        .map(|thread| thread.join());
    match said {
        Ok(Ok(Ok(line))) => {
            println!("{line}");
            ExitCode::SUCCESS
        }
        Ok(Ok(Err(Stop(why)))) => {
            println!("{why}");
            ExitCode::FAILURE
        }
        // a panic has said where it was
        _ => {
            println!("rust: the comparison itself failed (seed and cases as given)");
            ExitCode::FAILURE
        }
    }
}

fn run(words: &[String]) -> Result<String, Stop> {
    let usage = || Stop("guard-bench-again SEED CASES COMMAND...".into());
    let [seed, wanted, command @ ..] = words else {
        return Err(usage());
    };
    let seed: u64 = seed.parse().map_err(|_| usage())?;
    let wanted: u64 = wanted.parse().map_err(|_| usage())?;
    let mut bench = Bench::new(Server::start(command)?, seed);
    bench.every()?;
    let random = bench.compared + wanted;
    while bench.compared < random {
        bench.batch()?;
    }
    bench.every_written()?;
    let random = bench.compared + wanted;
    while bench.compared < random {
        bench.written_batch()?;
    }
    bench.end()
}
