//! Compares the proved library with the plain book on random lists of calls.
//!
//! `compare [--seed SEED] [--lists COUNT]` makes the calls of so many lists and
//! prints what it tried. `compare --list SEED` makes those of one list.
//! The exit status is 1 where a call differs, or too little was tried.

mod call;
mod difference;
mod entries;
mod expected;
mod halves;
mod history;
mod images;
mod list;
mod periods;
mod random;
mod tally;
#[cfg(test)]
mod tests;
mod years;

use call::Call;
use difference::compare;
use random::Random;
use std::env;
use std::process::ExitCode;
use tally::Tally;

const USAGE: &str = "usage: compare [--seed SEED] [--lists COUNT] | compare --list SEED";

struct Options {
    seed: u64,
    lists: u64,
    /// The one list to compare.
    list: Option<u64>,
}

fn main() -> ExitCode {
    let done = options(env::args().skip(1)).and_then(|options| match options.list {
        Some(list) => compare_list(list),
        None => compare_lists(options.seed, options.lists),
    });
    match done {
        Ok(()) => ExitCode::SUCCESS,
        Err(message) => {
            eprintln!("{message}");
            ExitCode::FAILURE
        }
    }
}

fn options(mut words: impl Iterator<Item = String>) -> Result<Options, String> {
    let mut options = Options {
        seed: 1,
        lists: 6_600,
        list: None,
    };
    while let Some(word) = words.next() {
        let number = words.next().and_then(|number| number.parse().ok());
        let number = number.ok_or(USAGE)?;
        match word.as_str() {
            "--seed" => options.seed = number,
            "--lists" => options.lists = number,
            "--list" => options.list = Some(number),
            _ => return Err(USAGE.into()),
        }
    }
    Ok(options)
}

fn compare_list(list: u64) -> Result<(), String> {
    let mut tally = Tally::new();
    compare(list, Call::proved, &mut tally).map_err(|difference| difference.to_string())?;
    println!("list {list}: {} calls, no difference", tally.total());
    Ok(())
}

fn compare_lists(seed: u64, lists: u64) -> Result<(), String> {
    println!("seed {seed}");
    let mut seeds = Random::new(seed);
    let mut tally = Tally::new();
    for done in 0..lists {
        if done % 250 == 0 {
            eprintln!("{done} of {lists} lists, {} calls", tally.total());
        }
        compare(seeds.next(), Call::proved, &mut tally).map_err(|d| d.to_string())?;
    }
    println!("{tally}");
    println!("{} calls in {lists} lists, no difference", tally.total());
    let (what, times) = tally.least();
    println!("tried least: {what}, {times} times");
    match tally.shortages() {
        shortages if shortages.is_empty() => Ok(()),
        shortages => Err(format!("too little was tried:\n{}", shortages.join("\n"))),
    }
}
