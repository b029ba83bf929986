//! Compares the library with the peer on generated input, then times both on
//! fixed input.
//!
//! Arguments, all optional: a part, `reading`, `pricing`, `finding` or `sliding`
//! (all without it), then a seed and a number of inputs for each part.

mod answers;
mod bar_lines;
mod facts;
mod features;
mod finding;
mod fixed;
mod grammars;
mod harness;
mod heads;
mod lengths;
mod library;
mod listing;
mod lists;
mod moments;
mod multipliers;
mod ordering;
mod orders;
mod playing;
mod pricing;
mod reading;
mod rounded;
mod rounding;
mod rules;
mod search;
mod sheets;
mod slides;
mod sliding;
mod takes;
mod tap_refusals;
mod tapped;
mod tapping;
mod timing;
mod trees;
mod tunes;
mod twins;

use std::process::ExitCode;
use trees::peer;

const DEFAULT_SEED: u64 = 20_160;

/// A name, what takes a seed and a number of inputs and gives whether all went
/// well, and the number of inputs unless one is given.
type Part = (&'static str, fn(u64, usize) -> bool, usize);

const PARTS: [Part; 4] = [
    ("reading", reading::run, 20_000),
    ("pricing", pricing::run, 20_000),
    ("finding", finding::run, 200_000),
    ("sliding", sliding::run, 100_000),
];

fn main() -> ExitCode {
    let given: Vec<String> = std::env::args().skip(1).collect();
    let Some((parts, seed, count)) = arguments(&given) else {
        eprintln!("usage: compare [reading | pricing | finding | sliding] [SEED [COUNT]]");
        return ExitCode::from(2);
    };
    let well = |(_, run, inputs): &Part| run(seed, count.unwrap_or(*inputs));
    if parts.iter().all(well) {
        ExitCode::SUCCESS
    } else {
        ExitCode::FAILURE
    }
}

fn arguments(given: &[String]) -> Option<(Vec<Part>, u64, Option<usize>)> {
    let named = |part: &&Part| given.first().is_some_and(|name| name == part.0);
    let (parts, numbers) = match PARTS.iter().find(named) {
        Some(part) => (vec![*part], &given[1..]),
        None => (PARTS.to_vec(), given),
    };
    let (seed, count) = match numbers {
        [] => (DEFAULT_SEED, None),
        [seed] => (seed.parse().ok()?, None),
        [seed, count] => (seed.parse().ok()?, Some(count.parse().ok()?)),
        _ => return None,
    };
    Some((parts, seed, count))
}
