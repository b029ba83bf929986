//! What the comparisons share: telling a difference, counting outcomes and
//! timing by turns.

use crate::sheets::Dice;
use std::fmt::Debug;
use std::time::Instant;

/// Many short runs: on a busy machine some of them are undisturbed.
const TIMED_RUNS: usize = 300;
const REPETITIONS: usize = 50;
/// For works that take longer: rounds, in each of which every work has a turn of
/// about so many nanoseconds.
const ROUNDS: usize = 25;
const TURN: f64 = 3e6;

/// What was asked, and the two answers that should have been equal.
pub struct Difference(pub String);

impl Difference {
    /// Prints it, and the text that it was found on.
    pub fn print(&self, text: &[u8]) {
        eprintln!("{}", self.0);
        eprintln!("The text, {} bytes:", text.len());
        eprint!("{}", shown(text));
    }
}

pub fn same<T: PartialEq + Debug>(asked: &str, given: T, expected: T) -> Result<(), Difference> {
    if given == expected {
        return Ok(());
    }
    Err(Difference(format!(
        "{asked}: {given:?}, expected {expected:?}"
    )))
}

/// The text with its line ends kept and other unprintable bytes escaped.
fn shown(text: &[u8]) -> String {
    let lines = text.split_inclusive(|&byte| byte == b'\n');
    lines
        .map(|line| format!("{}\n", line.escape_ascii()))
        .collect()
}

/// Bytes that stand in a slice before the call, other ones each time.
pub fn dirt(dice: &mut Dice, length: usize) -> Vec<u8> {
    let (first, step) = (dice.byte(), dice.byte());
    let value = |at: usize| first.wrapping_add(step.wrapping_mul(at as u8));
    (0..length).map(value).collect()
}

/// Cells that stand in a slice before the call; now and then all 0 or all ones.
pub fn dirty_cells(dice: &mut Dice, length: usize) -> Vec<u64> {
    let fill = |cell: u64| vec![cell; length];
    match dice.below(8) {
        0 => fill(0),
        1 => fill(u64::MAX),
        _ => {
            let bytes = dirt(dice, 16);
            let number = |at: usize| u64::from_le_bytes(bytes[at..at + 8].try_into().unwrap());
            let (first, step) = (number(0), number(8) | 1);
            let cells = (0..length as u64).map(|at| first.wrapping_add(step.wrapping_mul(at)));
            cells.collect()
        }
    }
}

/// How often each number was given: 0 for an accepted call, or a refusal's.
pub struct Outcomes {
    name: &'static str,
    numbers: &'static [u8],
    counts: Vec<usize>,
}

impl Outcomes {
    /// `numbers` are those that a run must meet.
    pub fn new(name: &'static str, numbers: &'static [u8]) -> Outcomes {
        let counts = vec![0; numbers.len()];
        Outcomes {
            name,
            numbers,
            counts,
        }
    }

    /// Counts a number, which fails if it is none of those there can be.
    pub fn add(&mut self, number: u64) -> Result<(), Difference> {
        let place = self.numbers.iter().position(|&n| u64::from(n) == number);
        let place = place.ok_or(Difference(format!("{}: number {number}", self.name)))?;
        self.counts[place] += 1;
        Ok(())
    }

    pub fn accepted(&self) -> usize {
        self.counts[0]
    }

    pub fn print(&self) {
        println!("  {}:", self.name);
        for (number, count) in self.numbers.iter().zip(&self.counts) {
            let outcome = match number {
                0 => "accepted".to_owned(),
                _ => format!("refusal {number}"),
            };
            println!("    {outcome:<10} {count:>6}");
        }
    }

    /// Gives whether every outcome occurred, and prints those that did not.
    pub fn all_met(&self) -> bool {
        let counted = self.numbers.iter().zip(&self.counts);
        let missing = counted.filter(|(_, &count)| count == 0);
        let missing: Vec<u8> = missing.map(|(&number, _)| number).collect();
        if !missing.is_empty() {
            let name = self.name;
            eprintln!("{name}: numbers {missing:?} did not occur: take more.");
        }
        missing.is_empty()
    }
}

/// What sheets or trees show, and how many of them do.
pub type Counted = (&'static str, usize);

pub fn print_counted(counted: &[Counted]) {
    for (feature, count) in counted {
        println!("    {count:>6} {feature}");
    }
}

/// Gives whether everything occurred, and prints what did not.
pub fn all_occurred(name: &str, counted: &[Counted]) -> bool {
    let missing = counted.iter().filter(|(_, count)| *count == 0);
    let missing: Vec<&str> = missing.map(|(feature, _)| *feature).collect();
    if !missing.is_empty() {
        eprintln!("{name}: {missing:?} did not occur: take more.");
    }
    missing.is_empty()
}

pub fn how_timed() -> String {
    format!("the best of {TIMED_RUNS} runs of {REPETITIONS} repetitions each")
}

/// The best time of each of several works, in nanoseconds for a repetition.
/// They are run by turns, so that all meet the same state of the machine.
pub fn best_by_turns(works: usize, mut work: impl FnMut(usize)) -> Vec<f64> {
    let mut best = vec![f64::INFINITY; works];
    for _ in 0..TIMED_RUNS {
        for (turn, best) in best.iter_mut().enumerate() {
            *best = best.min(nanoseconds(REPETITIONS, || work(turn)));
        }
    }
    best
}

pub fn how_timed_by_rounds() -> String {
    format!("the median of {ROUNDS} rounds, in which library and peer take turns")
}

/// For each of several works its time in each round, in nanoseconds.
pub fn times_by_rounds(works: usize, mut work: impl FnMut(usize)) -> Vec<Vec<f64>> {
    let mut repetitions = Vec::new();
    for turn in 0..works {
        // The first time fills caches and claims memory.
        work(turn);
        let once = nanoseconds(1, || work(turn));
        repetitions.push((TURN / once).clamp(1.0, 1_000.0) as usize);
    }
    let mut times = vec![Vec::new(); works];
    for _ in 0..ROUNDS {
        for (turn, times) in times.iter_mut().enumerate() {
            times.push(nanoseconds(repetitions[turn], || work(turn)));
        }
    }
    times
}

pub fn median(mut numbers: Vec<f64>) -> f64 {
    numbers.sort_by(f64::total_cmp);
    numbers[numbers.len() / 2]
}

/// The median over the rounds of one work's time over another's.
pub fn median_ratio(times: &[f64], others: &[f64]) -> f64 {
    let ratios = times.iter().zip(others).map(|(time, other)| time / other);
    median(ratios.collect())
}

/// One repetition's time in a run.
fn nanoseconds(repetitions: usize, mut work: impl FnMut()) -> f64 {
    let begun = Instant::now();
    for _ in 0..repetitions {
        work();
    }
    begun.elapsed().as_nanos() as f64 / repetitions as f64
}
