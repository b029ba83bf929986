//! Compares the library's reading of a sheet with the peer's on generated texts and on
//! the tapped twins of plain ones, then times both on two fixed sheets.

use crate::answers::Answers;
use crate::harness::{self, all_occurred, best_by_turns, same, Difference, Outcomes};
use crate::playing::BySort;
use crate::rounded::{Limits, Rounded};
use crate::sheets::{self, lines_of, Case, Dice, Outcome};
use crate::tapped::Tapped;
use crate::{fixed, library, peer, twins};
use std::hint::black_box;

/// Each onset's unit is a reading of its own, so all onsets are asked for on
/// one accepted sheet in so many.
const ALL_ONSETS_EVERY: usize = 8;

/// Gives whether no difference was found, and every outcome and everything that is
/// counted of rounding and of taps occurred.
pub fn run(seed: u64, texts: usize) -> bool {
    println!("Comparing readings of the library and the peer on {texts} texts, seed {seed}.");
    let Some(counts) = compare_all(seed, texts) else {
        return false;
    };
    println!("No difference. By outcome:");
    counts.outcomes.print();
    println!("  onset units compared: {}", counts.units);
    println!("  bar lines compared: {}", counts.bar_lines);
    println!("  tapped twins of plain texts: {:?}", counts.twins());
    counts.rounded.print();
    counts.limits.print();
    counts.tapped.print();
    time_all();
    let met = [
        counts.outcomes.all_met(),
        counts.rounded.all_met(),
        counts.limits.all_met(),
        counts.tapped.all_met(),
        all_occurred("twins", &counts.twins()),
    ];
    !met.contains(&false)
}

// Comparing.

struct Counts {
    outcomes: Outcomes,
    units: usize,
    bar_lines: usize,
    /// Accepted and refused.
    twins: [usize; 2],
    rounded: BySort<Rounded>,
    limits: BySort<Limits>,
    tapped: Tapped,
}

impl Counts {
    fn add_asked(&mut self, (units, bar_lines): (usize, usize)) {
        self.units += units;
        self.bar_lines += bar_lines;
    }

    fn twins(&self) -> [(&'static str, usize); 2] {
        [("accepted", self.twins[0]), ("refused", self.twins[1])]
    }
}

/// Stops at the first difference and prints it.
fn compare_all(seed: u64, texts: usize) -> Option<Counts> {
    let mut dice = Dice::new(seed);
    let mut counts = Counts {
        outcomes: Outcomes::new("texts read", &[0, 1, 2, 3, 4, 5, 6, 7, 8, 17, 18, 19]),
        units: 0,
        bar_lines: 0,
        twins: [0; 2],
        rounded: BySort::default(),
        limits: BySort::default(),
        tapped: Tapped::default(),
    };
    for at in 1..=texts {
        let case = sheets::case(&mut dice);
        if let Err(difference) = compare(&case, &mut counts) {
            eprintln!("Text {at}, seed {seed}, made as '{}'.", case.made);
            difference.print(&case.text);
            return None;
        }
    }
    Some(counts)
}

fn compare(case: &Case, counts: &mut Counts) -> Result<(), Difference> {
    let text = &case.text;
    let answers = Answers::of(text);
    let outcome = answers.outcome;
    if let Some(aim) = case.aim {
        same("the peer's refusal and line", outcome, aim)?;
    }
    let all = counts.outcomes.accepted() % ALL_ONSETS_EVERY == 0;
    counts.add_asked(answers.compare(text, all)?);
    if let Some((twin, aim)) = twins::twin(text, outcome) {
        let difference = |Difference(text)| Difference(format!("The tapped twin: {text}"));
        compare_twin(answers, &twin, aim, counts).map_err(difference)?;
    }
    if outcome == (0, 0) {
        counts.rounded.add(text);
    }
    counts.limits.add(text, outcome);
    counts.tapped.add(text, outcome);
    counts.outcomes.add(outcome.0.into())
}

/// Holds peer and library to the answers of the plain text.
fn compare_twin(
    mut expected: Answers,
    twin: &[u8],
    outcome: Outcome,
    counts: &mut Counts,
) -> Result<(), Difference> {
    expected.outcome = outcome;
    same("the peer", &Answers::of(twin), &expected)?;
    counts.twins[usize::from(outcome != (0, 0))] += 1;
    counts.add_asked(expected.compare(twin, false)?);
    Ok(())
}

// Timing.

type Entry = fn(&[u8]) -> u64;

/// Kept out of line, as the library's entries are.
#[inline(never)]
fn peer_work_cells(text: &[u8]) -> u64 {
    peer::read(text).map_or(0, |sheet| peer::work_cells(&sheet))
}

#[inline(never)]
fn peer_tree_bytes(text: &[u8]) -> u64 {
    peer::read(text).map_or(0, |sheet| peer::tree_bytes(&sheet))
}

/// A name, the library's entry and the peer's. Beside reading, the first takes a
/// product, the second the lengths that the divisions reach and a bar's onsets.
const TIMED: [(&str, [Entry; 2]); 2] = [
    (
        "reading (tree bytes)",
        [library::tree_bytes, peer_tree_bytes],
    ),
    (
        "reading and the lengths (work cells)",
        [library::work_cells, peer_work_cells],
    ),
];

/// A fixed sheet, and what its times are named by beside the entry.
type Timed = (&'static str, fn() -> Vec<u8>);

const SHEETS: [Timed; 2] = [("", fixed::plain), (", tapped sheet", fixed::tapped)];

fn time_all() {
    let texts = SHEETS.map(|(_, text)| text());
    let lines = texts.each_ref().map(|text| lines_of(text).len());
    println!(
        "Timing on a plain sheet and on a tapped one, each of 512 onsets, {lines:?} lines, \
         {:?} bytes: {}. The texts are not changed between runs.",
        texts.each_ref().map(Vec::len),
        harness::how_timed()
    );
    let of_text = 2 * TIMED.len();
    // All by turns, since a busy spell may outlast the turns of one sheet.
    let best = best_by_turns(texts.len() * of_text, |turn| {
        let entry = TIMED[turn % of_text / 2].1[turn % 2];
        black_box(entry(black_box(&texts[turn / of_text])));
    });
    for (((sort, _), lines), best) in SHEETS.iter().zip(lines).zip(best.chunks(of_text)) {
        for ((name, _), best) in TIMED.iter().zip(best.chunks(2)) {
            println!(
                "  {name}{sort}: library {:.2} ns a line, peer {:.2} ns a line, \
                 library / peer {:.2}",
                best[0] / lines as f64,
                best[1] / lines as f64,
                best[0] / best[1]
            );
        }
    }
}
