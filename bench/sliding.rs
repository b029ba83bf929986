//! Slides generated sheets over multipliers that rise. Each tree found is compared
//! with the peer's, and all of a sheet together are held to what is promised of
//! the multiplier.

use crate::facts::{self, Answer, Found};
use crate::finding::{compare_call, Expected};
use crate::harness::{same, Difference, Outcomes};
use crate::listing;
use crate::multipliers::{changes, usual, with_multiplier};
use crate::peer::{self, Refusal, Sheet};
use crate::playing::Sorts;
use crate::search::Search;
use crate::sheets::Dice;
use crate::slides::Slides;
use crate::takes;

/// Rules tried in listing the trees of a sheet: enough for most small sheets.
const MOST_TRIES: usize = 100_000;

/// Gives whether no difference was found, every fact held and everything that is
/// counted occurred.
pub fn run(seed: u64, texts: usize) -> bool {
    println!("Comparing trees found as the multiplier grows, on {texts} texts, seed {seed}.");
    let Some(counts) = compare_all(seed, texts) else {
        return false;
    };
    println!("No difference, and every fact held. By outcome:");
    counts.outcomes.print();
    counts.sorts.print();
    counts.slides.print();
    let (outcomes, sorts) = (counts.outcomes.all_met(), counts.sorts.all_met());
    counts.slides.all_met() && outcomes && sorts
}

struct Counts {
    outcomes: Outcomes,
    sorts: Sorts,
    slides: Slides,
}

/// Stops at the first difference and prints it.
fn compare_all(seed: u64, texts: usize) -> Option<Counts> {
    let mut dice = Dice::new(seed);
    let mut search = Search::default();
    let mut counts = Counts {
        outcomes: Outcomes::new("calls", &[0, 1, 2, 3, 4, 5, 6, 7, 8, 11, 17, 18, 19]),
        sorts: Sorts::default(),
        slides: Slides::default(),
    };
    for at in 1..=texts {
        let case = takes::case(&mut dice);
        let compared = match peer::read(&case.text) {
            Ok(sheet) => compare(&mut dice, &mut search, &case.text, &sheet, &mut counts),
            Err(refusal) => compare_refused(&mut dice, &case.text, refusal, &mut counts),
        };
        if let Err(difference) = compared {
            eprintln!("Text {at}, seed {seed}, made as '{}'.", case.made);
            difference.print(&case.text);
            return None;
        }
    }
    Some(counts)
}

/// A text that is refused is refused alike with every multiplier. Where its first
/// line isn't five bytes it has none.
fn compare_refused(
    dice: &mut Dice,
    text: &[u8],
    (number, line): Refusal,
    counts: &mut Counts,
) -> Result<(), Difference> {
    let other = dice.below(65_536) as u16;
    for multiplier in [0, other, u16::MAX] {
        let Some(text) = with_multiplier(text, multiplier) else {
            return Ok(());
        };
        let refusal = peer::read(&text).err();
        same("the peer's refusal", refusal, Some((number, line)))?;
        let expected = Expected::refusal(number, line);
        let lengths = (dice.pick(&[0, 1, 200]), dice.pick(&[0, 1, 500]));
        compare_call(dice, &text, lengths, &expected, &mut counts.outcomes)?;
    }
    counts.slides.add_refused();
    Ok(())
}

/// An accepted sheet, with every multiplier.
fn compare(
    dice: &mut Dice,
    search: &mut Search,
    text: &[u8],
    sheet: &Sheet,
    counts: &mut Counts,
) -> Result<(), Difference> {
    let listed = listing::pairs(sheet, MOST_TRIES);
    let around = listed.as_ref().map(changes).unwrap_or_default();
    let mut multipliers = usual(dice, sheet.multiplier);
    multipliers.extend(&around);
    let mut answers = Vec::new();
    for multiplier in multipliers {
        let found = find(dice, search, (text, multiplier), &mut counts.outcomes);
        let found = found.map_err(|Difference(difference)| {
            Difference(format!("With multiplier {multiplier}: {difference}"))
        })?;
        answers.push(Answer { multiplier, found });
    }
    counts.sorts.add(text);
    counts.slides.add(&answers);
    if let Some(pairs) = &listed {
        counts.slides.add_listed(&answers, pairs, around.len());
    }
    // A tree found is valid with every multiplier, so of a sheet with more trees than
    // can be listed those found are known.
    let known = listed.unwrap_or_else(|| answers.iter().filter_map(Answer::pair).collect());
    facts::hold(&answers, &known)
}

/// Compares a call with slices of the required lengths and gives what was found.
fn find(
    dice: &mut Dice,
    search: &mut Search,
    (text, multiplier): (&[u8], u16),
    outcomes: &mut Outcomes,
) -> Result<Option<Found>, Difference> {
    let text = with_multiplier(text, multiplier).expect("an accepted text has a head");
    let refused = |refusal| Difference(format!("the peer's refusal: {refusal:?}"));
    let sheet = peer::read(&text).map_err(refused)?;
    same("the peer's multiplier", sheet.multiplier, multiplier)?;
    let (bytes, cells) = (peer::tree_bytes(&sheet), peer::work_cells(&sheet));
    let expected = Expected::found(search, &sheet)?;
    let lengths = (bytes as usize, cells as usize);
    compare_call(dice, &text, lengths, &expected, outcomes)?;
    // The library's answer is the one expected by now.
    let ([number, _, _, r, d, total], tree) = (expected.answer, expected.tree);
    Ok((number == 0).then_some(Found { r, d, total, tree }))
}
