//! Sheets to compare the search on: small ones that mix what a search can get
//! wrong, many of them with several least trees, a few large or long ones, small
//! ones with a damaged text, and the texts that readings are compared on.

use crate::bar_lines::{any_tapped, BarLines};
use crate::grammars::{grammar, light_grammar};
use crate::lists::{bar_lines, played, sheet_text, units};
use crate::peer::{self, BAR_UNITS};
use crate::sheets::{self, Case, Dice};

/// The work cells required of a sheet: few enough for many comparisons, and
/// more only now and then.
const MOST_CELLS: u64 = 20_000;
const LARGE_EVERY: usize = 160;

/// The next text to find a tree of.
pub fn case(dice: &mut Dice) -> Case {
    let large = dice.one_in(LARGE_EVERY);
    loop {
        let case = match dice.below(10) {
            0 => sheets::case(dice),
            1 => damaged(dice),
            2..=4 if large => valid("long sheet", long(dice)),
            _ if large => valid("large sheet", sheet_text(dice)),
            _ => valid("small sheet", small(dice)),
        };
        if large || cells(&case.text) <= MOST_CELLS {
            return case;
        }
    }
}

fn cells(text: &[u8]) -> u64 {
    peer::read(text).map_or(0, |sheet| peer::work_cells(&sheet))
}

fn valid(made: &'static str, text: Vec<u8>) -> Case {
    let aim = Some((0, 0));
    Case { text, made, aim }
}

/// A small sheet with some digits changed or badly formed.
fn damaged(dice: &mut Dice) -> Case {
    let mut text = small(dice);
    let (made, aim) = sheets::damage(dice, &mut text);
    Case { text, made, aim }
}

// Small sheets.

/// A sheet of one to six bars with few onsets, so that some bars are empty.
pub fn small(dice: &mut Dice) -> Vec<u8> {
    if dice.one_in(5) {
        return even(dice);
    }
    let bars = dice.pick(&[1, 1, 2, 2, 3, 4, 6]);
    let most = dice.pick(&[1, 2, 4, 6, 10]);
    let onsets = dice.between(1, most);
    let scale = scale(dice);
    let (lines, bar_lines) = (grammar(dice, scale), bar_lines(dice, bars));
    let units = units(dice, bars, onsets);
    played(dice, lines, &bar_lines, &units)
}

/// The heaviest weight and the multiplier. Most often such that weights and
/// distances outbid each other, so that a search has to weigh them.
fn scale(dice: &mut Dice) -> (usize, u16) {
    let any = dice.below(65_536) as u16;
    match dice.below(8) {
        0 => (dice.pick(&[12, 65_535]), 0),
        1 => (dice.pick(&[3, 65_535]), u16::MAX),
        2 => (dice.pick(&[0, 12, 65_535]), any),
        _ => dice.pick(&[(3, 1_000), (12, 300), (40, 20), (100, 40), (3_000, 1)]),
    }
}

// Sheets with several least trees.

const BAR: usize = BAR_UNITS as usize;

/// A small sheet where many trees have one total: distances and what rules cost
/// are small multiples of one number.
pub fn even(dice: &mut Dice) -> Vec<u8> {
    if dice.one_in(2) {
        let (bars, onsets) = (dice.between(2, 4), dice.between(1, 5));
        return late(dice, bars, onsets);
    }
    let bars = dice.pick(&[1, 1, 2, 2, 3]);
    let onsets = dice.between(1, 6);
    let grain = BAR / dice.pick(&[4, 6, 8, 12, 16, 24, 48]);
    let multiplier = dice.pick(&[0, grain / 2, grain, grain, 2 * grain]);
    let heaviest = dice.below(4);
    let lines = grammar(dice, (heaviest, multiplier as u16));
    let mut units = units(dice, bars, onsets);
    for unit in &mut units {
        *unit -= *unit % grain;
    }
    let bar_lines = exact(dice, bars);
    played(dice, lines, &bar_lines, &units)
}

/// Bar lines of either sort with a time for every unit.
fn exact(dice: &mut Dice, bars: usize) -> BarLines {
    match dice.below(3) {
        0 => any_tapped(dice, bars, BAR),
        1 => BarLines::even(bars, BAR),
        _ => BarLines::even(bars, 100 * BAR),
    }
}

/// The same with many bars.
fn long(dice: &mut Dice) -> Vec<u8> {
    let bars = dice.between(8, 64);
    let onsets = dice.between(bars, 2 * bars);
    late(dice, bars, onsets)
}

/// Such a sheet with its onsets late in the bars, so that a division costs about as
/// much as it saves where nothing is carried over the bar line.
fn late(dice: &mut Dice, bars: usize, onsets: usize) -> Vec<u8> {
    let parts = dice.pick(&[4, 6, 8, 8, 12]);
    let grain = BAR / parts;
    let multiplier = dice.pick(&[grain, 2 * grain]);
    let lines = light_grammar(dice, multiplier as u16);
    let mut units = Vec::new();
    for _ in 0..onsets {
        units.push(dice.below(bars - 1) * BAR + dice.between(parts / 2, parts - 1) * grain);
    }
    // Nothing is carried out of the last bar, so there an onset may be anywhere.
    if dice.one_in(2) {
        units.push((bars - 1) * BAR + dice.below(parts) * grain);
    }
    units.sort_unstable();
    let bar_lines = exact(dice, bars);
    played(dice, lines, &bar_lines, &units)
}
