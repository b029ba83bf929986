//! Sheets for timing the search, always the same: tunes of any number of bars,
//! and the heaviest sheets.

use crate::bar_lines::BarLines;
use crate::lists::{eight_anywhere, leaf_of, played_at, units_by_bar};
use crate::moments::{first_times, FIXED_DURATION};
use crate::orders::Order;
use crate::peer::BAR_UNITS;
use crate::sheets::{self, Dice};

const BEAT: usize = BAR_UNITS as usize / 4;

// Tunes under a grammar of halves and thirds.

/// The head of each division, its weight and its parts. Names: bar, half, beat,
/// half of a beat, its half, third of a bar, third of a half, third of a beat.
const HALVES_AND_THIRDS: [(u8, u8, &[u8]); 12] = [
    (0, 2, &[1, 1]),
    (0, 9, &[5, 5, 5]),
    (1, 2, &[2, 2]),
    (1, 8, &[6, 6, 6]),
    (2, 2, &[3, 3]),
    (2, 5, &[7, 7, 7]),
    (3, 3, &[4, 4]),
    (3, 8, &[7, 7, 7]),
    (5, 4, &[6, 6]),
    (5, 6, &[7, 7, 7]),
    (6, 4, &[7, 7]),
    (7, 6, &[4, 4]),
];
/// The weight of a leaf of each n.
const LEAF_WEIGHTS: [u8; 4] = [2, 1, 7, 12];
const NAMES: u8 = 8;

/// Eight onsets a bar, each near its place: some tens of units, as people play.
pub fn tune(bars: usize) -> Vec<u8> {
    let mut dice = Dice::new(256);
    let mut lines = vec![vec![0x47, NAMES, 0, 0, 24]];
    for (head, weight, parts) in HALVES_AND_THIRDS {
        let mut line = vec![0x44, head, 0, weight, parts.len() as u8];
        line.extend(parts);
        lines.push(line);
    }
    for head in 0..NAMES {
        for (n, weight) in LEAF_WEIGHTS.into_iter().enumerate() {
            lines.push(vec![0x4C, head, 0, weight, n as u8]);
        }
    }
    let units = units_by_bar(&mut dice, bars, eight_in_beats);
    let bar_lines = BarLines::even(bars, FIXED_DURATION);
    let times = first_times(&units, &bar_lines);
    played_at(&mut dice, lines, &bar_lines, &times)
}

/// A bar of four beats of one, two, two and three onsets in any order.
fn eight_in_beats(dice: &mut Dice, left: usize) -> Vec<usize> {
    let mut beats: [&[usize]; 4] = [
        &[0],
        dice.pick(&[&[0, 6], &[0, 9], &[3, 6], &[0, 8]]),
        dice.pick(&[&[0, 6], &[0, 3], &[4, 8]]),
        dice.pick(&[&[0, 4, 8], &[0, 3, 6], &[0, 6, 9], &[3, 6, 9]]),
    ];
    dice.shuffle(&mut beats);
    let twelfths = beats.iter().enumerate();
    let places = twelfths.flat_map(|(beat, places)| {
        let left = left + beat * BEAT;
        places.iter().map(move |twelfth| left + twelfth * BEAT / 12)
    });
    places.map(|place| played_near(dice, place)).collect()
}

/// Within 120 units, and most often within 40.
fn played_near(dice: &mut Dice, place: usize) -> usize {
    let off: usize = (0..3).map(|_| dice.below(81)).sum();
    (place + off).saturating_sub(120)
}

// The heaviest sheets.

/// 64 rules of 16 nonterminals over 64 bars of eight onsets anywhere. The first
/// nonterminals, as many as `dividing`, have a division of each of their arities
/// into each other; leaves fill the rest. Few that divide much are heavier than
/// many that divide little: more rows are reached. The rules leave no room for
/// rests, so the first onset is at the front.
fn heaviest(dividing: usize, arities: impl Fn(usize) -> Vec<usize>) -> Vec<u8> {
    heaviest_in(Order::Grouped, dividing, arities)
}

/// The same with the rules in some order.
fn heaviest_in(order: Order, dividing: usize, arities: impl Fn(usize) -> Vec<usize>) -> Vec<u8> {
    const NONTERMINALS: usize = 16;
    const BARS: usize = 64;
    let mut dice = Dice::new(64);
    let mut rules = Vec::new();
    for head in 0..dividing {
        for arity in arities(head) {
            let mut line = light(sheets::division(&mut dice, dividing, arity), &mut dice);
            line[1] = head as u8;
            rules.push(line);
        }
    }
    for at in 0..sheets::MAX_RULES - rules.len() {
        let (n, head) = (at / NONTERMINALS, at % NONTERMINALS);
        rules.push(light(leaf_of(&mut dice, head, n), &mut dice));
    }
    let mut lines = vec![vec![0x47, NONTERMINALS as u8, 0, 0, 1]];
    lines.extend(order.of(&rules));
    let mut units = units_by_bar(&mut dice, BARS, eight_anywhere);
    units[0] = 0;
    let bar_lines = BarLines::even(BARS, FIXED_DURATION);
    let times = first_times(&units, &bar_lines);
    played_at(&mut dice, lines, &bar_lines, &times)
}

/// A rule of a small weight: heavy ones would settle where to divide early.
fn light(mut line: Vec<u8>, dice: &mut Dice) -> Vec<u8> {
    (line[2], line[3]) = (0, dice.below(10) as u8);
    line
}

/// Twelve nonterminals in halves and thirds.
pub fn plain() -> Vec<u8> {
    plain_in(Order::Grouped)
}

/// The same with the rules in some order: only their lines move.
pub fn plain_in(order: Order) -> Vec<u8> {
    heaviest_in(order, 12, |_| vec![2, 3])
}

/// All nonterminals in parts of two numbers each, so that all 84 lengths are met.
pub fn wide() -> Vec<u8> {
    heaviest(16, |head| vec![2 + head % 7, 2 + (head + 3) % 7])
}

/// Fourteen nonterminals in parts of three numbers each, which share some.
pub fn fourteen() -> Vec<u8> {
    heaviest(14, |head| {
        (0..3).map(|at| 2 + (head + 2 * at) % 7).collect()
    })
}

/// Ten nonterminals in parts of four numbers each, which share most.
pub fn ten() -> Vec<u8> {
    heaviest(10, |head| {
        (0..4).map(|at| 2 + (head + 2 * at) % 7).collect()
    })
}

/// Six nonterminals in parts of every number, so that all 84 lengths are met by
/// each.
pub fn dense() -> Vec<u8> {
    heaviest(6, |_| (2..=8).collect())
}
