//! The sheets for timing the reading, always the same: twelve rules, of which six divide
//! by 2 or 3, and 512 onsets spread unevenly over 24 bars.

use crate::bar_lines::BarLines;
use crate::moments::FIXED_DURATION;
use crate::sheets::{division, grammar_head, leaf_up_to, onset, text_of, Dice, MAX_ONSETS, REST};

/// No leaf is a rest, so that times can be set beside those from before there were any.
pub fn plain() -> Vec<u8> {
    timed(BarLines::even(TIMED_BARS, FIXED_DURATION))
}

/// The same in tapped bars that are within a tenth of those.
pub fn tapped() -> Vec<u8> {
    let mut dice = Dice::new(66);
    let step = |_| dice.between(9 * FIXED_DURATION / 10, 11 * FIXED_DURATION / 10);
    let steps: Vec<usize> = (0..TIMED_BARS).map(step).collect();
    timed(BarLines::stepped(FIXED_DURATION, &steps))
}

const TIMED_BARS: usize = 24;

fn timed(bar_lines: BarLines) -> Vec<u8> {
    const NONTERMINALS: usize = 4;
    let mut dice = Dice::new(512);
    let mut lines = vec![grammar_head(&mut dice, NONTERMINALS)];
    for arity in [2, 3, 2, 3, 2, 3] {
        lines.push(division(&mut dice, NONTERMINALS, arity));
        lines.push(leaf_up_to(&mut dice, NONTERMINALS, REST - 1));
    }
    lines.extend(bar_lines.sheet_lines());
    let first = bar_lines.line(0);
    let step = (bar_lines.last() - first) / MAX_ONSETS;
    for at in 0..MAX_ONSETS {
        let time = first + at * step + dice.below(step);
        lines.push(onset(&mut dice, time));
    }
    text_of(&lines)
}
