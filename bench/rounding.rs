//! Changes to a draft at bar lines and at the end of the piece, where an onset's bar by
//! its unit is another than by its time. Each gives the outcome it must have.

use crate::bar_lines::{self, BarLines};
use crate::moments::{
    any_of, first_time, rounded_up, time_in, times, times_of_bar, BAR, ROUNDED_UP,
};
use crate::sheets::{draft_513, draft_at, draft_in, number, Dice, Draft, Outcome, MAX_BAR_ONSETS};

const ACCEPTED: Outcome = (0, 0);

/// Puts the last onset at the last time before the end. If others are in the last bar
/// it was there too, so no bar is too full then.
pub fn last_time(_: &mut Dice, draft: &mut Draft) -> Option<Outcome> {
    draft.set_time(draft.lines.len() - 1, draft.end() - 1);
    Some(ACCEPTED)
}

/// Puts some onset before the end, but at a unit that is past it.
pub fn unit_at_end(dice: &mut Dice, draft: &mut Draft) -> Option<Outcome> {
    let bar_lines = bar_lines::any_from(dice, draft.bar_lines.bars(), ROUNDED_UP);
    let onsets = dice.between(1, 20);
    *draft = draft_in(dice, draft.rules, bar_lines, onsets);
    let at = draft.any_onset(dice);
    Some(move_to_end(dice, draft, at))
}

/// The unit is judged before the number of onsets.
pub fn onset_513_at_end(dice: &mut Dice, draft: &mut Draft) -> Option<Outcome> {
    *draft = draft_513(dice, ROUNDED_UP);
    let at = draft.lines.len() - 1;
    Some(move_to_end(dice, draft, at))
}

fn move_to_end(dice: &mut Dice, draft: &mut Draft, at: usize) -> Outcome {
    let lines = &draft.bar_lines;
    let time = any_of(dice, rounded_up(lines.bars(), lines));
    draft.set_time(at, time);
    (7, number(at))
}

// Onsets around a bar line.

/// How many onsets lie around a bar line: in the bar before it, before it but rounded
/// up to it, and behind it in the next bar.
type Around = [usize; 3];

/// Onset 33 of the last bar by its time is past the end by its unit.
pub fn full_bar_at_end(dice: &mut Dice, draft: &mut Draft) -> Option<Outcome> {
    let (bars, up) = (draft.bar_lines.bars(), dice.between(1, 3));
    let first = put_around(dice, draft, (bars, bars), [MAX_BAR_ONSETS, up, 0]);
    Some((7, number(first + MAX_BAR_ONSETS)))
}

/// A bar has 33 onsets or more only with those rounded up to its bar line.
pub fn onset_33_by_rounding(dice: &mut Dice, draft: &mut Draft) -> Option<Outcome> {
    let place = inner_line(dice, draft);
    let up = dice.between_edged(1, MAX_BAR_ONSETS);
    let behind = dice.between_edged(MAX_BAR_ONSETS + 1 - up, MAX_BAR_ONSETS);
    let before = dice.between_edged(0, MAX_BAR_ONSETS - up);
    let first = put_around(dice, draft, place, [before, up, behind]);
    Some((8, number(first + before + MAX_BAR_ONSETS)))
}

/// No bar has more than 32 onsets, but often one has by their times.
pub fn onsets_rounded_out(dice: &mut Dice, draft: &mut Draft) -> Option<Outcome> {
    let place = inner_line(dice, draft);
    let up = dice.between_edged(1, MAX_BAR_ONSETS);
    let behind = dice.between_edged(0, MAX_BAR_ONSETS - up);
    let before = match dice.below(2) {
        0 => MAX_BAR_ONSETS,
        _ => dice.between_edged(0, MAX_BAR_ONSETS),
    };
    put_around(dice, draft, place, [before, up, behind]);
    Some(ACCEPTED)
}

/// Two bars or more, and a bar line with a bar on each side.
fn inner_line(dice: &mut Dice, draft: &Draft) -> (usize, usize) {
    let bars = draft.bar_lines.bars().max(2);
    (bars, dice.between_edged(1, bars - 1))
}

/// Puts a sheet of so many bars with onsets around a bar line in the draft's place, and
/// a few in other bars; gives the place of the first one around it.
fn put_around(
    dice: &mut Dice,
    draft: &mut Draft,
    (bars, line): (usize, usize),
    around: Around,
) -> usize {
    let lines = bar_lines::any_from(dice, bars, ROUNDED_UP);
    let before = times_of_bar(line - 1, &lines);
    let both_bars = before.start..first_time((line + 1).min(bars) * BAR, &lines);
    let few = dice.below(20);
    let mut times = times(dice, &lines, few);
    times.retain(|time| !both_bars.contains(time));
    times.extend(times_around(dice, line, &lines, around));
    times.sort_unstable();
    *draft = draft_at(dice, draft.rules, lines, &times);
    let earlier = times.iter().filter(|&&time| time < before.start);
    draft.first_onset() + earlier.count()
}

fn times_around(dice: &mut Dice, line: usize, lines: &BarLines, around: Around) -> Vec<usize> {
    let [before, up, behind] = around;
    let mut times = Vec::new();
    for _ in 0..before {
        // By its time in this bar too: not rounded up to the bar line at its left.
        let time = time_in(dice, line - 1, lines, None);
        times.push(time.max(lines.line(line - 1)));
    }
    for _ in 0..up {
        times.push(any_of(dice, rounded_up(line, lines)));
    }
    for _ in 0..behind {
        times.push(time_in(dice, line, lines, None).max(lines.line(line)));
    }
    times
}
