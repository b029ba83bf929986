//! Times chosen by their units: an onset is at the unit nearest to its time, an exact
//! half upwards. Worked out from units to times, while the peer goes from times to
//! units, so that neither is its own witness.

use crate::bar_lines::BarLines;
use crate::peer::BAR_UNITS;
use crate::sheets::{Dice, MAX_BAR_ONSETS};
use std::ops::Range;

pub const BAR: usize = BAR_UNITS as usize;

/// The bounds of a bar's duration.
pub const SHORTEST: usize = 1_000;
pub const LONGEST: usize = 60_000_000;
/// So long that some times before a bar line are rounded up to it.
pub const ROUNDED_UP: usize = 2 * BAR;

/// A bar of the fixed sheets for timing: two seconds, nearly.
pub const FIXED_DURATION: usize = 1_987_654;

/// The first time at a unit or past it: from half a unit before it on.
pub fn first_time(unit: usize, lines: &BarLines) -> usize {
    let Some(before) = unit.checked_sub(1) else {
        return lines.line(0);
    };
    // A unit at a bar line is reached in the bar before.
    let bar = before / BAR;
    let halves = 2 * (before % BAR) + 1;
    lines.line(bar) + (halves * lines.duration(bar)).div_ceil(2 * BAR)
}

/// The times whose units lie in a bar. It begins half a unit before the bar line.
pub fn times_of_bar(bar: usize, lines: &BarLines) -> Range<usize> {
    first_time(bar * BAR, lines)..first_time((bar + 1) * BAR, lines)
}

/// The times before a bar line that are rounded up to it: none where the bar before is
/// shorter than two microseconds a unit.
pub fn rounded_up(line: usize, lines: &BarLines) -> Range<usize> {
    first_time(line * BAR, lines)..lines.line(line)
}

pub fn any_of(dice: &mut Dice, times: Range<usize>) -> usize {
    dice.between_edged(times.start, times.end - 1)
}

/// The first time at a unit. A bar shorter than its units has none for some of
/// them; then a later time of the same bar, or the bar's last.
pub fn time_of(unit: usize, lines: &BarLines) -> usize {
    let bar = times_of_bar(unit / BAR, lines);
    first_time(unit, lines).min(bar.end - 1)
}

/// Each unit's first time. Nothing is thrown for it, so that the fixed sheets have the
/// other lines that they always had.
pub fn first_times(units: &[usize], lines: &BarLines) -> Vec<usize> {
    units.iter().map(|&unit| time_of(unit, lines)).collect()
}

/// Any time at a unit, and where it has none the one that `time_of` gives.
pub fn any_time_of(dice: &mut Dice, unit: usize, lines: &BarLines) -> usize {
    let first = time_of(unit, lines);
    let after = first_time(unit + 1, lines);
    any_of(dice, first..after.max(first + 1))
}

// Durations and times of any sheet.

pub fn duration(dice: &mut Dice) -> usize {
    // A random width first: short bars make equal units and bar lines likely.
    let widest = LONGEST >> dice.below(16);
    let duration = dice.between_edged(SHORTEST, widest.max(SHORTEST));
    // Only a multiple of 128 has times at an exact half of a unit, and one of 40,320
    // has them before every unit.
    match dice.below(8) {
        0 => multiple_near(duration, 128),
        1 => multiple_near(duration, 2 * BAR),
        2 => 2_000_000,
        _ => duration,
    }
}

/// A multiple that is a duration: the next below, or the first that is long enough.
fn multiple_near(duration: usize, of: usize) -> usize {
    (duration - duration % of).max(SHORTEST.next_multiple_of(of))
}

/// A duration that is not shorter than one.
pub fn duration_from(dice: &mut Dice, shortest: usize) -> usize {
    loop {
        let duration = duration(dice);
        if duration >= shortest {
            break duration;
        }
    }
}

/// Times in order, at most 32 in a bar.
pub fn times(dice: &mut Dice, lines: &BarLines, onsets: usize) -> Vec<usize> {
    let bars = lines.bars();
    let mut in_bar = vec![0; bars];
    let mut times = Vec::with_capacity(onsets + 1);
    for _ in 0..onsets {
        let mut bar = dice.below(bars);
        while in_bar[bar] == MAX_BAR_ONSETS {
            bar = (bar + 1) % bars;
        }
        in_bar[bar] += 1;
        let before = times.last().copied();
        times.push(time_in(dice, bar, lines, before));
    }
    times.sort_unstable();
    times
}

pub fn time_in(dice: &mut Dice, bar: usize, lines: &BarLines, before: Option<usize>) -> usize {
    let times = times_of_bar(bar, lines);
    let line = lines.line(bar);
    let time = match (dice.below(12), before) {
        (0, _) => times.start,
        (1, _) => times.end - 1,
        (2, _) => line,
        (3, _) => line + lines.duration(bar) / 2,
        (4, Some(time)) if times.contains(&time) => time,
        (5 | 6, _) => near_a_half(dice, bar, lines),
        (7, _) => line.saturating_sub(1),
        _ => dice.between(times.start, times.end - 1),
    };
    time.clamp(times.start, times.end - 1)
}

/// A time at an exact half of a unit or, where there is none, the first that is rounded
/// up to some unit; or a few microseconds beside it.
fn near_a_half(dice: &mut Dice, bar: usize, lines: &BarLines) -> usize {
    let unit = bar * BAR + dice.below(BAR);
    let turn = half_in(dice, bar, lines).unwrap_or(first_time(unit, lines));
    match dice.below(6) {
        0 | 1 => turn.saturating_sub(1),
        2 => turn.saturating_sub(dice.between(2, 4)),
        3 => turn + 1,
        _ => turn,
    }
}

/// A time of a bar at an exact half of a unit, if there are such.
fn half_in(dice: &mut Dice, bar: usize, lines: &BarLines) -> Option<usize> {
    // There 2 × BAR × time is an odd multiple of the duration. An odd number can bring
    // in the odd factors of 2 × BAR that the duration lacks, which 315 has all.
    let duration = lines.duration(bar);
    let mut odd = (1..=315).step_by(2);
    let least = odd.find(|odd| odd * duration % (2 * BAR) == 0)?;
    let halves = 2 * dice.below(BAR / least) + 1;
    Some(lines.line(bar) + halves * least * duration / (2 * BAR))
}
