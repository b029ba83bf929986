//! The bar lines of a playing, evenly spaced by a plain duration or tapped, and how they
//! are thrown.

use crate::moments::{duration_from, LONGEST, SHORTEST};
use crate::sheets::{playing_head, Dice};

/// One sheet in so many is tapped.
const TAPPED_IN: usize = 3;
pub const LAST_MOMENT: usize = u32::MAX as usize;

/// The moments of bar lines 0 to B in microseconds.
#[derive(Clone, Debug, PartialEq)]
pub struct BarLines {
    moments: Vec<usize>,
    tapped: bool,
}

impl BarLines {
    pub fn even(bars: usize, duration: usize) -> BarLines {
        BarLines {
            moments: (0..=bars).map(|line| line * duration).collect(),
            tapped: false,
        }
    }

    pub fn tapped(moments: Vec<usize>) -> BarLines {
        let tapped = true;
        BarLines { moments, tapped }
    }

    /// Taps from a first one on, with a step for each bar.
    pub fn stepped(first: usize, steps: &[usize]) -> BarLines {
        let mut moments = vec![first];
        for step in steps {
            moments.push(moments[moments.len() - 1] + step);
        }
        BarLines::tapped(moments)
    }

    pub fn is_tapped(&self) -> bool {
        self.tapped
    }

    pub fn bars(&self) -> usize {
        self.moments.len() - 1
    }

    pub fn line(&self, line: usize) -> usize {
        self.moments[line]
    }

    pub fn last(&self) -> usize {
        self.moments[self.bars()]
    }

    /// The duration of a bar.
    pub fn duration(&self, bar: usize) -> usize {
        self.moments[bar + 1] - self.moments[bar]
    }

    /// The bar of a time, which is not before the first bar line; past the last there is
    /// one more.
    pub fn bar_of(&self, time: usize) -> usize {
        self.moments.partition_point(|&line| line <= time) - 1
    }

    /// The first bars.
    pub fn front(&self, bars: usize) -> BarLines {
        BarLines {
            moments: self.moments[..=bars].to_vec(),
            tapped: self.tapped,
        }
    }

    /// How many lines of a sheet they take behind its playing head.
    pub fn taps(&self) -> usize {
        if self.tapped {
            self.moments.len()
        } else {
            0
        }
    }

    /// The lines of a sheet that tell them: its playing head, and taps.
    pub fn sheet_lines(&self) -> Vec<Vec<u8>> {
        if !self.tapped {
            return vec![playing_head(self.bars(), self.duration(0))];
        }
        let mut lines = vec![playing_head(self.bars(), 0)];
        lines.extend(self.moments.iter().map(|&moment| tap(moment)));
        lines
    }
}

pub fn tap(moment: usize) -> Vec<u8> {
    let mut line = vec![0x42];
    line.extend((moment as u32).to_be_bytes());
    line
}

// Bar lines thrown.

/// Of either sort.
pub fn any(dice: &mut Dice, bars: usize) -> BarLines {
    any_from(dice, bars, SHORTEST)
}

/// Of either sort, with no bar shorter than a duration.
pub fn any_from(dice: &mut Dice, bars: usize, shortest: usize) -> BarLines {
    if dice.one_in(TAPPED_IN) {
        any_tapped(dice, bars, shortest)
    } else {
        BarLines::even(bars, duration_from(dice, shortest))
    }
}

/// The longest taps take less than all moments there are.
pub fn any_tapped(dice: &mut Dice, bars: usize, shortest: usize) -> BarLines {
    let steps = steps(dice, bars, shortest);
    let latest = LAST_MOMENT - steps.iter().sum::<usize>();
    let first = match dice.below(8) {
        0 | 1 => 0,
        2 => dice.between(1, 1_000).min(latest),
        3 => latest,
        4 => latest - dice.between(0, 1_000).min(latest),
        // As plain bar lines, a bar or several later.
        5 => (dice.between(1, 64) * steps[0]).min(latest),
        _ => dice.between(0, latest),
    };
    BarLines::stepped(first, &steps)
}

/// Steady, rushing, dragging, as people tap, of bounds alone, or any.
fn steps(dice: &mut Dice, bars: usize, shortest: usize) -> Vec<usize> {
    let first = duration_from(dice, shortest);
    let percent = dice.between(1, 30);
    let by_percent = |bar: usize, percents: usize| {
        let step = (0..bar).fold(first, |step, _| step * percents / 100);
        step.clamp(shortest, LONGEST)
    };
    let kind = dice.below(6);
    let step = |bar: usize| match kind {
        0 => first,
        1 => by_percent(bar.min(20), 100 - percent),
        2 => by_percent(bar.min(20), 100 + percent),
        3 => (first * dice.between(95, 105) / 100).clamp(shortest, LONGEST),
        4 => dice.pick(&[shortest, LONGEST, first]),
        _ => duration_from(dice, shortest),
    };
    (0..bars).map(step).collect()
}
