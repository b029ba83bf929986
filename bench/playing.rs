//! The playing that a text tells of, taken from its lines and not from the peer's
//! reading; and counts kept apart for plain and for tapped sheets.

use crate::bar_lines::BarLines;
use crate::harness::{all_occurred, print_counted, Counted};
use crate::moments::{first_time, BAR};
use crate::sheets::{lines_of, moment_of_line};

/// Times are not before the first bar line.
pub struct Playing {
    pub bar_lines: BarLines,
    pub times: Vec<usize>,
}

impl Playing {
    /// Takes the front lines of a text, which are right but for what the last says.
    pub fn of(text: &[u8], lines: usize) -> Playing {
        let (mut bars, mut duration) = (0, 0);
        let (mut taps, mut times) = (Vec::new(), Vec::new());
        for line in lines_of(text).iter().take(lines) {
            match line[0] {
                0x45 => {
                    bars = line[1].into();
                    // The duration stands one byte behind where a tap has its moment.
                    duration = moment_of_line(&line[1..]);
                }
                0x42 => taps.push(moment_of_line(line)),
                0x4E => times.push(moment_of_line(line)),
                _ => {}
            }
        }
        let bar_lines = if taps.is_empty() {
            BarLines::even(bars, duration)
        } else {
            BarLines::tapped(taps)
        };
        Playing { bar_lines, times }
    }

    pub fn bars(&self) -> usize {
        self.bar_lines.bars()
    }

    pub fn bar_by_time(&self, time: usize) -> usize {
        self.bar_lines.bar_of(time)
    }

    pub fn is_rounded_up(&self, time: usize) -> bool {
        let line = self.bar_by_time(time) + 1;
        time >= first_time(line * BAR, &self.bar_lines)
    }

    pub fn bar_by_unit(&self, time: usize) -> usize {
        self.bar_by_time(time) + usize::from(self.is_rounded_up(time))
    }

    /// The largest number of onsets in a bar.
    pub fn most(&self, bar: fn(&Playing, usize) -> usize) -> usize {
        let same_bar = |&one: &usize, &other: &usize| bar(self, one) == bar(self, other);
        let bars = self.times.chunk_by(same_bar).map(<[usize]>::len);
        bars.max().unwrap_or(0)
    }

    /// What is left of an onset's share of its bar, in parts of a unit, and how many
    /// such parts a unit has: as many as the bar has microseconds.
    fn past_unit(&self, time: usize) -> (usize, usize) {
        let bar = self.bar_by_time(time);
        let duration = self.bar_lines.duration(bar);
        let offset = time - self.bar_lines.line(bar);
        (offset * BAR % duration, duration)
    }

    pub fn is_half(&self, time: usize) -> bool {
        let (past, duration) = self.past_unit(time);
        2 * past == duration
    }

    /// Whether a microsecond later would be at the half of a unit or past it.
    pub fn is_below_half(&self, time: usize) -> bool {
        let (past, duration) = self.past_unit(time);
        let between = has_times_between(duration);
        between && 2 * past < duration && 2 * (past + BAR) >= duration
    }

    pub fn is_in_short_bar(&self, time: usize) -> bool {
        self.bar_lines.duration(self.bar_by_time(time)) < BAR
    }

    pub fn any(&self, is: fn(&Playing, usize) -> bool) -> bool {
        self.times.iter().any(|&time| is(self, time))
    }
}

/// Whether there are two microseconds or more a unit, so that a time before a bar
/// line may be rounded up to it.
pub fn has_times_between(duration: usize) -> bool {
    duration >= 2 * BAR
}

/// What a run counts and must meet.
pub trait Counts {
    /// Printed behind the sort of sheets.
    fn title(&self) -> String;
    fn named(&self) -> Vec<Counted>;
}

/// Of plain sheets and of tapped ones.
#[derive(Default)]
pub struct BySort<T> {
    plain: T,
    tapped: T,
}

impl<T: Counts> BySort<T> {
    pub fn of(&mut self, playing: &Playing) -> &mut T {
        if playing.bar_lines.is_tapped() {
            &mut self.tapped
        } else {
            &mut self.plain
        }
    }

    pub fn sorts(&self) -> [(&'static str, &T); 2] {
        [("plain", &self.plain), ("tapped", &self.tapped)]
    }

    pub fn print(&self) {
        for (sort, counts) in self.sorts() {
            println!("  {sort} {}", counts.title());
            print_counted(&counts.named());
        }
    }

    /// Gives whether everything occurred in either sort, and prints what did not.
    pub fn all_met(&self) -> bool {
        let met = |(sort, counts): (&str, &T)| {
            let name = format!("{sort} {}", counts.title());
            all_occurred(&name, &counts.named())
        };
        self.sorts().map(met) == [true, true]
    }
}

/// How many sheets are of each sort.
#[derive(Default)]
pub struct Sorts {
    plain: usize,
    tapped: usize,
}

impl Sorts {
    /// Takes the text of an accepted sheet.
    pub fn add(&mut self, text: &[u8]) {
        let tapped = Playing::of(text, usize::MAX).bar_lines.is_tapped();
        self.plain += usize::from(!tapped);
        self.tapped += usize::from(tapped);
    }

    fn named(&self) -> [Counted; 2] {
        [("are plain", self.plain), ("are tapped", self.tapped)]
    }

    pub fn print(&self) {
        println!("  sheets that");
        print_counted(&self.named());
    }

    pub fn all_met(&self) -> bool {
        all_occurred("sheets", &self.named())
    }
}
