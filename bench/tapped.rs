//! What the tapped sheets met show of taps and of onsets by them, counted from the texts'
//! lines.

use crate::bar_lines::LAST_MOMENT;
use crate::harness::{all_occurred, print_counted, Counted};
use crate::moments::{LONGEST, SHORTEST};
use crate::playing::Playing;
use crate::sheets::{lines_of, Outcome};
use crate::tap_refusals::{Refused, REFUSED};

/// Each kind of text is counted by what it shows; one may show several.
pub struct Tapped {
    sheets: Vec<Counted>,
    refused: Vec<Counted>,
}

type SheetKind = (&'static str, fn(&Playing) -> bool);

impl Default for Tapped {
    fn default() -> Tapped {
        Tapped {
            sheets: SHEETS.iter().map(|kind| (kind.0, 0)).collect(),
            refused: REFUSED.iter().map(|kind| (kind.0, 0)).collect(),
        }
    }
}

impl Tapped {
    pub fn add(&mut self, text: &[u8], (number, line): Outcome) {
        if matches!(number, 1 | 2) {
            return;
        }
        if number == 0 {
            let playing = Playing::of(text, usize::MAX);
            let tapped = playing.bar_lines.is_tapped();
            for (counted, (_, shows)) in self.sheets.iter_mut().zip(&SHEETS) {
                counted.1 += usize::from(tapped && shows(&playing));
            }
            return;
        }
        let (lines, at) = (lines_of(text), usize::from(line) - 1);
        let refused = Refused { lines, at };
        for (counted, (_, by, shows)) in self.refused.iter_mut().zip(&REFUSED) {
            counted.1 += usize::from(number == *by && shows(&refused));
        }
    }

    pub fn named(&self) -> Vec<Counted> {
        [&self.sheets[..], &self.refused].concat()
    }

    pub fn print(&self) {
        println!("  tapped sheets that");
        print_counted(&self.sheets);
        println!("  refusals by taps");
        print_counted(&self.refused);
    }

    pub fn all_met(&self) -> bool {
        all_occurred("taps", &self.named())
    }
}

// Accepted sheets.

const SHEETS: [SheetKind; 18] = [
    ("have one bar", |playing| playing.bars() == 1),
    ("have 64 bars", |playing| playing.bars() == 64),
    ("are steady", |playing| {
        steps(playing, |one, other| one == other)
    }),
    ("rush", |playing| steps(playing, |one, other| one > other)),
    ("drag", |playing| steps(playing, |one, other| one < other)),
    ("rush and drag", |playing| {
        let durations = durations(playing);
        durations.windows(2).any(|pair| pair[0] > pair[1])
            && durations.windows(2).any(|pair| pair[0] < pair[1])
    }),
    ("have a step of 1,000", |playing| {
        durations(playing).contains(&SHORTEST)
    }),
    ("have a step of 60,000,000", |playing| {
        durations(playing).contains(&LONGEST)
    }),
    ("have the first tap at 0", |playing| {
        playing.bar_lines.line(0) == 0
    }),
    ("have it within 1,000", |playing| {
        (1..=1_000).contains(&playing.bar_lines.line(0))
    }),
    ("have it behind 3,840,000,000", |playing| {
        playing.bar_lines.line(0) > 64 * LONGEST
    }),
    ("have the last tap at 4,294,967,295", |playing| {
        playing.bar_lines.last() == LAST_MOMENT
    }),
    ("have it within 1,000 before", |playing| {
        (LAST_MOMENT - 1_000..LAST_MOMENT).contains(&playing.bar_lines.last())
    }),
    ("have an onset on the first tap", |playing| {
        playing.times.contains(&playing.bar_lines.line(0))
    }),
    ("have one on a later tap", |playing| inner_lines(playing, 0)),
    ("have one a microsecond before a tap", |playing| {
        inner_lines(playing, 1)
    }),
    ("have an onset past 4,000,000,000", |playing| {
        playing.times.iter().any(|&time| time > 4_000_000_000)
    }),
    ("have unlike bars with onsets in several", |playing| {
        let in_bars = playing.times.iter().map(|&time| playing.bar_by_time(time));
        let durations = in_bars.map(|bar| playing.bar_lines.duration(bar));
        let durations: Vec<usize> = durations.collect();
        durations.iter().any(|&duration| duration != durations[0])
    }),
];

fn durations(playing: &Playing) -> Vec<usize> {
    let bars = 0..playing.bars();
    bars.map(|bar| playing.bar_lines.duration(bar)).collect()
}

/// Whether each bar's duration and the next one's are so, of several bars.
fn steps(playing: &Playing, so: fn(usize, usize) -> bool) -> bool {
    let durations = durations(playing);
    durations.len() > 1 && durations.windows(2).all(|pair| so(pair[0], pair[1]))
}

/// Whether an onset is so many microseconds before a tap, not the first.
fn inner_lines(playing: &Playing, before: usize) -> bool {
    let lines = 1..=playing.bars();
    let mut moments = lines.map(|line| playing.bar_lines.line(line) - before);
    moments.any(|moment| playing.times.contains(&moment))
}
