//! What the texts met show of the rounding of times to units, counted from the times
//! and not from the peer's units.

use crate::harness::Counted;
use crate::moments::{first_time, BAR};
use crate::playing::{has_times_between, BySort, Counts, Playing};
use crate::sheets::{Outcome, MAX_BAR_ONSETS, MAX_ONSETS};

/// How many accepted sheets show each side of the rounding.
#[derive(Default)]
pub struct Rounded {
    sheets: usize,
    half: usize,
    below_half: usize,
    to_bar_line: usize,
    other_most: usize,
    short_bars: usize,
}

impl BySort<Rounded> {
    /// Takes the text of an accepted sheet.
    pub fn add(&mut self, text: &[u8]) {
        let playing = Playing::of(text, usize::MAX);
        self.of(&playing).add(&playing);
    }
}

impl Rounded {
    fn add(&mut self, playing: &Playing) {
        let most = [Playing::bar_by_time, Playing::bar_by_unit].map(|bar| playing.most(bar));
        self.sheets += 1;
        self.half += usize::from(playing.any(Playing::is_half));
        self.below_half += usize::from(playing.any(Playing::is_below_half));
        self.to_bar_line += usize::from(playing.any(Playing::is_rounded_up));
        self.other_most += usize::from(most[0] != most[1]);
        self.short_bars += usize::from(playing.any(Playing::is_in_short_bar));
    }
}

impl Counts for Rounded {
    fn title(&self) -> String {
        format!("sheets looked at for rounding: {}, of which", self.sheets)
    }

    fn named(&self) -> Vec<Counted> {
        vec![
            ("have an onset at an exact half of a unit", self.half),
            ("have one a microsecond before a half", self.below_half),
            ("have one rounded up to a bar line", self.to_bar_line),
            ("have another E by units than by times", self.other_most),
            (
                "have one in a bar of fewer microseconds than units",
                self.short_bars,
            ),
        ]
    }
}

/// How many texts are accepted or refused by the rounding alone.
#[derive(Default)]
pub struct Limits {
    last_time: usize,
    full_by_time: usize,
    past_end: usize,
    past_end_513: usize,
    past_end_full: usize,
    full: usize,
}

impl BySort<Limits> {
    pub fn add(&mut self, text: &[u8], outcome: Outcome) {
        let front = match outcome {
            (0, _) => usize::MAX,
            (7 | 8, line) => line.into(),
            _ => return,
        };
        let playing = Playing::of(text, front);
        let limits = self.of(&playing);
        match outcome.0 {
            0 => limits.add_accepted(&playing),
            7 => limits.add_past_end(&playing),
            _ => limits.add_full(&playing),
        }
    }
}

impl Limits {
    fn add_accepted(&mut self, playing: &Playing) {
        let (lines, bars) = (&playing.bar_lines, playing.bars());
        let last = playing.times.last().copied();
        let refused = first_time(bars * BAR, lines);
        let is_last = last == Some(refused - 1) && has_times_between(lines.duration(bars - 1));
        let is_full = playing.most(Playing::bar_by_time) > MAX_BAR_ONSETS;
        self.last_time += usize::from(is_last);
        self.full_by_time += usize::from(is_full);
    }

    fn add_past_end(&mut self, playing: &Playing) {
        let bars = playing.times.iter().map(|&time| playing.bar_by_time(time));
        let last_bar = bars.filter(|&bar| bar + 1 == playing.bars()).count();
        let refused = playing.times.last().map(|&time| playing.bar_by_time(time));
        if refused.is_some_and(|bar| bar < playing.bars()) {
            self.past_end += 1;
            self.past_end_513 += usize::from(playing.times.len() > MAX_ONSETS);
            self.past_end_full += usize::from(last_bar > MAX_BAR_ONSETS);
        }
    }

    /// At rule 65 there are no onsets yet.
    fn add_full(&mut self, playing: &Playing) {
        let room = playing.most(Playing::bar_by_time) <= MAX_BAR_ONSETS;
        let by_rounding = (1..=MAX_ONSETS).contains(&playing.times.len()) && room;
        self.full += usize::from(by_rounding);
    }
}

impl Counts for Limits {
    fn title(&self) -> String {
        "texts at the limits:".to_owned()
    }

    fn named(&self) -> Vec<Counted> {
        vec![
            ("accepted at the last time before the end", self.last_time),
            ("accepted with 33 of a bar by times", self.full_by_time),
            ("refusal 7 by the unit alone", self.past_end),
            ("of these at onset 513", self.past_end_513),
            ("of these at onset 33 of a bar by times", self.past_end_full),
            ("refusal 8 by rounding alone", self.full),
        ]
    }
}
