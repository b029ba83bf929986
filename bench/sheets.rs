//! Sheets to compare on: valid ones, ones damaged on purpose, and texts that
//! are hardly sheets at all.

use crate::bar_lines::{self, BarLines};
use crate::moments::{self, first_time, time_in, times_of_bar, BAR};
use crate::{rounding, tapping};

/// A refusal's number and line; (0, 0) for an accepted sheet.
pub type Outcome = (u8, u16);

/// A text and, where the way it was made settles it, the outcome it must have.
pub struct Case {
    pub text: Vec<u8>,
    pub made: &'static str,
    pub aim: Option<Outcome>,
}

pub const MAX_TEXT: usize = 16_384;
pub const MAX_BAR_ONSETS: usize = 32;
pub const MAX_ONSETS: usize = 512;
pub const MAX_RULES: usize = 64;
/// The n of a leaf that is a rest, the largest there is.
pub const REST: usize = 4;
pub const KINDS: [u8; 6] = [0x47, 0x44, 0x4C, 0x45, 0x42, 0x4E];
const DIGITS: &[u8; 16] = b"0123456789ABCDEF";

/// Seeded throws: xorshift64*.
pub struct Dice(u64);

impl Dice {
    pub fn new(seed: u64) -> Dice {
        // Spread the seed, so that near seeds part at once; the state must not be 0.
        let mut dice = Dice(seed.wrapping_mul(0x9E37_79B9_7F4A_7C15) | 1);
        for _ in 0..8 {
            dice.next();
        }
        dice
    }

    fn next(&mut self) -> u64 {
        self.0 ^= self.0 >> 12;
        self.0 ^= self.0 << 25;
        self.0 ^= self.0 >> 27;
        self.0.wrapping_mul(0x2545_F491_4F6C_DD1D) >> 16
    }

    pub fn below(&mut self, bound: usize) -> usize {
        (self.next() % bound as u64) as usize
    }

    pub fn between(&mut self, low: usize, high: usize) -> usize {
        low + self.below(high - low + 1)
    }

    /// As `between`, with each bound a good deal likelier than the rest.
    pub fn between_edged(&mut self, low: usize, high: usize) -> usize {
        match self.below(8) {
            0 => low,
            1 => high,
            _ => self.between(low, high),
        }
    }

    pub fn one_in(&mut self, chances: usize) -> bool {
        self.below(chances) == 0
    }

    pub fn byte(&mut self) -> u8 {
        self.below(256) as u8
    }

    fn digit(&mut self) -> u8 {
        self.pick(DIGITS)
    }

    pub fn pick<T: Copy>(&mut self, from: &[T]) -> T {
        from[self.below(from.len())]
    }

    pub fn shuffle<T>(&mut self, all: &mut [T]) {
        for at in (1..all.len()).rev() {
            all.swap(at, self.below(at + 1));
        }
    }
}

/// A sheet as lines of bytes, not yet written in digits.
pub struct Draft {
    pub lines: Vec<Vec<u8>>,
    nonterminals: usize,
    pub rules: usize,
    pub bar_lines: BarLines,
}

impl Draft {
    pub fn playing_head(&self) -> usize {
        self.rules + 1
    }

    pub fn first_onset(&self) -> usize {
        self.rules + 2 + self.bar_lines.taps()
    }

    /// Whether a tap stands at a place of a tapped draft.
    fn is_tap(&self, at: usize) -> bool {
        (self.playing_head() + 1..self.first_onset()).contains(&at)
    }

    fn any_line(&self, dice: &mut Dice) -> usize {
        dice.below(self.lines.len())
    }

    fn any_rule(&self, dice: &mut Dice) -> usize {
        dice.between(1, self.rules)
    }

    pub fn any_onset(&self, dice: &mut Dice) -> usize {
        dice.between(self.first_onset(), self.lines.len() - 1)
    }

    fn time(&self, at: usize) -> usize {
        moment_of_line(&self.lines[at])
    }

    pub fn set_time(&mut self, at: usize, time: usize) {
        self.lines[at][1..5].copy_from_slice(&(time as u32).to_be_bytes());
    }

    /// The first time past the end, which may be so by its unit alone.
    pub fn end(&self) -> usize {
        first_time(self.bar_lines.bars() * BAR, &self.bar_lines)
    }

    fn text(&self) -> Vec<u8> {
        text_of(&self.lines)
    }
}

/// The text of lines of bytes.
pub fn text_of(lines: &[Vec<u8>]) -> Vec<u8> {
    let mut text = Vec::with_capacity(MAX_TEXT);
    for line in lines {
        write_line(&mut text, line);
    }
    text
}

/// The bytes of each line of a well-formed text.
pub fn lines_of(text: &[u8]) -> Vec<Vec<u8>> {
    let text = std::str::from_utf8(text).expect("a text is digits");
    let byte = |pair: &[u8]| {
        let pair = std::str::from_utf8(pair).expect("a pair is digits");
        u8::from_str_radix(pair, 16).expect("a pair is digits")
    };
    let line = |line: &str| line.as_bytes().chunks(2).map(byte).collect();
    text.lines().map(line).collect()
}

/// The moment of an onset's line or of a tap's.
pub fn moment_of_line(line: &[u8]) -> usize {
    u32::from_be_bytes([line[1], line[2], line[3], line[4]]) as usize
}

fn write_line(text: &mut Vec<u8>, line: &[u8]) {
    for byte in line {
        text.push(DIGITS[usize::from(byte >> 4)]);
        text.push(DIGITS[usize::from(byte & 15)]);
    }
    text.push(b'\n');
}

/// A line's number, counted from 1.
pub fn number(at: usize) -> u16 {
    at as u16 + 1
}

// Valid sheets.

fn draft(dice: &mut Dice) -> Draft {
    let bars = dice.between_edged(1, 64);
    let most = MAX_ONSETS.min(bars * MAX_BAR_ONSETS);
    // Most sheets are short, so that a run meets many.
    let few = most.min(24);
    let onsets = if dice.one_in(3) {
        dice.between_edged(1, most)
    } else {
        dice.between(1, few)
    };
    let rules = dice.between_edged(1, MAX_RULES);
    draft_of(dice, rules, bars, onsets)
}

fn draft_of(dice: &mut Dice, rules: usize, bars: usize, onsets: usize) -> Draft {
    let bar_lines = bar_lines::any(dice, bars);
    draft_in(dice, rules, bar_lines, onsets)
}

/// A draft with so many onsets in bars.
pub fn draft_in(dice: &mut Dice, rules: usize, bar_lines: BarLines, onsets: usize) -> Draft {
    let times = moments::times(dice, &bar_lines, onsets);
    draft_at(dice, rules, bar_lines, &times)
}

/// A draft with onsets at times, which are in order.
pub fn draft_at(dice: &mut Dice, rules: usize, bar_lines: BarLines, times: &[usize]) -> Draft {
    let nonterminals = dice.between_edged(1, 16);
    let mut lines = vec![grammar_head(dice, nonterminals)];
    for _ in 0..rules {
        lines.push(rule(dice, nonterminals));
    }
    lines.extend(bar_lines.sheet_lines());
    for &time in times {
        lines.push(onset(dice, time));
    }
    Draft {
        lines,
        nonterminals,
        rules,
        bar_lines,
    }
}

pub fn grammar_head(dice: &mut Dice, nonterminals: usize) -> Vec<u8> {
    let start = dice.below(nonterminals) as u8;
    vec![0x47, nonterminals as u8, start, dice.byte(), dice.byte()]
}

fn rule(dice: &mut Dice, nonterminals: usize) -> Vec<u8> {
    let arity = dice.between(2, 8);
    if dice.one_in(2) {
        leaf(dice, nonterminals)
    } else {
        division(dice, nonterminals, arity)
    }
}

pub fn leaf(dice: &mut Dice, nonterminals: usize) -> Vec<u8> {
    leaf_up_to(dice, nonterminals, REST)
}

pub fn leaf_up_to(dice: &mut Dice, nonterminals: usize, most: usize) -> Vec<u8> {
    let (head, weight) = (dice.below(nonterminals) as u8, [dice.byte(), dice.byte()]);
    let n = dice.between(0, most) as u8;
    vec![0x4C, head, weight[0], weight[1], n]
}

pub fn division(dice: &mut Dice, nonterminals: usize, arity: usize) -> Vec<u8> {
    let head = dice.below(nonterminals) as u8;
    let mut line = vec![0x44, head, dice.byte(), dice.byte(), arity as u8];
    line.extend((0..arity).map(|_| dice.below(nonterminals) as u8));
    line
}

pub fn playing_head(bars: usize, duration: usize) -> Vec<u8> {
    let mut line = vec![0x45, bars as u8];
    line.extend((duration as u32).to_be_bytes());
    line
}

pub fn onset(dice: &mut Dice, time: usize) -> Vec<u8> {
    let mut line = vec![0x4E];
    line.extend((time as u32).to_be_bytes());
    line.push(dice.between_edged(0, 127) as u8);
    line.push(dice.between_edged(1, 127) as u8);
    line
}

// Damage to a draft: each gives the outcome it must have, if it settles one.

pub type Damage = (&'static str, fn(&mut Dice, &mut Draft) -> Option<Outcome>);

const DAMAGES: [Damage; 41] = [
    ("unknown kind", unknown_kind),
    ("kind out of order", kind_out_of_order),
    ("any other kind", any_other_kind),
    ("lines swapped", lines_swapped),
    ("head dropped", head_dropped),
    ("rules dropped", rules_dropped),
    ("line dropped", line_dropped),
    ("head doubled", head_doubled),
    ("line doubled", line_doubled),
    ("ends before an onset", ends_before_an_onset),
    ("bytes added", bytes_added),
    ("long line", long_line),
    ("bytes removed", bytes_removed),
    ("division one part short", division_one_part_short),
    ("bytes removed and names too large", short_with_large_names),
    ("nonterminals out of range", nonterminals_out_of_range),
    ("start out of range", start_out_of_range),
    ("rule's head out of range", rule_head_out_of_range),
    ("part out of range", part_out_of_range),
    ("arity out of range", arity_out_of_range),
    ("leaf's n out of range", leaf_n_out_of_range),
    ("bars out of range", bars_out_of_range),
    ("duration out of range", duration_out_of_range),
    ("pitch out of range", pitch_out_of_range),
    ("velocity out of range", velocity_out_of_range),
    ("falling time", falling_time),
    ("falling time, pitch out of range", falling_and_out_of_range),
    ("time at or past the end", time_past_end),
    ("fewer bars", fewer_bars),
    ("rule 65", rule_65),
    ("rule 65 out of range", rule_65_out_of_range),
    ("onset 513", onset_513),
    ("onset 513 at the end", onset_513_past_end),
    ("onset 513 falling", onset_513_falling),
    ("onset 33 of a bar", onset_33_of_a_bar),
    ("last time of the piece", rounding::last_time),
    ("unit at the end", rounding::unit_at_end),
    ("onset 513, unit at the end", rounding::onset_513_at_end),
    ("full bar, unit at the end", rounding::full_bar_at_end),
    (
        "onset 33 of a bar by rounding",
        rounding::onset_33_by_rounding,
    ),
    ("onsets rounded out of a bar", rounding::onsets_rounded_out),
];

/// Of any draft, or of the taps of a tapped one.
fn any_damage(dice: &mut Dice) -> Damage {
    if dice.one_in(4) {
        dice.pick(&tapping::DAMAGES)
    } else {
        dice.pick(&DAMAGES)
    }
}

pub fn any_unknown_kind(dice: &mut Dice) -> u8 {
    loop {
        let kind = dice.byte();
        if !KINDS.contains(&kind) {
            break kind;
        }
    }
}

fn unknown_kind(dice: &mut Dice, draft: &mut Draft) -> Option<Outcome> {
    let (at, kind) = (draft.any_line(dice), any_unknown_kind(dice));
    draft.lines[at][0] = kind;
    Some((refused_by(draft, at, kind)?, number(at)))
}

fn kind_out_of_order(dice: &mut Dice, draft: &mut Draft) -> Option<Outcome> {
    // Half of the time near the heads, where the order changes.
    let near = draft.lines.len().min(draft.first_onset() + 1);
    let at = match dice.below(4) {
        0 => 0,
        1 => dice.between(draft.playing_head() - 1, near - 1),
        _ => draft.any_line(dice),
    };
    let kinds = KINDS.iter().copied();
    let out_of_order = kinds.filter(|&kind| refused_by(draft, at, kind).is_some());
    let kind = dice.pick(&out_of_order.collect::<Vec<u8>>());
    draft.lines[at][0] = kind;
    Some((refused_by(draft, at, kind)?, number(at)))
}

/// What a kind is refused by at a place, if it cannot stand there.
fn refused_by(draft: &Draft, at: usize, kind: u8) -> Option<u8> {
    let in_order: &[u8] = match at {
        0 => &[0x47],
        1 => &[0x44, 0x4C],
        _ if at <= draft.playing_head() => &[0x44, 0x4C, 0x45],
        _ if draft.is_tap(at) => &[0x42],
        _ => &[0x4E],
    };
    let tap_behind = at > draft.playing_head() && kind == 0x42 && draft.bar_lines.is_tapped();
    let number = if draft.is_tap(at) || tap_behind {
        17
    } else {
        3
    };
    (!in_order.contains(&kind)).then_some(number)
}

fn any_other_kind(dice: &mut Dice, draft: &mut Draft) -> Option<Outcome> {
    let at = draft.any_line(dice);
    draft.lines[at][0] = dice.pick(&KINDS);
    None
}

fn lines_swapped(dice: &mut Dice, draft: &mut Draft) -> Option<Outcome> {
    let (one, other) = (draft.any_line(dice), draft.any_line(dice));
    draft.lines.swap(one, other);
    None
}

/// One of the two heads.
fn any_head(dice: &mut Dice, draft: &Draft) -> usize {
    dice.pick(&[0, draft.playing_head()])
}

fn head_dropped(dice: &mut Dice, draft: &mut Draft) -> Option<Outcome> {
    let at = any_head(dice, draft);
    draft.lines.remove(at);
    Some((3, number(at)))
}

fn rules_dropped(_: &mut Dice, draft: &mut Draft) -> Option<Outcome> {
    draft.lines.drain(1..=draft.rules);
    Some((3, 2))
}

fn line_dropped(dice: &mut Dice, draft: &mut Draft) -> Option<Outcome> {
    let at = draft.any_line(dice);
    draft.lines.remove(at);
    None
}

fn head_doubled(dice: &mut Dice, draft: &mut Draft) -> Option<Outcome> {
    let at = any_head(dice, draft);
    draft.lines.insert(at, draft.lines[at].clone());
    let kind = draft.lines[at][0];
    Some((refused_by(draft, at + 1, kind)?, number(at + 1)))
}

fn line_doubled(dice: &mut Dice, draft: &mut Draft) -> Option<Outcome> {
    let at = draft.any_line(dice);
    draft.lines.insert(at, draft.lines[at].clone());
    None
}

fn ends_before_an_onset(dice: &mut Dice, draft: &mut Draft) -> Option<Outcome> {
    let kept = dice.between_edged(1, draft.first_onset());
    draft.lines.truncate(kept);
    let number_of_end = if draft.is_tap(kept) { 17 } else { 3 };
    Some((number_of_end, number(kept)))
}

/// A line of any of the kinds, each about as likely.
fn line_of_any_kind(dice: &mut Dice, draft: &Draft) -> usize {
    match dice.below(5) {
        0 => any_head(dice, draft),
        1 => draft.any_onset(dice),
        2 if draft.bar_lines.is_tapped() => {
            dice.between_edged(draft.playing_head() + 1, draft.first_onset() - 1)
        }
        _ => draft.any_rule(dice),
    }
}

fn bytes_added(dice: &mut Dice, draft: &mut Draft) -> Option<Outcome> {
    let at = line_of_any_kind(dice, draft);
    let more = if dice.one_in(4) {
        // Also counts that would come out right in a byte.
        dice.between_edged(10, 256)
    } else {
        dice.between(1, 4)
    };
    draft.lines[at].extend((0..more).map(|_| dice.byte()));
    Some((4, number(at)))
}

/// A line of 9 bytes or more, of the kind that stood in its place or of any.
fn long_line(dice: &mut Dice, draft: &mut Draft) -> Option<Outcome> {
    let at = line_of_any_kind(dice, draft);
    let kind = match dice.below(2) {
        0 => draft.lines[at][0],
        _ => dice.pick(&[0x47, 0x44, 0x4C, 0x45, 0x42, 0x4E, 0x58]),
    };
    let arity = dice.between(0, 9);
    let count = dice.between_edged(9, 40);
    let mut line = vec![kind, dice.byte(), dice.byte(), dice.byte(), arity as u8];
    line.resize_with(count, || dice.byte());
    // A division of so many parts would have the right count.
    if count == 5 + arity {
        line.push(dice.byte());
    }
    draft.lines[at] = line;
    let by_count = if kind == 0x44 && !(2..=8).contains(&arity) {
        5
    } else {
        4
    };
    let refused_by = refused_by(draft, at, kind).unwrap_or(by_count);
    Some((refused_by, number(at)))
}

fn bytes_removed(dice: &mut Dice, draft: &mut Draft) -> Option<Outcome> {
    let at = line_of_any_kind(dice, draft);
    let kept = dice.between(1, draft.lines[at].len() - 1);
    draft.lines[at].truncate(kept);
    Some((4, number(at)))
}

/// Puts a line in the place of some rule.
fn fresh_rule(dice: &mut Dice, draft: &mut Draft, line: Vec<u8>) -> usize {
    let at = draft.any_rule(dice);
    draft.lines[at] = line;
    at
}

fn fresh_division(dice: &mut Dice, draft: &mut Draft) -> usize {
    let arity = dice.between(2, 8);
    let line = division(dice, draft.nonterminals, arity);
    fresh_rule(dice, draft, line)
}

fn division_one_part_short(dice: &mut Dice, draft: &mut Draft) -> Option<Outcome> {
    let at = fresh_division(dice, draft);
    draft.lines[at].pop();
    Some((4, number(at)))
}

fn short_with_large_names(dice: &mut Dice, draft: &mut Draft) -> Option<Outcome> {
    let at = fresh_division(dice, draft);
    let line = &mut draft.lines[at];
    line[1] = 0xFF;
    line.truncate(dice.between(1, line.len() - 1));
    Some((4, number(at)))
}

fn nonterminals_out_of_range(dice: &mut Dice, draft: &mut Draft) -> Option<Outcome> {
    draft.lines[0][1] = if dice.one_in(3) {
        0
    } else {
        dice.between_edged(17, 255) as u8
    };
    Some((5, 1))
}

/// A name not below Q.
fn large_name(dice: &mut Dice, draft: &Draft) -> u8 {
    dice.between_edged(draft.nonterminals, 255) as u8
}

fn start_out_of_range(dice: &mut Dice, draft: &mut Draft) -> Option<Outcome> {
    draft.lines[0][2] = large_name(dice, draft);
    Some((5, 1))
}

fn rule_head_out_of_range(dice: &mut Dice, draft: &mut Draft) -> Option<Outcome> {
    let at = draft.any_rule(dice);
    draft.lines[at][1] = large_name(dice, draft);
    Some((5, number(at)))
}

fn part_out_of_range(dice: &mut Dice, draft: &mut Draft) -> Option<Outcome> {
    let at = fresh_division(dice, draft);
    let part = dice.between_edged(5, draft.lines[at].len() - 1);
    draft.lines[at][part] = large_name(dice, draft);
    Some((5, number(at)))
}

/// The arity is judged before the count, so the parts may be any.
fn arity_out_of_range(dice: &mut Dice, draft: &mut Draft) -> Option<Outcome> {
    let at = fresh_division(dice, draft);
    let arity = match dice.below(4) {
        0 => dice.below(2),
        _ => dice.between_edged(9, 255),
    };
    let parts = dice.pick(&[0, 1, 2, 8, arity]);
    let line = &mut draft.lines[at];
    line[4] = arity as u8;
    line.resize(5 + parts, 0);
    Some((5, number(at)))
}

fn leaf_n_out_of_range(dice: &mut Dice, draft: &mut Draft) -> Option<Outcome> {
    let line = leaf(dice, draft.nonterminals);
    let at = fresh_rule(dice, draft, line);
    draft.lines[at][4] = dice.between_edged(REST + 1, 255) as u8;
    Some((5, number(at)))
}

fn bars_out_of_range(dice: &mut Dice, draft: &mut Draft) -> Option<Outcome> {
    let at = draft.playing_head();
    draft.lines[at][1] = if dice.one_in(3) {
        0
    } else {
        dice.between_edged(65, 255) as u8
    };
    Some((5, number(at)))
}

fn duration_out_of_range(dice: &mut Dice, draft: &mut Draft) -> Option<Outcome> {
    let duration = if dice.one_in(2) {
        dice.between_edged(1, 999)
    } else {
        dice.between_edged(60_000_001, u32::MAX as usize)
    };
    let at = draft.playing_head();
    draft.lines[at] = playing_head(draft.bar_lines.bars(), duration);
    Some((5, number(at)))
}

fn pitch_out_of_range(dice: &mut Dice, draft: &mut Draft) -> Option<Outcome> {
    let at = draft.any_onset(dice);
    draft.lines[at][5] = dice.between_edged(128, 255) as u8;
    Some((5, number(at)))
}

fn velocity_out_of_range(dice: &mut Dice, draft: &mut Draft) -> Option<Outcome> {
    let at = draft.any_onset(dice);
    draft.lines[at][6] = if dice.one_in(2) {
        0
    } else {
        dice.between_edged(128, 255) as u8
    };
    Some((5, number(at)))
}

fn falling_time(dice: &mut Dice, draft: &mut Draft) -> Option<Outcome> {
    let second = draft.first_onset() + 1;
    let falls: Vec<usize> = (second..draft.lines.len())
        .filter(|&at| draft.time(at - 1) > 0)
        .collect();
    if falls.is_empty() {
        return None;
    }
    let at = dice.pick(&falls);
    let time = dice.between_edged(0, draft.time(at - 1) - 1);
    draft.set_time(at, time);
    Some((6, number(at)))
}

fn falling_and_out_of_range(dice: &mut Dice, draft: &mut Draft) -> Option<Outcome> {
    let (_, line) = falling_time(dice, draft)?;
    draft.lines[usize::from(line) - 1][5] = 0x80;
    Some((5, line))
}

fn time_past_end(dice: &mut Dice, draft: &mut Draft) -> Option<Outcome> {
    let at = draft.any_onset(dice);
    let time = past_end(dice, draft);
    draft.set_time(at, time);
    Some((7, number(at)))
}

fn past_end(dice: &mut Dice, draft: &Draft) -> usize {
    dice.between_edged(draft.end(), u32::MAX as usize)
}

fn fewer_bars(dice: &mut Dice, draft: &mut Draft) -> Option<Outcome> {
    let (at, bars) = (draft.playing_head(), draft.bar_lines.bars());
    let fewer = dice.between(1, bars);
    draft.lines[at][1] = fewer as u8;
    if draft.bar_lines.is_tapped() && fewer < bars {
        // Behind the last tap of so many bars there is one more.
        return Some((17, number(at + fewer + 2)));
    }
    draft.bar_lines = draft.bar_lines.front(fewer);
    let late = (draft.first_onset()..draft.lines.len()).find(|&at| draft.time(at) >= draft.end());
    Some(late.map_or((0, 0), |at| (7, number(at))))
}

fn rule_65(dice: &mut Dice, draft: &mut Draft) -> Option<Outcome> {
    let wanted = MAX_RULES + dice.between(1, 3);
    while draft.rules < wanted {
        let line = rule(dice, draft.nonterminals);
        draft.lines.insert(draft.playing_head(), line);
        draft.rules += 1;
    }
    Some((8, number(MAX_RULES + 1)))
}

fn rule_65_out_of_range(dice: &mut Dice, draft: &mut Draft) -> Option<Outcome> {
    let (_, line) = rule_65(dice, draft)?;
    draft.lines[usize::from(line) - 1][1] = large_name(dice, draft);
    Some((5, line))
}

/// Puts a sheet of 513 onsets in the draft's place; gives the last's place.
fn add_onset_513(dice: &mut Dice, draft: &mut Draft) -> usize {
    *draft = draft_513(dice, moments::SHORTEST);
    draft.lines.len() - 1
}

/// A sheet of 513 onsets, with no bar shorter than a duration, and all else valid.
pub fn draft_513(dice: &mut Dice, shortest: usize) -> Draft {
    let rules = dice.between(1, MAX_RULES);
    let bars = dice.between_edged(16, 64);
    let bar_lines = bar_lines::any_from(dice, bars, shortest);
    let times = moments::times(dice, &bar_lines, MAX_ONSETS);
    let mut draft = draft_at(dice, rules, bar_lines, &times);
    let time = dice.between_edged(times[MAX_ONSETS - 1], draft.end() - 1);
    draft.lines.push(onset(dice, time));
    draft
}

fn onset_513(dice: &mut Dice, draft: &mut Draft) -> Option<Outcome> {
    let at = add_onset_513(dice, draft);
    Some((8, number(at)))
}

fn onset_513_past_end(dice: &mut Dice, draft: &mut Draft) -> Option<Outcome> {
    let at = add_onset_513(dice, draft);
    let time = past_end(dice, draft);
    draft.set_time(at, time);
    Some((7, number(at)))
}

/// Of 512 onsets in sixteen bars or more the last is never at 0.
fn onset_513_falling(dice: &mut Dice, draft: &mut Draft) -> Option<Outcome> {
    let at = add_onset_513(dice, draft);
    let time = dice.between_edged(0, draft.time(at - 1) - 1);
    draft.set_time(at, time);
    Some((6, number(at)))
}

fn onset_33_of_a_bar(dice: &mut Dice, draft: &mut Draft) -> Option<Outcome> {
    let bar = dice.below(draft.bar_lines.bars());
    let times = times_of_bar(bar, &draft.bar_lines);
    let (left, right) = (times.start, times.end);
    let first = draft.first_onset();
    let place = |draft: &Draft, time| {
        let onsets = first..draft.lines.len();
        onsets.take_while(|&at| draft.time(at) < time).count() + first
    };
    let wanted = MAX_BAR_ONSETS + dice.between(1, 3);
    while place(draft, right) - place(draft, left) < wanted {
        let time = time_in(dice, bar, &draft.bar_lines, None);
        let line = onset(dice, time);
        draft.lines.insert(place(draft, time), line);
    }
    let in_bar = place(draft, left) + MAX_BAR_ONSETS;
    // The added onsets may have pushed onset 513 in before.
    Some((8, number(in_bar.min(first + MAX_ONSETS))))
}

// Damage to the form of a text of closed lines. Whatever else is wrong with
// the text, refusal 2 goes first.

type FormDamage = (&'static str, fn(&mut Dice, &mut Vec<u8>) -> Outcome);

const FORM_DAMAGES: [FormDamage; 8] = [
    ("foreign byte", foreign_byte),
    ("lower case", lower_case),
    ("digit removed", digit_removed),
    ("digit added", digit_added),
    ("empty line", empty_line),
    ("carriage return", carriage_return),
    ("last line not closed", end_dropped),
    ("unclosed line added", unclosed_line_added),
];

/// The place of some digit, and its line's number.
fn any_digit(dice: &mut Dice, text: &[u8]) -> (usize, u16) {
    loop {
        let at = dice.below(text.len());
        if text[at] != b'\n' {
            return (at, line_at(text, at));
        }
    }
}

fn line_at(text: &[u8], at: usize) -> u16 {
    let closed = text[..at].iter().filter(|&&byte| byte == b'\n').count();
    number(closed)
}

/// The places where a line begins, and last the end of the text.
fn line_starts(text: &[u8]) -> Vec<usize> {
    let ends = text.iter().enumerate().filter(|(_, &byte)| byte == b'\n');
    std::iter::once(0)
        .chain(ends.map(|(at, _)| at + 1))
        .collect()
}

fn foreign_byte(dice: &mut Dice, text: &mut Vec<u8>) -> Outcome {
    let (at, line) = any_digit(dice, text);
    text[at] = loop {
        // The neighbours of the digits' ranges are likeliest to slip through.
        let byte = match dice.below(2) {
            0 => dice.pick(b"/:@G`g \t\r\0\x0b\x7f\x80\xff"),
            _ => dice.byte(),
        };
        if byte != b'\n' && !DIGITS.contains(&byte) {
            break byte;
        }
    };
    (2, line)
}

fn lower_case(dice: &mut Dice, text: &mut Vec<u8>) -> Outcome {
    let (at, line) = any_digit(dice, text);
    text[at] = dice.pick(b"abcdef");
    (2, line)
}

fn digit_removed(dice: &mut Dice, text: &mut Vec<u8>) -> Outcome {
    let (at, line) = any_digit(dice, text);
    text.remove(at);
    (2, line)
}

fn digit_added(dice: &mut Dice, text: &mut Vec<u8>) -> Outcome {
    let (at, line) = any_digit(dice, text);
    text.insert(at, dice.digit());
    (2, line)
}

fn empty_line(dice: &mut Dice, text: &mut Vec<u8>) -> Outcome {
    let starts = line_starts(text);
    let line = dice.between_edged(0, starts.len() - 1);
    text.insert(starts[line], b'\n');
    (2, number(line))
}

fn carriage_return(dice: &mut Dice, text: &mut Vec<u8>) -> Outcome {
    let starts = line_starts(text);
    let line = dice.below(starts.len() - 1);
    text.insert(starts[line + 1] - 1, b'\r');
    (2, number(line))
}

fn end_dropped(_: &mut Dice, text: &mut Vec<u8>) -> Outcome {
    text.pop();
    (2, line_at(text, text.len()))
}

fn unclosed_line_added(dice: &mut Dice, text: &mut Vec<u8>) -> Outcome {
    let line = line_at(text, text.len());
    for _ in 0..dice.between(1, 16) {
        text.push(dice.digit());
    }
    (2, line)
}

// Texts made as a whole.

type Make = (&'static str, fn(&mut Dice) -> (Vec<u8>, Option<Outcome>));

const MAKES: [Make; 11] = [
    ("badly formed line after a refused one", badly_formed_later),
    ("text cut", text_cut),
    ("text cut after a line", text_cut_after_line),
    ("byte changed", byte_changed),
    ("digits changed", digits_changed),
    ("random bytes", random_bytes),
    ("random digits and line ends", random_digits),
    ("random lines", random_lines),
    ("many short lines", many_short_lines),
    ("near the longest text, long lines", long_lines_near_limit),
    ("near the longest text, onsets", onsets_near_limit),
];

/// A damaged sheet with one line more, and after its refused line, whatever that
/// is refused for, a badly formed one, which must go first.
fn badly_formed_later(dice: &mut Dice) -> (Vec<u8>, Option<Outcome>) {
    let mut draft = draft(dice);
    let (_, damage) = any_damage(dice);
    let refused = damage(dice, &mut draft).map_or(0, |(_, line)| usize::from(line));
    // A sheet that ends too early is refused past its last line.
    let kept = refused.min(draft.lines.len());
    draft.lines.push(vec![0x4E]);
    let mut later = text_of(&draft.lines.split_off(kept));
    let (_, damage) = dice.pick(&FORM_DAMAGES);
    let (number, line) = damage(dice, &mut later);
    let text = [draft.text(), later].concat();
    (text, Some((number, kept as u16 + line)))
}

fn text_cut(dice: &mut Dice) -> (Vec<u8>, Option<Outcome>) {
    let mut text = draft(dice).text();
    text.truncate(dice.between_edged(0, text.len() - 1));
    (text, None)
}

fn text_cut_after_line(dice: &mut Dice) -> (Vec<u8>, Option<Outcome>) {
    let mut text = draft(dice).text();
    let starts = line_starts(&text);
    text.truncate(dice.pick(&starts));
    (text, None)
}

fn byte_changed(dice: &mut Dice) -> (Vec<u8>, Option<Outcome>) {
    let mut text = draft(dice).text();
    let at = dice.below(text.len());
    text[at] = dice.byte();
    (text, None)
}

/// Keeps the form, so that the later refusals are reached.
fn digits_changed(dice: &mut Dice) -> (Vec<u8>, Option<Outcome>) {
    let mut text = draft(dice).text();
    change_digits(dice, &mut text);
    (text, None)
}

fn change_digits(dice: &mut Dice, text: &mut [u8]) {
    for _ in 0..dice.between(1, 3) {
        let (at, _) = any_digit(dice, text);
        text[at] = dice.digit();
    }
}

/// Damages the text of a valid sheet made elsewhere; gives what was done and
/// the outcome it must have, if that is settled.
pub fn damage(dice: &mut Dice, text: &mut Vec<u8>) -> (&'static str, Option<Outcome>) {
    if dice.one_in(2) {
        change_digits(dice, text);
        return ("digits changed", None);
    }
    let (made, damage) = dice.pick(&FORM_DAMAGES);
    (made, Some(damage(dice, text)))
}

fn random_bytes(dice: &mut Dice) -> (Vec<u8>, Option<Outcome>) {
    let count = dice.between_edged(0, 200);
    ((0..count).map(|_| dice.byte()).collect(), None)
}

fn random_digits(dice: &mut Dice) -> (Vec<u8>, Option<Outcome>) {
    let count = dice.between_edged(0, 60);
    let text = (0..count).map(|_| match dice.below(6) {
        0 => b'\n',
        _ => dice.digit(),
    });
    (text.collect(), None)
}

/// Well-formed lines of known kinds and any bytes after.
fn random_lines(dice: &mut Dice) -> (Vec<u8>, Option<Outcome>) {
    let mut text = Vec::new();
    for at in 0..dice.between(1, 8) {
        let kind = if at == 0 { 0x47 } else { dice.pick(&KINDS) };
        let more = dice.between(3, 7);
        let line = std::iter::once(kind).chain((0..more).map(|_| dice.below(9) as u8));
        write_line(&mut text, &line.collect::<Vec<u8>>());
    }
    (text, None)
}

/// Up to as many lines as a text can hold. The first is refused by its count,
/// unless the form is damaged, which may be on a line of a large number.
fn many_short_lines(dice: &mut Dice) -> (Vec<u8>, Option<Outcome>) {
    let lines = dice.between_edged(1, MAX_TEXT / 3);
    let mut text = b"47\n".repeat(lines);
    if dice.one_in(4) {
        return (text, Some((4, 1)));
    }
    let (_, damage) = dice.pick(&FORM_DAMAGES);
    let within = damage(dice, &mut text);
    near_limit(text, within)
}

/// From two bytes below the longest text to two bytes above it.
fn length_near_limit(dice: &mut Dice) -> usize {
    MAX_TEXT - 2 + dice.below(5)
}

/// Refusal 1 if the text is too long, else what its lines are refused for.
fn near_limit(text: Vec<u8>, within: Outcome) -> (Vec<u8>, Option<Outcome>) {
    let aim = if text.len() > MAX_TEXT {
        (1, 0)
    } else {
        within
    };
    (text, Some(aim))
}

/// A valid sheet and then onset lines of wrong counts, up to the wanted length.
fn long_lines_near_limit(dice: &mut Dice) -> (Vec<u8>, Option<Outcome>) {
    let length = length_near_limit(dice);
    let mut text = draft(dice).text();
    let line = line_at(&text, text.len());
    pad(&mut text, length);
    near_limit(text, (4, line))
}

/// A closed line has an odd number of bytes, so one or two lines meet any length.
fn pad(text: &mut Vec<u8>, length: usize) {
    if (length - text.len()) % 2 == 0 {
        write_line(text, &[0x4E]);
    }
    let bytes = (length - text.len() - 1) / 2;
    write_line(text, &vec![0x4E; bytes]);
}

/// A sheet whose last onset is repeated far past what a bar may hold.
fn onsets_near_limit(dice: &mut Dice) -> (Vec<u8>, Option<Outcome>) {
    let length = length_near_limit(dice);
    let draft = draft_of(dice, 3, 1, 1);
    let mut text = draft.text();
    while text.len() + 100 < length {
        write_line(&mut text, &draft.lines[draft.first_onset()]);
    }
    pad(&mut text, length);
    near_limit(text, (8, number(draft.first_onset() + MAX_BAR_ONSETS)))
}

/// The next text to compare on.
pub fn case(dice: &mut Dice) -> Case {
    match dice.below(8) {
        0 | 1 => valid(dice),
        2..=5 => damaged(dice),
        6 => badly_formed(dice),
        _ => made(dice),
    }
}

fn valid(dice: &mut Dice) -> Case {
    Case {
        text: draft(dice).text(),
        made: "valid sheet",
        aim: Some((0, 0)),
    }
}

fn damaged(dice: &mut Dice) -> Case {
    let (made, damage) = any_damage(dice);
    let mut draft = draft(dice);
    let aim = damage(dice, &mut draft);
    let mut text = draft.text();
    // Now and then also a badly formed line, which must go first.
    if dice.one_in(6) {
        let (made, damage) = dice.pick(&FORM_DAMAGES);
        let aim = Some(damage(dice, &mut text));
        return Case { text, made, aim };
    }
    Case { text, made, aim }
}

fn badly_formed(dice: &mut Dice) -> Case {
    let (made, damage) = dice.pick(&FORM_DAMAGES);
    let mut text = draft(dice).text();
    let aim = Some(damage(dice, &mut text));
    Case { text, made, aim }
}

fn made(dice: &mut Dice) -> Case {
    let (made, make) = dice.pick(&MAKES);
    let (text, aim) = make(dice);
    Case { text, made, aim }
}
