//! Damage to the taps of a draft, to what stands among them, and to onsets by the first
//! and the last tap. Each gives the outcome it must have.

use crate::bar_lines::{any_tapped, tap, LAST_MOMENT};
use crate::moments::{duration, LONGEST, SHORTEST};
use crate::sheets::{
    any_unknown_kind, draft_in, number, playing_head, Damage, Dice, Draft, Outcome,
};

pub const DAMAGES: [Damage; 17] = [
    ("tap behind the last", tap_behind_last),
    ("tap after onsets", tap_after_onsets),
    ("malformed tap behind the last", malformed_tap_behind),
    ("other line before the last tap", other_line_before_last),
    ("ends among the taps", ends_among_taps),
    ("tapped without taps", without_taps),
    ("a bar more than is tapped", bar_more),
    ("step out of range", step_out_of_range),
    ("tap that does not rise", tap_not_risen),
    ("step right in 32 bits alone", step_wraps),
    ("tap of another count", tap_of_other_count),
    ("onset before the first tap", before_first_tap),
    ("faulty onset before the first tap", faulty_before_first_tap),
    ("onset at or past the last tap", past_last_tap),
    ("tap in a plain sheet", tap_in_plain),
    ("tap before the playing head", tap_before_head),
    ("tapped, bars out of range", bars_out_of_range),
];

// Drafts of either sort.

/// Puts a tapped sheet in a plain draft's place.
fn make_tapped(dice: &mut Dice, draft: &mut Draft) {
    if !draft.bar_lines.is_tapped() {
        tap_anew(dice, draft);
    }
}

fn tap_anew(dice: &mut Dice, draft: &mut Draft) {
    let bar_lines = any_tapped(dice, draft.bar_lines.bars(), SHORTEST);
    let onsets = dice.between(1, 20);
    *draft = draft_in(dice, draft.rules, bar_lines, onsets);
}

fn first_tap(draft: &Draft) -> usize {
    draft.playing_head() + 1
}

/// The place of a tap, or of a tap that has a step.
fn any_tap(dice: &mut Dice, draft: &Draft, from: usize) -> (usize, usize) {
    let line = dice.between_edged(from, draft.bar_lines.bars());
    (line, first_tap(draft) + line)
}

// Refusal 17.

/// A tap that would go on with the others, or any.
fn one_more_tap(dice: &mut Dice, draft: &Draft) -> Vec<u8> {
    let next = draft.bar_lines.last() + duration(dice);
    let any = dice.between_edged(0, LAST_MOMENT);
    tap(dice.pick(&[next.min(LAST_MOMENT), any]))
}

fn tap_behind_last(dice: &mut Dice, draft: &mut Draft) -> Option<Outcome> {
    make_tapped(dice, draft);
    let (at, line) = (draft.first_onset(), one_more_tap(dice, draft));
    draft.lines.insert(at, line);
    Some((17, number(at)))
}

fn tap_after_onsets(dice: &mut Dice, draft: &mut Draft) -> Option<Outcome> {
    make_tapped(dice, draft);
    let at = dice.between_edged(draft.first_onset() + 1, draft.lines.len());
    let line = one_more_tap(dice, draft);
    draft.lines.insert(at, line);
    Some((17, number(at)))
}

fn malformed_tap_behind(dice: &mut Dice, draft: &mut Draft) -> Option<Outcome> {
    let behind = dice.pick(&[tap_behind_last, tap_after_onsets]);
    let outcome = behind(dice, draft)?;
    let bytes = dice.pick(&[1, 2, 4, 6, 7]);
    draft.lines[usize::from(outcome.1) - 1].resize(bytes, 0);
    Some(outcome)
}

fn other_line_before_last(dice: &mut Dice, draft: &mut Draft) -> Option<Outcome> {
    make_tapped(dice, draft);
    let (_, at) = any_tap(dice, draft, 0);
    let line = match dice.below(5) {
        0 => draft.lines[draft.first_onset()].clone(),
        1 => vec![any_unknown_kind(dice), 0],
        2 => draft.lines[draft.playing_head()].clone(),
        3 => draft.lines[dice.between(0, draft.rules)].clone(),
        // Its other faults come later.
        _ => vec![0x4E; dice.between(1, 7)],
    };
    draft.lines.insert(at, line);
    Some((17, number(at)))
}

/// Or right behind it, where the text lacks an onset and no tap.
fn ends_among_taps(dice: &mut Dice, draft: &mut Draft) -> Option<Outcome> {
    make_tapped(dice, draft);
    let behind = draft.first_onset();
    let at = dice.between_edged(first_tap(draft), behind);
    draft.lines.truncate(at);
    Some((if at < behind { 17 } else { 3 }, number(at)))
}

/// The draft is plain or made so by dropping its taps.
fn without_taps(_: &mut Dice, draft: &mut Draft) -> Option<Outcome> {
    let (at, onsets) = (draft.playing_head(), draft.first_onset());
    draft.lines[at] = playing_head(draft.bar_lines.bars(), 0);
    draft.lines.drain(at + 1..onsets);
    Some((17, number(at + 1)))
}

fn bar_more(dice: &mut Dice, draft: &mut Draft) -> Option<Outcome> {
    make_tapped(dice, draft);
    let (at, bars) = (draft.playing_head(), draft.bar_lines.bars());
    draft.lines[at][1] += 1;
    Some(match bars {
        64 => (5, number(at)),
        _ => (17, number(draft.first_onset())),
    })
}

// Refusal 18, and 4 before it.

fn set_tap(draft: &mut Draft, at: usize, moment: usize) -> Outcome {
    draft.lines[at] = tap(moment);
    (18, number(at))
}

/// A step of 999 microseconds or fewer, or of 60,000,001 or more.
fn step_out_of_range(dice: &mut Dice, draft: &mut Draft) -> Option<Outcome> {
    make_tapped(dice, draft);
    let (line, at) = any_tap(dice, draft, 1);
    let before = draft.bar_lines.line(line - 1);
    let room = LAST_MOMENT - before;
    let step = match dice.below(4) {
        0 if room > LONGEST => LONGEST + 1,
        1 if room > LONGEST => dice.between(LONGEST + 1, room),
        2 => SHORTEST - 1,
        _ => dice.between(1, SHORTEST - 1),
    };
    Some(set_tap(draft, at, before + step))
}

fn tap_not_risen(dice: &mut Dice, draft: &mut Draft) -> Option<Outcome> {
    make_tapped(dice, draft);
    let (line, at) = any_tap(dice, draft, 1);
    let before = draft.bar_lines.line(line - 1);
    let step = duration(dice);
    let fallen = dice.pick(&[0, 1, step, before]);
    Some(set_tap(draft, at, before.saturating_sub(fallen)))
}

/// A tap past all moments, so that it falls by what 32 bits hold of it.
fn step_wraps(dice: &mut Dice, draft: &mut Draft) -> Option<Outcome> {
    let last = loop {
        tap_anew(dice, draft);
        let last = draft.bar_lines.bars();
        let room = LAST_MOMENT - draft.bar_lines.line(last - 1);
        if room < LONGEST {
            break last;
        }
    };
    let before = draft.bar_lines.line(last - 1);
    let least = (LAST_MOMENT - before + 1).max(SHORTEST);
    let moment = before + dice.between_edged(least, LONGEST);
    let at = first_tap(draft) + last;
    Some(set_tap(draft, at, moment % (LAST_MOMENT + 1)))
}

/// Most often of one byte less or more, now and then with a step that is wrong too.
fn tap_of_other_count(dice: &mut Dice, draft: &mut Draft) -> Option<Outcome> {
    make_tapped(dice, draft);
    let (line, at) = any_tap(dice, draft, 0);
    if line > 0 && dice.one_in(2) {
        set_tap(draft, at, draft.bar_lines.line(line - 1));
    }
    let bytes = dice.pick(&[1, 4, 4, 4, 6, 6, 6, 9]);
    draft.lines[at].resize(bytes, 0);
    Some((4, number(at)))
}

// Onsets by the first and the last tap.

fn before_first_tap(dice: &mut Dice, draft: &mut Draft) -> Option<Outcome> {
    make_tapped(dice, draft);
    while draft.bar_lines.line(0) == 0 {
        tap_anew(dice, draft);
    }
    let at = draft.first_onset();
    let time = dice.between_edged(0, draft.bar_lines.line(0) - 1);
    draft.set_time(at, time);
    Some((19, number(at)))
}

/// The count and the other fields are judged before the time.
fn faulty_before_first_tap(dice: &mut Dice, draft: &mut Draft) -> Option<Outcome> {
    let (_, line) = before_first_tap(dice, draft)?;
    let onset = &mut draft.lines[usize::from(line) - 1];
    let (pitch, velocity, bytes) = dice.pick(&[(128, 1, 7), (0, 0, 7), (128, 0, 8)]);
    (onset[5], onset[6]) = (pitch, velocity);
    onset.resize(bytes, 0);
    Some((if bytes == 7 { 5 } else { 4 }, line))
}

fn past_last_tap(dice: &mut Dice, draft: &mut Draft) -> Option<Outcome> {
    make_tapped(dice, draft);
    let (at, last) = (draft.any_onset(dice), draft.bar_lines.last());
    let time = dice.between_edged(last, LAST_MOMENT);
    draft.set_time(at, time);
    Some((7, number(at)))
}

// Refusals 3 and 5.

/// Where the draft has taps, its duration is made plain.
fn tap_in_plain(dice: &mut Dice, draft: &mut Draft) -> Option<Outcome> {
    let at = draft.playing_head();
    if draft.bar_lines.is_tapped() {
        draft.lines[at] = playing_head(draft.bar_lines.bars(), duration(dice));
        return Some((3, number(at + 1)));
    }
    let place = dice.between_edged(at + 1, draft.lines.len());
    let mut line = one_more_tap(dice, draft);
    line.truncate(dice.pick(&[1, 4, 5, 5, 5]));
    draft.lines.insert(place, line);
    Some((3, number(place)))
}

fn tap_before_head(dice: &mut Dice, draft: &mut Draft) -> Option<Outcome> {
    let at = dice.between_edged(0, draft.playing_head());
    let line = one_more_tap(dice, draft);
    draft.lines.insert(at, line);
    Some((3, number(at)))
}

fn bars_out_of_range(dice: &mut Dice, draft: &mut Draft) -> Option<Outcome> {
    make_tapped(dice, draft);
    let at = draft.playing_head();
    draft.lines[at][1] = dice.pick(&[0, 65, 66, 255]);
    Some((5, number(at)))
}
