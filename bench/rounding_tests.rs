//! The tests of the rounding of times to units: the conversion against its definition,
//! the documents' cases and the limits.

use crate::bar_lines::{any, BarLines};
use crate::moments::{duration_from, first_time, BAR, ROUNDED_UP};
use crate::peer::bars::{first_past_end, Bar};
use crate::peer::{self, Refusal, Sheet, BAR_UNITS};
use crate::sheets::Dice;
use crate::trees;

// The conversion.

/// Of the units around a time the nearest, and of two as near the later.
fn nearest(time: u32, duration: u32) -> u32 {
    let (time, duration) = (u64::from(time), u64::from(duration));
    let share = time * u64::from(BAR_UNITS);
    let around = (share / duration).saturating_sub(2)..=share / duration + 3;
    let distance = |unit: &u64| share.abs_diff(unit * duration);
    // Of equals the first is given.
    around.rev().min_by_key(distance).unwrap() as u32
}

/// By evenly spaced bar lines.
fn check(time: u32, duration: u32) {
    let lines: Vec<u32> = (0..=66).map(|line| line * duration).collect();
    let mut bar = Bar::at(0, &lines);
    bar.go_to(time, &lines);
    let unit = bar.unit(time);
    assert_eq!(unit, nearest(time, duration), "{time} of {duration}");
}

#[test]
fn every_time_of_short_bars() {
    for duration in [
        1_000, 1_001, 1_023, 1_024, 3_333, 20_159, 20_160, 20_161, 40_319, 40_320, 40_321,
    ] {
        let last = 63 * duration;
        (0..2 * duration).for_each(|time| check(time, duration));
        (last..last + duration).for_each(|time| check(time, duration));
    }
}

#[test]
fn times_around_units_and_halves() {
    let mut dice = Dice::new(5);
    for _ in 0..200_000 {
        let duration = duration_from(&mut dice, ROUNDED_UP);
        let unit = dice.between_edged(1, 64 * BAR);
        let turn = first_time(unit, &BarLines::even(64, duration));
        let (exact, duration) = (unit * duration / BAR, duration as u32);
        for time in [turn - 1, turn, turn + 1, exact, exact + 1] {
            check(time as u32, duration);
        }
        // So the generator's rule is held to the definition too.
        assert!(nearest(turn as u32, duration) >= unit as u32);
        assert!(nearest(turn as u32 - 1, duration) < unit as u32);
    }
}

/// In the last of the longest bars the conversion errs most, and there a time is nearest
/// to a half that it does not reach.
#[test]
fn as_near_to_a_half_as_can_be() {
    for duration in [59_999_999, 59_999_993, 59_999_837] {
        let past_unit = |time: &u32| u64::from(*time) * u64::from(BAR_UNITS) % duration;
        let time = (0..duration as u32).find(|time| 2 * past_unit(time) + 1 == duration);
        let time = time.expect("the duration has no divisor of a bar's units");
        let duration = duration as u32;
        for bar in [0, 1, 62, 63] {
            check(bar * duration + time, duration);
            // The same distance on the other side.
            check((bar + 1) * duration - time, duration);
        }
    }
}

#[test]
fn first_time_past_the_end() {
    let mut dice = Dice::new(6);
    for _ in 0..100_000 {
        let bars = dice.between_edged(1, 64);
        let lines = any(&mut dice, bars);
        let moments: Vec<u32> = (0..=bars).map(|line| lines.line(line) as u32).collect();
        let first = first_past_end(&moments) - moments[bars - 1];
        let duration = lines.duration(bars - 1) as u32;
        assert!(nearest(first, duration) >= BAR_UNITS, "{lines:?}");
        assert!(nearest(first - 1, duration) < BAR_UNITS, "{lines:?}");
    }
}

// Sheets.

/// The sheet S with other bars and other onsets.
pub fn text(bars: u32, duration: u32, times: &[u32]) -> Vec<u8> {
    let grammar = peer::tests::S[..5].join("\n");
    let onsets = times.iter().map(|time| format!("4E{time:08X}3C40\n"));
    let onsets: String = onsets.collect();
    format!("{grammar}\n45{bars:02X}{duration:08X}\n{onsets}").into_bytes()
}

fn read(bars: u32, duration: u32, times: &[u32]) -> Result<Sheet, Refusal> {
    peer::read(&text(bars, duration, times))
}

/// The units of onsets, which are accepted.
fn units(bars: u32, duration: u32, times: &[u32]) -> Vec<u32> {
    let sheet = read(bars, duration, times).expect("the sheet is accepted");
    sheet.onsets.iter().map(|onset| onset.0).collect()
}

/// The work cells required, 16 × (2 × 7 × E + B).
fn cells(bars: u32, duration: u32, times: &[u32]) -> u64 {
    peer::work_cells(&read(bars, duration, times).expect("the sheet is accepted"))
}

pub const TWO_SECONDS: u32 = 2_000_000;

/// The times of 32 onsets at each bar line.
pub fn full_bars(bars: u32) -> Vec<u32> {
    (0..bars).flat_map(|bar| [bar * TWO_SECONDS; 32]).collect()
}

#[test]
fn units_by_hand() {
    assert_eq!(units(1, 40_320, &[0, 1, 2, 3]), [0, 1, 1, 2]);
    assert_eq!(units(1, 40_320, &[40_317, 40_318]), [20_159, 20_159]);
    let times = [3_124, 3_125, 3_126, 1_333_333];
    assert_eq!(units(1, TWO_SECONDS, &times), [31, 32, 32, 13_440]);
    // Half a unit is 49.6 microseconds.
    let times = [49, 50, 1_999_950, 1_999_951, 2_000_049, 2_000_050];
    let around = [0, 1, 20_159, 20_160, 20_160, 20_161];
    assert_eq!(units(2, TWO_SECONDS, &times), around);
    // A short bar has times only for some units.
    assert_eq!(units(1, 1_000, &[0, 1, 2, 999]), [0, 20, 40, 20_140]);
}

/// Document 02: perfect thirds cost nothing.
#[test]
fn thirds_land() {
    let lines = [
        "4701000000",
        "4C00000001",
        "4400000003000000",
        "4501001E8480",
        "4E000000003C40",
        "4E000A2C2B3C40",
        "4E001458553C40",
    ];
    let sheet = peer::read((lines.join("\n") + "\n").as_bytes()).unwrap();
    assert_eq!(sheet.onsets, [(0, 60), (6_720, 60), (13_440, 60)]);
    let price = trees::price(&sheet, &[1, 0, 0, 0]).expect("the tree is valid");
    assert_eq!(price.d, 0);
}

#[test]
fn a_unit_at_the_end_is_refused() {
    let refusal = |bars, duration, times: &[u32]| read(bars, duration, times).err();
    assert_eq!(refusal(1, TWO_SECONDS, &[1_999_999]), Some((7, 7)));
    assert_eq!(refusal(1, TWO_SECONDS, &[0, 1_999_951]), Some((7, 8)));
    assert_eq!(refusal(1, TWO_SECONDS, &[0, 1_999_950]), None);
    assert_eq!(refusal(64, 60_000_000, &[3_839_998_511]), None);
    assert_eq!(refusal(64, 60_000_000, &[3_839_998_512]), Some((7, 7)));
    // An exact half is past the end, and with fewer microseconds none is so.
    assert_eq!(refusal(1, 40_320, &[40_319]), Some((7, 7)));
    assert_eq!(refusal(1, 40_319, &[40_318]), None);
    assert_eq!(refusal(1, 1_000, &[999]), None);
    assert_eq!(refusal(1, 1_000, &[u32::MAX]), Some((7, 7)));
}

#[test]
fn rounded_up_to_the_next_bar() {
    assert_eq!(units(2, TWO_SECONDS, &[0, 1_999_999]), [0, 20_160]);
    // E is 1, and 2 by times; then the other way.
    assert_eq!(cells(2, TWO_SECONDS, &[0, 1_999_999]), 16 * (14 + 2));
    let both_in_bar_2 = [1_999_999, 2_000_000];
    assert_eq!(cells(2, TWO_SECONDS, &both_in_bar_2), 16 * (28 + 2));
}

#[test]
fn a_full_bar_by_rounding() {
    let refusal = |bars, times: [&[u32]; 2]| read(bars, TWO_SECONDS, &times.concat()).err();
    // 32 onsets and one are on lines 7 to 39.
    let (bar_1, bar_2) = ([1_000; 32], [2_001_000; 32]);
    assert_eq!(refusal(2, [&[1_999_951], &bar_2]), Some((8, 39)));
    assert_eq!(refusal(2, [&[1_999_950], &bar_2]), None);
    assert_eq!(refusal(2, [&[1_999_951], &bar_2[..31]]), None);
    // In bar 1 by time, but by its unit not.
    assert_eq!(refusal(2, [&bar_1, &[1_999_951]]), None);
    assert_eq!(refusal(2, [&bar_1, &[1_999_950]]), Some((8, 39)));
    let full = [&bar_1[..], &[1_999_951]].concat();
    assert_eq!(cells(2, TWO_SECONDS, &full), 16 * (14 * 32 + 2));
    // Where no bar follows, the unit is judged before the number of onsets.
    assert_eq!(refusal(1, [&bar_1, &[1_999_951]]), Some((7, 39)));
}

#[test]
fn a_unit_at_the_end_goes_before_onset_513() {
    let with = |more: &[u32]| read(16, TWO_SECONDS, &[&full_bars(16), more].concat()).err();
    assert_eq!(with(&[]), None);
    assert_eq!(with(&[31_999_950]), Some((8, 519)));
    assert_eq!(with(&[31_999_951]), Some((7, 519)));
    assert_eq!(with(&[32_000_000]), Some((7, 519)));
}
