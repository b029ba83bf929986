//! The tests of what is generated for the rounding of times to units, and of what is
//! counted of it.

use crate::fixed;
use crate::peer;
use crate::playing::{BySort, Counts};
use crate::rounded::{Limits, Rounded};
use crate::rounding_tests::{full_bars, text, TWO_SECONDS};
use crate::sheets::{self, Dice};
use crate::twins::twin;

#[test]
fn the_timing_sheets_are_accepted() {
    for text in [fixed::plain(), fixed::tapped()] {
        let sheet = peer::read(&text).unwrap();
        assert_eq!((sheet.onsets.len(), sheet.bars), (512, 24));
    }
}

/// What a text and, as the other sort, its tapped twin show.
fn shown<T: Counts + Default>(
    text: &[u8],
    mut add: impl FnMut(&mut BySort<T>, &[u8]),
) -> [Vec<usize>; 2] {
    let outcome = peer::read(text).err().unwrap_or((0, 0));
    let (twin, _) = twin(text, outcome).expect("the text has a twin");
    let mut counts = BySort::default();
    add(&mut counts, text);
    add(&mut counts, &twin);
    let numbers = |counts: &T| counts.named().iter().map(|counted| counted.1).collect();
    counts.sorts().map(|(_, counts)| numbers(counts))
}

/// All that is counted is met hundreds of times in 100,000 texts, and every text has the
/// outcome that it was made for.
#[test]
fn generated_texts() {
    let mut dice = Dice::new(7);
    let (mut rounded, mut limits) = (BySort::<Rounded>::default(), BySort::<Limits>::default());
    for _ in 0..10_000 {
        let case = sheets::case(&mut dice);
        let outcome = peer::read(&case.text).err().unwrap_or((0, 0));
        let aim = case.aim.unwrap_or(outcome);
        assert_eq!(outcome, aim, "{}", case.made);
        if outcome == (0, 0) {
            rounded.add(&case.text);
        }
        limits.add(&case.text, outcome);
    }
    rounded.print();
    limits.print();
    let rounded = rounded.sorts().map(|(_, rounded)| rounded.named()).concat();
    let limits = limits.sorts().map(|(_, limits)| limits.named()).concat();
    let mut counted = rounded.iter().chain(&limits);
    assert!(counted.all(|(_, count)| *count >= 10));
}

/// By what is counted: a half, before a half, to a bar line, another E, short bars.
#[test]
fn rounded_by_hand() {
    let cases: [(u32, u32, &[u32], [usize; 5]); 9] = [
        (1, TWO_SECONDS, &[0, 3_126, 1_000_000], [0; 5]),
        (1, TWO_SECONDS, &[3_125], [1, 0, 0, 0, 0]),
        (1, TWO_SECONDS, &[3_124], [0, 1, 0, 0, 0]),
        (1, TWO_SECONDS, &[49], [0, 1, 0, 0, 0]),
        (2, TWO_SECONDS, &[1_999_951], [0, 0, 1, 0, 0]),
        (2, TWO_SECONDS, &[0, 1_999_999], [0, 0, 1, 1, 0]),
        (2, 40_320, &[40_319, 40_320], [1, 1, 1, 1, 0]),
        (1, 1_000, &[999], [0, 0, 0, 0, 1]),
        (1, 20_160, &[20_159], [0; 5]),
    ];
    for (bars, duration, times, expected) in cases {
        let shown = shown(&text(bars, duration, times), BySort::<Rounded>::add);
        assert_eq!(shown, [expected; 2], "{bars} {duration} {times:?}");
    }
    assert!(!BySort::<Rounded>::default().all_met());
}

/// By what is counted: the last time, 33 by times, 7 by the unit, at onset 513, at a full
/// bar, 8 by rounding.
#[test]
fn limits_by_hand() {
    let bar_1 = |time| [&full_bars(1)[..], &[time]].concat();
    let bars_16 = |time| [&full_bars(16)[..], &[time]].concat();
    let up = [&[1_999_999][..], &[2_000_000; 32]].concat();
    let cases = [
        (1, vec![1_999_949], [0; 6]),
        (1, vec![1_999_950], [1, 0, 0, 0, 0, 0]),
        (1, vec![1_999_951], [0, 0, 1, 0, 0, 0]),
        (1, vec![2_000_000], [0; 6]),
        (2, bar_1(1_999_999), [0, 1, 0, 0, 0, 0]),
        (1, bar_1(1_999_999), [0, 0, 1, 0, 1, 0]),
        (2, bar_1(1_999_950), [0; 6]),
        (2, up, [0, 0, 0, 0, 0, 1]),
        (17, bars_16(32_000_000), [0; 6]),
        (16, bars_16(31_999_999), [0, 0, 1, 1, 1, 0]),
    ];
    for (bars, times, expected) in cases {
        let shown = shown(&text(bars, TWO_SECONDS, &times), |limits, text| {
            BySort::<Limits>::add(limits, text, peer::read(text).err().unwrap_or((0, 0)));
        });
        assert_eq!(shown, [expected; 2], "{bars} {times:?}");
    }
    assert!(!BySort::<Limits>::default().all_met());
}
