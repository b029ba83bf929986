//! The tests of the peer's reading of tapped sheets, worked by hand from the documents.

use crate::peer::tests::S;
use crate::peer::{self, Refusal, Sheet, BAR_UNITS};
use crate::search::Search;
use crate::{holding, trees};

/// S with other lines behind its grammar, the first of them line 6.
pub fn behind_grammar(lines: &[&str]) -> Vec<u8> {
    let lines = [&S[..5], lines].concat();
    (lines.join("\n") + "\n").into_bytes()
}

/// S with taps and onsets at moments.
fn text(taps: &[u32], onsets: &[u32]) -> Vec<u8> {
    let mut lines = vec![format!("45{:02X}00000000", taps.len() - 1)];
    lines.extend(taps.iter().map(|tap| format!("42{tap:08X}")));
    lines.extend(onsets.iter().map(|onset| format!("4E{onset:08X}3C40")));
    behind_grammar(&lines.iter().map(String::as_str).collect::<Vec<_>>())
}

fn read(taps: &[u32], onsets: &[u32]) -> Result<Sheet, Refusal> {
    peer::read(&text(taps, onsets))
}

fn units(taps: &[u32], onsets: &[u32]) -> Vec<u32> {
    let sheet = read(taps, onsets).expect("the sheet is accepted");
    assert_eq!(sheet.bar_lines, taps);
    sheet.onsets.iter().map(|onset| onset.0).collect()
}

fn refusal(lines: &[&str]) -> Option<Refusal> {
    peer::read(&behind_grammar(lines)).err()
}

const HEAD: &str = "450100000000";
/// A bar from 5 to 1,005.
const FIRST: &str = "4200000005";
const LAST: &str = "42000003ED";
/// At 5, on the first tap.
const ONSET: &str = "4E000000053C40";

#[test]
fn at_the_first_and_the_last_tap() {
    let at = |time: u32| read(&[5, 1_005], &[time]).map(|sheet| sheet.onsets[0].0);
    assert_eq!(at(0), Err((19, 9)));
    assert_eq!(at(4), Err((19, 9)));
    assert_eq!(at(5), Ok(0));
    assert_eq!(at(6), Ok(20));
    // 999 of 1,000 microseconds are 20,139.84 units.
    assert_eq!(at(1_004), Ok(20_140));
    assert_eq!(at(1_005), Err((7, 9)));
    assert_eq!(at(u32::MAX), Err((7, 9)));
}

#[test]
fn a_tap_behind_the_last() {
    for more in [LAST, FIRST, "42000007D5", "42", "4200", "420000000500"] {
        assert_eq!(refusal(&[HEAD, FIRST, LAST, more, ONSET]), Some((17, 9)));
        assert_eq!(refusal(&[HEAD, FIRST, LAST, ONSET, more]), Some((17, 10)));
        let between = [HEAD, FIRST, LAST, ONSET, more, ONSET];
        assert_eq!(refusal(&between), Some((17, 10)));
    }
    // Another kind there is out of order as ever.
    for more in ["5800", HEAD, S[0], S[1], S[2]] {
        assert_eq!(refusal(&[HEAD, FIRST, LAST, more, ONSET]), Some((3, 9)));
        assert_eq!(refusal(&[HEAD, FIRST, LAST, ONSET, more]), Some((3, 10)));
    }
}

#[test]
fn another_line_before_the_last_tap() {
    for other in [
        "5800",
        "4E",
        ONSET,
        HEAD,
        "4501001E8480",
        S[0],
        S[1],
        S[2],
        "00",
    ] {
        assert_eq!(refusal(&[HEAD, other, FIRST, LAST, ONSET]), Some((17, 7)));
        assert_eq!(refusal(&[HEAD, FIRST, other, LAST, ONSET]), Some((17, 8)));
    }
    assert_eq!(refusal(&[HEAD]), Some((17, 7)));
    assert_eq!(refusal(&[HEAD, FIRST]), Some((17, 8)));
    assert_eq!(refusal(&[HEAD, FIRST, LAST]), Some((3, 9)));
    assert_eq!(refusal(&[HEAD, FIRST, LAST, ONSET]), None);
    // A bar more asks for a tap more.
    assert_eq!(
        refusal(&["450200000000", FIRST, LAST, ONSET]),
        Some((17, 9))
    );
    assert_eq!(refusal(&["450200000000", FIRST, LAST]), Some((17, 9)));
}

#[test]
fn steps() {
    let step = |taps: &[u32]| read(taps, &taps[..1]).err();
    assert_eq!(refusal(&[HEAD, FIRST, "42000003EC", ONSET]), Some((18, 8)));
    assert_eq!(step(&[5, 1_004]), Some((18, 8)));
    assert_eq!(step(&[5, 1_005]), None);
    assert_eq!(step(&[5, 60_000_005]), None);
    assert_eq!(step(&[5, 60_000_006]), Some((18, 8)));
    assert_eq!(step(&[5, u32::MAX]), Some((18, 8)));
    assert_eq!(step(&[5_000, 5_000]), Some((18, 8)));
    assert_eq!(step(&[5_000, 3_000]), Some((18, 8)));
    // The difference is 1,500 in 32 bits.
    assert_eq!(step(&[u32::MAX - 499, 1_000]), Some((18, 8)));
    assert_eq!(step(&[0, 1_000, 2_000, 2_999]), Some((18, 10)));
    assert_eq!(step(&[0, 1_000, 1_999, 2_999]), Some((18, 9)));
}

#[test]
fn demands_on_a_line_in_order() {
    // Count before step: an equal tap, and what is left of a tap.
    for tap in ["42000000", "420000000500", "42"] {
        assert_eq!(refusal(&[HEAD, FIRST, tap, ONSET]), Some((4, 8)));
        assert_eq!(refusal(&[HEAD, tap, LAST, ONSET]), Some((4, 7)));
    }
    // Count and fields before the first tap; a falling time too.
    let onset = |line| refusal(&[HEAD, FIRST, LAST, line]);
    assert_eq!(onset("4E000000043C4000"), Some((4, 9)));
    assert_eq!(onset("4E000000048040"), Some((5, 9)));
    assert_eq!(onset("4E000000043C00"), Some((5, 9)));
    assert_eq!(onset("4E000000043C40"), Some((19, 9)));
    assert_eq!(read(&[5, 1_005], &[10, 4]).err(), Some((6, 10)));
    // The head's bars and count.
    for head in ["450000000000", "454100000000", "45FF00000000"] {
        assert_eq!(refusal(&[head, FIRST, LAST, ONSET]), Some((5, 6)));
    }
    assert_eq!(refusal(&["4501000000", FIRST, LAST, ONSET]), Some((4, 6)));
    assert_eq!(refusal(&["450100000001", FIRST, LAST, ONSET]), Some((5, 6)));
    // A badly formed line goes before all.
    assert_eq!(refusal(&[HEAD, FIRST, "5800", "4G"]), Some((2, 9)));
    assert_eq!(refusal(&[HEAD, FIRST, ""]), Some((2, 8)));
}

#[test]
fn a_tap_elsewhere_is_out_of_order() {
    let plain = "4501001E8480";
    for tap in [FIRST, LAST, "4200", "42"] {
        assert_eq!(refusal(&[plain, tap, ONSET]), Some((3, 7)));
        assert_eq!(refusal(&[plain, ONSET, tap]), Some((3, 8)));
        assert_eq!(refusal(&[tap, plain, ONSET]), Some((3, 6)));
        assert_eq!(refusal(&[tap, HEAD, FIRST, LAST, ONSET]), Some((3, 6)));
        let first = [tap, S[0]].join("\n") + "\n";
        assert_eq!(peer::read(first.as_bytes()).err(), Some((3, 1)));
        let second = [S[0], tap].join("\n") + "\n";
        assert_eq!(peer::read(second.as_bytes()).err(), Some((3, 2)));
    }
}

#[test]
fn units_by_each_bar() {
    // Bars of 1,000, 40,320 and 2,000,000 microseconds.
    let taps = [5, 1_005, 41_325, 2_041_325];
    let at = |times: &[u32]| units(&taps, times);
    assert_eq!(at(&[5, 505, 1_004]), [0, 10_080, 20_140]);
    // A half of a unit and one and a half.
    let second = BAR_UNITS;
    let times = [1_005, 1_006, 1_007, 1_008, 41_323];
    let near = [0, 1, 1, 2, 20_159].map(|unit| second + unit);
    assert_eq!(at(&times), near);
    // Rounded up to the next bar, by its own bar's units.
    let third = 2 * BAR_UNITS;
    let times = [41_324, 41_325, 41_374, 41_375, 44_450, 2_041_275];
    let near = [0, 0, 0, 1, 32, 20_159].map(|unit| third + unit);
    assert_eq!(at(&times), near);
    assert_eq!(read(&taps, &[2_041_276]).err(), Some((7, 11)));
    assert_eq!(read(&taps[..3], &[41_323]).map(|_| ()), Ok(()));
    assert_eq!(read(&taps[..3], &[41_324]).err(), Some((7, 10)));
    // Bars without onsets are passed over.
    assert_eq!(at(&[5, 2_041_275]), [0, third + 20_159]);
    assert_eq!(at(&[41_324]), [third]);
}

#[test]
fn as_late_as_can_be() {
    let taps = [u32::MAX - 1_000, u32::MAX];
    assert_eq!(units(&taps, &[taps[0], u32::MAX - 1]), [0, 20_140]);
    assert_eq!(read(&taps, &[u32::MAX]).err(), Some((7, 9)));
    assert_eq!(read(&taps, &[taps[0] - 1]).err(), Some((19, 9)));
    // 64 of the longest bars; half a unit is 1,488.1 microseconds.
    let longest: Vec<u32> = (0..=64)
        .map(|line| 454_967_295 + line * 60_000_000)
        .collect();
    assert_eq!(longest[64], u32::MAX);
    assert_eq!(units(&longest, &[u32::MAX - 1_489]), [64 * BAR_UNITS - 1]);
    assert_eq!(read(&longest, &[u32::MAX - 1_488]).err(), Some((7, 72)));
    let inner = longest[63];
    let around = [inner - 1_489, inner - 1_488, inner - 1, inner];
    let line = 63 * BAR_UNITS;
    assert_eq!(units(&longest, &around), [line - 1, line, line, line]);
}

#[test]
fn a_full_bar_by_units() {
    let taps = [0, 2_000_000, 2_001_000, 4_001_000];
    let full = |more: &[u32]| read(&taps, &[&[1_000; 32][..], more].concat()).err();
    // 32 onsets are on lines 11 to 42.
    assert_eq!(full(&[1_999_950]), Some((8, 43)));
    assert_eq!(full(&[1_999_951]), None);
    assert_eq!(full(&[1_999_999; 32]), None);
    assert_eq!(full(&[[1_999_999; 16], [2_000_999; 16]].concat()), None);
    let crowded = [&[1_999_999; 16][..], &[2_000_999; 17]].concat();
    assert_eq!(full(&crowded), Some((8, 75)));
    // The unit at the end goes before onset 33 of the last bar.
    let last = |time: u32| read(&taps[2..], &[&[2_001_000; 32][..], &[time]].concat()).err();
    assert_eq!(last(4_000_950), Some((8, 41)));
    assert_eq!(last(4_000_951), Some((7, 41)));
}

/// S with its bar lines tapped, also later ones, and a bar of another duration with the
/// onsets at the same shares.
#[test]
fn the_least_tree_of_s_tapped() {
    let shifted = 4_000_000_000;
    let takes = [
        read(&[0, 2_000_000], &[0, 1_100_000]),
        read(
            &[shifted, shifted + 2_000_000],
            &[shifted, shifted + 1_100_000],
        ),
        read(&[7, 20_167], &[7, 11_095]),
    ];
    for sheet in takes {
        let sheet = sheet.expect("the sheet is accepted");
        let found = holding::found(&mut Search::default(), &sheet);
        assert_eq!(found, Some((1_088, vec![1, 3, 3])));
        let price = trees::price(&sheet, &[1, 3, 3]).expect("the tree is valid");
        assert_eq!((price.r, price.d), (8, 1_008));
    }
}
