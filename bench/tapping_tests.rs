//! The tests of the tapped sheets that are generated, of twins and of what is counted of
//! taps.

use crate::bar_lines::{any, any_tapped, BarLines};
use crate::moments::{first_time, times, BAR, LONGEST, SHORTEST};
use crate::peer::{self, tests::S};
use crate::playing::Playing;
use crate::sheets::{self, Dice, Outcome};
use crate::tapped::Tapped;
use crate::tapped_tests::behind_grammar;
use crate::twins::twin;
use crate::{lists, takes};

fn outcome(text: &[u8]) -> Outcome {
    peer::read(text).err().unwrap_or((0, 0))
}

#[test]
fn bar_lines_thrown() {
    let mut dice = Dice::new(3);
    for _ in 0..10_000 {
        let bars = dice.between_edged(1, 64);
        let shortest = dice.pick(&[SHORTEST, BAR, 2 * BAR]);
        let lines = any_tapped(&mut dice, bars, shortest);
        let mut durations = (0..bars).map(|bar| lines.duration(bar));
        assert!(durations.all(|duration| (shortest..=LONGEST).contains(&duration)));
        assert!(lines.last() <= u32::MAX as usize);
        assert_eq!((lines.bars(), lines.taps()), (bars, bars + 1));
    }
}

/// The rule from units to times, by which sheets are made, is held to the definition.
#[test]
fn times_of_units() {
    let mut dice = Dice::new(4);
    for _ in 0..20_000 {
        let bars = dice.between(1, 3);
        let lines = any(&mut dice, bars);
        let unit = dice.between_edged(1, bars * BAR);
        let turn = first_time(unit, &lines);
        let reached = |time: usize| {
            let bar = lines.bar_of(time);
            let duration = lines.duration(bar);
            let share = (time - lines.line(bar)) * BAR;
            bar * BAR + (2 * share + duration) / (2 * duration)
        };
        // The end itself is no time of the last bar.
        assert!(
            turn == lines.last() || reached(turn) >= unit,
            "{unit} {lines:?}"
        );
        assert!(reached(turn - 1) < unit, "{unit} {lines:?}");
        assert!(times(&mut dice, &lines, 20)
            .iter()
            .all(|&time| reached(time) < bars * BAR));
    }
}

/// Texts of every comparison: a third of the sheets, or nearly, are tapped.
#[test]
fn a_third_is_tapped() {
    let mut dice = Dice::new(5);
    let makes: [fn(&mut Dice) -> Vec<u8>; 3] = [
        |dice| sheets::case(dice).text,
        |dice| lists::case(dice).text,
        |dice| takes::case(dice).text,
    ];
    for make in makes {
        let texts = (0..3_000).map(|_| make(&mut dice));
        let accepted: Vec<Vec<u8>> = texts.filter(|text| outcome(text) == (0, 0)).collect();
        let is_tapped = |text: &&Vec<u8>| Playing::of(text, usize::MAX).bar_lines.is_tapped();
        let tapped = accepted.iter().filter(is_tapped).count();
        assert!((accepted.len() / 4..accepted.len() / 2).contains(&tapped));
    }
}

/// All that is counted of taps is met, and twins have the same answers.
#[test]
fn generated_texts_and_twins() {
    let mut dice = Dice::new(8);
    let (mut tapped, mut twins) = (Tapped::default(), [0; 2]);
    for _ in 0..20_000 {
        let text = sheets::case(&mut dice).text;
        let read = peer::read(&text);
        let outcome = read.as_ref().err().copied().unwrap_or((0, 0));
        tapped.add(&text, outcome);
        let Some((twin, aim)) = twin(&text, outcome) else {
            continue;
        };
        twins[usize::from(outcome.0 > 0)] += 1;
        match (read, peer::read(&twin)) {
            (Ok(sheet), Ok(other)) => {
                assert_eq!(sheet.onsets, other.onsets);
                assert_eq!(sheet.bar_lines, other.bar_lines);
            }
            (_, other) => assert_eq!(other.err(), Some(aim)),
        }
    }
    tapped.print();
    println!("twins accepted and refused: {twins:?}");
    assert!(tapped.named().iter().all(|(_, count)| *count >= 5));
    assert!(twins.iter().all(|&count| count >= 1_000));
}

#[test]
fn twins_by_hand() {
    let plain = |onsets: &[&str]| behind_grammar(&[&[S[5]], onsets].concat());
    let tapped = |onsets: &[&str]| {
        behind_grammar(&[&["450100000000", "4200000000", "42001E8480"], onsets].concat())
    };
    // The onsets, the outcome and the twin's.
    let cases: [(&[&str], Outcome, Outcome); 6] = [
        (&S[6..], (0, 0), (0, 0)),
        (&[], (3, 7), (3, 9)),
        (&["4E001E84803C40"], (7, 7), (7, 9)),
        (&[S[7], S[6]], (6, 8), (6, 10)),
        (&["4200000000", S[6]], (3, 7), (17, 9)),
        (&[S[6], "5800"], (3, 8), (3, 10)),
    ];
    for (onsets, of_plain, of_tapped) in cases {
        let text = plain(onsets);
        assert_eq!(outcome(&text), of_plain);
        assert_eq!(twin(&text, of_plain), Some((tapped(onsets), of_tapped)));
        assert_eq!(outcome(&tapped(onsets)), of_tapped);
    }
    let refused = behind_grammar(&["450100000000", S[6]]);
    assert_eq!(twin(&refused, outcome(&refused)), None);
    let early = behind_grammar(&["5800", S[5], S[6]]);
    assert_eq!(twin(&early, outcome(&early)), None);
}

/// What is counted of a text behind the grammar of S.
fn shown(lines: &[&str]) -> Vec<&'static str> {
    let text = behind_grammar(lines);
    let mut tapped = Tapped::default();
    tapped.add(&text, outcome(&text));
    let counted = tapped.named().into_iter().filter(|(_, count)| *count > 0);
    counted.map(|(name, _)| name).collect()
}

#[test]
fn counted_by_hand() {
    const HEAD: &str = "450100000000";
    const FIRST: &str = "4200000005";
    const LAST: &str = "42000003ED";
    let behind = |line| shown(&[HEAD, FIRST, LAST, line]);
    let second = |line| shown(&[HEAD, FIRST, line]);
    assert_eq!(
        behind("4E000000053C40"),
        [
            "have one bar",
            "have a step of 1,000",
            "have it within 1,000",
            "have an onset on the first tap"
        ]
    );
    assert_eq!(
        behind("4E000000043C40"),
        ["19 a microsecond before the first tap"]
    );
    assert_eq!(behind("4E000000003C40"), ["19 at 0"]);
    assert_eq!(
        behind("4E000000048040"),
        ["5 by an onset before the first tap"]
    );
    assert_eq!(behind("4E000003ED3C40"), ["7 at the last tap"]);
    assert_eq!(behind("42000007D5"), ["17 by a tap right behind the last"]);
    assert_eq!(second("42000003EC"), ["18 by a step of 999"]);
    assert_eq!(second("4200000004"), ["18 by a falling tap"]);
    assert_eq!(second("5800"), ["17 by an unknown kind"]);
    assert_eq!(second("42000000"), ["4 by a tap of 4 bytes"]);
    assert_eq!(shown(&[HEAD, FIRST]), ["17 by the end, among taps"]);
    assert_eq!(shown(&[S[5], FIRST]), ["3 by a tap in a plain sheet"]);
    assert!(shown(&S[5..]).is_empty());
    assert!(!Tapped::default().all_met());
    assert_eq!(BarLines::stepped(5, &[1_000]).sheet_lines().len(), 3);
}
