//! The tests of what `sliding` uses beside the library: R and D of all trees
//! listed, the peer's answers as the multiplier grows, and that every fact refuses
//! answers made up against it.

use crate::facts::{self, Answer, Found};
use crate::harness::Difference;
use crate::listing::{pairs, Pair};
use crate::multipliers::{changes, usual, with_multiplier};
use crate::peer::{self, Sheet};
use crate::search::Search;
use crate::sheets::Dice;
use crate::{holding, takes, trees};
use std::collections::BTreeSet;

/// The sheet S with a rest and one onset, at unit 9,979.
const WITH_REST: [&str; 8] = [
    "470200000A",
    "4C00000101",
    "44000006020101",
    "4C01000200",
    "4C01000101",
    "4C01000204",
    "4501001E8480",
    "4E000F1B303E40",
];

/// R, D and bytes.
type Tree = (u64, u64, &'static [u8]);

/// Its trees: the onset as a whole-bar note, and carried to the middle, behind a rest.
const NOTE: Tree = (1, 9_979, &[0]);
const HALVES: Tree = (9, 101, &[1, 4, 3]);

fn text(lines: &[&str]) -> Vec<u8> {
    (lines.join("\n") + "\n").into_bytes()
}

fn read(text: &[u8]) -> Sheet {
    peer::read(text).expect("the sheet is accepted")
}

/// The peer's answer.
fn found(search: &mut Search, text: &[u8], multiplier: u16) -> Answer {
    let text = with_multiplier(text, multiplier).expect("the text has a head");
    let sheet = read(&text);
    let found = holding::found(search, &sheet).map(|(total, tree)| {
        let price = trees::price(&sheet, &tree).expect("the tree is valid");
        let (r, d) = (price.r, price.d);
        Found { r, d, total, tree }
    });
    Answer { multiplier, found }
}

/// An answer made up, with its own total.
fn answer(multiplier: u16, (r, d, tree): Tree) -> Answer {
    let (total, tree) = (u64::from(multiplier) * r + d, tree.to_vec());
    let found = Some(Found { r, d, total, tree });
    Answer { multiplier, found }
}

/// The same with multipliers 1, 10 and 11.
fn rising(trees: [Tree; 3]) -> [Answer; 3] {
    let [first, second, third] = trees;
    [answer(1, first), answer(10, second), answer(11, third)]
}

fn none(multiplier: u16) -> Answer {
    let found = None;
    Answer { multiplier, found }
}

/// Checks that a fact is refused, and for what.
fn refused(held: Result<(), Difference>, asked: &str) {
    let Difference(told) = held.expect_err("it does not hold");
    assert!(told.starts_with(asked), "{told}");
}

fn holds(held: Result<(), Difference>) {
    if let Err(Difference(told)) = held {
        panic!("{told}");
    }
}

// What is listed.

#[test]
fn pairs_of_a_sheet_with_a_rest() {
    let sheet = read(&text(&WITH_REST));
    let both = BTreeSet::from([(1, 9_979), (9, 101)]);
    // Five rules are tried for the bar and for each half, and one try is kept.
    assert_eq!(pairs(&sheet, 16), Some(both.clone()));
    assert_eq!(pairs(&sheet, 15), None);
    // 9,878 units over a weight of 8 are 1,234.75.
    assert_eq!(changes(&both), BTreeSet::from([1_234, 1_235]));
}

/// The onset is late in the first half, which then is a rest.
#[test]
fn no_pairs_without_a_tree() {
    let mut lines = WITH_REST;
    (lines[1], lines[5]) = (lines[3], lines[3]);
    assert_eq!(pairs(&read(&text(&lines)), 16), Some(BTreeSet::new()));
    assert_eq!(changes(&BTreeSet::new()), BTreeSet::new());
}

// The facts.

#[test]
fn least_tree_of_a_sheet_with_a_rest() {
    let (text, mut search) = (text(&WITH_REST), Search::default());
    let pairs = pairs(&read(&text), 16).expect("it has few trees");
    let multipliers = [0, 10, 1_234, 1_235, 65_535];
    let least = [HALVES, HALVES, HALVES, NOTE, NOTE];
    let answers = multipliers.map(|multiplier| found(&mut search, &text, multiplier));
    for (given, expected) in answers.iter().zip(least) {
        assert_eq!(*given, answer(given.multiplier, expected));
    }
    holds(facts::hold(&answers, &pairs));
}

/// With multiplier 0 the first of equal trees may be the heavier one.
#[test]
fn dominated_with_multiplier_0() {
    let mut lines = WITH_REST;
    lines.swap(1, 2);
    lines[7] = "4E0007A1203E40";
    let (text, mut search) = (text(&lines), Search::default());
    let pairs = pairs(&read(&text), 16).expect("it has few trees");
    assert_eq!(pairs, BTreeSet::from([(1, 5_040), (9, 5_040)]));
    let answers = [0, 1].map(|multiplier| found(&mut search, &text, multiplier));
    assert_eq!(answers[0], answer(0, (9, 5_040, &[0, 4, 3])));
    assert_eq!(answers[1], answer(1, (1, 5_040, &[1])));
    assert_eq!(answers[0].dominated_by(&pairs), Some((1, 5_040)));
    holds(facts::hold(&answers, &pairs));
}

/// The peer's answers on small sheets.
#[test]
fn facts_of_the_peer() {
    let (mut dice, mut search) = (Dice::new(3), Search::default());
    let mut listed = 0;
    for _ in 0..3_000 {
        let text = takes::small(&mut dice);
        let sheet = read(&text);
        let Some(pairs) = pairs(&sheet, 50_000) else {
            continue;
        };
        let mut multipliers = usual(&mut dice, sheet.multiplier);
        multipliers.extend(changes(&pairs));
        let given = multipliers.into_iter();
        let answers: Vec<Answer> = given.map(|a| found(&mut search, &text, a)).collect();
        holds(facts::hold(&answers, &pairs));
        listed += usize::from(pairs.len() > 1);
    }
    println!("held {listed} sheets with trees of unlike R or D to all trees");
    assert!(listed > 500);
}

#[test]
fn a_tree_and_none_are_refused() {
    let check = facts::both_or_neither;
    let told = "one has a tree and the other none";
    holds(check(&[none(1), none(2)]));
    holds(check(&[answer(1, HALVES), answer(2, NOTE)]));
    refused(check(&[answer(1, NOTE), none(2)]), told);
    refused(check(&[none(0), none(1), answer(2, NOTE)]), told);
}

#[test]
fn wrong_order_is_refused() {
    let check = |trees: [Tree; 3]| facts::in_order(&rising(trees));
    holds(check([HALVES, HALVES, NOTE]));
    refused(check([NOTE, NOTE, (2, 9_979, &[0])]), "R rises");
    refused(check([HALVES, (10, 101, &[0]), NOTE]), "R rises");
    refused(check([NOTE, NOTE, (1, 9_978, &[0])]), "D falls");
    refused(check([HALVES, (9, 100, &[0]), NOTE]), "D falls");
}

#[test]
fn another_tree_is_refused() {
    let check = |trees: [Tree; 3]| facts::same_tree(&rising(trees));
    let told = "not one tree from first to last";
    let other: Tree = (HALVES.0, HALVES.1, &[1, 4, 2]);
    holds(check([HALVES, HALVES, NOTE]));
    holds(check([HALVES, NOTE, NOTE]));
    refused(check([HALVES, other, NOTE]), told);
    refused(check([NOTE, HALVES, other]), told);
    refused(check([HALVES, other, HALVES]), told);
    refused(check([HALVES, NOTE, HALVES]), told);
    let gap = [answer(1, NOTE), none(2), answer(3, NOTE)];
    refused(facts::same_tree(&gap), told);
}

#[test]
fn a_dominated_tree_is_refused() {
    let check = |multiplier, pair| {
        let pairs = BTreeSet::from([(HALVES.0, HALVES.1), pair]);
        facts::undominated(&answer(multiplier, HALVES), &pairs)
    };
    for pair in [(8, 101), (9, 100), (8, 100)] {
        refused(check(1, pair), "dominated by");
        refused(check(65_535, pair), "dominated by");
        holds(check(0, pair));
    }
    for pair in [(8, 102), (10, 100), (10, 102), (9, 101)] {
        holds(check(1, pair));
    }
}

#[test]
fn another_total_is_refused() {
    let check = |answer: &Answer, pairs: &[Pair]| {
        facts::least_total(answer, &pairs.iter().copied().collect())
    };
    let told = "the total with multiplier 10";
    let both = [(1, 9_979), (9, 101)];
    holds(check(&answer(10, HALVES), &both));
    holds(check(&none(10), &[]));
    refused(check(&answer(10, NOTE), &both), told);
    refused(check(&answer(10, HALVES), &both[..1]), told);
    refused(check(&answer(10, HALVES), &[]), told);
    refused(check(&none(10), &both), told);
}

#[test]
fn all_facts_are_held() {
    let pairs = BTreeSet::from([(1, 9_979), (9, 101)]);
    let check = |answers: &[Answer], told| refused(facts::hold(answers, &pairs), told);
    check(&[answer(1, HALVES), none(2)], "one has a tree");
    check(&[answer(1, NOTE), answer(2, HALVES)], "R rises");
    check(&rising([HALVES, (9, 101, &[0]), HALVES]), "not one tree");
    check(&[answer(1, (9, 102, &[0]))], "dominated by");
    check(&[answer(1, NOTE)], "the total with multiplier 1");
}
