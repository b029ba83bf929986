//! The tests of the orders of rules: the three of the timing, those of generated
//! grammars, and what is counted of them.

use crate::grammars::rename;
use crate::heads::Heads;
use crate::holding::found;
use crate::lists::{head, is_division};
use crate::orders::{mix, Order};
use crate::peer::{self, Rule, Sheet};
use crate::search::Search;
use crate::sheets::{lines_of, text_of, Dice, MAX_RULES};
use crate::{takes, tunes};
use std::collections::BTreeMap;

const ORDERS: [Order; 3] = [Order::Grouped, Order::Interleaved, Order::Spread];

fn read(text: &[u8]) -> Sheet {
    peer::read(text).expect("the sheet is accepted")
}

/// The lines of rules, and the others.
fn parted(text: &[u8]) -> (Vec<Vec<u8>>, Vec<Vec<u8>>) {
    let is_rule = |line: &Vec<u8>| matches!(line[0], 0x44 | 0x4C);
    lines_of(text).into_iter().partition(is_rule)
}

fn sorted(mut rules: Vec<Vec<u8>>) -> Vec<Vec<u8>> {
    rules.sort();
    rules
}

/// By head, where its divisions stand.
fn places(rules: &[Rule]) -> BTreeMap<u8, Vec<usize>> {
    let mut places = BTreeMap::<u8, Vec<usize>>::new();
    for (number, rule) in rules.iter().enumerate() {
        if is_division(rule) {
            places.entry(head(rule)).or_default().push(number);
        }
    }
    places
}

// The three orders of the timing.

#[test]
fn the_same_lines() {
    let [grouped, interleaved, spread] = ORDERS.map(|order| parted(&tunes::plain_in(order)));
    assert_eq!(grouped.0.len(), MAX_RULES);
    for other in [&interleaved, &spread] {
        assert_ne!(other.0, grouped.0);
        assert_eq!(sorted(other.0.clone()), sorted(grouped.0.clone()));
        assert_eq!(other.1, grouped.1);
    }
    assert_ne!(interleaved.0, spread.0);
}

/// Twelve nonterminals have two divisions each, and 40 rules are leaves.
#[test]
fn grouped_interleaved_and_spread() {
    let apart = [
        (Order::Grouped, 1),
        (Order::Interleaved, 12),
        (Order::Spread, 52),
    ];
    for (order, distance) in apart {
        let rules = read(&tunes::plain_in(order)).rules;
        let places = places(&rules);
        assert_eq!(places.len(), 12);
        for (name, places) in places {
            let [first, last] = places[..] else {
                panic!("nonterminal {name} has {} divisions", places.len());
            };
            assert_eq!(last - first, distance);
            let other = rules[first..last].iter().any(|rule| head(rule) != name);
            assert_eq!(other, distance > 1);
        }
    }
}

#[test]
fn the_same_total() {
    let mut search = Search::default();
    let mut total = |order| search.find(&read(&tunes::plain_in(order)));
    let totals = ORDERS.map(&mut total);
    assert!(totals[0].is_some());
    assert_eq!(totals, [totals[0]; 3]);
}

/// With unlike numbers of divisions, and leaves that stand among them.
#[test]
fn orders_by_hand() {
    let division = |head, weight| vec![0x44, head, 0, weight, 2, 0, 0];
    let leaf = |head, weight| vec![0x4C, head, 0, weight, 1];
    let rules = [
        division(1, 0),
        leaf(1, 1),
        division(0, 2),
        division(1, 3),
        leaf(0, 4),
        division(1, 5),
        division(2, 6),
    ];
    let weights = |order: Order| {
        let ordered = order.of(&rules);
        ordered.iter().map(|line| line[3]).collect::<Vec<u8>>()
    };
    let expected = [
        vec![2, 0, 3, 5, 6, 1, 4],
        vec![0, 2, 6, 3, 5, 1, 4],
        vec![0, 2, 6, 1, 3, 4, 5],
    ];
    assert_eq!(ORDERS.map(weights), expected);
}

// Generated grammars.

#[test]
fn mixed_rules_are_the_same() {
    let mut dice = Dice::new(3);
    let (mut grouped, mut at_ends) = (0, 0);
    // Ten heads of two rules each.
    let rules: Vec<Vec<u8>> = (0..20).map(|at| vec![0x4C, at / 2, 0, at, 1]).collect();
    for _ in 0..2_000 {
        let mut mixed = rules.clone();
        mix(&mut dice, &mut mixed);
        grouped += usize::from(mixed.is_sorted_by_key(|rule| rule[1]));
        at_ends += usize::from(mixed[0][1] == mixed[19][1]);
        assert_eq!(sorted(mixed), rules);
    }
    println!("of 2000, {grouped} by head and {at_ends} with a head at both ends");
    assert!(grouped > 150 && at_ends > 150 && grouped + at_ends < 1_000);
}

/// The order moves no total, and names move no tree.
#[test]
fn other_orders_and_names() {
    let (mut dice, mut search) = (Dice::new(4), Search::default());
    let mut with_tree = 0;
    for _ in 0..3_000 {
        let text = takes::small(&mut dice);
        let (mut rules, mut others) = parted(&text);
        let tree = found(&mut search, &read(&text));
        with_tree += usize::from(tree.is_some());
        rename(&mut dice, &mut others[0], &mut rules);
        let renamed = text_of(&[&others[..1], &rules, &others[1..]].concat());
        assert_eq!(found(&mut search, &read(&renamed)), tree);
        mix(&mut dice, &mut rules);
        let mixed = text_of(&[&others[..1], &rules, &others[1..]].concat());
        let total = search.find(&read(&mixed));
        assert_eq!(total, tree.map(|tree| tree.0));
    }
    assert!(with_tree > 1_000);
}

/// The counts of a sheet whose rules have these heads, those that divide by two
/// marked, and of a list of rules, which need not be a tree.
fn counted(rules: &[(u8, bool)], list: &[u8]) -> [usize; 8] {
    let line = |&(head, divides): &(u8, bool)| match divides {
        true => vec![0x44, head, 0, 0, 2, 0, 0],
        false => vec![0x4C, head, 0, 0, 1],
    };
    let mut lines = vec![vec![0x47, 16, 0, 0, 0]];
    lines.extend(rules.iter().map(line));
    lines.extend([
        vec![0x45, 1, 0, 0, 0x4E, 0xC0],
        vec![0x4E, 0, 0, 0, 0, 60, 64],
    ]);
    let mut heads = Heads::default();
    heads.add(&read(&text_of(&lines)), list);
    heads.named().map(|(_, count)| count)
}

/// By what is counted: apart, dividing, dividing twice, first and last, together, a
/// nonterminal without rules, nonterminal 15, 64 rules.
#[test]
fn heads_by_hand() {
    let (d, l) = (true, false);
    let cases: [(&[(u8, bool)], &[u8], [usize; 8]); 8] = [
        (&[(0, d), (0, l)], &[0, 1], [0; 8]),
        (&[(0, d), (0, l), (1, l)], &[0], [0, 0, 0, 0, 1, 0, 0, 0]),
        (&[(0, d), (1, l), (0, l)], &[2], [1, 0, 0, 1, 0, 0, 0, 0]),
        (
            &[(1, l), (0, d), (1, l), (0, l)],
            &[1],
            [1, 1, 0, 0, 0, 0, 0, 0],
        ),
        (&[(0, d), (1, l), (0, d)], &[2, 0], [1, 1, 1, 1, 0, 0, 0, 0]),
        (
            &[(0, d), (0, d), (1, l), (0, l)],
            &[0, 1],
            [1, 1, 0, 1, 0, 0, 0, 0],
        ),
        (&[(15, l), (3, l)], &[0], [0, 0, 0, 0, 1, 1, 1, 0]),
        (&[(0, l); 64], &[0], [0, 0, 0, 0, 0, 0, 0, 1]),
    ];
    for (rules, list, expected) in cases {
        assert_eq!(counted(rules, list), expected, "{rules:?} {list:?}");
    }
    assert!(!Heads::default().all_met());
}
