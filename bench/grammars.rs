//! Grammars of the sheets to compare the search on. Their rules stand in any order,
//! and now and then there are as many as there may be, or nonterminals without any.

use crate::lists::leaf_of;
use crate::orders;
use crate::rules::MAX_NAMES;
use crate::sheets::{self, Dice, MAX_RULES, REST};

/// One grammar in so many has all the rules it may have ...
const FULL_EVERY: usize = 12;
/// ... and one in so many has other names than the first ones.
const RENAMED_EVERY: usize = 8;

/// Arities that stand together in a grammar.
const ARITIES: [&[usize]; 9] = [
    &[2],
    &[2],
    &[3],
    &[2, 3],
    &[2, 4, 8],
    &[3, 5],
    &[5, 7, 8],
    &[2, 3, 5, 7, 8],
    &[2, 3, 4, 5, 6, 7, 8],
];

/// The heaviest weight and the multiplier are given.
pub fn grammar(dice: &mut Dice, (heaviest, multiplier): (usize, u16)) -> Vec<Vec<u8>> {
    let full = dice.one_in(FULL_EVERY);
    let few = dice.pick(&[1, 1, 2, 2, 3, 4]);
    let nonterminals = if full {
        dice.pick(&[few, few, 8, 12])
    } else {
        few
    };
    let mut rules = leaves(dice, nonterminals);
    let arities = dice.pick(&ARITIES);
    let divisions = (3 * nonterminals + 3).min(MAX_RULES - rules.len());
    for _ in 0..dice.between(1, divisions) {
        let arity = dice.pick(arities);
        rules.push(sheets::division(dice, nonterminals, arity));
    }
    set_weights(dice, &mut rules, heaviest);
    // Equal rules may stand twice, also with unequal weights.
    while rules.len() < MAX_RULES && (full || dice.one_in(3)) {
        let mut rule = rules[dice.below(rules.len())].clone();
        rule[3] ^= dice.pick(&[0, 1]);
        rules.push(rule);
    }
    headed(dice, nonterminals, multiplier, rules)
}

/// The rules in any order, behind their head.
fn headed(
    dice: &mut Dice,
    nonterminals: usize,
    multiplier: u16,
    mut rules: Vec<Vec<u8>>,
) -> Vec<Vec<u8>> {
    orders::mix(dice, &mut rules);
    let mut head = sheets::grammar_head(dice, nonterminals);
    head[3..].copy_from_slice(&multiplier.to_be_bytes());
    if dice.one_in(RENAMED_EVERY) {
        rename(dice, &mut head, &mut rules);
    }
    rules.insert(0, head);
    rules
}

/// Gives the nonterminals other names among as many or more, so that some may have no
/// rules.
pub fn rename(dice: &mut Dice, head: &mut [u8], rules: &mut [Vec<u8>]) {
    let any = dice.between(head[1].into(), MAX_NAMES);
    let count = dice.pick(&[any, MAX_NAMES]);
    let mut names: Vec<u8> = (0..count as u8).collect();
    dice.shuffle(&mut names);
    let renamed = |name: &mut u8| *name = names[usize::from(*name)];
    head[1] = count as u8;
    renamed(&mut head[2]);
    for rule in rules {
        renamed(&mut rule[1]);
        // Behind the fifth byte there are only a division's parts.
        rule[5..].iter_mut().for_each(renamed);
    }
}

/// Now and then leaves that place nothing, or little, are much the heaviest, so
/// that a carry is worth more than the tree it leaves. Rests are then as heavy, or
/// light, so that a rest is worth more or less than a continuation.
fn set_weights(dice: &mut Dice, rules: &mut [Vec<u8>], heaviest: usize) {
    let dear = dice.pick(&[0, 0, 1, 2]);
    let dear_rests = dice.one_in(2);
    for rule in rules {
        let n = usize::from(rule[4]);
        let is_dear = rule[0] == 0x4C && (n < dear || (n == REST && dear_rests));
        let weight = match (dear, is_dear) {
            (0, _) => dice.between_edged(0, heaviest),
            (_, true) => dice.between(heaviest / 2, heaviest),
            (_, false) => dice.between(0, heaviest / 8),
        };
        rule[2..4].copy_from_slice(&(weight as u16).to_be_bytes());
    }
}

/// What leaves a nonterminal has, by n: most often all, else some with which
/// certain carries are needed, or of no use.
const LEAVES: [&[usize]; 11] = [
    &[0, 1, 2, 3, REST],
    &[0, 1, 2, 3, REST],
    &[0, 1, 2, 3],
    &[0, 1, REST],
    &[1],
    &[1, REST],
    &[1, 2, 3, REST],
    &[2, 3],
    &[0],
    &[REST],
    &[],
];

/// One leaf at least, and leaves of every n, or with gaps, or by nonterminal.
fn leaves(dice: &mut Dice, nonterminals: usize) -> Vec<Vec<u8>> {
    let chances = dice.pick(&[1_000, 1_000, 8, 3]);
    let by_name = dice.one_in(3);
    let mut rules = vec![sheets::leaf(dice, nonterminals)];
    for head in 0..nonterminals {
        let all = if by_name {
            dice.pick(&LEAVES)
        } else {
            LEAVES[0]
        };
        for &n in all {
            if !dice.one_in(chances) {
                rules.push(leaf_of(dice, head, n));
            }
        }
    }
    rules
}

/// Leaves of every n and a few divisions, of weights 0, 1 and 2.
pub fn light_grammar(dice: &mut Dice, multiplier: u16) -> Vec<Vec<u8>> {
    let nonterminals = dice.between(1, 2);
    let mut rules = Vec::new();
    for head in 0..nonterminals {
        rules.extend((0..=REST).map(|n| leaf_of(dice, head, n)));
    }
    for rule in &mut rules {
        (rule[2], rule[3]) = (0, dice.pick(&[0, 0, 1]));
    }
    for _ in 0..dice.between(1, 4) {
        let arity = dice.pick(&[2, 2, 3, 4]);
        let mut rule = sheets::division(dice, nonterminals, arity);
        (rule[2], rule[3]) = (0, dice.pick(&[0, 1, 1, 2]));
        rules.push(rule);
    }
    headed(dice, nonterminals, multiplier, rules)
}
