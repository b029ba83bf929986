//! Orders in which the rules of a grammar can stand in a sheet. Only their lines
//! move, so the least total stays; the numbers of the rules are others then, so the
//! first of several least trees may be another.

use crate::peer::LEAF;
use crate::sheets::Dice;

/// An order made of one in which the divisions of a head are together. Rules that
/// it does not tell apart stay as they stood.
#[derive(Clone, Copy)]
pub enum Order {
    /// The divisions by head, then the leaves.
    Grouped,
    /// The first division of each head, then the second of each and so on, then the
    /// leaves.
    Interleaved,
    /// The first division of each head, then the leaves and other divisions, then
    /// the last division of each head: no order has these further apart for all.
    Spread,
}

impl Order {
    /// The lines of rules in this order.
    pub fn of(self, rules: &[Vec<u8>]) -> Vec<Vec<u8>> {
        let mut numbers: Vec<usize> = (0..rules.len()).collect();
        numbers.sort_by_cached_key(|&number| self.key(rules, number));
        numbers.iter().map(|&at| rules[at].clone()).collect()
    }

    fn key(self, rules: &[Vec<u8>], number: usize) -> usize {
        let line = &rules[number];
        let (is_leaf, head) = (line[0] == LEAF, usize::from(line[1]));
        let count = |others: &[Vec<u8>]| {
            let alike = others.iter().filter(|other| other[..2] == line[..2]);
            alike.count()
        };
        let (before, behind) = (count(&rules[..number]), count(&rules[number + 1..]));
        match self {
            Order::Grouped | Order::Interleaved if is_leaf => usize::MAX,
            Order::Grouped => head,
            Order::Interleaved => before,
            Order::Spread if is_leaf => 1,
            Order::Spread if before == 0 => 0,
            Order::Spread if behind == 0 => 2,
            Order::Spread => 1,
        }
    }
}

/// Puts the rules of a generated grammar into any order: most often each order is as
/// likely, and heads and kinds are mixed.
pub fn mix(dice: &mut Dice, rules: &mut [Vec<u8>]) {
    dice.shuffle(rules);
    match dice.below(8) {
        0 => rules.sort_by_key(|rule| rule[1]),
        1 => put_at_ends(dice, rules),
        _ => {}
    }
}

/// Puts the rules of some head at the first and the last places, as many at each, or
/// one more at the last.
fn put_at_ends(dice: &mut Dice, rules: &mut [Vec<u8>]) {
    let head = rules[dice.below(rules.len())][1];
    let mut own = 0;
    rules.sort_by_cached_key(|rule| {
        own += usize::from(rule[1] == head);
        match (rule[1] == head, own % 2) {
            (false, _) => 1,
            (true, 0) => 0,
            (true, _) => 2,
        }
    });
}
