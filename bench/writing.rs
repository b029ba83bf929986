//! Writing the first of a bar's least trees in dictionary order, from the rows
//! that the search has filled.
//!
//! A tree is written from left to right. Each part takes the lowest rule with which
//! it and all that is behind it in the bar still have the least total. That is
//! known for each carry that the part may hand on, so no choice is taken back.

use super::{bits, least, Pair, Piece, Row, Search, ALONE};
use crate::rules::{kind, Cost, Division, Grammar, Single, MAX_RULES, NONE, SILENCE};

/// A nonterminal over a part with onsets, of which a tree is wanted.
pub(super) struct Wanted {
    pub(super) name: usize,
    /// The place of its length.
    pub(super) at: usize,
    /// The carry received.
    pub(super) carry: usize,
    /// By the carry handed on: the least of what is counted beside the part, which
    /// is all behind it and maybe some before it.
    pub(super) behind: Row,
    /// The least of the part and what is counted beside it.
    pub(super) total: Cost,
}

/// Above all rules.
const NO_RULE: usize = MAX_RULES;

/// The kind of a part without onsets, of a division that begins with some rests.
pub(super) fn kind_of_empty(part: usize, rests: usize, carry: usize) -> usize {
    if part < rests {
        SILENCE
    } else {
        carry
    }
}

/// The leaf's rule if it has the total wanted.
pub(super) fn leaf_rule(
    grammar: &Grammar,
    wanted: &Wanted,
    kind: usize,
    late: usize,
    distance: u32,
) -> usize {
    let behind = *wanted.behind.0.get(late).unwrap_or(&NONE);
    let total = grammar.leaf[wanted.name][kind] + Cost::from(distance) + behind;
    if total == wanted.total {
        grammar.leaf_rule[wanted.name][kind].into()
    } else {
        NO_RULE
    }
}

/// What is behind the part with the onset, with what the division adds beside it.
fn behind_single(single: &Single, behind: &Row) -> Row {
    let [none, one] = single.straight;
    let late = least(one + behind.0[1], single.crossed + behind.0[0]);
    Row([none + behind.0[0], late, NONE, NONE])
}

/// Trees, from the rows. Each function that writes gives the carry handed on.
impl Search {
    pub(super) fn row(
        &self,
        grammar: &Grammar,
        name: usize,
        at: usize,
        piece: &Piece,
        carry: usize,
    ) -> Row {
        if piece.group != ALONE {
            return self.rows[usize::from(piece.group) * grammar.names + name][carry];
        }
        let plane = self.plane(grammar, piece.first.into(), carry);
        let Pair([none, one]) = self.pairs[plane + at * grammar.names + name];
        Row([none, one, NONE, NONE])
    }

    pub(super) fn write(&mut self, grammar: &Grammar, piece: &Piece, wanted: &Wanted) -> usize {
        if piece.group == ALONE {
            self.write_single(grammar, piece.first.into(), wanted)
        } else {
            self.write_group(grammar, piece.group.into(), wanted)
        }
    }

    pub(super) fn push_leaf(&mut self, rule: usize) {
        assert!(rule < NO_RULE, "some rule has the total");
        self.trees.push(rule as u8);
    }

    fn write_single(&mut self, grammar: &Grammar, onset: usize, wanted: &Wanted) -> usize {
        let reached = &grammar.reached[wanted.at];
        let offset = self.offsets[onset];
        let before = offset - reached.part_of(offset) * reached.length;
        let after = reached.length - before;
        let early = usize::from(before < after);
        let kind = kind(self.received(onset, wanted.carry), early);
        let leaf = leaf_rule(grammar, wanted, kind, 1 - early, before.min(after));
        let rules = bits(grammar.dividing(wanted.name, wanted.at));
        for rule in rules.take_while(|&rule| rule < leaf) {
            let (part, inner) = self.inner(grammar, (onset, before), rule, wanted);
            if inner.total == wanted.total {
                let division = grammar.division(rule);
                return self.write_parts(grammar, division, (onset, part), wanted.carry, &inner);
            }
        }
        self.push_leaf(leaf);
        1 - early
    }

    /// Which part of a rule the onset is in, and what would be wanted of it.
    #[inline(always)]
    fn inner(
        &self,
        grammar: &Grammar,
        (onset, before): (usize, u32),
        rule: usize,
        wanted: &Wanted,
    ) -> (usize, Wanted) {
        let (place, step) = grammar.place_of(rule, wanted.at);
        let step = &grammar.steps(wanted.at)[step];
        let at = usize::from(step.to);
        let part = grammar.reached[at].part_of(before) as usize;
        let singles = grammar.singles_of(step, self.received(onset, wanted.carry), part);
        let single = &grammar.singles[singles.wrapping_add(place)];
        let name = usize::from(single.part);
        let carry = if part == 0 { wanted.carry } else { 0 };
        let plane = self.plane(grammar, onset, carry);
        let Pair([none, one]) = self.pairs[plane + at * grammar.names + name];
        let behind = behind_single(single, &wanted.behind);
        let inner = Wanted {
            name,
            at,
            carry,
            total: least(none + behind.0[0], one + behind.0[1]),
            behind,
        };
        (part, inner)
    }

    /// Writes a division over one onset, which is in some part.
    fn write_parts(
        &mut self,
        grammar: &Grammar,
        division: &Division,
        (onset, inhabited): (usize, usize),
        mut carry: usize,
        inner: &Wanted,
    ) -> usize {
        let rests = self.rests(onset, inhabited);
        self.trees.push(division.rule);
        for (part, &name) in division.parts[..division.arity.into()].iter().enumerate() {
            if part == inhabited {
                carry = self.write_single(grammar, onset, inner);
            } else {
                let kind = kind_of_empty(part, rests, carry);
                self.trees.push(grammar.leaf_rule[usize::from(name)][kind]);
                carry = 0;
            }
        }
        carry
    }
}
