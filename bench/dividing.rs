//! Writing a division over a part with several onsets: what is behind each of its
//! parts is filled from the last to the first, and the parts are written from the
//! first to the last.

use super::writing::{kind_of_empty, leaf_rule, Wanted};
use super::{bits, least, Group, Piece, Row, Search, NO_ROW};
use crate::rules::{kind, Cost, Division, Grammar, MAX_ARITY};
use std::ops::Range;

/// A division over a part with several onsets.
struct Over<'a> {
    grammar: &'a Grammar,
    division: &'a Division,
    /// The place of its parts' length.
    at: usize,
    /// How many of its parts, from the first, are rests.
    rests: usize,
    /// Where its pieces stand.
    pieces: Range<usize>,
}

/// By part: the least that it and all behind it come to, by the carry received.
type Behind = [Row; MAX_ARITY + 1];

impl Search {
    pub(super) fn write_group(
        &mut self,
        grammar: &Grammar,
        index: usize,
        wanted: &Wanted,
    ) -> usize {
        let group = self.groups[index];
        let late = usize::from(group.late);
        let received = self.received(group.first.into(), wanted.carry);
        let kind = kind(received, group.early.into());
        let leaf = leaf_rule(grammar, wanted, kind, late, group.distance);
        let rules = bits(grammar.dividing(wanted.name, wanted.at));
        let mut behind = [NO_ROW; MAX_ARITY + 1];
        for rule in rules.take_while(|&rule| rule < leaf) {
            let over = self.over(grammar, &group, rule);
            self.fill(&over, wanted, &mut behind);
            if behind[0].0[wanted.carry] == wanted.total {
                return self.write_over(&over, &behind, wanted.carry);
            }
        }
        self.push_leaf(leaf);
        late
    }

    /// A rule over a group.
    #[inline(always)]
    fn over<'a>(&self, grammar: &'a Grammar, group: &Group, rule: usize) -> Over<'a> {
        let (place, step) = grammar.place_of(rule, group.at.into());
        let (from, until) = self.splits[group.splits as usize + step];
        let first = &self.pieces[from as usize];
        Over {
            grammar,
            division: &grammar.divisions[place],
            at: grammar.steps(group.at.into())[step].to.into(),
            rests: self.rests(first.first.into(), first.part.into()),
            pieces: from as usize..until as usize,
        }
    }

    /// Fills what is behind, from the last part to the first.
    #[inline(always)]
    fn fill(&self, over: &Over, wanted: &Wanted, behind: &mut Behind) {
        let arity = usize::from(over.division.arity);
        let mut pieces = &self.pieces[over.pieces.clone()];
        for on in 0..4 {
            behind[arity].0[on] = wanted.behind.0[on] + over.division.cost;
        }
        for part in (0..arity).rev() {
            behind[part] = match pieces {
                [before @ .., piece] if usize::from(piece.part) == part => {
                    pieces = before;
                    self.behind_piece(over, piece, &behind[part + 1])
                }
                _ => behind_empty(over, part, &behind[part + 1]),
            };
        }
    }

    /// The least of a part with onsets and all behind it, by the carry received.
    #[inline(always)]
    fn behind_piece(&self, over: &Over, piece: &Piece, behind: &Row) -> Row {
        let name = over.division.parts[usize::from(piece.part)];
        let mut all = NO_ROW;
        for carry in 0..=usize::from(piece.carry) {
            let row = self.row(over.grammar, name.into(), over.at, piece, carry);
            let sums: [Cost; 4] = std::array::from_fn(|on| row.0[on] + behind.0[on]);
            all.0[carry] = least(least(sums[0], sums[1]), least(sums[2], sums[3]));
        }
        all
    }

    fn write_over(&mut self, over: &Over, behind: &Behind, mut carry: usize) -> usize {
        let mut pieces = over.pieces.clone();
        self.trees.push(over.division.rule);
        for part in 0..usize::from(over.division.arity) {
            let name = usize::from(over.division.parts[part]);
            match self.pieces[pieces.clone()] {
                [piece, ..] if usize::from(piece.part) == part => {
                    pieces.start += 1;
                    let wanted = Wanted {
                        name,
                        at: over.at,
                        carry,
                        behind: behind[part + 1],
                        total: behind[part].0[carry],
                    };
                    carry = self.write(over.grammar, &piece, &wanted);
                }
                _ => {
                    let kind = kind_of_empty(part, over.rests, carry);
                    self.trees.push(over.grammar.leaf_rule[name][kind]);
                    carry = 0;
                }
            }
        }
        carry
    }
}

/// The same of a part without onsets.
fn behind_empty(over: &Over, part: usize, behind: &Row) -> Row {
    let leaf = &over.grammar.leaf[usize::from(over.division.parts[part])];
    let cost = |carry| leaf[kind_of_empty(part, over.rests, carry)] + behind.0[0];
    Row(std::array::from_fn(cost))
}
