//! A second search for the first of the least trees in dictionary order, written
//! from documents 01 and 02 alone, so that the library's can be compared with it
//! and timed against it.
//!
//! A part of a bar begins at a multiple of its length, so its length and the
//! first onset inside name it. Its row gives, for a nonterminal and a carry
//! received, the least total by what is carried on. A bar's rows are filled from
//! short parts to long ones, in three passes: which parts with onsets there can
//! be, and the most that each receives (`survey`); rows of parts with one onset
//! (`singles`); rows of parts with several (`groups`). Filling rows that no least
//! tree needs, without asking, is faster than asking.
//!
//! Rests are only in bars and parts that no onset lies before. Of these, parts
//! with onsets have the piece's first as their own first, and no carry comes to
//! them: so their rows stand where those of no carry would.
//!
//! For each carry with which a bar can be left, the first of the least trees up to
//! there is kept. Lists that leave different carries differ, and none begins another:
//! so their order stays, whatever follows.

/// These are named by their paths, since they use what is private here.
#[path = "dividing.rs"]
mod dividing;
#[path = "writing.rs"]
mod writing;

use crate::peer::{Sheet, BAR_UNITS};
use crate::rules::{kind, Cost, Grammar, Step, LENGTHS, MAX_LATE, MAX_RULES, NONE, SILENCE};
use std::arch::x86_64::{
    __m128d, _mm_add_pd, _mm_add_sd, _mm_load_pd, _mm_min_pd, _mm_min_sd, _mm_set1_pd, _mm_set_pd,
    _mm_set_sd, _mm_store_pd, _mm_unpackhi_pd,
};
use writing::Wanted;

const MAX_BARS: usize = 64;
const MAX_BAR_ONSETS: usize = 32;

/// A row of a part with one onset, by the onsets carried on: none or it.
#[derive(Clone, Copy)]
#[repr(align(16))]
struct Pair([Cost; 2]);

/// A row, by the onsets carried on.
#[derive(Clone, Copy)]
#[repr(align(16))]
struct Row([Cost; 4]);

const NO_PAIR: Pair = Pair([NONE; 2]);
const NO_ROW: Row = Row([NONE; 4]);
/// By the onsets carried on: added to a cost, it gives the row of a leaf.
const LEAF: [Row; 4] = [
    Row([0.0, NONE, NONE, NONE]),
    Row([NONE, 0.0, NONE, NONE]),
    Row([NONE, NONE, 0.0, NONE]),
    Row([NONE, NONE, NONE, 0.0]),
];

impl Row {
    fn only(carry: usize, cost: Cost) -> Row {
        let mut row = NO_ROW;
        row.0[carry] = cost;
        row
    }

    // A half is in the row, and aligned as the row is.

    fn halves(&self) -> [__m128d; 2] {
        unsafe { [_mm_load_pd(&self.0[0]), _mm_load_pd(&self.0[2])] }
    }

    fn set_halves(&mut self, [low, high]: [__m128d; 2]) {
        unsafe {
            _mm_store_pd(&mut self.0[0], low);
            _mm_store_pd(&mut self.0[2], high);
        }
    }
}

#[inline(always)]
fn least(one: Cost, other: Cost) -> Cost {
    if one < other {
        one
    } else {
        other
    }
}

/// A part with several onsets.
#[derive(Clone, Copy)]
struct Group {
    at: u8,
    first: u8,
    until: u8,
    early: u8,
    late: u8,
    /// The most it receives.
    carry: u8,
    left: u32,
    distance: u32,
    /// Its first split: it has one for each step of its length.
    splits: u32,
}

/// A part with onsets of a split group, or of a bar as its only part.
#[derive(Clone, Copy)]
struct Piece {
    part: u8,
    first: u8,
    /// The most it receives.
    carry: u8,
    /// The most it carries on.
    late: u8,
    /// `ALONE` if it has one onset.
    group: u16,
}

const ALONE: u16 = u16::MAX;

/// How a bar is left with some carry: the carry it received, the place of that in
/// `order`, and where its tree stands among `trees`.
#[derive(Clone, Copy, Default)]
struct Choice {
    carry: usize,
    rank: usize,
    from: usize,
    until: usize,
}

/// The peer's own memory, kept from call to call.
#[derive(Default)]
pub struct Search {
    /// Of the bar's onsets, then one past every part.
    offsets: Vec<u32>,
    /// The first onset of parts that no onset lies before: 0, or past all.
    opening: usize,
    groups: Vec<Group>,
    /// By length: which first onsets have a group, and by first onset which.
    grouped: Vec<(u32, [u16; MAX_BAR_ONSETS])>,
    /// Where the pieces of a split stand.
    splits: Vec<(u32, u32)>,
    pieces: Vec<Piece>,
    /// By onset and carry: the lengths of parts where it is alone, a bit each.
    alone: [[u128; 4]; MAX_BAR_ONSETS],
    /// By onset, carry, length and nonterminal.
    pairs: Vec<Pair>,
    /// By group and nonterminal, then by carry.
    rows: Vec<[Row; 4]>,
    /// By division, then by carry.
    walks: Vec<[Row; 4]>,
    /// Of all bars, for each carry with which a bar can be left.
    trees: Vec<u8>,
    /// The carries with which the last bar can be left, by the order of the lists
    /// up to there.
    order: Vec<usize>,
    /// The bars of the tree found, the last first.
    chosen: Vec<Choice>,
}

/// The places of bits, the lowest first.
fn bits(set: impl Into<u64>) -> impl Iterator<Item = usize> {
    let mut set = set.into();
    std::iter::from_fn(move || {
        let bit = set.trailing_zeros() as usize;
        (set != 0).then(|| {
            set &= set - 1;
            bit
        })
    })
}

/// The parts of a bar.
impl Search {
    /// What a part receives, by its first onset and the carry handed on.
    #[inline(always)]
    fn received(&self, first: usize, carry: usize) -> usize {
        if first == self.opening {
            SILENCE
        } else {
            carry
        }
    }

    /// How many of a division's parts are rests, by the first part with onsets and
    /// its first onset: all before it or none.
    fn rests(&self, first: usize, part: usize) -> usize {
        if first == self.opening {
            part
        } else {
            0
        }
    }

    /// Notes all parts with onsets, of a bar that receives at most so many.
    fn survey(&mut self, grammar: &Grammar, carry: u8) {
        let count = self.offsets.len() - 1;
        self.groups.clear();
        self.splits.clear();
        self.pieces.clear();
        self.alone[..count].fill([0; 4]);
        self.grouped.resize(LENGTHS, (0, [0; MAX_BAR_ONSETS]));
        for grouped in &mut self.grouped[..grammar.reached.len()] {
            grouped.0 = 0;
        }
        self.meet(grammar, 0, 0, (0, count), carry);
        for at in 0..grammar.reached.len() {
            for first in bits(self.grouped[at].0) {
                self.split(grammar, self.grouped[at].1[first].into());
            }
        }
    }

    /// Notes a part with onsets; gives its group and the most it carries on.
    #[inline(always)]
    fn meet(
        &mut self,
        grammar: &Grammar,
        at: usize,
        left: u32,
        (first, until): (usize, usize),
        carry: u8,
    ) -> (u16, u8) {
        let length = grammar.reached[at].length;
        if until == first + 1 {
            let alone = &mut self.alone[first];
            alone[0] |= grammar.reached[at].within;
            for carry in 1..=usize::from(carry) {
                alone[carry] |= 1 << at;
            }
            let late = 2 * (self.offsets[first] - left) >= length;
            return (ALONE, late.into());
        }
        if self.grouped[at].0 >> first & 1 == 0 {
            self.grouped[at].0 |= 1 << first;
            self.grouped[at].1[first] = self.groups.len() as u16;
            self.add_group(at, left, length, (first, until));
        }
        let index = self.grouped[at].1[first];
        let group = &mut self.groups[usize::from(index)];
        group.carry = group.carry.max(carry);
        (index, group.late.min(MAX_LATE as u8))
    }

    fn add_group(&mut self, at: usize, left: u32, length: u32, (first, until): (usize, usize)) {
        let (mut late, mut distance) = (0, 0);
        for offset in &self.offsets[first..until] {
            let (before, after) = (offset - left, left + length - offset);
            late += u8::from(before >= after);
            distance += before.min(after);
        }
        self.groups.push(Group {
            at: at as u8,
            first: first as u8,
            until: until as u8,
            early: (until - first) as u8 - late,
            late,
            carry: 0,
            left,
            distance,
            splits: 0,
        });
    }

    /// Notes the parts of a group, which are shorter.
    fn split(&mut self, grammar: &Grammar, index: usize) {
        let group = self.groups[index];
        self.groups[index].splits = self.splits.len() as u32;
        for step in grammar.steps(group.at.into()) {
            let from = self.pieces.len() as u32;
            let to = &grammar.reached[usize::from(step.to)];
            let (mut first, mut next, mut carry) = (usize::from(group.first), 0, group.carry);
            while first < usize::from(group.until) {
                let part = to.part_of(self.offsets[first] - group.left);
                let left = group.left + part * to.length;
                let mut until = first + 1;
                while self.offsets[until] < left + to.length {
                    until += 1;
                }
                // An empty part before would have placed the carry.
                let received = if part == next { carry } else { 0 };
                let (index, late) =
                    self.meet(grammar, step.to.into(), left, (first, until), received);
                self.pieces.push(Piece {
                    part: part as u8,
                    first: first as u8,
                    carry: received,
                    late,
                    group: index,
                });
                (first, next, carry) = (until, part + 1, late);
            }
            self.splits.push((from, self.pieces.len() as u32));
        }
    }
}

/// Rows of parts with one onset.
impl Search {
    /// The place of the first pair of an onset and what is received. Silence has
    /// that of no carry.
    #[inline(always)]
    fn plane(&self, grammar: &Grammar, onset: usize, received: usize) -> usize {
        (onset * 4 + received % SILENCE) * grammar.reached.len() * grammar.names
    }

    fn singles(&mut self, grammar: &Grammar) {
        let count = self.offsets.len() - 1;
        let pairs = self.plane(grammar, count, 0);
        if self.pairs.len() < pairs {
            self.pairs.resize(pairs, NO_PAIR);
        }
        let mut befores = [0; LENGTHS];
        for onset in 0..count {
            if onset == self.opening {
                self.uncarried::<SILENCE>(grammar, onset, &mut befores);
            } else {
                self.uncarried::<0>(grammar, onset, &mut befores);
            }
            for carry in 1..=MAX_LATE {
                let mut lengths = first_parts(grammar, &befores, self.alone[onset][carry]);
                while lengths != 0 {
                    let at = 127 - lengths.leading_zeros() as usize;
                    lengths ^= 1 << at;
                    self.single(grammar, onset, carry, at, befores[at]);
                }
            }
        }
    }

    /// The pairs of an onset that no carry comes to: most of the work, and so with
    /// what is received known to the compiler.
    #[inline(always)]
    fn uncarried<const RECEIVED: usize>(
        &mut self,
        grammar: &Grammar,
        onset: usize,
        befores: &mut [u32; LENGTHS],
    ) {
        let offset = self.offsets[onset];
        let mut lengths = self.alone[onset][0];
        while lengths != 0 {
            let at = 127 - lengths.leading_zeros() as usize;
            lengths ^= 1 << at;
            let reached = &grammar.reached[at];
            befores[at] = offset - reached.part_of(offset) * reached.length;
            self.single(grammar, onset, RECEIVED, at, befores[at]);
        }
    }

    /// The pairs of a length, whose parts' pairs are filled.
    #[inline(always)]
    fn single(&mut self, grammar: &Grammar, onset: usize, received: usize, at: usize, before: u32) {
        let reached = &grammar.reached[at];
        let after = reached.length - before;
        let here = self.plane(grammar, onset, received);
        let base = here + at * grammar.names;
        let early = usize::from(before < after);
        let (kind, distance) = (kind(received, early), Cost::from(before.min(after)));
        let [leaf, _] = LEAF[1 - early].halves();
        for name in bits(reached.names) {
            let cost = grammar.leaf[name][kind] + distance;
            let pair = &mut self.pairs[base + name];
            // One store, which a load of the pair need not wait for.
            unsafe { _mm_store_pd(pair.0.as_mut_ptr(), _mm_add_pd(leaf, _mm_set1_pd(cost))) };
        }
        for step in grammar.steps(at) {
            let to = usize::from(step.to);
            let part = grammar.reached[to].part_of(before) as usize;
            let plane = if part == 0 {
                here
            } else {
                self.plane(grammar, onset, 0)
            };
            let singles = grammar.singles_of(step, received, part);
            self.relax(
                grammar,
                base,
                plane + to * grammar.names,
                singles,
                grammar.uses(step),
            );
        }
    }

    /// Lowers the pairs at a base by divisions over one onset.
    #[inline(always)]
    fn relax(&mut self, grammar: &Grammar, base: usize, below: usize, singles: usize, uses: &[u8]) {
        for &at in uses {
            // Names are below the number of nonterminals, for which each length
            // has room, and each division has its singles.
            unsafe {
                let single = grammar
                    .singles
                    .get_unchecked(singles.wrapping_add(at.into()));
                let pair = self.pairs.get_unchecked(below + usize::from(single.part));
                let pair = _mm_load_pd(pair.0.as_ptr());
                let straight = _mm_add_pd(pair, _mm_load_pd(single.straight.as_ptr()));
                let late = _mm_unpackhi_pd(pair, pair);
                let crossed = _mm_add_sd(late, _mm_set_sd(single.crossed));
                let least = _mm_min_sd(straight, crossed);
                let head = self
                    .pairs
                    .get_unchecked_mut(base + usize::from(single.head));
                let lower = _mm_min_pd(_mm_load_pd(head.0.as_ptr()), least);
                _mm_store_pd(head.0.as_mut_ptr(), lower);
            }
        }
    }
}

/// Those of the lengths within where the part begins with the whole, since only
/// there the carry is received again.
fn first_parts(grammar: &Grammar, befores: &[u32; LENGTHS], mut wholes: u128) -> u128 {
    let mut all = wholes;
    while wholes != 0 {
        let whole = wholes.trailing_zeros() as usize;
        wholes &= wholes - 1;
        let mut parts = grammar.reached[whole].within & !all;
        while parts != 0 {
            let part = parts.trailing_zeros() as usize;
            parts &= parts - 1;
            all |= u128::from(befores[part] == befores[whole]) << part;
        }
    }
    all
}

/// Rows of parts with several onsets.
impl Search {
    fn groups(&mut self, grammar: &Grammar) {
        let rows = self.groups.len() * grammar.names;
        if self.rows.len() < rows {
            self.rows.resize(rows, [NO_ROW; 4]);
        }
        self.walks.resize(MAX_RULES, [NO_ROW; 4]);
        for at in (0..grammar.reached.len()).rev() {
            for first in bits(self.grouped[at].0) {
                self.group(grammar, self.grouped[at].1[first].into());
            }
        }
    }

    /// The rows of a group, whose parts' rows are filled.
    fn group(&mut self, grammar: &Grammar, index: usize) {
        let group = self.groups[index];
        let (at, carries) = (usize::from(group.at), usize::from(group.carry) + 1);
        let base = index * grammar.names;
        let leaf = LEAF.get(usize::from(group.late)).unwrap_or(&NO_ROW);
        let received = self.received(group.first.into(), 0);
        for name in bits(grammar.reached[at].names) {
            for (carry, row) in self.rows[base + name][..carries].iter_mut().enumerate() {
                // After silence there is no carry.
                let kind = kind(received + carry, group.early.into());
                let cost = grammar.leaf[name][kind] + Cost::from(group.distance);
                let [low, high] = leaf.halves();
                let cost = unsafe { _mm_set1_pd(cost) };
                row.set_halves(unsafe { [_mm_add_pd(low, cost), _mm_add_pd(high, cost)] });
            }
        }
        for (step, split) in grammar.steps(at).iter().zip(group.splits as usize..) {
            let uses = grammar.uses(step);
            self.walk(grammar, uses, step, split, carries);
            for (&at, walk) in uses.iter().zip(&self.walks) {
                let head = usize::from(grammar.divisions[usize::from(at)].head);
                let rows = &mut self.rows[base + head];
                for (row, walk) in rows.iter_mut().zip(walk).take(carries) {
                    let ([low, high], [walk_low, walk_high]) = (row.halves(), walk.halves());
                    row.set_halves(unsafe {
                        [_mm_min_pd(low, walk_low), _mm_min_pd(high, walk_high)]
                    });
                }
            }
        }
    }

    /// Walks divisions over the parts of a split, all of them side by side. A part
    /// is passed with a fixed number of carries, since a branch costs more than a
    /// sum: rows of carries that there cannot be are of an earlier bar, but are
    /// added to `NONE`.
    fn walk(&mut self, grammar: &Grammar, uses: &[u8], step: &Step, split: usize, carries: usize) {
        for (&at, walk) in uses.iter().zip(&mut self.walks) {
            let cost = grammar.divisions[usize::from(at)].cost;
            for (carry, row) in walk[..carries].iter_mut().enumerate() {
                *row = Row::only(carry, cost);
            }
        }
        let (from, until) = self.splits[split];
        let (mut next, mut most) = (0, carries - 1);
        for at in from..until {
            let piece = self.pieces[at as usize];
            let part = usize::from(piece.part);
            if next < part {
                if usize::from(piece.first) == self.opening {
                    self.pass_rests(grammar, uses, part);
                } else {
                    self.pass_empty(grammar, uses, (next, part), carries);
                }
                most = 0;
            }
            match (piece.group, most) {
                (ALONE, 0 | 1) => self.pass_single::<2>(grammar, uses, step, &piece, carries),
                (ALONE, _) => self.pass_single::<4>(grammar, uses, step, &piece, carries),
                (_, 0 | 1) => self.pass_group::<2>(grammar, uses, &piece, carries),
                (_, _) => self.pass_group::<4>(grammar, uses, &piece, carries),
            }
            (next, most) = (part + 1, usize::from(piece.late));
        }
        if next < usize::from(step.arity) {
            self.pass_empty(grammar, uses, (next, step.arity.into()), carries);
        }
    }

    /// Passes all parts before the one with the piece's first onset.
    fn pass_rests(&mut self, grammar: &Grammar, uses: &[u8], until: usize) {
        for (&at, walk) in uses.iter().zip(&mut self.walks) {
            walk[0].0[0] += grammar.divisions[usize::from(at)].rests[until];
        }
    }

    /// Passes parts without onsets: the first places the carry.
    #[inline(always)]
    fn pass_empty(
        &mut self,
        grammar: &Grammar,
        uses: &[u8],
        (from, until): (usize, usize),
        carries: usize,
    ) {
        for (&at, walk) in uses.iter().zip(&mut self.walks) {
            let division = &grammar.divisions[usize::from(at)];
            let leaf = &grammar.leaf[usize::from(division.parts[from])];
            let rest = division.empty(from + 1, until);
            for row in &mut walk[..carries] {
                let sums: [Cost; 4] = std::array::from_fn(|carry| row.0[carry] + leaf[carry]);
                let cost = least(least(sums[0], sums[1]), least(sums[2], sums[3]));
                row.set_halves(unsafe { [_mm_set_pd(NONE, cost + rest), _mm_set1_pd(NONE)] });
            }
        }
    }

    /// Passes a part with one onset.
    #[inline(always)]
    fn pass_single<const CARRIES: usize>(
        &mut self,
        grammar: &Grammar,
        uses: &[u8],
        step: &Step,
        piece: &Piece,
        carries: usize,
    ) {
        let plane = self.plane(grammar, piece.first.into(), 0);
        let stride = self.plane(grammar, 0, 1);
        let below = plane + usize::from(step.to) * grammar.names;
        for (&at, walk) in uses.iter().zip(&mut self.walks) {
            let division = &grammar.divisions[usize::from(at)];
            let place = below + usize::from(division.parts[usize::from(piece.part)]);
            for row in &mut walk[..carries] {
                let [mut after, none] = NO_ROW.halves();
                for carry in 0..CARRIES {
                    // There are four planes for each onset.
                    unsafe {
                        let pair = self.pairs.get_unchecked(place + carry * stride);
                        let ahead = _mm_set1_pd(row.0[carry]);
                        let sum = _mm_add_pd(ahead, _mm_load_pd(pair.0.as_ptr()));
                        after = _mm_min_pd(after, sum);
                    }
                }
                row.set_halves([after, none]);
            }
        }
    }

    /// Passes a part with several onsets.
    #[inline(always)]
    fn pass_group<const CARRIES: usize>(
        &mut self,
        grammar: &Grammar,
        uses: &[u8],
        piece: &Piece,
        carries: usize,
    ) {
        let base = usize::from(piece.group) * grammar.names;
        for (&at, walk) in uses.iter().zip(&mut self.walks) {
            let division = &grammar.divisions[usize::from(at)];
            let rows = &self.rows[base + usize::from(division.parts[usize::from(piece.part)])];
            for row in &mut walk[..carries] {
                let [mut low, mut high] = NO_ROW.halves();
                for (carry, part) in rows[..CARRIES].iter().enumerate() {
                    let [part_low, part_high] = part.halves();
                    unsafe {
                        let ahead = _mm_set1_pd(row.0[carry]);
                        low = _mm_min_pd(low, _mm_add_pd(ahead, part_low));
                        high = _mm_min_pd(high, _mm_add_pd(ahead, part_high));
                    }
                }
                row.set_halves([low, high]);
            }
        }
    }
}

/// Bar after bar.
impl Search {
    /// The least total, of which the first tree is kept; `None` if there is no tree.
    pub fn find(&mut self, sheet: &Sheet) -> Option<u64> {
        let grammar = Grammar::new(sheet);
        let bars = usize::from(sheet.bars);
        let mut choices = [[Choice::default(); 4]; MAX_BARS];
        self.chosen.clear();
        let mut totals = Row::only(0, 0.0);
        let mut onsets = &sheet.onsets[..];
        self.trees.clear();
        self.order.clear();
        self.order.push(0);
        for (left, choices) in (0..).step_by(BAR_UNITS as usize).zip(&mut choices[..bars]) {
            let inside = onsets.iter().take_while(|onset| onset.0 < left + BAR_UNITS);
            let (inside, after) = onsets.split_at(inside.count());
            let silent = onsets.len() == sheet.onsets.len();
            self.opening = if silent { 0 } else { usize::MAX };
            onsets = after;
            self.offsets.clear();
            self.offsets
                .extend(inside.iter().map(|onset| onset.0 - left));
            self.offsets.push(u32::MAX);
            totals = self.bar(&grammar, &totals, choices);
        }
        if totals.0[0] >= NONE {
            return None;
        }
        self.choose(&choices[..bars]);
        Some(totals.0[0] as u64)
    }

    /// The least totals after a bar, by carry, from those before it.
    fn bar(&mut self, grammar: &Grammar, totals: &Row, choices: &mut [Choice; 4]) -> Row {
        if self.offsets.len() > 1 {
            let most = self.order.iter().max().unwrap_or(&0);
            self.survey(grammar, *most as u8);
            self.singles(grammar);
            self.groups(grammar);
        }
        let mut after = NO_ROW;
        let mut cells = [0.0; 4];
        // In the order of their lists, so that of equals the first is kept.
        for (rank, &carry) in self.order.iter().enumerate() {
            let row = self.whole_row(grammar, carry);
            for on in 0..4 {
                if totals.0[carry] + row.0[on] < after.0[on] {
                    after.0[on] = totals.0[carry] + row.0[on];
                    cells[on] = row.0[on];
                    (choices[on].carry, choices[on].rank) = (carry, rank);
                }
            }
        }
        // Such a carry is of no use, and neither are its tree and rows after it. With
        // equal totals it is kept, since its list may be the first.
        for on in 1..4 {
            if after.0[0] + grammar.without[on] < after.0[on] {
                after.0[on] = NONE;
            }
        }
        self.leave(grammar, &after, &cells, choices);
        after
    }

    /// Writes the trees of a bar, and orders the carries with which it is left.
    fn leave(
        &mut self,
        grammar: &Grammar,
        after: &Row,
        cells: &[Cost; 4],
        choices: &mut [Choice; 4],
    ) {
        self.order.clear();
        for on in (0..4).filter(|&on| after.0[on] < NONE) {
            choices[on].from = self.trees.len();
            self.write_whole(grammar, choices[on].carry, on, cells[on]);
            choices[on].until = self.trees.len();
            self.order.push(on);
        }
        let trees = &self.trees;
        let list = |on: usize| {
            let choice = &choices[on];
            (choice.rank, &trees[choice.from..choice.until])
        };
        self.order
            .sort_unstable_by(|&one, &other| list(one).cmp(&list(other)));
    }

    fn whole(&self) -> Piece {
        let several = self.offsets.len() > 2;
        Piece {
            part: 0,
            first: 0,
            carry: 0,
            late: 0,
            group: if several { 0 } else { ALONE },
        }
    }

    fn whole_row(&self, grammar: &Grammar, carry: usize) -> Row {
        let name = grammar.start;
        match self.offsets.len() {
            1 => Row::only(0, grammar.leaf[name][self.received(0, carry)]),
            _ => self.row(grammar, name, 0, &self.whole(), carry),
        }
    }

    fn write_whole(&mut self, grammar: &Grammar, carry: usize, on: usize, total: Cost) {
        let (name, at) = (grammar.start, 0);
        if self.offsets.len() == 1 {
            let kind = self.received(0, carry);
            self.trees.push(grammar.leaf_rule[name][kind]);
        } else {
            let wanted = Wanted {
                name,
                at,
                carry,
                behind: Row::only(on, 0.0),
                total,
            };
            self.write(grammar, &self.whole(), &wanted);
        }
    }

    /// The trees of the bars that end with nothing carried on, the last first.
    fn choose(&mut self, choices: &[[Choice; 4]]) {
        let mut on = 0;
        for choices in choices.iter().rev() {
            self.chosen.push(choices[on]);
            on = choices[on].carry;
        }
    }

    /// Writes the tree found from the front of a slice; gives its node count.
    pub fn write_tree(&self, tree: &mut [u8]) -> usize {
        let mut nodes = 0;
        for choice in self.chosen.iter().rev() {
            let bar = &self.trees[choice.from..choice.until];
            tree[nodes..nodes + bar.len()].copy_from_slice(bar);
            nodes += bar.len();
        }
        nodes
    }
}
