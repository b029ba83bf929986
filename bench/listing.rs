//! The first of the least trees by listing all trees of a sheet, and R and D of
//! all. Written from documents 01 and 02 without any table, so that it shares
//! nothing with the search but the reading of the sheet.

use crate::peer::{Rule, Sheet, BAR_UNITS, REST};
use std::collections::BTreeSet;

/// An interval still to be parsed under a nonterminal.
type Item = (u8, u32, u32);

/// R and D of a tree.
pub type Pair = (u64, u64);

/// The least trees listed.
pub struct Least {
    pub total: u64,
    /// The first in dictionary order.
    pub first: Vec<u8>,
    pub count: usize,
    /// The fewest bytes of any.
    pub shortest: usize,
}

/// A tree begun: its bytes, the intervals still open, the next on top, and what
/// is carried to it.
struct Listing<'a> {
    sheet: &'a Sheet,
    list: Vec<u8>,
    open: Vec<Item>,
    /// Takes a valid tree and its R and D.
    take: &'a mut dyn FnMut(&[u8], Pair),
    /// Rules still to be tried before the listing is given up.
    tries: usize,
}

/// The least trees, `None` in it if there is no tree; or `None` if there are too
/// many trees to list. Only the tests ask for it.
#[allow(dead_code)]
pub fn least_trees(sheet: &Sheet, tries: usize) -> Option<Option<Least>> {
    let mut least = None;
    let multiplier = u64::from(sheet.multiplier);
    let take = &mut |list: &[u8], (r, d)| add(&mut least, list, multiplier * r + d);
    list_all(sheet, tries, take).then_some(least)
}

/// R and D of all trees, which are the same for every multiplier; or `None` if there
/// are too many trees to list.
pub fn pairs(sheet: &Sheet, tries: usize) -> Option<BTreeSet<Pair>> {
    let mut pairs = BTreeSet::new();
    let take = &mut |_: &[u8], pair| {
        pairs.insert(pair);
    };
    list_all(sheet, tries, take).then_some(pairs)
}

/// Hands over all valid trees; gives whether there were few enough.
fn list_all(sheet: &Sheet, tries: usize, take: &mut dyn FnMut(&[u8], Pair)) -> bool {
    let bars = (0..u32::from(sheet.bars)).rev();
    let mut listing = Listing {
        sheet,
        list: Vec::new(),
        open: bars
            .map(|bar| (sheet.start, bar * BAR_UNITS, BAR_UNITS))
            .collect(),
        take,
        tries,
    };
    listing.extend(0, 0, 0);
    listing.tries > 0
}

/// Takes a tree among the least, or leaves it.
fn add(least: &mut Option<Least>, list: &[u8], total: u64) {
    match least {
        Some(least) if least.total < total => {}
        Some(least) if least.total == total => {
            least.count += 1;
            least.shortest = least.shortest.min(list.len());
            if list < least.first.as_slice() {
                least.first = list.to_vec();
            }
        }
        least => {
            *least = Some(Least {
                total,
                first: list.to_vec(),
                count: 1,
                shortest: list.len(),
            });
        }
    }
}

impl Listing<'_> {
    /// Lists all trees that go on from here. The rules are tried from the last to
    /// the first, so that the first tree is found by comparing and not by the order
    /// of trying.
    fn extend(&mut self, carried: usize, r: u64, d: u64) {
        let Some((nonterminal, left, length)) = self.open.pop() else {
            if carried == 0 {
                (self.take)(&self.list, (r, d));
            }
            return;
        };
        for (number, rule) in self.sheet.rules.iter().enumerate().rev() {
            self.tries = self.tries.saturating_sub(1);
            if self.tries == 0 {
                break;
            }
            self.list.push(number as u8);
            match *rule {
                Rule::Leaf { head, weight, n } if head == nonterminal => {
                    self.leaf((left, length, n), carried, r + u64::from(weight), d);
                }
                Rule::Division {
                    head,
                    weight,
                    arity,
                    parts,
                } if head == nonterminal => {
                    let parts = &parts[..usize::from(arity)];
                    self.division((left, length), parts, carried, r + u64::from(weight), d);
                }
                _ => {}
            }
            self.list.pop();
        }
        self.open.push((nonterminal, left, length));
    }

    fn leaf(&mut self, (left, length, n): (u32, u32, u8), carried: usize, r: u64, d: u64) {
        let (mut placed, mut late, mut distance) = (carried, 0, 0);
        for &(unit, _) in &self.sheet.onsets {
            if left <= unit && unit < left + length {
                if 2 * (unit - left) < length {
                    placed += 1;
                    distance += u64::from(unit - left);
                } else {
                    late += 1;
                    distance += u64::from(left + length - unit);
                }
            }
        }
        let silent = self.sheet.onsets.iter().all(|onset| onset.0 >= left);
        let fits = match n {
            0 => placed == 0 && !silent,
            REST => placed == 0 && silent,
            3 => placed >= 3,
            _ => placed == usize::from(n),
        };
        if fits && late <= 3 {
            self.extend(late, r, d + distance);
        }
    }

    fn division(
        &mut self,
        (left, length): (u32, u32),
        parts: &[u8],
        carried: usize,
        r: u64,
        d: u64,
    ) {
        let inside = |&(unit, _): &(u32, u8)| left <= unit && unit < left + length;
        let arity = parts.len() as u32;
        if length % arity != 0 || !self.sheet.onsets.iter().any(inside) {
            return;
        }
        let (kept, part) = (self.open.len(), length / arity);
        let items = parts.iter().zip((left..).step_by(part as usize));
        let items = items.map(|(&name, left)| (name, left, part));
        self.open.extend(items);
        self.open[kept..].reverse();
        self.extend(carried, r, d);
        self.open.truncate(kept);
    }
}
