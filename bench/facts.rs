//! Facts about one sheet under several multipliers, held of plain answers:
//! document 02's request (xiv) and what is proved beside it. They are held as the
//! document states them, so that they also tell of an error that the library and
//! the peer share.

use crate::harness::{same, Difference};
use crate::listing::Pair;
use std::collections::BTreeSet;

/// What finding gave with a multiplier.
#[derive(Debug, PartialEq)]
pub struct Answer {
    pub multiplier: u16,
    /// `None` if there is no tree.
    pub found: Option<Found>,
}

#[derive(Debug, PartialEq)]
pub struct Found {
    pub r: u64,
    pub d: u64,
    pub total: u64,
    pub tree: Vec<u8>,
}

impl Answer {
    pub fn pair(&self) -> Option<Pair> {
        self.found.as_ref().map(|found| (found.r, found.d))
    }

    fn tree(&self) -> Option<&[u8]> {
        self.found.as_ref().map(|found| found.tree.as_slice())
    }

    /// A pair with R and D both as small, and one of them smaller.
    pub fn dominated_by(&self, pairs: &BTreeSet<Pair>) -> Option<Pair> {
        let found = self.found.as_ref()?;
        let as_small = |&&(r, d): &&Pair| r <= found.r && d <= found.d;
        let smaller = |&&(r, d): &&Pair| r < found.r || d < found.d;
        pairs.iter().filter(as_small).find(smaller).copied()
    }
}

/// Holds all facts of answers with multipliers that rise. The pairs are R and D of
/// all valid trees, or of all that are known.
pub fn hold(answers: &[Answer], pairs: &BTreeSet<Pair>) -> Result<(), Difference> {
    both_or_neither(answers)?;
    in_order(answers)?;
    same_tree(answers)?;
    for answer in answers {
        undominated(answer, pairs)?;
        least_total(answer, pairs)?;
    }
    Ok(())
}

/// Each answer with the next.
pub fn steps(answers: &[Answer]) -> impl Iterator<Item = (&Answer, &Answer)> {
    answers.iter().zip(answers.iter().skip(1))
}

/// Sheets alike except for the multiplier have a tree both or neither.
pub fn both_or_neither(answers: &[Answer]) -> Result<(), Difference> {
    for (one, other) in steps(answers) {
        let alike = one.found.is_some() == other.found.is_some();
        expect(alike, "one has a tree and the other none", &[one, other])?;
    }
    Ok(())
}

/// "For two sheets alike except that a grows, when both have a tree, R doesn't rise
/// and D doesn't fall."
pub fn in_order(answers: &[Answer]) -> Result<(), Difference> {
    for (one, other) in steps(answers) {
        if let (Some((r, d)), Some((next_r, next_d))) = (one.pair(), other.pair()) {
            expect(next_r <= r, "R rises", &[one, other])?;
            expect(next_d >= d, "D falls", &[one, other])?;
        }
    }
    Ok(())
}

/// Where two multipliers give the same R and D they give the same tree, and so does
/// every multiplier between them.
pub fn same_tree(answers: &[Answer]) -> Result<(), Difference> {
    for (at, first) in answers.iter().enumerate() {
        let alike = |other: &Answer| other.pair() == first.pair();
        let last = answers.iter().rposition(alike).unwrap_or(at);
        for other in &answers[at..=last] {
            let same = other.tree() == first.tree();
            let three = [first, other, &answers[last]];
            expect(same, "not one tree from first to last", &three)?;
        }
    }
    Ok(())
}

/// "With a of 1 or more, no valid tree has R and D both as small as the tree found
/// and one of them smaller."
pub fn undominated(answer: &Answer, pairs: &BTreeSet<Pair>) -> Result<(), Difference> {
    if answer.multiplier == 0 {
        return Ok(());
    }
    let smaller = answer.dominated_by(pairs);
    let asked = format!("dominated by {smaller:?}");
    expect(smaller.is_none(), &asked, &[answer])
}

/// The total is the least of all; there is no tree exactly where no pair is.
pub fn least_total(answer: &Answer, pairs: &BTreeSet<Pair>) -> Result<(), Difference> {
    let multiplier = u64::from(answer.multiplier);
    let least = pairs.iter().map(|(r, d)| multiplier * r + d).min();
    let total = answer.found.as_ref().map(|found| found.total);
    let asked = format!("the total with multiplier {multiplier} beside the least");
    same(&asked, total, least)
}

fn expect(held: bool, asked: &str, answers: &[&Answer]) -> Result<(), Difference> {
    if held {
        return Ok(());
    }
    Err(Difference(format!("{asked}: {answers:?}")))
}
