//! The multipliers that a sheet is slid over, and its text with another one.

use crate::listing::Pair;
use crate::sheets::Dice;
use std::collections::BTreeSet;

/// Where the multiplier's digits stand in a text whose first line is a grammar head.
const DIGITS: std::ops::Range<usize> = 6..10;

/// The text with another multiplier, or `None` if its first line isn't five bytes.
pub fn with_multiplier(text: &[u8], multiplier: u16) -> Option<Vec<u8>> {
    let is_digit = |byte: &u8| matches!(byte, b'0'..=b'9' | b'A'..=b'F');
    let head = text.get(..DIGITS.end)?;
    if !head.iter().all(is_digit) || text.get(DIGITS.end) != Some(&b'\n') {
        return None;
    }
    let mut text = text.to_vec();
    text[DIGITS].copy_from_slice(format!("{multiplier:04X}").as_bytes());
    Some(text)
}

/// The bounds, the sheet's own, random ones, and neighbours of these.
pub fn usual(dice: &mut Dice, own: u16) -> BTreeSet<u16> {
    let mut multipliers = BTreeSet::from([0, 1, u16::MAX, own, own.saturating_add(1)]);
    for _ in 0..2 {
        // A random width first, since most changes are at small ones.
        let any = (dice.below(65_536) >> dice.below(16)) as u16;
        multipliers.extend([any, any.saturating_add(1)]);
    }
    multipliers
}

/// The multipliers around those at which the least total passes from one pair of
/// R and D to another: one before and one behind, and where both total the same
/// with a whole multiplier, that one too.
pub fn changes(pairs: &BTreeSet<Pair>) -> BTreeSet<u16> {
    let mut around = BTreeSet::new();
    // Just above 0 the least D counts, and of equals the least R.
    let mut least = pairs.iter().copied().min_by_key(|&(r, d)| (d, r));
    while let Some((r, d)) = least {
        least = next_least(pairs, (r, d));
        if let Some(next) = least {
            let (risen, fallen) = (next.1 - d, r - next.0);
            let multipliers = risen.div_ceil(fallen) - 1..=risen / fallen + 1;
            around.extend(multipliers.filter_map(|a| u16::try_from(a).ok()));
        }
    }
    around
}

/// A pair that is the first to total as little as a least one as the multiplier grows.
fn next_least(pairs: &BTreeSet<Pair>, (r, d): Pair) -> Option<Pair> {
    let lighter = pairs.iter().copied().filter(|pair| pair.0 < r);
    // Every lighter pair has a larger D, or the least one would not be least. D is
    // below 2^24 and R below 2^32.
    lighter.min_by(|one, other| {
        let products = [(one.1 - d) * (r - other.0), (other.1 - d) * (r - one.0)];
        products[0].cmp(&products[1])
    })
}

#[cfg(test)]
mod tests {
    use super::*;

    #[test]
    fn another_multiplier() {
        let with = |text: &str| with_multiplier(text.as_bytes(), 0xABCD);
        let changed = Some(b"470200ABCD\n4C00000101\n".to_vec());
        assert_eq!(with("470200000A\n4C00000101\n"), changed);
        for head in ["", "47020000", "470200000", "470200000A00", "4702000g0A"] {
            assert_eq!(with(&format!("{head}\n4C00000101\n")), None);
        }
        assert_eq!(with("470200000A"), None);
    }

    #[test]
    fn bounds_and_neighbours() {
        let mut dice = Dice::new(1);
        for own in [0, 10, u16::MAX] {
            let sure = BTreeSet::from([0, 1, own, own.saturating_add(1), u16::MAX]);
            assert!(usual(&mut dice, own).is_superset(&sure));
        }
    }

    #[test]
    fn around_changes() {
        let around = |pairs: &[Pair], expected: &[u16]| {
            let pairs = pairs.iter().copied().collect();
            assert_eq!(changes(&pairs), expected.iter().copied().collect());
        };
        around(&[], &[]);
        around(&[(3, 4)], &[]);
        // They total the same with 3.
        around(&[(3, 4), (1, 10)], &[2, 3, 4]);
        // (5, 4) and (2, 9) are never least above 0.
        let pairs = [(3, 4), (5, 4), (2, 9), (1, 10), (0, 20)];
        around(&pairs, &[2, 3, 4, 9, 10, 11]);
        // All three total the same with 5.
        around(&[(2, 0), (1, 5), (0, 10)], &[4, 5, 6]);
        around(&[(3, 0), (0, 1)], &[0, 1]);
        around(&[(1, 0), (0, 65_535)], &[65_534, 65_535]);
        around(&[(1, 0), (0, 65_537)], &[]);
    }
}
