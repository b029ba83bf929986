//! A second pricing of trees and writing of score lines, written from documents
//! 01 and 02 alone, so that the library's can be compared with it and timed
//! against it.
//!
//! `rustc --test bench/trees.rs` builds the tests at the end of this file.

/// Named by its path, so that this file also builds alone.
#[path = "peer.rs"]
pub mod peer;

use peer::{Rule, Sheet, BAR_UNITS, REST};
use std::ops::Range;
use std::slice;

pub const NO_TREE: u8 = 12;
pub const SCORE_SHORT: u8 = 13;

const MAX_LATE: usize = 3;
const SCORE_HEAD: u8 = 0x54;
/// Bytes of a head line, its digits and its line end.
const HEAD_LINE: usize = 53;
/// The same of a leaf's line, without pitches.
const LEAF_LINE: usize = 19;

#[derive(Clone, Copy, Debug, Default, PartialEq)]
pub struct Price {
    pub nodes: u64,
    /// The weights of all rules used.
    pub r: u64,
    /// The distances of all onsets from their places.
    pub d: u64,
    pub total: u64,
}

/// Prices a list, or gives `None` if it is no valid tree.
pub fn price(sheet: &Sheet, list: &[u8]) -> Option<Price> {
    walk(sheet, list, &mut ())
}

/// The text of the score, or `None` if the list is no valid tree.
pub fn score(sheet: &Sheet, list: &[u8]) -> Option<Vec<u8>> {
    let (price, length) = price_and_length(sheet, list)?;
    let mut text = vec![0; length];
    write_text(sheet, list, &price, &mut text);
    Some(text)
}

/// Writes the score from the front of a lent slice and gives its byte count, or
/// gives a refusal and leaves the slice as it was.
pub fn write(sheet: &Sheet, list: &[u8], slice: &mut [u8]) -> Result<usize, u8> {
    let (price, length) = price_and_length(sheet, list).ok_or(NO_TREE)?;
    let text = slice.get_mut(..length).ok_or(SCORE_SHORT)?;
    write_text(sheet, list, &price, text);
    Ok(length)
}

// Walking.

struct Leaf {
    left: u32,
    length: u32,
    n: u8,
    /// The places on the sheet of the onsets placed: those carried in and then
    /// those early. They follow each other, since late onsets are the last of
    /// their leaf.
    placed: Range<usize>,
}

/// What a walk does at each leaf. A trait, since a closure's body cannot be
/// inlined for certain, and the call would hand over the leaf in memory.
trait Visitor {
    fn leaf(&mut self, leaf: &Leaf);
}

/// Pricing needs nothing more at a leaf.
impl Visitor for () {
    #[inline(always)]
    fn leaf(&mut self, _: &Leaf) {}
}

/// One pass over a list, interval by interval from left to right.
struct Walk<'a, V> {
    rules: &'a [Rule],
    onsets: &'a [(u32, u8)],
    list: slice::Iter<'a, u8>,
    /// How many onsets lie before the next leaf.
    passed: usize,
    /// How many of those the next leaf receives.
    carried: usize,
    /// The unit of the first onset not passed, or one past every bar.
    next_unit: u32,
    r: u64,
    d: u64,
    visitor: &'a mut V,
}

/// Walks over the whole piece; `None` if the list is no valid tree.
#[inline(always)]
fn walk(sheet: &Sheet, list: &[u8], visitor: &mut impl Visitor) -> Option<Price> {
    let mut walk = Walk {
        rules: &sheet.rules,
        onsets: &sheet.onsets,
        list: list.iter(),
        passed: 0,
        carried: 0,
        next_unit: sheet.onsets[0].0,
        r: 0,
        d: 0,
        visitor,
    };
    for bar in 0..u32::from(sheet.bars) {
        walk.interval(sheet.start, bar * BAR_UNITS, BAR_UNITS)?;
    }
    if walk.carried > 0 || walk.list.next().is_some() {
        return None;
    }
    Some(Price {
        nodes: list.len() as u64,
        r: walk.r,
        d: walk.d,
        // At most 41,024 rules and 512 onsets, so this is far below 2^64.
        total: u64::from(sheet.multiplier) * walk.r + walk.d,
    })
}

impl<V: Visitor> Walk<'_, V> {
    /// The next rule of the list, over this interval, and all of its parts.
    /// Inlined, so that only divisions are calls: most rules are leaves.
    #[inline(always)]
    fn interval(&mut self, nonterminal: u8, left: u32, length: u32) -> Option<()> {
        let number = *self.list.next()?;
        match *self.rules.get(usize::from(number))? {
            Rule::Leaf { head, weight, n } => {
                self.r += u64::from(weight);
                (head == nonterminal && self.leaf(left, length, n)).then_some(())
            }
            Rule::Division {
                head,
                weight,
                arity,
                ref parts,
            } => {
                self.r += u64::from(weight);
                let k = u32::from(arity);
                let part = length / k;
                let inhabited = self.next_unit < left + length;
                if head != nonterminal || part * k != length || !inhabited {
                    return None;
                }
                self.parts(&parts[..usize::from(arity)], left, part)
            }
        }
    }

    /// The parts of a division, from left to right.
    fn parts(&mut self, names: &[u8], mut left: u32, length: u32) -> Option<()> {
        for &name in names {
            self.interval(name, left, length)?;
            left += length;
        }
        Some(())
    }

    /// Places or carries the onsets of a leaf; gives whether the rule fits.
    #[inline(always)]
    fn leaf(&mut self, left: u32, length: u32, n: u8) -> bool {
        let first = self.passed - self.carried;
        // Of the whole piece: an onset inside this leaf does not end the silence.
        let silent = self.passed == 0;
        let mut placed = self.carried;
        self.carried = 0;
        while self.next_unit < left + length {
            let offset = self.next_unit - left;
            if 2 * offset < length {
                placed += 1;
                self.d += u64::from(offset);
            } else {
                self.carried += 1;
                // Its place is the next leaf's left bound: this one's right.
                self.d += u64::from(length - offset);
            }
            self.pass();
        }
        self.visitor.leaf(&Leaf {
            left,
            length,
            n,
            placed: first..first + placed,
        });
        let kind = match placed {
            0 if silent => REST.into(),
            _ => placed.min(3),
        };
        self.carried <= MAX_LATE && usize::from(n) == kind
    }

    fn pass(&mut self) {
        self.passed += 1;
        let next = self.onsets.get(self.passed);
        self.next_unit = next.map_or(u32::MAX, |&(unit, _)| unit);
    }
}

// Writing.

/// The number of leaves.
struct Leaves(usize);

impl Visitor for Leaves {
    #[inline(always)]
    fn leaf(&mut self, _: &Leaf) {
        self.0 += 1;
    }
}

/// A tree's price and the length of its score's text.
fn price_and_length(sheet: &Sheet, list: &[u8]) -> Option<(Price, usize)> {
    let mut leaves = Leaves(0);
    let price = walk(sheet, list, &mut leaves)?;
    // Every onset is placed at one leaf.
    let length = HEAD_LINE + LEAF_LINE * leaves.0 + 2 * sheet.onsets.len();
    Some((price, length))
}

/// Writes the score of a valid tree into a slice of its exact length.
fn write_text(sheet: &Sheet, list: &[u8], price: &Price, text: &mut [u8]) {
    let mut pen = Pen {
        rest: text,
        onsets: &sheet.onsets,
    };
    pen.head(sheet.bars, price);
    walk(sheet, list, &mut pen);
}

/// The part of a text not written yet.
struct Pen<'a> {
    rest: &'a mut [u8],
    onsets: &'a [(u32, u8)],
}

impl Visitor for Pen<'_> {
    #[inline(always)]
    fn leaf(&mut self, leaf: &Leaf) {
        let placed = &self.onsets[leaf.placed.clone()];
        let line = self.take(LEAF_LINE + 2 * placed.len());
        let (digits, pitches) = line.split_at_mut(LEAF_LINE - 1);
        let after_left = (leaf.length << 16) | (u32::from(leaf.n) << 8) | placed.len() as u32;
        digits[..2].copy_from_slice(b"53");
        digits[2..10].copy_from_slice(&eight_digits(leaf.left));
        digits[10..].copy_from_slice(&eight_digits(after_left));
        let (end, pitches) = pitches.split_last_mut().unwrap();
        *end = b'\n';
        for (digits, &(_, pitch)) in pitches.chunks_exact_mut(2).zip(placed) {
            digits.copy_from_slice(&pair(pitch));
        }
    }
}

impl Pen<'_> {
    fn head(&mut self, bars: u8, price: &Price) {
        self.put(&pair(SCORE_HEAD));
        self.put(&pair(bars));
        for number in [price.total, price.r, price.d] {
            self.put(&eight_digits((number >> 32) as u32));
            self.put(&eight_digits(number as u32));
        }
        self.put(b"\n");
    }

    #[inline(always)]
    fn put<const COUNT: usize>(&mut self, bytes: &[u8; COUNT]) {
        self.take(COUNT).copy_from_slice(bytes);
    }

    /// Room for so many bytes.
    #[inline(always)]
    fn take(&mut self, count: usize) -> &mut [u8] {
        let (front, rest) = std::mem::take(&mut self.rest).split_at_mut(count);
        self.rest = rest;
        front
    }
}

fn pair(byte: u8) -> [u8; 2] {
    const DIGITS: &[u8; 16] = b"0123456789ABCDEF";
    [
        DIGITS[usize::from(byte >> 4)],
        DIGITS[usize::from(byte & 15)],
    ]
}

/// The digits of a number of four bytes, all worked out in one register.
#[inline(always)]
fn eight_digits(number: u32) -> [u8; 8] {
    const ONES: u64 = 0x0101_0101_0101_0101;
    let mut values = u64::from(number.swap_bytes());
    values = (values | (values << 16)) & 0x0000_FFFF_0000_FFFF;
    values = (values | (values << 8)) & 0x00FF_00FF_00FF_00FF;
    values = ((values >> 4) | (values << 8)) & 0x0F0F_0F0F_0F0F_0F0F;
    // Adding 6 to a value of 10 or more sets the bit of 16.
    let letters = ((values + 6 * ONES) >> 4) & ONES;
    let to_letter = u64::from(b'A' - b'9' - 1);
    (values + u64::from(b'0') * ONES + letters * to_letter).to_le_bytes()
}

#[cfg(test)]
mod tests {
    use super::peer::tests::S;
    use super::*;

    /// Rule n is a leaf of n; the others divide by 2, 5 and 8. Weights 1 to 8.
    const LEAVES_AND_DIVISIONS: [&str; 9] = [
        "4701000001",
        "4C00000100",
        "4C00000201",
        "4C00000302",
        "4C00000403",
        "4C00000504",
        "44000006020000",
        "44000007050000000000",
        "44000008080000000000000000",
    ];
    const BY_2: u8 = 5;
    const BY_5: u8 = 6;
    const BY_8: u8 = 7;

    fn sheet(lines: &[&str]) -> Sheet {
        let text = lines.join("\n") + "\n";
        peer::read(text.as_bytes()).expect("the sheet is accepted")
    }

    /// S with one onset, at a time in microseconds, and some rules added.
    fn s_with_rules_and_one_at(rules: &[&str], time: u32) -> Sheet {
        let onset = format!("4E{time:08X}3E40");
        sheet(&[&S[..5], rules, &S[5..6], &[onset.as_str()]].concat())
    }

    fn s_with_one_at(time: u32) -> Sheet {
        s_with_rules_and_one_at(&[], time)
    }

    /// A sheet whose microseconds are units; the pitches count from 0.
    fn played(bars: u8, units: &[u32]) -> Sheet {
        let head = format!("45{bars:02X}{BAR_UNITS:08X}");
        let onsets = units.iter().enumerate();
        let onsets = onsets.map(|(pitch, unit)| format!("4E{unit:08X}{pitch:02X}40"));
        let lines: Vec<String> = std::iter::once(head).chain(onsets).collect();
        let lines = lines.iter().map(String::as_str);
        sheet(
            &LEAVES_AND_DIVISIONS
                .iter()
                .copied()
                .chain(lines)
                .collect::<Vec<&str>>(),
        )
    }

    fn total(sheet: &Sheet, list: &[u8]) -> Option<u64> {
        price(sheet, list).map(|price| price.total)
    }

    fn valid(sheet: &Sheet, list: &[u8]) -> bool {
        price(sheet, list).is_some()
    }

    #[test]
    fn s_is_priced() {
        let priced = price(&sheet(&S), &[1, 3, 3]).unwrap();
        let expected = Price {
            nodes: 3,
            r: 8,
            d: 1_008,
            total: 1_088,
        };
        assert_eq!(priced, expected);
        assert_eq!(price(&sheet(&S), &[0]), None);
    }

    #[test]
    fn s_is_written() {
        let lines = "54010000000000000440000000000000000800000000000003F0\n\
                     5300000000276001013C\n\
                     5300002760276001013E\n";
        assert_eq!(score(&sheet(&S), &[1, 3, 3]).unwrap(), lines.as_bytes());
        assert_eq!(score(&sheet(&S), &[0]), None);
    }

    #[test]
    fn neighbours_of_s() {
        assert_eq!(total(&s_with_one_at(499_999), &[0]), Some(5_050));
        assert_eq!(total(&s_with_one_at(500_000), &[0]), Some(5_050));
        let two_bars = ["4502001E8480", "4E000000003C40", "4E001E847F3E40"];
        let two_bars = sheet(&[&S[..5], &two_bars[..]].concat());
        assert_eq!(total(&two_bars, &[0, 0]), Some(20));
    }

    /// S's lists of one bar whose heads fit: no division comes below the first.
    const LISTS_OF_S: [&[u8]; 5] = [&[0], &[1, 2, 2], &[1, 2, 3], &[1, 3, 2], &[1, 3, 3]];

    #[test]
    fn neighbours_of_s_without_a_tree() {
        // A leaf of two is missing.
        let both_at_0 = sheet(&[&S[..7], &S[6..7]].concat());
        // A rest is missing.
        let at_the_middle = [999_999, 1_000_000].map(s_with_one_at);
        for list in LISTS_OF_S {
            assert!(!valid(&both_at_0, list));
            assert!(!at_the_middle.iter().any(|sheet| valid(sheet, list)));
        }
    }

    #[test]
    fn s_with_a_rest() {
        let with_rest = |time| s_with_rules_and_one_at(&["4C01000204"], time);
        let late = price(&with_rest(500_000), &[1, 4, 3]).unwrap();
        assert_eq!((late.r, late.d), (9, 5_040));
        assert_eq!(total(&with_rest(1_000_000), &[1, 4, 3]), Some(90));
        for list in LISTS_OF_S {
            assert!(!valid(&with_rest(1_000_000), list));
        }
        // Here the second half is a continuation.
        assert!(valid(&with_rest(0), &[1, 3, 2]));
        assert!(!valid(&with_rest(0), &[1, 3, 4]));
    }

    #[test]
    fn a_rest_is_written() {
        let lines = "5402000000000000000700000000000000070000000000000000\n\
                     53000000004EC00400\n\
                     5300004EC04EC0010100\n";
        let written = score(&played(2, &[20_160]), &[REST, 1]).unwrap();
        assert_eq!(String::from_utf8(written).unwrap(), lines);
    }

    #[test]
    fn silence_is_of_the_whole_piece() {
        let at_0 = played(2, &[0]);
        assert!(valid(&at_0, &[1, 0]));
        assert!(!valid(&at_0, &[1, REST]));
        let in_bar_2 = played(3, &[20_160]);
        assert!(valid(&in_bar_2, &[REST, 1, 0]));
        for list in [&[0, 1, 0], &[REST, 1, REST], &[0, 1, REST]] {
            assert!(!valid(&in_bar_2, list));
        }
    }

    #[test]
    fn silent_bars_are_rests_and_not_divided() {
        let in_bar_3 = played(3, &[40_320]);
        assert!(valid(&in_bar_3, &[REST, REST, 1]));
        assert!(!valid(&in_bar_3, &[REST, 0, 1]));
        assert!(!valid(&in_bar_3, &[REST, BY_2, REST, REST, 1]));
    }

    #[test]
    fn a_late_onset_inside_does_not_end_the_silence() {
        let late = played(2, &[15_000]);
        assert!(valid(&late, &[REST, 1]));
        assert!(!valid(&late, &[0, 1]));
        // After the leaf where it is placed there is none.
        let parts = played(2, &[5_000]);
        assert!(valid(&parts, &[BY_2, BY_2, REST, 1, 0, 0]));
        assert!(!valid(&parts, &[BY_2, BY_2, REST, 1, REST, 0]));
        assert!(!valid(&parts, &[BY_2, BY_2, REST, 1, 0, REST]));
    }

    #[test]
    fn rests_among_the_parts_of_a_division() {
        // Parts of 4,032: the third has the onset, early or late.
        let early = played(1, &[9_000]);
        assert!(valid(&early, &[BY_5, REST, REST, 1, 0, 0]));
        let late = played(1, &[11_000]);
        assert!(valid(&late, &[BY_5, REST, REST, REST, 1, 0]));
        for list in [
            [BY_5, REST, 0, 1, 0, 0],
            [BY_5, 0, REST, 1, 0, 0],
            [BY_5, REST, REST, 1, REST, 0],
            [BY_5, REST, REST, 0, 1, 0],
            [BY_5, REST, REST, REST, 1, REST],
        ] {
            assert!(!valid(&early, &list));
            assert!(!valid(&late, &list));
        }
        // A division below, whose first half is still before the onset.
        assert!(valid(&late, &[BY_5, REST, REST, BY_2, REST, 1, 0, 0]));
        assert!(!valid(&late, &[BY_5, REST, REST, BY_2, 0, 1, 0, 0]));
    }

    #[test]
    fn a_leaf_with_something_placed_is_no_rest() {
        assert!(!valid(&played(1, &[0]), &[REST]));
        // Not even by a carry, nor with four.
        assert!(!valid(&played(2, &[15_000]), &[REST, REST]));
        assert!(!valid(&played(1, &[5; 4]), &[REST]));
        assert!(valid(&played(1, &[5; 4]), &[3]));
    }

    #[test]
    fn empty_and_incomplete_lists() {
        let s = sheet(&S);
        for list in [&[][..], &[1], &[1, 3], &[1, 3, 3, 3], &[1, 3, 3, 0]] {
            assert!(!valid(&s, list));
        }
        assert!(!valid(&s, &[4, 3, 3]));
        assert!(!valid(&s, &[255]));
        assert!(!valid(&s, &[3; 100_000]));
    }

    #[test]
    fn heads_are_those_asked_for() {
        let s = s_with_one_at(0);
        assert!(valid(&s, &[0]));
        assert!(!valid(&s, &[3]));
        assert!(valid(&s, &[1, 3, 2]));
        assert!(!valid(&s, &[1, 0, 2]));
    }

    #[test]
    fn an_onset_at_the_middle_is_late() {
        let early = played(2, &[10_079]);
        assert_eq!(price(&early, &[1, 0]).unwrap().d, 10_079);
        assert!(!valid(&early, &[REST, 1]));
        let late = played(2, &[10_080]);
        assert_eq!(price(&late, &[REST, 1]).unwrap().d, 10_080);
        assert!(!valid(&late, &[1, 0]));
    }

    #[test]
    fn the_middle_of_an_odd_length() {
        // Six halvings leave 315 units, whose middle falls between two units.
        let halvings = [BY_2; 6];
        let tree =
            |first: u8, second: u8| [&halvings[..], &[first, second, 0, 0, 0, 0, 0]].concat();
        assert!(valid(&played(1, &[157]), &tree(1, 0)));
        assert!(!valid(&played(1, &[157]), &tree(REST, 1)));
        assert!(valid(&played(1, &[158]), &tree(REST, 1)));
        assert!(!valid(&played(1, &[158]), &tree(1, 0)));
    }

    #[test]
    fn three_or_more_placed() {
        let units = [5; 35];
        for (placed, n) in [(1, 1), (2, 2), (3, 3), (4, 3), (32, 3)] {
            let crowded = played(1, &units[..placed]);
            for offered in 0..=REST {
                assert_eq!(valid(&crowded, &[offered]), offered == n);
            }
            assert_eq!(price(&crowded, &[n]).unwrap().d, 5 * placed as u64);
        }
    }

    #[test]
    fn at_most_three_are_late() {
        assert!(valid(&played(2, &[15_000; 3]), &[REST, 3]));
        assert!(!valid(&played(2, &[15_000; 4]), &[REST, 3]));
        // A carry is counted at its own leaf, so three more may be late there.
        let units = [15_000, 15_000, 15_000, 35_160, 35_160, 35_160];
        let carried_twice = price(&played(3, &units), &[REST, 3, 3]).unwrap();
        assert_eq!(carried_twice.d, 6 * 5_160);
    }

    #[test]
    fn carries_join_early_onsets() {
        let units = [15_000, 20_000, 20_160, 20_170];
        let joined = played(2, &units);
        assert_eq!(price(&joined, &[REST, 3]).unwrap().d, 5_160 + 160 + 10);
        assert!(!valid(&joined, &[REST, 2]));
        let text = String::from_utf8(score(&joined, &[REST, 3]).unwrap()).unwrap();
        let lines: Vec<&str> = text.lines().collect();
        assert_eq!(lines[1], "53000000004EC00400");
        assert_eq!(lines[2], "5300004EC04EC0030400010203");
    }

    #[test]
    fn nothing_is_carried_out_of_the_last_leaf() {
        assert!(!valid(&played(1, &[15_000]), &[REST]));
        assert!(!valid(&played(1, &[15_000]), &[1]));
        assert!(valid(&played(1, &[15_000]), &[BY_2, REST, 1]));
        assert!(!valid(&played(1, &[15_120]), &[BY_2, REST, 1]));
    }

    #[test]
    fn carries_go_over_bar_lines() {
        let over = played(2, &[20_000]);
        assert_eq!(price(&over, &[BY_2, REST, REST, 1]).unwrap().d, 160);
        assert!(!valid(&over, &[BY_2, REST, REST, 0]));
        // The next leaf may be a part of the next bar's division.
        let into_part = played(2, &[20_000, 30_240]);
        assert_eq!(price(&into_part, &[REST, BY_2, 1, 1]).unwrap().d, 160);
    }

    #[test]
    fn only_inhabited_intervals_are_divided() {
        let one = played(2, &[20_000]);
        // The second bar only receives a carry.
        assert!(!valid(&one, &[REST, BY_2, 1, 0]));
        assert!(valid(&one, &[REST, 1]));
        // An onset on the right bound is not inside.
        let on_bound = played(2, &[20_160]);
        assert!(!valid(&on_bound, &[BY_2, REST, REST, 1]));
        assert!(valid(&on_bound, &[REST, BY_2, 1, 0]));
        // Nor is one before the left bound.
        let before = played(1, &[0]);
        assert!(valid(&before, &[BY_2, BY_2, 1, 0, 0]));
        assert!(!valid(&before, &[BY_2, 1, BY_2, 0, 0]));
    }

    #[test]
    fn lengths_are_divided_without_remainder() {
        let nested = |rules: &[u8], after: usize| [rules, &[1], &vec![0; after]].concat();
        let one = played(1, &[0]);
        // 20,160 has one 5 and six 2s.
        assert!(valid(&one, &nested(&[BY_5], 4)));
        assert!(!valid(&one, &nested(&[BY_5, BY_5], 8)));
        assert!(valid(&one, &nested(&[BY_8, BY_8], 14)));
        assert!(valid(&one, &nested(&[BY_8, BY_8, BY_5], 18)));
        assert!(!valid(&one, &nested(&[BY_8, BY_8, BY_2], 15)));
        assert!(valid(&one, &nested(&[BY_2; 6], 6)));
        assert!(!valid(&one, &nested(&[BY_2; 7], 7)));
    }

    #[test]
    fn a_slice_is_written_from_the_front() {
        let s = sheet(&S);
        let text = score(&s, &[1, 3, 3]).unwrap();
        assert_eq!(text.len(), 53 + 19 * 2 + 2 * 2);
        for more in [0, 1, 40] {
            let mut slice = vec![0xA5; text.len() + more];
            assert_eq!(write(&s, &[1, 3, 3], &mut slice), Ok(text.len()));
            assert_eq!(slice[..text.len()], text);
            assert!(slice[text.len()..].iter().all(|&byte| byte == 0xA5));
        }
    }

    #[test]
    fn a_refusal_keeps_the_slice() {
        let s = sheet(&S);
        let length = score(&s, &[1, 3, 3]).unwrap().len();
        for (list, room, refusal) in [
            (&[1, 3, 3][..], length - 1, SCORE_SHORT),
            (&[1, 3, 3], 0, SCORE_SHORT),
            (&[0], length, NO_TREE),
            // A list that is no tree is judged before the room.
            (&[0], 0, NO_TREE),
        ] {
            let mut slice = vec![0xA5; room];
            assert_eq!(write(&s, list, &mut slice), Err(refusal));
            assert!(slice.iter().all(|&byte| byte == 0xA5));
        }
    }

    #[test]
    fn digits_of_numbers() {
        for number in [0, 1, 9, 10, 15, 16, 0x0123_4567, 0x89AB_CDEF, u32::MAX] {
            assert_eq!(eight_digits(number), format!("{number:08X}").as_bytes());
        }
        for byte in 0..=255 {
            assert_eq!(pair(byte), format!("{byte:02X}").as_bytes());
        }
    }
}
