//! The tests that hold the peer's search to the listing of all trees and to the
//! documents.

use crate::listing::least_trees;
use crate::peer::{self, Rule, Sheet, REST};
use crate::search::Search;
use crate::sheets::Dice;
use crate::{takes, trees};

pub fn found(search: &mut Search, sheet: &Sheet) -> Option<(u64, Vec<u8>)> {
    let total = search.find(sheet)?;
    let mut tree = vec![0; peer::tree_bytes(sheet) as usize];
    let nodes = search.write_tree(&mut tree);
    tree.truncate(nodes);
    Some((total, tree))
}

/// How many sheets had all their trees listed, by what these show.
#[derive(Default)]
struct Listed {
    without_tree: usize,
    with_tree: usize,
    with_rest: usize,
    /// With several least trees, with ten or more, and with a shorter one than the
    /// first.
    several: usize,
    many: usize,
    shorter: usize,
}

impl Listed {
    /// Holds the search to the price of its own tree and, where all trees can be
    /// listed, to the first of the least.
    fn hold(&mut self, search: &mut Search, text: &[u8]) {
        let sheet = peer::read(text).expect("the sheet is accepted");
        let found = found(search, &sheet);
        if let Some((total, tree)) = &found {
            let price = trees::price(&sheet, tree).expect("the tree is valid");
            assert_eq!(price.total, *total);
        }
        let Some(least) = least_trees(&sheet, 50_000) else {
            return;
        };
        let first = least
            .as_ref()
            .map(|least| (least.total, least.first.clone()));
        assert_eq!(found, first, "{}", String::from_utf8_lossy(text));
        let Some(least) = least else {
            self.without_tree += 1;
            return;
        };
        self.with_tree += 1;
        self.with_rest += usize::from(has_rest(&sheet, &least.first));
        self.several += usize::from(least.count > 1);
        self.many += usize::from(least.count >= 10);
        self.shorter += usize::from(least.shortest < least.first.len());
    }

    fn print(&self) {
        println!(
            "listed all trees of {} sheets, {} of them with a tree, {} with a rest; \
             {} with several least trees, {} with ten or more, {} with a shorter one than the first",
            self.without_tree + self.with_tree,
            self.with_tree,
            self.with_rest,
            self.several,
            self.many,
            self.shorter,
        );
    }
}

fn has_rest(sheet: &Sheet, tree: &[u8]) -> bool {
    let mut rules = tree.iter().map(|&number| &sheet.rules[usize::from(number)]);
    rules.any(|rule| matches!(rule, Rule::Leaf { n: REST, .. }))
}

#[test]
fn least_of_all_trees() {
    let (mut dice, mut search) = (Dice::new(1), Search::default());
    let mut listed = Listed::default();
    for _ in 0..30_000 {
        listed.hold(&mut search, &takes::small(&mut dice));
    }
    listed.print();
    let (with_tree, with_rest) = (listed.with_tree, listed.with_rest);
    assert!(with_tree > 5_000 && listed.without_tree > 5_000);
    assert!(with_rest > 2_000 && with_tree - with_rest > 2_000);
    assert!(listed.several > 2_000);
}

#[test]
fn first_of_equal_trees() {
    let (mut dice, mut search) = (Dice::new(2), Search::default());
    let mut listed = Listed::default();
    for _ in 0..40_000 {
        listed.hold(&mut search, &takes::even(&mut dice));
    }
    listed.print();
    assert!(listed.several > 5_000);
    assert!(listed.many > 1_000 && listed.shorter > 1_000);
}

/// Holds the search to what a sheet has by hand, and to the listing.
fn check(text: &str, expected: Option<(u64, &[u8])>) {
    let sheet = peer::read(text.as_bytes()).expect("the sheet is accepted");
    let mut search = Search::default();
    let expected = expected.map(|(total, tree)| (total, tree.to_vec()));
    assert_eq!(found(&mut search, &sheet), expected, "{text}");
    Listed::default().hold(&mut search, text.as_bytes());
}

/// Document 01's sheet S, its neighbours and what the papers say of them; and S
/// with a rest added, also where two trees total the same.
#[test]
fn sheets_of_the_documents() {
    let s = peer::tests::S;
    let with = |from: usize, lines: &[&str]| [&s[..from], lines].concat().join("\n") + "\n";
    let onset = |time: u32| format!("4E{time:08X}3E40");
    let one = |time| with(6, &[&onset(time)]);
    let with_rest = |time| with(5, &["4C01000204", s[5], &onset(time)]);
    let two_bars = ["4502001E8480", "4E000000003C40", "4E001E847F3E40"];
    let equal = [&["4702000000"], &s[1..5], &["4C01000204", s[5]]].concat();
    let equal = equal.join("\n") + "\n" + &onset(500_000) + "\n";
    let cases: [(String, Option<(u64, &[u8])>); 11] = [
        (with(8, &[]), Some((1_088, &[1, 3, 3]))),
        (one(499_999), Some((5_050, &[0]))),
        (one(500_000), Some((5_050, &[0]))),
        (one(999_999), None),
        (one(1_000_000), None),
        (with(5, &two_bars), Some((20, &[0, 0]))),
        (with(7, &[s[6]]), None),
        (with_rest(500_000), Some((5_050, &[0]))),
        (with_rest(999_999), Some((90, &[1, 4, 3]))),
        (with_rest(1_000_000), Some((90, &[1, 4, 3]))),
        (equal, Some((5_040, &[0]))),
    ];
    for (text, expected) in cases {
        check(&text, expected);
    }
}

/// Holds the search to what a sheet of two least trees has by hand, and to the
/// same with its first two rules exchanged: then the other tree is the first. A
/// microsecond is a unit.
fn check_both(
    head: &str,
    rules: &[&str],
    (bars, units): (u8, &[u32]),
    [one, other]: [&[u8]; 2],
    total: u64,
) {
    let playing = format!("45{bars:02X}00004EC0\n");
    let onsets = units.iter().map(|unit| format!("4E{unit:08X}3C40\n"));
    let playing = playing + &onsets.collect::<String>();
    let text = |rules: &[&str]| format!("{head}\n{}\n{playing}", rules.join("\n"));
    check(&text(rules), Some((total, one)));
    let exchanged = [&[rules[1], rules[0]], &rules[2..]].concat();
    check(&text(&exchanged), Some((total, other)));
}

/// The rules of the sheet S and a rest, without weights.
const HALVES: [&str; 5] = [
    "4C00000001",
    "44000000020101",
    "4C01000000",
    "4C01000001",
    "4C01000004",
];

/// Document 02's two trees; the first is the shorter, or else the longer.
#[test]
fn a_leaf_or_a_division_is_first() {
    check_both(
        "4702000000",
        &HALVES,
        (1, &[5_040]),
        [&[0], &[0, 4, 3]],
        5_040,
    );
}

/// The first bar has one least tree, the second two.
#[test]
fn decided_behind_the_bar_line() {
    let trees: [&[u8]; 2] = [&[1, 4, 3, 0], &[0, 4, 3, 0, 2, 3]];
    check_both("4702000000", &HALVES, (2, &[9_000, 25_200]), trees, 6_120);
}

/// What a division costs, its bar saves in distance to the bar line.
#[test]
fn decided_by_a_carry_over_the_bar_line() {
    let rules = [
        "4C00000004",
        "44000001020101",
        "4C00000001",
        "4C00000000",
        "4C01000004",
        "4C01000001",
    ];
    let trees: [&[u8]; 2] = [&[0, 2], &[0, 4, 5, 3]];
    check_both("47020013B0", &rules, (2, &[12_600]), trees, 7_560);
}

/// The same in half a bar.
#[test]
fn decided_by_a_carry_over_a_part() {
    let rules = [
        "4C01000004",
        "44010001020303",
        "4C02000001",
        "4C02000000",
        "4C03000004",
        "4C03000001",
        "44000000020102",
    ];
    let trees: [&[u8]; 2] = [&[6, 0, 2], &[6, 0, 4, 5, 3]];
    check_both("47040009D8", &rules, (1, &[6_300]), trees, 3_780);
}

/// Decided in the first bar, though the trees come to one total only in the third:
/// by the second bar alone, or by what is carried, the other would be first.
#[test]
fn decided_in_the_first_of_three_bars() {
    let rules = [
        "4C00000004",
        "440000000401010101",
        "4C00000001",
        "4C00000002",
        "4C00000300",
        "4C01000004",
        "4C01000001",
        "4C01000002",
        "4C01000000",
    ];
    let trees: [&[u8]; 2] = [&[0, 2, 3], &[0, 5, 5, 5, 6, 0, 8, 8, 8, 7, 4]];
    let units = [15_120, 35_280, 35_280];
    check_both("47020013B0", &rules, (3, &units), trees, 15_120);
}
