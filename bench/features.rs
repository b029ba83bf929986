//! What the sheets met that a search can get wrong, counted by the trees handed
//! back.

use crate::harness::{print_counted, Counted};
use crate::heads::Heads;
use crate::peer::{self, Sheet, BAR_UNITS, REST};
use crate::trees;

/// How many trees handed back show what a search can get wrong.
#[derive(Default)]
pub struct Features {
    trees: usize,
    equals: Equals,
    heads: Heads,
    over_part: usize,
    over_bar: usize,
    two_over_bar: usize,
    chord: usize,
    crowded: usize,
    empty_bar: usize,
    opens_with_rest: usize,
    opens_with_silent_bar: usize,
    rest_in_division: usize,
    rest_over_late: usize,
    no_multiplier: usize,
    largest_multiplier: usize,
    dense: usize,
    arities: [usize; 9],
    most_nodes: usize,
}

impl Features {
    /// Takes the first and the last of the least trees.
    pub fn add(&mut self, sheet: &Sheet, list: &[u8], last: &[u8]) {
        if list != last {
            self.equals.add(sheet, list, last);
        }
        self.heads.add(sheet, list);
        let leaves = leaves(sheet, list);
        let carried = carried(sheet, &leaves);
        let over_bar = |&&left: &&u32| left % BAR_UNITS == 0;
        let most = carried.iter().filter(over_bar).map(|left| {
            let same = carried.iter().filter(|&other| other == left);
            same.count()
        });
        let most = most.max().unwrap_or(0);
        let units: Vec<u32> = sheet.onsets.iter().map(|onset| onset.0).collect();
        let inhabited = |bar: u32| units.iter().any(|unit| unit / BAR_UNITS == bar);
        self.trees += 1;
        self.over_part += usize::from(!carried.is_empty());
        self.over_bar += usize::from(most > 0);
        self.two_over_bar += usize::from(most > 1);
        self.chord += usize::from(units.windows(2).any(|pair| pair[0] == pair[1]));
        self.empty_bar += usize::from(!(0..sheet.bars.into()).all(inhabited));
        self.no_multiplier += usize::from(sheet.multiplier == 0);
        self.largest_multiplier += usize::from(sheet.multiplier == u16::MAX);
        self.dense += usize::from(is_dense(sheet));
        self.most_nodes = self.most_nodes.max(list.len());
        self.add_rests(sheet, &leaves);
        self.add_rules(sheet, list);
    }

    fn add_rests(&mut self, sheet: &Sheet, leaves: &[Leaf]) {
        let rests = leaves.iter().filter(|leaf| leaf.n == REST.into());
        let rests: Vec<&Leaf> = rests.collect();
        let late = |leaf: &&Leaf| {
            let inside = leaf.left..leaf.left + leaf.length;
            sheet.onsets.iter().any(|onset| inside.contains(&onset.0))
        };
        self.opens_with_rest += usize::from(leaves[0].n == REST.into());
        self.opens_with_silent_bar += usize::from(sheet.onsets[0].0 >= BAR_UNITS);
        self.rest_in_division += usize::from(rests.iter().any(|leaf| leaf.length < BAR_UNITS));
        self.rest_over_late += usize::from(rests.iter().any(late));
    }

    fn add_rules(&mut self, sheet: &Sheet, list: &[u8]) {
        let mut crowded = false;
        let mut arities = [false; 9];
        for &number in list {
            match sheet.rules[usize::from(number)] {
                peer::Rule::Leaf { n, .. } => crowded |= n == 3,
                peer::Rule::Division { arity, .. } => arities[usize::from(arity)] = true,
            }
        }
        self.crowded += usize::from(crowded);
        for (count, met) in self.arities.iter_mut().zip(arities) {
            *count += usize::from(met);
        }
    }

    /// Gives whether the trees show enough of equals, and all there is of heads.
    pub fn all_met(&self) -> bool {
        let equals = self.equals_met();
        self.heads.all_met() && equals
    }

    /// Gives whether enough trees were the first of several, also of each sort.
    fn equals_met(&self) -> bool {
        let sorts = self.equals.named();
        let many = self.equals.several * EQUALS_IN > self.trees;
        let met = many && sorts.iter().all(|sort| sort.1 * SORTS_IN > self.trees);
        if !met {
            eprintln!("trees: too few are the first of several: take more.");
        }
        met
    }

    pub fn print(&self) {
        println!("  trees handed back: {}, of which", self.trees);
        print_counted(&self.equals.named());
        print_counted(&self.heads.named());
        print_counted(&[
            ("carry over a part's bound", self.over_part),
            ("carry over a bar line", self.over_bar),
            ("carry two or three over a bar line", self.two_over_bar),
            ("have onsets at one unit", self.chord),
            ("place three or more at a leaf", self.crowded),
            ("have an empty bar", self.empty_bar),
            ("open with a rest", self.opens_with_rest),
            ("open with a silent bar", self.opens_with_silent_bar),
            ("have a rest as a division's part", self.rest_in_division),
            ("have a rest with a late onset inside", self.rest_over_late),
            ("have multiplier 0", self.no_multiplier),
            ("have multiplier 65,535", self.largest_multiplier),
            ("have three divisions a head or more", self.dense),
        ]);
        for (arity, count) in self.arities.iter().enumerate().skip(2) {
            println!("    {count:>6} divide by {arity}");
        }
        println!("  largest tree: {} nodes", self.most_nodes);
    }
}

/// How many trees handed back were the first of several least ones, and how the
/// last of them differs.
#[derive(Default)]
struct Equals {
    several: usize,
    first_longer: usize,
    first_shorter: usize,
    behind_bar_line: usize,
    other_carry: usize,
}

/// One of so many trees, or more, should be the first of several ...
const EQUALS_IN: usize = 5;
/// ... and one of so many the first of such of each sort.
const SORTS_IN: usize = 200;

impl Equals {
    fn add(&mut self, sheet: &Sheet, first: &[u8], last: &[u8]) {
        let until = first_bar(sheet, first);
        let same_bar = last.starts_with(&first[..until]);
        let carries = [first, last].map(|list| {
            let mut carried = carried(sheet, &leaves(sheet, list));
            carried.retain(|left| left % BAR_UNITS == 0);
            carried
        });
        self.several += 1;
        self.first_longer += usize::from(first.len() > last.len());
        self.first_shorter += usize::from(first.len() < last.len());
        self.behind_bar_line += usize::from(same_bar);
        self.other_carry += usize::from(carries[0] != carries[1]);
    }

    fn named(&self) -> [Counted; 5] {
        [
            ("are the first of several least trees", self.several),
            ("are longer than the last of them", self.first_longer),
            ("are shorter than it", self.first_shorter),
            (
                "differ from it only behind a bar line",
                self.behind_bar_line,
            ),
            (
                "differ from it in a carry over a bar line",
                self.other_carry,
            ),
        ]
    }
}

/// How many bytes of a tree are of the first bar.
fn first_bar(sheet: &Sheet, list: &[u8]) -> usize {
    let mut open = 1;
    let ends = |&rule: &u8| {
        open -= 1;
        if let peer::Rule::Division { arity, .. } = sheet.rules[usize::from(rule)] {
            open += usize::from(arity);
        }
        open == 0
    };
    1 + list.iter().position(ends).expect("the tree is valid")
}

/// Whether there are three divisions, or more, to each nonterminal that has one.
fn is_dense(sheet: &Sheet) -> bool {
    let mut heads = [false; 16];
    let mut divisions = 0;
    for rule in &sheet.rules {
        if let peer::Rule::Division { head, .. } = rule {
            heads[usize::from(*head)] = true;
            divisions += 1;
        }
    }
    let heads = heads.into_iter().filter(|&divides| divides).count();
    divisions > 0 && 3 * heads <= divisions
}

/// A leaf's line of a score, without its pitches.
struct Leaf {
    left: u32,
    length: u32,
    n: u32,
    placed: u32,
}

/// The leaves of a valid tree, taken from its score.
fn leaves(sheet: &Sheet, list: &[u8]) -> Vec<Leaf> {
    let text = trees::score(sheet, list).expect("the tree is valid");
    let text = String::from_utf8(text).expect("a score is digits");
    let field = |digits: &str| u32::from_str_radix(digits, 16).expect("a field is digits");
    let leaf = |line: &str| Leaf {
        left: field(&line[2..10]),
        length: field(&line[10..14]),
        n: field(&line[14..16]),
        placed: field(&line[16..18]),
    };
    text.lines().skip(1).map(leaf).collect()
}

/// The places of the onsets carried.
fn carried(sheet: &Sheet, leaves: &[Leaf]) -> Vec<u32> {
    let mut onsets = sheet.onsets.iter();
    let mut places = Vec::new();
    for leaf in leaves {
        let placed = onsets.by_ref().take(leaf.placed as usize);
        let carried = placed.filter(|onset| onset.0 < leaf.left);
        places.extend(carried.map(|_| leaf.left));
    }
    places
}
