//! Compares the library's finding of the first least tree with the peer's on
//! generated sheets, then times both on fixed ones. Compared are number, line,
//! node count, R, D and total, the tree's bytes, and what the slices keep. The
//! figures expected are the price of the peer's tree, to which its total is held.

use crate::features::Features;
use crate::harness::{all_occurred, dirt, dirty_cells, same, Difference, Outcomes};
use crate::lengths::{longer, short_lengths};
use crate::peer::{self, Sheet};
use crate::playing::BySort;
use crate::rounded::Rounded;
use crate::search::Search;
use crate::sheets::{Case, Dice};
use crate::trees::{self, Price};
use crate::{library, takes, timing, twins};

pub const WORK_SHORT: u8 = 9;
pub const TREE_SHORT: u8 = 10;
pub const NO_TREE: u8 = 11;

/// Cells and bytes before and after a lent slice, which must be kept too.
const AROUND: usize = 16;
/// One sheet in so many, if it is plain, is also compared as its tapped twin.
const TWIN_EVERY: usize = 8;

/// Gives whether no difference was found, every outcome occurred, enough trees were
/// the first of several, the rules of heads stood in every way that is counted, and
/// onsets of either sort of sheet were rounded in every such way.
pub fn run(seed: u64, sheets: usize) -> bool {
    println!("Comparing trees found by the library and the peer on {sheets} sheets, seed {seed}.");
    let Some(counts) = compare_all(seed, sheets) else {
        return false;
    };
    println!("No difference. By outcome:");
    counts.outcomes.print();
    counts.features.print();
    counts.rounded.print();
    println!("  tapped twins of plain sheets: {}", counts.twins);
    timing::time_all();
    let outcomes = counts.outcomes.all_met();
    let rounded = counts.rounded.all_met();
    let twins = all_occurred("twins", &[("sheets", counts.twins)]);
    counts.features.all_met() && outcomes && rounded && twins
}

struct Counts {
    outcomes: Outcomes,
    features: Features,
    /// Of the sheets that have a tree.
    rounded: BySort<Rounded>,
    twins: usize,
}

/// Stops at the first difference and prints it.
fn compare_all(seed: u64, sheets: usize) -> Option<Counts> {
    let mut dice = Dice::new(seed);
    let mut search = Search::default();
    let numbers = &[0, 1, 2, 3, 4, 5, 6, 7, 8, 9, 10, 11, 17, 18, 19];
    let mut counts = Counts {
        outcomes: Outcomes::new("calls", numbers),
        features: Features::default(),
        rounded: BySort::default(),
        twins: 0,
    };
    for at in 1..=sheets {
        let case = takes::case(&mut dice);
        let compared = compare(&mut dice, &mut search, &case, &mut counts);
        if let Err(difference) = compared {
            eprintln!("Sheet {at}, seed {seed}, made as '{}'.", case.made);
            difference.print(&case.text);
            return None;
        }
    }
    Some(counts)
}

/// What a call must give.
pub(crate) struct Expected {
    pub(crate) answer: [u64; 6],
    pub(crate) tree: Vec<u8>,
    /// The work cells that must be 0.
    cleared: usize,
}

impl Expected {
    pub(crate) fn refusal(number: u8, line: u16) -> Expected {
        Expected {
            answer: [number.into(), line.into(), 0, 0, 0, 0],
            tree: Vec::new(),
            cleared: 0,
        }
    }

    /// With slices of the required lengths or longer: the peer's tree, or refusal 11.
    pub(crate) fn found(search: &mut Search, sheet: &Sheet) -> Result<Expected, Difference> {
        let mut expected = Expected::refusal(NO_TREE, 0);
        expected.cleared = peer::work_cells(sheet) as usize;
        if let Some((tree, price)) = found(search, sheet)? {
            expected.answer = [0, 0, price.nodes, price.r, price.d, price.total];
            expected.tree = tree;
        }
        Ok(expected)
    }
}

fn compare(
    dice: &mut Dice,
    search: &mut Search,
    case: &Case,
    counts: &mut Counts,
) -> Result<(), Difference> {
    let read = peer::read(&case.text);
    if let Some(aim) = case.aim {
        let outcome = *read.as_ref().err().unwrap_or(&(0, 0));
        same("the peer's refusal and line", outcome, aim)?;
    }
    let mut sheet = match read {
        Ok(sheet) => sheet,
        Err((number, line)) => {
            let lengths = (dice.pick(&[0, 1, 200]), dice.pick(&[0, 1, 500]));
            let expected = Expected::refusal(number, line);
            return compare_call(dice, &case.text, lengths, &expected, &mut counts.outcomes);
        }
    };
    let (bytes, cells) = (peer::tree_bytes(&sheet), peer::work_cells(&sheet));
    let (bytes, cells) = (bytes as usize, cells as usize);
    let expected = Expected::found(search, &sheet)?;
    if let [0, .., total] = expected.answer {
        let last = last_least(search, &mut sheet, total)?;
        counts.features.add(&sheet, &expected.tree, &last);
        counts.rounded.add(&case.text);
    }
    let lengths = (longer(dice, bytes), longer(dice, cells));
    compare_call(dice, &case.text, lengths, &expected, &mut counts.outcomes)?;
    if dice.one_in(TWIN_EVERY) {
        compare_twin(dice, &case.text, lengths, &expected, counts)?;
    }
    for (lengths, number) in short_lengths(dice, bytes, cells) {
        let expected = Expected::refusal(number, 0);
        compare_call(dice, &case.text, lengths, &expected, &mut counts.outcomes)?;
    }
    Ok(())
}

/// The tapped twin of a plain sheet has the same tree, or none too.
fn compare_twin(
    dice: &mut Dice,
    text: &[u8],
    lengths: (usize, usize),
    expected: &Expected,
    counts: &mut Counts,
) -> Result<(), Difference> {
    let Some((twin, _)) = twins::twin(text, (0, 0)) else {
        return Ok(());
    };
    counts.twins += 1;
    compare_call(dice, &twin, lengths, expected, &mut counts.outcomes)
}

/// The peer's tree and its price, if there is one.
fn found(search: &mut Search, sheet: &Sheet) -> Result<Option<(Vec<u8>, Price)>, Difference> {
    let Some(total) = search.find(sheet) else {
        return Ok(None);
    };
    let mut tree = vec![0; peer::tree_bytes(sheet) as usize];
    let nodes = search.write_tree(&mut tree);
    tree.truncate(nodes);
    let price = trees::price(sheet, &tree);
    let asked = "the peer's total beside the price of its tree";
    same(asked, Some(total), price.map(|price| price.total))?;
    Ok(price.map(|price| (tree, price)))
}

/// The last of the least trees, which is the first by the rules in reverse: another
/// one exactly where there are several.
fn last_least(search: &mut Search, sheet: &mut Sheet, total: u64) -> Result<Vec<u8>, Difference> {
    sheet.rules.reverse();
    let found = found(search, sheet);
    sheet.rules.reverse();
    let (mut tree, price) = found?.unwrap_or_default();
    same(
        "the peer's total by the rules in reverse",
        price.total,
        total,
    )?;
    for rule in &mut tree {
        *rule = sheet.rules.len() as u8 - 1 - *rule;
    }
    Ok(tree)
}

/// Finds in dirty slices of some lengths.
pub(crate) fn compare_call(
    dice: &mut Dice,
    text: &[u8],
    (bytes, cells): (usize, usize),
    expected: &Expected,
    outcomes: &mut Outcomes,
) -> Result<(), Difference> {
    let tree_before = dirt(dice, bytes + 2 * AROUND);
    let work_before = dirty_cells(dice, cells + 2 * AROUND);
    let (mut tree, mut work) = (tree_before.clone(), work_before.clone());
    let lent_tree = &mut tree[AROUND..AROUND + bytes];
    let lent_work = &mut work[AROUND..AROUND + cells];
    let answer = library::find(text, lent_tree, lent_work);
    let asked = format!("rhythm_find with {bytes} bytes and {cells} cells");
    same(&asked, answer, expected.answer)?;
    let mut tree_after = tree_before;
    tree_after[AROUND..][..expected.tree.len()].copy_from_slice(&expected.tree);
    let mut work_after = work_before;
    work_after[AROUND..][..expected.cleared].fill(0);
    same_slices(&format!("{asked}, tree byte"), &tree, &tree_after)?;
    same_slices(&format!("{asked}, work cell"), &work, &work_after)?;
    outcomes.add(answer[0])
}

fn same_slices<T: PartialEq + std::fmt::Debug>(
    asked: &str,
    given: &[T],
    expected: &[T],
) -> Result<(), Difference> {
    let mut pairs = given.iter().zip(expected);
    match pairs.position(|(one, other)| one != other) {
        None => Ok(()),
        // A negative place is one before the slice.
        Some(at) => {
            let place = at as isize - AROUND as isize;
            same(&format!("{asked} {place}"), &given[at], &expected[at])
        }
    }
}
