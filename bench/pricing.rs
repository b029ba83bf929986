//! Compares the library's pricing of a list and writing of a score with the
//! peer's on generated sheets and lists, then times both on two fixed trees.

use crate::harness::{self, best_by_turns, dirt, same, Difference, Outcomes};
use crate::lists::{self, Case};
use crate::playing::Sorts;
use crate::sheets::Dice;
use crate::trees::{self, Price};
use crate::{library, peer};
use std::hint::black_box;

/// Bytes before and after a lent slice, which must keep their values too.
const AROUND: usize = 32;
/// A long list is printed only up to so many bytes.
const LIST_SHOWN: usize = 500;

/// Gives whether no difference was found, and every outcome and either sort of sheet
/// occurred.
pub fn run(seed: u64, lists: usize) -> bool {
    println!(
        "Comparing prices and scores of the library and the peer on {lists} lists, seed {seed}."
    );
    let Some(counts) = compare_all(seed, lists) else {
        return false;
    };
    println!("No difference. By outcome:");
    counts.priced.print();
    counts.written.print();
    counts.sorts.print();
    println!("  trees with a rest: {}", counts.with_rest);
    println!("  largest tree: {} nodes", counts.most_nodes);
    time_all();
    let (priced, written) = (counts.priced.all_met(), counts.written.all_met());
    counts.sorts.all_met() && priced && written
}

// The peer's entries, with what the library's give. Kept out of line, as the
// library's are.

/// Number, line, nodes, R, D and total.
#[inline(never)]
fn peer_price(text: &[u8], list: &[u8]) -> [u64; 6] {
    let refused = |number: u8, line: u16| [number.into(), line.into(), 0, 0, 0, 0];
    match peer::read(text) {
        Err((number, line)) => refused(number, line),
        Ok(sheet) => match trees::price(&sheet, list) {
            None => refused(trees::NO_TREE, 0),
            Some(Price { nodes, r, d, total }) => [0, 0, nodes, r, d, total],
        },
    }
}

/// Number, line and byte count.
#[inline(never)]
fn peer_write(text: &[u8], list: &[u8], score: &mut [u8]) -> [u64; 3] {
    match peer::read(text) {
        Err((number, line)) => [number.into(), line.into(), 0],
        Ok(sheet) => match trees::write(&sheet, list, score) {
            Err(number) => [number.into(), 0, 0],
            Ok(bytes) => [0, 0, bytes as u64],
        },
    }
}

/// The peer's score; `None` if the text or the list is refused.
fn peer_score(text: &[u8], list: &[u8]) -> Option<Vec<u8>> {
    let sheet = peer::read(text).ok()?;
    trees::score(&sheet, list)
}

/// Whether a line of a score is that of a rest.
fn has_rest(score: &[u8]) -> bool {
    let mut leaves = score.split(|&byte| byte == b'\n').skip(1);
    leaves.any(|line| line.get(14..16) == Some(b"04"))
}

// Comparing.

struct Counts {
    priced: Outcomes,
    written: Outcomes,
    /// Of the sheets with a tree.
    sorts: Sorts,
    with_rest: usize,
    most_nodes: u64,
}

const PRICED: [u8; 13] = [0, 1, 2, 3, 4, 5, 6, 7, 8, 12, 17, 18, 19];
const WRITTEN: [u8; 14] = [0, 1, 2, 3, 4, 5, 6, 7, 8, 12, 13, 17, 18, 19];

/// Stops at the first difference and prints it.
fn compare_all(seed: u64, lists: usize) -> Option<Counts> {
    let mut dice = Dice::new(seed);
    let mut counts = Counts {
        priced: Outcomes::new("lists priced", &PRICED),
        written: Outcomes::new("scores written", &WRITTEN),
        sorts: Sorts::default(),
        with_rest: 0,
        most_nodes: 0,
    };
    for at in 1..=lists {
        let case = lists::case(&mut dice);
        if let Err(difference) = compare(&mut dice, &case, &mut counts) {
            eprintln!("List {at}, seed {seed}, made as '{}'.", case.made);
            difference.print(&case.text);
            print_list(&case.list);
            return None;
        }
    }
    Some(counts)
}

fn print_list(list: &[u8]) {
    let front = &list[..list.len().min(LIST_SHOWN)];
    let digits: String = front.iter().map(|byte| format!("{byte:02X}")).collect();
    eprintln!("The list, {} bytes, from its front: {digits}", list.len());
}

fn compare(dice: &mut Dice, case: &Case, counts: &mut Counts) -> Result<(), Difference> {
    let (text, list) = (&case.text, &case.list);
    let price = peer_price(text, list);
    if let Some((number, line)) = case.aim {
        let aim = (number.into(), line.into());
        same("the peer's number and line", (price[0], price[1]), aim)?;
    }
    same("rhythm_price", library::price(text, list), price)?;
    counts.priced.add(price[0])?;
    counts.most_nodes = counts.most_nodes.max(price[2]);
    if price[0] == 0 {
        counts.sorts.add(text);
    }
    let score = peer_score(text, list);
    counts.with_rest += usize::from(score.as_deref().is_some_and(has_rest));
    for length in slice_lengths(dice, score.map(|score| score.len())) {
        let number = compare_write(dice, case, length)?;
        counts.written.add(number)?;
    }
    Ok(())
}

/// Lengths of score slices to try: around the exact one, if there is one.
fn slice_lengths(dice: &mut Dice, exact: Option<usize>) -> Vec<usize> {
    match exact {
        None => vec![dice.pick(&[0, 1, 53, 1_000])],
        Some(exact) => vec![
            exact,
            exact - 1,
            exact + dice.between(1, 60),
            dice.between_edged(0, exact - 1),
        ],
    }
}

/// Writes into slices of the same contents and gives the outcome's number.
fn compare_write(dice: &mut Dice, case: &Case, length: usize) -> Result<u64, Difference> {
    let mut given = dirt(dice, length + 2 * AROUND);
    let mut expected = given.clone();
    let lent = AROUND..AROUND + length;
    let given_answer = library::write(&case.text, &case.list, &mut given[lent.clone()]);
    let answer = peer_write(&case.text, &case.list, &mut expected[lent]);
    let asked = format!("rhythm_write into {length} bytes");
    same(&asked, given_answer, answer)?;
    let differing = given
        .iter()
        .zip(&expected)
        .position(|(one, other)| one != other);
    if let Some(at) = differing {
        // A negative place is one before the slice.
        let place = at as isize - AROUND as isize;
        let asked = format!("{asked}, its byte {place}");
        same(&asked, given[at], expected[at])?;
    }
    Ok(answer[0])
}

// Timing.

/// An entry on a text, a list and a score slice, which pricing leaves alone.
type Entry = fn(&[u8], &[u8], &mut [u8]) -> u64;

/// An operation, and the item that its time is counted by.
struct Operation {
    name: &'static str,
    library: Entry,
    peer: Entry,
    item: &'static str,
    items: fn(&Tree) -> usize,
    /// The most nanoseconds an item that the library should take.
    limit: f64,
}

const OPERATIONS: [Operation; 2] = [
    Operation {
        name: "pricing",
        library: |text, list, _| library::price(text, list)[5],
        peer: |text, list, _| peer_price(text, list)[5],
        item: "node",
        items: |tree| tree.list.len(),
        limit: 15.0,
    },
    Operation {
        name: "writing",
        library: |text, list, score| library::write(text, list, score)[2],
        peer: |text, list, score| peer_write(text, list, score)[2],
        item: "leaf",
        items: |tree| tree.leaves,
        limit: 60.0,
    },
];

/// An operation on a tree and on the empty list, by the library and the peer.
const WORKS: usize = 4;

impl Operation {
    fn work(&self, turn: usize, tree: &Tree, score: &mut [u8]) {
        let (entry, list): (Entry, &[u8]) = match turn {
            0 => (self.library, &tree.list),
            1 => (self.library, &[]),
            2 => (self.peer, &tree.list),
            _ => (self.peer, &[]),
        };
        black_box(entry(black_box(&tree.text), black_box(list), score));
    }

    /// Prints the best times of its works.
    fn print(&self, tree: &Tree, best: &[f64]) {
        let items = (self.items)(tree) as f64;
        let (library, peer) = (best[0], best[2]);
        let (library_item, peer_item) = ((best[0] - best[1]) / items, (best[2] - best[3]) / items);
        let kept = library_item <= self.limit;
        println!(
            "  {}: library {library_item:.2} ns a {item}, peer {peer_item:.2} ns a {item}, \
             library / peer {:.2}; limit {} ns a {item}: {}",
            self.name,
            library_item / peer_item,
            self.limit,
            if kept { "kept" } else { "exceeded" },
            item = self.item,
        );
        println!(
            "    the whole: library {:.2} us, peer {:.2} us, library / peer {:.2}",
            library / 1_000.0,
            peer / 1_000.0,
            library / peer
        );
    }
}

struct Tree {
    name: &'static str,
    text: Vec<u8>,
    list: Vec<u8>,
    leaves: usize,
    score_length: usize,
}

impl Tree {
    fn new(name: &'static str, (text, list): (Vec<u8>, Vec<u8>)) -> Tree {
        let sheet = peer::read(&text).expect("the sheet is accepted");
        let score = trees::score(&sheet, &list).expect("the list is a tree");
        let lines = score.iter().filter(|&&byte| byte == b'\n').count();
        Tree {
            name,
            text,
            list,
            leaves: lines - 1,
            score_length: score.len(),
        }
    }

    fn print(&self) {
        println!(
            " On {}, {} nodes, {} leaves, a score of {} bytes:",
            self.name,
            self.list.len(),
            self.leaves,
            self.score_length
        );
    }
}

fn time_all() {
    println!(
        "Timing: {}. An item's time is that of the entry on the tree less that of the same entry \
         on the empty list, so reading the sheet is not counted; the whole counts it. The text, \
         the list and the score slice are the same in all runs, and the score slice is not cleared \
         between runs.",
        harness::how_timed()
    );
    let trees = [
        Tree::new("a tune of 32 bars and 256 onsets", lists::tune()),
        Tree::new("a large sheet of 64 bars and 512 onsets", lists::large()),
    ];
    for (tree, best) in trees.iter().zip(best_times(&trees)) {
        tree.print();
        for (operation, best) in OPERATIONS.iter().zip(best.chunks(WORKS)) {
            operation.print(tree, best);
        }
    }
}

/// For each tree the best times of each operation's works.
fn best_times(trees: &[Tree]) -> Vec<Vec<f64>> {
    let longest = trees.iter().map(|tree| tree.score_length).max();
    let mut score = vec![0; longest.unwrap_or(0)];
    let of_tree = OPERATIONS.len() * WORKS;
    // All by turns, since a busy spell may outlast the works of one operation.
    let best = best_by_turns(trees.len() * of_tree, |turn| {
        let operation = &OPERATIONS[turn % of_tree / WORKS];
        operation.work(turn % WORKS, &trees[turn / of_tree], &mut score);
    });
    best.chunks(of_tree).map(<[f64]>::to_vec).collect()
}
