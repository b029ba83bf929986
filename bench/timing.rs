//! Times the library's finding of the first least tree and the peer's on fixed sheets.

use crate::finding::{NO_TREE, TREE_SHORT, WORK_SHORT};
use crate::peer::{self, Sheet};
use crate::search::Search;
use crate::{harness, library, ordering, tunes};
use std::hint::black_box;

pub fn time_all() {
    println!(
        "Timing from the text to the tree: {}. Text and slices are the same in all rounds, and \
         the work slice is 0 before each call.",
        harness::how_timed_by_rounds()
    );
    time(&Timed::new("tune", tunes::tune(32)));
    time(&Timed::new("heaviest, halves and thirds", tunes::plain()));
    time(&Timed::new("heaviest, all divide", tunes::wide()));
    time(&Timed::new(
        "heaviest, fourteen divide by three",
        tunes::fourteen(),
    ));
    time(&Timed::new("heaviest, ten divide by four", tunes::ten()));
    time(&Timed::new("heaviest, six divide by all", tunes::dense()));
    ordering::time_all();
    println!(" Such tunes, short and long:");
    for bars in [8, 16, 32, 64] {
        time(&Timed::new("tune", tunes::tune(bars)));
    }
}

fn time(timed: &Timed) {
    let mut lent = Lent::new(timed);
    let times = harness::times_by_rounds(2, |turn| {
        black_box(lent.find(timed, turn));
    });
    timed.print(&times[0], &times[1]);
}

/// A sheet to be timed on, and what finding requires of its slices.
pub struct Timed {
    name: String,
    bars: usize,
    text: Vec<u8>,
    bytes: usize,
    cells: usize,
}

impl Timed {
    pub fn new(name: &str, text: Vec<u8>) -> Timed {
        let sheet = peer::read(&text).expect("the sheet is accepted");
        let (rules, onsets) = (sheet.rules.len(), sheet.onsets.len());
        Timed {
            name: format!(
                "{name}, {} bars, {onsets} onsets, {rules} rules",
                sheet.bars
            ),
            bars: sheet.bars.into(),
            bytes: peer::tree_bytes(&sheet) as usize,
            cells: peer::work_cells(&sheet) as usize,
            text,
        }
    }

    /// Prints the times of the library and the peer over all rounds.
    fn print(&self, library: &[f64], peer: &[f64]) {
        let ratio = harness::median_ratio(library, peer);
        let (library, peer) = (microseconds(library), microseconds(peer));
        let bars = self.bars as f64;
        println!(
            "  {}: library {library:.1} us, {:.2} us a bar; peer {peer:.1} us, {:.2} us a bar; \
             library / peer {ratio:.2}",
            self.name,
            library / bars,
            peer / bars
        );
    }
}

/// What is lent to each call, the same in all rounds.
pub struct Lent {
    tree: Vec<u8>,
    work: Vec<u64>,
    search: Search,
}

impl Lent {
    pub fn new(timed: &Timed) -> Lent {
        Lent {
            tree: vec![0; timed.bytes],
            work: vec![0; timed.cells],
            search: Search::default(),
        }
    }

    /// Finds by the library on even turns and by the peer on odd ones.
    pub fn find(&mut self, timed: &Timed, turn: usize) -> [u64; 6] {
        let text = black_box(&timed.text);
        let (tree, work) = (&mut self.tree, &mut self.work);
        let answer = match turn % 2 {
            0 => library::find(text, tree, work),
            _ => peer_find(&mut self.search, text, tree, work),
        };
        assert_eq!(answer[0], 0, "{}", timed.name);
        answer
    }
}

/// The median over the rounds.
pub fn microseconds(times: &[f64]) -> f64 {
    harness::median(times.to_vec()) / 1_000.0
}

/// The peer's entry, with what the library's gives. Kept out of line, as that is.
#[inline(never)]
fn peer_find(search: &mut Search, text: &[u8], tree: &mut [u8], work: &mut [u64]) -> [u64; 6] {
    let refused = |number: u8, line: u16| [number.into(), line.into(), 0, 0, 0, 0];
    let sheet = match peer::read(text) {
        Err((number, line)) => return refused(number, line),
        Ok(sheet) => sheet,
    };
    let Some(cells) = work.get_mut(..peer::work_cells(&sheet) as usize) else {
        return refused(WORK_SHORT, 0);
    };
    if (tree.len() as u64) < peer::tree_bytes(&sheet) {
        return refused(TREE_SHORT, 0);
    }
    cells.fill(0);
    let Some(total) = search.find(&sheet) else {
        return refused(NO_TREE, 0);
    };
    let nodes = search.write_tree(tree);
    let weights = tree[..nodes].iter().map(|&rule| weight(&sheet, rule));
    let r: u64 = weights.sum();
    let d = total - u64::from(sheet.multiplier) * r;
    [0, 0, nodes as u64, r, d, total]
}

fn weight(sheet: &Sheet, rule: u8) -> u64 {
    match sheet.rules[usize::from(rule)] {
        peer::Rule::Division { weight, .. } | peer::Rule::Leaf { weight, .. } => weight.into(),
    }
}
