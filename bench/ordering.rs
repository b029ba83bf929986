//! Times finding on one heavy grammar with its rules in three orders. Onsets, rules
//! and least total are the same, so the times tell what the order costs. Of several
//! least trees another may be the first, with nearly as many nodes.

use crate::harness::{median_ratio, times_by_rounds};
use crate::orders::Order;
use crate::timing::{microseconds, Lent, Timed};
use crate::tunes;
use std::hint::black_box;

/// The first is what the others are set beside.
const ORDERS: [(&str, Order); 3] = [
    ("grouped", Order::Grouped),
    ("interleaved", Order::Interleaved),
    ("spread", Order::Spread),
];

/// All are timed in the same rounds, since a busy machine changes its speed.
pub fn time_all() {
    println!(" Halves and thirds again, the same rules in three orders, all in the same rounds:");
    let sheets = ORDERS.map(|(name, order)| Timed::new(name, tunes::plain_in(order)));
    let mut lent = Lent::new(&sheets[0]);
    let mut find = |turn: usize| lent.find(&sheets[turn / 2], turn);
    let turns = 2 * sheets.len();
    let totals: Vec<u64> = (0..turns).map(|turn| find(turn)[5]).collect();
    assert_eq!(totals, vec![totals[0]; turns], "the totals by order");
    let times = times_by_rounds(turns, |turn| {
        black_box(find(turn));
    });
    print(&times);
}

/// Takes the times of library and peer on the first sheet, then on the next ones.
fn print(times: &[Vec<f64>]) {
    let (mut least, mut most) = (f64::INFINITY, 0.0_f64);
    for ((name, _), times_of) in ORDERS.iter().zip(times.chunks(2)) {
        let (library, peer) = (&times_of[0], &times_of[1]);
        let over_grouped = median_ratio(library, &times[0]);
        (least, most) = (least.min(over_grouped), most.max(over_grouped));
        println!(
            "  {name}: library {:.1} us, {over_grouped:.2} times grouped; \
             peer {:.1} us, {:.2} times grouped; library / peer {:.2}",
            microseconds(library),
            microseconds(peer),
            median_ratio(peer, &times[1]),
            median_ratio(library, peer)
        );
    }
    println!(
        "  largest over smallest of the library's three: {:.2}",
        most / least
    );
}
