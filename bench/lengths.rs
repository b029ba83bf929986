//! The lengths of the slices lent to finding: as required, longer or short.

use crate::finding::{TREE_SHORT, WORK_SHORT};
use crate::sheets::Dice;

/// The required length, or a longer one.
pub fn longer(dice: &mut Dice, required: usize) -> usize {
    required + dice.pick(&[0, 0, 1, 2, 40])
}

/// Lengths of tree and work slices of which one or both are short, and the
/// refusal: most often one short, and for a few sheets all that can be.
pub fn short_lengths(dice: &mut Dice, bytes: usize, cells: usize) -> Vec<((usize, usize), u8)> {
    let (tree, work) = (longer(dice, bytes), longer(dice, cells));
    let less_tree = dice.between_edged(0, bytes - 1);
    let less_work = dice.between_edged(0, cells - 1);
    let mut short = vec![
        ((tree, cells - 1), WORK_SHORT),
        ((bytes - 1, work), TREE_SHORT),
        ((bytes - 1, cells - 1), WORK_SHORT),
        ((less_tree, less_work), WORK_SHORT),
        ((less_tree, work), TREE_SHORT),
        ((0, 0), WORK_SHORT),
    ];
    dice.shuffle(&mut short);
    short.truncate(dice.pick(&[0, 0, 1, 1, 2, 6]));
    short
}
