//! The tapped twin of a plain text: the same but for its bar lines, which are tapped
//! where the duration puts them. Both have the same answers, and are refused alike.

use crate::bar_lines::BarLines;
use crate::moments::{LONGEST, SHORTEST};
use crate::sheets::{lines_of, moment_of_line, text_of, Outcome, MAX_TEXT};

/// The twin of a text with some outcome, and the outcome it must have; `None` if the
/// text is not plain, is refused up to its playing head, or is too long with taps.
pub fn twin(text: &[u8], (number, line): Outcome) -> Option<(Vec<u8>, Outcome)> {
    if matches!(number, 1 | 2) {
        return None;
    }
    let mut lines = lines_of(text);
    let at = lines.iter().position(|line| line[0] == 0x45)?;
    let refused = usize::from(line).checked_sub(1);
    let head = lines.get(at).filter(|head| head.len() == 6)?;
    let (bars, duration) = (head[1].into(), moment_of_line(&head[1..]));
    let plain = (SHORTEST..=LONGEST).contains(&duration);
    if !plain || refused.is_some_and(|refused| refused <= at) {
        return None;
    }
    // A tap among the onsets is refused by another number.
    let tap = refused.is_some_and(|refused| lines.get(refused).is_some_and(|line| line[0] == 0x42));
    let taps: Vec<usize> = (0..=bars).map(|line| line * duration).collect();
    let outcome = match number {
        0 => (0, 0),
        _ => (if tap { 17 } else { number }, line + taps.len() as u16),
    };
    lines.splice(at..=at, BarLines::tapped(taps).sheet_lines());
    let twin = text_of(&lines);
    (twin.len() <= MAX_TEXT).then_some((twin, outcome))
}
