//! What reading a text gives, and the comparison of the library's answers with it.

use crate::harness::{same, Difference};
use crate::sheets::Outcome;
use crate::{library, peer};

/// Bar lines asked for beside those that there are and the next two.
const BAR_LINES: [usize; 5] = [64, 65, 66, 1_000, usize::MAX];

/// What reading a text gives.
#[derive(Debug, PartialEq)]
pub struct Answers {
    pub outcome: Outcome,
    cells: u64,
    bytes: u64,
    units: Vec<u32>,
    bar_lines: Vec<u32>,
}

impl Answers {
    /// By the peer.
    pub fn of(text: &[u8]) -> Answers {
        let refused = |outcome| Answers {
            outcome,
            cells: 0,
            bytes: 0,
            units: Vec::new(),
            bar_lines: Vec::new(),
        };
        peer::read(text).map_or_else(refused, |sheet| Answers {
            outcome: (0, 0),
            cells: peer::work_cells(&sheet),
            bytes: peer::tree_bytes(&sheet),
            units: sheet.onsets.iter().map(|onset| onset.0).collect(),
            bar_lines: sheet.bar_lines,
        })
    }

    /// Compares the library's with these, of all onsets or of some; gives how many onsets
    /// and bar lines were asked for.
    pub fn compare(&self, text: &[u8], all: bool) -> Result<(usize, usize), Difference> {
        let (number, line) = self.outcome;
        let check = library::check(text);
        let check = (check / 65_536, (check % 65_536) as u16);
        same("rhythm_check", check, (number.into(), line))?;
        same("rhythm_work_cells", library::work_cells(text), self.cells)?;
        same("rhythm_tree_bytes", library::tree_bytes(text), self.bytes)?;
        let units = self.compare_units(text, all)?;
        Ok((units, self.compare_bar_lines(text)?))
    }

    /// Also places past the last.
    fn compare_units(&self, text: &[u8], all: bool) -> Result<usize, Difference> {
        let count = self.units.len();
        let mut asked = vec![0, count / 2, count.saturating_sub(1), count, usize::MAX];
        if all {
            asked.extend(0..count);
        }
        for &i in &asked {
            let unit = self.units.get(i).copied().unwrap_or(0);
            let given = library::onset_unit(text, i);
            same(&format!("rhythm_onset_unit of {i}"), given, unit)?;
        }
        Ok(asked.len())
    }

    /// All bar lines, and of a refused text as many as a sheet can have.
    fn compare_bar_lines(&self, text: &[u8]) -> Result<usize, Difference> {
        let past_last = match self.bar_lines.len() {
            0 => 64,
            count => count,
        };
        let asked = (0..past_last + 2).chain(BAR_LINES);
        for i in asked.clone() {
            let moment = self.bar_lines.get(i).copied().unwrap_or(0);
            let given = library::bar_line(text, i);
            same(&format!("rhythm_bar_line of {i}"), given, moment)?;
        }
        Ok(asked.count())
    }
}
