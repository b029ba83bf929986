//! Refusals where a tap stands or is missing, and of onsets by the first and the last
//! tap: what the texts refused show, counted from their lines.

use crate::sheets::{moment_of_line, KINDS};

type RefusedKind = (&'static str, u8, fn(&Refused) -> bool);

/// A text refused line by line.
pub struct Refused {
    pub lines: Vec<Vec<u8>>,
    /// The place of the line refused; past the last at the text's end.
    pub at: usize,
}

/// What is counted, the refusal it is met with and whether a text shows it.
pub const REFUSED: [RefusedKind; 31] = [
    ("17 by a tap right behind the last", 17, |text| {
        text.is(0x42) && text.before_is(0x42)
    }),
    ("17 by a tap after onsets", 17, |text| {
        text.is(0x42) && text.before_is(0x4E)
    }),
    ("17 by a malformed tap", 17, |text| {
        text.is(0x42) && text.line().len() != 5
    }),
    ("17 by an onset before the last tap", 17, |text| {
        text.is(0x4E)
    }),
    ("17 by an unknown kind", 17, |text| {
        !text.ends() && !KINDS.contains(&text.line()[0])
    }),
    ("17 by a second playing head", 17, |text| text.is(0x45)),
    ("17 by a grammar line", 17, |text| {
        [0x47, 0x44, 0x4C].iter().any(|&kind| text.is(kind))
    }),
    ("17 by the end, right behind the head", 17, |text| {
        text.ends() && text.before_is(0x45)
    }),
    ("17 by the end, among taps", 17, |text| {
        text.ends() && text.before_is(0x42)
    }),
    ("3 by the end, behind the last tap", 3, |text| {
        text.ends() && text.before_is(0x42)
    }),
    ("18 by a step of 999", 18, |text| text.step() == 999),
    ("18 by a shorter one", 18, |text| {
        (1..999).contains(&text.step())
    }),
    ("18 by a step of 60,000,001", 18, |text| {
        text.step() == 60_000_001
    }),
    ("18 by a longer one", 18, |text| text.step() > 60_000_001),
    ("18 by an equal tap", 18, |text| text.step() == 0),
    ("18 by a falling tap", 18, |text| text.step() < 0),
    ("18 by one with a right step in 32 bits", 18, |text| {
        text.step() < 0 && (1_000..=60_000_000).contains(&(text.step() as u32))
    }),
    ("19 a microsecond before the first tap", 19, |text| {
        text.ahead() == 1
    }),
    ("19 far before it", 19, |text| text.ahead() > 1_000_000),
    ("19 at 0", 19, |text| moment_of_line(text.line()) == 0),
    ("3 by a tap in a plain sheet", 3, |text| {
        text.is(0x42) && text.has_head()
    }),
    ("3 by a tap before the playing head", 3, |text| {
        text.is(0x42) && !text.has_head()
    }),
    ("4 by a tap of 4 bytes", 4, |text| {
        text.is(0x42) && text.line().len() == 4
    }),
    ("4 by a tap of 6 bytes", 4, |text| {
        text.is(0x42) && text.line().len() == 6
    }),
    ("4 by one with a wrong step too", 4, |text| {
        text.is(0x42) && text.before_is(0x42) && text.line().len() > 5 && text.step() == 0
    }),
    ("5 by no bars, tapped", 5, |text| {
        text.is(0x45) && text.tapped_bars() == Some(0)
    }),
    ("5 by 65 bars, tapped", 5, |text| {
        text.is(0x45) && text.tapped_bars() == Some(65)
    }),
    ("5 by an onset before the first tap", 5, |text| {
        text.is(0x4E) && text.ahead() > 0
    }),
    ("6 by an onset before the first tap", 6, |text| {
        text.ahead() > 0
    }),
    ("7 at the last tap", 7, |text| {
        text.tapped_bars().is_some() && text.past_last() == 0
    }),
    ("7 past the last tap", 7, |text| {
        text.tapped_bars().is_some() && text.past_last() > 0
    }),
];

impl Refused {
    fn line(&self) -> &[u8] {
        &self.lines[self.at]
    }

    fn ends(&self) -> bool {
        self.at == self.lines.len()
    }

    fn is(&self, kind: u8) -> bool {
        self.lines.get(self.at).is_some_and(|line| line[0] == kind)
    }

    fn before_is(&self, kind: u8) -> bool {
        self.at > 0 && self.lines[self.at - 1][0] == kind
    }

    fn step(&self) -> i64 {
        let moment = |at: usize| moment_of_line(&self.lines[at]) as i64;
        moment(self.at) - moment(self.at - 1)
    }

    /// The moments of the taps up to the line refused.
    fn taps(&self) -> impl Iterator<Item = i64> + '_ {
        let taps = self.lines[..self.at].iter().filter(|line| line[0] == 0x42);
        taps.map(|line| moment_of_line(line) as i64)
    }

    /// How far before the first tap an onset is; not above 0 in a plain sheet.
    fn ahead(&self) -> i64 {
        self.taps().next().unwrap_or(0) - moment_of_line(self.line()) as i64
    }

    fn past_last(&self) -> i64 {
        moment_of_line(self.line()) as i64 - self.taps().last().unwrap_or(0)
    }

    fn has_head(&self) -> bool {
        self.lines[..self.at].iter().any(|line| line[0] == 0x45)
    }

    /// The bars of a tapped sheet.
    fn tapped_bars(&self) -> Option<u8> {
        let head = self.lines.iter().find(|line| line[0] == 0x45)?;
        (moment_of_line(&head[1..]) == 0).then_some(head[1])
    }
}
