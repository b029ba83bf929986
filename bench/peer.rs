//! A second reading of the sheet, written from documents 01 and 02 alone, so that
//! the library's reading can be compared with it and timed against it.
//!
//! `rustc --test bench/peer.rs` builds the tests at the end of this file.

/// Named by its path, so that this file also builds alone.
#[path = "bars.rs"]
pub mod bars;

use bars::{first_past_end, Bar};
use std::ops::RangeInclusive;

/// The refusal's number and its line (0 for refusal 1).
pub type Refusal = (u8, u16);

/// Units in a bar.
pub const BAR_UNITS: u32 = 20_160;

const MAX_TEXT: usize = 16_384;
const MAX_RULES: usize = 64;
const MAX_BARS: u8 = 64;
/// Of a bar in microseconds, plain or tapped.
const DURATIONS: RangeInclusive<u32> = 1_000..=60_000_000;
/// What stands for the duration of a tapped sheet.
const TAPPED: u32 = 0;
const MAX_ONSETS: usize = 512;
const MAX_BAR_ONSETS: u8 = 32;
const MAX_ARITY: usize = 8;
/// The n of a leaf that is a rest, the largest there is.
pub const REST: u8 = 4;
/// 20,160 is 2^6 × 3^2 × 5 × 7 and so has 84 divisors.
const BAR_DIVISORS: usize = 84;

const TOO_LONG: u8 = 1;
const FORM: u8 = 2;
const KIND: u8 = 3;
const COUNT: u8 = 4;
const RANGE: u8 = 5;
const FALLING: u8 = 6;
const PAST_END: u8 = 7;
const TOO_MANY: u8 = 8;
const TAPS: u8 = 17;
const STEP: u8 = 18;
const BEFORE_FIRST_TAP: u8 = 19;

const GRAMMAR_HEAD: u8 = 0x47;
const DIVISION: u8 = 0x44;
pub const LEAF: u8 = 0x4C;
const PLAYING_HEAD: u8 = 0x45;
const TAP: u8 = 0x42;
const ONSET: u8 = 0x4E;

/// The comparison asks for only some of what a sheet says.
#[allow(dead_code)]
#[derive(Debug, PartialEq)]
pub enum Rule {
    /// Only the first `arity` of `parts` count; the others are 0.
    Division {
        head: u8,
        weight: u16,
        arity: u8,
        parts: [u8; MAX_ARITY],
    },
    Leaf {
        head: u8,
        weight: u16,
        n: u8,
    },
}

#[allow(dead_code)]
#[derive(Debug)]
pub struct Sheet {
    pub nonterminals: u8,
    pub start: u8,
    pub multiplier: u16,
    pub rules: Vec<Rule>,
    pub bars: u8,
    /// The moments of bar lines 0 to B in microseconds.
    pub bar_lines: Vec<u32>,
    /// Unit, counted from the first bar, and pitch.
    pub onsets: Vec<(u32, u8)>,
}

/// Reads a sheet, or gives its refusal: 1 to 8, or 17 to 19.
pub fn read(text: &[u8]) -> Result<Sheet, Refusal> {
    if text.len() > MAX_TEXT {
        return Err((TOO_LONG, 0));
    }
    if text.is_empty() {
        return Err((FORM, 1));
    }
    let mut lines = Lines::new(text);
    read_lines(&mut lines).map_err(|refusal| match refusal {
        (FORM, _) => refusal,
        // Form is judged over the whole text first, so a badly formed line
        // further down goes before a larger number found up here.
        _ => lines.first_badly_formed().unwrap_or(refusal),
    })
}

/// The length finding requires of its work slice, in cells.
pub fn work_cells(sheet: &Sheet) -> u64 {
    let entries = u64::from(sheet.nonterminals) * lengths(sheet) * most_in_a_bar(sheet);
    16 * (entries + u64::from(sheet.bars))
}

/// The length finding requires of its tree slice, in bytes.
pub fn tree_bytes(sheet: &Sheet) -> u64 {
    u64::from(sheet.bars) + 80 * sheet.onsets.len() as u64
}

/// L: the lengths reached from a bar by the sheet's divisions.
fn lengths(sheet: &Sheet) -> u64 {
    let mut used = [false; MAX_ARITY + 1];
    for rule in &sheet.rules {
        if let Rule::Division { arity, .. } = rule {
            used[usize::from(*arity)] = true;
        }
    }
    let mut reached = [0u16; BAR_DIVISORS];
    reached[0] = BAR_UNITS as u16;
    let mut count = 1;
    let mut next = 0;
    while next < count {
        let length = reached[next];
        next += 1;
        for arity in (2..=MAX_ARITY).filter(|&arity| used[arity]) {
            let part = length / arity as u16;
            if part * arity as u16 == length && !reached[..count].contains(&part) {
                reached[count] = part;
                count += 1;
            }
        }
    }
    count as u64
}

/// E: the largest number of onsets in a bar.
fn most_in_a_bar(sheet: &Sheet) -> u64 {
    let mut most = 0;
    let mut in_bar = 0;
    let mut bar_end = 0;
    for &(unit, _) in &sheet.onsets {
        if unit >= bar_end {
            bar_end = (unit / BAR_UNITS + 1) * BAR_UNITS;
            in_bar = 0;
        }
        in_bar += 1;
        most = most.max(in_bar);
    }
    most
}

/// What each two bytes, as one number, stand for: a byte if both are digits,
/// else `NO_BYTE`. One look-up a pair is faster than one a digit.
static BYTES: [u16; 1 << 16] = bytes_of_pairs();
const NO_BYTE: u16 = 0x100;

const fn bytes_of_pairs() -> [u16; 1 << 16] {
    let digits = b"0123456789ABCDEF";
    let mut bytes = [NO_BYTE; 1 << 16];
    let mut byte = 0;
    while byte < 256 {
        let pair = [digits[byte >> 4], digits[byte & 15]];
        bytes[u16::from_le_bytes(pair) as usize] = byte as u16;
        byte += 1;
    }
    bytes
}

/// The byte a pair of digits stands for; `NO_BYTE` for any other pair.
#[inline(always)]
fn byte(pair: &[u8; 2]) -> u16 {
    BYTES[usize::from(u16::from_le_bytes(*pair))]
}

/// One well-formed line.
struct Line {
    kind: u8,
    count: usize,
    /// The first eight bytes of a line that has more, as one big-endian number.
    front: u64,
    /// The last eight bytes, or all if fewer, as one big-endian number.
    tail: u64,
    number: u16,
}

impl Line {
    fn refuse<T>(&self, number: u8) -> Result<T, Refusal> {
        Err((number, self.number))
    }

    fn refuse_if(&self, fault: bool, number: u8) -> Result<(), Refusal> {
        if fault {
            self.refuse(number)
        } else {
            Ok(())
        }
    }

    /// A byte that is one of the first eight or of the last eight.
    fn one(&self, at: usize) -> u8 {
        let behind = self.count - 1 - at;
        if behind < 8 {
            (self.tail >> (8 * behind)) as u8
        } else {
            (self.front >> (8 * (7 - at))) as u8
        }
    }

    fn two(&self, at: usize) -> u16 {
        u16::from_be_bytes([self.one(at), self.one(at + 1)])
    }

    /// Four bytes of a line that has at most eight.
    fn four(&self, at: usize) -> u32 {
        (self.tail >> (8 * (self.count - 4 - at))) as u32
    }
}

/// The lines of a text, each checked and turned into numbers in one loop.
struct Lines<'a> {
    rest: &'a [u8],
    read: u16,
}

impl<'a> Lines<'a> {
    fn new(text: &'a [u8]) -> Self {
        Lines {
            rest: text,
            read: 0,
        }
    }

    /// The next line, or `None` at the end of the text. Inlined, so that a line
    /// stays in registers: handing it over in memory costs a good part more.
    #[inline(always)]
    fn next(&mut self) -> Result<Option<Line>, Refusal> {
        if self.rest.is_empty() {
            return Ok(None);
        }
        self.read += 1;
        self.line().map(Some).ok_or((FORM, self.read))
    }

    /// `None` if the line is badly formed.
    #[inline(always)]
    fn line(&mut self) -> Option<Line> {
        let mut pairs = self.rest.as_chunks().0.iter();
        let kind = byte(pairs.next()?);
        if kind >= NO_BYTE {
            return None;
        }
        let mut count = 1;
        let mut front = 0;
        let mut tail = u64::from(kind);
        for pair in pairs {
            let byte = byte(pair);
            if byte >= NO_BYTE {
                break;
            }
            if count == 8 {
                front = tail;
            }
            tail = (tail << 8) | u64::from(byte);
            count += 1;
        }
        let (_, [b'\n', rest @ ..]) = self.rest.split_at(2 * count) else {
            return None;
        };
        self.rest = rest;
        Some(Line {
            kind: kind as u8,
            count,
            front,
            tail,
            number: self.read,
        })
    }

    /// The next line where the sheet cannot end yet.
    fn expect(&mut self) -> Result<Line, Refusal> {
        self.next()?.ok_or((KIND, self.read + 1))
    }

    fn first_badly_formed(&mut self) -> Option<Refusal> {
        loop {
            match self.next() {
                Ok(Some(_)) => {}
                Ok(None) => return None,
                Err(refusal) => return Some(refusal),
            }
        }
    }
}

fn read_lines(lines: &mut Lines) -> Result<Sheet, Refusal> {
    let mut sheet = grammar_head(&lines.expect()?)?;
    let playing = loop {
        let line = lines.expect()?;
        match line.kind {
            DIVISION | LEAF => {
                let rule = rule(&line, sheet.nonterminals)?;
                line.refuse_if(sheet.rules.len() == MAX_RULES, TOO_MANY)?;
                sheet.rules.push(rule);
            }
            PLAYING_HEAD if !sheet.rules.is_empty() => break line,
            _ => return line.refuse(KIND),
        }
    };
    let (bars, duration) = playing_head(&playing)?;
    sheet.bars = bars;
    let tapped = duration == TAPPED;
    if tapped {
        taps(lines, &mut sheet)?;
    } else {
        // 64 bars of 60,000,000 microseconds still fit 32 bits.
        let even = (0..=u32::from(bars)).map(|line| line * duration);
        sheet.bar_lines.extend(even);
    }
    onsets(lines, &mut sheet, tapped)?;
    Ok(sheet)
}

fn grammar_head(line: &Line) -> Result<Sheet, Refusal> {
    line.refuse_if(line.kind != GRAMMAR_HEAD, KIND)?;
    line.refuse_if(line.count != 5, COUNT)?;
    let (nonterminals, start) = (line.one(1), line.one(2));
    let in_range = (1..=16).contains(&nonterminals) && start < nonterminals;
    line.refuse_if(!in_range, RANGE)?;
    Ok(Sheet {
        nonterminals,
        start,
        multiplier: line.two(3),
        rules: Vec::with_capacity(MAX_RULES),
        bars: 0,
        bar_lines: Vec::with_capacity(usize::from(MAX_BARS) + 1),
        onsets: Vec::with_capacity(MAX_ONSETS),
    })
}

fn rule(line: &Line, nonterminals: u8) -> Result<Rule, Refusal> {
    if line.kind == DIVISION {
        division(line, nonterminals)
    } else {
        leaf(line, nonterminals)
    }
}

/// The arity stands before the exact count, since it decides that count.
fn division(line: &Line, nonterminals: u8) -> Result<Rule, Refusal> {
    line.refuse_if(line.count < 5, COUNT)?;
    let (head, arity) = (line.one(1), line.one(4));
    line.refuse_if(!(2..=MAX_ARITY as u8).contains(&arity), RANGE)?;
    line.refuse_if(line.count != 5 + usize::from(arity), COUNT)?;
    let mut parts = [0; MAX_ARITY];
    for (part, at) in parts.iter_mut().zip(5..line.count) {
        *part = line.one(at);
    }
    // The parts not listed are 0 and so below Q.
    let in_range = head < nonterminals && parts.iter().all(|&part| part < nonterminals);
    line.refuse_if(!in_range, RANGE)?;
    Ok(Rule::Division {
        head,
        weight: line.two(2),
        arity,
        parts,
    })
}

fn leaf(line: &Line, nonterminals: u8) -> Result<Rule, Refusal> {
    line.refuse_if(line.count != 5, COUNT)?;
    let (head, n) = (line.one(1), line.one(4));
    line.refuse_if(head >= nonterminals || n > REST, RANGE)?;
    Ok(Rule::Leaf {
        head,
        weight: line.two(2),
        n,
    })
}

/// The bars and one bar's duration, or `TAPPED`.
fn playing_head(line: &Line) -> Result<(u8, u32), Refusal> {
    line.refuse_if(line.count != 6, COUNT)?;
    let (bars, duration) = (line.one(1), line.four(2));
    let is_duration = duration == TAPPED || DURATIONS.contains(&duration);
    let in_range = (1..=MAX_BARS).contains(&bars) && is_duration;
    line.refuse_if(!in_range, RANGE)?;
    Ok((bars, duration))
}

fn taps(lines: &mut Lines, sheet: &mut Sheet) -> Result<(), Refusal> {
    for _ in 0..=sheet.bars {
        let line = lines.next()?.ok_or((TAPS, lines.read + 1))?;
        line.refuse_if(line.kind != TAP, TAPS)?;
        line.refuse_if(line.count != 5, COUNT)?;
        let tap = line.four(1);
        if let Some(&before) = sheet.bar_lines.last() {
            // A falling tap may come to a fitting step in 32 bits.
            let step = tap.checked_sub(before);
            let fits = step.is_some_and(|step| DURATIONS.contains(&step));
            line.refuse_if(!fits, STEP)?;
        }
        sheet.bar_lines.push(tap);
    }
    Ok(())
}

fn onsets(lines: &mut Lines, sheet: &mut Sheet, tapped: bool) -> Result<(), Refusal> {
    let mut bar = Bar::at(0, &sheet.bar_lines);
    let end = first_past_end(&sheet.bar_lines);
    let mut before = sheet.bar_lines[0];
    let mut in_bar = 0;
    let mut line = lines.expect()?;
    loop {
        let (time, pitch) = onset(&line, tapped)?;
        if time < before {
            // Before the first onset there is only the first bar line.
            let first = sheet.onsets.is_empty();
            return line.refuse(if first { BEFORE_FIRST_TAP } else { FALLING });
        }
        line.refuse_if(time >= end, PAST_END)?;
        if time >= bar.until {
            bar.go_to(time, &sheet.bar_lines);
            in_bar = 0;
        }
        let full = sheet.onsets.len() == MAX_ONSETS || in_bar == MAX_BAR_ONSETS;
        line.refuse_if(full, TOO_MANY)?;
        in_bar += 1;
        before = time;
        sheet.onsets.push((bar.unit(time), pitch));
        match lines.next()? {
            Some(next) => line = next,
            None => return Ok(()),
        }
    }
}

/// An onset's time in microseconds and its pitch.
fn onset(line: &Line, tapped: bool) -> Result<(u32, u8), Refusal> {
    if line.kind != ONSET {
        let more_taps = tapped && line.kind == TAP;
        return line.refuse(if more_taps { TAPS } else { KIND });
    }
    line.refuse_if(line.count != 7, COUNT)?;
    let (time, pitch, velocity) = (line.four(1), line.one(5), line.one(6));
    let in_range = pitch <= 127 && (1..=127).contains(&velocity);
    line.refuse_if(!in_range, RANGE)?;
    Ok((time, pitch))
}

#[cfg(test)]
pub mod tests {
    use super::*;

    /// Document 01's sheet S.
    pub const S: [&str; 8] = [
        "470200000A",
        "4C00000101",
        "44000006020101",
        "4C01000200",
        "4C01000101",
        "4501001E8480",
        "4E000000003C40",
        "4E0010C8E03E40",
    ];

    fn text(lines: &[&str]) -> Vec<u8> {
        (lines.join("\n") + "\n").into_bytes()
    }

    /// S with the line of that number, from 1, put in another's place.
    fn s_with(number: usize, line: &str) -> Vec<u8> {
        let mut lines = S;
        lines[number - 1] = line;
        text(&lines)
    }

    fn s_and(line: &str) -> Vec<u8> {
        [text(&S), text(&[line])].concat()
    }

    fn refusal(text: &[u8]) -> Refusal {
        read(text).expect_err("the text is refused")
    }

    /// The place of each digit of S's text, and its line's number.
    fn digits_of_s() -> Vec<(usize, u16)> {
        let mut line = 1;
        let mut digits = Vec::new();
        for (at, byte) in text(&S).into_iter().enumerate() {
            match byte {
                b'\n' => line += 1,
                _ => digits.push((at, line)),
            }
        }
        digits
    }

    /// S with so many copies of its first leaf as to have `count` rules.
    fn s_with_rules(count: usize) -> Vec<&'static str> {
        let more = std::iter::repeat_n(S[1], count - 4);
        S[..5]
            .iter()
            .copied()
            .chain(more)
            .chain(S[5..].iter().copied())
            .collect()
    }

    /// A sheet of bars of a second with `per_bar` onsets in each.
    fn many_onsets(bars: u32, per_bar: u32) -> Vec<u8> {
        let mut sheet = text(&S[..5]);
        sheet.extend(format!("45{bars:02X}000F4240\n").bytes());
        for bar in 0..bars {
            for i in 0..per_bar {
                sheet.extend(format!("4E{:08X}3C40\n", bar * 1_000_000 + i * 31_250).bytes());
            }
        }
        sheet
    }

    #[test]
    fn s_is_accepted() {
        let sheet = read(&text(&S)).unwrap();
        assert_eq!(
            (sheet.nonterminals, sheet.start, sheet.multiplier),
            (2, 0, 10)
        );
        assert_eq!((sheet.bars, &sheet.bar_lines[..]), (1, &[0, 2_000_000][..]));
        assert_eq!(sheet.onsets, [(0, 60), (11_088, 62)]);
        let leaf = |head, weight, n| Rule::Leaf { head, weight, n };
        let parts = [1, 1, 0, 0, 0, 0, 0, 0];
        let division = Rule::Division {
            head: 0,
            weight: 6,
            arity: 2,
            parts,
        };
        assert_eq!(
            sheet.rules,
            [leaf(0, 1, 1), division, leaf(1, 2, 0), leaf(1, 1, 1)]
        );
        assert_eq!(lengths(&sheet), 7);
        assert_eq!(work_cells(&sheet), 464);
        assert_eq!(tree_bytes(&sheet), 161);
    }

    #[test]
    fn lengths_reached_by_several_arities() {
        let count = |lines: &[&str]| {
            let rules = text(&[&S[..1], lines, &S[5..]].concat());
            lengths(&read(&rules).unwrap())
        };
        assert_eq!(count(&["4C00000101"]), 1);
        assert_eq!(count(&["44000000020000", "4400000003000000"]), 21);
        assert_eq!(count(&["440000000400000000"]), 4);
        let all: Vec<String> = (2..=8)
            .map(|k| format!("44000000{k:02X}{}", "00".repeat(k)))
            .collect();
        let all: Vec<&str> = all.iter().map(String::as_str).collect();
        assert_eq!(count(&all), BAR_DIVISORS as u64);
    }

    #[test]
    fn limits_are_accepted() {
        assert_eq!(read(&text(&s_with_rules(64))).unwrap().rules.len(), 64);
        let sheet = read(&many_onsets(16, 32)).unwrap();
        assert_eq!((sheet.onsets.len(), most_in_a_bar(&sheet)), (512, 32));
        assert_eq!(sheet.onsets[511].0, 15 * BAR_UNITS + 19_530);
        // 50 microseconds before the end are just over half a unit.
        assert!(read(&s_with(8, "4E001E844E3E40")).is_ok());
        assert_eq!(refusal(&s_with(8, "4E001E844F3E40")), (7, 8));
        // Only the time of S's second onset is against the shortest bar.
        assert_eq!(refusal(&s_with(6, "4501000003E8")), (7, 8));
    }

    #[test]
    fn table_of_refusals() {
        assert_eq!(refusal(&[b'0'; 16_385]), (1, 0));
        assert_eq!(refusal(&text(&["4G"])), (2, 1));
        assert_eq!(refusal(b"4G"), (2, 1));
        assert_eq!(refusal(&s_with(1, "5800")), (3, 1));
        assert_eq!(refusal(&s_with(6, "45011E8480")), (4, 6));
        assert_eq!(refusal(&s_with(6, "4501000003E7")), (5, 6));
        let falling = [&S[..6], &["4E000000053C40", "4E000000003C40"]].concat();
        assert_eq!(refusal(&text(&falling)), (6, 8));
        assert_eq!(refusal(&s_and("4E001E84803C40")), (7, 9));
        assert_eq!(refusal(&text(&s_with_rules(65))), (8, 66));
    }

    #[test]
    fn form() {
        assert_eq!(refusal(b""), (2, 1));
        assert_eq!(refusal(b"\n"), (2, 1));
        assert_eq!(refusal(&s_with(4, "")), (2, 4));
        assert_eq!(refusal(&s_and("")), (2, 9));
        assert_eq!(refusal(&s_with(8, "4E0010C8E03E4")), (2, 8));
        assert_eq!(refusal(&s_with(2, "4c00000101")), (2, 2));
        assert_eq!(refusal(&text(&S)[..text(&S).len() - 1]), (2, 8));
        assert_eq!(refusal(&[text(&S), b"4".to_vec()].concat()), (2, 9));
        assert_eq!(refusal(&s_with(5, "4C01000101\r")), (2, 5));
    }

    #[test]
    fn pairs_of_digits() {
        let digit = |byte| b"0123456789ABCDEF".iter().position(|&digit| digit == byte);
        for high in 0..=255 {
            for low in 0..=255 {
                let value = byte(&[high, low]);
                match digit(high).zip(digit(low)) {
                    Some((high, low)) => assert_eq!(usize::from(value), 16 * high + low),
                    None => assert_eq!(value, NO_BYTE),
                }
            }
        }
    }

    #[test]
    fn foreign_byte_in_either_half() {
        for (at, line) in digits_of_s() {
            for byte in *b"acf/:@G`g \r\0\x80\xFF" {
                let mut text = text(&S);
                text[at] = byte;
                assert_eq!(refusal(&text), (2, line));
            }
        }
    }

    #[test]
    fn odd_digits() {
        for (at, line) in digits_of_s() {
            let mut short = text(&S);
            short.remove(at);
            assert_eq!(refusal(&short), (2, line));
            let mut long = text(&S);
            long.insert(at, b'0');
            assert_eq!(refusal(&long), (2, line));
        }
    }

    #[test]
    fn empty_line() {
        for before in 0..=8 {
            let lines = [&S[..before], &[""], &S[before..]].concat();
            assert_eq!(refusal(&text(&lines)), (2, before as u16 + 1));
        }
    }

    #[test]
    fn kinds_in_order() {
        for kept in 1..=6 {
            assert_eq!(refusal(&text(&S[..kept])), (3, kept as u16 + 1));
        }
        assert!(read(&text(&S[..7])).is_ok());
        assert_eq!(refusal(&text(&S[1..])), (3, 1));
        assert_eq!(refusal(&text(&[&S[..1], &S[5..]].concat())), (3, 2));
        assert_eq!(refusal(&text(&[&S[..5], &S[6..]].concat())), (3, 6));
        assert_eq!(refusal(&s_with(3, S[0])), (3, 3));
        for line in [S[0], S[1], S[2], S[5], "00", "4F"] {
            assert_eq!(refusal(&s_and(line)), (3, 9));
        }
    }

    #[test]
    fn fields_in_range() {
        for head in ["470000000A", "471100000A", "470202000A", "4702FF000A"] {
            assert_eq!(refusal(&s_with(1, head)), (5, 1));
        }
        for rule in [
            "4C02000101",
            "4C00000105",
            "4C000001FF",
            "44020006020101",
            "44000006020201",
        ] {
            assert_eq!(refusal(&s_with(3, rule)), (5, 3));
        }
        for playing in [
            "4500001E8480",
            "4541001E8480",
            "450103938701",
            "4501FFFFFFFF",
        ] {
            assert_eq!(refusal(&s_with(6, playing)), (5, 6));
        }
        for onset in ["4E000000008040", "4E000000003C00", "4E000000003C80"] {
            assert_eq!(refusal(&s_with(7, onset)), (5, 7));
        }
        assert!(read(&s_with(3, "4C00000104")).is_ok());
        assert!(read(&s_with(6, "4540001E8480")).is_ok());
        assert!(read(&s_with(6, "450103938700")).is_ok());
        assert!(read(&s_with(7, "4E000000007F7F")).is_ok());
        assert!(read(&s_with(7, "4E000000000001")).is_ok());
    }

    #[test]
    fn division_order() {
        // Fewer than five bytes, then the arity, then the count, then names.
        assert_eq!(refusal(&s_with(3, "44FF0006")), (4, 3));
        assert_eq!(refusal(&s_with(3, "440000060101")), (5, 3));
        assert_eq!(refusal(&s_with(3, "4400000609")), (5, 3));
        assert_eq!(refusal(&s_with(3, "44FF00060201")), (4, 3));
        assert_eq!(refusal(&s_with(3, "44FF000602FFFFFF")), (4, 3));
        assert_eq!(refusal(&s_with(3, "440000060201FF")), (5, 3));
        // The arity is also found in a line longer than any right one.
        for more in [8, 9, 12, 13, 251, 252, 300] {
            let line = |arity| format!("44000006{arity}{}", "01".repeat(more + 1));
            assert_eq!(refusal(&s_with(3, &line("08"))), (4, 3));
            assert_eq!(refusal(&s_with(3, &line("09"))), (5, 3));
        }
    }

    #[test]
    fn lines_of_other_counts() {
        // A line of that kind with so many bytes, the fifth of them given.
        let line = |kind: &str, fifth: usize, bytes: usize| {
            let all = format!("{kind}000000{fifth:02X}{}", "00".repeat(300));
            all[..2 * bytes].to_string()
        };
        let of = |at, kind, fifth, bytes| refusal(&s_with(at, &line(kind, fifth, bytes)));
        for bytes in 1..=300 {
            for at in 1..=8 {
                assert_eq!(of(at, "58", 2, bytes), (3, at as u16));
            }
            if bytes != 5 {
                assert_eq!(of(1, "47", 0, bytes), (4, 1));
                assert_eq!(of(2, "4C", 0, bytes), (4, 2));
            }
            if bytes != 6 {
                assert_eq!(of(6, "45", 0, bytes), (4, 6));
            }
            if bytes != 7 {
                assert_eq!(of(7, "4E", 0, bytes), (4, 7));
                assert_eq!(of(8, "4E", 0, bytes), (4, 8));
            }
            for arity in (0..=255).filter(|arity| bytes != 5 + arity) {
                let counted = bytes < 5 || (2..=8).contains(&arity);
                let number = if counted { 4 } else { 5 };
                assert_eq!(of(3, "44", arity, bytes), (number, 3));
            }
        }
    }

    #[test]
    fn form_of_a_later_line_goes_first() {
        let mut lines = S;
        (lines[0], lines[7]) = ("5800", "4E0010C8E03E4");
        assert_eq!(refusal(&text(&lines)), (2, 8));
        assert_eq!(refusal(&[text(&S[..3]), b"4E".to_vec()].concat()), (2, 4));
        assert_eq!(refusal(&[b'G'; 16_384]), (2, 1));
    }

    /// S with a refused line at each stage: the lines, the number and the line refused.
    fn refused_sheets() -> Vec<(Vec<&'static str>, u8, u16)> {
        let mut refused = Vec::new();
        let lines = [
            ("5800", 3, 1),
            ("4702", 4, 1),
            ("470000000A", 5, 1),
            ("5800", 3, 2),
            ("4C00", 4, 2),
            ("4C00000105", 5, 2),
            ("5800", 3, 5),
            ("44", 4, 5),
            ("4400000609", 5, 5),
            ("5800", 3, 6),
            ("45011E8480", 4, 6),
            ("4501000003E7", 5, 6),
            ("5800", 3, 7),
            ("4E", 4, 7),
            ("4E000000008040", 5, 7),
            ("58000000003C40", 3, 8),
            ("4E0010C8E03E4000", 4, 8),
            ("4E0010C8E03E00", 5, 8),
            ("4E001E84803E40", 7, 8),
        ];
        for (line, number, at) in lines {
            let mut lines = S.to_vec();
            lines[usize::from(at) - 1] = line;
            refused.push((lines, number, at));
        }
        let falling = [&S[..6], &S[7..], &S[6..7]].concat();
        refused.push((falling, 6, 8));
        refused.push((s_with_rules(65), 8, 66));
        let crowded = [&S[..6], &[S[6]; 33]].concat();
        refused.push((crowded, 8, 39));
        refused
    }

    #[test]
    fn form_after_a_refused_line() {
        for (lines, number, at) in refused_sheets() {
            assert_eq!(refusal(&text(&lines)), (number, at));
            // A badly formed line next to the refused one, and at the end.
            for place in [usize::from(at), lines.len()] {
                for line in ["4G", "4", "", "4E000000003c40", "4E000000003C40\r"] {
                    let lines = [&lines[..place], &[line], &lines[place..]].concat();
                    assert_eq!(refusal(&text(&lines)), (2, place as u16 + 1));
                }
            }
            // The last line not closed, and after it one that is not closed.
            let mut cut = text(&lines);
            cut.pop();
            assert_eq!(refusal(&cut), (2, lines.len() as u16));
            let more = [text(&lines), b"4E".to_vec()].concat();
            assert_eq!(refusal(&more), (2, lines.len() as u16 + 1));
            // Well-formed lines after it change nothing.
            let lines = [&lines[..], &["5800", "00"]].concat();
            assert_eq!(refusal(&text(&lines)), (number, at));
        }
        assert_eq!(refusal(&text(&["5800", "4G"])), (2, 2));
        assert_eq!(refusal(b"5800\n4E"), (2, 2));
    }

    #[test]
    fn form_where_the_text_ends_early() {
        for kept in 1..=6 {
            let end = kept as u16 + 1;
            let early = text(&S[..kept]);
            assert_eq!(refusal(&early), (3, end));
            assert_eq!(refusal(&early[..early.len() - 1]), (2, end - 1));
            for line in ["4G\n", "4\n", "\n", "4E", "4"] {
                let text = [&early[..], line.as_bytes()].concat();
                assert_eq!(refusal(&text), (2, end));
            }
            for bad in 0..kept {
                let mut lines = S[..kept].to_vec();
                lines[bad] = "4G";
                assert_eq!(refusal(&text(&lines)), (2, bad as u16 + 1));
            }
        }
    }

    #[test]
    fn line_goes_before_number() {
        let mut lines = S;
        (lines[3], lines[5]) = ("4C01000205", "5800");
        assert_eq!(refusal(&text(&lines)), (5, 4));
    }

    #[test]
    fn numbers_within_a_line() {
        assert_eq!(refusal(&s_with(1, "5800")), (3, 1));
        assert_eq!(refusal(&s_and("4E00000000FF")), (4, 9));
        assert_eq!(refusal(&s_and("4E00000000FF40")), (5, 9));
        assert_eq!(refusal(&s_and("4EFFFFFFFFFF40")), (5, 9));
        assert_eq!(refusal(&s_and("4E000000003C40")), (6, 9));
    }

    #[test]
    fn counts_come_last() {
        let mut rules = s_with_rules(65);
        for (line, number) in [("4C000001", 4), ("4C00000105", 5), ("4C00000104", 8)] {
            rules[65] = line;
            assert_eq!(refusal(&text(&rules)), (number, 66));
        }
        let full = |line: &str| refusal(&[many_onsets(16, 32), text(&[line])].concat());
        assert_eq!(full("44"), (3, 519));
        assert_eq!(full("4E"), (4, 519));
        assert_eq!(full("4E00F423FF3C00"), (5, 519));
        assert_eq!(full("4E000000003C40"), (6, 519));
        assert_eq!(full("4E00F424003C40"), (7, 519));
        // 24 microseconds before the end are just under half a unit, 25 just over.
        assert_eq!(full("4E00F423E83C40"), (7, 519));
        assert_eq!(full("4E00F423E73C40"), (8, 519));
        let roomy = [many_onsets(64, 8), text(&["4E03D08FE73C40"])].concat();
        assert_eq!(refusal(&roomy), (8, 519));
        let crowded = [many_onsets(2, 32), text(&["4E001E84673C40"])].concat();
        assert_eq!(refusal(&crowded), (8, 71));
    }

    #[test]
    fn a_bar_begins_half_a_unit_before_its_bar_line() {
        // Three bars of 1,000,003 microseconds, 32 onsets at the last time of the first.
        let full = |line: &str| {
            let head = text(&[&S[..5], &["4503000F4243"]].concat());
            let onsets = text(&["4E000F422A3C40"; 32]);
            read(&[head, onsets, text(&[line])].concat()).map(|sheet| sheet.onsets[32].0)
        };
        assert_eq!(full("4E000F422A3C40"), Err((8, 39)));
        assert_eq!(full("4E000F422B3C40"), Ok(BAR_UNITS));
        assert_eq!(full("4E000F42433C40"), Ok(BAR_UNITS));
        assert_eq!(full("4E001E846D3C40"), Ok(2 * BAR_UNITS - 1));
        assert_eq!(full("4E001E846E3C40"), Ok(2 * BAR_UNITS));
    }
}
