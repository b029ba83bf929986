//! Sheets with lists of rules to compare prices and scores on: valid trees,
//! trees grown by a mistaken reading of the rules, valid trees damaged, lists
//! that are hardly trees at all, and lists beside refused texts; and two fixed
//! trees for timing.

use crate::bar_lines::{self, BarLines};
use crate::moments::{any_time_of, first_times, FIXED_DURATION};
use crate::peer::{self, Rule, Sheet, BAR_UNITS};
use crate::sheets::{self, Dice, Outcome, REST};
use crate::trees::NO_TREE;

/// A text, a list and, where the way they were made settles it, the outcome
/// that pricing must have.
pub struct Case {
    pub text: Vec<u8>,
    pub list: Vec<u8>,
    pub made: String,
    pub aim: Option<Outcome>,
}

const VALID: Outcome = (0, 0);
const REFUSED: Outcome = (NO_TREE, 0);
const LONG_LIST: usize = 100_000;

// Sheets that most often have valid trees.

pub fn sheet_text(dice: &mut Dice) -> Vec<u8> {
    let most_bars = dice.pick(&[1, 2, 4, 16, 64]);
    let bars = dice.between(1, most_bars);
    let most_onsets = if dice.one_in(8) { 20 } else { 4 };
    let onsets = dice.between(1, (bars * most_onsets).min(sheets::MAX_ONSETS));
    let (lines, bar_lines) = (grammar(dice), bar_lines(dice, bars));
    let units = units(dice, bars, onsets);
    played(dice, lines, &bar_lines, &units)
}

/// The peer's reading of a sheet made here.
fn accepted(text: &[u8]) -> Sheet {
    peer::read(text).expect("sheets made for trees are accepted")
}

/// Leaves of every n for each nonterminal, or nearly, and divisions.
fn grammar(dice: &mut Dice) -> Vec<Vec<u8>> {
    let nonterminals = dice.pick(&[1, 1, 2, 3, 5, 10]);
    let mut rules = Vec::new();
    let gaps = dice.one_in(6);
    for head in 0..nonterminals {
        for n in 0..=REST {
            if !(gaps && dice.one_in(8)) {
                rules.push(leaf_of(dice, head, n));
            }
        }
    }
    let divisions = (3 * nonterminals).min(sheets::MAX_RULES - rules.len());
    for _ in 0..dice.between(1, divisions) {
        let arity = dice.pick(&[2, 2, 2, 3, 3, 4, 5, 6, 7, 8]);
        rules.push(sheets::division(dice, nonterminals, arity));
    }
    // Equal rules may stand twice, also with unequal weights.
    while dice.one_in(3) && rules.len() < sheets::MAX_RULES {
        let mut rule = rules[dice.below(rules.len())].clone();
        if dice.one_in(2) {
            rule[3] = dice.byte();
        }
        rules.push(rule);
    }
    dice.shuffle(&mut rules);
    rules.insert(0, sheets::grammar_head(dice, nonterminals));
    rules
}

pub fn leaf_of(dice: &mut Dice, head: usize, n: usize) -> Vec<u8> {
    vec![0x4C, head as u8, dice.byte(), dice.byte(), n as u8]
}

/// Leaves of every n and divisions of the given arities for each nonterminal.
/// Rests stand last and are not thrown, so that the fixed sheets have the other
/// lines that they had before there were rests.
fn plain_grammar(dice: &mut Dice, nonterminals: usize, arities: &[usize]) -> Vec<Vec<u8>> {
    let mut lines = vec![sheets::grammar_head(dice, nonterminals)];
    for head in 0..nonterminals {
        for n in 0..REST {
            lines.push(leaf_of(dice, head, n));
        }
        for &arity in arities {
            let mut line = sheets::division(dice, nonterminals, arity);
            line[1] = head as u8;
            lines.push(line);
        }
    }
    lines.extend((0..nonterminals).map(|head| vec![0x4C, head as u8, 0, 1, REST as u8]));
    lines
}

/// The text of a grammar and onsets at units, which are in order, each at some time of
/// its unit.
pub fn played(
    dice: &mut Dice,
    lines: Vec<Vec<u8>>,
    bar_lines: &BarLines,
    units: &[usize],
) -> Vec<u8> {
    let times = units.iter().map(|&unit| any_time_of(dice, unit, bar_lines));
    let mut times: Vec<usize> = times.collect();
    // Of onsets at one unit a later one may have an earlier time.
    times.sort_unstable();
    played_at(dice, lines, bar_lines, &times)
}

/// The text of a grammar and onsets at times, which are in order.
pub fn played_at(
    dice: &mut Dice,
    mut lines: Vec<Vec<u8>>,
    bar_lines: &BarLines,
    times: &[usize],
) -> Vec<u8> {
    lines.extend(bar_lines.sheet_lines());
    for &time in times {
        lines.push(sheets::onset(dice, time));
    }
    sheets::text_of(&lines)
}

/// Of either sort, now and then such that a microsecond is a unit or a part of one.
pub fn bar_lines(dice: &mut Dice, bars: usize) -> BarLines {
    match dice.below(6) {
        0 => BarLines::even(bars, BAR_UNITS as usize),
        1 => BarLines::even(bars, 100 * BAR_UNITS as usize),
        2 => bar_lines::any_tapped(dice, bars, BAR_UNITS as usize),
        _ => bar_lines::any(dice, bars),
    }
}

/// Units in order, at most 32 in a bar, now and then several at one place. Often
/// the first is at 0, else after some silence.
pub fn units(dice: &mut Dice, bars: usize, count: usize) -> Vec<usize> {
    let (silent, opening) = silence(dice, bars, count);
    let mut in_bar = vec![0; bars];
    let mut units = Vec::new();
    while units.len() < count {
        let unit = silent * BAR_UNITS as usize + near_a_bound(dice, bars - silent);
        let chord = dice.pick(&[1, 1, 1, 1, 1, 2, 3, 4, 7]);
        let in_bar = &mut in_bar[unit / BAR_UNITS as usize];
        let room = (sheets::MAX_BAR_ONSETS - *in_bar).min(count - units.len());
        let chord = if unit < opening { 0 } else { chord.min(room) };
        *in_bar += chord;
        units.extend(std::iter::repeat_n(unit, chord));
    }
    units.sort_unstable();
    if opening == 0 && dice.one_in(2) {
        units[0] = 0;
    }
    units
}

/// The silence that a playing opens with at least: its whole bars, and the unit
/// where it ends. Often none, else of bars, of a part of a bar or of both.
fn silence(dice: &mut Dice, bars: usize, count: usize) -> (usize, usize) {
    // The other bars keep room for twice the onsets.
    let most = bars.saturating_sub(count.div_ceil(sheets::MAX_BAR_ONSETS / 2));
    let silent = if dice.one_in(4) {
        dice.between(0, most)
    } else {
        0
    };
    let eighths = if dice.one_in(3) { dice.below(8) } else { 0 };
    (silent, (8 * silent + eighths) * BAR_UNITS as usize / 8)
}

/// A unit near a bound or the middle of a part that divisions can reach, since
/// there early turns late and inside turns outside.
fn near_a_bound(dice: &mut Dice, bars: usize) -> usize {
    let parts = dice.pick(&[1, 2, 3, 4, 5, 6, 7, 8, 9, 12, 16, 32, 64, 315]);
    let length = BAR_UNITS as usize / parts;
    let left = dice.below(bars * parts) * length;
    left + match dice.below(8) {
        0 | 1 => 0,
        2 => length / 2,
        3 => (length - 1) / 2,
        4 => length / 2 + 1,
        5 => length - 1,
        _ => dice.below(length),
    }
}

/// Some units of the bar with that left bound, in any order.
pub type UnitsOfBar = fn(&mut Dice, usize) -> Vec<usize>;

pub fn eight_anywhere(dice: &mut Dice, left: usize) -> Vec<usize> {
    let any = |_| left + dice.below(BAR_UNITS as usize);
    (0..8).map(any).collect()
}

pub fn units_by_bar(dice: &mut Dice, bars: usize, units_of_bar: UnitsOfBar) -> Vec<usize> {
    let lefts = (0..bars).map(|bar| bar * BAR_UNITS as usize);
    let mut units: Vec<usize> = lefts.flat_map(|left| units_of_bar(dice, left)).collect();
    units.sort_unstable();
    units
}

// Growing trees.

/// A rule of valid trees that is read wrongly. Lists grown so are valid in all
/// but that rule, or in all if the rule was never met.
#[derive(Clone, Copy, PartialEq)]
enum Mistake {
    MiddleIsEarly,
    AnyNumberLate,
    CarryIsInside,
    RightBoundIsInside,
    CarriedOutOfLast,
    CarryLostAtBarLine,
    UnevenParts,
    OtherHead,
    ThreeIsTwo,
    FourIsRest,
    RestIsContinuation,
    ContinuationIsRest,
    SilenceByBar,
    LateEndsSilence,
}

const MISTAKES: [(&str, Mistake); 14] = [
    ("the middle is early", Mistake::MiddleIsEarly),
    ("any number may be late", Mistake::AnyNumberLate),
    ("a carry is inside", Mistake::CarryIsInside),
    ("the right bound is inside", Mistake::RightBoundIsInside),
    ("carried out of the last", Mistake::CarriedOutOfLast),
    ("carry lost at the bar line", Mistake::CarryLostAtBarLine),
    ("uneven parts", Mistake::UnevenParts),
    ("other head", Mistake::OtherHead),
    ("three is two", Mistake::ThreeIsTwo),
    ("four is a rest", Mistake::FourIsRest),
    ("a rest is a continuation", Mistake::RestIsContinuation),
    ("a continuation is a rest", Mistake::ContinuationIsRest),
    ("silence is by bar", Mistake::SilenceByBar),
    ("a late onset ends the silence", Mistake::LateEndsSilence),
];

/// A tree being grown by trying rules in a random order. The intervals tried are
/// limited, since a sheet may have no valid tree.
struct Growth<'a> {
    sheet: &'a Sheet,
    dice: &'a mut Dice,
    mistake: Option<Mistake>,
    /// Longer intervals are rather divided, others rather made leaves ...
    shortest: u32,
    /// ... but for one in so many.
    whim: usize,
    /// Intervals still to be tried.
    tries: usize,
    list: Vec<u8>,
    carried: usize,
}

/// A tree of the sheet, if one is found.
fn grown(dice: &mut Dice, sheet: &Sheet, mistake: Option<Mistake>) -> Option<Vec<u8>> {
    let shortest = BAR_UNITS / dice.pick(&[1, 4, 10, 32, 128, 20_160]);
    let whim = dice.pick(&[3, 8, 100]);
    grown_to(dice, sheet, mistake, shortest, whim)
}

const NEVER: usize = usize::MAX;

fn grown_to(
    dice: &mut Dice,
    sheet: &Sheet,
    mistake: Option<Mistake>,
    shortest: u32,
    whim: usize,
) -> Option<Vec<u8>> {
    let mut growth = Growth {
        sheet,
        dice,
        mistake,
        shortest,
        whim,
        tries: 2_000 + 100 * sheet.onsets.len(),
        list: Vec::new(),
        carried: 0,
    };
    let complete = (0..u32::from(sheet.bars)).all(|bar| growth.bar(bar));
    complete.then_some(growth.list)
}

impl Growth<'_> {
    fn mistaken(&self, mistake: Mistake) -> bool {
        self.mistake == Some(mistake)
    }

    fn bar(&mut self, bar: u32) -> bool {
        if self.mistaken(Mistake::CarryLostAtBarLine) {
            self.carried = 0;
        }
        self.interval(self.sheet.start, bar * BAR_UNITS, BAR_UNITS)
    }

    fn interval(&mut self, nonterminal: u8, left: u32, length: u32) -> bool {
        if self.tries == 0 {
            return false;
        }
        self.tries -= 1;
        for number in self.candidates(nonterminal, length) {
            let (kept, carried) = (self.list.len(), self.carried);
            self.list.push(number);
            if self.expand(number, left, length) {
                return true;
            }
            self.list.truncate(kept);
            self.carried = carried;
        }
        false
    }

    /// The rules to try for a nonterminal, in order.
    fn candidates(&mut self, nonterminal: u8, length: u32) -> Vec<u8> {
        let any_head = self.mistaken(Mistake::OtherHead) && self.dice.one_in(8);
        let divide = (length > self.shortest) != self.dice.one_in(self.whim);
        let rules = &self.sheet.rules;
        let mut numbers: Vec<u8> = (0..rules.len())
            .filter(|&number| any_head || head(&rules[number]) == nonterminal)
            .map(|number| number as u8)
            .collect();
        self.dice.shuffle(&mut numbers);
        numbers.sort_by_key(|&number| is_division(&rules[usize::from(number)]) != divide);
        numbers
    }

    fn expand(&mut self, number: u8, left: u32, length: u32) -> bool {
        match self.sheet.rules[usize::from(number)] {
            Rule::Leaf { n, .. } => self.leaf(left, length, n),
            Rule::Division { arity, parts, .. } => {
                let parts = &parts[..usize::from(arity)];
                self.division(left, length, parts)
            }
        }
    }

    fn division(&mut self, left: u32, length: u32, parts: &[u8]) -> bool {
        let part = length / parts.len() as u32;
        let even = part * parts.len() as u32 == length;
        let even = even || (part > 0 && self.mistaken(Mistake::UnevenParts));
        let right = left + length + u32::from(self.mistaken(Mistake::RightBoundIsInside));
        let inside = self.before(right) - self.before(left);
        let received = self.carried > 0 && self.mistaken(Mistake::CarryIsInside);
        let lefts = (left..).step_by(part.max(1) as usize);
        let allowed = even && (inside > 0 || received);
        allowed
            && parts
                .iter()
                .zip(lefts)
                .all(|(&name, left)| self.interval(name, left, part))
    }

    fn leaf(&mut self, left: u32, length: u32, n: u8) -> bool {
        let middle = if self.mistaken(Mistake::MiddleIsEarly) {
            length / 2 + 1
        } else {
            length.div_ceil(2)
        };
        let first_late = self.before(left + middle);
        let early = first_late - self.before(left);
        let late = self.before(left + length) - first_late;
        let placed = self.carried + early;
        self.carried = late;
        let few = late <= 3 || self.mistaken(Mistake::AnyNumberLate);
        let last = left + length == u32::from(self.sheet.bars) * BAR_UNITS;
        let kept = late == 0 || !last || self.mistaken(Mistake::CarriedOutOfLast);
        few && kept && usize::from(n) == self.n_of(left, placed, late)
    }

    fn n_of(&self, left: u32, placed: usize, late: usize) -> usize {
        if placed == 0 && self.silent(left, late) {
            return REST;
        }
        placed.min(match self.mistake {
            Some(Mistake::ThreeIsTwo) => 2,
            Some(Mistake::FourIsRest) => REST,
            _ => 3,
        })
    }

    /// Whether no onset lies before the left bound of a leaf with so many late.
    fn silent(&self, left: u32, late: usize) -> bool {
        let before = self.before(left);
        match self.mistake {
            Some(Mistake::RestIsContinuation) => false,
            Some(Mistake::ContinuationIsRest) => true,
            Some(Mistake::SilenceByBar) => before == self.before(left - left % BAR_UNITS),
            Some(Mistake::LateEndsSilence) => before + late == 0,
            _ => before == 0,
        }
    }

    /// How many onsets lie before a unit.
    fn before(&self, unit: u32) -> usize {
        self.sheet.onsets.partition_point(|onset| onset.0 < unit)
    }
}

pub fn head(rule: &Rule) -> u8 {
    match *rule {
        Rule::Division { head, .. } | Rule::Leaf { head, .. } => head,
    }
}

/// The head of a rule that is a leaf of that n.
fn leaf_head(sheet: &Sheet, number: u8, wanted: usize) -> Option<u8> {
    match sheet.rules[usize::from(number)] {
        Rule::Leaf { head, n, .. } if usize::from(n) == wanted => Some(head),
        _ => None,
    }
}

pub fn is_division(rule: &Rule) -> bool {
    matches!(rule, Rule::Division { .. })
}

// Damage to a tree: each gives the outcome it must have, if it settles one.

type Damage = (
    &'static str,
    fn(&mut Dice, &Sheet, &mut Vec<u8>) -> Option<Outcome>,
);

const DAMAGES: [Damage; 16] = [
    ("byte changed", byte_changed),
    ("byte dropped", byte_dropped),
    ("byte added", byte_added),
    ("bytes swapped", bytes_swapped),
    ("other rule of the same head", other_rule_of_head),
    ("rest made a continuation", rest_made_continuation),
    ("continuation made a rest", continuation_made_rest),
    ("run of bytes dropped", run_dropped),
    ("cut", cut),
    ("more after the end", more_after_end),
    ("tree twice", tree_twice),
    ("longer by a power of 256", longer_by_power),
    ("number past the last rule", number_past_last),
    ("number past the last rule added", number_past_last_added),
    ("longer than any tree", longer_than_any),
    ("100,000 bytes", very_long),
];

fn any_rule(dice: &mut Dice, sheet: &Sheet) -> u8 {
    dice.below(sheet.rules.len()) as u8
}

fn byte_changed(dice: &mut Dice, sheet: &Sheet, list: &mut Vec<u8>) -> Option<Outcome> {
    let at = dice.below(list.len());
    list[at] = any_rule(dice, sheet);
    None
}

fn byte_dropped(dice: &mut Dice, _: &Sheet, list: &mut Vec<u8>) -> Option<Outcome> {
    list.remove(dice.below(list.len()));
    None
}

fn byte_added(dice: &mut Dice, sheet: &Sheet, list: &mut Vec<u8>) -> Option<Outcome> {
    list.insert(dice.between_edged(0, list.len()), any_rule(dice, sheet));
    None
}

fn bytes_swapped(dice: &mut Dice, _: &Sheet, list: &mut Vec<u8>) -> Option<Outcome> {
    let (one, other) = (dice.below(list.len()), dice.below(list.len()));
    list.swap(one, other);
    None
}

/// The rule of a leaf may become that of another n, or of an equal leaf.
fn other_rule_of_head(dice: &mut Dice, sheet: &Sheet, list: &mut Vec<u8>) -> Option<Outcome> {
    let at = dice.below(list.len());
    let replaced = head(&sheet.rules[usize::from(list[at])]);
    let same_head: Vec<usize> = (0..sheet.rules.len())
        .filter(|&number| head(&sheet.rules[number]) == replaced)
        .collect();
    list[at] = dice.pick(&same_head) as u8;
    None
}

fn rest_made_continuation(dice: &mut Dice, sheet: &Sheet, list: &mut Vec<u8>) -> Option<Outcome> {
    Some(leaf_exchanged(dice, sheet, list, (REST, 0)))
}

fn continuation_made_rest(dice: &mut Dice, sheet: &Sheet, list: &mut Vec<u8>) -> Option<Outcome> {
    Some(leaf_exchanged(dice, sheet, list, (0, REST)))
}

/// Gives a leaf of some n another, if the tree and the rules have such. Only one n
/// fits a leaf, so this is no tree then.
fn leaf_exchanged(
    dice: &mut Dice,
    sheet: &Sheet,
    list: &mut [u8],
    (from, to): (usize, usize),
) -> Outcome {
    let mut exchanges = Vec::new();
    for (at, &number) in list.iter().enumerate() {
        let head = leaf_head(sheet, number, from);
        for other in 0..sheet.rules.len() as u8 {
            if head.is_some() && head == leaf_head(sheet, other, to) {
                exchanges.push((at, other));
            }
        }
    }
    if exchanges.is_empty() {
        return VALID;
    }
    let (at, other) = dice.pick(&exchanges);
    list[at] = other;
    REFUSED
}

/// Often drops whole parts, so that the rest is near to a tree.
fn run_dropped(dice: &mut Dice, _: &Sheet, list: &mut Vec<u8>) -> Option<Outcome> {
    let first = dice.below(list.len());
    let after = dice.between(first, list.len().min(first + 9));
    list.drain(first..after);
    None
}

/// No list that begins a tree and stops before its end is a tree.
fn cut(dice: &mut Dice, _: &Sheet, list: &mut Vec<u8>) -> Option<Outcome> {
    list.truncate(dice.between_edged(0, list.len() - 1));
    Some(REFUSED)
}

fn more_after_end(dice: &mut Dice, sheet: &Sheet, list: &mut Vec<u8>) -> Option<Outcome> {
    for _ in 0..dice.between(1, 3) {
        list.push(any_rule(dice, sheet));
    }
    Some(REFUSED)
}

fn tree_twice(_: &mut Dice, _: &Sheet, list: &mut Vec<u8>) -> Option<Outcome> {
    list.extend_from_within(..);
    Some(REFUSED)
}

fn past_last(dice: &mut Dice, sheet: &Sheet) -> u8 {
    dice.between_edged(sheet.rules.len(), 255) as u8
}

fn number_past_last(dice: &mut Dice, sheet: &Sheet, list: &mut Vec<u8>) -> Option<Outcome> {
    let at = dice.between_edged(0, list.len() - 1);
    list[at] = past_last(dice, sheet);
    Some(REFUSED)
}

fn number_past_last_added(dice: &mut Dice, sheet: &Sheet, list: &mut Vec<u8>) -> Option<Outcome> {
    list.insert(dice.between_edged(0, list.len()), past_last(dice, sheet));
    Some(REFUSED)
}

/// Repeats the list up to a length.
fn fill(list: &mut Vec<u8>, length: usize) {
    let again = list.clone();
    list.extend(again.iter().cycle().take(length.saturating_sub(list.len())));
}

/// A length kept in too few bits would be that of the tree.
fn longer_by_power(dice: &mut Dice, _: &Sheet, list: &mut Vec<u8>) -> Option<Outcome> {
    let length = list.len() + dice.pick(&[256, 65_536]);
    fill(list, length);
    Some(REFUSED)
}

fn longer_than_any(dice: &mut Dice, sheet: &Sheet, list: &mut Vec<u8>) -> Option<Outcome> {
    let longest = peer::tree_bytes(sheet) as usize;
    fill(list, longest + dice.between(1, 20));
    Some(REFUSED)
}

fn very_long(_: &mut Dice, _: &Sheet, list: &mut Vec<u8>) -> Option<Outcome> {
    fill(list, LONG_LIST);
    Some(REFUSED)
}

// Cases.

/// The next text and list to compare on.
pub fn case(dice: &mut Dice) -> Case {
    if dice.one_in(4) {
        return beside_any_text(dice);
    }
    if dice.one_in(500) {
        return deepest(dice);
    }
    let text = sheet_text(dice);
    let sheet = accepted(&text);
    let (list, made, aim) = match dice.below(8) {
        0..=3 => valid(dice, &sheet),
        4 | 5 => mistaken(dice, &sheet),
        6 => damaged(dice, &sheet),
        _ => without_tree(dice, &sheet),
    };
    Case {
        text,
        list,
        made,
        aim,
    }
}

type Made = (Vec<u8>, String, Option<Outcome>);

fn valid(dice: &mut Dice, sheet: &Sheet) -> Made {
    match grown(dice, sheet, None) {
        Some(list) => (list, "valid tree".to_owned(), Some(VALID)),
        None => without_tree(dice, sheet),
    }
}

fn mistaken(dice: &mut Dice, sheet: &Sheet) -> Made {
    let (name, mistake) = dice.pick(&MISTAKES);
    match grown(dice, sheet, Some(mistake)) {
        Some(list) => (list, format!("mistaken: {name}"), None),
        None => without_tree(dice, sheet),
    }
}

fn damaged(dice: &mut Dice, sheet: &Sheet) -> Made {
    let Some(mut list) = grown(dice, sheet, None) else {
        return without_tree(dice, sheet);
    };
    let (name, damage) = dice.pick(&DAMAGES);
    let aim = damage(dice, sheet, &mut list);
    (list, format!("tree damaged: {name}"), aim)
}

/// The empty list, and any bytes.
fn without_tree(dice: &mut Dice, sheet: &Sheet) -> Made {
    let count = dice.between_edged(1, 60);
    match dice.below(4) {
        0 => (Vec::new(), "empty list".to_owned(), Some(REFUSED)),
        1 => {
            let list = (0..count).map(|_| dice.byte()).collect();
            (list, "random bytes".to_owned(), None)
        }
        2 => {
            let list = vec![any_rule(dice, sheet); LONG_LIST];
            (list, "one rule 100,000 times".to_owned(), Some(REFUSED))
        }
        _ => {
            let list = (0..count).map(|_| any_rule(dice, sheet)).collect();
            (list, "random rules".to_owned(), None)
        }
    }
}

/// A tree that divides every inhabited interval down to one unit, of a sheet
/// whose arities allow it. So all onsets are early, and the tree is valid.
fn deepest(dice: &mut Dice) -> Case {
    let bars = dice.between_edged(1, 64);
    let lines = plain_grammar(dice, 1, &[2, 3, 5, 7, 8]);
    let bar_lines = bar_lines(dice, bars);
    let units = units_by_bar(dice, bars, eight_anywhere);
    let text = played(dice, lines, &bar_lines, &units);
    let list = grown_to(dice, &accepted(&text), None, 1, NEVER);
    Case {
        text,
        list: list.expect("one unit is always a leaf"),
        made: "deepest tree".to_owned(),
        aim: Some(VALID),
    }
}

/// A text from the comparison of readings, most often refused.
fn beside_any_text(dice: &mut Dice) -> Case {
    let case = sheets::case(dice);
    let (list, made, aim) = match peer::read(&case.text) {
        Ok(sheet) => valid(dice, &sheet),
        Err(_) => {
            let count = dice.between_edged(0, 20);
            let list = (0..count).map(|_| dice.below(64) as u8).collect();
            (list, "any list".to_owned(), case.aim)
        }
    };
    Case {
        made: format!("{made}, beside text: {}", case.made),
        text: case.text,
        list,
        aim,
    }
}

// Trees for timing, always the same.

/// A tune of 32 bars with eight onsets a bar, each near a sixteenth, and a tree
/// down to the sixteenths.
pub fn tune() -> (Vec<u8>, Vec<u8>) {
    fixed(32, eight_near_sixteenths, &[2, 2, 2, 3], SIXTEENTH as u32)
}

/// 64 bars with eight onsets anywhere in each, and a tree of nested divisions of
/// every arity.
pub fn large() -> (Vec<u8>, Vec<u8>) {
    fixed(64, eight_anywhere, &[2, 2, 3, 4, 5, 6, 7, 8], 300)
}

const SIXTEENTH: usize = BAR_UNITS as usize / 16;

fn eight_near_sixteenths(dice: &mut Dice, left: usize) -> Vec<usize> {
    let mut places: Vec<usize> = (0..16).collect();
    dice.shuffle(&mut places);
    let near = |place: &usize| (left + place * SIXTEENTH + dice.below(300)).saturating_sub(150);
    places[..8].iter().map(near).collect()
}

/// A sheet of two nonterminals and a tree of it with leaves down to a length.
fn fixed(
    bars: usize,
    units_of_bar: UnitsOfBar,
    arities: &[usize],
    shortest: u32,
) -> (Vec<u8>, Vec<u8>) {
    let found = |seed| {
        let mut dice = Dice::new(seed);
        let lines = plain_grammar(&mut dice, 2, arities);
        let units = units_by_bar(&mut dice, bars, units_of_bar);
        let bar_lines = BarLines::even(bars, FIXED_DURATION);
        let times = first_times(&units, &bar_lines);
        let text = played_at(&mut dice, lines, &bar_lines, &times);
        let list = grown_to(&mut dice, &accepted(&text), None, shortest, NEVER)?;
        Some((text, list))
    };
    // A sheet may have no tree, for an onset near the end of the last bar.
    (0..).find_map(found).expect("some sheet has a tree")
}
