//! How the rules of the heads stand in the sheets met, counted by the trees handed
//! back: a search that keeps rules by their head meets all of these.

use crate::harness::{all_occurred, Counted};
use crate::lists::{head, is_division};
use crate::peer::Sheet;
use crate::sheets::MAX_RULES;

/// Rules of a head are apart where another head's stand between them.
#[derive(Default)]
pub struct Heads {
    apart: usize,
    apart_divide: usize,
    apart_divide_twice: usize,
    first_and_last: usize,
    together: usize,
    without_rules: usize,
    last_name: usize,
    full: usize,
}

impl Heads {
    pub fn add(&mut self, sheet: &Sheet, list: &[u8]) {
        let heads: Vec<u8> = sheet.rules.iter().map(head).collect();
        let last = heads.len() - 1;
        let apart = (0..=last).any(|number| is_apart(&heads, heads[number]));
        let alike = heads.iter().all(|&head| head == heads[0]);
        let divisions = divisions(sheet, list);
        let divide = |&number: &usize| is_apart(&heads, heads[number]);
        let largest = heads.iter().copied().max().unwrap_or(0);
        let bare = (0..largest).any(|name| !heads.contains(&name));
        self.apart += usize::from(apart);
        self.apart_divide += usize::from(divisions.iter().any(divide));
        self.apart_divide_twice += usize::from(twice_apart(&heads, &divisions));
        self.first_and_last += usize::from(!alike && heads[0] == heads[last]);
        self.together += usize::from(!alike && !apart);
        self.without_rules += usize::from(bare);
        self.last_name += usize::from(list.iter().any(|&rule| heads[usize::from(rule)] == 15));
        self.full += usize::from(heads.len() == MAX_RULES);
    }

    pub fn named(&self) -> [Counted; 8] {
        [
            ("have rules of a head apart", self.apart),
            ("divide by a rule of such a head", self.apart_divide),
            (
                "divide by two of a head with another's between",
                self.apart_divide_twice,
            ),
            (
                "have the first and the last rule of one head, and others",
                self.first_and_last,
            ),
            (
                "have the rules of each of several heads together",
                self.together,
            ),
            (
                "have a nonterminal without rules below one with",
                self.without_rules,
            ),
            ("use a rule of nonterminal 15", self.last_name),
            ("have 64 rules", self.full),
        ]
    }

    /// Gives whether everything occurred, and prints what did not.
    pub fn all_met(&self) -> bool {
        all_occurred("trees", &self.named())
    }
}

/// Whether another head's rule stands between two of that head.
fn is_apart(heads: &[u8], head: u8) -> bool {
    let first = heads.iter().position(|&other| other == head);
    let last = heads.iter().rposition(|&other| other == head);
    let between = first.unwrap_or(0)..last.unwrap_or(0);
    heads[between].iter().any(|&other| other != head)
}

/// The numbers of the divisions in a tree, once each, in order.
fn divisions(sheet: &Sheet, list: &[u8]) -> Vec<usize> {
    let numbers = 0..sheet.rules.len();
    let used = numbers.filter(|&number| list.contains(&(number as u8)));
    used.filter(|&number| is_division(&sheet.rules[number]))
        .collect()
}

/// Whether two of the rules have one head, and another's rule stands between them.
fn twice_apart(heads: &[u8], rules: &[usize]) -> bool {
    let apart = |one: usize, other: usize| {
        heads[one] == heads[other] && heads[one..other].iter().any(|&head| head != heads[one])
    };
    let pairs = rules.iter().enumerate();
    let mut pairs = pairs.flat_map(|(at, &one)| rules[at..].iter().map(move |&other| (one, other)));
    pairs.any(|(one, other)| apart(one, other))
}
