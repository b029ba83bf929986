//! What was met in sliding sheets over multipliers, counted.

use crate::facts::{self, Answer};
use crate::listing::Pair;
use std::collections::BTreeSet;

#[derive(Default)]
pub struct Slides {
    refused: usize,
    sheets: usize,
    with_tree: usize,
    without_tree: usize,
    multipliers: usize,
    steps: Steps,
    listed: Listed,
}

/// Steps from a multiplier to the next one taken, where there are trees.
#[derive(Default)]
struct Steps {
    all: usize,
    r_falls: usize,
    d_rises: usize,
    both_stay: usize,
    by_one: usize,
}

/// Of sheets with all trees listed.
#[derive(Default)]
struct Listed {
    sheets: usize,
    several: usize,
    dominated: usize,
    around: usize,
    equal: usize,
}

/// How often something was met.
type Met = (usize, &'static str);

impl Slides {
    pub fn add_refused(&mut self) {
        self.refused += 1;
    }

    /// Takes the answers of a sheet, the first with multiplier 0.
    pub fn add(&mut self, answers: &[Answer]) {
        let has_tree = answers[0].found.is_some();
        self.sheets += 1;
        self.with_tree += usize::from(has_tree);
        self.without_tree += usize::from(!has_tree);
        self.multipliers += answers.len();
        for (one, other) in facts::steps(answers) {
            if let (Some(before), Some(after)) = (one.pair(), other.pair()) {
                let (r_falls, d_rises) = (after.0 < before.0, after.1 > before.1);
                let by_one = other.multiplier - one.multiplier == 1;
                self.steps.all += 1;
                self.steps.r_falls += usize::from(r_falls);
                self.steps.d_rises += usize::from(d_rises);
                self.steps.both_stay += usize::from(after == before);
                self.steps.by_one += usize::from(by_one && d_rises);
            }
        }
    }

    /// Takes R and D of all trees beside the answers, and how many multipliers are
    /// around a change of the least tree.
    pub fn add_listed(&mut self, answers: &[Answer], pairs: &BTreeSet<Pair>, around: usize) {
        let equal = |answer: &&Answer| {
            let multiplier = u64::from(answer.multiplier);
            let found = answer.found.as_ref().map(|found| found.total);
            let least = |(r, d): &&Pair| Some(multiplier * r + d) == found;
            pairs.iter().filter(least).count() > 1
        };
        self.listed.sheets += 1;
        self.listed.several += usize::from(pairs.len() > 1);
        self.listed.dominated += usize::from(answers[0].dominated_by(pairs).is_some());
        self.listed.around += around;
        self.listed.equal += answers[1..].iter().filter(equal).count();
    }

    /// What a run must meet.
    fn groups(&self) -> [(Met, Vec<Met>); 3] {
        let (steps, listed) = (&self.steps, &self.listed);
        let sheets = vec![
            (self.with_tree, "have a tree with every multiplier"),
            (self.without_tree, "have none with any"),
            (listed.sheets, "have all their trees listed"),
            (listed.several, "have trees listed of unlike R or D"),
            (
                listed.dominated,
                "have one listed with the D found at 0 and a smaller R",
            ),
        ];
        let multipliers = vec![
            (listed.around, "are around a change of the least tree"),
            (listed.equal, "are above 0 and have least trees of unlike R"),
        ];
        let steps_by = vec![
            (steps.r_falls, "lower R"),
            (steps.d_rises, "raise D"),
            (steps.both_stay, "change neither"),
            (steps.by_one, "are by 1 and raise D"),
        ];
        [
            ((self.sheets, "sheets"), sheets),
            ((self.multipliers, "multipliers of sheets"), multipliers),
            ((steps.all, "steps from tree to tree"), steps_by),
        ]
    }

    pub fn print(&self) {
        let refused = self.refused;
        println!("  texts refused alike with several multipliers: {refused}");
        for ((count, name), met) in self.groups() {
            println!("  {name}: {count}, of which");
            for (count, feature) in met {
                println!("    {count:>6} {feature}");
            }
        }
    }

    /// Gives whether everything occurred, and prints what did not.
    pub fn all_met(&self) -> bool {
        let groups = self.groups();
        let met = groups.iter().flat_map(|(_, met)| met);
        let missing = met.filter(|(count, _)| *count == 0);
        let missing: Vec<&str> = missing.map(|(_, feature)| *feature).collect();
        if !missing.is_empty() {
            eprintln!("slides: {missing:?} did not occur: take more.");
        }
        missing.is_empty()
    }
}
