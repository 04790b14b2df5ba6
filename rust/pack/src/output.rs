//! What the programs that run specimens and cases of reading print if all agree.

use crate::cases::Case;
use reference::{QUICK_REFUSALS, TABLE_REFUSAL};
use std::collections::BTreeMap;
use std::fmt::Write;

/// The most rows that the programs lend; a source that needs as many is not run again at its need.
const MOST_ROWS: usize = 2_048;

/// The lines of the groups, and what all of them count together.
#[derive(Default)]
pub struct Output {
    groups: String,
    cases: usize,
    one_row_short: usize,
    just_enough: usize,
    no_table: usize,
    met: BTreeMap<u64, usize>,
}

fn line(text: &mut String, name: &str, count: usize) {
    writeln!(text, "{name}: {count} of {count}").expect("a string takes all");
}

impl Output {
    /// Counts a group, and the runs of its cases with other tables.
    pub fn group(&mut self, name: &str, cases: &[Case]) {
        line(&mut self.groups, name, cases.len());
        self.cases += cases.len();
        cases.iter().for_each(|case| self.case(case));
    }

    fn case(&mut self, case: &Case) {
        let number = case.told().number;
        *self.met.entry(number).or_default() += 1;
        if (1..MOST_ROWS).contains(&case.need()) {
            self.one_row_short += 1;
            self.just_enough += usize::from(number != TABLE_REFUSAL);
        }
        self.no_table += usize::from(QUICK_REFUSALS.contains(&number));
    }

    pub fn printed(&self) -> String {
        let mut text = self.groups.clone();
        line(&mut text, "again, one row short", self.one_row_short);
        line(&mut text, "again, rows just enough", self.just_enough);
        line(&mut text, "again, no table", self.no_table);
        for (number, count) in self.met.iter().filter(|(number, _)| **number != 0) {
            writeln!(text, "refusal {number} met by {count}").expect("a string takes all");
        }
        line(&mut text, "total", self.cases + self.one_row_short + self.just_enough + self.no_table);
        text
    }
}
