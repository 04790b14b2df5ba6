//! Document 02, W-202: the references between rules, and those that are steps of a circle.

use crate::row::{code, column, Row};

/// A `ruleref` inside a rule: the number of the rule it stands in, and that of the rule it finds.
#[derive(Clone, Copy)]
pub struct Step {
    pub from: usize,
    pub to: usize,
}

/// The step of a row of finished rows, if it is one.
pub fn step(rows: &[Row], row: usize) -> Option<Step> {
    let (cells, parent) = (&rows[row], &rows[rows[row][column::PARENT] as usize]);
    let is_step = cells[column::CODE] == code::RULEREF && parent[column::CODE] == code::RULE;
    is_step.then(|| Step { from: parent[column::NUMBER] as usize, to: cells[column::A] as usize })
}

/// The rules by number, each with those it refers to and those that refer to it. There is no rule 0.
pub struct Graph {
    to: Vec<Vec<usize>>,
    from: Vec<Vec<usize>>,
}

impl Graph {
    pub fn of(rows: &[Row]) -> Self {
        let rules = rows.iter().filter(|row| row[column::CODE] == code::RULE).count();
        let mut graph = Graph { to: vec![Vec::new(); rules + 1], from: vec![Vec::new(); rules + 1] };
        if rules > 0 {
            for Step { from, to } in (0..rows.len()).filter_map(|row| step(rows, row)) {
                graph.to[from].push(to);
                graph.from[to].push(from);
            }
        }
        graph
    }

    /// The rules in the order in which a search along the references is done with them: without circles a rule comes after
    /// all it refers to.
    pub fn finished(&self) -> Vec<usize> {
        let mut seen = vec![false; self.to.len()];
        let mut finished = Vec::new();
        for rule in 1..self.to.len() {
            visit(&self.to, rule, &mut seen, &mut finished);
        }
        finished
    }

    /// For each rule the number of its component: two rules have one if each is reached from the other. A reference is a
    /// step of a circle exactly if its rules have one component.
    pub fn components(&self) -> Vec<usize> {
        let mut seen = vec![false; self.to.len()];
        let mut components = vec![0; self.to.len()];
        for (component, &rule) in self.finished().iter().rev().enumerate() {
            let mut reached = Vec::new();
            visit(&self.from, rule, &mut seen, &mut reached);
            reached.into_iter().for_each(|rule| components[rule] = component);
        }
        components
    }
}

/// Adds the rules that are reached from one and were not seen, each when the search is done with it. There are at most 255
/// rules, so it goes no deeper.
fn visit(next: &[Vec<usize>], rule: usize, seen: &mut [bool], finished: &mut Vec<usize>) {
    if std::mem::replace(&mut seen[rule], true) {
        return;
    }
    for &other in &next[rule] {
        visit(next, other, seen, finished);
    }
    finished.push(rule);
}
