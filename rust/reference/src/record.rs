//! Rows as they come, and stages 7 to 12 and 14 over what the parser tells.

use crate::format::Format;
use crate::parser::{At, Events, Head, Target};
use crate::row::{column, Row};
use crate::rules::{step, Graph, Step};
use crate::{first_fault, Refusal, CHOICE_REFUSAL, CIRCLE_REFUSAL, LOST_REFUSAL};
use std::collections::{HashMap, HashSet};
use std::hash::{BuildHasherDefault, Hasher};

const RULES: u64 = 255;

/// A quick hash for short names and for numbers; every input is shorter than 64 KB.
#[derive(Default)]
struct Hash(u64);

impl Hasher for Hash {
    fn write(&mut self, bytes: &[u8]) {
        bytes.iter().for_each(|&byte| self.write_u64(u64::from(byte)));
    }
    fn write_usize(&mut self, number: usize) {
        self.write_u64(number as u64);
    }
    fn write_u64(&mut self, number: u64) {
        self.0 = (self.0.rotate_left(5) ^ number).wrapping_mul(0x517c_c1b7_2722_0a95);
    }
    fn finish(&self) -> u64 {
        self.0 ^ self.0 >> 32
    }
}

type Quick = BuildHasherDefault<Hash>;

/// A set of numbers of 0 to 65,535.
struct Numbers([u64; 1024]);

impl Numbers {
    fn has(&self, number: u64) -> bool {
        self.0[number as usize / 64] >> (number % 64) & 1 == 1
    }

    /// Whether the number is new.
    fn insert(&mut self, number: u64) -> bool {
        let new = !self.has(number);
        self.0[number as usize / 64] |= 1 << (number % 64);
        new
    }

    fn count(&self) -> u64 {
        self.0.iter().map(|word| u64::from(word.count_ones())).sum()
    }
}

/// A rule that a name declares, and the form it stands in, counted through the form set.
struct Rule {
    number: u64,
    form: usize,
}

/// A reference, with the form it stands in.
struct Reference<'a> {
    target: Target<'a>,
    form: usize,
    row: usize,
    place: usize,
}

/// The places of the first faults that are met while reading, a field for a stage.
#[derive(Default)]
struct Faults {
    form: Option<usize>,
    number: Option<usize>,
    name: Option<usize>,
    rule: Option<usize>,
    choice: Option<usize>,
}

/// All that stages 6 to 14 need of a source.
pub struct Record<'a> {
    pub rows: Vec<Row>,
    faults: Faults,
    forms: Numbers,
    /// The form that is read, counted from 1.
    form: usize,
    used: Numbers,
    questions: Vec<usize>,
    question_names: HashMap<&'a [u8], usize, Quick>,
    rules: u64,
    rule_names: HashMap<&'a [u8], Rule, Quick>,
    references: Vec<Reference<'a>>,
    /// Of the oneof that is read: its values, and whether it has a DEFAULT.
    values: HashSet<u64, Quick>,
    has_default: bool,
}

impl<'a> Record<'a> {
    pub fn new() -> Self {
        Record {
            rows: Vec::with_capacity(64),
            faults: Faults::default(),
            forms: Numbers([0; 1024]),
            form: 0,
            used: Numbers([0; 1024]),
            questions: Vec::new(),
            question_names: HashMap::default(),
            rules: 0,
            rule_names: HashMap::default(),
            references: Vec::new(),
            values: HashSet::default(),
            has_default: false,
        }
    }

    /// Stages 7 to 12.
    pub fn check(&self) -> Result<(), Refusal> {
        first_fault([
            (7, self.faults.form),
            (8, self.faults.number),
            (9, self.faults.name),
            (10, self.faults.rule),
            (LOST_REFUSAL, self.lost_reference()),
            (CHOICE_REFUSAL, self.faults.choice),
        ])
    }

    /// Stage 11. A rule serves its own form alone (document 02, W-203); forms and questions serve the form set.
    fn lost_reference(&self) -> Option<usize> {
        let lost = |reference: &&Reference| match reference.target {
            Target::Form(number) => !self.forms.has(number),
            Target::Question(number) => !self.used.has(number),
            Target::QuestionName(name) => !self.question_names.contains_key(name),
            Target::RuleName(name) => self.rule_names.get(name).is_none_or(|rule| rule.form != reference.form),
        };
        self.references.iter().find(lost).map(|reference| reference.place)
    }

    /// Gives numbers to unnumbered questions and to references by name; answers how many are free.
    pub fn finish(&mut self) -> u64 {
        let mut next = 1;
        for &row in &self.questions {
            let number = &mut self.rows[row][column::NUMBER];
            if *number == 0 {
                while !self.used.insert(next) {
                    next += 1;
                }
                *number = next;
            }
        }
        for reference in &self.references {
            match reference.target {
                Target::Form(_) | Target::Question(_) => {}
                Target::QuestionName(name) => {
                    let question = self.question_names[name];
                    self.rows[reference.row][column::A] = self.rows[question][column::NUMBER];
                }
                Target::RuleName(name) => {
                    self.rows[reference.row][column::A] = self.rule_names[name].number;
                }
            }
        }
        65_535 - self.used.count()
    }

    /// Stage 14, once the rows are finished: the name in the first `ruleref` that is a step of a circle.
    pub fn check_circles(&self) -> Result<(), Refusal> {
        let components = Graph::of(&self.rows).components();
        let on_circle = |Step { from, to }: Step| components[from] == components[to];
        let in_circle = |reference: &&Reference| step(&self.rows, reference.row).is_some_and(on_circle);
        let step = self.references.iter().find(in_circle);
        first_fault([(CIRCLE_REFUSAL, step.map(|reference| reference.place))])
    }
}

impl<'a> Events<'a> for Record<'a> {
    fn row(&mut self, row: Row) -> usize {
        self.rows.push(row);
        self.rows.len() - 1
    }

    fn form(&mut self, number: u64, place: usize) {
        self.form += 1;
        if !self.forms.insert(number) {
            self.faults.form.get_or_insert(place);
        }
    }

    fn question(&mut self, row: usize, head: &Head<'a>) {
        self.questions.push(row);
        if let Some(number) = head.number {
            if !self.used.insert(number.value) {
                self.faults.number.get_or_insert(number.place);
            }
        }
        if let Some(name) = head.name {
            if self.question_names.insert(name.value, row).is_some() {
                self.faults.name.get_or_insert(name.place);
            }
        }
    }

    fn rule(&mut self, row: usize, place: usize, name: &'a [u8], name_place: usize) {
        self.rules += 1;
        self.rows[row][column::NUMBER] = self.rules;
        if self.rules == RULES + 1 {
            self.faults.rule = Some(place);
        }
        let rule = Rule { number: self.rules, form: self.form };
        if self.rule_names.insert(name, rule).is_some() {
            self.faults.name.get_or_insert(name_place);
        }
    }

    fn reference(&mut self, target: Target<'a>, row: usize, place: usize) {
        self.references.push(Reference { target, form: self.form, row, place });
    }

    /// Compares what the numbers stand for.
    fn limits(&mut self, format: Format, minimum: u64, maximum: At<u64>, default: Option<At<u64>>) {
        let meaning = |number| format.meaning(number);
        if meaning(maximum.value) < meaning(minimum) {
            self.faults.choice.get_or_insert(maximum.place);
        }
        if let Some(default) = default {
            if !(meaning(minimum)..=meaning(maximum.value)).contains(&meaning(default.value)) {
                self.faults.choice.get_or_insert(default.place);
            }
        }
    }

    fn oneof(&mut self) {
        self.values.clear();
        self.has_default = false;
    }

    fn option(&mut self, value: At<u64>, default: Option<usize>) {
        if !self.values.insert(value.value) {
            self.faults.choice.get_or_insert(value.place);
        }
        if let Some(place) = default {
            if std::mem::replace(&mut self.has_default, true) {
                self.faults.choice.get_or_insert(place);
            }
        }
    }
}
