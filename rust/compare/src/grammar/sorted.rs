//! Expressions whose operators get operands of their sorts, so that they are mostly defined and often TRUE.

use super::{Sort, Writer};

/// A binary operator, its level, and the sorts of its two operands and of what it gives.
struct Operator {
    word: &'static str,
    level: u8,
    operands: Sort,
    gives: Sort,
}

const fn logic(word: &'static str, level: u8) -> Operator {
    Operator { word, level, operands: Sort::Truth, gives: Sort::Truth }
}

const fn test(word: &'static str, level: u8, operands: Sort) -> Operator {
    Operator { word, level, operands, gives: Sort::Truth }
}

const fn number(word: &'static str, level: u8) -> Operator {
    Operator { word, level, operands: Sort::Number, gives: Sort::Number }
}

const OPERATORS: [Operator; 19] = [
    logic("OR", 1),
    logic("AND", 2),
    test("==", 5, Sort::Truth),
    test("!=", 5, Sort::Truth),
    test("==", 5, Sort::Number),
    test("!=", 5, Sort::Number),
    test("<", 6, Sort::Number),
    test("<=", 6, Sort::Number),
    test(">", 6, Sort::Number),
    test(">=", 6, Sort::Number),
    number("|", 3),
    number("&", 4),
    number("<<", 7),
    number(">>", 7),
    number("+", 8),
    number("-", 8),
    number("*", 9),
    number("/", 9),
    number("%", 9),
];

/// Numbers at which operators turn.
const NUMBERS: [&str; 14] = [
    "0",
    "1",
    "2",
    "3",
    "0x5",
    "63",
    "64",
    "65",
    "0xFFFFFFFF",
    "0x7FFFFFFFFFFFFFFF",
    "0x8000000000000000",
    "18446744073709551614",
    "18446744073709551615",
    "0xFFFFFFFFFFFFFFFF",
];

impl Sort {
    /// Whether a value of this sort may stand where one of another is wanted.
    pub(super) fn fits(self, wanted: Sort) -> bool {
        wanted == Sort::Unknown || self == wanted
    }
}

impl Writer<'_> {
    /// The sort of a rule: none, if sorts are not kept.
    pub(super) fn rule_sort(&mut self) -> Sort {
        match self.random.below(2) {
            _ if !self.is_sorted => Sort::Unknown,
            0 => Sort::Truth,
            _ => Sort::Number,
        }
    }

    /// An expression of a sort that may stand at a level, with so many operators one in another.
    pub(super) fn sorted(&mut self, sort: Sort, loosest: u8, depth: usize) {
        if depth == 0 || self.random.once_in(5) {
            return self.sorted_atom(sort);
        }
        if sort == Sort::Truth && self.random.once_in(8) {
            return self.negation(depth - 1);
        }
        let operators: Vec<&Operator> = OPERATORS.iter().filter(|operator| operator.gives.fits(sort)).collect();
        let Operator { word, level, operands, .. } = *operators[self.random.below(operators.len())];
        let is_group = level < loosest || self.random.once_in(10);
        if is_group {
            self.push("(");
        }
        self.sorted(operands, level, depth - 1);
        self.push(word);
        self.sorted(operands, level + 1, depth - 1);
        if is_group {
            self.push(")");
        }
    }

    fn negation(&mut self, depth: usize) {
        self.phrase("NOT (");
        self.sorted(Sort::Truth, 1, depth);
        self.push(")");
    }

    /// An atom of the sort; of another, or undefined, now and then.
    fn sorted_atom(&mut self, sort: Sort) {
        match self.random.below(40) {
            0 => self.push("UNDEFINED"),
            1 => self.reference("questionref", Sort::Unknown),
            2..=15 => self.reference("questionref", sort),
            16..=23 => self.reference("ruleref", sort),
            24..=27 if sort == Sort::Truth => {
                self.push("NOT");
                self.sorted_atom(sort);
            }
            _ if sort == Sort::Truth => {
                let word = self.random.pick(&["TRUE", "TRUE", "FALSE"]);
                self.push(word);
            }
            24..=28 => {
                let word = self.random.pick(&["ZERO", "ONE", "ONES"]);
                self.push(word);
            }
            _ => {
                let number = self.random.pick(&NUMBERS);
                self.push(number);
            }
        }
    }
}
