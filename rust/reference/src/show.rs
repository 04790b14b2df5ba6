//! Document 02, W-202: which items are hidden or grey. Expressions are evaluated from the tokens of the source, and not
//! from their rows.

use crate::lexer::{value, Kind, Lexer, Token};
use crate::parser::binary;
use crate::row::{code, column, level, Row};
use crate::rules::Graph;
use crate::value::{not, operate, Value};
use std::collections::{HashMap, HashSet};

const HIDDEN: u8 = 1;
const GREY: u8 = 2;

pub fn is_question(row: &Row) -> bool {
    matches!(row[column::CODE], code::GOTO | code::CHECKBOX | code::NUMERIC | code::ONEOF)
}

/// The items of document 01's list that are no conditions.
fn is_plain_item(row: &Row) -> bool {
    is_question(row) || matches!(row[column::CODE], code::SUBTITLE | code::TEXT | code::LABEL)
}

/// Which answer, from 0, is the first that is not above the one before it, has no value, or has a number that no question
/// bears.
pub fn wrong_answer(question_numbers: &[u64], answers: &[u64]) -> Option<usize> {
    let borne: HashSet<&u64> = question_numbers.iter().collect();
    let mut above = 0;
    answers.chunks(2).position(|answer| match answer {
        [number, _] if *number >= above && borne.contains(number) => {
            above = number + 1;
            false
        }
        _ => true,
    })
}

/// What a question answers, if its number was answered with this.
fn answered(row: &Row, answer: Option<u64>) -> Value {
    match (row[column::CODE], answer) {
        (_, None) | (code::GOTO, _) => Value::Undefined,
        (code::CHECKBOX, Some(value)) => Value::Truth(value != 0),
        (_, Some(value)) => Value::Number(value),
    }
}

/// What expressions refer to, by number and by name.
struct Known<'a> {
    questions: HashMap<u64, Value>,
    named_questions: HashMap<&'a [u8], Value>,
    named_rules: HashMap<&'a [u8], Value>,
}

/// The name that a question or rule declares.
fn name<'a>(source: &'a [u8], row: &Row) -> Option<&'a [u8]> {
    let start = row[column::NAME].checked_sub(1)? as usize;
    Some(&source[start..Lexer::at(source, start).next_token().end])
}

/// All questions, and all rules, each of which is evaluated once, after those it refers to.
fn known<'a>(source: &'a [u8], rows: &[Row], answers: &[u64]) -> Known<'a> {
    let mut known = Known { questions: HashMap::new(), named_questions: HashMap::new(), named_rules: HashMap::new() };
    let given: HashMap<u64, u64> = answers.chunks_exact(2).map(|answer| (answer[0], answer[1])).collect();
    for row in rows.iter().filter(|row| is_question(row)) {
        let value = answered(row, given.get(&row[column::NUMBER]).copied());
        known.questions.insert(row[column::NUMBER], value);
        if let Some(name) = name(source, row) {
            known.named_questions.insert(name, value);
        }
    }
    let rules: Vec<&Row> = rows.iter().filter(|row| row[column::CODE] == code::RULE).collect();
    for rule in Graph::of(rows).finished() {
        let row = rules[rule - 1];
        let value = Evaluation::after(source, row, &[Kind::Rule, Kind::Word, Kind::Comma], &known).operation(1);
        known.named_rules.insert(name(source, row).expect("a rule has a name"), value);
    }
    known
}

/// Reads an expression of an accepted source, and evaluates it on the way.
struct Evaluation<'a, 'k> {
    source: &'a [u8],
    lexer: Lexer<'a>,
    /// The next token.
    token: Token,
    known: &'k Known<'a>,
}

impl<'a, 'k> Evaluation<'a, 'k> {
    /// Of the expression that follows these tokens in a row's statement.
    fn after(source: &'a [u8], row: &Row, tokens: &[Kind], known: &'k Known<'a>) -> Self {
        let mut lexer = Lexer::at(source, row[column::PLACE] as usize);
        let token = lexer.next_token();
        let mut evaluation = Evaluation { source, lexer, token, known };
        for &kind in tokens {
            assert_eq!(evaluation.advance().kind, kind, "the source is accepted");
        }
        evaluation
    }

    fn advance(&mut self) -> Token {
        std::mem::replace(&mut self.token, self.lexer.next_token())
    }

    fn text(&self, token: Token) -> &'a [u8] {
        &self.source[token.start..token.end]
    }

    /// Atoms joined by operators that are at least as tight as the level.
    fn operation(&mut self, loosest: u8) -> Value {
        let mut left = self.atom();
        while let Some(operator) = binary(self.token.kind) {
            let Some(level) = level(operator).filter(|&level| level >= loosest) else { break };
            self.advance();
            let right = self.operation(level + 1);
            left = operate(operator, left, right);
        }
        left
    }

    fn atom(&mut self) -> Value {
        let token = self.advance();
        match token.kind {
            Kind::Not => not(self.atom()),
            Kind::OpenParen => {
                let value = self.operation(1);
                self.advance();
                value
            }
            Kind::Questionref => match self.named() {
                named if named.kind == Kind::Word => self.known.named_questions[self.text(named)],
                number => self.known.questions[&self.number(number)],
            },
            Kind::Ruleref => {
                let named = self.named();
                self.known.named_rules[self.text(named)]
            }
            Kind::Decimal | Kind::Hex => Value::Number(self.number(token)),
            Kind::True => Value::Truth(true),
            Kind::False => Value::Truth(false),
            Kind::Zero => Value::Number(0),
            Kind::One => Value::Number(1),
            Kind::Ones => Value::Number(u64::MAX),
            Kind::Undefined => Value::Undefined,
            other => panic!("an accepted source has no atom {other:?}"),
        }
    }

    /// What stands in a reference's parentheses.
    fn named(&mut self) -> Token {
        self.advance();
        let named = self.advance();
        self.advance();
        named
    }

    fn number(&self, token: Token) -> u64 {
        value(self.text(token)).expect("an accepted source has its numbers in range")
    }
}

/// What a condition does to the items in it if it is TRUE; other rows do nothing.
fn effect(row: &Row) -> Option<(Kind, u8)> {
    match row[column::CODE] {
        code::SUPPRESSIF => Some((Kind::Suppressif, HIDDEN)),
        code::DISABLEIF => Some((Kind::Disableif, HIDDEN)),
        code::GRAYOUTIF => Some((Kind::Grayoutif, GREY)),
        _ => None,
    }
}

/// One byte a row of an accepted source, with answers that are not at fault.
pub fn screen(source: &[u8], rows: &[Row], answers: &[u64]) -> Vec<u8> {
    let known = known(source, rows, answers);
    let effect = |row: &Row| match effect(row) {
        Some((word, byte)) if Evaluation::after(source, row, &[word], &known).operation(1) == Value::Truth(true) => {
            byte
        }
        _ => 0,
    };
    let effects: Vec<u8> = rows.iter().map(effect).collect();
    let round = |row: &Row| {
        let parent = |&at: &usize| Some(rows[at][column::PARENT] as usize).filter(|&parent| parent != at);
        std::iter::successors(Some(row[column::PARENT] as usize), parent).fold(0, |byte, at| byte | effects[at])
    };
    rows.iter().map(|row| if is_plain_item(row) { round(row) } else { 0 }).collect()
}
