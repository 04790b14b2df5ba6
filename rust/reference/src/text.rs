//! Document 01, section "Resolved text": the text of finished rows.

use crate::format::Format;
use crate::row::{code, column, flag, level, Row};

/// The resolved text of an accepted source's rows.
pub fn text(rows: &[Row]) -> String {
    let mut printer = Printer { rows, text: String::new(), open: Vec::new() };
    let mut at = 0;
    while at < rows.len() {
        printer.close_to(rows[at][column::PARENT] as usize);
        at = printer.statement(at);
    }
    printer.close_to(0);
    printer.line("endformset");
    printer.text
}

struct Printer<'a> {
    rows: &'a [Row],
    text: String,
    /// The forms, conditions and oneofs that are open.
    open: Vec<usize>,
}

/// What is left to print of an expression.
enum Work {
    Row(usize),
    Token(&'static str),
}

impl Printer<'_> {
    fn token(&mut self, token: &str) {
        self.text.push_str(token);
        self.text.push(' ');
    }

    fn tokens(&mut self, tokens: &[&str]) {
        tokens.iter().for_each(|token| self.token(token));
    }

    fn number(&mut self, number: u64) {
        self.token(&number.to_string());
    }

    fn end_line(&mut self) {
        self.text.push_str(";\n");
    }

    fn line(&mut self, word: &str) {
        self.token(word);
        self.end_line();
    }

    /// `word = STRING_TOKEN ( N )`.
    fn string(&mut self, word: &str, number: u64) {
        self.tokens(&[word, "=", "STRING_TOKEN", "("]);
        self.number(number);
        self.token(")");
    }

    /// `word = N ,`.
    fn setting(&mut self, word: &str, number: u64) {
        self.tokens(&[word, "="]);
        self.number(number);
        self.token(",");
    }

    /// Ends what is open inside a row.
    fn close_to(&mut self, parent: usize) {
        while let Some(&row) = self.open.last().filter(|&&row| row != parent) {
            self.open.pop();
            self.line(match self.rows[row][column::CODE] {
                code::FORM => "endform",
                code::ONEOF => "endoneof",
                _ => "endif",
            });
        }
    }

    /// Prints the statement of a row, up to what may stand in it; answers the next statement's row.
    fn statement(&mut self, at: usize) -> usize {
        let row = &self.rows[at];
        match row[column::CODE] {
            code::FORMSET => self.formset(row),
            code::FORM => self.form(at),
            code::SUBTITLE => {
                self.token("subtitle");
                self.string("text", row[column::FIRST]);
                self.end_line();
            }
            code::TEXT => self.text_item(row),
            code::LABEL => {
                self.token("label");
                self.number(row[column::NUMBER]);
                self.end_line();
            }
            code::GOTO => self.goto(row),
            code::CHECKBOX => self.checkbox(row),
            code::NUMERIC => self.numeric(row),
            code::ONEOF => self.oneof(at),
            code::OPTION => self.option(row),
            code::RULE => return self.rule(at),
            _ => return self.condition(at),
        }
        at + 1
    }

    fn formset(&mut self, row: &Row) {
        let (high, low) = (row[column::A], row[column::B]);
        self.tokens(&["formset", "guid", "=", "{"]);
        self.token(&format!("0x{:08x}", high >> 32));
        self.token(&format!(", 0x{:04x}", high >> 16 & 0xffff));
        self.token(&format!(", 0x{:04x}", high & 0xffff));
        let bytes = low.to_be_bytes().map(|byte| format!("0x{byte:02x}"));
        self.tokens(&[",", "{", &bytes.join(" , "), "}", "}", ","]);
        self.string("title", row[column::FIRST]);
        self.token(",");
        self.string("help", row[column::SECOND]);
        self.token(",");
    }

    fn form(&mut self, at: usize) {
        let row = &self.rows[at];
        self.token("form");
        self.setting("formid", row[column::NUMBER]);
        self.string("title", row[column::FIRST]);
        self.end_line();
        self.open.push(at);
    }

    fn text_item(&mut self, row: &Row) {
        self.token("text");
        self.string("help", row[column::SECOND]);
        self.token(",");
        self.string("text", row[column::FIRST]);
        self.end_line();
    }

    fn head(&mut self, row: &Row) {
        self.setting("questionid", row[column::NUMBER]);
        self.string("prompt", row[column::FIRST]);
        self.token(",");
        self.string("help", row[column::SECOND]);
    }

    /// `flags = FL`, if there are any; answers that.
    fn flags(&mut self, row: &Row) -> bool {
        let words = flag_words(row);
        if !words.is_empty() {
            self.tokens(&["flags", "=", &words.join(" | ")]);
        }
        !words.is_empty()
    }

    fn head_and_flags(&mut self, row: &Row) {
        self.head(row);
        self.token(",");
        if self.flags(row) {
            self.token(",");
        }
    }

    fn goto(&mut self, row: &Row) {
        self.token("goto");
        self.number(row[column::A]);
        self.token(",");
        self.head(row);
        let before = self.text.len();
        self.token(",");
        if !self.flags(row) {
            self.text.truncate(before);
        }
        self.end_line();
    }

    fn checkbox(&mut self, row: &Row) {
        self.token("checkbox");
        self.head_and_flags(row);
        if row[column::FLAGS] & flag::WRITTEN_DEFAULT != 0 {
            let value = if row[column::D] == 1 { "TRUE" } else { "FALSE" };
            self.tokens(&["default", "=", value, ","]);
        }
        self.line("endcheckbox");
    }

    fn numeric(&mut self, row: &Row) {
        self.token("numeric");
        self.head_and_flags(row);
        self.setting("minimum", row[column::A]);
        self.setting("maximum", row[column::B]);
        self.setting("step", row[column::C]);
        if row[column::FLAGS] & flag::WRITTEN_DEFAULT != 0 {
            self.setting("default", row[column::D]);
        }
        self.line("endnumeric");
    }

    fn oneof(&mut self, at: usize) {
        self.token("oneof");
        self.head_and_flags(&self.rows[at]);
        self.open.push(at);
    }

    fn option(&mut self, row: &Row) {
        self.token("option");
        self.string("text", row[column::FIRST]);
        self.token(",");
        self.setting("value", row[column::A]);
        let flags = if row[column::FLAGS] == flag::DEFAULT { "DEFAULT" } else { "0" };
        self.tokens(&["flags", "=", flags]);
        self.end_line();
    }

    fn rule(&mut self, at: usize) -> usize {
        self.token("rule");
        self.token(&format!("R{}", self.rows[at][column::NUMBER]));
        self.token(",");
        let next = self.expression(at);
        self.line("endrule");
        next
    }

    fn condition(&mut self, at: usize) -> usize {
        self.token(match self.rows[at][column::CODE] {
            code::SUPPRESSIF => "suppressif",
            code::GRAYOUTIF => "grayoutif",
            _ => "disableif",
        });
        let next = self.expression(at);
        self.end_line();
        self.open.push(at);
        next
    }

    /// Prints the expression of a rule or condition; answers the row after it.
    fn expression(&mut self, owner: usize) -> usize {
        let starts = self.starts(owner);
        let first = owner + 1;
        let last = owner + starts.len();
        let mut work = vec![Work::Row(last)];
        while let Some(next) = work.pop() {
            match next {
                Work::Token(token) => self.token(token),
                Work::Row(at) => match (self.rows[at][column::CODE], level(self.rows[at][column::CODE])) {
                    (code::NOT, _) => {
                        self.token("NOT");
                        let grouped = level(self.rows[at - 1][column::CODE]).is_some();
                        operand(&mut work, at - 1, grouped);
                    }
                    (operator, Some(own)) => {
                        let looser = |row: usize, than: u8| {
                            level(self.rows[row][column::CODE]).is_some_and(|level| level < than)
                        };
                        let right = at - 1;
                        let left = starts[right - first] - 1;
                        operand(&mut work, right, looser(right, own + 1));
                        work.push(Work::Token(operator_sign(operator)));
                        operand(&mut work, left, looser(left, own));
                    }
                    _ => self.leaf(at),
                },
            }
        }
        last + 1
    }

    /// For each row of an expression the row with which its part of the expression starts.
    fn starts(&self, owner: usize) -> Vec<usize> {
        let first = owner + 1;
        let mut starts: Vec<usize> = Vec::new();
        for at in first..self.rows.len() {
            let row = &self.rows[at];
            if !in_expression(row) || row[column::PARENT] as usize != owner {
                break;
            }
            starts.push(match row[column::CODE] {
                code::NOT => starts[at - 1 - first],
                operator if level(operator).is_some() => starts[starts[at - 1 - first] - 1 - first],
                _ => at,
            });
        }
        starts
    }

    fn leaf(&mut self, at: usize) {
        let value = self.rows[at][column::A];
        match self.rows[at][column::CODE] {
            code::NUMBER => self.number(value),
            code::TRUE => self.token("TRUE"),
            code::FALSE => self.token("FALSE"),
            code::ZERO => self.token("ZERO"),
            code::ONE => self.token("ONE"),
            code::ONES => self.token("ONES"),
            code::UNDEFINED => self.token("UNDEFINED"),
            code::QUESTIONREF => {
                self.tokens(&["questionref", "("]);
                self.number(value);
                self.token(")");
            }
            _ => self.tokens(&["ruleref", "(", &format!("R{value}"), ")"]),
        }
    }
}

/// The words of a question's FL; a numeric has its size and display always.
fn flag_words(row: &Row) -> Vec<String> {
    let names =
        [(flag::READ_ONLY, "READ_ONLY"), (flag::INTERACTIVE, "INTERACTIVE"), (flag::RESET_REQUIRED, "RESET_REQUIRED")];
    let set = names.iter().filter(|(bit, _)| row[column::FLAGS] & bit != 0).map(|(_, name)| name.to_string());
    let format = (row[column::CODE] == code::NUMERIC).then(|| Format::of_cell(row[column::SIZE]).words());
    set.chain(format.into_iter().flatten()).collect()
}

fn operand(work: &mut Vec<Work>, at: usize, grouped: bool) {
    if grouped {
        work.push(Work::Token(")"));
    }
    work.push(Work::Row(at));
    if grouped {
        work.push(Work::Token("("));
    }
}

fn in_expression(row: &Row) -> bool {
    use code::*;
    let code = row[column::CODE];
    level(code).is_some()
        || matches!(code, NOT | NUMBER | TRUE | FALSE | ZERO | ONE | ONES | UNDEFINED | QUESTIONREF | RULEREF)
}

fn operator_sign(code: u64) -> &'static str {
    match code {
        code::OR => "OR",
        code::AND => "AND",
        code::BIT_OR => "|",
        code::BIT_AND => "&",
        code::EQUAL => "==",
        code::NOT_EQUAL => "!=",
        code::LESS => "<",
        code::LESS_EQUAL => "<=",
        code::GREATER => ">",
        code::GREATER_EQUAL => ">=",
        code::SHIFT_LEFT => "<<",
        code::SHIFT_RIGHT => ">>",
        code::ADD => "+",
        code::SUBTRACT => "-",
        code::MULTIPLY => "*",
        code::DIVIDE => "/",
        _ => "%",
    }
}
