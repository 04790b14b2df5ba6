//! Cases of families.

use crate::numbers;
use compare::check::alone_difference;
use compare::families::Family;
use compare::json::{base64, Json};
use compare::outcomes::{differ, Outcomes};
use library::{ANSWER, FAMILY_ANSWER};
use reference::{read_family, Refusal, ROW};

/// The call's own answer by its layout, and what the whole table and the whole list of answers then hold.
#[derive(PartialEq, Debug)]
struct Told {
    answer: [u64; ANSWER],
    table: Vec<u64>,
    answers: Vec<u64>,
}

impl Told {
    /// With the zeros past what was written.
    fn filled(mut self, family: &Family) -> Self {
        let Family { table_len, answers_len, .. } = *family;
        assert!(self.table.len() <= table_len && self.answers.len() <= answers_len, "more is written than is lent");
        self.table.resize(table_len, 0);
        self.answers.resize(answers_len, 0);
        self
    }
}

/// What is lent in a case.
fn lent(json: &Json) -> Family {
    let [table_len, answers_len] = ["table_numbers", "answer_numbers"].map(|name| json.field(name).number() as usize);
    let buffer = base64(json.field("buffer").text()).expect("base64");
    Family { buffer, ends: numbers(json.field("ends")), table_len, answers_len }
}

fn given_told(call: &Json) -> Told {
    let number = |name: &str| call.field(name).number();
    let [number_, place, rows, free, line, column] = ["number", "place", "rows", "free", "line", "column"].map(number);
    Told {
        answer: [number_, place, rows, free, line, column, 0],
        table: numbers(call.field("table")),
        answers: numbers(call.field("answers")),
    }
}

fn reference_told(family: &Family) -> Told {
    let Family { buffer, ends, table_len, answers_len } = family;
    let told = match read_family(buffer, ends, table_len / ROW, answers_len / FAMILY_ANSWER) {
        Ok(read) => Told {
            answer: [0, 0, read.rows.len() as u64, 0, 0, 0, 0],
            table: read.rows.into_flattened(),
            answers: read.answers.into_flattened(),
        },
        Err(Refusal { number, place, position, need }) => Told {
            answer: [number, place as u64, need as u64, 0, position.line, position.column, 0],
            table: Vec::new(),
            answers: Vec::new(),
        },
    };
    told.filled(family)
}

/// What the library tells, in memory that holds something before.
fn library_told(family: &Family) -> Told {
    let (mut table, mut answers) = (vec![u64::MAX; family.table_len], vec![u64::MAX; family.answers_len]);
    let answer = library::read_family(&family.buffer, &family.ends, &mut table, &mut answers).numbers();
    Told { answer, table, answers }
}

/// Checks a case; where the family is accepted, each of its sources alone too.
pub fn check(name: &str, json: &Json, outcomes: &mut Outcomes) {
    let family = lent(json);
    let given = given_told(json.field("family")).filled(&family);
    outcomes.note(&format!("{name}, reference"), differ("family", &reference_told(&family), &given));
    outcomes.note(&format!("{name}, library"), differ("family", &library_told(&family), &given));
    if given.answer[0] == 0 {
        let difference = alone_difference(&family, &given.answers, &given.table);
        outcomes.note(&format!("{name}, library, each source alone"), difference);
    }
}
