//! One source, or one family of them, and the buffers lent for it: the library's answer against the reference's. Each
//! check gives what both answered, or how they differ.

mod family;

use crate::tally::Met;
use library::{Answer, ANSWER, TOKEN};
use reference::{Placed, Position, Reading, Refusal, Walk, ROW};
use std::fmt::Debug;
use std::hint::black_box;

pub use family::{alone_difference, family, Read};

/// What buffers hold before a call.
const OLD: u64 = 0x5ea1_5ea1_5ea1_5ea1;

/// Numbers past a buffer's end, which have to stay.
const GUARD: usize = 4;

/// The most numbers that are lent for an answer or a token: some past the layout.
pub const MOST_NUMBERS: usize = ANSWER + 3;

/// What was met, and the line that both gave it (0 from the quick check, which gives none).
pub struct Answered {
    pub met: Met,
    pub line: u64,
}

/// What reading has to answer, and the whole table after it.
fn expected(reading: Result<&Reading, &Refusal>, table_len: usize) -> (Answer, Vec<u64>) {
    let mut table = vec![0; table_len];
    let none = Answer { number: 0, place: 0, rows: 0, free: 0, line: 0, column: 0, written: 0 };
    match reading {
        Ok(Reading { rows, free }) => {
            table[..ROW * rows.len()].copy_from_slice(rows.as_flattened());
            (Answer { rows: rows.len() as u64, free: *free, ..none }, table)
        }
        Err(Refusal { number, place, position: Position { line, column }, need }) => {
            let (number, place, rows) = (*number, *place as u64, *need as u64);
            (Answer { number, place, rows, line: *line, column: *column, ..none }, table)
        }
    }
}

/// How two tables differ, the first of which has the guard past its end.
fn table_difference(given: &[u64], wanted: &[u64]) -> Option<String> {
    let (table, guard) = given.split_at(wanted.len());
    if guard != [OLD; GUARD] {
        return Some("the library writes past the table".to_string());
    }
    let at = table.iter().zip(wanted).position(|(given, wanted)| given != wanted)?;
    Some(format!("row {} column {}: library {}, reference {}", at / ROW, at % ROW, table[at], wanted[at]))
}

/// How a lent answer or token, with the guard past its end, differs from its layout and the zeros past that; `told` is
/// what the layout holds.
fn numbers_difference<T: Debug>(given: &[u64], layout: &[u64], told: T) -> Option<String> {
    let (numbers, guard) = given.split_at(given.len() - GUARD);
    if guard != [OLD; GUARD] {
        return Some("the library writes past the numbers lent".to_string());
    }
    let wanted = |at: usize| layout.get(at).copied().unwrap_or(0);
    let at = (0..numbers.len()).find(|&at| numbers[at] != wanted(at))?;
    Some(format!("number {at} of {}: library {numbers:?}, reference {told:?}", numbers.len()))
}

/// That the library changes what it is lent to be read alone.
fn change<T: PartialEq>(what: &str, lent: &[T], before: &[T]) -> Option<String> {
    (black_box(lent) != before).then(|| format!("the library changes the {what}"))
}

/// How an output with the guard past its end differs from what was written to it and the zeros past that.
fn output_difference(given: &[u8], written: &[u8]) -> Option<String> {
    let (out, guard) = given.split_at(given.len() - GUARD);
    if guard != [OLD as u8; GUARD] {
        return Some("the library writes past the output".to_string());
    }
    let wanted = |at: usize| written.get(at).copied().unwrap_or(0);
    let at = (0..out.len()).find(|&at| out[at] != wanted(at))?;
    Some(format!("byte {at} of the output: library {}, reference {}", out[at], wanted(at)))
}

/// What was met, if nothing differs.
fn agreed<T>(met: T, difference: Option<String>) -> Result<T, String> {
    difference.map_or(Ok(met), Err)
}

/// Reading, with a table and an answer of these lengths.
pub fn reading(source: &[u8], table_len: usize, answer_len: usize) -> Result<Answered, String> {
    let reading = reference::read(source, table_len / ROW);
    let (wanted, table) = expected(reading.as_ref(), table_len);
    let lent = source.to_vec();
    let mut buffer = vec![OLD; table_len + GUARD];
    let mut answer = vec![OLD; answer_len + GUARD];
    library::read_into(black_box(&lent), &mut buffer[..table_len], &mut answer[..answer_len]);
    let difference = numbers_difference(&answer, &wanted.numbers(), wanted)
        .or_else(|| table_difference(&buffer, &table))
        .or_else(|| change("source", &lent, source));
    agreed(Answered { met: Met::of(reading.as_ref(), source), line: wanted.line }, difference)
}

/// The quick check.
pub fn quick(source: &[u8]) -> Result<Answered, String> {
    let (given, wanted) = (library::quick_check(source), reference::quick_check(source));
    let difference = (given != wanted).then(|| format!("quick check: library {given:#x}, reference {wanted:#x}"));
    agreed(Answered { met: Met::of_quick(wanted, source), line: 0 }, difference)
}

/// Resolving, with a table, an output and an answer of these lengths.
pub fn resolving(source: &[u8], table_len: usize, out_len: usize, answer_len: usize) -> Result<Answered, String> {
    let resolved = reference::resolve(source, table_len / ROW, out_len);
    let met = Met::of(resolved.as_ref(), source);
    let (wanted, table) = expected(resolved.as_ref().map(|(reading, _)| reading), table_len);
    let text = resolved.map_or_else(|_| String::new(), |(_, text)| text);
    let wanted = Answer { written: text.len() as u64, ..wanted };
    let lent = source.to_vec();
    let mut buffer = vec![OLD; table_len + GUARD];
    let mut out = vec![OLD as u8; out_len + GUARD];
    let mut answer = vec![OLD; answer_len + GUARD];
    library::resolve_into(black_box(&lent), &mut buffer[..table_len], &mut out[..out_len], &mut answer[..answer_len]);
    let difference = numbers_difference(&answer, &wanted.numbers(), wanted)
        .or_else(|| table_difference(&buffer, &table))
        .or_else(|| output_difference(&out, text.as_bytes()))
        .or_else(|| change("source", &lent, source));
    agreed(Answered { met, line: wanted.line }, difference)
}

/// What showing met, and the bytes of the rows.
pub struct Shown {
    pub answered: Answered,
    pub bytes: Vec<u8>,
}

/// Showing with these answers to the questions, and with a table, an output and an answer of these lengths.
pub fn showing(
    source: &[u8],
    answers: &[u64],
    table_len: usize,
    out_len: usize,
    answer_len: usize,
) -> Result<Shown, String> {
    let shown = reference::show(source, answers, table_len / ROW, out_len);
    let met = Met::of_showing(shown.as_ref(), source, answers);
    let (wanted, table) = expected(shown.as_ref().map(|(reading, _)| reading), table_len);
    let bytes = shown.map_or_else(|_| Vec::new(), |(_, bytes)| bytes);
    let (lent, lent_answers) = (source.to_vec(), answers.to_vec());
    let mut buffer = vec![OLD; table_len + GUARD];
    let mut out = vec![OLD as u8; out_len + GUARD];
    let mut answer = vec![OLD; answer_len + GUARD];
    let (table_lent, out_lent, answer_lent) =
        (&mut buffer[..table_len], &mut out[..out_len], &mut answer[..answer_len]);
    library::show_into(black_box(&lent), black_box(&lent_answers), table_lent, out_lent, answer_lent);
    let difference = numbers_difference(&answer, &wanted.numbers(), wanted)
        .or_else(|| table_difference(&buffer, &table))
        .or_else(|| output_difference(&out, &bytes))
        .or_else(|| change("source", &lent, source))
        .or_else(|| change("answers", &lent_answers, answers));
    agreed(Shown { answered: Answered { met, line: wanted.line }, bytes }, difference)
}

/// The numbers of a token that was looked for from a place on.
fn told(at: usize, Placed { token, position }: Placed) -> library::Token {
    let is_last = token.kind.is_last();
    library::Token {
        class: token.kind.class(),
        start: token.start as u64,
        end: token.end as u64,
        line: position.line,
        column: position.column,
        next: if is_last { at } else { token.end } as u64,
        last: is_last.into(),
    }
}

/// All tokens from the start on, by the rule that the header gives a caller; what was met are their classes.
pub fn walk(source: &[u8]) -> Result<Vec<u64>, String> {
    let mut given = library::walk(source);
    let mut walk = Walk::new(source);
    let mut classes = Vec::new();
    let mut at = 0;
    loop {
        let wanted = told(at, walk.next_token());
        let given = given.next();
        if given != Some(wanted) {
            return Err(format!("token {}: library {given:?}, reference {wanted:?}", classes.len()));
        }
        classes.push(wanted.class);
        at = wanted.next as usize;
        if wanted.last == 1 {
            return Ok(classes);
        }
    }
}

/// The token from a place on that has this line and column: lent so many numbers, and once more lent a whole layout.
pub fn token(source: &[u8], at: usize, position: Position, token_len: usize) -> Result<(), String> {
    let wanted = told(at, Walk::at(source, at, position).next_token());
    let lent = source.to_vec();
    let (line, column) = (position.line as usize, position.column as usize);
    let mut numbers = vec![OLD; token_len + GUARD];
    library::token_into(black_box(&lent), at, line, column, &mut numbers[..token_len]);
    let mut whole = [OLD; TOKEN + GUARD];
    library::token_into(black_box(&lent), at, line, column, &mut whole[..TOKEN]);
    let difference = numbers_difference(&numbers, &wanted.numbers(), wanted)
        .or_else(|| numbers_difference(&whole, &wanted.numbers(), wanted))
        .or_else(|| change("source", &lent, source));
    agreed((), difference)
}
