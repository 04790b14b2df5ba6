//! Families: the library against the reference, and against itself on each source alone.

use super::{agreed, change, numbers_difference, table_difference, GUARD, OLD};
use crate::families::Family;
use library::{Answer, FAMILY_ANSWER};
use reference::{parted, read_family, Refusal, SourceAnswer, ROW};
use std::hint::black_box;

/// What the reference answers.
pub type Read = Result<reference::Family, Refusal>;

/// What the call itself has to answer.
fn expected(read: &Read) -> Answer {
    let none = Answer { number: 0, place: 0, rows: 0, free: 0, line: 0, column: 0, written: 0 };
    match read {
        Ok(read) => Answer { rows: read.rows.len() as u64, ..none },
        Err(refusal) => Answer { number: refusal.number, place: refusal.place as u64, ..none },
    }
}

/// How the answer to a source, and its rows at the start of a table, differ from what the library gives for it alone,
/// with this many rows lent.
fn one_difference(source: &[u8], answer: &[u64], table: &[u64], rows_lent: usize) -> Option<String> {
    let mut alone = vec![OLD; ROW * rows_lent];
    let told = library::read(source, &mut alone);
    if answer != &told.numbers()[..FAMILY_ANSWER] {
        return Some(format!("{answer:?} in the family, {told:?} alone"));
    }
    let rows = if told.number == 0 { ROW * told.rows as usize } else { 0 };
    (table[..rows] != alone[..rows]).then(|| "its rows in the family are not those alone".to_string())
}

/// How an accepted call's answers and rows differ from those of each source alone, with the rows that are left for it.
pub fn alone_difference(family: &Family, answers: &[u64], table: &[u64]) -> Option<String> {
    let sources = parted(&family.buffer, &family.ends).expect("the call is accepted");
    let mut used = 0;
    for (at, (source, answer)) in sources.into_iter().zip(answers.chunks_exact(FAMILY_ANSWER)).enumerate() {
        let left = family.table_len / ROW - used;
        if let Some(difference) = one_difference(source, answer, &table[ROW * used..], left) {
            return Some(format!("source {at}: {difference}"));
        }
        let [number, _, rows, ..]: SourceAnswer = answer.try_into().expect("six numbers");
        used += if number == 0 { rows as usize } else { 0 };
    }
    None
}

/// Reading a family, with an answer of this length.
pub fn family(family: &Family, answer_len: usize) -> Result<Read, String> {
    let Family { buffer, ends, table_len, answers_len } = family;
    let (table_len, answers_len) = (*table_len, *answers_len);
    let read = read_family(buffer, ends, table_len / ROW, answers_len / FAMILY_ANSWER);
    let wanted = expected(&read);
    let reference::Family { rows, answers: told } = read.clone().unwrap_or_default();
    let mut wanted_table = rows.into_flattened();
    wanted_table.resize(table_len, 0);
    let lent = family.clone();
    let mut table = vec![OLD; table_len + GUARD];
    let mut answers = vec![OLD; answers_len + GUARD];
    let mut answer = vec![OLD; answer_len + GUARD];
    let (table_lent, answers_lent) = (&mut table[..table_len], &mut answers[..answers_len]);
    let (lent_buffer, lent_ends) = (black_box(&lent.buffer), black_box(&lent.ends));
    library::read_family_into(lent_buffer, lent_ends, table_lent, answers_lent, &mut answer[..answer_len]);
    let difference = numbers_difference(&answer, &wanted.numbers(), wanted)
        .or_else(|| numbers_difference(&answers, told.as_flattened(), &told))
        .or_else(|| table_difference(&table, &wanted_table))
        .or_else(|| change("buffer", lent_buffer, buffer))
        .or_else(|| change("ends", lent_ends, ends))
        .or_else(|| read.is_ok().then(|| alone_difference(family, &answers, &table)).flatten());
    agreed(read, difference)
}
