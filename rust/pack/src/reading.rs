//! The packed cases of reading: a sequence of groups. All numbers have their high byte first.
//!
//! - group: number of cases (4 bytes), length of the name (4 bytes), the name, the cases
//! - case: a head of 13 numbers of 4 bytes, the stored source, the packed cells
//! - head: case number, numbers lent, refusal number, place, row count, free count, line, column, length of the source,
//!   start of its longest run of one byte, length of that run, the byte, length of the packed cells
//! - source: without its longest run; runs below 64 bytes are not taken out (start, length and byte are 0)
//! - cells: each number of the expected rows: how many bytes it has (0 to 8), then these bytes. The rest is 0.

use crate::cases::{Case, Told};
use reference::{Kind, Lexer, CHOICE_REFUSAL, QUICK_REFUSALS, ROW, TABLE_REFUSAL};
use std::collections::BTreeMap;

const SHORTEST_RUN: usize = 64;

/// A name and the cases under it.
pub type Group = (String, Vec<Case>);

/// Whether a refusal comes after the rows are counted, so that it is the whole answer with every table that is large enough.
fn is_late(number: u64) -> bool {
    number > TABLE_REFUSAL && !QUICK_REFUSALS.contains(&number)
}

/// The groups of the cases of reading by name; then the cases of resolving that are refused after their rows are counted,
/// by refusal.
pub fn groups(reading: Vec<(String, Case)>, resolving: &[Case]) -> Vec<Group> {
    let mut named: BTreeMap<String, Vec<Case>> = BTreeMap::new();
    reading.into_iter().for_each(|(name, case)| named.entry(name).or_default().push(case));
    let mut late: BTreeMap<(u64, String), Vec<Case>> = BTreeMap::new();
    for case in resolving {
        let told = case.told();
        if is_late(told.number) {
            let Case { number, rows, ref source } = *case;
            let name = refusal_name(source, &told);
            late.entry((told.number, name)).or_default().push(Case { number, rows, source: source.clone() });
        }
    }
    named.into_iter().chain(late.into_iter().map(|((_, name), cases)| (name, cases))).collect()
}

/// The name of a refusal's group; of refusal 12 its four faults are told apart.
fn refusal_name(source: &[u8], told: &Told) -> String {
    match told.number {
        CHOICE_REFUSAL => format!("refusal {CHOICE_REFUSAL}, {}", choice_fault(source, told.place)),
        number => format!("refusal {number}"),
    }
}

/// Which fault of refusal 12 stands at a place: the word there, or the one before the sign before it.
fn choice_fault(source: &[u8], place: usize) -> &'static str {
    let mut lexer = Lexer::new(source);
    let (mut word, mut sign) = (Kind::End, Kind::End);
    loop {
        let token = lexer.next_token();
        if token.start >= place {
            return match (token.kind, word) {
                (Kind::DefaultFlag, _) => "second DEFAULT",
                (_, Kind::Maximum) => "maximum below minimum",
                (_, Kind::Default) => "default outside",
                _ => "repeated value",
            };
        }
        (word, sign) = (sign, token.kind);
    }
}

/// The groups' bytes.
pub fn packed(groups: &[Group]) -> Vec<u8> {
    let mut bytes = Vec::new();
    for (name, cases) in groups {
        put(&mut bytes, cases.len());
        put(&mut bytes, name.len());
        bytes.extend(name.bytes());
        cases.iter().for_each(|case| put_case(&mut bytes, case));
    }
    bytes
}

fn put(bytes: &mut Vec<u8>, number: usize) {
    bytes.extend(u32::try_from(number).expect("a number of four bytes").to_be_bytes());
}

fn put_case(bytes: &mut Vec<u8>, case: &Case) {
    let source = &case.source;
    let told = case.told();
    let run = longest_run(source);
    let cells = packed_cells(&told.cells);
    for number in [case.number as usize, case.rows * ROW, told.number as usize, told.place, told.rows] {
        put(bytes, number);
    }
    for number in [told.free, told.position.line, told.position.column] {
        put(bytes, number as usize);
    }
    for number in [source.len(), run.start, run.length, run.byte.into(), cells.len()] {
        put(bytes, number);
    }
    bytes.extend(&source[..run.start]);
    bytes.extend(&source[run.start + run.length..]);
    bytes.extend(cells);
}

#[derive(Default)]
struct Run {
    start: usize,
    length: usize,
    byte: u8,
}

/// The first of the longest runs of one byte, if it is long enough to be taken out.
fn longest_run(source: &[u8]) -> Run {
    let mut longest = Run::default();
    let mut start = 0;
    for run in source.chunk_by(|one, next| one == next) {
        if run.len() > longest.length.max(SHORTEST_RUN - 1) {
            longest = Run { start, length: run.len(), byte: run[0] };
        }
        start += run.len();
    }
    longest
}

fn packed_cells(cells: &[u64]) -> Vec<u8> {
    let mut bytes = Vec::new();
    for cell in cells {
        let zeros = cell.leading_zeros() as usize / 8;
        bytes.push(8 - zeros as u8);
        bytes.extend(&cell.to_be_bytes()[zeros..]);
    }
    bytes
}
