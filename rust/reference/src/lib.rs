//! A plain reader, resolver, quick check and screen for VFR sources, written from document 01 ("VFR sources to rows and
//! resolved text", with the readings of docs/DECISIONS.md) and document 02's W-201 to W-204, W-206 and W-208, and not
//! from the library. The library is compared with it.

#![forbid(unsafe_code)]

mod family;
mod format;
mod lexer;
mod parser;
mod position;
mod record;
mod row;
mod rules;
mod show;
mod text;
mod value;
mod walk;

pub use family::{parted, read_family, Family, SourceAnswer, FAMILY_ANSWER, MOST_SOURCES};
pub use lexer::{Kind, Lexer, Token};
pub use position::Position;
pub use row::{column, Row, ROW};
pub use walk::{Placed, Walk};

/// Document 01's longest source and longest resolved text.
pub const LONGEST: usize = 65_536;

/// The refusals that the quick check gives, in the order of checking.
pub const QUICK_REFUSALS: &[u64] = &[1, 2, 3, 4, SECOND_WORD_REFUSAL, RANGE_REFUSAL];

/// The refusals that reading gives, in the order of checking.
#[rustfmt::skip]
pub const READ_REFUSALS: &[u64] = &[
    1, 2, 3, 4, SECOND_WORD_REFUSAL, RANGE_REFUSAL, TABLE_REFUSAL, 7, 8, 9, 10, LOST_REFUSAL, CHOICE_REFUSAL, CIRCLE_REFUSAL,
];

/// The refusal of a second size or display in one numeric.
pub const SECOND_WORD_REFUSAL: u64 = 16;

/// The refusal of a number outside its range, or over the size of its numeric.
pub const RANGE_REFUSAL: u64 = 5;

/// The refusal of a table that is too short.
pub const TABLE_REFUSAL: u64 = 6;

/// The refusal of a reference that finds nothing, or a rule of another form alone.
pub const LOST_REFUSAL: u64 = 11;

/// The refusal of limits, defaults and options that do not go together.
pub const CHOICE_REFUSAL: u64 = 12;

/// The refusal of a rule that reaches itself through references.
pub const CIRCLE_REFUSAL: u64 = 14;

/// The refusal that resolving gives besides those of reading.
pub const TEXT_REFUSAL: u64 = 13;

/// The refusals that showing gives besides those of reading: an answer at fault, and fewer bytes lent than rows.
pub const ANSWERS_REFUSAL: u64 = 15;
pub const BYTES_REFUSAL: u64 = 30;

/// The refusal of a whole family.
pub const FAMILY_REFUSAL: u64 = 17;

/// The refusals whose place is always 0 or not in the source, so that they have no line and column.
pub const PLACELESS_REFUSALS: &[u64] =
    &[1, TABLE_REFUSAL, TEXT_REFUSAL, ANSWERS_REFUSAL, FAMILY_REFUSAL, BYTES_REFUSAL];

/// A refusal's number and place, the place's line and column, and the need that 6 (rows) and 13 (bytes) tell.
#[derive(Clone, Copy, PartialEq, Eq, Debug)]
pub struct Refusal {
    pub number: u64,
    pub place: usize,
    pub position: Position,
    pub need: usize,
}

impl Refusal {
    /// Line and column are given by `located`.
    fn new(number: u64, place: usize) -> Self {
        Refusal { number, place, position: Position::NONE, need: 0 }
    }

    fn short(number: u64, need: usize) -> Self {
        Refusal { number, place: 0, position: Position::NONE, need }
    }

    /// With the line and column of its place, if it has one in the source.
    fn located(self, source: &[u8]) -> Self {
        if PLACELESS_REFUSALS.contains(&self.number) {
            return self;
        }
        Refusal { position: Position::of(source, self.place), ..self }
    }
}

/// The refusal of the first of these stages that has a fault, at its place.
fn first_fault<const STAGES: usize>(stages: [(u64, Option<usize>); STAGES]) -> Result<(), Refusal> {
    match stages.into_iter().find_map(|(number, place)| Some((number, place?))) {
        Some((number, place)) => Err(Refusal::new(number, place)),
        None => Ok(()),
    }
}

/// What an accepted source holds: its rows, and how many question numbers are free.
#[derive(Clone, PartialEq, Eq, Debug)]
pub struct Reading {
    pub rows: Vec<Row>,
    pub free: u64,
}

impl Reading {
    /// The numbers that questions bear, in source order.
    pub fn question_numbers(&self) -> Vec<u64> {
        self.rows.iter().filter(|row| show::is_question(row)).map(|row| row[column::NUMBER]).collect()
    }
}

/// The quick check's events: none is of interest.
struct Unheard;

impl parser::Events<'_> for Unheard {}

fn check_length(source: &[u8]) -> Result<(), Refusal> {
    if source.len() > LONGEST {
        return Err(Refusal::new(1, 0));
    }
    Ok(())
}

/// Stages 1 to 5, with 16 before 5, as one number: the refusal's number times 2^32 plus its place, or 0. Line and column
/// have no part in it.
pub fn quick_check(source: &[u8]) -> u64 {
    match check_length(source).and_then(|()| parser::parse(source, &mut Unheard)) {
        Ok(()) => 0,
        Err(refusal) => refusal.number << 32 | refusal.place as u64,
    }
}

/// Reads a source, with this many rows lent.
pub fn read(source: &[u8], rows_lent: usize) -> Result<Reading, Refusal> {
    read_in_order(source, rows_lent).map_err(|refusal| refusal.located(source))
}

/// Stages 1 to 12, 14 and 16, without line and column of a refusal.
fn read_in_order(source: &[u8], rows_lent: usize) -> Result<Reading, Refusal> {
    check_length(source)?;
    let mut record = record::Record::new();
    parser::parse(source, &mut record)?;
    if record.rows.len() > rows_lent {
        return Err(Refusal::short(TABLE_REFUSAL, record.rows.len()));
    }
    record.check()?;
    let free = record.finish();
    record.check_circles()?;
    Ok(Reading { rows: record.rows, free })
}

/// Reads a source and gives its resolved text, with this many rows and bytes lent.
pub fn resolve(source: &[u8], rows_lent: usize, bytes_lent: usize) -> Result<(Reading, String), Refusal> {
    let reading = read(source, rows_lent)?;
    let text = text::text(&reading.rows);
    if text.len() > bytes_lent.min(LONGEST) {
        return Err(Refusal::short(TEXT_REFUSAL, text.len()));
    }
    Ok((reading, text))
}

/// Reads a source and says of each row whether it is an item that these answers hide (1) or make grey (2), with this many
/// rows and bytes lent. Answers are two numbers each, a question's number and its value.
pub fn show(
    source: &[u8],
    answers: &[u64],
    rows_lent: usize,
    bytes_lent: usize,
) -> Result<(Reading, Vec<u8>), Refusal> {
    let reading = read(source, rows_lent)?;
    if let Some(place) = show::wrong_answer(&reading.question_numbers(), answers) {
        return Err(Refusal::new(ANSWERS_REFUSAL, place));
    }
    if bytes_lent < reading.rows.len() {
        return Err(Refusal::new(BYTES_REFUSAL, 0));
    }
    let bytes = show::screen(source, &reading.rows, answers);
    Ok((reading, bytes))
}
