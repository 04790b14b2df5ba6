//! The proved library behind safe functions. All unsafe code of the workspace is in the module `c`.

mod c;

pub use c::{quick_check, read_family_into, read_into, resolve_into, show_into, token_into};

/// How many numbers the layout of an answer has.
pub const ANSWER: usize = 7;

/// How many numbers the answer to one source of a family has: the first of the layout.
pub const FAMILY_ANSWER: usize = 6;

/// How many numbers the layout of a token has.
pub const TOKEN: usize = 7;

/// The numbers of an answer.
#[derive(Clone, Copy, PartialEq, Eq, Debug)]
pub struct Answer {
    pub number: u64,
    pub place: u64,
    pub rows: u64,
    pub free: u64,
    pub line: u64,
    pub column: u64,
    /// Bytes written besides rows: those of the resolved text.
    pub written: u64,
}

impl Answer {
    /// By the layout.
    pub fn numbers(self) -> [u64; ANSWER] {
        let Answer { number, place, rows, free, line, column, written } = self;
        [number, place, rows, free, line, column, written]
    }

    fn of([number, place, rows, free, line, column, written]: [u64; ANSWER]) -> Self {
        Answer { number, place, rows, free, line, column, written }
    }
}

/// The numbers of a token.
#[derive(Clone, Copy, PartialEq, Eq, Debug)]
pub struct Token {
    pub class: u64,
    pub start: u64,
    pub end: u64,
    pub line: u64,
    pub column: u64,
    /// The place at which to go on.
    pub next: u64,
    /// 1 where there is no further token, else 0.
    pub last: u64,
}

impl Token {
    /// By the layout.
    pub fn numbers(self) -> [u64; TOKEN] {
        let Token { class, start, end, line, column, next, last } = self;
        [class, start, end, line, column, next, last]
    }
}

/// Reads a source into a lent table.
pub fn read(source: &[u8], table: &mut [u64]) -> Answer {
    let mut numbers = [u64::MAX; ANSWER];
    read_into(source, table, &mut numbers);
    Answer::of(numbers)
}

/// Reads a source into a lent table and writes its resolved text to a lent output.
pub fn resolve(source: &[u8], table: &mut [u64], out: &mut [u8]) -> Answer {
    let mut numbers = [u64::MAX; ANSWER];
    resolve_into(source, table, out, &mut numbers);
    Answer::of(numbers)
}

/// Reads a source into a lent table and writes a byte for each row to a lent output: 1 for an item that the answers hide
/// plus 2 for one that they make grey. Answers are two numbers each, a question's number and its value.
pub fn show(source: &[u8], answers: &[u64], table: &mut [u64], out: &mut [u8]) -> Answer {
    let mut numbers = [u64::MAX; ANSWER];
    show_into(source, answers, table, out, &mut numbers);
    Answer::of(numbers)
}

/// Reads the sources of a buffer, which these ends part, each alone: the rows of those that are accepted into a lent
/// table, one after another, and six numbers for each into lent answers.
pub fn read_family(buffer: &[u8], ends: &[u64], table: &mut [u64], answers: &mut [u64]) -> Answer {
    let mut numbers = [u64::MAX; ANSWER];
    read_family_into(buffer, ends, table, answers, &mut numbers);
    Answer::of(numbers)
}

/// The token that stands first from a place on, which has this line and column.
pub fn token(source: &[u8], at: usize, line: usize, column: usize) -> Token {
    let mut numbers = [u64::MAX; TOKEN];
    token_into(source, at, line, column, &mut numbers);
    let [class, start, end, line, column, next, last] = numbers;
    Token { class, start, end, line, column, next, last }
}

/// The tokens of a source from its start, by the rule that the header gives a caller; the last is a bad one or the end.
/// There are no more than bytes besides the last one, so a walk that does not end is cut off there.
pub fn walk(source: &[u8]) -> impl Iterator<Item = Token> + '_ {
    let mut place = Some((0, 1, 1));
    let tokens = std::iter::from_fn(move || {
        let (at, line, column) = place?;
        let token = token(source, at, line, column);
        place = (token.last == 0).then(|| {
            let length = token.end.wrapping_sub(token.start);
            (token.next as usize, token.line as usize, token.column.wrapping_add(length) as usize)
        });
        Some(token)
    });
    tokens.take(source.len() + 1)
}
