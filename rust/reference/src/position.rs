//! Document 02, W-201: lines and columns.

/// A line and a column, both counted from 1; both are 0 where there is no place in a source.
#[derive(Clone, Copy, PartialEq, Eq, Debug)]
pub struct Position {
    pub line: u64,
    pub column: u64,
}

impl Position {
    /// Of what has no place in a source.
    pub const NONE: Position = Position { line: 0, column: 0 };

    /// Of a source's first byte.
    pub const START: Position = Position { line: 1, column: 1 };

    /// Of a place: one more than the LF bytes before it, and one more than the bytes since the last LF or the start.
    pub fn of(source: &[u8], place: usize) -> Self {
        Self::START.past(&source[..place])
    }

    /// Of the place after these bytes, the first of which has this position. Both numbers wrap at 2^64.
    pub fn past(self, bytes: &[u8]) -> Self {
        let lines = bytes.iter().filter(|&&byte| byte == b'\n').count() as u64;
        let column = match bytes.iter().rposition(|&byte| byte == b'\n') {
            Some(last) => (bytes.len() - last) as u64,
            None => self.column.wrapping_add(bytes.len() as u64),
        };
        Position { line: self.line.wrapping_add(lines), column }
    }
}
