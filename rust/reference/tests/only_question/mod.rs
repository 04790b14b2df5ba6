//! What becomes of a fragment that is accepted and has one question.

use crate::frame::framed;
use reference::{read, resolve, Row};

/// The row of the question.
pub fn question(fragment: &str) -> Row {
    read(framed(fragment).as_bytes(), 3).expect(fragment).rows[2]
}

/// The line of the question in the resolved text.
pub fn resolved(fragment: &str) -> String {
    let (_, text) = resolve(framed(fragment).as_bytes(), 3, 65_536).expect(fragment);
    text.lines().nth(1).expect("a line after the form's").to_string()
}
