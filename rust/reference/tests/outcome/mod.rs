//! What becomes of a fragment, by every call that reads it.

use crate::frame::framed;
use reference::{quick_check, read, resolve, show, Position, Refusal, QUICK_REFUSALS};

/// A refusal at a place on the source's first line.
pub fn at(number: u64, place: usize) -> Refusal {
    Refusal { number, place, position: Position { line: 1, column: place as u64 + 1 }, need: 0 }
}

/// Reading, resolving and showing refuse the fragment alike, with whatever is lent besides enough rows; so does the quick
/// check, if it has the refusal.
pub fn assert_refused(fragment: &str, refusal: Refusal) {
    let source = framed(fragment);
    let source = source.as_bytes();
    assert_eq!(read(source, 70_000), Err(refusal), "{fragment}");
    assert_eq!(resolve(source, 70_000, 0), Err(refusal), "{fragment}");
    assert_eq!(show(source, &[4, 1], 70_000, 0), Err(refusal), "{fragment}");
    let is_quick = QUICK_REFUSALS.contains(&refusal.number);
    let quick = if is_quick { refusal.number << 32 | refusal.place as u64 } else { 0 };
    assert_eq!(quick_check(source), quick, "{fragment}");
}

pub fn assert_accepted(fragment: &str, rows: usize, free: u64) {
    let reading = read(framed(fragment).as_bytes(), rows).expect(fragment);
    assert_eq!((reading.rows.len(), reading.free), (rows, free), "{fragment}");
}
