//! A resolved text reads as its source did, but for names and places, resolves to itself, and is shown as its source is.
//! It has a step for each numeric.

use compare::answers::answers;
use compare::numerics::{numerics, Step};
use compare::random::Random;
use compare::sources::source;
use reference::{column, resolve, show, Row, LONGEST};

const ROWS: usize = 70_000;

/// A row with both columns of places, of a name and of its own, set to 0.
fn without_places(row: &Row) -> Row {
    let mut row = *row;
    row[column::NAME] = 0;
    row[column::PLACE] = 0;
    row
}

/// How many numerics of a text have no step.
fn absent_steps(text: &[u8]) -> usize {
    numerics(text).iter().filter(|numeric| numeric.step() == Step::Absent).count()
}

#[test]
fn resolved_again() {
    let mut resolved = 0;
    let mut without_step = 0;
    for seed in 0..3_000 {
        let source = source(&mut Random::new(seed));
        let Ok((first, text)) = resolve(&source, ROWS, LONGEST) else { continue };
        let (second, again) = resolve(text.as_bytes(), ROWS, LONGEST).expect("a resolved text is accepted");
        assert_eq!(again, text, "seed {seed}");
        assert_eq!(second.free, first.free, "seed {seed}");
        assert!(second.rows.iter().map(without_places).eq(first.rows.iter().map(without_places)), "seed {seed}");
        assert_eq!(absent_steps(text.as_bytes()), 0, "seed {seed}");
        resolved += 1;
        without_step += usize::from(absent_steps(&source) > 0);
    }
    assert!(resolved > 500, "only {resolved} sources were accepted");
    assert!(without_step > 200, "only {without_step} sources had a numeric without step");
}

#[test]
fn shown_again() {
    let mut hidden_or_grey = 0;
    for seed in 0..3_000 {
        let mut random = Random::new(seed);
        let source = source(&mut random);
        let Ok((reading, text)) = resolve(&source, ROWS, LONGEST) else { continue };
        let answers = answers(reading.question_numbers(), &mut random);
        let first = show(&source, &answers, ROWS, ROWS).map(|(_, bytes)| bytes);
        let second = show(text.as_bytes(), &answers, ROWS, ROWS).map(|(_, bytes)| bytes);
        assert_eq!(second, first, "seed {seed}, answers {answers:?}");
        hidden_or_grey += first.map_or(0, |bytes| bytes.iter().filter(|&&byte| byte != 0).count());
    }
    assert!(hidden_or_grey > 500, "only {hidden_or_grey} items were hidden or grey");
}
