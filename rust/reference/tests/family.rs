//! Document 02, W-206: many sources in one call, on the examples of its readings.

mod frame;

use frame::framed;
use reference::{column, parted, read, read_family, Family, Position, Reading, Refusal, SourceAnswer};
use reference::{FAMILY_ANSWER, LONGEST, MOST_SOURCES, ROW};

/// The whole call's refusal.
const REFUSED: Refusal = Refusal { number: 17, place: 0, position: Position::NONE, need: 0 };

/// Accepted sources of 3 rows and of 5.
const THREE: &str = "label 1;";
const FIVE: &str = "checkbox P,endcheckbox;endform;form formid=2,title=S;label 2;";
const OF_THREE: SourceAnswer = [0, 0, 3, 65535, 0, 0];
const OF_FIVE: SourceAnswer = [0, 0, 5, 65534, 0, 0];
const FIVE_SHORT: SourceAnswer = [6, 0, 5, 0, 0, 0];
const OF_EMPTY: SourceAnswer = [3, 0, 0, 0, 1, 1];

/// A call by the numbers that are lent for rows and for answers.
fn called(buffer: &[u8], ends: &[u64], table: usize, answers: usize) -> Result<Family, Refusal> {
    read_family(buffer, ends, table / ROW, answers / FAMILY_ANSWER)
}

/// The sources joined, and where each ends.
fn joined(sources: &[String]) -> (Vec<u8>, Vec<u64>) {
    let end = |length: &mut u64, source: &String| {
        *length += source.len() as u64;
        Some(*length)
    };
    (sources.concat().into_bytes(), sources.iter().scan(0, end).collect())
}

/// An accepted call with these sources, with answers enough. Each answer and its rows are those of the source alone.
fn family(sources: &[String], table: usize) -> Family {
    let (buffer, ends) = joined(sources);
    let family = called(&buffer, &ends, table, FAMILY_ANSWER * sources.len()).expect("it is accepted");
    assert_eq!(family.answers.len(), sources.len());
    let mut rows = Vec::new();
    for (source, answer) in sources.iter().zip(&family.answers) {
        let alone = read(source.as_bytes(), table / ROW - rows.len());
        assert_eq!(*answer, told(&alone), "{source}");
        rows.extend(alone.into_iter().flat_map(|reading| reading.rows));
    }
    assert_eq!(family.rows, rows);
    family
}

fn told(reading: &Result<Reading, Refusal>) -> SourceAnswer {
    match reading {
        Ok(Reading { rows, free }) => [0, 0, rows.len() as u64, *free, 0, 0],
        Err(Refusal { number, place, position: Position { line, column }, need }) => {
            [*number, *place as u64, *need as u64, 0, *line, *column]
        }
    }
}

#[test]
fn six_words() {
    let sources = [framed(THREE), "formset\n @".to_string(), framed(FIVE)];
    let Family { rows, answers } = family(&sources, 122);
    assert_eq!(rows.len(), 8);
    assert_eq!(answers, [OF_THREE, [2, 9, 0, 0, 2, 2], OF_FIVE]);
    let (buffer, ends) = joined(&sources);
    assert_eq!(called(&buffer, &ends, 122, 20).map(|family| family.answers), Ok(answers));
}

#[test]
fn parents_and_places_from_the_own_start() {
    let sources = [framed(THREE), "formset\n @".to_string(), framed(FIVE)];
    let rows = family(&sources, 122).rows;
    assert_eq!(rows[3..8].iter().map(|row| row[column::PARENT]).collect::<Vec<_>>(), [0, 0, 1, 0, 3]);
    assert_eq!(rows[3][column::PLACE], 0);
    assert_eq!(rows[5][column::PLACE], 140);
}

#[test]
fn rows_left_over() {
    let sources = [framed(THREE), framed(FIVE), framed(THREE)];
    let short = family(&sources, 7 * ROW);
    assert_eq!(short.answers, [OF_THREE, FIVE_SHORT, OF_THREE]);
    assert_eq!(short.rows.len(), 6);
    assert_eq!(family(&sources, 11 * ROW).answers, [OF_THREE, OF_FIVE, OF_THREE]);
    assert_eq!(family(&sources, 11 * ROW - 1).answers, [OF_THREE, OF_FIVE, [6, 0, 3, 0, 0, 0]]);
    assert_eq!(family(&sources, 0).answers, [[6, 0, 3, 0, 0, 0], FIVE_SHORT, [6, 0, 3, 0, 0, 0]]);
}

#[test]
fn whole_rows_and_whole_answers() {
    let sources = [framed(THREE), framed(FIVE)];
    let (buffer, ends) = joined(&sources);
    assert_eq!(called(&buffer, &ends, 200, 11), Err(REFUSED));
    assert_eq!(called(&buffer, &ends, 200, 12).map(|family| family.answers), Ok(vec![OF_THREE, OF_FIVE]));
    assert_eq!(family(&sources, 103).answers, [OF_THREE, FIVE_SHORT]);
    assert_eq!(family(&sources, 104).answers, [OF_THREE, OF_FIVE]);
}

#[test]
fn equal_ends_and_none() {
    let empty = called(&[], &[0, 0], 100, 12);
    assert_eq!(empty, Ok(Family { rows: Vec::new(), answers: vec![OF_EMPTY, OF_EMPTY] }));
    assert_eq!(called(&[], &[], 0, 0), Ok(Family::default()));
    assert_eq!(called(b"x", &[], 100, 100), Err(REFUSED));
    let between = family(&[framed(THREE), String::new(), String::new(), framed(THREE)], 100);
    assert_eq!(between.answers, [OF_THREE, OF_EMPTY, OF_EMPTY, OF_THREE]);
}

#[test]
fn each_cause_alone() {
    assert_eq!(called(&[], &[0; MOST_SOURCES], 0, 6 * 64).map(|family| family.answers), Ok(vec![OF_EMPTY; 64]));
    assert_eq!(called(&[], &[0; MOST_SOURCES + 1], 0, 6 * 65), Err(REFUSED));
    let blanks = [b' '; LONGEST + 1];
    let longest = called(&blanks[1..], &[65_536], 0, 6).map(|family| family.answers);
    assert_eq!(longest, Ok(vec![[3, 65536, 0, 0, 1, 65537]]));
    assert_eq!(called(&blanks, &[65_537], 0, 6), Err(REFUSED));
    assert_eq!(called(&blanks, &[1, 65_537], 0, 12), Err(REFUSED));
    for ends in [&[3, 2, 5][..], &[6], &[4], &[5, 4], &[6, 5], &[5, 6], &[u64::MAX], &[0, 0]] {
        assert_eq!(called(b"12345", ends, 100, 100), Err(REFUSED), "{ends:?}");
    }
    for ends in [&[5][..], &[0, 5], &[5, 5], &[2, 3, 5]] {
        assert!(called(b"12345", ends, 100, 6 * ends.len()).is_ok(), "{ends:?}");
        assert_eq!(called(b"12345", ends, 100, 6 * ends.len() - 1), Err(REFUSED), "{ends:?}");
    }
}

#[test]
fn ends_inside_a_token() {
    let source = framed(THREE);
    assert_eq!(source.len(), 167);
    let parts = parted(source.as_bytes(), &[20, 167]).expect("they rise to the length");
    assert!(parts[0].ends_with(b"0x") && parts[1].starts_with(b"2,"));
    let cut = called(source.as_bytes(), &[20, 167], 100, 12).expect("it is accepted");
    assert_eq!(cut.answers, [[2, 18, 0, 0, 1, 19], OF_EMPTY]);
}

#[test]
fn no_trace_of_a_refused_source() {
    let late = family(&[framed(THREE), framed("goto 7,P;label 2;")], 7 * ROW);
    assert_eq!(late.answers, [OF_THREE, [11, 145, 0, 0, 1, 146]]);
    assert_eq!(late.rows.len(), 3);
    let between = family(&[framed(THREE), framed("goto 7,P;label 2;"), framed(FIVE)], 8 * ROW);
    assert_eq!(between.answers, [OF_THREE, [11, 145, 0, 0, 1, 146], OF_FIVE]);
}

#[test]
fn lines_and_columns_of_the_own_start() {
    let sources = ["\n\n\n".to_string(), format!("\n{}", framed("\n  rule A,ruleref(A) endrule;")), framed(THREE)];
    let answers = family(&sources, 100).answers;
    assert_eq!(answers, [[3, 3, 0, 0, 4, 1], [14, 159, 0, 0, 3, 18], OF_THREE]);
}

#[test]
fn nothing_goes_from_one_source_to_another() {
    let named = framed("rule A,1 endrule;checkbox name=Q,questionid=7,P,endcheckbox;");
    let lost = framed("suppressif ruleref(A);endif;");
    let answers = family(&[named.clone(), named.clone(), lost, named], 1000).answers;
    assert_eq!(
        answers,
        [[0, 0, 5, 65534, 0, 0], [0, 0, 5, 65534, 0, 0], [11, 159, 0, 0, 1, 160], [0, 0, 5, 65534, 0, 0]]
    );
}
