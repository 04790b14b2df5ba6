//! `cases FOLDER`: the reference against answers given by document 01 alone (resolved text, rows, quick check), and the
//! library against the reference. The folder has `NNNN.vfr` with `NNNN.expected`, and `rows.jsonl`. Document 02 changes some
//! of these answers: a word that W-204 reserves is 3, and a reference to a rule of another form is 11 (W-203); then refusal
//! 14 (W-202) may stand where document 01 refuses with nothing, or with 13, which comes after it. Rows have one number more,
//! and texts name the size and display of each numeric (W-204), for which they may be too long. In both the step of a
//! numeric that writes none, by the tokens of the source, is 1 (W-208).

#![forbid(unsafe_code)]

use compare::check;
use compare::json::{base64, Json};
use compare::numerics::{numerics, Step};
use compare::outcomes::{differ, Outcomes};
use compare::strays::strays;
use library::ANSWER;
use reference::{column, Kind, Lexer, Reading, Refusal, CIRCLE_REFUSAL, LONGEST, LOST_REFUSAL, ROW, TEXT_REFUSAL};
use std::path::Path;
use std::process::ExitCode;
use std::{env, fs};

/// The lent rows and bytes of the program `resolve`.
const PROGRAM_ROWS: usize = 512;
const PROGRAM_BYTES: usize = LONGEST;

/// The refusals of a token that no text of the grammar has there, and of one that opens a depth too many: one stage.
const GRAMMAR_REFUSAL: u64 = 3;
const DEPTH_REFUSAL: u64 = 4;

const NUMERIC: u64 = 7;

/// What absent words of W-204 mean, in words and as a row holds it.
const ABSENT_FORMAT: &str = "NUMERIC_SIZE_8 | DISPLAY_UINT_DEC";
const ABSENT_CELL: u64 = 33;

/// What an absent step means in document 02.
const ABSENT_STEP: u64 = 1;

/// What the program `resolve` prints.
fn printed(source: &[u8]) -> String {
    match reference::resolve(source, PROGRAM_ROWS, PROGRAM_BYTES) {
        Ok((_, text)) => text,
        Err(Refusal { number, place, .. }) => format!("refused {number} at {place}\n"),
    }
}

/// Whether the refusal for circles is given where document 01 has this number.
fn is_circle(given: u64, expected: u64) -> bool {
    given == CIRCLE_REFUSAL && [0, TEXT_REFUSAL].contains(&expected)
}

/// The place of the first word that W-204 reserves.
fn reserved_word(source: &[u8]) -> Option<u64> {
    use Kind::*;
    let mut lexer = Lexer::new(source);
    loop {
        let token = lexer.next_token();
        match token.kind {
            NumericSize1 | NumericSize2 | NumericSize4 | NumericSize8 => return Some(token.start as u64),
            DisplayIntDec | DisplayUintDec | DisplayUintHex => return Some(token.start as u64),
            kind if kind.is_last() => return None,
            _ => {}
        }
    }
}

/// The refusal, by number and place, that document 02 gives a source where document 01 has this number and place: of a word
/// that W-204 reserves, if document 01 refuses in a later stage or at a later place or not at all; then, likewise, of a
/// reference to a rule of another form.
fn changed(source: &[u8], number: u64, place: u64) -> Option<(u64, u64)> {
    let is_later = |stage: &[u64], first: u64| match stage.contains(&number) {
        true => place > first,
        false => number == 0 || stage.iter().all(|&refusal| number > refusal),
    };
    let word = reserved_word(source).filter(|&first| is_later(&[GRAMMAR_REFUSAL, DEPTH_REFUSAL], first));
    let stray = || strays(source).first().map(|&first| first as u64).filter(|&first| is_later(&[LOST_REFUSAL], first));
    word.map(|place| (GRAMMAR_REFUSAL, place)).or_else(|| stray().map(|place| (LOST_REFUSAL, place)))
}

/// Whether each numeric of a source has no step, in order.
fn absent_steps(source: &[u8]) -> impl Iterator<Item = bool> {
    numerics(source).into_iter().map(|numeric| numeric.step() == Step::Absent)
}

/// Document 01's resolved text of a source with the size and display of each numeric, which begins a line, after its
/// other flags, and with its step.
fn changed_text(source: &[u8], text: &str) -> String {
    let mut absent = absent_steps(source);
    let changed_line = |line: &str| match line.split_once(" , minimum = ") {
        Some((before, after)) if line.starts_with("numeric ") => {
            let joint = if before.contains(" , flags = ") { " | " } else { " , flags = " };
            let step = if absent.next() == Some(true) { ABSENT_STEP } else { 0 };
            let after = after.replace(" , step = 0 , ", &format!(" , step = {step} , "));
            format!("{before}{joint}{ABSENT_FORMAT} , minimum = {after}")
        }
        _ => line.to_string(),
    };
    text.split_inclusive('\n').map(changed_line).collect()
}

/// The number and place of the refusal in a printed line, or 0 of a text.
fn printed_refusal(printed: &[u8]) -> (u64, u64) {
    let line = std::str::from_utf8(printed).ok().and_then(|text| text.strip_prefix("refused "));
    let numbers = |line: &str| {
        let (number, place) = line.trim_end().split_once(" at ")?;
        Some((number.parse().ok()?, place.parse().ok()?))
    };
    line.map_or((0, 0), |line| numbers(line).expect("a refusal's number and place"))
}

fn text_case(source: &[u8], expected: &[u8]) -> Option<String> {
    let given = printed(source);
    let (number, place) = printed_refusal(expected);
    let refused = |number: u64, place: u64| format!("refused {number} at {place}\n");
    let expected = match changed(source, number, place) {
        Some((number, place)) => refused(number, place),
        None if is_circle(printed_refusal(given.as_bytes()).0, number) => return None,
        None => changed_text(source, &String::from_utf8_lossy(expected)),
    };
    let expected = if expected.len() > PROGRAM_BYTES { refused(TEXT_REFUSAL, 0) } else { expected };
    (given != expected).then(|| format!("printed {given:?}\nexpected {expected:?}"))
}

fn text_cases(folder: &Path, outcomes: &mut Outcomes) -> std::io::Result<()> {
    let mut paths: Vec<_> = fs::read_dir(folder)?.filter_map(|entry| Some(entry.ok()?.path())).collect();
    paths.sort();
    for path in paths.iter().filter(|path| path.extension().is_some_and(|end| end == "vfr")) {
        let source = fs::read(path)?;
        let expected = fs::read(path.with_extension("expected"))?;
        let name = path.display().to_string();
        outcomes.note(&name, text_case(&source, &expected));
        outcomes.note(&name, check::reading(&source, ROW * PROGRAM_ROWS, ANSWER).err());
        outcomes.note(&name, check::resolving(&source, ROW * PROGRAM_ROWS, PROGRAM_BYTES, ANSWER).err());
        outcomes.note(&name, check::quick(&source).err());
    }
    Ok(())
}

/// Number, place, row count, free count and table of a reading.
type Told = (u64, u64, u64, u64, Vec<Vec<u64>>);

fn told(reading: &Result<Reading, Refusal>) -> Told {
    match reading {
        Ok(Reading { rows, free }) => (0, 0, rows.len() as u64, *free, rows.iter().map(|row| row.to_vec()).collect()),
        Err(Refusal { number, place, need, .. }) => (*number, *place as u64, *need as u64, 0, Vec::new()),
    }
}

fn told_in(source: &[u8], case: &Json) -> Told {
    let number = |name: &str| case.field(name).number();
    let mut absent = absent_steps(source);
    let row = |row: &Json| {
        let mut cells: Vec<u64> = row.list().iter().map(Json::number).collect();
        let is_numeric = cells[column::CODE] == NUMERIC;
        cells.push(if is_numeric { ABSENT_CELL } else { 0 });
        if is_numeric && absent.next() == Some(true) {
            cells[column::C] = ABSENT_STEP;
        }
        cells
    };
    let table = case.field("table").list().iter().map(row).collect();
    (number("number"), number("place"), number("rows"), number("free"), table)
}

fn read_case(source: &[u8], rows: usize, case: &Json) -> Option<String> {
    let (given, expected) = (told(&reference::read(source, rows)), told_in(source, case));
    let expected = match changed(source, expected.0, expected.1) {
        Some((number, place)) => (number, place, 0, 0, Vec::new()),
        None if is_circle(given.0, expected.0) => return None,
        None => expected,
    };
    differ("read", given, expected)
}

fn resolve_case(source: &[u8], rows: usize, bytes: usize, case: &Json) -> Option<String> {
    let given = reference::resolve(source, rows, bytes);
    let text = given.as_ref().map_or(String::new(), |(_, text)| text.clone());
    let (number, place, rows, free, _) = told(&given.map(|(reading, _)| reading));
    let numbers = [number, place, rows, free, text.len() as u64];
    let [number, place, rows, free] = ["number", "place", "rows", "free"].map(|name| case.field(name).number());
    let longer = changed_text(source, case.field("text").text());
    let (expected, expected_text) = match changed(source, number, place) {
        Some((number, place)) => ([number, place, 0, 0, 0], ""),
        None if is_circle(numbers[0], number) => return None,
        None if longer.len() > bytes => ([TEXT_REFUSAL, 0, longer.len() as u64, 0, 0], ""),
        None => ([number, place, rows, free, longer.len() as u64], longer.as_str()),
    };
    differ("resolve", numbers, expected).or_else(|| differ("text", text.as_str(), expected_text))
}

fn quick_case(source: &[u8], expected: u64) -> Option<String> {
    let expected = match changed(source, expected >> 32, expected & u64::from(u32::MAX)) {
        Some((GRAMMAR_REFUSAL, place)) => GRAMMAR_REFUSAL << 32 | place,
        _ => expected,
    };
    differ("quick check", reference::quick_check(source), expected)
}

fn row_cases(folder: &Path, outcomes: &mut Outcomes) -> std::io::Result<()> {
    for line in fs::read_to_string(folder.join("rows.jsonl"))?.lines() {
        let case = Json::parse(line).expect("a JSON object on each line");
        let name = format!("rows.jsonl {}", case.field("id").number());
        let source = base64(case.field("source").text()).expect("base64");
        let rows = case.field("table_rows").number() as usize;
        let bytes = case.field("out_len").number() as usize;
        outcomes.note(&name, read_case(&source, rows, case.field("read")));
        outcomes.note(&name, quick_case(&source, case.field("quick").number()));
        outcomes.note(&name, resolve_case(&source, rows, bytes, case.field("resolve")));
        outcomes.note(&name, check::reading(&source, ROW * rows, ANSWER).err());
        outcomes.note(&name, check::resolving(&source, ROW * rows, bytes, ANSWER).err());
        outcomes.note(&name, check::quick(&source).err());
    }
    Ok(())
}

fn main() -> ExitCode {
    let Some(folder) = env::args_os().nth(1) else {
        eprintln!("cases FOLDER");
        return ExitCode::from(2);
    };
    let mut outcomes = Outcomes::default();
    let folder = Path::new(&folder);
    if let Err(fault) = text_cases(folder, &mut outcomes).and_then(|()| row_cases(folder, &mut outcomes)) {
        eprintln!("{}: {fault}", folder.display());
        return ExitCode::from(2);
    }
    outcomes.exit("cases")
}
