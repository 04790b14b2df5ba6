//! `given FILE..`: the reference and the library, each against given answers, whole tables, whole outputs, quick checks
//! and tokens with their lines and columns. A file has a case on each line: of reading and resolving
//! (`tests/cases/given.jsonl`), of showing (`tests/cases/given-show.jsonl`) or of families
//! (`tests/cases/given-family.jsonl`), each of whose sources the library also reads alone. Zeros at the end of a
//! table, output or list of answers are left off, and long sources come without tokens.
//!
//! The cases of reading are given for W-208. Those of showing were given for W-202, and no reader had a part in what
//! was changed of them: each row has W-204's column, 33 for a numeric and 0 otherwise; as many whole rows are lent as
//! before; 27 cases that were refused with 3 at a word of W-204 are left out, as nothing given says what they show now;
//! the step of five numerics that write none is 1 (W-208). Those of families were given for W-206 without W-208, and
//! changed likewise: 409 of their 445 numerics write no step, which is 1.

#![forbid(unsafe_code)]

mod family;

use compare::check;
use compare::json::{base64, Json};
use compare::outcomes::{differ, Outcomes};
use library::ANSWER;
use reference::{Kind, Position, Refusal, Walk, ROW};
use std::ffi::OsStr;
use std::process::ExitCode;
use std::{env, fs};

/// A token's sort, start, end, line and column.
type Token = (String, u64, u64, u64, u64);

/// An answer by its layout, and what the whole table and the whole output then hold.
#[derive(PartialEq, Debug)]
struct Told {
    answer: [u64; ANSWER],
    table: Vec<u64>,
    output: Vec<u8>,
}

impl Told {
    /// With the zeros past what was written.
    fn filled(mut self, table_len: usize, out_len: usize) -> Self {
        assert!(self.table.len() <= table_len && self.output.len() <= out_len, "more is written than is lent");
        self.table.resize(table_len, 0);
        self.output.resize(out_len, 0);
        self
    }
}

/// A source and what is lent for it, and what is asked of it.
struct Case {
    name: String,
    source: Vec<u8>,
    table_len: usize,
    out_len: usize,
    asked: Asked,
}

enum Asked {
    Reading(Reading),
    Showing { answers: Vec<u64>, show: Told },
}

/// What the calls that take a source alone tell of it.
struct Reading {
    quick: u64,
    tokens: Option<Vec<Token>>,
    read: Told,
    resolve: Told,
}

fn numbers(json: &Json) -> Vec<u64> {
    json.list().iter().map(Json::number).collect()
}

/// An output's bytes: a text in base64, or one number a byte.
fn bytes(output: &Json) -> Vec<u8> {
    match output {
        Json::Text(text) => base64(text).expect("base64"),
        list => numbers(list).into_iter().map(|number| u8::try_from(number).expect("a byte")).collect(),
    }
}

/// A call's part of a case; only resolving counts bytes, and reading has no output.
fn told(call: &Json) -> Told {
    let number = |name: &str| call.field(name).number();
    let [number_, place, rows, free, line, column] = ["number", "place", "rows", "free", "line", "column"].map(number);
    let written = call.find("bytes").map_or(0, Json::number);
    let output = call.find("output").map_or(Vec::new(), bytes);
    Told { answer: [number_, place, rows, free, line, column, written], table: numbers(call.field("table")), output }
}

fn token(json: &Json) -> Token {
    match json.list() {
        [sort, start, end, line, column] => {
            (sort.text().to_string(), start.number(), end.number(), line.number(), column.number())
        }
        other => panic!("no token but {other:?}"),
    }
}

fn asked(json: &Json, table_len: usize, out_len: usize) -> Asked {
    if let Some(show) = json.find("show") {
        return Asked::Showing { answers: numbers(json.field("answers")), show: told(show).filled(table_len, out_len) };
    }
    Asked::Reading(Reading {
        quick: json.field("quick").number(),
        tokens: match json.field("tokens") {
            Json::Null => None,
            tokens => Some(tokens.list().iter().map(token).collect()),
        },
        read: told(json.field("read")).filled(table_len, 0),
        resolve: told(json.field("resolve")).filled(table_len, out_len),
    })
}

fn case(name: String, json: &Json) -> Case {
    let [table_len, out_len] = ["table_numbers", "output_bytes"].map(|name| json.field(name).number() as usize);
    Case {
        name,
        source: base64(json.field("source").text()).expect("base64"),
        table_len,
        out_len,
        asked: asked(json, table_len, out_len),
    }
}

/// The sort of a token's class, as the cases name it.
fn sort(class: u64) -> String {
    const LAST_SIGN: u64 = Kind::Percent as u64;
    const FIRST_WORD: u64 = Kind::And as u64;
    const LAST_WORD: u64 = Kind::Word as u64;
    const HEX: u64 = Kind::Hex as u64;
    const DECIMAL: u64 = Kind::Decimal as u64;
    const BAD: u64 = Kind::Bad as u64;
    const END: u64 = Kind::End as u64;
    let sort = match class {
        0..=LAST_SIGN => "sign",
        FIRST_WORD..=LAST_WORD => "word",
        HEX | DECIMAL => "number",
        BAD => "bad",
        END => "end",
        _ => "no class",
    };
    sort.to_string()
}

// ---- What the reference tells

/// What it writes besides rows, and whether that is counted.
struct Written {
    output: Vec<u8>,
    is_counted: bool,
}

fn reference_told(answer: Result<(reference::Reading, Written), Refusal>) -> Told {
    match answer {
        Ok((reading, Written { output, is_counted })) => {
            let written = if is_counted { output.len() as u64 } else { 0 };
            let rows = reading.rows.len() as u64;
            Told { answer: [0, 0, rows, reading.free, 0, 0, written], table: reading.rows.into_flattened(), output }
        }
        Err(Refusal { number, place, position: Position { line, column }, need }) => Told {
            answer: [number, place as u64, need as u64, 0, line, column, 0],
            table: Vec::new(),
            output: Vec::new(),
        },
    }
}

fn reference_read(source: &[u8], table_len: usize) -> Told {
    let nothing = |reading| (reading, Written { output: Vec::new(), is_counted: false });
    reference_told(reference::read(source, table_len / ROW).map(nothing)).filled(table_len, 0)
}

fn reference_resolve(source: &[u8], table_len: usize, out_len: usize) -> Told {
    let resolved = reference::resolve(source, table_len / ROW, out_len);
    let text = |(reading, text): (_, String)| (reading, Written { output: text.into_bytes(), is_counted: true });
    reference_told(resolved.map(text)).filled(table_len, out_len)
}

fn reference_show(source: &[u8], answers: &[u64], table_len: usize, out_len: usize) -> Told {
    let shown = reference::show(source, answers, table_len / ROW, out_len);
    let bytes = |(reading, output)| (reading, Written { output, is_counted: false });
    reference_told(shown.map(bytes)).filled(table_len, out_len)
}

fn reference_tokens(source: &[u8]) -> Vec<Token> {
    let mut walk = Walk::new(source);
    let mut tokens = Vec::new();
    loop {
        let placed = walk.next_token();
        let (token, Position { line, column }) = (placed.token, placed.position);
        tokens.push((sort(token.kind.class()), token.start as u64, token.end as u64, line, column));
        if token.kind.is_last() {
            return tokens;
        }
    }
}

fn reference_case(case: &Case, outcomes: &mut Outcomes) {
    let Case { name, source, table_len, out_len, asked } = case;
    let name = format!("{name}, reference");
    match asked {
        Asked::Showing { answers, show } => {
            outcomes.note(&name, differ("show", &reference_show(source, answers, *table_len, *out_len), show));
        }
        Asked::Reading(Reading { quick, tokens, read, resolve }) => {
            outcomes.note(&name, differ("read", &reference_read(source, *table_len), read));
            outcomes.note(&name, differ("resolve", &reference_resolve(source, *table_len, *out_len), resolve));
            outcomes.note(&name, differ("quick check", reference::quick_check(source), *quick));
            if let Some(tokens) = tokens {
                outcomes.note(&name, differ("tokens", &reference_tokens(source), tokens));
            }
        }
    }
}

// ---- What the library tells, in memory that holds something before

fn library_read(source: &[u8], table_len: usize) -> Told {
    let mut table = vec![u64::MAX; table_len];
    let answer = library::read(source, &mut table).numbers();
    Told { answer, table, output: Vec::new() }
}

fn library_resolve(source: &[u8], table_len: usize, out_len: usize) -> Told {
    let (mut table, mut output) = (vec![u64::MAX; table_len], vec![u8::MAX; out_len]);
    let answer = library::resolve(source, &mut table, &mut output).numbers();
    Told { answer, table, output }
}

fn library_show(source: &[u8], answers: &[u64], table_len: usize, out_len: usize) -> Told {
    let (mut table, mut output) = (vec![u64::MAX; table_len], vec![u8::MAX; out_len]);
    let answer = library::show(source, answers, &mut table, &mut output).numbers();
    Told { answer, table, output }
}

fn library_tokens(source: &[u8]) -> Vec<Token> {
    let told = |token: library::Token| (sort(token.class), token.start, token.end, token.line, token.column);
    library::walk(source).map(told).collect()
}

/// Where no tokens are given, those of the reference are taken.
fn library_case(case: &Case, outcomes: &mut Outcomes) {
    let Case { name, source, table_len, out_len, asked } = case;
    let name = format!("{name}, library");
    match asked {
        Asked::Showing { answers, show } => {
            outcomes.note(&name, differ("show", &library_show(source, answers, *table_len, *out_len), show));
        }
        Asked::Reading(Reading { quick, tokens, read, resolve }) => {
            outcomes.note(&name, differ("read", &library_read(source, *table_len), read));
            outcomes.note(&name, differ("resolve", &library_resolve(source, *table_len, *out_len), resolve));
            outcomes.note(&name, differ("quick check", library::quick_check(source), *quick));
            if let Some(tokens) = tokens {
                outcomes.note(&name, differ("tokens", &library_tokens(source), tokens));
            }
            outcomes.note(&name, check::walk(source).err());
        }
    }
}

/// Checks all cases of a file; without one nothing has passed.
fn run(file: &OsStr) -> std::io::Result<ExitCode> {
    let mut outcomes = Outcomes::default();
    for line in fs::read_to_string(file)?.lines() {
        let json = Json::parse(line).expect("a JSON object on each line");
        let name = format!("case {}", json.field("id").number());
        if json.find("family").is_some() {
            family::check(&name, &json, &mut outcomes);
        } else {
            let case = case(name, &json);
            reference_case(&case, &mut outcomes);
            library_case(&case, &mut outcomes);
        }
    }
    Ok(outcomes.exit(&format!("given cases of {}", file.display())))
}

fn main() -> ExitCode {
    let files: Vec<_> = env::args_os().skip(1).collect();
    if files.is_empty() {
        eprintln!("given FILE..");
        return ExitCode::from(2);
    }
    for file in files {
        match run(&file) {
            Ok(ExitCode::SUCCESS) => {}
            Ok(failure) => return failure,
            Err(fault) => {
                eprintln!("{}: {fault}", file.display());
                return ExitCode::from(2);
            }
        }
    }
    ExitCode::SUCCESS
}
