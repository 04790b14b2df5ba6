//! `pack [--check] CASES SPECIMENS READING RESOLVING`: the packed cases (`stdin`) and stored outputs (`stdout`) of the
//! gate's programs, from the sources of the folder CASES and the answers of the reference. SPECIMENS is the folder of the
//! program that runs document 01's specimens, READING that of the one that reads the packed cases (it may be the same) and
//! RESOLVING that of the one that resolves them. `--check` writes nothing and fails where a file is not as it would be made.

#![forbid(unsafe_code)]

mod cases;
mod output;
mod reading;
mod resolving;
mod specimens;

use cases::Case;
use output::Output;
use std::path::{Path, PathBuf};
use std::process::ExitCode;
use std::{env, fs, io};

/// A file and what it has to hold.
type Made = (PathBuf, Vec<u8>);

fn file(folder: &str, name: &str, bytes: Vec<u8>) -> Made {
    (Path::new(folder).join(name), bytes)
}

/// The files of the programs that run specimens and cases of reading; of one program, if both folders are the same.
fn reading_files(specimens: &str, reading: &str, groups: &[reading::Group]) -> Vec<Made> {
    let mut output = Output::default();
    specimens::specimens().iter().for_each(|(name, cases)| output.group(name, cases));
    let mut files = vec![file(reading, "stdin", reading::packed(groups))];
    if specimens != reading {
        files.push(file(specimens, "stdout", output.printed().into_bytes()));
        output = Output::default();
    }
    groups.iter().for_each(|(name, cases)| output.group(name, cases));
    files.push(file(reading, "stdout", output.printed().into_bytes()));
    files
}

fn resolving_files(folder: &str, cases: &[Case]) -> Vec<Made> {
    vec![
        file(folder, "stdin", resolving::packed(cases)),
        file(folder, "stdout", resolving::printed(cases).into_bytes()),
    ]
}

/// What a file holds now, if there is one.
fn held(path: &Path) -> io::Result<Option<Vec<u8>>> {
    match fs::read(path) {
        Err(fault) if fault.kind() == io::ErrorKind::NotFound => Ok(None),
        other => other.map(Some),
    }
}

/// Writes the files that are not yet as they should be, or only looks. Answers whether all were so.
fn settle(files: &[Made], is_check: bool) -> io::Result<bool> {
    let mut all_same = true;
    for (path, bytes) in files {
        let is_same = held(path)?.is_some_and(|held| held == *bytes);
        all_same &= is_same;
        if !is_same && !is_check {
            fs::write(path, bytes)?;
        }
        let state = match (is_same, is_check) {
            (true, false) => "as it was",
            (false, false) => "written",
            (true, true) => "as tools/pack makes it",
            (false, true) => "NOT as tools/pack makes it",
        };
        println!("{}: {} bytes, {state}", path.display(), bytes.len());
    }
    Ok(all_same)
}

fn run(words: &[String], is_check: bool) -> io::Result<Option<bool>> {
    let [folder, specimens, reading, resolving] = words else { return Ok(None) };
    let folder = Path::new(folder);
    let (read, resolved) = (cases::of_reading(folder)?, cases::of_resolving(folder)?);
    let mut files = reading_files(specimens, reading, &reading::groups(read, &resolved));
    files.extend(resolving_files(resolving, &resolved));
    settle(&files, is_check).map(Some)
}

fn main() -> ExitCode {
    let mut words: Vec<String> = env::args().skip(1).collect();
    let is_check = words.first().is_some_and(|word| word == "--check");
    if is_check {
        words.remove(0);
    }
    match run(&words, is_check) {
        Ok(Some(all_same)) if is_check && !all_same => ExitCode::FAILURE,
        Ok(Some(_)) => ExitCode::SUCCESS,
        Ok(None) => {
            eprintln!("pack [--check] CASES SPECIMENS READING RESOLVING");
            ExitCode::from(2)
        }
        Err(fault) => {
            eprintln!("pack: {fault}");
            ExitCode::from(2)
        }
    }
}
