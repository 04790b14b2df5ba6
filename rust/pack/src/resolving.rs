//! The packed cases of resolving: a sequence of cases and an end. All numbers have 4 bytes, the high byte first.
//!
//! - case: number of bytes of the source, number of bytes of the expected output, the source, the expected output
//! - end: 0xFFFFFFFF

use crate::cases::Case;
use reference::{Refusal, LONGEST};

const END: u32 = 0xFFFF_FFFF;

/// What the program `resolve` has to print of a case; a refusal's line, if it is one.
fn expected(case: &Case) -> Result<String, String> {
    match reference::resolve(&case.source, case.rows, LONGEST) {
        Ok((_, text)) => Ok(text),
        Err(Refusal { number, place, .. }) => Err(format!("refused {number} at {place}\n")),
    }
}

/// The cases' bytes.
pub fn packed(cases: &[Case]) -> Vec<u8> {
    let number = |number: usize| u32::try_from(number).expect("a number of four bytes").to_be_bytes();
    let mut bytes = Vec::new();
    for case in cases {
        let output = expected(case).unwrap_or_else(|line| line);
        bytes.extend(number(case.source.len()));
        bytes.extend(number(output.len()));
        bytes.extend(&case.source);
        bytes.extend(output.bytes());
    }
    bytes.extend(END.to_be_bytes());
    bytes
}

/// What the program that resolves them prints if all agree.
pub fn printed(cases: &[Case]) -> String {
    let all = cases.len();
    let resolved = cases.iter().filter(|case| expected(case).is_ok()).count();
    format!("{all} of {all} agree\n{resolved} resolved, {} refused\n", all - resolved)
}
