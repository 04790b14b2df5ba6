//! The specimens that document 01 marks Run, as the program that runs them makes them.

use crate::cases::Case;
use reference::LONGEST;

const START: &str = "formset guid={0x1,0x2,0x3,{0x4,0x5,0x6,0x7,0x8,0x9,0xA,0xB}},title=STRING_TOKEN(2),\
                     help=STRING_TOKEN(3),form formid=1,title=STRING_TOKEN(4);";
const END: &str = "endform;endformset;";

fn framed(items: &str, rows: usize) -> Case {
    Case { number: 0, rows, source: format!("{START}{items}{END}").into_bytes() }
}

/// A rule whose number stands in so many parentheses.
fn parentheses(count: usize) -> Case {
    framed(&format!("rule A,{}1{} endrule;", "(".repeat(count), ")".repeat(count)), 8)
}

/// So many conditions, each within the one before.
fn conditions(count: usize) -> Case {
    framed(&format!("{}{}", "suppressif\n1;".repeat(count), "endif;".repeat(count)), 64)
}

fn rules(count: usize, rows: usize) -> Case {
    framed(&(0..count).map(|at| format!("rule A{at:03},1\nendrule;")).collect::<String>(), rows)
}

/// A source of so many bytes.
fn bytes(count: usize) -> Case {
    framed(&" ".repeat(count - START.len() - END.len()), 4)
}

/// The groups, each under the name that the program prints.
pub fn specimens() -> Vec<(&'static str, Vec<Case>)> {
    vec![
        ("32 and 33 parentheses", vec![parentheses(32), parentheses(33)]),
        ("16 and 17 conditions", vec![conditions(16), conditions(17)]),
        ("255 and 256 rules", vec![rules(255, 512), rules(256, 514)]),
        ("65536 and 65537 bytes", vec![bytes(LONGEST), bytes(LONGEST + 1)]),
        ("a table one row short", vec![rules(255, 511), rules(256, 513)]),
    ]
}
