//! The sources that are timed. A builder fills a source up to a size.

use std::collections::HashMap;

/// Document 01's worked example.
pub const EXAMPLE: &str = include_str!("../../../examples/fan.vfr");

const START: &str = "formset guid = { 0x1, 0x2, 0x3, { 0x4, 0x5, 0x6, 0x7, 0x8, 0x9, 0xA, 0xB } },
  title = STRING_TOKEN(2), help = STRING_TOKEN(3),\n";
const FORM: &str = "form formid = 1, title = STRING_TOKEN(4);\n";
const END: &str = "endform;\nendformset;\n";

/// A builder and what it builds.
pub struct Kind {
    pub name: &'static str,
    pub build: fn(usize) -> String,
}

pub const KINDS: [Kind; 12] = [
    Kind { name: "realistic", build: realistic },
    Kind { name: "operator chain", build: chain },
    Kind { name: "rules of one number", build: rules },
    Kind { name: "rules whose names have one hash", build: one_hash },
    Kind { name: "references to the last name", build: references },
    Kind { name: "references to a rule, deep", build: rule_references },
    Kind { name: "options of one oneof", build: options },
    Kind { name: "numerics of all sizes", build: numerics },
    Kind { name: "deep groups in deep conditions", build: groups },
    Kind { name: "blanks and comments", build: blanks },
    Kind { name: "a fault in the first token", build: early_fault },
    Kind { name: "a fault at the end", build: late_fault },
];

/// A frame round as many parts as there is room for.
pub fn filled(size: usize, start: &str, end: &str, part: impl Fn(usize) -> String) -> String {
    let mut text = start.to_string();
    for at in 0.. {
        let next = part(at);
        if text.len() + next.len() + end.len() > size {
            break;
        }
        text += &next;
    }
    text + end
}

pub fn in_form(size: usize, part: impl Fn(usize) -> String) -> String {
    filled(size, &format!("{START}{FORM}"), END, part)
}

/// Forms as set-up menus have them: every kind of statement, names, comments and indented lines.
fn realistic(size: usize) -> String {
    filled(size, START, "endformset;\n", realistic_form)
}

fn realistic_form(at: usize) -> String {
    let (form, string, previous) = (at + 1, 20 * at + 10, at.max(1));
    format!(
        "// Form {form}: fan and boot settings of one board.
form formid = {form:#x}, title = STRING_TOKEN({string});
  subtitle text = STRING_TOKEN({string});
  text help = STRING_TOKEN({string}), text = STRING_TOKEN({string});
  label {string};
  checkbox name = FanEnabled{at}, prompt = STRING_TOKEN({string}), help = STRING_TOKEN({string}),
    flags = INTERACTIVE | RESET_REQUIRED, default = TRUE,
  endcheckbox;
  rule FanRule{at}, questionref(FanEnabled{at}) == 1 AND NOT questionref(FanSpeed{at}) < 0x20 endrule;
  suppressif NOT questionref(FanEnabled{at}) OR ruleref(FanRule{at});
    numeric name = FanSpeed{at}, questionid = {question:#x}, prompt = STRING_TOKEN({string}),
      help = STRING_TOKEN({string}), flags = READ_ONLY, minimum = 0, maximum = 0xFF, step = 5, default = 60,
    endnumeric;
    grayoutif (questionref(FanSpeed{at}) + 2) * 3 >= 0x40;
      oneof name = BootOrder{at}, prompt = STRING_TOKEN({string}), help = STRING_TOKEN({string}),
        option text = STRING_TOKEN({string}), value = 0, flags = DEFAULT;
        option text = STRING_TOKEN({string}), value = 1, flags = 0;
        option text = STRING_TOKEN({string}), value = 2, flags = 0;
        option text = STRING_TOKEN({string}), value = 0x10, flags = 0;
      endoneof;
    endif;
  endif;
  goto {previous}, prompt = STRING_TOKEN({string}), help = STRING_TOKEN({string}), flags = INTERACTIVE;
endform;\n",
        question = 0x1000 + at,
    )
}

fn chain(size: usize) -> String {
    chain_in("rule A,", " endrule;\n", size)
}

/// A chain of sums between these.
pub fn chain_in(before: &str, after: &str, size: usize) -> String {
    filled(size, &format!("{START}{FORM}{before}"), &format!("1{after}{END}"), |_| "1+".to_string())
}

fn rules(size: usize) -> String {
    in_form(size, |at| format!("rule {},1 endrule;", short_name(at)))
}

/// Names as short as can be; none is a reserved word.
fn short_name(mut at: usize) -> String {
    const BYTES: &[u8] = b"ABCDEFGHIJKLMNPQRSTUVWXYZabcdefghijklmnopqrstuvwxyz_0123456789";
    const FIRST: usize = 52;
    let mut name = char::from(BYTES[at % FIRST]).to_string();
    at /= FIRST;
    while at > 0 {
        name.push(char::from(BYTES[(at - 1) % BYTES.len()]));
        at = (at - 1) / BYTES.len();
    }
    name
}

/// The worst that names can do to the library: all have one hash in its index, so that a search meets one after another.
fn one_hash(size: usize) -> String {
    let names = names_of_one_hash(size / "rule ABCDEF,1 endrule;".len());
    in_form(size, |at| names.get(at).map_or(" ".repeat(size), |name| format!("rule {name},1 endrule;")))
}

/// Names of six bytes. The library's hash of a word is `(hash * BASE + byte) % HASHES` from byte to byte (crate `stages`), so
/// that of a first half of three bytes counts BASE^3.
fn names_of_one_hash(count: usize) -> Vec<String> {
    const BASE: u64 = 403;
    const HASHES: u64 = 1 << 22;
    const BYTES: &[u8] = b"ABCDEFGHIJKLMNOPQRSTUVWXYZabcdefghijklmnopqrstuvwxyz";
    let halves = || BYTES.iter().flat_map(|a| BYTES.iter().flat_map(move |b| BYTES.iter().map(move |c| [*a, *b, *c])));
    let hash = |half: [u8; 3]| half.iter().fold(0, |hash, &byte| (hash * BASE + u64::from(byte)) % HASHES);
    let mut seconds: HashMap<u64, Vec<[u8; 3]>> = HashMap::new();
    halves().for_each(|half| seconds.entry(hash(half)).or_default().push(half));
    let seconds_of = |first| seconds.get(&(HASHES - hash(first) * BASE.pow(3) % HASHES)).into_iter().flatten();
    let names = halves().flat_map(|first| seconds_of(first).map(move |second| [first, *second].concat()));
    names.take(count).map(|name| String::from_utf8(name).expect("letters")).collect()
}

/// Half the bytes declare names, half refer to the last of them.
fn references(size: usize) -> String {
    let count = size / 2 / question(1000).len();
    let questions: String = (1000..1000 + count).map(question).collect();
    let reference = format!("questionref(Q{})+", 999 + count);
    let start = format!("{START}{FORM}{questions}rule A,");
    filled(size, &start, &format!("1 endrule;\n{END}"), |_| reference.clone())
}

/// References to a rule of the form, all of them in a condition that stands as deep as one may.
fn rule_references(size: usize) -> String {
    let (outer, ends) = ("suppressif 1;".repeat(15), "endif;".repeat(16));
    let start = format!("{START}{FORM}rule A,1 endrule;{outer}suppressif ");
    filled(size, &start, &format!("1;{ends}\n{END}"), |_| "ruleref(A)+".to_string())
}

fn question(at: usize) -> String {
    format!("goto 1,name=Q{at},prompt=STRING_TOKEN(1),help=STRING_TOKEN(1);")
}

fn options(size: usize) -> String {
    let start = format!("{START}{FORM}oneof prompt=STRING_TOKEN(1),help=STRING_TOKEN(1),");
    let option = |at| format!("option text=STRING_TOKEN(1),value={at},flags=0;");
    filled(size, &start, &format!("endoneof;\n{END}"), option)
}

/// Numerics of every size and display, with limits below zero.
fn numerics(size: usize) -> String {
    in_form(size, numeric)
}

fn numeric(at: usize) -> String {
    const FORMATS: [(&str, &str); 6] = [
        ("NUMERIC_SIZE_1 | DISPLAY_INT_DEC", "minimum = 251, maximum = 5, step = 1, default = 255"),
        ("NUMERIC_SIZE_2 | DISPLAY_UINT_HEX", "minimum = 0, maximum = 0xFFFF, step = 0x10, default = 0x8000"),
        ("READ_ONLY | DISPLAY_INT_DEC | NUMERIC_SIZE_4", "minimum = 0xFFFFFFF0, maximum = 0x7FFFFFFF, default = 0"),
        ("NUMERIC_SIZE_8 | DISPLAY_UINT_DEC", "minimum = 1, maximum = 18446744073709551615, step = 1000"),
        ("DISPLAY_INT_DEC", "minimum = 18446744073709551516, maximum = 100, default = 18446744073709551615"),
        ("INTERACTIVE | RESET_REQUIRED", "minimum = 0, maximum = 9, step = 1, default = 3"),
    ];
    let (flags, limits) = FORMATS[at % FORMATS.len()];
    let string = 10 + at;
    format!(
        "  numeric name = Sensor{at}, prompt = STRING_TOKEN({string}), help = STRING_TOKEN({string}),
    flags = {flags},
    {limits},
  endnumeric;\n"
    )
}

fn groups(size: usize) -> String {
    let condition = format!("suppressif {}1{};", "(".repeat(32), ")".repeat(32));
    let block = format!("{}{}", condition.repeat(16), "endif;".repeat(16));
    in_form(size, |_| block.clone())
}

fn blanks(size: usize) -> String {
    in_form(size, |at| if at.is_multiple_of(2) { " ".repeat(40) } else { format!("// {}\n", "a comment ".repeat(4)) })
}

fn early_fault(size: usize) -> String {
    format!("endform {}", realistic(size - 8))
}

/// Refused at its length, so that all its lines are counted.
fn late_fault(size: usize) -> String {
    let source = realistic(size);
    source.trim_end_matches(";\n").to_string()
}
