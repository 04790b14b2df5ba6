//! Texts at document 01's limits, and large ones.

use crate::grammar::{text, OPERATORS};
use crate::random::Random;
use reference::LONGEST;

/// A text at one of document 01's limits, or a little past it.
pub fn at_a_limit(random: &mut Random) -> Vec<u8> {
    match random.below(18) {
        0 => padded(random),
        1 => longest_chain(random),
        2 => many_rules(random),
        3 => {
            let count = random.between(1, 36);
            framed(&format!("rule A,{}1{}endrule;", "(".repeat(count), ")".repeat(count)))
        }
        4 => framed(&format!("rule A,{}1 endrule;", "NOT ".repeat(random.between(30, 35)))),
        5 => {
            let count = random.between(14, 19);
            framed(&format!("{}{}", "suppressif 1;".repeat(count), "endif;".repeat(count)))
        }
        6 => framed(&format!("label {}{};", "0".repeat(random.between(0, 5_000)), random.between(65_530, 65_540))),
        7 => framed(&format!("rule A,{}{} endrule;", 1_844_674_407_370_955_160u64, random.between(0, 19))),
        8 => many_questions(random),
        9 => many_options(random),
        10 => many_references(random),
        11 => about_1024_rows(random),
        12 => longest_text(random),
        13 => many_conditions(random),
        14 => many_answers(random),
        15 => many_numerics(random),
        16 => borders(random),
        _ => {
            let name = "n".repeat(random.between(1, 3_000));
            let other = format!("{}{}", &name[1..], random.pick(&["n", "m", "nn", ""]));
            framed(&format!(
                "rule {name},1 endrule;rule {other}_,1 endrule;rule z,ruleref({name})+ruleref({other}) endrule;"
            ))
        }
    }
}

/// About as many rules as there may be.
pub fn many_rules(random: &mut Random) -> Vec<u8> {
    let count = random.between(253, 258);
    framed(&(0..count).map(|at| format!("rule A{at},1 endrule;")).collect::<String>())
}

/// A source of one form with these items.
pub fn framed(items: &str) -> Vec<u8> {
    let start = "formset guid={0x1,0x2,0x3,{0x4,0x5,0x6,0x7,0x8,0x9,0xA,0xB}},title=STRING_TOKEN(2),\
                 help=STRING_TOKEN(3),form formid=1,title=STRING_TOKEN(4);";
    format!("{start}{items}endform;endformset;").into_bytes()
}

/// A source of forms with these items, numbered from 1.
pub fn framed_forms(forms: &[String]) -> Vec<u8> {
    let parted = |(at, items): (usize, &String)| match at {
        0 => items.clone(),
        _ => format!("endform;\nform formid={},title=STRING_TOKEN(1);{items}", at + 1),
    };
    framed(&forms.iter().enumerate().map(parted).collect::<String>())
}

/// A text that blanks or a comment, before or after it, make about as long as a source may be.
fn padded(random: &mut Random) -> Vec<u8> {
    let text = text(random);
    let length = random.between(65_534, 65_538).saturating_sub(text.len()).max(3);
    let blanks = random.pick(&[" ", "\n", "\r\n", "\t", "\r", " \n"]).bytes().cycle().take(length).collect();
    let comment = [b"//", vec![b'/'; length - 3].as_slice(), b"\n"].concat();
    let padding = if random.once_in(2) { blanks } else { comment };
    if random.once_in(2) {
        [padding, text].concat()
    } else {
        [text, padding].concat()
    }
}

/// About 1,024 rows, up to which the library takes the smaller index of names; the names are declared last.
fn about_1024_rows(random: &mut Random) -> Vec<u8> {
    let names = random.between(1, 100);
    let labels = 1_020 - 3 * names + random.below(8);
    let last = if random.once_in(3) { random.below(names) } else { names };
    let question = |at| format!("goto 1,name=q{at},prompt=STRING_TOKEN(0),help=STRING_TOKEN(0);");
    let rule = |at| format!("rule r{at},questionref(q{}) endrule;", names - 1 - at);
    let items = [
        "label 0;".repeat(labels),
        (0..names).map(question).collect(),
        (0..names - 1).map(rule).collect(),
        format!("rule r{last},ruleref(r0) endrule;"),
    ];
    framed(&items.concat())
}

/// A source whose resolved text is about as long as one may be: labels, which take ten bytes of it or a digit more.
fn longest_text(random: &mut Random) -> Vec<u8> {
    const FRAME: usize = 237;
    const LABEL: usize = 10;
    let bytes = random.between(LONGEST - 3, LONGEST + 3) - FRAME;
    let longer = bytes % LABEL + LABEL * random.below(2);
    let labels = (bytes - longer) / LABEL;
    framed(&format!("{}{}", "label 0;".repeat(labels - longer), "label 10;".repeat(longer)))
}

fn longest_chain(random: &mut Random) -> Vec<u8> {
    let operator = random.pick(&OPERATORS);
    let operator = if operator.len() > 1 { format!(" {operator} ") } else { operator.to_string() };
    let count = random.between(100, 64_000 / (operator.len() + 1));
    framed(&format!("rule A,{}1 endrule;", format!("1{operator}").repeat(count)))
}

fn many_questions(random: &mut Random) -> Vec<u8> {
    let count = random.between(10, 1_200);
    let written = random.between(1, 5);
    let question = |at: usize| {
        let number =
            if at.is_multiple_of(written) { format!("questionid={},", 1 + (at * 7) % 1_300) } else { String::new() };
        format!("goto 1,{number}prompt=STRING_TOKEN(0),help=STRING_TOKEN(0);")
    };
    framed(&(0..count).map(question).collect::<String>())
}

fn many_options(random: &mut Random) -> Vec<u8> {
    let count = random.between(10, 1_450);
    let repeat = if random.once_in(2) { random.between(count / 2, count) } else { count };
    let option =
        |at: usize| format!("option text=STRING_TOKEN(1),value={},flags=0;", if at == repeat { 1 } else { at });
    let options: String = (0..count).map(option).collect();
    framed(&format!("oneof prompt=STRING_TOKEN(0),help=STRING_TOKEN(0),{options}endoneof;"))
}

/// Many rules in some forms, and in each form a condition of many references to its own rules. If there are few, the name
/// past a form's last rule is referred to now and then: the next form's first, or none's.
fn many_references(random: &mut Random) -> Vec<u8> {
    let forms = [1, 1, 2, 5][random.below(4)];
    let names = random.between(1, 255 / forms);
    let count = random.between(1, 2_500 / forms);
    let past = usize::from(forms * count < 100);
    let form = |form: usize| {
        let first = form * names;
        let rules: String = (first..first + names).map(|at| format!("rule r{at},1 endrule;")).collect();
        let reference = |_| format!("ruleref(r{})+", first + random.below(names + past));
        let condition = format!("suppressif {}1;endif;", (0..count).map(reference).collect::<String>());
        if random.once_in(2) {
            rules + &condition
        } else {
            condition + &rules
        }
    };
    framed_forms(&(0..forms).map(form).collect::<Vec<String>>())
}

/// A source full of conditions that stand one in another, some of them TRUE.
fn many_conditions(random: &mut Random) -> Vec<u8> {
    let mut items = String::new();
    while items.len() < 60_000 {
        let depth = random.between(1, 16);
        for _ in 0..depth {
            items += random.pick(&["suppressif ", "grayoutif ", "disableif "]);
            items += random.pick(&["TRUE;", "FALSE;", "FALSE;", "FALSE;", "1<2;", "1/0==1;", "UNDEFINED;", "1;"]);
        }
        for _ in 0..depth {
            items += random.pick(&["label 1;", "", "subtitle text=STRING_TOKEN(1);"]);
            items += "endif;";
        }
    }
    framed(&items)
}

/// As many questions as fit, each with a condition that its answer may make TRUE.
fn many_answers(random: &mut Random) -> Vec<u8> {
    let count = random.between(400, 500);
    let question = |at: usize| {
        let number = 1 + (at * 131) % 65_535;
        let strings = "prompt=STRING_TOKEN(0),help=STRING_TOKEN(0)";
        let condition = format!("suppressif questionref({number});label 1;endif;");
        format!("checkbox questionid={number},{strings},endcheckbox;{condition}")
    };
    framed(&(0..count).map(question).collect::<String>())
}

/// Numerics whose resolved text is about as long as one may be, or longer; with a step, which is 0 or 1, or without.
fn many_numerics(random: &mut Random) -> Vec<u8> {
    let words = random.pick(&["", "flags=NUMERIC_SIZE_1,", "flags=DISPLAY_INT_DEC|NUMERIC_SIZE_4|READ_ONLY,"]);
    let step = random.pick(&["", "", "step=0,", "step=1,"]);
    let settings = format!("{words}minimum=0,maximum=0,{step}");
    let numeric = format!("numeric prompt=STRING_TOKEN(0),help=STRING_TOKEN(0),{settings}endnumeric;");
    framed(&numeric.repeat(random.between(340, 380)))
}

/// A numeric whose three limits, and step if it has one, are each at a border of some size, mostly its own.
fn borders(random: &mut Random) -> Vec<u8> {
    let bytes = [1, 2, 4, 8][random.below(4)];
    let display = random.pick(&["|DISPLAY_INT_DEC", "|DISPLAY_INT_DEC", "|DISPLAY_UINT_DEC", "|DISPLAY_UINT_HEX", ""]);
    let [minimum, maximum, step, default] = [(); 4].map(|()| border(bytes, random));
    let step = if random.once_in(4) { String::new() } else { format!("step={step},") };
    let settings = format!("minimum={minimum},maximum={maximum},{step}default={default}");
    let strings = "prompt=STRING_TOKEN(0),help=STRING_TOKEN(0)";
    framed(&format!("numeric {strings},flags=NUMERIC_SIZE_{bytes}{display},{settings},endnumeric;"))
}

/// 0, the highest bit of a size or the number past the size, or a number next to one of them; of another size now and then.
fn border(bytes: u32, random: &mut Random) -> u128 {
    let bits = 8 * if random.once_in(12) { [1, 2, 4, 8][random.below(4)] } else { bytes };
    match random.below(8) {
        0 => 0,
        1 => 1,
        2..=5 => (1 << (bits - 1)) + random.below(3) as u128 - 1,
        _ if random.once_in(8) => 1 << bits,
        _ => (1 << bits) - 1 - random.below(2) as u128,
    }
}
