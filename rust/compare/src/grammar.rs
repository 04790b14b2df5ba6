//! Random texts of the grammar, with faults of chosen stages or none.

mod numeric;
mod sorted;

use crate::random::Random;

pub const OPERATORS: [&str; 17] =
    ["OR", "AND", "|", "&", "==", "!=", "<", "<=", ">", ">=", "<<", ">>", "+", "-", "*", "/", "%"];

const FLAGS: [&str; 3] = ["READ_ONLY", "INTERACTIVE", "RESET_REQUIRED"];

/// Names that are easily taken for something else; pairs in the last line have one key in the library's index of names.
#[rustfmt::skip]
pub const NAMES: [&str; 45] = [
    "A", "B", "a", "b", "_", "__", "_0", "R1", "R2", "N", "NAME", "STR", "x", "x0", "x00", "true", "True", "TRUE_",
    "endi", "endif_", "Endif", "NOT1", "NOTx", "ON", "ONESS", "rules", "ru", "varid", "key", "questionrefs", "forms", "or",
    "NUMERIC_SIZE_3", "NUMERIC_SIZE", "numeric_size_1", "DISPLAY_INT_HEX", "DISPLAY_INT_DEC_", "DISPLAY", "_2",
    "YeHtR", "QrpY", "gzL", "uJlAv", "xSP", "QWBvx",
];

/// A fault for which a text is to be refused: one of 3 (a numeric's word among the flags of another question), of 4 and of
/// 16, two of 5 (a number that no place may have, or one over the size of its numeric), one each of 7 to 10, two of 11 (what
/// is referred to is nowhere, or is a rule of another form), one of 12 and of 14.
#[derive(Clone, Copy, PartialEq, Eq)]
enum Fault {
    Misplaced,
    Depth,
    SecondWord,
    Range,
    Size,
    Form,
    Number,
    Name,
    Rules,
    Lost,
    OtherForm,
    Choice,
    Circle,
}

const FAULTS: [Fault; 13] = [
    Fault::Misplaced,
    Fault::Depth,
    Fault::SecondWord,
    Fault::Range,
    Fault::Size,
    Fault::Form,
    Fault::Number,
    Fault::Name,
    Fault::Rules,
    Fault::Lost,
    Fault::OtherForm,
    Fault::Choice,
    Fault::Circle,
];

/// The sort of a value, where it is known.
#[derive(Clone, Copy, PartialEq, Eq)]
enum Sort {
    Truth,
    Number,
    Unknown,
}

/// What a question or rule is found by, and the sort of its value.
struct Declared<T> {
    by: T,
    sort: Sort,
}

/// Where the tokens of a reference start, the form and the rule it stands in, and the sort that is wanted.
struct Reference {
    at: usize,
    form: usize,
    rule: Option<usize>,
    sort: Sort,
}

/// A text of the grammar.
pub fn text(random: &mut Random) -> Vec<u8> {
    let tokens = tokens(random);
    render(&tokens, random)
}

/// The tokens of a long one, without a fault.
pub fn many_tokens(random: &mut Random) -> Vec<String> {
    let items = random.between(40, 200);
    Writer::new(random, Vec::new()).source(items)
}

/// The tokens of one.
pub fn tokens(random: &mut Random) -> Vec<String> {
    let faults = match random.below(10) {
        0..=3 => Vec::new(),
        4..=8 => vec![FAULTS[random.below(FAULTS.len())]],
        _ => FAULTS.into_iter().filter(|_| random.once_in(3)).collect(),
    };
    let items = match random.below(60) {
        0 => random.between(200, 600),
        1..=9 => random.between(20, 80),
        _ => random.below(16),
    };
    Writer::new(random, faults).source(items)
}

/// Writes the tokens of one source.
struct Writer<'r> {
    random: &'r mut Random,
    faults: Vec<Fault>,
    /// A fault is made once in so many chances.
    rarity: usize,
    tokens: Vec<String>,
    forms: Vec<u64>,
    /// The form that is written, from 0.
    form: usize,
    numbers: Vec<Declared<u64>>,
    question_names: Vec<Declared<String>>,
    rule_names: Vec<Declared<String>>,
    /// The form of each rule.
    rule_forms: Vec<usize>,
    /// The rule that is written, from 0.
    rule: Option<usize>,
    /// What they refer to is chosen at the end.
    references: Vec<Reference>,
    /// Whether operators mostly get operands of their sorts.
    is_sorted: bool,
    conditions: usize,
    /// How many more atoms the expression may have.
    atoms: usize,
}

impl<'r> Writer<'r> {
    fn new(random: &'r mut Random, faults: Vec<Fault>) -> Self {
        let rarity = [2, 5, 30][random.below(3)];
        let is_sorted = random.once_in(2);
        Writer {
            random,
            faults,
            rarity,
            is_sorted,
            tokens: Vec::new(),
            forms: Vec::new(),
            form: 0,
            numbers: Vec::new(),
            question_names: Vec::new(),
            rule_names: Vec::new(),
            rule_forms: Vec::new(),
            rule: None,
            references: Vec::new(),
            conditions: 0,
            atoms: 0,
        }
    }

    /// Whether to make this fault here.
    fn slips(&mut self, fault: Fault) -> bool {
        self.faults.contains(&fault) && self.random.once_in(self.rarity)
    }

    fn push(&mut self, token: impl Into<String>) {
        self.tokens.push(token.into());
    }

    /// Tokens that are written with blanks between.
    fn phrase(&mut self, phrase: &str) {
        self.tokens.extend(phrase.split(' ').map(str::to_string));
    }

    fn source(mut self, items: usize) -> Vec<String> {
        let forms = self.random.between(1, 4);
        self.choose_forms(forms);
        self.phrase("formset guid =");
        self.guid();
        self.phrase(", title =");
        self.string();
        self.phrase(", help =");
        self.string();
        self.push(",");
        for form in 0..forms {
            self.form = form;
            self.form(self.forms[form], items.div_ceil(forms));
        }
        self.phrase("endformset ;");
        self.choose_references();
        self.tokens.retain(|token| !token.is_empty());
        self.tokens
    }

    fn choose_forms(&mut self, count: usize) {
        while self.forms.len() < count {
            let number = self.value(1, 65_535);
            if self.slips(Fault::Form) && !self.forms.is_empty() {
                self.forms.push(self.forms[self.random.below(self.forms.len())]);
            } else if !self.forms.contains(&number) {
                self.forms.push(number);
            }
        }
    }

    /// A value of the range, often at its ends.
    fn value(&mut self, low: u64, high: u64) -> u64 {
        let any = self.random.number();
        match self.random.below(8) {
            0 => low,
            1 => high,
            2 => high - (any % 3).min(high - low),
            3 => low + (any % (1 << 40)).min(high - low),
            4 if high == u64::MAX => any,
            _ => low + (any % 20).min(high - low),
        }
    }

    /// A spelling of a value, or of one outside the range.
    fn number(&mut self, value: u64, low: u64, high: u64) {
        let token = if self.slips(Fault::Range) { self.outside(low, high) } else { self.spelled(u128::from(value)) };
        self.push(token);
    }

    fn outside(&mut self, low: u64, high: u64) -> String {
        match self.random.below(5) {
            0 if low > 0 => self.spelled(0),
            1 => format!("{}{}", self.random.between(1, 9), "7".repeat(self.random.between(19, 60))),
            2 => format!("0x{}{}", self.random.between(1, 9), "f".repeat(self.random.between(16, 40))),
            3 => self.spelled(1 << 64),
            _ => self.spelled(u128::from(high) + 1),
        }
    }

    fn spelled(&mut self, value: u128) -> String {
        let zeros = if self.random.once_in(8) { "0".repeat(self.random.between(1, 30)) } else { String::new() };
        match self.random.below(4) {
            0 => format!("0x{zeros}{value:X}"),
            1 => format!("0x{zeros}{value:x}"),
            _ => format!("{zeros}{value}"),
        }
    }

    fn guid(&mut self) {
        let inner = self.random.once_in(2);
        self.push("{");
        for digits in [8, 4, 4] {
            self.hex(digits);
            self.push(",");
        }
        if inner {
            self.push("{");
        }
        for byte in 0..8 {
            if byte > 0 {
                self.push(",");
            }
            self.hex(2);
        }
        if inner {
            self.push("}");
        }
        self.push("}");
    }

    fn hex(&mut self, most: usize) {
        let digits =
            if self.slips(Fault::Range) { most + self.random.between(1, 20) } else { self.random.between(1, most) };
        let text: String = (0..digits).map(|_| char::from(b"0123456789abcdefABCDEF"[self.random.below(22)])).collect();
        self.push(format!("0x{text}"));
    }

    fn string(&mut self) {
        self.phrase("STRING_TOKEN (");
        let value = self.value(0, 65_535);
        self.number(value, 0, 65_535);
        self.push(")");
    }

    fn form(&mut self, number: u64, items: usize) {
        self.phrase("form formid =");
        self.number(number, 1, 65_535);
        self.phrase(", title =");
        self.string();
        self.push(";");
        let mut left = items;
        self.maybe_rules();
        while left > 0 {
            if self.random.once_in(6) {
                self.rules();
                left -= 1;
            } else {
                self.item(&mut left);
            }
        }
        self.maybe_rules();
        self.phrase("endform ;");
    }

    /// A rule now and then, for the references of its form.
    fn maybe_rules(&mut self) {
        if self.random.once_in(4) {
            self.rules();
        }
    }

    /// A rule, or so many that they are too many.
    fn rules(&mut self) {
        let count = if self.slips(Fault::Rules) { self.random.between(250, 270) } else { 1 };
        for _ in 0..count {
            self.push("rule");
            let name = self.fresh(true);
            let sort = self.rule_sort();
            self.push(name.clone());
            self.rule = Some(self.rule_names.len());
            self.rule_names.push(Declared { by: name, sort });
            self.rule_forms.push(self.form);
            self.push(",");
            self.expression(sort, if count > 1 { 1 } else { 12 });
            self.rule = None;
            self.phrase("endrule ;");
        }
    }

    /// A name that is new among rules or among questions, if no fault is wanted.
    fn fresh(&mut self, rule: bool) -> String {
        let slips = self.slips(Fault::Name);
        let names = if rule { &self.rule_names } else { &self.question_names };
        if slips && !names.is_empty() {
            return names[self.random.below(names.len())].by.clone();
        }
        loop {
            let mut name = self.random.pick(&NAMES).to_string();
            if self.random.once_in(2) {
                name += &self.random.below(400).to_string();
            }
            if self.random.once_in(50) {
                name += &"y".repeat(self.random.between(10, 300));
            }
            let names = if rule { &self.rule_names } else { &self.question_names };
            if !names.iter().any(|declared| declared.by == name) {
                return name;
            }
        }
    }

    fn item(&mut self, left: &mut usize) {
        *left = left.saturating_sub(1);
        match self.random.below(16) {
            0 => {
                self.phrase("subtitle text =");
                self.string();
                self.push(";");
            }
            1 => {
                self.phrase("text help =");
                self.string();
                self.phrase(", text =");
                self.string();
                self.push(";");
            }
            2 => {
                self.push("label");
                let value = self.value(0, 65_535);
                self.number(value, 0, 65_535);
                self.push(";");
            }
            3..=4 => self.goto(),
            5..=6 => self.checkbox(),
            7..=8 => self.numeric(),
            9..=10 => self.oneof(),
            _ => self.condition(left),
        }
    }

    /// HEAD of a question whose answers have this sort.
    fn head(&mut self, sort: Sort) {
        if self.random.once_in(2) || self.faults.contains(&Fault::Name) {
            self.phrase("name =");
            let name = self.fresh(false);
            self.push(name.clone());
            self.question_names.push(Declared { by: name, sort });
            self.push(",");
        }
        if self.random.once_in(2) || self.faults.contains(&Fault::Number) {
            self.phrase("questionid =");
            let number = self.question_number(sort);
            self.number(number, 1, 65_535);
            self.push(",");
        }
        self.phrase("prompt =");
        self.string();
        self.phrase(", help =");
        self.string();
    }

    fn question_number(&mut self, sort: Sort) -> u64 {
        if self.slips(Fault::Number) && !self.numbers.is_empty() {
            return self.numbers[self.random.below(self.numbers.len())].by;
        }
        loop {
            let number = match self.random.below(3) {
                0 => self.value(1, 65_535),
                1 => self.random.between(1, 200) as u64,
                _ => 64 * self.random.between(1, 1023) as u64 - 1 + self.random.below(3) as u64,
            };
            if !self.numbers.iter().any(|declared| declared.by == number) {
                self.numbers.push(Declared { by: number, sort });
                return number;
            }
        }
    }

    /// FL of a question that is no numeric.
    fn flag_list(&mut self) {
        let count = self.random.between(1, 4);
        let mut words: Vec<&str> = (0..count).map(|_| self.random.pick(&FLAGS)).collect();
        if self.slips(Fault::Misplaced) {
            words[self.random.below(count)] = self.numeric_word();
        }
        self.phrase(&words.join(" | "));
    }

    fn flags(&mut self) {
        if self.random.once_in(2) {
            self.phrase("flags =");
            self.flag_list();
            self.push(",");
        }
    }

    fn goto(&mut self) {
        self.push("goto");
        let known = self.forms[self.random.below(self.forms.len())];
        let target = if self.slips(Fault::Lost) { self.value(1, 65_535) } else { known };
        self.number(target, 1, 65_535);
        self.push(",");
        self.head(Sort::Unknown);
        if self.random.once_in(2) {
            self.phrase(", flags =");
            self.flag_list();
        }
        self.push(";");
    }

    fn checkbox(&mut self) {
        self.push("checkbox");
        self.head(Sort::Truth);
        self.push(",");
        self.flags();
        if self.random.once_in(2) {
            self.phrase("default =");
            let value = self.random.pick(&["TRUE", "FALSE"]);
            self.push(value);
            self.push(",");
        }
        self.phrase("endcheckbox ;");
    }

    fn oneof(&mut self) {
        self.push("oneof");
        self.head(Sort::Number);
        self.push(",");
        self.flags();
        let count = if self.random.once_in(20) { self.random.between(20, 60) } else { self.random.between(1, 6) };
        let mut values = Vec::new();
        let mut has_default = false;
        while values.len() < count {
            let value = self.value(0, u64::MAX);
            if values.contains(&value) && !self.slips(Fault::Choice) {
                values.push(self.random.number());
            } else {
                values.push(value);
            }
            self.phrase("option text =");
            self.string();
            self.phrase(", value =");
            self.number(values[values.len() - 1], 0, u64::MAX);
            self.phrase(", flags =");
            if self.random.once_in(4) && (!has_default || self.slips(Fault::Choice)) {
                has_default = true;
                self.push("DEFAULT");
            } else {
                self.number(0, 0, 0);
            }
            self.push(";");
        }
        self.phrase("endoneof ;");
    }

    fn condition(&mut self, left: &mut usize) {
        let most = if self.slips(Fault::Depth) { 20 } else { 16 };
        if self.conditions >= most {
            return;
        }
        let deep = if self.random.once_in(12) { self.random.between(10, 18).min(most - self.conditions) } else { 1 };
        for _ in 0..deep {
            let word = self.random.pick(&["suppressif", "grayoutif", "disableif"]);
            self.push(word);
            self.conditions += 1;
            self.expression(Sort::Truth, 12);
            self.push(";");
        }
        for _ in 0..deep {
            let items = self.random.below(3).min(*left);
            for _ in 0..items {
                self.item(left);
            }
            self.phrase("endif ;");
            self.conditions -= 1;
        }
    }

    /// An expression of a sort, if sorts are kept.
    fn expression(&mut self, sort: Sort, atoms: usize) {
        if self.is_sorted && !self.random.once_in(10) {
            let depth = if atoms > 1 { self.random.below(5) } else { 0 };
            return self.sorted(sort, 1, depth);
        }
        self.atoms = if atoms > 1 && self.random.once_in(40) { 300 } else { atoms };
        self.operation(0);
    }

    fn operation(&mut self, open: usize) {
        self.atom(open);
        while self.atoms > 0 && !self.random.once_in(3) {
            let operator = self.random.pick(&OPERATORS);
            self.push(operator);
            self.atom(open);
        }
    }

    fn atom(&mut self, open: usize) {
        self.atoms = self.atoms.saturating_sub(1);
        let most = if self.slips(Fault::Depth) { 36 } else { 32 };
        match self.random.below(12) {
            0..=1 if self.atoms > 0 && open < most => self.groups(open, 1),
            2 if self.random.once_in(6) && open < most => {
                let deep = self.random.between(20, 36).min(most - open);
                self.groups(open, deep);
            }
            3..=4 => self.reference("questionref", Sort::Unknown),
            5 => self.reference("ruleref", Sort::Unknown),
            6..=7 => {
                let word = self.random.pick(&["TRUE", "FALSE", "ZERO", "ONE", "ONES", "UNDEFINED"]);
                self.push(word);
            }
            _ => {
                let value = self.value(0, u64::MAX);
                self.number(value, 0, u64::MAX);
            }
        }
    }

    /// Parentheses and `NOT`s, some levels of them.
    fn groups(&mut self, open: usize, levels: usize) {
        if levels == 0 {
            return self.operation(open);
        }
        if self.random.once_in(2) {
            self.push("NOT");
            if levels == 1 {
                self.atom(open + 1);
            } else {
                self.group(open + 1, levels - 1);
            }
        } else {
            self.group(open, levels);
        }
    }

    fn group(&mut self, open: usize, levels: usize) {
        self.push("(");
        self.groups(open + 1, levels - 1);
        self.push(")");
    }

    fn reference(&mut self, word: &str, sort: Sort) {
        self.references.push(Reference { at: self.tokens.len(), form: self.form, rule: self.rule, sort });
        self.push(word);
        self.phrase("( ? )");
    }

    /// Gives each reference what it refers to; one that can find nothing becomes another atom.
    fn choose_references(&mut self) {
        let ranks = self.ranks();
        for reference in std::mem::take(&mut self.references) {
            let Reference { at, sort, .. } = reference;
            let target = match (self.tokens[at] == "ruleref", self.slips(Fault::Lost)) {
                (true, true) => Some(self.lost_rule()),
                (true, false) => self.other_rule(&reference).or_else(|| self.found_rule(&reference, &ranks)),
                (false, true) => Some(self.lost_question()),
                (false, false) => self.found_question(sort),
            };
            match target {
                Some(target) => self.tokens[at + 2] = target,
                None => {
                    let atom = if sort == Sort::Truth { self.random.pick(&["TRUE", "FALSE"]) } else { "ONE" };
                    self.tokens[at] = atom.to_string();
                    self.tokens[at + 1..at + 4].fill(String::new());
                }
            }
        }
    }

    /// A rank for each rule; those that refer to higher ones alone make no circle. Later rules are higher, or earlier ones,
    /// or any.
    fn ranks(&mut self) -> Vec<u64> {
        let count = self.rule_names.len() as u64;
        match self.random.below(3) {
            0 => (0..count).collect(),
            1 => (0..count).rev().collect(),
            _ => (0..count).map(|_| self.random.number()).collect(),
        }
    }

    fn one_of(&mut self, targets: &[String]) -> Option<String> {
        match targets.len() {
            0 => None,
            count => Some(targets[self.random.below(count)].clone()),
        }
    }

    /// A rule of the reference's form.
    fn found_rule(&mut self, reference: &Reference, ranks: &[u64]) -> Option<String> {
        let slips = self.slips(Fault::Circle);
        let is_higher = |at: usize| slips || reference.rule.is_none_or(|rule| ranks[at] > ranks[rule]);
        let rules = self.rule_names.iter().zip(&self.rule_forms).enumerate();
        let own = rules.filter(|(at, (_, form))| **form == reference.form && is_higher(*at)).map(|(_, (rule, _))| rule);
        let targets: Vec<String> =
            own.filter(|rule| rule.sort.fits(reference.sort)).map(|rule| rule.by.clone()).collect();
        self.one_of(&targets)
    }

    fn found_question(&mut self, sort: Sort) -> Option<String> {
        let by_number = self.random.once_in(2);
        let numbers: Vec<u64> = self.numbers.iter().filter(|number| number.sort.fits(sort)).map(|it| it.by).collect();
        if by_number && !numbers.is_empty() {
            let number = numbers[self.random.below(numbers.len())];
            return Some(self.spelled(u128::from(number)));
        }
        let names = self.question_names.iter().filter(|name| name.sort.fits(sort));
        let names: Vec<String> = names.map(|name| name.by.clone()).collect();
        self.one_of(&names)
    }

    /// A name that may be no rule's.
    fn lost_rule(&mut self) -> String {
        let questions: Vec<String> = self.question_names.iter().map(|name| name.by.clone()).collect();
        self.one_of(&questions).unwrap_or_else(|| self.random.pick(&NAMES).to_string())
    }

    /// A rule of another form than the reference's, if that fault is to be made and there is one.
    fn other_rule(&mut self, reference: &Reference) -> Option<String> {
        if !self.slips(Fault::OtherForm) {
            return None;
        }
        let rules = self.rule_names.iter().zip(&self.rule_forms);
        let others = rules.filter(|(_, form)| **form != reference.form);
        let others: Vec<String> = others.map(|(rule, _)| rule.by.clone()).collect();
        self.one_of(&others)
    }

    /// A number or name that may be no question's.
    fn lost_question(&mut self) -> String {
        if self.random.once_in(2) {
            return self.value(1, 300).to_string();
        }
        let rules: Vec<String> = self.rule_names.iter().map(|name| name.by.clone()).collect();
        self.one_of(&rules).unwrap_or_else(|| self.random.pick(&NAMES).to_string())
    }
}

fn in_word(byte: u8) -> bool {
    byte.is_ascii_alphanumeric() || byte == b'_'
}

/// The tokens' bytes with blanks and comments between: none that is not needed, a space, any, or lines.
pub fn render(tokens: &[impl AsRef<str>], random: &mut Random) -> Vec<u8> {
    let style = random.below(6);
    if style >= 4 {
        return render_lines(tokens, random);
    }
    let mut bytes = Vec::new();
    for token in tokens {
        let token = token.as_ref().as_bytes();
        let meet = would_meet(&bytes, token);
        match style {
            0 | 1 if meet => bytes.push(b' '),
            2 => bytes.push(b' '),
            3 => gap(&mut bytes, meet, random),
            _ => {}
        }
        bytes.extend(token);
    }
    if style == 3 {
        gap(&mut bytes, false, random);
    }
    bytes
}

/// Whether a token would run on from the bytes before it.
fn would_meet(bytes: &[u8], token: &[u8]) -> bool {
    bytes.last().is_some_and(|&last| in_word(last)) && token.first().is_some_and(|&first| in_word(first))
}

fn gap(bytes: &mut Vec<u8>, needed: bool, random: &mut Random) {
    if needed {
        bytes.push(b" \t\r\n"[random.below(4)]);
    }
    while random.once_in(3) {
        bytes.push(b" \t\r\n"[random.below(4)]);
    }
    if random.once_in(30) {
        comment(bytes, random);
        bytes.push(b'\n');
    }
}

/// A comment of any bytes but LF, bytes over 127 and CR among them; an LF is to follow.
fn comment(bytes: &mut Vec<u8>, random: &mut Random) {
    bytes.extend(b"//");
    if random.once_in(4) {
        bytes.extend(random.pick(&[" caf\u{e9}", "\u{2192}\t", " a\rb", "// \u{1f525}"]).bytes());
    }
    for _ in 0..random.below(12) {
        let byte = random.number() as u8;
        bytes.push(if byte == b'\n' { b'/' } else { byte });
    }
}

/// The tokens in lines: a statement or a part of one on each, indented, with comments and empty lines between. Lines end
/// in LF, in CR LF, or in either; the last may have no end.
pub fn render_lines(tokens: &[impl AsRef<str>], random: &mut Random) -> Vec<u8> {
    let ends: &[&str] = [&["\n"][..], &["\r\n"], &["\n", "\r\n", "\r", "\n\n", "\r\r\n"]][random.below(3)];
    let mut bytes = Vec::new();
    for token in tokens {
        let token = token.as_ref().as_bytes();
        let breaks = bytes.ends_with(b";") || bytes.ends_with(b",") && random.once_in(5);
        if breaks {
            line_break(&mut bytes, ends, random);
        } else if would_meet(&bytes, token) || random.once_in(3) {
            bytes.push(b" \t"[random.below(2)]);
        }
        bytes.extend(token);
    }
    match random.below(4) {
        0 => {}
        1 => comment(&mut bytes, random),
        _ => line_break(&mut bytes, ends, random),
    }
    bytes
}

/// The end of a line, comments and empty lines, and the blanks before the next token.
fn line_break(bytes: &mut Vec<u8>, ends: &[&str], random: &mut Random) {
    loop {
        if random.once_in(4) {
            comment(bytes, random);
            bytes.push(b'\n');
        } else {
            bytes.extend(random.pick(ends).bytes());
        }
        let indent = random.below(4);
        bytes.extend(std::iter::repeat_n(b" \t"[random.below(2)], indent));
        if !random.once_in(5) {
            return;
        }
    }
}
