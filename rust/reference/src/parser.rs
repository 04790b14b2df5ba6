//! Document 01, section "Grammar": recursive descent over the tokens, with the refusals of stages 2 to 5 and, before 5, of
//! document 02's 16.

use crate::format::{Display, Format};
use crate::lexer::{value, Kind, Lexer, Token};
use crate::row::{code, column, flag, level, row, Row};
use crate::{first_fault, Refusal, RANGE_REFUSAL, SECOND_WORD_REFUSAL};
use std::ops::RangeInclusive;

const OPEN_CONDITIONS: usize = 16;
const OPEN_GROUPS: usize = 32;
const IDENTITY: RangeInclusive<u64> = 1..=65_535;
const SHORT: RangeInclusive<u64> = 0..=65_535;
const ANY: RangeInclusive<u64> = 0..=u64::MAX;
/// What an absent step is (W-208).
const ABSENT_STEP: u64 = 1;

/// What a reference looks for.
pub enum Target<'a> {
    Form(u64),
    Question(u64),
    QuestionName(&'a [u8]),
    RuleName(&'a [u8]),
}

/// What the parser tells of a source, in its order. The quick check hears nothing of it.
pub trait Events<'a> {
    /// A row; the answer is its index.
    fn row(&mut self, _row: Row) -> usize {
        0
    }
    fn form(&mut self, _number: u64, _place: usize) {}
    fn question(&mut self, _row: usize, _head: &Head<'a>) {}
    fn rule(&mut self, _row: usize, _place: usize, _name: &'a [u8], _name_place: usize) {}
    fn reference(&mut self, _target: Target<'a>, _row: usize, _place: usize) {}
    /// A numeric's limits: values with their places.
    fn limits(&mut self, _format: Format, _minimum: u64, _maximum: At<u64>, _default: Option<At<u64>>) {}
    fn oneof(&mut self) {}
    fn option(&mut self, _value: At<u64>, _default: Option<usize>) {}
}

/// A value and the place of its token.
#[derive(Clone, Copy)]
pub struct At<T> {
    pub value: T,
    pub place: usize,
}

/// HEAD: what the four kinds of question start with.
pub struct Head<'a> {
    pub name: Option<At<&'a [u8]>>,
    pub number: Option<At<u64>>,
    prompt: u64,
    help: u64,
}

impl Head<'_> {
    fn row(&self, code: u64, parent: usize, place: usize) -> Row {
        let mut cells = row(code, parent, place);
        cells[column::NUMBER] = self.number.map_or(0, |number| number.value);
        cells[column::FIRST] = self.prompt;
        cells[column::SECOND] = self.help;
        cells[column::NAME] = self.name.map_or(0, |name| name.place as u64 + 1);
        cells
    }
}

/// A word of FL.
enum FlagWord {
    Flag(u64),
    Size(u32),
    Display(Display),
}

impl FlagWord {
    fn of(kind: Kind) -> Option<Self> {
        Some(match kind {
            Kind::ReadOnly => FlagWord::Flag(flag::READ_ONLY),
            Kind::Interactive => FlagWord::Flag(flag::INTERACTIVE),
            Kind::ResetRequired => FlagWord::Flag(flag::RESET_REQUIRED),
            Kind::NumericSize1 => FlagWord::Size(1),
            Kind::NumericSize2 => FlagWord::Size(2),
            Kind::NumericSize4 => FlagWord::Size(4),
            Kind::NumericSize8 => FlagWord::Size(8),
            Kind::DisplayIntDec => FlagWord::Display(Display::IntDec),
            Kind::DisplayUintDec => FlagWord::Display(Display::UintDec),
            Kind::DisplayUintHex => FlagWord::Display(Display::UintHex),
            _ => return None,
        })
    }
}

/// What FL says: its flags, and the first size and the first display of a numeric's.
#[derive(Default)]
struct Flags {
    bits: u64,
    size: Option<u32>,
    display: Option<Display>,
}

impl Flags {
    fn format(&self) -> Format {
        let Format { size, display } = Format::ABSENT;
        Format { size: self.size.unwrap_or(size), display: self.display.unwrap_or(display) }
    }
}

/// Whose FL is read: sizes and displays stand in that of a numeric alone.
#[derive(Clone, Copy, PartialEq, Eq)]
enum Question {
    Numeric,
    Other,
}

type Parsed<T> = Result<T, Refusal>;

struct Parser<'a, 'e, E> {
    source: &'a [u8],
    lexer: Lexer<'a>,
    /// The next token.
    token: Token,
    /// The first second size or display of a numeric.
    second_word: Option<usize>,
    /// The first number outside its range.
    out_of_range: Option<usize>,
    /// Grouping parentheses and `NOT`s that are unfinished.
    open_groups: usize,
    open_conditions: usize,
    events: &'e mut E,
}

/// Stages 2 to 5 over a source, with 16 between 4 and 5; what it holds is told to the events.
pub fn parse<'a, E: Events<'a>>(source: &'a [u8], events: &mut E) -> Result<(), Refusal> {
    let mut lexer = Lexer::new(source);
    let token = lexer.next_token();
    let mut parser = Parser {
        source,
        lexer,
        token,
        second_word: None,
        out_of_range: None,
        open_groups: 0,
        open_conditions: 0,
        events,
    };
    parser.formset().map_err(|refusal| parser.bad_token().unwrap_or(refusal))?;
    first_fault([(SECOND_WORD_REFUSAL, parser.second_word), (RANGE_REFUSAL, parser.out_of_range)])
}

impl<'a, E: Events<'a>> Parser<'a, '_, E> {
    /// Refusal 2, if there is a bad token from the next one on.
    fn bad_token(&mut self) -> Option<Refusal> {
        while self.token.kind != Kind::End {
            if self.token.kind == Kind::Bad {
                return Some(Refusal::new(2, self.token.start));
            }
            self.advance();
        }
        None
    }

    fn advance(&mut self) -> Token {
        std::mem::replace(&mut self.token, self.lexer.next_token())
    }

    fn unexpected<T>(&self) -> Parsed<T> {
        Err(Refusal::new(3, self.token.start))
    }

    fn sees(&self, kind: Kind) -> bool {
        self.token.kind == kind
    }

    /// The place of a token of this kind.
    fn one(&mut self, kind: Kind) -> Parsed<usize> {
        if self.sees(kind) {
            Ok(self.advance().start)
        } else {
            self.unexpected()
        }
    }

    fn all(&mut self, kinds: &[Kind]) -> Parsed<()> {
        kinds.iter().try_for_each(|&kind| self.one(kind).map(drop))
    }

    /// Whether the token was there, and is passed.
    fn maybe(&mut self, kind: Kind) -> bool {
        let seen = self.sees(kind);
        if seen {
            self.advance();
        }
        seen
    }

    fn text(&self, token: Token) -> &'a [u8] {
        &self.source[token.start..token.end]
    }

    fn name(&mut self) -> Parsed<At<&'a [u8]>> {
        if !self.sees(Kind::Word) {
            return self.unexpected();
        }
        let token = self.advance();
        Ok(At { value: self.text(token), place: token.start })
    }

    fn sees_number(&self) -> bool {
        self.sees(Kind::Decimal) || self.sees(Kind::Hex)
    }

    /// N, with the range that refusal 5 gives it.
    fn number(&mut self, range: RangeInclusive<u64>) -> Parsed<At<u64>> {
        if !self.sees_number() {
            return self.unexpected();
        }
        let token = self.advance();
        let place = token.start;
        match value(self.text(token)) {
            Some(value) if range.contains(&value) => Ok(At { value, place }),
            _ => {
                self.out_of_range.get_or_insert(place);
                Ok(At { value: 0, place })
            }
        }
    }

    /// H8, H4 or H2.
    fn hex(&mut self, digits: usize) -> Parsed<u64> {
        if !self.sees(Kind::Hex) {
            return self.unexpected();
        }
        let token = self.advance();
        if token.end - token.start > 2 + digits {
            self.out_of_range.get_or_insert(token.start);
            return Ok(0);
        }
        Ok(value(self.text(token)).unwrap_or(0))
    }

    /// STR.
    fn string(&mut self) -> Parsed<u64> {
        self.all(&[Kind::StringToken, Kind::OpenParen])?;
        let number = self.number(SHORT)?;
        self.one(Kind::CloseParen)?;
        Ok(number.value)
    }

    fn word_and_string(&mut self, word: Kind) -> Parsed<u64> {
        self.all(&[word, Kind::Equals])?;
        self.string()
    }

    fn formset(&mut self) -> Parsed<()> {
        let place = self.one(Kind::Formset)?;
        self.all(&[Kind::Guid, Kind::Equals])?;
        let mut cells = row(code::FORMSET, 0, place);
        (cells[column::A], cells[column::B]) = self.guid()?;
        self.one(Kind::Comma)?;
        cells[column::FIRST] = self.word_and_string(Kind::Title)?;
        self.one(Kind::Comma)?;
        cells[column::SECOND] = self.word_and_string(Kind::Help)?;
        self.one(Kind::Comma)?;
        self.events.row(cells);
        self.form()?;
        while self.sees(Kind::Form) {
            self.form()?;
        }
        self.all(&[Kind::Endformset, Kind::Semicolon, Kind::End])
    }

    fn guid(&mut self) -> Parsed<(u64, u64)> {
        self.one(Kind::OpenBrace)?;
        let mut high = 0;
        for (digits, bits) in [(8, 32), (4, 16), (4, 16)] {
            high = high << bits | self.hex(digits)?;
            self.one(Kind::Comma)?;
        }
        let inner = self.maybe(Kind::OpenBrace);
        let mut low = self.hex(2)?;
        for _ in 1..8 {
            self.one(Kind::Comma)?;
            low = low << 8 | self.hex(2)?;
        }
        if inner {
            self.one(Kind::CloseBrace)?;
        }
        self.one(Kind::CloseBrace)?;
        Ok((high, low))
    }

    fn form(&mut self) -> Parsed<()> {
        let place = self.one(Kind::Form)?;
        self.all(&[Kind::Formid, Kind::Equals])?;
        let number = self.number(IDENTITY)?;
        self.one(Kind::Comma)?;
        let mut cells = row(code::FORM, 0, place);
        cells[column::NUMBER] = number.value;
        cells[column::FIRST] = self.word_and_string(Kind::Title)?;
        self.one(Kind::Semicolon)?;
        let form = self.events.row(cells);
        self.events.form(number.value, number.place);
        while !self.sees(Kind::Endform) {
            if self.sees(Kind::Rule) {
                self.rule(form)?;
            } else {
                self.item(form)?;
            }
        }
        self.all(&[Kind::Endform, Kind::Semicolon])
    }

    fn rule(&mut self, parent: usize) -> Parsed<()> {
        let place = self.one(Kind::Rule)?;
        let name = self.name()?;
        self.one(Kind::Comma)?;
        let mut cells = row(code::RULE, parent, place);
        cells[column::NAME] = name.place as u64 + 1;
        let rule = self.events.row(cells);
        self.events.rule(rule, place, name.value, name.place);
        self.expression(rule)?;
        self.all(&[Kind::Endrule, Kind::Semicolon])
    }

    fn item(&mut self, parent: usize) -> Parsed<()> {
        match self.token.kind {
            Kind::Subtitle => self.subtitle(parent),
            Kind::Text => self.text_item(parent),
            Kind::Label => self.label(parent),
            Kind::Goto => self.goto(parent),
            Kind::Checkbox => self.checkbox(parent),
            Kind::Numeric => self.numeric(parent),
            Kind::Oneof => self.oneof(parent),
            Kind::Suppressif => self.condition(code::SUPPRESSIF, parent),
            Kind::Grayoutif => self.condition(code::GRAYOUTIF, parent),
            Kind::Disableif => self.condition(code::DISABLEIF, parent),
            _ => self.unexpected(),
        }
    }

    fn subtitle(&mut self, parent: usize) -> Parsed<()> {
        let mut cells = row(code::SUBTITLE, parent, self.advance().start);
        cells[column::FIRST] = self.word_and_string(Kind::Text)?;
        self.one(Kind::Semicolon)?;
        self.events.row(cells);
        Ok(())
    }

    fn text_item(&mut self, parent: usize) -> Parsed<()> {
        let mut cells = row(code::TEXT, parent, self.advance().start);
        cells[column::SECOND] = self.word_and_string(Kind::Help)?;
        self.one(Kind::Comma)?;
        cells[column::FIRST] = self.word_and_string(Kind::Text)?;
        self.one(Kind::Semicolon)?;
        self.events.row(cells);
        Ok(())
    }

    fn label(&mut self, parent: usize) -> Parsed<()> {
        let mut cells = row(code::LABEL, parent, self.advance().start);
        cells[column::NUMBER] = self.number(SHORT)?.value;
        self.one(Kind::Semicolon)?;
        self.events.row(cells);
        Ok(())
    }

    /// The row of a question whose statement is read.
    fn question(&mut self, cells: Row, head: &Head<'a>) -> usize {
        let row = self.events.row(cells);
        self.events.question(row, head);
        row
    }

    fn goto(&mut self, parent: usize) -> Parsed<()> {
        let place = self.advance().start;
        let target = self.number(IDENTITY)?;
        self.one(Kind::Comma)?;
        let head = self.head()?;
        let mut cells = head.row(code::GOTO, parent, place);
        cells[column::A] = target.value;
        if self.maybe(Kind::Comma) {
            self.all(&[Kind::Flags, Kind::Equals])?;
            cells[column::FLAGS] = self.flag_list(Question::Other)?.bits;
        }
        self.one(Kind::Semicolon)?;
        let row = self.question(cells, &head);
        self.events.reference(Target::Form(target.value), row, target.place);
        Ok(())
    }

    fn checkbox(&mut self, parent: usize) -> Parsed<()> {
        let place = self.advance().start;
        let head = self.head_and_comma()?;
        let mut cells = head.row(code::CHECKBOX, parent, place);
        cells[column::FLAGS] = self.flags(Question::Other)?.bits;
        if self.maybe(Kind::Default) {
            self.one(Kind::Equals)?;
            cells[column::FLAGS] |= flag::WRITTEN_DEFAULT;
            cells[column::D] = match self.token.kind {
                Kind::True => 1,
                Kind::False => 0,
                _ => return self.unexpected(),
            };
            self.advance();
            self.one(Kind::Comma)?;
        }
        self.all(&[Kind::Endcheckbox, Kind::Semicolon])?;
        self.question(cells, &head);
        Ok(())
    }

    fn numeric(&mut self, parent: usize) -> Parsed<()> {
        let place = self.advance().start;
        let head = self.head_and_comma()?;
        let mut cells = head.row(code::NUMERIC, parent, place);
        let flags = self.flags(Question::Numeric)?;
        let format = flags.format();
        let Some(minimum) = self.setting(Kind::Minimum, format)? else { return self.unexpected() };
        let Some(maximum) = self.setting(Kind::Maximum, format)? else { return self.unexpected() };
        let step = self.setting(Kind::Step, format)?;
        let default = self.setting(Kind::Default, format)?;
        self.all(&[Kind::Endnumeric, Kind::Semicolon])?;
        cells[column::FLAGS] = flags.bits;
        cells[column::SIZE] = format.cell();
        cells[column::A] = minimum.value;
        cells[column::B] = maximum.value;
        cells[column::C] = step.map_or(ABSENT_STEP, |step| step.value);
        cells[column::D] = default.map_or(0, |default| default.value);
        if default.is_some() {
            cells[column::FLAGS] |= flag::WRITTEN_DEFAULT;
        }
        self.question(cells, &head);
        self.events.limits(format, minimum.value, maximum, default);
        Ok(())
    }

    /// A word, `=`, N that fits a numeric's size and `,`; or nothing, where the word is absent.
    fn setting(&mut self, word: Kind, format: Format) -> Parsed<Option<At<u64>>> {
        if !self.maybe(word) {
            return Ok(None);
        }
        self.one(Kind::Equals)?;
        let number = self.number(format.range())?;
        self.one(Kind::Comma)?;
        Ok(Some(number))
    }

    fn oneof(&mut self, parent: usize) -> Parsed<()> {
        let place = self.advance().start;
        let head = self.head_and_comma()?;
        let mut cells = head.row(code::ONEOF, parent, place);
        cells[column::FLAGS] = self.flags(Question::Other)?.bits;
        let oneof = self.question(cells, &head);
        self.events.oneof();
        self.option(oneof)?;
        while self.sees(Kind::Option) {
            self.option(oneof)?;
        }
        self.all(&[Kind::Endoneof, Kind::Semicolon])
    }

    fn option(&mut self, oneof: usize) -> Parsed<()> {
        let place = self.one(Kind::Option)?;
        let mut cells = row(code::OPTION, oneof, place);
        cells[column::FIRST] = self.word_and_string(Kind::Text)?;
        self.all(&[Kind::Comma, Kind::Value, Kind::Equals])?;
        let value = self.number(ANY)?;
        cells[column::A] = value.value;
        self.all(&[Kind::Comma, Kind::Flags, Kind::Equals])?;
        let default = if self.sees(Kind::DefaultFlag) {
            cells[column::FLAGS] = flag::DEFAULT;
            Some(self.advance().start)
        } else {
            self.number(0..=0)?;
            None
        };
        self.one(Kind::Semicolon)?;
        self.events.row(cells);
        self.events.option(value, default);
        Ok(())
    }

    fn condition(&mut self, code: u64, parent: usize) -> Parsed<()> {
        if self.open_conditions == OPEN_CONDITIONS {
            return Err(Refusal::new(4, self.token.start));
        }
        self.open_conditions += 1;
        let place = self.advance().start;
        let condition = self.events.row(row(code, parent, place));
        self.expression(condition)?;
        self.one(Kind::Semicolon)?;
        while !self.sees(Kind::Endif) {
            self.item(condition)?;
        }
        self.all(&[Kind::Endif, Kind::Semicolon])?;
        self.open_conditions -= 1;
        Ok(())
    }

    fn head(&mut self) -> Parsed<Head<'a>> {
        let mut name = None;
        if self.maybe(Kind::Name) {
            self.one(Kind::Equals)?;
            name = Some(self.name()?);
            self.one(Kind::Comma)?;
        }
        let mut number = None;
        if self.maybe(Kind::Questionid) {
            self.one(Kind::Equals)?;
            number = Some(self.number(IDENTITY)?);
            self.one(Kind::Comma)?;
        }
        let prompt = self.word_and_string(Kind::Prompt)?;
        self.one(Kind::Comma)?;
        let help = self.word_and_string(Kind::Help)?;
        Ok(Head { name, number, prompt, help })
    }

    fn head_and_comma(&mut self) -> Parsed<Head<'a>> {
        let head = self.head()?;
        self.one(Kind::Comma)?;
        Ok(head)
    }

    /// [`flags =` FL `,`].
    fn flags(&mut self, question: Question) -> Parsed<Flags> {
        if !self.maybe(Kind::Flags) {
            return Ok(Flags::default());
        }
        self.one(Kind::Equals)?;
        let flags = self.flag_list(question)?;
        self.one(Kind::Comma)?;
        Ok(flags)
    }

    /// FL.
    fn flag_list(&mut self, question: Question) -> Parsed<Flags> {
        let mut flags = Flags::default();
        loop {
            match FlagWord::of(self.token.kind) {
                Some(FlagWord::Flag(bit)) => flags.bits |= bit,
                Some(FlagWord::Size(size)) if question == Question::Numeric => self.once(&mut flags.size, size),
                Some(FlagWord::Display(display)) if question == Question::Numeric => {
                    self.once(&mut flags.display, display)
                }
                _ => return self.unexpected(),
            }
            self.advance();
            if !self.maybe(Kind::Bar) {
                return Ok(flags);
            }
        }
    }

    /// Keeps what the next token means; where a word of its sort was kept before, this one is a second.
    fn once<T>(&mut self, kept: &mut Option<T>, meaning: T) {
        if kept.is_some() {
            self.second_word.get_or_insert(self.token.start);
        } else {
            *kept = Some(meaning);
        }
    }

    fn expression(&mut self, parent: usize) -> Parsed<()> {
        self.operation(1, parent)
    }

    /// Atoms joined by operators that are at least as tight as the level.
    fn operation(&mut self, loosest: u8, parent: usize) -> Parsed<()> {
        self.atom(parent)?;
        while let Some(operator) = binary(self.token.kind) {
            let Some(level) = level(operator).filter(|&level| level >= loosest) else { break };
            let place = self.advance().start;
            self.operation(level + 1, parent)?;
            self.events.row(row(operator, parent, place));
        }
        Ok(())
    }

    fn atom(&mut self, parent: usize) -> Parsed<()> {
        let constant = match self.token.kind {
            Kind::Not => return self.not(parent),
            Kind::OpenParen => return self.group(parent),
            Kind::Questionref => return self.question_reference(parent),
            Kind::Ruleref => return self.rule_reference(parent),
            Kind::Decimal | Kind::Hex => return self.literal(parent),
            Kind::True => code::TRUE,
            Kind::False => code::FALSE,
            Kind::Zero => code::ZERO,
            Kind::One => code::ONE,
            Kind::Ones => code::ONES,
            Kind::Undefined => code::UNDEFINED,
            _ => return self.unexpected(),
        };
        let place = self.advance().start;
        self.events.row(row(constant, parent, place));
        Ok(())
    }

    /// The place of a `(` or `NOT`, if one more may be unfinished.
    fn open(&mut self) -> Parsed<usize> {
        if self.open_groups == OPEN_GROUPS {
            return Err(Refusal::new(4, self.token.start));
        }
        self.open_groups += 1;
        Ok(self.advance().start)
    }

    fn not(&mut self, parent: usize) -> Parsed<()> {
        let place = self.open()?;
        self.atom(parent)?;
        self.open_groups -= 1;
        self.events.row(row(code::NOT, parent, place));
        Ok(())
    }

    fn group(&mut self, parent: usize) -> Parsed<()> {
        self.open()?;
        self.expression(parent)?;
        self.one(Kind::CloseParen)?;
        self.open_groups -= 1;
        Ok(())
    }

    fn literal(&mut self, parent: usize) -> Parsed<()> {
        let number = self.number(ANY)?;
        let mut cells = row(code::NUMBER, parent, number.place);
        cells[column::A] = number.value;
        self.events.row(cells);
        Ok(())
    }

    fn question_reference(&mut self, parent: usize) -> Parsed<()> {
        let mut cells = row(code::QUESTIONREF, parent, self.advance().start);
        self.one(Kind::OpenParen)?;
        let (target, place) = if self.sees_number() {
            let number = self.number(IDENTITY)?;
            cells[column::A] = number.value;
            (Target::Question(number.value), number.place)
        } else {
            let name = self.name()?;
            (Target::QuestionName(name.value), name.place)
        };
        self.one(Kind::CloseParen)?;
        let row = self.events.row(cells);
        self.events.reference(target, row, place);
        Ok(())
    }

    fn rule_reference(&mut self, parent: usize) -> Parsed<()> {
        let cells = row(code::RULEREF, parent, self.advance().start);
        self.one(Kind::OpenParen)?;
        let name = self.name()?;
        self.one(Kind::CloseParen)?;
        let row = self.events.row(cells);
        self.events.reference(Target::RuleName(name.value), row, name.place);
        Ok(())
    }
}

/// The code of a binary operator.
pub fn binary(kind: Kind) -> Option<u64> {
    Some(match kind {
        Kind::Or => code::OR,
        Kind::And => code::AND,
        Kind::Bar => code::BIT_OR,
        Kind::Ampersand => code::BIT_AND,
        Kind::Equal => code::EQUAL,
        Kind::NotEqual => code::NOT_EQUAL,
        Kind::Less => code::LESS,
        Kind::LessEqual => code::LESS_EQUAL,
        Kind::Greater => code::GREATER,
        Kind::GreaterEqual => code::GREATER_EQUAL,
        Kind::ShiftLeft => code::SHIFT_LEFT,
        Kind::ShiftRight => code::SHIFT_RIGHT,
        Kind::Plus => code::ADD,
        Kind::Minus => code::SUBTRACT,
        Kind::Star => code::MULTIPLY,
        Kind::Slash => code::DIVIDE,
        Kind::Percent => code::REMAINDER,
        _ => return None,
    })
}
