//! Document 02, W-203: a `ruleref` finds only a rule of its own form, on the examples of the readings and some more.

mod frame;
mod outcome;

use frame::framed;
use outcome::{assert_accepted, assert_refused, at};
use reference::{column, read, resolve, show, Position, Refusal, Row, CIRCLE_REFUSAL, LOST_REFUSAL};

const RULE: u64 = 0x18;
const RULEREF: u64 = 0x3F;

/// The items of forms that are numbered 1, 2, .. and follow each other.
fn forms(items: &[&str]) -> String {
    let later = |(at, items): (usize, &&str)| format!("endform;form formid={},title=S;{items}", at + 2);
    items[..1].iter().map(|first| first.to_string()).chain(items[1..].iter().enumerate().map(later)).collect()
}

fn assert_lost(items: &[&str], place: usize) {
    assert_refused(&forms(items), at(LOST_REFUSAL, place));
}

fn assert_found(items: &[&str], rows: usize) {
    assert_accepted(&forms(items), rows, 65_535);
}

/// What the rows of one code hold in a column, in their order.
fn cells(rows: &[Row], code: u64, at: usize) -> Vec<u64> {
    rows.iter().filter(|row| row[column::CODE] == code).map(|row| row[at]).collect()
}

#[test]
fn a_rule_of_another_form_is_not_found() {
    assert_lost(&["rule A,1 endrule;", "suppressif ruleref(A);endif;"], 220);
    assert_lost(&["suppressif ruleref(A);endif;", "rule A,1 endrule;"], 159);
    assert_lost(&["rule A,1 endrule;", "rule B,ruleref(A) endrule;"], 216);
    assert_lost(&["rule B,ruleref(A) endrule;", "rule A,1 endrule;"], 155);
    assert_lost(&["rule A,1 endrule;", "", "suppressif ruleref(A);endif;"], 264);
    assert_lost(&["", "rule A,1 endrule;suppressif ruleref(A);endif;", "suppressif ruleref(A);endif;"], 292);
}

#[test]
fn a_rule_of_the_own_form_is_found_earlier_or_later() {
    assert_found(&["suppressif ruleref(A);endif;rule A,1 endrule;"], 6);
    assert_found(&["rule A,1 endrule;suppressif ruleref(A);endif;"], 6);
    assert_found(&["", "suppressif ruleref(A);endif;rule A,1 endrule;"], 7);
    assert_found(&["", "rule A,1 endrule;suppressif ruleref(A);endif;", ""], 8);
    assert_found(&["rule A,ruleref(B)endrule;rule B,1 endrule;", "rule C,1 endrule;rule D,ruleref(C)endrule;"], 11);
}

/// The form is the one round all conditions, and what stands between a rule and its reference does not matter.
#[test]
fn the_form_however_deep() {
    assert_found(&["rule A,1 endrule;grayoutif 1;disableif ruleref(A);endif;endif;"], 8);
    let (open, close) = ("suppressif 1;".repeat(15), "endif;".repeat(15));
    let deep = |rule: &str| format!("{open}grayoutif NOT({rule});label 1;endif;{close}");
    assert_found(&["rule A,1 endrule;", &format!("{}rule B,1 endrule;", deep("ruleref(B)"))], 41);
    assert_lost(&["rule A,1 endrule;", &format!("{}rule B,1 endrule;", deep("ruleref(A)"))], 418);
    let ends = "suppressif 1;endif;goto 1,P;suppressif 1;endif;";
    let source = forms(&["rule A,1 endrule;", &format!("rule B,1 endrule;{ends}grayoutif ruleref(B);endif;")]);
    assert_accepted(&source, 14, 65_534);
}

#[test]
fn names_stay_unique_in_the_form_set() {
    let same = forms(&["rule A,1 endrule;", "rule A,1 endrule;suppressif ruleref(A);endif;"]);
    assert_refused(&same, at(9, 206));
    let earlier = forms(&["suppressif ruleref(A);endif;rule A,1 endrule;", "rule A,1 endrule;"]);
    assert_refused(&earlier, at(9, 234));
}

/// Rules count from 1 through the form set, in rows, texts and the limit.
#[test]
fn numbering_stays() {
    let source = framed(&forms(&["rule A,1 endrule;", "rule B,2 endrule;suppressif ruleref(B);endif;"]));
    let (reading, text) = resolve(source.as_bytes(), 70_000, 65_536).expect("its rules are found");
    assert_eq!(cells(&reading.rows, RULE, column::NUMBER), [1, 2]);
    assert_eq!(cells(&reading.rows, RULEREF, column::A), [2]);
    assert!(text.contains("rule R2 , 2 endrule ;\nsuppressif ruleref ( R2 ) ;\n"), "{text}");
    let (again, same) = resolve(text.as_bytes(), 70_000, 65_536).expect("a resolved text is accepted");
    assert_eq!((again.rows.len(), &same), (reading.rows.len(), &text));
    let rules = |from: usize, to: usize| (from..to).map(|at| format!("rule A{at},1 endrule;")).collect::<String>();
    assert_found(&[&rules(0, 200), &rules(200, 255)], 513);
    let one_more = forms(&[&rules(0, 200), &rules(200, 256)]);
    assert_refused(&one_more, at(10, 5_174));
}

#[test]
fn gotos_and_questions_serve_the_form_set() {
    let question = "checkbox name=A,questionid=7,P,endcheckbox;";
    assert_accepted(&forms(&["checkbox name=A,P,endcheckbox;", "suppressif questionref(A);endif;"]), 6, 65_534);
    assert_accepted(&forms(&["suppressif questionref(A);endif;", question]), 6, 65_534);
    assert_accepted(&forms(&[question, "", "rule A,questionref(7)endrule;"]), 7, 65_534);
    assert_accepted(&forms(&["goto 2,P;", "goto 1,P;"]), 5, 65_533);
}

/// Such a reference is lost before circles are looked for, so that each circle lies in one form.
#[test]
fn before_circles() {
    assert_lost(&["rule A,ruleref(B)endrule;", "rule B,ruleref(A)endrule;"], 155);
    assert_lost(&["rule A,ruleref(A)endrule;", "suppressif ruleref(A);endif;"], 228);
    assert_lost(&["rule A,ruleref(B)endrule;rule B,ruleref(A)+ruleref(C)endrule;", "rule C,1 endrule;"], 191);
    let second = forms(&["rule C,1 endrule;", "rule B,1 endrule;rule A,ruleref(A)endrule;"]);
    assert_refused(&second, at(CIRCLE_REFUSAL, 233));
}

/// One stage with the references that find nothing at all: the earliest token answers. It comes after 7 to 10, before 12.
#[test]
fn order() {
    assert_lost(&["rule A,1 endrule;", "goto 7,P;suppressif ruleref(A);endif;"], 206);
    assert_lost(&["rule A,1 endrule;", "suppressif ruleref(A);endif;goto 7,P;"], 220);
    assert_lost(&["rule A,1 endrule;", "suppressif ruleref(Z)OR ruleref(A);endif;"], 220);
    assert_lost(&["numeric P,minimum=5,maximum=4,endnumeric;suppressif ruleref(A);endif;", "rule A,1 endrule;"], 242);
    let question = "checkbox questionid=5,P,endcheckbox;";
    let repeated = forms(&["suppressif ruleref(A);endif;", &format!("rule A,1 endrule;{question}{question}")]);
    assert_refused(&repeated, at(8, 327));
    let short = Refusal { number: 6, place: 0, position: Position::NONE, need: 7 };
    let lost = framed(&forms(&["rule A,1 endrule;", "suppressif ruleref(A);endif;"]));
    assert_eq!(read(lost.as_bytes(), 6), Err(short));
}

#[test]
fn line_and_column() {
    let refusal = Refusal { position: Position { line: 3, column: 2 }, ..at(LOST_REFUSAL, 222) };
    assert_refused(&forms(&["rule A,1 endrule;", "suppressif\nruleref(\n A);endif;"]), refusal);
}

/// Each form's conditions go by the rules of their own form.
#[test]
fn screens_of_forms() {
    let hides =
        |rule: &str, value: &str| format!("suppressif ruleref({rule});label 1;endif;rule {rule},{value} endrule;");
    let source = framed(&forms(&[&hides("A", "TRUE"), &hides("B", "FALSE"), &hides("C", "NOT FALSE")]));
    let (_, bytes) = show(source.as_bytes(), &[], 70_000, 70_000).expect("its rules are found");
    assert_eq!(bytes, [0, 0, 0, 0, 1, 0, 0, 0, 0, 0, 0, 0, 0, 0, 0, 0, 1, 0, 0, 0]);
}
