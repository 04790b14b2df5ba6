//! Document 02, W-202: refusal 14, on the examples of its readings.

mod frame;
mod outcome;

use frame::framed;
use outcome::{assert_accepted, assert_refused, at};
use reference::{read, Position, Refusal};

/// The refusal 14 at a place on the source's first line.
fn circle(place: usize) -> Refusal {
    at(14, place)
}

#[test]
fn which_references() {
    assert_refused("rule A,ruleref(A) endrule;", circle(155));
    assert_accepted("rule A,questionref(A) endrule;checkbox name=A,P,endcheckbox;", 5, 65_534);
    assert_accepted("goto 1,P;", 3, 65_534);
}

/// A reference that only leads to a circle or out of one is no step of it.
#[test]
fn steps_of_a_circle() {
    assert_refused("rule C,ruleref(A) endrule;rule A,ruleref(B) endrule;rule B,ruleref(A) endrule;", circle(181));
    assert_refused("rule A,ruleref(C)+ruleref(B) endrule;rule B,ruleref(A) endrule;rule C,1 endrule;", circle(166));
    assert_refused("rule A,ruleref(B) endrule;rule B,ruleref(B) endrule;", circle(181));
}

/// By the place of the name, over all circles.
#[test]
fn the_first_step() {
    let two = "rule B,ruleref(C) endrule;rule C,ruleref(D)+ruleref(E) endrule;rule D,ruleref(D) endrule;\
               rule E,ruleref(B) endrule;";
    assert_refused(two, circle(155));
    assert_refused("rule A,ruleref(B)-ruleref(B) endrule;rule B,ruleref(A) endrule;", circle(155));
}

#[test]
fn conditions_have_no_steps() {
    assert_refused("suppressif ruleref(A);endif;rule A,NOT(ruleref(A)) endrule;", circle(187));
    assert_accepted("suppressif ruleref(A)OR ruleref(A);endif;rule A,1 endrule;", 8, 65_535);
}

#[test]
fn values_do_not_matter() {
    assert_refused("rule A,FALSE AND ruleref(A) endrule;", circle(165));
}

#[test]
fn two_ways_are_no_circle() {
    let two_ways = "rule A,ruleref(B)+ruleref(C) endrule;rule B,ruleref(D) endrule;rule C,ruleref(D) endrule;\
                    rule D,1 endrule;";
    assert_accepted(two_ways, 12, 65_535);
}

#[test]
fn long_chains() {
    let chain = |last: &str| {
        let rules: String = (0..254).map(|at| format!("rule A{at},ruleref(A{})endrule;", at + 1)).collect();
        format!("{rules}rule A254,{last} endrule;")
    };
    assert_accepted(&chain("1"), 512, 65_535);
    assert_refused(&chain("ruleref(A0)"), circle(156));
    assert_refused(&chain("ruleref(A253)"), circle(7_783));
}

/// After 12, wherever both stand, and before all that resolving and showing check; not before 6.
#[test]
fn order() {
    assert_refused("rule A,ruleref(A)+ruleref(Z) endrule;", at(11, 166));
    assert_refused("rule A,ruleref(A) endrule;numeric P,minimum=5,maximum=4,endnumeric;", at(12, 236));
    let short = Refusal { number: 6, place: 0, position: Position::NONE, need: 4 };
    assert_eq!(read(framed("rule A,ruleref(A) endrule;").as_bytes(), 3), Err(short));
}

#[test]
fn line_and_column() {
    let position = Position { line: 3, column: 2 };
    let refusal = Refusal { number: 14, place: 158, position, need: 0 };
    assert_refused("rule B,\nruleref(\n A)endrule;\nrule A,ruleref(B)endrule;", refusal);
}

/// A circle lies in one form, be it a later one (W-203).
#[test]
fn two_forms() {
    let next = "endform;form formid=2,title=S;";
    assert_refused(&format!("rule A,ruleref(B)endrule;{next}rule B,ruleref(A)endrule;"), at(11, 155));
    assert_refused(&format!("rule C,1 endrule;{next}rule A,ruleref(B)endrule;rule B,ruleref(A)endrule;"), circle(216));
}
