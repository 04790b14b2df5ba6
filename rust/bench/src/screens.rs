//! The sources and answers whose screens are timed.

use crate::inputs::{chain_in, filled, in_form, KINDS};
use reference::read;

const KB: usize = 1024;

/// A source and the answers to its questions.
pub struct Screen {
    pub name: &'static str,
    pub source: String,
    pub answers: Vec<u64>,
}

/// What every question is answered with: 1.
fn all_answered(source: &str) -> Vec<u64> {
    let mut numbers = read(source.as_bytes(), usize::MAX).expect("the source is accepted").question_numbers();
    numbers.sort_unstable();
    numbers.into_iter().flat_map(|number| [number, 1]).collect()
}

fn answered(name: &'static str, source: String) -> Screen {
    Screen { name, answers: all_answered(&source), source }
}

fn unanswered(name: &'static str, source: String) -> Screen {
    Screen { name, source, answers: Vec::new() }
}

/// So many answers, those past the last question to numbers that none bears.
fn more_answers(name: &'static str, source: String, count: usize) -> Screen {
    let mut answers = all_answered(&source);
    let past = (65_536..).flat_map(|number| [number, 1]);
    let missing = 2 * count - answers.len();
    answers.extend(past.take(missing));
    Screen { name, source, answers }
}

/// As many rules as there may be, the first made by one function, the last TRUE, and what they hide.
fn of_rules(count: usize, rule: impl Fn(usize) -> String) -> String {
    let rules: String = (0..count - 1).map(rule).collect();
    let last = format!("rule A{},TRUE endrule;suppressif ruleref(A0);label 1;endif;", count - 1);
    in_form(64 * KB, |at| match at {
        0 => format!("{rules}{last}"),
        _ => " ".repeat(64 * KB),
    })
}

fn next_rule(at: usize) -> String {
    format!("rule A{at},ruleref(A{}) endrule;", at + 1)
}

fn previous_rule(at: usize) -> String {
    match at {
        0 => "rule A0,ruleref(A254) endrule;".to_string(),
        1 => "rule A1,TRUE endrule;".to_string(),
        _ => format!("rule A{at},ruleref(A{}) endrule;", at - 1),
    }
}

fn many_references(at: usize) -> String {
    let to = |step: usize| (at + 1 + step * 17).min(254);
    let references: Vec<String> = (0..14).map(|step| format!("ruleref(A{})", to(step))).collect();
    format!("rule A{at},{} endrule;", references.join("=="))
}

/// Each the sum of the next with itself.
fn doubling() -> String {
    let double = |at: usize| format!("rule R{at},ruleref(R{0})+ruleref(R{0}) endrule;", at + 1);
    let rules: String = (0..60).map(double).collect();
    let items = format!("{rules}rule R60,1 endrule;suppressif ruleref(R0)==1<<60;label 1;endif;");
    in_form(items.len() + KB, |at| if at == 0 { items.clone() } else { " ".repeat(2 * items.len()) })
}

fn flat_conditions() -> String {
    in_form(64 * KB, |_| "suppressif 1==1;label 1;endif;".to_string())
}

fn nested_conditions() -> String {
    let block = format!("{}label 1;{}", "suppressif TRUE;".repeat(16), "endif;".repeat(16));
    in_form(64 * KB, |_| block.clone())
}

/// As many questions as fit, in falling order of their numbers.
fn questions() -> String {
    let question = |at| format!("goto 1,questionid={},prompt=STRING_TOKEN(1),help=STRING_TOKEN(1);", 60_000 - at);
    in_form(64 * KB, question)
}

/// As many conditions on one question as fit.
fn references() -> String {
    let question = "checkbox name=Q,prompt=STRING_TOKEN(1),help=STRING_TOKEN(1),endcheckbox;suppressif FALSE";
    let start = in_form(0, |_| String::new());
    let (head, end) = start.split_at(start.find("endform").expect("a form"));
    filled(64 * KB, &format!("{head}{question}"), &format!(";label 1;endif;{end}"), |_| "==questionref(Q)".to_string())
}

/// All of them.
pub fn screens() -> Vec<Screen> {
    let realistic = KINDS[0].build;
    vec![
        unanswered("realistic, 20 KB, no answers", realistic(20 * KB)),
        answered("realistic, 20 KB", realistic(20 * KB)),
        answered("realistic, 64 KB", realistic(64 * KB)),
        unanswered("255 rules in a chain", of_rules(255, next_rule)),
        unanswered("255 rules, each referring to the one before", of_rules(255, previous_rule)),
        unanswered("255 rules of 14 references", of_rules(255, many_references)),
        unanswered("sixty doubling rules", doubling()),
        unanswered("conditions, 64 KB", flat_conditions()),
        unanswered("conditions 16 deep, 64 KB", nested_conditions()),
        unanswered("a condition of one operator chain, 64 KB", chain_in("suppressif ", "==1;label 1;endif;", 64 * KB)),
        answered("references to one question, 64 KB", references()),
        answered("as many questions as fit, all answered", questions()),
        more_answers("the same, 20,000 answers", questions(), 20_000),
    ]
}
