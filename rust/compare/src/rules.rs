//! Sources of rules that refer to each other, in one form or several, with circles or without.

use crate::limits::framed_forms;
use crate::random::Random;

/// Rules that refer to each other, and what they hide.
pub fn rules(random: &mut Random) -> Vec<u8> {
    match random.below(8) {
        0 => chain_of_rules(random),
        1 => doubling_rules(random),
        _ => any_rules(random),
    }
}

/// What a few rules in some forms are made of.
struct Forms<'r> {
    random: &'r mut Random,
    /// The rules of each form, in any order. Those that refer to higher ones alone make no circle.
    rules: Vec<Vec<usize>>,
    /// The most references of a rule.
    most: usize,
    /// Once in so many times a reference may make a circle.
    circles: usize,
    /// Once in so many times a reference is to a rule of any form.
    strays: usize,
}

/// A few rules in one to four forms, each made of references to rules of its form: to higher ones alone, or to any now and
/// then; or to rules of any form now and then. Conditions refer to them too, before and after them and one in another.
fn any_rules(random: &mut Random) -> Vec<u8> {
    let forms = random.between(1, 4);
    let mut names: Vec<usize> = (0..random.between(1, 16)).collect();
    names.sort_by_cached_key(|_| random.number());
    let mut rules = vec![Vec::new(); forms];
    names.into_iter().for_each(|name| rules[random.below(forms)].push(name));
    let most = random.between(0, 3);
    let circles = [1, 6, 40, usize::MAX, usize::MAX][random.below(5)];
    let strays = [4, 30, usize::MAX, usize::MAX, usize::MAX][random.below(5)];
    let mut forms = Forms { random, rules, most, circles, strays };
    framed_forms(&(0..forms.rules.len()).map(|form| forms.form(form)).collect::<Vec<String>>())
}

impl Forms<'_> {
    /// The items of a form.
    fn form(&mut self, form: usize) -> String {
        let mut items = String::new();
        for rule in self.rules[form].clone() {
            items += &self.conditions(form);
            items += &format!("rule A{rule},{} endrule;\n", self.references(form, rule));
        }
        items + &self.conditions(form)
    }

    /// A rule to refer to from a form: one of its own of which this holds, if there is one; of any form now and then.
    fn target(&mut self, form: usize, holds: impl Fn(usize) -> bool) -> Option<usize> {
        let is_stray = self.random.once_in(self.strays);
        let rules = if is_stray { self.rules.concat() } else { self.rules[form].clone() };
        let rules: Vec<usize> = rules.into_iter().filter(|&rule| is_stray || holds(rule)).collect();
        (!rules.is_empty()).then(|| rules[self.random.below(rules.len())])
    }

    /// Conditions on rules, one in another, round labels; or none.
    fn conditions(&mut self, form: usize) -> String {
        let depth = if self.random.once_in(3) { self.random.between(1, 4) } else { 0 };
        let mut items = String::new();
        for _ in 0..depth {
            let word = self.random.pick(&["suppressif", "grayoutif", "disableif"]);
            items += &match self.target(form, |_| true) {
                Some(rule) => format!("{word}\n ruleref(A{rule});label 1;"),
                None => format!("{word} TRUE;label 2;"),
            };
        }
        items + &"endif;".repeat(depth)
    }

    /// An expression of references from a rule: to higher ones of its form, to any of them now and then.
    fn references(&mut self, form: usize, from: usize) -> String {
        let mut text = self.random.pick(&["TRUE", "FALSE", "NOT FALSE", "1<2"]).to_string();
        for _ in 0..self.random.between(0, self.most) {
            let is_any = self.random.once_in(self.circles);
            if let Some(to) = self.target(form, |rule| is_any || rule > from) {
                let operator = self.random.pick(&[" AND ", " OR ", "==", "!=", " OR NOT "]);
                text += &format!("{operator}ruleref(A{to})");
            }
        }
        text
    }
}

/// These items in one of some forms, in the first, the second or a later one. Of the others at most the first has a rule.
fn among_forms(items: String, random: &mut Random) -> Vec<u8> {
    let before = [0, 0, 1, 4][random.below(4)];
    let mut forms = vec![String::new(); before + 1 + random.below(2)];
    forms[0] = "rule B,TRUE endrule;suppressif ruleref(B);label 1;endif;".to_string();
    forms[before] = items;
    framed_forms(&forms)
}

/// About as many rules as there may be, each referring to the one after or before it, the last to any or to none; and what
/// the first hides. Now and then they are divided between two forms.
fn chain_of_rules(random: &mut Random) -> Vec<u8> {
    let count = random.between(200, 255);
    let is_forward = random.once_in(2);
    let last = match random.below(3) {
        0 => format!("ruleref(A{})", random.below(count)),
        _ => random.pick(&["TRUE", "FALSE", "1==1", "UNDEFINED"]).to_string(),
    };
    let rule = |at: usize| match at + 1 == count {
        true => format!("rule A{at},{last} endrule;"),
        false => format!("rule A{at},NOT ruleref(A{})endrule;", at + 1),
    };
    let mut rules: Vec<String> = (0..count).map(rule).collect();
    if !is_forward {
        rules.reverse();
    }
    if random.once_in(8) {
        let at = random.below(count);
        rules.insert(at, "endform;form formid=60000,title=STRING_TOKEN(1);".to_string());
    }
    let conditions = "suppressif ruleref(A0);label 1;endif;grayoutif NOT ruleref(A0);label 2;endif;";
    among_forms(rules.concat() + conditions, random)
}

/// Rules of which each is made of the next with itself, which take for ever if they are evaluated at each reference.
fn doubling_rules(random: &mut Random) -> Vec<u8> {
    let count = random.between(50, 250);
    let operator = random.pick(&["+", "-", "*", "|", "&", "<<"]);
    let rule = |at: usize| format!("rule R{at},ruleref(R{0}){operator}ruleref(R{0}) endrule;", at + 1);
    let rules: String = (0..count).map(rule).collect();
    let conditions =
        format!("suppressif ruleref(R0)==1<<{count};label 1;endif;grayoutif ruleref(R0)!=0;label 2;endif;");
    let last = random.pick(&["1", "2", "ONES", "TRUE"]);
    among_forms(format!("{rules}rule R{count},{last} endrule;{conditions}"), random)
}
