//! Document 02, W-203: references to rules of other forms, by the tokens of a source alone.

use reference::{Kind, Lexer};
use std::collections::HashMap;

/// The places of the names in those `ruleref`s of a text of the grammar whose rule stands in another form, in order.
pub fn strays(source: &[u8]) -> Vec<usize> {
    let mut lexer = Lexer::new(source);
    let mut form = 0;
    let mut rules: HashMap<&[u8], usize> = HashMap::new();
    let mut references: Vec<(&[u8], usize, usize)> = Vec::new();
    loop {
        match lexer.next_token().kind {
            Kind::Form => form += 1,
            Kind::Rule => {
                let name = lexer.next_token();
                rules.insert(&source[name.start..name.end], form);
            }
            Kind::Ruleref => {
                lexer.next_token();
                let name = lexer.next_token();
                references.push((&source[name.start..name.end], form, name.start));
            }
            kind if kind.is_last() => break,
            _ => {}
        }
    }
    let is_stray = |(name, form, _): &(&[u8], usize, usize)| rules.get(name).is_some_and(|rule| rule != form);
    references.into_iter().filter(is_stray).map(|(_, _, place)| place).collect()
}
