//! Document 02, W-201: the tokens of a source with their lines and columns.

use crate::lexer::{Kind, Lexer, Token};
use crate::position::Position;

/// A token with the position of its start.
#[derive(Clone, Copy, PartialEq, Eq, Debug)]
pub struct Placed {
    pub token: Token,
    pub position: Position,
}

/// Walks over a source's tokens, and stays at a bad token and at the end.
pub struct Walk<'a> {
    source: &'a [u8],
    lexer: Lexer<'a>,
    place: usize,
    position: Position,
}

impl<'a> Walk<'a> {
    pub fn new(source: &'a [u8]) -> Self {
        Self::at(source, 0, Position::START)
    }

    /// From a place that has this position; a place past the length counts as the length.
    pub fn at(source: &'a [u8], place: usize, position: Position) -> Self {
        let place = place.min(source.len());
        Walk { source, lexer: Lexer::at(source, place), place, position }
    }

    pub fn next_token(&mut self) -> Placed {
        let token = self.lexer.next_token();
        let position = self.position.past(&self.source[self.place..token.start]);
        if !token.kind.is_last() {
            self.place = token.end;
            self.position = position.past(&self.source[token.start..token.end]);
        }
        Placed { token, position }
    }
}

impl Kind {
    /// The class's number: the signs in document 01's order, the reserved words in byte order, then the others.
    pub fn class(self) -> u64 {
        self as u64
    }

    /// Whether no token follows.
    pub fn is_last(self) -> bool {
        matches!(self, Kind::Bad | Kind::End)
    }
}
