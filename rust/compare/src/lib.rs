//! What the programs of this crate share: the checks of the library against the reference, the sources, families and
//! answers for them, the tally of the answers met, the references into other forms, the numerics of a source, and the
//! count of checks of given cases.

#![forbid(unsafe_code)]

pub mod answers;
pub mod check;
mod damage;
pub mod edits;
pub mod families;
mod grammar;
pub mod json;
mod limits;
pub mod numerics;
pub mod outcomes;
pub mod random;
mod rules;
pub mod sources;
pub mod strays;
pub mod tally;
