//! A second recorder, written apart from the proved code, to test the proved one against.
//!
//! Data flows one way: bytes, [`book`], [`step`]s, [`machine`], what the [`programs`] print.
//! Above them a walk is told as its [`lineage`], and checked by the [`pair`] rule.
//! Beside that stand the [`text`] form of a book, its run [`explain`]ed in words, the [`check`]
//! of a folder of cases, the seeded [`generate`]d books with their [`coverage`], and the
//! [`compare`] that runs them through other programs.
//!
//! [`prep`], the store of the first PReP, shares nothing with the recorder but the comparison.

mod broken;
mod calls;
mod drain;
mod rules;
mod shrink;

pub mod book;
pub mod check;
pub mod compare;
pub mod coverage;
pub mod explain;
pub mod generate;
pub mod lineage;
pub mod machine;
pub mod pair;
pub mod pair_coverage;
pub mod prep;
pub mod programs;
pub mod random;
pub mod refusal;
pub mod step;
pub mod text;
pub mod walk;
