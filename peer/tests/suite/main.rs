//! The tests of the peer: the marked runs, the rules, the text form, the examples, the books.

mod broken;
mod check;
mod command_line;
mod common;
mod examples;
mod explain;
mod generated;
mod lineage;
mod marked_runs;
mod pair;
mod prep;
mod programs;
mod refusals;
mod text_form;
mod walk;
