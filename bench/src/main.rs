//! Measures the recorder beside the peer and prints tables. It asserts no time.
//!
//! `bench RECORDER PEER` takes the paths of the two programs.

mod books;
mod counts;
mod folder;
mod measure;
mod ours;
mod programs;
mod rows;
mod table;

use std::env;
use std::fs;
use std::path::Path;

use folder::Folder;
use programs::Program;
use rows::{Row, Rows};
use table::Measured;

fn main() {
    let arguments: Vec<String> = env::args().skip(1).collect();
    let arguments: Vec<&str> = arguments.iter().map(String::as_str).collect();
    match arguments[..] {
        [counts::COUNTED] => counts::make_turns(&Rows::new()),
        [recorder, peer] => measure_all(
            &Program(vec![recorder.into()]),
            &Program(vec![peer.into(), "recorder".into()]),
        ),
        _ => eprintln!("usage: bench RECORDER PEER"),
    }
}

fn measure_all(ours: &Program, peer: &Program) {
    let folder = Folder::new("books").expect("a folder can be made");
    let [long, longest] = ["long", "longest"].map(|name| folder.0.join(name));
    fs::write(&long, books::long(None).bytes()).expect("a book can be written");
    fs::write(&longest, books::sends()).expect("a book can be written");

    let rows = Rows::new();
    let program = programs::row(ours, peer, &long);
    let counts = counts::of_rows();
    let mut measured: Vec<Measured> = rows.all().map(measure).collect();
    for (row, counts) in measured.iter_mut().zip(counts.into_iter().flatten()) {
        row.counts = Some(counts);
    }
    let steps = measured.split_off(rows.calls.len() + 1);
    let copy = measured[rows.calls.len()].times.0 / 2.0;
    measured.push(whole(&program, ours, peer, &long));

    table::calls(&measured);
    println!("\nOne step, with the test for a broken value:\n");
    table::steps(&steps[..rows.tested.len()], copy);
    println!("\nOne step, without it:\n");
    table::steps(&steps[rows.tested.len()..], copy);
    memory(ours, peer, &longest);
}

fn measure(row: &Row) -> Measured<'_> {
    Measured { row, times: measure::turn(row), counts: None }
}

/// The program from start to end.
fn whole<'a>(row: &'a Row, ours: &Program, peer: &Program, book: &Path) -> Measured<'a> {
    let count = |program: &Program| counts::of_program(&program.words(), book);
    Measured { counts: count(ours).zip(count(peer)), ..measure(row) }
}

fn memory(ours: &Program, peer: &Program, book: &Path) {
    let resident = |program: &Program| match program.resident(book) {
        Some(kilobytes) => format!("{kilobytes} kB"),
        None => "-".into(),
    };
    println!("\nMemory of the program on the longest book, 4,096 sends:\n");
    println!("| | ours | peer |");
    println!("|---|---|---|");
    println!("| peak resident size | {} | {} |", resident(ours), resident(peer));
    println!("| stack | {} kB | {} kB |", ours.stack(book), peer.stack(book));
}
