//! Instructions, counted by valgrind where it is there.

use std::env;
use std::fs::{self, File};
use std::path::Path;
use std::process::{Command, Stdio};

use crate::folder::Folder;
use crate::rows::{Rows, Side};

/// So many turns are counted.
const TURNS: u32 = 16;

/// The word on the command line that makes the turns to be counted.
pub const COUNTED: &str = "counted";

/// The instructions of a turn of ours and of the peer's.
pub type Counts = (f64, f64);

/// Makes the turns of every row, and for each side also what is beside them.
pub fn make_turns(rows: &Rows) {
    for row in rows.all() {
        for side in [&row.ours, &row.peer] {
            counted(side, true);
            counted(side, false);
        }
    }
}

/// Valgrind counts inside this function, and writes the count down after each call.
#[no_mangle]
#[inline(never)]
extern "Rust" fn counted(side: &Side, made: bool) {
    (side.0)(TURNS, made);
}

/// The instructions of every row, in the order of the rows, or nothing without valgrind.
pub fn of_rows() -> Option<Vec<Counts>> {
    let folder = Folder::new("counts").ok()?;
    let mut command = callgrind(&folder, &["--toggle-collect=counted", "--dump-after=counted"]);
    command.arg(env::current_exe().ok()?).arg(COUNTED);
    let done = command.stdin(Stdio::null()).status().ok()?;
    let totals: Vec<f64> =
        (1..).map_while(|dump| total(&folder.0.join(format!("out.{dump}")))).collect();
    let turn = |both: &[f64]| (both[0] - both[1]) / f64::from(TURNS);
    let counts = totals.chunks_exact(4).map(|row| (turn(&row[..2]), turn(&row[2..]))).collect();
    done.success().then_some(counts)
}

/// The instructions of a program on a book.
pub fn of_program(program: &[&str], book: &Path) -> Option<f64> {
    let folder = Folder::new("counts").ok()?;
    let mut command = callgrind(&folder, &[]);
    let done = command.args(program).stdin(File::open(book).ok()?).status().ok()?;
    done.success().then(|| total(&folder.0.join("out")))?
}

fn callgrind(folder: &Folder, options: &[&str]) -> Command {
    let mut command = Command::new("valgrind");
    command.args(["--tool=callgrind", "-q"]).args(options);
    command.arg(format!("--callgrind-out-file={}", folder.0.join("out").display()));
    command.stdout(Stdio::null()).stderr(Stdio::null());
    command
}

/// The count in a file that callgrind wrote.
fn total(file: &Path) -> Option<f64> {
    let text = fs::read_to_string(file).ok()?;
    let total = text.lines().find_map(|line| line.strip_prefix("totals: "))?;
    total.trim().parse().ok()
}
