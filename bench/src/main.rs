//! The benchmark: the proved calls of the crate bench_calls against an independent implementation in Rust, in one process, on the same inputs.
//!
//!     bench                 compares the answers, takes the CPU time and prints the table
//!     bench compare         only compares, on more scripts
//!     bench count           under callgrind: leaves a dump of each measurement
//!     bench table FOLDER    as bench, with the instructions of the dumps in a folder
mod callgrind;
mod cases;
mod catalogue;
mod chance;
mod clock;
mod compare;
mod coordinator;
mod inputs;
mod log;
mod measure;
mod names;
mod partition;
mod random_script;
mod reader;
mod record;
mod refusal;
mod repeat;
mod script;
mod sides;

use std::path::Path;

fn main() {
    let words: Vec<String> = std::env::args().skip(1).collect();
    let words: Vec<&str> = words.iter().map(String::as_str).collect();
    match words[..] {
        ["compare"] => compare::compare(3000),
        ["count"] => measure::count(),
        [] => {
            compare::compare(1000);
            measure::print(None);
        }
        ["table", folder] => {
            compare::compare(1000);
            measure::print(Some(&callgrind::counts(Path::new(folder))));
        }
        _ => eprintln!("usage: bench | bench compare | bench count | bench table FOLDER"),
    }
}
