// docs/SPEED.md.

use super::goals;
use super::meter::{PATIENCE, ROUNDS};
use super::stack_table;
use super::tables::Table;
use crate::stack::Used;
use std::process::Command;

/// What a whole run has measured, and when.
pub struct Run {
    pub tables: Vec<Table>,
    pub stack: Vec<Used>,
    pub counted: bool,
    pub load: String,
    pub seconds: u64,
}

fn today() -> String {
    let date = Command::new("date").args(["-u", "+%F"]).output().expect("date");
    String::from_utf8(date.stdout).unwrap().trim().to_string()
}

/// How the figures came about.
fn manner(run: &Run) -> String {
    let processors = std::thread::available_parallelism().map_or(1, |n| n.get());
    let counts = match run.counted {
        true => {
            "Instructions are the machine's, of one call under valgrind's callgrind; other work on the machine does not change them. The\n\
             Rust's counts differ from run to run, since its maps hash by chance and its vectors grow in place or are moved."
        }
        false => "Machine instructions were not counted, as valgrind was not at hand.",
    };
    format!(
        "Written by `tests/differential/run bench record`, not by hand; the remarks at the end stand in\n\
         tests/differential/speed-remarks.md. The figures are kept in tests/differential/speed.tsv, with which\n\
         `tests/differential/run bench` compares its own.\n\n\
         Measured on {} in {} seconds, on a machine with {processors} processors and a load of {} before.\n\n\
         Both sides are built for release, run in one process and get the same inputs. Times are the least of {ROUNDS} rounds, turn by\n\
         turn, or of as many as began within {} seconds, since other work on the machine only makes a round longer. Lent buffers are\n\
         not cleared between calls.\n\n\
         {counts}\n\n\
         The desk reads its sheet's text in each call, and looks at its string table where it takes one. The Rust has its format and\n\
         its strings at hand where a title does not say otherwise.\n",
        today(),
        run.seconds,
        run.load,
        PATIENCE.as_secs(),
    )
}

pub fn written(run: &Run, remarks: &str) -> String {
    let tables: Vec<String> = run.tables.iter().map(|t| t.markdown(None) + "\n").collect();
    format!(
        "# Speed beside the Rust\n\n{}\n## Goals\n\nTimes decide; machine instructions stand beside them.\n\n{}\n## Tables\n\n{}## Stack\n\n{}\n{}",
        manner(run),
        goals::markdown(&run.tables, &run.stack),
        tables.concat(),
        stack_table(&run.stack),
        remarks
    )
}
