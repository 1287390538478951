// The benchmark: measures the desk beside the Rust on the same inputs, shows the change since the recorded figures, and on request
// records them anew and writes docs/SPEED.md.

mod callgrind;
mod figures;
mod goals;
mod meter;
mod paper;
mod rows;
mod tables;

use crate::stack::{self, Used};
use callgrind::Counter;
use figures::Record;
use meter::Meter;
use paper::Run;
use std::fs;
use std::path::PathBuf;
use std::time::Instant;
use tables::{grouped, Table};

/// A file of the repository, whose folder DESK_ROOT names.
fn file(path: &str) -> PathBuf {
    PathBuf::from(std::env::var("DESK_ROOT").expect("DESK_ROOT names the repository")).join(path)
}

const FIGURES: &str = "tests/differential/speed.tsv";
const REMARKS: &str = "tests/differential/speed-remarks.md";
const PAPER: &str = "docs/SPEED.md";
/// A row that grew by more is told.
const TOLERANCE: f64 = 0.1;

/// The table of stacks, if any were measured.
fn stack_table(stack: &[Used]) -> String {
    let lines: Vec<String> = stack.iter().map(|u| format!("| {} | {} |\n", u.call, grouped(u.bytes))).collect();
    match lines.len() {
        0 => String::new(),
        _ => format!("| | stack, bytes |\n|---|---|\n{}", lines.concat()),
    }
}

/// The load of the last minute, which says whether the times are worth much.
fn load() -> String {
    let told = fs::read_to_string("/proc/loadavg").unwrap_or_default();
    told.split(' ').next().unwrap_or_default().to_string()
}

/// Measures a part, or all where it is empty, and prints each table as soon as it is there.
fn measured(part: &str, recorded: &Record) -> Run {
    let (began, load) = (Instant::now(), load());
    let counts = if part == "stack" { Record::default() } else { callgrind::counted(part) };
    let mut tables = Vec::new();
    rows::measure(part, &mut Meter::Clock, |mut table| {
        table.take_counts(&counts);
        println!("{}", table.markdown(Some(recorded)));
        tables.push(table);
    });
    let stack = if part.is_empty() || part == "stack" { stack::of_calls() } else { Vec::new() };
    for table in [stack_table(&stack), goals::markdown(&tables, &stack)].iter().filter(|t| !t.is_empty()) {
        println!("{table}");
    }
    Run { counted: !counts.is_empty(), tables, stack, load, seconds: began.elapsed().as_secs() }
}

/// Tells the rows that grew. The status does not: a row may grow for a reason, and times grow with other work on the machine.
fn tell_grown(tables: &[Table], recorded: &Record) {
    let changes = tables.iter().flat_map(|t| t.rows.iter().filter_map(|r| Some((r.key(&t.title), t.change(r, recorded)?))));
    let (grown, others): (Vec<_>, Vec<_>) = changes.partition(|(_, change)| change.times > 1.0 + TOLERANCE);
    for (row, change) in &grown {
        println!("slower: {row} by {:.0} %{}", change.percent(), change.by());
    }
    if grown.is_empty() {
        println!("none of {} rows grew by more than a tenth since its figures were recorded", others.len());
    }
}

fn record(run: &Run) {
    let lines: Vec<String> = run.tables.iter().flat_map(Table::lines).collect();
    fs::write(file(FIGURES), figures::HEADING.to_string() + &lines.concat()).unwrap();
    let remarks = fs::read_to_string(file(REMARKS)).expect(REMARKS);
    fs::write(file(PAPER), paper::written(run, &remarks)).unwrap();
    println!("{FIGURES} and {PAPER} are written anew");
}

/// `bench [PART]` or `bench record`.
pub fn run(word: &str) {
    let part = if word == "record" { "" } else { word };
    let parts = [rows::parts(), vec!["stack"]].concat();
    if !part.is_empty() && !parts.contains(&part) {
        eprintln!("bench [record | {}]", parts.join(" | "));
        std::process::exit(2);
    }
    let recorded = Record::parse(&fs::read_to_string(file(FIGURES)).unwrap_or_default());
    let run = measured(part, &recorded);
    tell_grown(&run.tables, &recorded);
    if word == "record" {
        record(&run);
    }
}

/// What `callgrind::counted` runs under callgrind: prints a line for each row.
pub fn count(dumps: &str, part: &str) {
    rows::measure(part, &mut Meter::Callgrind(Counter::new(dumps)), |table| print!("{}", table.lines().concat()));
}
