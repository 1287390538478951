// The goals, and whether the figures meet them.

use super::figures::Pair;
use super::tables::{decimal, grouped, line, whole, Growth, Table};
use crate::stack::Used;

/// What a row's time shall be: beside the Rust or the desk's other call, or in microseconds.
enum Asked {
    TimesFaster(f64),
    TimesLonger(f64),
    Below(f64),
}

use Asked::*;

struct Goal {
    table: &'static str,
    row: &'static str,
    asked: Asked,
}

const fn goal(table: &'static str, row: &'static str, asked: Asked) -> Goal {
    Goal { table, row, asked }
}

const FEW_OPCODES: &str = "65,536 bytes, 4 opcodes";
const ALL_OPCODES: &str = "65,536 bytes, 256 opcodes";
const LABELS: &str = "Assembling with labels that are looked up";

/// Assembling texts without such labels has no goal yet.
const GOALS: [Goal; 11] = [
    goal("Decoding", FEW_OPCODES, TimesFaster(6.0)),
    goal("Decoding", ALL_OPCODES, TimesFaster(7.5)),
    goal("Encoding", FEW_OPCODES, TimesFaster(4.6)),
    goal("Encoding", ALL_OPCODES, TimesFaster(6.8)),
    goal("Listing, 16 strings", FEW_OPCODES, TimesFaster(11.0)),
    goal("Listing, 16 strings", ALL_OPCODES, TimesFaster(8.5)),
    goal("Listing, 65,536 strings", "100 bytes, 4 opcodes", Below(70.0)),
    goal("Carrying beside decoding, 16 strings", FEW_OPCODES, TimesLonger(2.0)),
    goal("Carrying beside decoding, 16 strings", ALL_OPCODES, TimesLonger(2.0)),
    goal(LABELS, "13,107 labels, all entries lent", Below(5000.0)),
    goal(LABELS, "13,107 labels, no entries lent", Below(5000.0)),
];
const GROWTH: f64 = 10.0;
const STACK: usize = 1 << 20;

impl Asked {
    fn text(&self) -> String {
        match self {
            TimesFaster(n) => format!("at least {n} times the Rust's speed"),
            TimesLonger(n) => format!("at most {n} times as long"),
            Below(n) => format!("below {} µs", whole(*n)),
        }
    }

    /// The figure that the goal is about.
    fn figure(&self, table: &Table, pair: Pair) -> f64 {
        match self {
            Below(_) => pair.desk,
            _ => table.times(pair),
        }
    }

    fn met(&self, figure: f64) -> bool {
        match self {
            TimesFaster(n) => figure >= *n,
            TimesLonger(n) => figure <= *n,
            Below(n) => figure < *n,
        }
    }
}

/// A line of the table of goals; times decide, counts stand beside them.
fn verdict(what: &str, asked: &str, time: String, count: Option<String>, met: bool) -> String {
    line(&[what.to_string(), asked.to_string(), time, count.unwrap_or_default(), if met { "yes" } else { "no" }.to_string()])
}

fn of_row(goal: &Goal, table: &Table) -> String {
    let figures = table.row(goal.row).expect("the row of a goal").figures;
    let figure = |p: Option<Pair>| p.map(|p| goal.asked.figure(table, p));
    let (time, count) = (figure(figures.times), figure(figures.counts));
    let unit = if matches!(goal.asked, Below(_)) { "µs" } else { "times" };
    let told = time.map_or("left out, as it takes too long".to_string(), |t| format!("{} {unit}", decimal(t)));
    let met = time.is_some_and(|t| goal.asked.met(t));
    verdict(&format!("{}: {}", goal.table, goal.row), &goal.asked.text(), told, count.map(decimal), met)
}

fn of_growth(tables: &[Table]) -> Option<String> {
    let largest = |of: fn(&Growth) -> Option<f64>| tables.iter().flat_map(Table::growths).filter_map(|g| of(&g)).reduce(f64::max);
    let (time, count) = (largest(|g| g.time), largest(|g| g.count));
    let asked = format!("below {GROWTH} times");
    let told = format!("{} times", decimal(time?));
    Some(verdict("The largest growth from 8 KiB to 64 KiB", &asked, told, count.map(decimal), time? < GROWTH))
}

fn of_stack(stack: &[Used]) -> Option<String> {
    let most = stack.iter().map(|u| u.bytes).max()?;
    let bytes = |n: usize| format!("{} bytes", grouped(n));
    Some(verdict("The largest stack of a function", &format!("below {}", bytes(STACK)), bytes(most), None, most < STACK))
}

/// The goals about what was measured, if any.
pub fn markdown(tables: &[Table], stack: &[Used]) -> String {
    let rows = GOALS.iter().filter_map(|g| Some(of_row(g, tables.iter().find(|t| t.title == g.table)?)));
    let lines: Vec<String> = rows.chain(of_growth(tables)).chain(of_stack(stack)).collect();
    match lines.len() {
        0 => String::new(),
        _ => format!("| | goal | measured | in machine instructions | met |\n|---|---|---|---|---|\n{}", lines.concat()),
    }
}
