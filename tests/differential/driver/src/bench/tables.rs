// The tables in Markdown, as they are printed and as docs/SPEED.md has them.

use super::figures::{Change, Figures, Pair, Record};

/// The two sides of a table beside the Rust. Any other table has two calls of the desk.
pub const RUST: [&str; 2] = ["Rust", "desk"];

pub struct Row {
    pub name: String,
    /// What the name has further, for instance a text's length; it tells a row from one with another input.
    pub note: String,
    pub figures: Figures,
}

impl Row {
    /// Its name in the file of figures.
    pub fn key(&self, table: &str) -> String {
        format!("{table}: {}", self.label())
    }

    fn label(&self) -> String {
        [&self.name, &self.note].into_iter().filter(|s| !s.is_empty()).cloned().collect::<Vec<_>>().join(", ")
    }
}

pub struct Table {
    pub title: String,
    pub sides: [&'static str; 2],
    pub rows: Vec<Row>,
}

/// How much the desk's call of a row takes at 64 KiB beside 8 KiB.
pub struct Growth {
    pub of: String,
    pub time: Option<f64>,
    pub count: Option<f64>,
}

impl Table {
    /// Adds the machine instructions, which were counted in a run of their own.
    pub fn take_counts(&mut self, counted: &Record) {
        for row in &mut self.rows {
            row.figures.counts = counted.get(&row.key(&self.title)).and_then(|f| f.counts);
        }
    }

    /// The table's lines in the file of figures.
    pub fn lines(&self) -> Vec<String> {
        self.rows.iter().filter(|r| r.figures.any()).map(|r| r.figures.line(&r.key(&self.title))).collect()
    }

    pub fn change(&self, row: &Row, recorded: &Record) -> Option<Change> {
        row.figures.change_since(recorded.get(&row.key(&self.title))?)
    }

    pub fn row(&self, name: &str) -> Option<&Row> {
        self.rows.iter().find(|r| r.name == name)
    }

    fn beside_rust(&self) -> bool {
        self.sides == RUST
    }

    /// How many times faster than the Rust the desk is, or how many times the other call its call takes.
    pub fn times(&self, pair: Pair) -> f64 {
        if self.beside_rust() {
            pair.other / pair.desk
        } else {
            pair.desk / pair.other
        }
    }

    pub fn growths(&self) -> Vec<Growth> {
        self.rows.iter().filter_map(|large| self.growth(large)).collect()
    }

    fn growth(&self, large: &Row) -> Option<Growth> {
        let rest = large.name.strip_prefix("65,536 bytes")?;
        let small = self.row(&format!("8,192 bytes{rest}"))?;
        let of = |l: Option<Pair>, s: Option<Pair>| Some(l?.desk / s?.desk);
        let (l, s) = (&large.figures, &small.figures);
        Some(Growth { of: rest.to_string(), time: of(l.times, s.times), count: of(l.counts, s.counts) })
    }

    /// The table; with the change since the recorded figures where these are given.
    pub fn markdown(&self, recorded: Option<&Record>) -> String {
        let [other, desk] = self.sides;
        let (time, count) = if self.beside_rust() { ("times faster", "times fewer") } else { ("times longer", "times more") };
        let mut heads = ["", &format!("{other}, µs"), &format!("{desk}, µs"), time].map(String::from).to_vec();
        heads.extend([format!("{other}, instructions"), format!("{desk}, instructions"), count.to_string()]);
        heads.extend(recorded.map(|_| "change since recorded".to_string()));
        let mut lines = vec![line(&heads), "|---".repeat(heads.len()) + "|\n"];
        lines.extend(self.rows.iter().map(|row| self.line(row, recorded)));
        lines.extend(self.growths().iter().map(|g| growth_line(g, heads.len())));
        format!("### {}\n\n{}", self.title, lines.concat())
    }

    fn line(&self, row: &Row, recorded: Option<&Record>) -> String {
        let mut cells = vec![row.label()];
        cells.extend(self.cells(row.figures.times, decimal));
        cells.extend(self.cells(row.figures.counts, whole));
        cells.extend(recorded.map(|r| self.change_cell(row, r)));
        line(&cells)
    }

    fn change_cell(&self, row: &Row, recorded: &Record) -> String {
        match self.change(row, recorded) {
            Some(c) => format!("{:+.1} %{}", c.percent(), c.by()),
            None if row.figures.any() => "new".to_string(),
            None => String::new(),
        }
    }

    /// Both sides and how many times; empty where they were not measured.
    fn cells(&self, pair: Option<Pair>, figure: fn(f64) -> String) -> [String; 3] {
        pair.map(|p| [figure(p.other), figure(p.desk), decimal(self.times(p))]).unwrap_or_default()
    }
}

pub fn line(cells: &[String]) -> String {
    let cell = |c: &String| if c.is_empty() { "| ".to_string() } else { format!("| {c} ") };
    cells.iter().map(cell).collect::<String>() + "|\n"
}

fn growth_line(growth: &Growth, width: usize) -> String {
    let mut cells = vec![String::new(); width];
    let times = |g: Option<f64>| g.map_or(String::new(), |g| format!("{g:.1} times"));
    cells[0] = format!("growth from 8 KiB to 64 KiB{}", growth.of);
    (cells[2], cells[5]) = (times(growth.time), times(growth.count));
    line(&cells)
}

/// With as many digits as say something.
pub fn decimal(x: f64) -> String {
    match x {
        x if x < 0.1 => format!("{x:.3}"),
        x if x < 10.0 => format!("{x:.2}"),
        x if x < 1000.0 => format!("{x:.1}"),
        x => whole(x),
    }
}

pub fn whole(x: f64) -> String {
    grouped(x.round() as usize)
}

/// A number with commas between its thousands.
pub fn grouped(n: usize) -> String {
    match n {
        0..1000 => n.to_string(),
        _ => format!("{},{:03}", grouped(n / 1000), n % 1000),
    }
}
