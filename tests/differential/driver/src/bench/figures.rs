// What rows took, and the file that keeps it: a line for each row.

use std::collections::HashMap;

/// What a call of the desk took, and the call beside it.
#[derive(Clone, Copy)]
pub struct Pair {
    pub other: f64,
    pub desk: f64,
}

/// Microseconds and machine instructions of one call, as far as they were measured.
#[derive(Clone, Copy, Default)]
pub struct Figures {
    pub times: Option<Pair>,
    pub counts: Option<Pair>,
}

/// How many times its former cost the desk's call has, by machine instructions or by time.
pub struct Change {
    pub times: f64,
    pub by_time: bool,
}

impl Change {
    pub fn percent(&self) -> f64 {
        (self.times - 1.0) * 100.0
    }

    pub fn by(&self) -> &'static str {
        if self.by_time {
            ", by time"
        } else {
            ""
        }
    }
}

impl Figures {
    pub fn any(&self) -> bool {
        self.times.is_some() || self.counts.is_some()
    }

    /// Other work on the machine changes times, so that they are only taken where instructions were not counted.
    pub fn change_since(&self, former: &Figures) -> Option<Change> {
        let grown = |now: Option<Pair>, then: Option<Pair>, by_time| Some(Change { times: now?.desk / then?.desk, by_time });
        grown(self.counts, former.counts, false).or_else(|| grown(self.times, former.times, true))
    }

    /// A line of the file.
    pub fn line(&self, row: &str) -> String {
        let both = |p: Option<Pair>, digits: usize| p.map_or("\t".to_string(), |p| format!("{:.digits$}\t{:.digits$}", p.desk, p.other));
        format!("{row}\t{}\t{}\n", both(self.counts, 0), both(self.times, 2))
    }
}

pub const HEADING: &str = "# row\tdesk, machine instructions\tbeside it, machine instructions\tdesk, µs\tbeside it, µs\n";

/// Figures by the names of their rows.
#[derive(Default)]
pub struct Record(HashMap<String, Figures>);

impl Record {
    pub fn parse(text: &str) -> Self {
        Record(text.lines().filter(|l| !l.starts_with('#')).map(row).collect())
    }

    pub fn is_empty(&self) -> bool {
        self.0.is_empty()
    }

    pub fn get(&self, row: &str) -> Option<&Figures> {
        self.0.get(row)
    }
}

/// The row of a line; an empty field is a figure that was not measured.
fn row(line: &str) -> (String, Figures) {
    let fields: Vec<&str> = line.split('\t').collect();
    let number = |i: usize| fields.get(i).and_then(|f| f.parse::<f64>().ok());
    let pair = |i: usize| Some(Pair { desk: number(i)?, other: number(i + 1)? });
    (fields[0].to_string(), Figures { counts: pair(1), times: pair(3) })
}
