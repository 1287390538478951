// Counting what was compared, and showing a difference by the smallest input that still has it.

use crate::desk::Answer;

/// What lent bytes and words hold before a call.
pub const BYTE: u8 = 0xa5;
pub const WORD: u64 = 0xa5a5_a5a5_a5a5_a5a5;

pub struct Tally {
    name: &'static str,
    compared: u64,
    differ: u64,
}

impl Tally {
    pub fn new(name: &'static str) -> Self {
        Tally { name, compared: 0, differ: 0 }
    }

    /// Counts one comparison. Only the first few differences are told; `tell` makes their input small first.
    pub fn count(&mut self, same: bool, tell: impl FnOnce() -> String) {
        self.compared += 1;
        if same {
            return;
        }
        self.differ += 1;
        if self.differ <= 3 {
            println!("{}: DIFFERS\n{}", self.name, tell());
        }
    }

    pub fn end(self) -> (u64, u64) {
        println!("{}: {} compared, {} differ", self.name, self.compared, self.differ);
        (self.compared, self.differ)
    }
}

/// Takes parts of an input away, half of it first and single elements last, as long as it still differs, and then begins again
/// until nothing more can go.
pub fn smallest<T: Clone>(input: &[T], unit: usize, differs: impl Fn(&[T]) -> bool) -> Vec<T> {
    let mut now = input.to_vec();
    loop {
        let before = now.len();
        let mut size = (before / 2 / unit).max(1) * unit;
        while size >= unit {
            now = without_parts(now, size, &differs);
            size = if size == unit { 0 } else { (size / 2 / unit).max(1) * unit };
        }
        if now.len() == before {
            return now;
        }
    }
}

fn without_parts<T: Clone>(mut now: Vec<T>, size: usize, differs: impl Fn(&[T]) -> bool) -> Vec<T> {
    let mut at = 0;
    while at < now.len() {
        let mut less = now.clone();
        less.drain(at..(at + size).min(now.len()));
        if differs(&less) {
            now = less;
        } else {
            at += size;
        }
    }
    now
}

/// Lent bytes that hold lines of text, and what is no text as an escape.
pub fn lines(bytes: &[u8]) -> String {
    bytes.escape_ascii().to_string().replace("\\n", "\n")
}

pub fn hex(bytes: &[u8]) -> String {
    bytes.iter().map(|b| format!("{b:02X}")).collect()
}

pub fn show(a: &Answer) -> String {
    format!("number={} place={} operand={} length={}", a.number, a.place, a.operand, a.length)
}

/// What a whole lent buffer holds afterwards: the result and what was behind it, or nothing but zeros.
pub fn left<T: Copy + Default>(result: Option<&[T]>, room: usize, before: T) -> Vec<T> {
    match result {
        Some(r) => {
            let mut all = r.to_vec();
            all.resize(room, before);
            all
        }
        None => vec![T::default(); room],
    }
}
