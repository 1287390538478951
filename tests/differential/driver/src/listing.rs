// disassemble_function and collect_label_offsets, with every option.

use crate::desk::{self, Answer, Shown};
use crate::random::Random;
use crate::rust;
use crate::sheets::{Sheet, TYPES};
use crate::tally::{hex, left, lines, show, smallest, Tally, BYTE};
use crate::texts::table_of;
use hbc_decomp::disasm::{collect_label_offsets, disassemble_function, DisasmOptions};
use hbc_decomp::file::BytecodeFile;
use std::cell::RefCell;

pub const DEFAULT: Shown = Shown { offsets: true, labels: true, texts: true };

/// What label entries hold before a call.
pub const ENTRY: u32 = 0xa5a5_a5a5;

/// What is lent beyond what is needed, or less.
#[derive(Clone, Copy, Debug)]
pub struct Spare {
    pub bytes: i64,
    pub entries: i64,
}

pub struct Run {
    pub answer: Answer,
    pub out: Vec<u8>,
    pub entries: Vec<u32>,
}

pub fn options(shown: Shown) -> DisasmOptions {
    DisasmOptions {
        show_offsets: shown.offsets,
        show_labels: shown.labels,
        resolve_strings: shown.texts,
        enable_color: false,
    }
}

/// Doubles that document 01's domain of demand 2 holds: whole up to 2^53, or infinite.
pub fn double(r: &mut Random) -> f64 {
    let whole = if r.one_in(3) { (1u64 << r.below(54)) as f64 } else { (r.next() % ((1 << 53) + 1)) as f64 };
    *r.pick(&[whole, -whole, 0.0, -0.0, f64::INFINITY, f64::NEG_INFINITY])
}

/// An instruction whose jumps mostly stay near and whose string ids are mostly there.
fn instruction(r: &mut Random, sheet: &Sheet, strings: usize) -> Vec<u8> {
    let op = r.pick(&sheet.ops).clone();
    let mut bytes = vec![op.code];
    for t in &op.types {
        let width = TYPES[*t].1;
        let n = match TYPES[*t].0 {
            "Double" => double(r).to_bits(),
            "UInt8S" | "UInt16S" | "UInt32S" if strings > 0 && !r.one_in(4) => r.below(strings) as u64,
            "Addr8" | "Addr32" if !r.one_in(3) => (r.below(60) as i64 - 25) as u64,
            _ => r.edge(width),
        };
        bytes.extend_from_slice(&n.to_le_bytes()[..width]);
    }
    bytes
}

pub fn body(r: &mut Random, sheet: &Sheet, strings: usize, most: usize) -> Vec<u8> {
    let mut body = Vec::new();
    loop {
        let next = instruction(r, sheet, strings);
        if most < body.len() + next.len() {
            return body;
        }
        body.extend(next);
    }
}

pub fn strings(r: &mut Random) -> Vec<String> {
    let some = ['a', 'B', ' ', ',', '"', '\\', '\n', '\t', '\0', 'é', '\u{7f}', '\u{ffff}', '😀', '/', '~'];
    (0..r.below(6))
        .map(|_| {
            let most = if r.one_in(60) { 5000 } else { 8 };
            (0..r.below(most)).map(|_| *r.pick(&some)).collect()
        })
        .collect()
}

pub fn shown(r: &mut Random) -> Shown {
    if r.one_in(2) {
        return DEFAULT;
    }
    Shown { offsets: r.one_in(2), labels: r.one_in(2), texts: r.one_in(2) }
}

/// The offset of the first instruction whose line is over 4,096 bytes.
pub fn long_line(f: &BytecodeFile, sheet: &Sheet, text: &str, indent: usize) -> Option<usize> {
    let list = f.decode_function_instructions(&sheet.format, 0).ok()?;
    let is_instruction = |l: &&str| !(l.starts_with('L') && l.ends_with(':') && !l.contains(' '));
    let lines = text.lines().filter(is_instruction);
    let at = lines.into_iter().position(|l| l.len() + indent > 4096)?;
    Some(list[at].offset as usize)
}

pub fn entries_of(f: &BytecodeFile, sheet: &Sheet, id: u32, shown: Shown) -> usize {
    let list = f.decode_function_instructions(&sheet.format, id).unwrap_or_default();
    if shown.labels { collect_label_offsets(&list, &sheet.format).len() } else { 0 }
}

/// An answer with document 01's limits and lent space around it.
pub fn around(told: Result<String, Answer>, needed: usize, spare: Spare) -> Run {
    let length = told.as_ref().map_or(20, |t| t.len());
    let room = (length as i64 + spare.bytes).max(0) as usize;
    let lent = (needed as i64 + spare.entries).max(0) as usize;
    let entries = vec![0; lent];
    let refused = |answer| Run { answer, out: left(None, room, BYTE), entries: entries.clone() };
    match told {
        Err(answer) => refused(answer),
        Ok(t) if t.len() > 1_048_576 => refused(rust::refusal(18, 0, 0)),
        Ok(t) if t.len() > room || needed > lent => refused(rust::refusal(19, 0, 0)),
        Ok(t) => Run { answer: rust::success(t.len()), out: left(Some(t.as_bytes()), room, BYTE), entries },
    }
}

pub fn expected(f: &mut BytecodeFile, sheet: &Sheet, body: &[u8], shown: Shown, spare: Spare) -> Run {
    if let Err(answer) = rust::decode(f, &sheet.format, body) {
        return around(Err(answer), 0, spare);
    }
    rust::set_body(f, body);
    let text = disassemble_function(f, &sheet.format, 0, &options(shown)).unwrap();
    let needed = entries_of(f, sheet, 0, shown);
    let told = match long_line(f, sheet, &text, 0) {
        Some(at) => Err(rust::refusal(3, at, 0)),
        None => Ok(text),
    };
    around(told, needed, spare)
}

fn desk_run(sheet: &Sheet, strings: &[String], body: &[u8], shown: Shown, room: usize, lent: usize) -> Run {
    let (bytes, ends) = table_of(strings);
    let mut out = vec![BYTE; room];
    let mut entries = vec![ENTRY; lent];
    let answer = desk::list(&sheet.text, &bytes, &ends, body, shown, &mut out, &mut entries);
    Run { answer, out, entries }
}

fn compare(f: &mut BytecodeFile, sheet: &Sheet, strings: &[String], body: &[u8], shown: Shown, spare: Spare) -> Option<(Run, Run)> {
    rust::set_strings(f, strings);
    let e = expected(f, sheet, body, shown, spare);
    let d = desk_run(sheet, strings, body, shown, e.out.len(), e.entries.len());
    if d.answer == e.answer && d.out == e.out && d.entries == e.entries {
        return None;
    }
    Some((e, d))
}

/// A random body of about a length at most, listed by both under a sheet.
pub fn one(t: &mut Tally, f: &RefCell<BytecodeFile>, r: &mut Random, sheet: &Sheet, most: usize) {
    let strings = strings(r);
    let mut body = body(r, sheet, strings.len(), most);
    if r.one_in(6) && !sheet.has_doubles() {
        crate::decode::damage(r, &mut body);
    }
    let shown = shown(r);
    let spare = Spare { bytes: *r.pick(&[0, 0, 3, 40, -1]), entries: *r.pick(&[0, 0, 2, -1]) };
    let same = compare(&mut f.borrow_mut(), sheet, &strings, &body, shown, spare).is_none();
    t.count(same, || {
        let differs = |b: &[u8]| compare(&mut f.borrow_mut(), sheet, &strings, b, shown, spare).is_some();
        let mut small = smallest(&rust::pieces(&sheet.format, &body), 1, |some| differs(&some.concat())).concat();
        // A double that other bytes make is outside demand 2's domain.
        if !sheet.has_doubles() {
            small = smallest(&small, 1, differs);
        }
        let (e, d) = compare(&mut f.borrow_mut(), sheet, &strings, &small, shown, spare).unwrap();
        format!(
            "{}strings={strings:?}\nbody={} {shown:?} {spare:?}\n  rust: {}\n{}\n  desk: {}\n{}",
            String::from_utf8_lossy(&sheet.text),
            hex(&small),
            show(&e.answer),
            lines(&e.out),
            show(&d.answer),
            lines(&d.out)
        )
    });
}

pub fn run(r: &mut Random, count: u64, sheets: &[Sheet], large: &[Sheet]) -> (u64, u64) {
    let mut t = Tally::new("list");
    let f = RefCell::new(rust::file_of(&[]));
    for n in 0..count {
        let sheet = if n % 300 == 0 { r.pick(large) } else { r.pick(sheets) };
        one(&mut t, &f, r, sheet, if n % 500 == 0 { 4000 } else { 60 });
    }
    t.end()
}
