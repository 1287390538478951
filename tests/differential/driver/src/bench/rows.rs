// What is measured: the calls of each table, on inputs that are the same in every run.

use super::figures::Figures;
use super::meter::{too_long, Meter};
use super::tables::{grouped, Row, Table, RUST};
use crate::asm_texts;
use crate::assemble;
use crate::desk::{self, Edition};
use crate::listing::{self, DEFAULT};
use crate::random::Random;
use crate::rust;
use crate::sheets::{self, Op, Sheet};
use hbc_decomp::disasm::{collect_label_offsets, disassemble_function};
use hbc_decomp::opcode::BytecodeFormat;
use hbc_decomp::write::encode::encode_function_body;
use hbc_decomp::write::hasm::{parse_hasm_function, parse_hasm_with_context};
use std::collections::HashMap;
use std::hint::black_box;

const SIZES: [usize; 4] = [100, 4096, 8192, 65_536];
const FEW: usize = 16;
const MANY: usize = 65_536;

/// A table that is not measured yet, with its part.
type Job<'a> = (&'static str, Box<dyn Fn(&mut Meter) -> Table + 'a>);

/// Document 01's sheet and one of 256 opcodes, each with random types.
fn sheets() -> [Sheet; 2] {
    [sheets::of_document(), sheets::random(&mut Random::new(3), 256, 256, 4)]
}

fn jobs(sheets: &[Sheet]) -> Vec<Job<'_>> {
    vec![
        ("decoding", Box::new(|m| decoding(m, sheets, true))),
        ("decoding", Box::new(|m| decoding(m, sheets, false))),
        ("encoding", Box::new(|m| encoding(m, sheets, true))),
        ("encoding", Box::new(|m| encoding(m, sheets, false))),
        ("listing", Box::new(|m| listing(m, sheets, FEW))),
        ("listing", Box::new(|m| listing(m, sheets, MANY))),
        ("assembling", Box::new(|m| assembling(m, sheets, FEW, true))),
        ("assembling", Box::new(|m| assembling(m, sheets, FEW, false))),
        ("assembling", Box::new(|m| assembling(m, sheets, MANY, true))),
        ("assembling", Box::new(|m| assembling(m, sheets, MANY, false))),
        ("assembling", Box::new(large_tables)),
        ("assembling", Box::new(looked_up)),
        ("carrying", Box::new(|m| carrying_and_decoding(m, sheets))),
        ("carrying", Box::new(|m| carrying_and_listing(m, sheets, FEW))),
        ("carrying", Box::new(|m| carrying_and_listing(m, sheets, MANY))),
        ("lookup", Box::new(lookups)),
    ]
}

pub fn parts() -> Vec<&'static str> {
    let mut parts: Vec<_> = jobs(&[]).iter().map(|(part, _)| *part).collect();
    parts.dedup();
    parts
}

/// Measures the tables of one part, or all where it is empty, and hands each on as soon as it is there.
pub fn measure(part: &str, meter: &mut Meter, mut done: impl FnMut(Table)) {
    for (_, job) in jobs(&sheets()).iter().filter(|(of, _)| part.is_empty() || part == *of) {
        done(job(meter));
    }
}

/// A row for each sheet and each size of a body; `row` gives what its name has further, and its figures.
fn by_size(title: String, sides: [&'static str; 2], sheets: &[Sheet], mut row: impl FnMut(&mut Random, &Sheet, usize) -> (String, Figures)) -> Table {
    let mut rows = Vec::new();
    for sheet in sheets {
        let mut r = Random::new(7);
        for size in SIZES {
            let (note, figures) = row(&mut r, sheet, size);
            rows.push(Row { name: format!("{} bytes, {} opcodes", grouped(size), sheet.ops.len()), note, figures });
        }
    }
    Table { title, sides, rows }
}

/// The format that the Rust decodes and encodes by: at hand, or read from its JSON in each call, as the desk reads its sheet.
fn with_format(sheet: &Sheet, at_hand: bool, f: impl FnOnce(&BytecodeFormat)) {
    match at_hand {
        true => f(&sheet.format),
        false => f(&BytecodeFormat::from_json_str(&sheet.json).unwrap()),
    }
}

fn reading(what: &str, at_hand: bool) -> String {
    format!("{what}{}", if at_hand { "" } else { ", both reading their sheet in each call" })
}

fn decoding(m: &mut Meter, sheets: &[Sheet], at_hand: bool) -> Table {
    by_size(reading("Decoding", at_hand), RUST, sheets, |r, sheet, size| {
        let body = sheet.body(r, size);
        let f = rust::file_of(&body);
        let mut out = vec![0u64; words_of(sheet, &body).len()];
        let figures = m.both(
            || {
                with_format(sheet, at_hand, |format| {
                    black_box(f.decode_function_instructions(format, 0).unwrap());
                });
            },
            || {
                black_box(desk::decode(&sheet.text, &body, &mut out));
            },
        );
        (String::new(), figures)
    })
}

fn words_of(sheet: &Sheet, body: &[u8]) -> Vec<u64> {
    rust::decode(&mut rust::file_of(&[]), &sheet.format, body).unwrap()
}

fn encoding(m: &mut Meter, sheets: &[Sheet], at_hand: bool) -> Table {
    by_size(reading("Encoding", at_hand), RUST, sheets, |r, sheet, size| {
        let body = sheet.body(r, size);
        let words = words_of(sheet, &body);
        let list = rust::instructions_of(&words);
        let mut out = vec![0u8; body.len()];
        let figures = m.both(
            || {
                with_format(sheet, at_hand, |format| {
                    black_box(encode_function_body(format, &list).unwrap());
                });
            },
            || {
                black_box(desk::encode(&sheet.text, &words, &mut out));
            },
        );
        (String::new(), figures)
    })
}

fn cells(strings: usize) -> assemble::Table {
    assemble::Table::new((0..strings).map(|n| format!("cell {n}")).collect())
}

/// Default listings. The lent space is exactly what is needed.
fn listing(m: &mut Meter, sheets: &[Sheet], strings: usize) -> Table {
    let table = cells(strings);
    by_size(format!("Listing, {} strings", grouped(strings)), RUST, sheets, |r, sheet, size| {
        let body = listing::body(r, sheet, strings, size);
        let mut f = rust::file_of(&body);
        rust::set_strings(&mut f, &table.strings);
        let text = disassemble_function(&f, &sheet.format, 0, &listing::options(DEFAULT)).unwrap();
        let list = f.decode_function_instructions(&sheet.format, 0).unwrap();
        let mut out = vec![0u8; text.len()];
        let mut entries = vec![0u32; collect_label_offsets(&list, &sheet.format).len()];
        let mut listed = || desk::list(&sheet.text, &table.bytes, &table.ends, &body, DEFAULT, &mut out, &mut entries);
        assert!(text.len() > 1_048_576 || listed() == rust::success(text.len()));
        let figures = m.both(
            || {
                black_box(disassemble_function(&f, &sheet.format, 0, &listing::options(DEFAULT)).unwrap());
            },
            || {
                black_box(listed());
            },
        );
        (format!("listing of {}", grouped(text.len())), figures)
    })
}

/// A text to assemble: the default listing of a body that comes back.
struct Hasm {
    text: String,
    body: Vec<u8>,
    labels: usize,
}

fn hasm(r: &mut Random, sheet: &Sheet, table: &assemble::Table, size: usize) -> Hasm {
    let body = asm_texts::that_comes_back(r, sheet, table, size);
    let mut f = rust::file_of(&body);
    rust::set_strings(&mut f, &table.strings);
    let text = disassemble_function(&f, &sheet.format, 0, &listing::options(DEFAULT)).unwrap();
    let labels = text.lines().filter(|l| l.ends_with(':')).count();
    Hasm { text, body, labels }
}

/// The desk's call, checked once. The lent space is exactly what is needed.
fn assembler<'a>(h: &'a Hasm, sheet: &'a Sheet, table: &'a assemble::Table) -> impl FnMut() + 'a {
    let mut out = vec![0u8; h.body.len()];
    let mut labels = vec![[0u32; 3]; h.labels];
    let mut call = move || {
        let a = desk::assemble(&sheet.text, &table.bytes, &table.ends, h.text.as_bytes(), &mut out, &mut labels);
        assert!(black_box(a) == rust::success(h.body.len()));
    };
    call();
    call
}

fn assembled(text: &str, format: &BytecodeFormat, lookup: &HashMap<String, u32>) {
    let list = parse_hasm_function(text, format, lookup).unwrap();
    black_box(encode_function_body(format, &list).unwrap());
}

/// The Rust has its map of the strings at hand, or makes it in each call (parse_hasm_with_context).
fn assembling(m: &mut Meter, sheets: &[Sheet], strings: usize, map_at_hand: bool) -> Table {
    let table = cells(strings);
    let mut f = rust::file_of(&[]);
    rust::set_strings(&mut f, &table.strings);
    let map = if map_at_hand { "" } else { ", the Rust making its map of them in each call" };
    by_size(format!("Assembling, {} strings{map}", grouped(strings)), RUST, sheets, |r, sheet, size| {
        let h = hasm(r, sheet, &table, size);
        let rust = || match map_at_hand {
            true => assembled(&h.text, &sheet.format, &table.lookup),
            false => {
                let list = parse_hasm_with_context(&h.text, &sheet.format, &f).unwrap();
                black_box(encode_function_body(&sheet.format, &list).unwrap());
            }
        };
        let figures = m.both(rust, assembler(&h, sheet, &table));
        (text_of(&h.text), figures)
    })
}

fn text_of(text: &str) -> String {
    format!("text of {}", grouped(text.len()))
}

/// The same text under 4 names and 16 strings, and under 256 names and 65,536 strings that begin with them.
fn large_tables(m: &mut Meter) -> Table {
    let small = sheets::of_document();
    let mut ops = small.ops.clone();
    for code in (0..=255u8).filter(|c| small.ops.iter().all(|o| o.code != *c)) {
        ops.push(Op { code, name: format!("Other{code}"), jump: false, types: vec![0, 4] });
    }
    ops.sort_by_key(|o| o.code);
    let large = Sheet::new(ops);
    let (few, many) = (cells(FEW), cells(MANY));
    let sides = ["4 names and 16 strings", "256 names and 65,536 strings"];
    let mut r = Random::new(7);
    let row = |size: usize| {
        let h = hasm(&mut r, &small, &few, size);
        let figures = m.both(assembler(&h, &small, &few), assembler(&h, &large, &many));
        Row { name: format!("{} bytes", grouped(size)), note: text_of(&h.text), figures }
    };
    Table { title: "Assembling the same text under small and large tables".to_string(), sides, rows: SIZES.map(row).into() }
}

/// How many labels are looked up. The last are as many as a body of 64 KiB takes.
const LABELS: [usize; 3] = [100, 1000, 13_107];

/// More labels than a body of 64 KiB takes (18), in a text that is not too long.
const MORE_LABELS: usize = 28_000;

/// Labels whose digits are past u32, which are looked up, with all their entries lent and with none (19).
fn looked_up(m: &mut Meter) -> Table {
    let sheet = Sheet::new(vec![Op { code: 0, name: "One".to_string(), jump: true, types: vec![9] }]);
    let mut rows: Vec<Row> = Vec::new();
    for all_lent in [true, false] {
        for count in LABELS {
            rows.push(labels(m, &sheet, count, all_lent, rows.last()));
        }
    }
    rows.push(labels(m, &sheet, MORE_LABELS, false, rows.last()));
    Table { title: "Assembling with labels that are looked up".to_string(), sides: RUST, rows }
}

/// One row of such labels; where the row of 1,000 shows that the largest would take too long it is left out.
fn labels(m: &mut Meter, sheet: &Sheet, count: usize, all_lent: bool, before: Option<&Row>) -> Row {
    let name = format!("{} labels, {} entries lent", grouped(count), if all_lent { "all" } else { "no" });
    let [_, middle, largest] = LABELS;
    let grown = (largest as f64 / middle as f64).powi(2);
    if count == largest && before.is_some_and(|b| too_long(&b.figures, grown)) {
        return Row { name, note: "left out, as a call would take too long".to_string(), figures: Figures::default() };
    }
    let lines = (0..count).map(|n| format!("L9999999{n:07}:\nOne L9999999{:07}\n", (n * 7919) % count));
    let text: String = lines.collect();
    let (mut out, mut labels) = (vec![0u8; 5 * count], vec![[0u32; 3]; if all_lent { count } else { 0 }]);
    let expected = match (count, all_lent) {
        (MORE_LABELS, _) => rust::refusal(18, 0, 0),
        (_, true) => rust::success(5 * count),
        (_, false) => rust::refusal(19, 0, 0),
    };
    let figures = m.both(
        || assembled(&text, &sheet.format, &HashMap::new()),
        || {
            assert!(desk::assemble(&sheet.text, &[], &[], text.as_bytes(), &mut out, &mut labels) == expected);
        },
    );
    Row { name, note: text_of(&text), figures }
}

/// A body that is carried to the same sheet and table. Nothing in the Rust carries.
struct Carried<'a> {
    edition: Edition<'a>,
    body: Vec<u8>,
}

impl<'a> Carried<'a> {
    fn new(r: &mut Random, sheet: &'a Sheet, table: &'a assemble::Table, size: usize) -> Self {
        let body = asm_texts::that_comes_back(r, sheet, table, size);
        Carried { edition: Edition { sheet: &sheet.text, bytes: &table.bytes, ends: &table.ends }, body }
    }

    /// The call, checked once.
    fn carrier(&self) -> impl FnMut() + '_ {
        let (mut out, mut labels) = (vec![0u8; self.body.len()], vec![[0u32; 3]; self.body.len()]);
        let mut carry = move || {
            let a = desk::carry(self.edition, self.edition, &self.body, &mut out, &mut labels);
            assert!(black_box(a) == rust::success(self.body.len()));
        };
        carry();
        carry
    }
}

fn carrying_and_decoding(m: &mut Meter, sheets: &[Sheet]) -> Table {
    let table = cells(FEW);
    by_size("Carrying beside decoding, 16 strings".to_string(), ["decoding", "carrying"], sheets, |r, sheet, size| {
        let c = Carried::new(r, sheet, &table, size);
        let mut words = vec![0u64; 20 * c.body.len()];
        let decode = || {
            black_box(desk::decode(c.edition.sheet, &c.body, &mut words));
        };
        (String::new(), m.both(decode, c.carrier()))
    })
}

fn carrying_and_listing(m: &mut Meter, sheets: &[Sheet], strings: usize) -> Table {
    let table = cells(strings);
    by_size(format!("Carrying beside listing, {} strings", grouped(strings)), ["listing", "carrying"], sheets, |r, sheet, size| {
        let c = Carried::new(r, sheet, &table, size);
        let (mut text, mut entries) = (vec![0u8; 1 << 20], vec![0u32; 1 << 16]);
        let list = || {
            black_box(desk::list(c.edition.sheet, c.edition.bytes, c.edition.ends, &c.body, DEFAULT, &mut text, &mut entries));
        };
        (String::new(), m.both(list, c.carrier()))
    })
}

/// The Rust makes a map of the table first and then looks up; the desk searches.
fn lookups(m: &mut Meter) -> Table {
    let row = |count: usize| {
        let table = assemble::Table::new((0..count).map(|n| format!("s{n}")).collect());
        let wanted = &table.strings[count - 1];
        let figures = m.both(
            || {
                let mut map: HashMap<String, u32> = HashMap::new();
                for (i, s) in table.strings.iter().enumerate() {
                    map.entry(s.clone()).or_insert(i as u32);
                }
                black_box(map.get(wanted));
            },
            || {
                black_box(desk::lookup(wanted.as_bytes(), &table.bytes, &table.ends));
            },
        );
        Row { name: format!("the last of {} strings", grouped(count)), note: String::new(), figures }
    };
    Table { title: "Looking up one text, the Rust's map made in the call".to_string(), sides: RUST, rows: [FEW, MANY].map(row).into() }
}
