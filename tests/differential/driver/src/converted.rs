// Formats as JSON: the Rust reads the JSON, the desk the sheet that converters/sheet-from-json makes of it.

use crate::decode;
use crate::formats::{self, Text, Twice};
use crate::listing;
use crate::random::Random;
use crate::rust;
use crate::sheets::{Op, Sheet, TYPES};
use crate::tally::{smallest, Tally};
use hbc_decomp::file::BytecodeFile;
use hbc_decomp::opcode::{BytecodeFormat, InstructionDef};
use std::cell::{Cell, RefCell};
use std::collections::HashSet;
use std::fs;
use std::path::Path;
use std::process::Command;

/// So many texts go into one start of the converter.
const BATCH: usize = 200;
/// So many bodies are decoded and listed under a sheet.
const BODIES: usize = 20;
/// So many starts of the converter make the text of a difference smaller.
const STARTS: u32 = 100;

/// A sheet, or what the converter says of why there is none.
type Made = Result<Vec<u8>, String>;

/// What the converter makes of texts; the folder holds them meanwhile.
fn convert(converter: &str, folder: &Path, texts: &[Text]) -> std::io::Result<Vec<Made>> {
    fs::create_dir_all(folder)?;
    let path = |n: usize, end: &str| folder.join(format!("{n}.{end}"));
    for (n, text) in texts.iter().enumerate() {
        fs::write(path(n, "json"), &text.json)?;
    }
    let files = (0..texts.len()).map(|n| path(n, "json"));
    let done = Command::new("python3").arg(converter).arg("--out-dir").arg(folder).args(files).output();
    let said = done.as_ref().map_or(String::new(), |d| String::from_utf8_lossy(&d.stderr).into_owned());
    let why = |n: usize| {
        let mark = format!("{}: ", path(n, "json").display());
        said.lines().filter_map(|l| Some(l.split_once(&mark)?.1)).collect::<Vec<_>>().join("; ")
    };
    let made = (0..texts.len()).map(|n| fs::read(path(n, "sheet")).map_err(|_| why(n))).collect();
    fs::remove_dir_all(folder)?;
    done.map(|_| made)
}

fn is_gap(d: &InstructionDef) -> bool {
    d.name == "<invalid>" && d.operand_types.is_empty() && !d.is_jump
}

/// Document 01's rules for a name and its operands.
fn is_sayable(d: &InstructionDef) -> bool {
    let name = d.name.as_bytes();
    let letters = name.iter().all(|b| b.is_ascii_alphanumeric() || *b == b'_');
    let opens = name.first().is_some_and(|b| b.is_ascii_uppercase()) && !d.name.starts_with("Function");
    letters && opens && name.len() <= 48 && d.operand_types.len() <= 8
}

fn op_of((code, d): (usize, &InstructionDef)) -> Op {
    let index = |name: String| TYPES.iter().position(|t| t.0 == name).unwrap();
    let types = d.operand_types.iter().map(|t| index(format!("{t:?}"))).collect();
    Op { code: code as u8, name: d.name.clone(), jump: d.is_jump, types }
}

/// The sheet that says what the Rust has read, or None where no sheet can.
fn sheet_of(json: &str) -> Option<Sheet> {
    let format = BytecodeFormat::from_json_str(json).ok()?;
    let named: Vec<_> = format.definitions.iter().enumerate().filter(|(_, d)| !is_gap(d)).collect();
    let names: HashSet<&str> = named.iter().map(|(_, d)| d.name.as_str()).collect();
    let whole = names.len() == named.len() && named.iter().all(|(_, d)| is_sayable(d));
    if !whole || is_gap(format.definitions.last()?) {
        return None;
    }
    let mut sheet = Sheet::new(named.into_iter().map(op_of).collect());
    let lines = String::from_utf8(sheet.text).unwrap();
    sheet.text = lines.replacen("version=1", &format!("version={}", format.version), 1).into_bytes();
    sheet.format = format;
    Some(sheet)
}

fn same(told: &Option<Sheet>, made: &Made, twice: Twice) -> bool {
    let refused_as_twice = made.as_ref().is_err_and(|why| why.contains("defined twice"));
    let alike = match (told, made) {
        (Some(sheet), Ok(text)) => sheet.text == *text,
        (None, Err(why)) => !why.is_empty(),
        _ => false,
    };
    match twice {
        Twice::No => alike,
        Twice::Yes => refused_as_twice,
        Twice::Perhaps => alike || refused_as_twice,
    }
}

/// What runs the converter again on a text that shows a difference.
struct Again<'a> {
    converter: &'a str,
    folder: &'a Path,
    left: Cell<u32>,
}

impl Again<'_> {
    fn made(&self, json: &str) -> Made {
        let text = Text { json: json.to_string(), twice: Twice::Perhaps };
        convert(self.converter, self.folder, &[text]).map_or_else(|e| Err(e.to_string()), |mut all| all.remove(0))
    }

    fn differs(&self, json: &str) -> bool {
        self.left.set(self.left.get().saturating_sub(1));
        self.left.get() > 0 && !same(&sheet_of(json), &self.made(json), Twice::Perhaps)
    }

    fn tell(&self, json: &str) -> String {
        let all: Vec<char> = json.chars().collect();
        let small: String = smallest(&all, 1, |some| self.differs(&some.iter().collect::<String>())).into_iter().collect();
        let text = |t: &[u8]| String::from_utf8_lossy(t).into_owned();
        let rust = sheet_of(&small).map_or("no sheet".to_string(), |s| text(&s.text));
        let sheet = self.made(&small).map_or_else(|why| format!("no sheet: {why}"), |t| text(&t));
        format!("{small}\n  rust: {rust}\n  converter: {sheet}")
    }
}

/// Bodies under a format: decoded and listed by the Rust, and by the desk with the converted sheet.
fn bodies(t: &mut Tally, f: &RefCell<BytecodeFile>, r: &mut Random, sheet: &Sheet) {
    for _ in 0..BODIES {
        let case = decode::random_case(r, sheet);
        decode::one(t, f, sheet, &case.body, case.spare);
        listing::one(t, f, r, sheet, 60);
    }
}

/// Compares some texts; answers how many of them gave a sheet.
fn batch(t: &mut Tally, r: &mut Random, converter: &str, folder: &Path, count: usize) -> std::io::Result<usize> {
    let texts: Vec<Text> = (0..count).map(|_| formats::random(r)).collect();
    let f = RefCell::new(rust::file_of(&[]));
    let mut sheets = 0;
    for (text, made) in texts.iter().zip(convert(converter, folder, &texts)?) {
        let told = sheet_of(&text.json);
        let again = Again { converter, folder, left: Cell::new(STARTS) };
        t.count(same(&told, &made, text.twice), || again.tell(&text.json));
        if let (Some(sheet), Ok(text)) = (told, made) {
            sheets += 1;
            bodies(t, &f, r, &Sheet { text, ..sheet });
        }
    }
    Ok(sheets)
}

pub fn run(r: &mut Random, count: u64) -> (u64, u64) {
    let mut t = Tally::new("converted");
    let Ok(converter) = std::env::var("DESK_CONVERTER") else {
        println!("converted: left out, DESK_CONVERTER does not name converters/sheet-from-json");
        return (0, 0);
    };
    let folder = std::env::temp_dir().join(format!("desk-converted-{}", std::process::id()));
    let (mut left, mut sheets) = (count as usize, 0);
    while left > 0 {
        match batch(&mut t, r, &converter, &folder, left.min(BATCH)) {
            Ok(some) => (left, sheets) = (left - left.min(BATCH), sheets + some),
            Err(e) if e.kind() == std::io::ErrorKind::NotFound => {
                println!("converted: left out, python3 is not at hand");
                return (0, 0);
            }
            Err(e) => panic!("converted: {e}"),
        }
    }
    println!("converted: {sheets} sheets, {} refused", count - sheets as u64);
    t.end()
}
