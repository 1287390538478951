// Numbers as text: str::parse and from_str_radix as the assembler calls them, and what the listing prints.

use crate::desk::{self, Number};
use crate::random::Random;
use crate::rust;
use crate::sheets::{Op, Sheet};
use crate::tally::{Tally, BYTE};
use hbc_decomp::disasm::{disassemble_function, DisasmOptions};
use hbc_decomp::file::BytecodeFile;

fn one(t: &mut Tally, what: &str, text: &str, told: Option<u64>, got: Number) {
    t.count(got == Number::of(told), || format!("{what} of {text:?}\n  rust: {told:?}\n  desk: {got:?}"));
}

fn integers(t: &mut Tally, s: &str) {
    one(t, "u32", s, s.parse::<u32>().ok().map(u64::from), desk::parse_u32(s.as_bytes()));
    one(t, "hex", s, u32::from_str_radix(s, 16).ok().map(u64::from), desk::parse_hex(s.as_bytes()));
    one(t, "i32", s, s.parse::<i32>().ok().map(|n| n as u32 as u64), desk::parse_i32(s.as_bytes()));
}

/// Every text of up to four characters of an alphabet.
fn exhaustive(t: &mut Tally) {
    let alphabet = ["0", "1", "9", "+", "-", "a", "F", "g", "x", " ", "_", "."];
    let mut texts = vec![String::new()];
    for _ in 0..4 {
        let mut longer = Vec::new();
        for s in &texts {
            integers(t, s);
            for c in alphabet {
                longer.push(format!("{s}{c}"));
            }
        }
        texts = longer;
    }
    for s in &texts {
        integers(t, s);
    }
}

fn near_edges(t: &mut Tally, r: &mut Random, count: u64) {
    let edges = [0u64, 127, 128, 255, 256, 65535, 65536, 0x7fff_ffff, 0x8000_0000, 0xffff_ffff, 0x1_0000_0000, 1 << 40, u64::MAX];
    for n in 0..count {
        let v = r.pick(&edges).wrapping_add(r.below(5) as u64).wrapping_sub(2);
        let sign = *r.pick(&["", "", "+", "-"]);
        let zeros = "0".repeat(if n % 7 == 0 { r.below(40) } else { 0 });
        integers(t, &format!("{sign}{zeros}{v}"));
        integers(t, &format!("{sign}{zeros}{v:x}"));
        integers(t, &format!("{zeros}{v:X}"));
    }
}

/// Whether document 01's domain of demand 2 holds a text: an optional sign and 1 to 16 digits up to 2^53, or an infinity.
pub fn comparable(s: &str) -> bool {
    let digits = s.strip_prefix(['+', '-']).unwrap_or(s);
    if s == "Infinity" || s == "-Infinity" {
        return true;
    }
    (1..=16).contains(&digits.len()) && digits.bytes().all(|b| b.is_ascii_digit()) && digits.parse::<u64>().unwrap() <= 1 << 53
}

fn doubles_read(t: &mut Tally, r: &mut Random, count: u64) {
    for _ in 0..count {
        let most = *r.pick(&[1u64 << 53, 10, 1000, 1 << 32]);
        let v = if r.one_in(4) { (1u64 << r.below(54)).wrapping_sub(r.below(2) as u64) } else { r.next() % (most + 1) };
        let sign = *r.pick(&["", "-", "+"]);
        let zeros = "0".repeat(r.below(3));
        for s in [format!("{sign}{zeros}{v}"), "Infinity".to_string(), "-Infinity".to_string()] {
            if comparable(&s) {
                let told = s.parse::<f64>().ok().map(f64::to_bits);
                one(t, "double", &s, told, desk::parse_double(s.as_bytes()));
            }
        }
    }
}

/// What the desk prints through a function that returns the length.
fn printed(print: impl Fn(&mut [u8]) -> usize) -> String {
    let mut out = [BYTE; 80];
    let n = print(&mut out);
    String::from_utf8_lossy(&out[..n]).into_owned()
}

/// What the listing prints of one operand: its only line behind the name.
fn listed(f: &mut BytecodeFile, sheet: &Sheet, operand: &[u8]) -> String {
    let mut body = vec![0u8];
    body.extend_from_slice(operand);
    rust::set_body(f, &body);
    let options = DisasmOptions { show_offsets: false, show_labels: false, resolve_strings: true, enable_color: false };
    let text = disassemble_function(f, &sheet.format, 0, &options).unwrap();
    text.trim_end().strip_prefix("One ").unwrap().to_string()
}

fn said(t: &mut Tally, what: &str, n: u64, told: String, got: String) {
    t.count(told == got, || format!("{what} of {n}\n  rust: {told}\n  desk: {got}"));
}

fn prints(t: &mut Tally, r: &mut Random, count: u64) {
    let sheet = |ty| Sheet::new(vec![Op { code: 0, name: "One".to_string(), jump: false, types: vec![ty] }]);
    let (unsigned, signed, double) = (sheet(4), sheet(10), sheet(11));
    let mut f = rust::file_of(&[]);
    for k in 0..count {
        let n = if k < 70000 { k } else { r.edge(4) };
        let bytes = (n as u32).to_le_bytes();
        said(t, "decimal", n, listed(&mut f, &unsigned, &bytes), printed(|o| desk::print_decimal(n, o)));
        said(t, "signed", n, listed(&mut f, &signed, &bytes), printed(|o| desk::print_signed(n as u32, o)));
        said(t, "hex", n, format!("{n:04x}"), printed(|o| desk::print_hex4(n, o)));
        let whole = if r.one_in(2) { k } else { r.next() % ((1 << 53) + 1) };
        for v in [whole as f64, -(whole as f64), f64::INFINITY, f64::NEG_INFINITY] {
            let told = listed(&mut f, &double, &v.to_le_bytes());
            said(t, "double", v.to_bits(), told, printed(|o| desk::print_double(v.to_bits(), o)));
        }
    }
}

pub fn run(r: &mut Random, count: u64) -> (u64, u64) {
    let mut t = Tally::new("numbers");
    exhaustive(&mut t);
    near_edges(&mut t, r, count);
    doubles_read(&mut t, r, count);
    prints(&mut t, r, count);
    t.end()
}
