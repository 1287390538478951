// Strings: escapes of util.rs, unquote of parse.rs, UTF-8, and the lookup of parse_hasm_with_context.

use crate::desk::{self, Number};
use crate::random::Random;
use crate::rust;
use crate::sheets::{Op, Sheet};
use crate::tally::{hex, Tally, BYTE};
use hbc_decomp::opcode::OperandValue;
use hbc_decomp::util::escape_js_string;
use hbc_decomp::write::hasm::{parse_hasm_function, parse_hasm_with_context};
use std::collections::HashMap;

fn escaped(t: &mut Tally, s: &str, out: &mut Vec<u8>) {
    let told = escape_js_string(s);
    out.clear();
    out.resize(told.len() + 3, BYTE);
    let n = desk::escape(s.as_bytes(), out);
    let ok = n == told.len() && out[..n] == *told.as_bytes() && out[n..].iter().all(|b| *b == BYTE);
    t.count(ok, || format!("escape of {s:?}\n  rust: {told}\n  desk: {}", String::from_utf8_lossy(out)));
}

fn escapes(t: &mut Tally, r: &mut Random, count: u64) {
    let mut out = Vec::new();
    for c in '\0'..=char::MAX {
        escaped(t, c.encode_utf8(&mut [0; 4]), &mut out);
    }
    let some = ['a', '"', '\\', '\n', '\r', '\t', '\0', '\u{7f}', '\u{80}', 'é', '\u{7ff}', '\u{800}', '\u{ffff}', '\u{10000}', '😀', ' ', '~', '/'];
    for _ in 0..count {
        let s: String = (0..r.below(12)).map(|_| *r.pick(&some)).collect();
        escaped(t, &s, &mut out);
    }
}

fn utf8(t: &mut Tally, r: &mut Random, count: u64) {
    let mut one = |b: &[u8]| {
        let (told, got) = (std::str::from_utf8(b).is_ok(), desk::is_utf8(b));
        t.count(told == got, || format!("UTF-8 {}\n  rust: {told}\n  desk: {got}", hex(b)));
    };
    for a in 0..=255u8 {
        one(&[a]);
        for b in 0..=255u8 {
            one(&[a, b]);
            for c in (0..=255u8).step_by(5).chain([0x80, 0xbf]) {
                one(&[a, b, c]);
            }
        }
    }
    for _ in 0..count {
        let edges = [0xf0, 0xf4, 0xed, 0xe0, 0xc2, 0x80, 0x8f, 0x90, 0x9f, 0xa0, 0xbf, 0x41, 0xf3, 0xee, 0xf5, 0xc1];
        let b: Vec<u8> = (0..r.below(9)).map(|_| if r.one_in(5) { r.byte() } else { *r.pick(&edges) }).collect();
        one(&b);
    }
}

fn id_of(list: hbc_decomp::error::Result<Vec<hbc_decomp::file::Instruction>>) -> Option<u64> {
    match list.ok()?.first()?.operands.first()?.value {
        OperandValue::U32(id) => Some(id as u64),
        _ => None,
    }
}

pub fn one_string() -> Sheet {
    Sheet::new(vec![Op { code: 0, name: "S".to_string(), jump: false, types: vec![7] }])
}

/// What the desk reads between two quotes, and whether the Rust reads the same: its text is found exactly then.
pub fn unescaped(sheet: &Sheet, s: &str) -> (String, bool) {
    let mut out = vec![BYTE; s.len()];
    let n = desk::unescape(s.as_bytes(), &mut out);
    let got = String::from_utf8_lossy(&out[..n]).into_owned();
    let table = HashMap::from([(got.clone(), 7)]);
    let told = parse_hasm_function(&format!("S \"{s}\""), &sheet.format, &table);
    (got, id_of(told) == Some(7))
}

pub fn escaped_text(r: &mut Random) -> String {
    let some = ["a", "b", "\\", "\\\\", "\\n", "\\t", "\\r", "\\\"", "\\0", "\\u00E9", "/", "//", ";", ":", "L1", "\t", "é"];
    (0..r.below(8)).map(|_| *r.pick(&some)).collect()
}

fn unescapes(t: &mut Tally, r: &mut Random, count: u64) {
    let sheet = one_string();
    for _ in 0..count {
        let s = escaped_text(r);
        let (got, ok) = unescaped(&sheet, &s);
        t.count(ok, || format!("unescape of {s:?}\n  rust: another text\n  desk: {got:?}"));
    }
}

/// A table as the desk takes it.
pub fn table_of(strings: &[String]) -> (Vec<u8>, Vec<u32>) {
    let mut bytes = Vec::new();
    let mut ends = Vec::new();
    for s in strings {
        bytes.extend_from_slice(s.as_bytes());
        ends.push(bytes.len() as u32);
    }
    (bytes, ends)
}

fn lookups(t: &mut Tally, r: &mut Random, count: u64) {
    let sheet = one_string();
    let letters = ['a', 'b', 'c'];
    let text = |r: &mut Random, most: usize| -> String { (0..r.below(most)).map(|_| *r.pick(&letters)).collect() };
    let mut f = rust::file_of(&[]);
    for n in 0..count {
        let many = if n % 5000 == 0 { 65536 } else { r.below(12) };
        let strings: Vec<String> = (0..many).map(|_| text(r, 5)).collect();
        let (bytes, ends) = table_of(&strings);
        rust::set_strings(&mut f, &strings);
        let wanted = text(r, 6);
        let told = id_of(parse_hasm_with_context(&format!("S \"{wanted}\""), &sheet.format, &f));
        let got = desk::lookup(wanted.as_bytes(), &bytes, &ends);
        t.count(got == Number::of(told), || format!("lookup of {wanted:?} among {} strings\n  rust: {told:?}\n  desk: {got:?}", strings.len()));
        let fault = desk::table_fault(&bytes, &ends);
        t.count(fault == Number::of(None), || format!("fault of {strings:?}\n  rust: none\n  desk: {fault:?}"));
    }
}

pub fn run(r: &mut Random, count: u64) -> (u64, u64) {
    let mut t = Tally::new("texts");
    escapes(&mut t, r, count);
    utf8(&mut t, r, count);
    unescapes(&mut t, r, count);
    lookups(&mut t, r, count / 4);
    t.end()
}
