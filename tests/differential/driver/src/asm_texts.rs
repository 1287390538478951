// Texts for the assembler: generated lines, token soup, damaged listings, and listings that come back.

use crate::assemble::Table;
use crate::listing;
use crate::random::Random;
use crate::rust;
use crate::sheets::{Op, Sheet, TYPES};
use hbc_decomp::disasm::disassemble_function;
use hbc_decomp::file::BytecodeFile;
use hbc_decomp::util::escape_js_string;

/// Tokens of every form, at and past the edges of each type.
pub const TOKENS: [&str; 118] = [
    "r0", "r1", "r255", "r256", "r65535", "r4294967295", "r4294967296", "r+1", "r-1", "r", "R7", "R", "r 1", "rr1",
    "r007", "r0x1", "r1_0", "x1", "1r", "L0", "L5", "L127", "L128", "L129", "L255", "L+5", "L-5", "L005", "L", "L:",
    "l5", "LL5", "L 5", "L4294967168", "L4294967167", "L4294967295", "L4294967296", "L2147483647", "L2147483648",
    "L99999999999", "L99999999999999999999", "L0x5", "L00000000000000000005", "0", "1", "7", "127", "128", "255",
    "256", "65535", "65536", "2147483647", "2147483648", "4294967295", "4294967296", "18446744073709551616", "+0",
    "+5", "-0", "-1", "-128", "-129", "-2147483648", "-2147483649", "+2147483647", "++1", "+-1", "+", "-", "00",
    "007", "0x0", "0xff", "0XfF", "0xFFFFFFFF", "0x100000000", "0x+5", "0x-5", "0x", "0X", "x", "0xg", "1_0", "1 0",
    "Infinity", "-Infinity", "+Infinity", "infinity", "inf", "NaN", "nan", "1.5", "1e3", ".5", "5.",
    "9007199254740991", "9007199254740992", "9007199254740993", "-9007199254740992", "0000000000000005",
    "00000000000000005", "0x3FF0000000000000", "0x7ff8000000000001", "0x3FF000000000000", "0X3FF0000000000000",
    "0x3FF00000000000000", "0xFFFFFFFFFFFFFFFF", "\"\"", "\"", "\"a\"", "\"a", "a\"", "\"a\"b\"", "\"\\\"",
    "\"a\\n\"", "'a'", "",
];

/// Texts that a table mostly has: plain ones, and ones that escapes and quotes make hard.
const STRINGS: [&str; 22] = [
    "a", "b", "a,b", "cell 7", "//", "a//b", "", " ", "x\\y", "\\", "\"", "a\"b", "\n", "a\tb", "\0", "u00E9", "é",
    "; ", "L5:", ",", "r1", "n",
];

const BREAKS: [&str; 8] = ["\n", "\n", "\n", "\n", "\r\n", "\r\n", "\n\n", " \t\n"];

pub fn strings(r: &mut Random) -> Vec<String> {
    (0..r.below(7)).map(|_| r.pick(&STRINGS).to_string()).collect()
}

fn width(op: &Op) -> usize {
    1 + op.types.iter().map(|t| TYPES[*t].1).sum::<usize>()
}

/// How much of a text is odd: nothing, about one place, or many; and whether labels are looked up in it.
#[derive(Clone, Copy)]
struct Manner {
    odd_one_in: usize,
    labels: bool,
}

impl Manner {
    fn any(r: &mut Random) -> Self {
        Manner { odd_one_in: *r.pick(&[1_000_000, 1_000_000, 12, 12, 4]), labels: r.one_in(3) }
    }

    fn odd(self, r: &mut Random) -> bool {
        r.one_in(self.odd_one_in)
    }
}

/// A quoted text: one of the table as the listing writes it, or any other.
fn quoted(r: &mut Random, strings: &[String], m: Manner) -> String {
    let some = [
        "a", "b", "\\\\", "\\\"", "\\n", "\\t", "\\r", "\\0", "\\u00E9", ",", " ", "//", ";", "L1", "\\", "\"", "'",
        "/",
    ];
    if m.odd(r) {
        return format!("\"{}\"", (0..r.below(5)).map(|_| *r.pick(&some)).collect::<String>());
    }
    if m.odd(r) {
        return format!("\"{}\"", r.pick(&STRINGS));
    }
    let easy = |s: &String| m.odd_one_in < 1000 || !s.contains(['"', '\0', 'é']);
    match strings.get(r.below(8)).filter(|s| easy(s)) {
        Some(s) => escape_js_string(s),
        None => r.edge(1).to_string(),
    }
}

fn address(r: &mut Random, ty: usize, at: usize, m: Manner) -> String {
    if m.labels && r.one_in(3) {
        return r.pick(&["L", "L99999999999"]).to_string();
    }
    if m.labels && r.one_in(3) {
        return r.pick(&["L0", "L5", "L7", "L12"]).to_string();
    }
    let near = r.pick(&[-128i64, -127, -1, 0, 1, 2, 126, 127]);
    let far = r.pick(&[-130i64, -129, 128, 129, 1000, 0x8000_0000, -0x8000_0000]);
    let distance = if ty == 9 || m.odd(r) { far } else { near };
    format!("L{}", (at as i64 + distance) as u32)
}

/// A token that an instruction at an offset takes, but for odd ones.
fn good(r: &mut Random, ty: usize, at: usize, strings: &[String], m: Manner) -> String {
    let width = TYPES[ty].1;
    match TYPES[ty].0 {
        "Reg8" | "Reg32" => format!("{}{}", r.pick(&["r", "r", "r", "R", "r+", "r0"]), r.edge(width)),
        "Addr8" | "Addr32" => address(r, ty, at, m),
        "Imm32" => (r.edge(4) as u32 as i32).to_string(),
        "Double" => match r.below(6) {
            0 => r.pick(&["Infinity", "-Infinity", "-0", "+7"]).to_string(),
            1 => format!("0x{:016X}", r.edge(8)),
            _ => (r.next() as i64 >> (10 + r.below(53))).to_string(),
        },
        "UInt8S" | "UInt16S" | "UInt32S" if !r.one_in(5) => quoted(r, strings, m),
        _ => match r.below(5) {
            0 => format!("0x{:x}", r.edge(width)),
            1 => format!("0X{:X}", r.edge(4)),
            _ => r.edge(width).to_string(),
        },
    }
}

/// What is put in front of a name: nothing, an offset, or what may be one.
fn front(r: &mut Random, at: usize, m: Manner) -> String {
    let odds = [
        "0X1f ", "Add ", "dead ", "FACE ", "0 ", "00g ", "0x ", "1: ", "0x0x1 ", "BAD  ", "-1 ", "f\r", "Dec\t",
        "0xAdd ",
    ];
    if m.odd(r) {
        return r.pick(&odds).to_string();
    }
    match r.below(10) {
        0..=3 => format!("{at:04x}  "),
        4 => format!("{}{at:X}\t", r.pick(&["0x", "0X", "  0x0"])),
        5 => r.pick(&["  ", "\t", " \r"]).to_string(),
        _ => String::new(),
    }
}

fn comment(r: &mut Random, m: Manner) -> &'static str {
    if m.odd(r) {
        return *r.pick(&[" /", " ; x", " # x", " \"//\"", "\\\"//", "/ /"]);
    }
    *r.pick(&["", "", "", "", "// c", " // \"", "//", "// L5:", "  ", "\r", " ///"])
}

/// Something odd in place of a name or a token, or a token too many or too few.
fn make_odd(r: &mut Random, name: &mut String, tokens: &mut Vec<String>) {
    match r.below(8) {
        0 => *name = name.to_lowercase(),
        1 => *name += *r.pick(&["x", ",", ":", "\"", "/", "\r", "//"]),
        2 => tokens.push(r.pick(&TOKENS).to_string()),
        3 => drop(tokens.pop()),
        _ if tokens.is_empty() => {}
        _ => {
            let q = r.below(tokens.len());
            tokens[q] = r.pick(&TOKENS).to_string();
        }
    }
}

fn instruction(r: &mut Random, sheet: &Sheet, strings: &[String], m: Manner, at: &mut usize) -> String {
    let op = r.pick(&sheet.ops).clone();
    let mut name = op.name.clone();
    let mut tokens: Vec<String> = op.types.iter().map(|t| good(r, *t, *at, strings, m)).collect();
    if m.odd(r) {
        make_odd(r, &mut name, &mut tokens);
    }
    let comma = *r.pick(&[", ", ", ", ",", " , ", ",\t"]);
    let one_more = if m.odd(r) { ",," } else { *r.pick(&[",", ", ", " ,\r"]) };
    let last = if r.one_in(20) && !tokens.is_empty() { one_more } else { "" };
    let white = *r.pick(&[" ", " ", " ", "  ", "\t"]);
    let line = format!("{}{name}{white}{}{last}{}", front(r, *at, m), tokens.join(comma), comment(r, m));
    *at += width(&op);
    line
}

/// A line that is no instruction, or hardly one.
fn other(r: &mut Random, at: usize, m: Manner) -> String {
    let odds = [
        "L5 :", "l5:", "L-5:", "Lx:", "L5:L6:", "L5: x", "0005 L5:", "Function", "functions", ";x", "#", "/", ":",
        "L", "\u{b}", "é", "\u{7f}",
    ];
    if m.odd(r) {
        return r.pick(&odds).to_string();
    }
    match r.below(11) {
        0 | 1 => format!("L{at}:"),
        2 => "L:".to_string(),
        3 => "L99999999999:".to_string(),
        4 | 5 => format!("{}{}", r.pick(&["L007:", " L5:", "L7:\t", "L12:", "L0:", "L4294967296:", "L:"]), comment(r, m)),
        6 => r.pick(&["function 3:", "function 1 (\"a\"):", "Function<x>", "Functional r1", "; x", ";  L5:"]).to_string(),
        7 => r.pick(&["// all", "  // L5:", "//", "//\""]).to_string(),
        _ => r.pick(&["", " ", "\t", "\r"]).to_string(),
    }
}

/// Lines as a person may write them: comments, offsets, labels, banners, quotes, and tokens of every form.
pub fn generated(r: &mut Random, sheet: &Sheet, strings: &[String]) -> Vec<u8> {
    let m = Manner::any(r);
    let mut text = String::new();
    let mut at = 0;
    let looked_up = if m.labels { ["L:\n", "L99999999999:\n"] } else { ["", ""] };
    for n in 0..1 + r.below(10) {
        text += looked_up.get(n).unwrap_or(&"");
        if r.one_in(3) && n > 1 {
            text += &other(r, at, m);
        } else {
            text += &instruction(r, sheet, strings, m, &mut at);
        }
        text += *r.pick(&BREAKS);
    }
    if r.one_in(4) {
        text.pop();
    }
    text.into_bytes()
}

/// Random draws of tokens, separators, quotes and backslashes.
pub fn soup(r: &mut Random, sheet: &Sheet, strings: &[String]) -> Vec<u8> {
    let between = [
        " ", " ", " ", ",", ",", ", ", "\r", "\t", "\"", "\\", "\\\"", "//", "/", ":", ";", "; ", "#", "L", "L5:", "0x",
        "function ", "Function", "0000  ", "r", "-", "+", "",
    ];
    let mut text = String::new();
    for _ in 0..1 + r.below(5) {
        if !r.one_in(4) {
            text += *r.pick(&["", "", "  ", "0000  "]);
            text += &r.pick(&sheet.ops).name;
            text += " ";
        }
        for _ in 0..r.below(9) {
            match r.below(5) {
                0 | 1 => text += *r.pick(&TOKENS),
                2 if !strings.is_empty() => text += &escape_js_string(r.pick::<String>(strings)),
                _ => text += *r.pick(&between),
            }
            text += *r.pick(&["", "", " ", ", ", ","]);
        }
        text += *r.pick(&["\n", "\n", "\r\n", "\r"]);
    }
    text.into_bytes()
}

/// One edit: a byte changed, removed, inserted or doubled, or a line removed or doubled.
fn edit(r: &mut Random, text: &mut Vec<u8>) {
    let byte = if r.one_in(4) { r.byte() } else { *r.pick(b"\"\\,/:;Lr0159 \t\n\rxAF-+") };
    if text.is_empty() {
        text.push(byte);
        return;
    }
    let at = r.below(text.len());
    let end = at + text[at..].iter().position(|b| *b == b'\n').map_or(text.len() - at, |n| n + 1);
    match r.below(6) {
        0 => text[at] = byte,
        1 => drop(text.remove(at)),
        2 => text.insert(at, byte),
        3 => text.insert(at, text[at]),
        4 => drop(text.drain(at..end)),
        _ => {
            let part = text[at..end].to_vec();
            text.splice(end..end, part);
        }
    }
}

/// The Rust's default listing of a body, with a few edits or none.
pub fn damaged(r: &mut Random, sheet: &Sheet, table: &Table, f: &mut BytecodeFile) -> Vec<u8> {
    let most = 4 + r.below(40);
    let any = r.one_in(3);
    let body = if any { listing::body(r, sheet, table.strings.len(), most) } else { that_comes_back(r, sheet, table, most) };
    rust::set_body(f, &body);
    rust::set_strings(f, &table.strings);
    let listed = disassemble_function(f, &sheet.format, 0, &listing::options(listing::DEFAULT));
    let mut text = listed.unwrap().into_bytes();
    for _ in 0..r.below(4) {
        edit(r, &mut text);
    }
    text
}

/// The ids that come back: the first of their text, which is plain.
fn ids_that_come_back(table: &Table) -> Vec<u64> {
    let plain = |s: &str| s.bytes().all(|b| matches!(b, 9 | 10 | 13 | 32..=126) && b != 34) && !s.ends_with('\\');
    let good = |id: &u32| plain(&table.strings[*id as usize]) && table.lookup[&table.strings[*id as usize]] == *id;
    (0..table.strings.len() as u32).filter(good).map(u64::from).collect()
}

/// An operand of a body that comes back; an Addr is set later, when all starts are known.
fn operand(r: &mut Random, ty: usize, ids: &[u64]) -> Option<u64> {
    let width = TYPES[ty].1;
    match TYPES[ty].0 {
        "Double" => Some(listing::double(r).to_bits()),
        "UInt8S" | "UInt16S" | "UInt32S" => {
            let fit = ids.partition_point(|id| *id < 1 << (8 * width));
            (fit > 0).then(|| ids[r.below(fit)])
        }
        "Addr8" | "Addr32" => Some(0),
        _ => Some(r.edge(width)),
    }
}

/// A body of up to a size that meets the circle's premises: ids come back, and each Addr goes to the start of an instruction
/// or to the end.
pub fn that_comes_back(r: &mut Random, sheet: &Sheet, table: &Table, size: usize) -> Vec<u8> {
    let ids = ids_that_come_back(table);
    let (mut body, mut starts, mut addresses) = (Vec::new(), Vec::new(), Vec::new());
    loop {
        let op = r.pick(&sheet.ops).clone();
        let values: Option<Vec<u64>> = op.types.iter().map(|t| operand(r, *t, &ids)).collect();
        let Some(values) = values.filter(|_| body.len() + width(&op) <= size) else { break };
        starts.push(body.len());
        body.push(op.code);
        for (t, v) in op.types.iter().zip(values) {
            if TYPES[*t].0.starts_with("Addr") {
                addresses.push((starts.len() - 1, body.len(), TYPES[*t].1));
            }
            body.extend_from_slice(&v.to_le_bytes()[..TYPES[*t].1]);
        }
    }
    starts.push(body.len());
    for (n, place, width) in addresses {
        let target = starts[(n + r.below(20)).saturating_sub(10).min(starts.len() - 1)];
        let distance = target as i64 - starts[n] as i64;
        let near = width == 4 || (-128..128).contains(&distance);
        let bytes = if near { distance } else { 0 }.to_le_bytes();
        body[place..place + width].copy_from_slice(&bytes[..width]);
    }
    body
}
