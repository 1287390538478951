// Opcode sheets: a first one, a second one made from it, and texts that are damaged.

use crate::model::{Family, Type, TYPES};
use crate::random::Random;

#[derive(Clone, Debug)]
pub struct Op {
    pub code: usize,
    pub name: String,
    pub jump: bool,
    pub types: Vec<Type>,
}

impl Op {
    pub fn length(&self) -> usize {
        1 + self.types.iter().map(|t| t.width).sum::<usize>()
    }
}

pub fn type_named(name: &str) -> Type {
    *TYPES.iter().find(|t| t.name == name).expect("a type's name")
}

pub fn op(code: usize, name: &str, types: &[&str]) -> Op {
    let types: Vec<Type> = types.iter().map(|t| type_named(t)).collect();
    let jump = types.iter().any(|t| t.family == Family::Addr);
    Op { code, name: name.to_string(), jump, types }
}

pub fn line(op: &Op) -> String {
    let names: Vec<&str> = op.types.iter().map(|t| t.name).collect();
    let list = if names.is_empty() { "-".to_string() } else { names.join(",") };
    format!("op={} name={} jump={} types={list}\n", op.code, op.name, op.jump as u8)
}

pub fn text(version: u64, ops: &[Op]) -> Vec<u8> {
    let lines: String = ops.iter().map(line).collect();
    format!("version={version}\ncount={}\n{lines}", ops.len()).into_bytes()
}

/// Document 01's sheet.
pub fn of_document() -> Vec<Op> {
    vec![
        op(0, "LoadByte", &["Reg8", "UInt8"]),
        op(1, "Jmp", &["Addr8"]),
        op(2, "LoadText", &["Reg8", "UInt16S"]),
        op(4, "Ret", &["Reg8"]),
    ]
}

/// So many opcodes below a bound, rising.
fn some_codes(r: &mut Random, count: usize, above: usize) -> Vec<usize> {
    let mut codes: Vec<usize> = (0..above).collect();
    r.shuffle(&mut codes);
    codes.truncate(count);
    codes.sort();
    codes
}

/// A name that no other code has; some of them differ in their last character only, some have the full 48.
fn name_of(r: &mut Random, code: usize) -> String {
    match r.below(12) {
        0 => format!("{:X<45}{code:03}", "L"),
        1 => format!("A{code}"),
        2 => format!("Functio{code}"),
        3 => format!("A_{code}_a"),
        _ => format!("{}{code}", r.pick(&["Op", "Load", "Jmp", "Z9_", "Call"])),
    }
}

/// Types as a body wants them: registers and jumps more often than wide numbers.
fn some_type(r: &mut Random) -> Type {
    let often = ["Reg8", "Reg8", "Addr8", "Addr8", "UInt8", "UInt8S", "UInt16S", "Reg32"];
    if r.one_in(2) { type_named(often[r.below(often.len())]) } else { *r.pick(&TYPES) }
}

fn some_types(r: &mut Random) -> Vec<Type> {
    let count = *r.pick(&[0, 1, 1, 1, 2, 2, 2, 3, 4, 8]);
    (0..count).map(|_| some_type(r)).collect()
}

fn ops_of(r: &mut Random, codes: Vec<usize>) -> Vec<Op> {
    let one = |code| Op { code, name: name_of(r, code), jump: r.one_in(3), types: some_types(r) };
    codes.into_iter().map(one).collect()
}

/// A first sheet: document 01's, small ones with gaps, and now and then up to 256 opcodes.
pub fn first(r: &mut Random) -> Vec<Op> {
    let (count, above) = match r.below(250) {
        0 => (256, 256),
        1 => (1 + r.below(200), 256),
        2..=30 => return of_document(),
        31..=40 => (1, 1 + r.below(256)),
        _ => {
            let above = 1 + r.below(14);
            ((1 + r.below(above)).max(above / 2), above)
        }
    };
    let codes = some_codes(r, count, above);
    ops_of(r, codes)
}

/// A first sheet of which bodies with many jumps and short instructions are made.
pub fn jumping(r: &mut Random) -> Vec<Op> {
    let mut ops = vec![
        op(0, "Nop", &[]),
        op(1, "Jmp", &["Addr8"]),
        op(2, "JmpTrue", &["Addr8", "Reg8"]),
        op(3, "JmpLong", &["Addr32"]),
        op(4, "Move", &["Reg8", "Reg8"]),
        op(5, "Text", &["Reg8", "UInt8S"]),
        op(6, "Switch", &["UInt8", "Addr8", "Addr32"]),
    ];
    r.shuffle(&mut ops);
    ops.truncate(4 + r.below(4));
    for (code, op) in ops.iter_mut().enumerate() {
        op.code = 2 * code;
    }
    ops
}

/// How operand types are changed within their family.
#[derive(Clone, Copy, Debug)]
enum Widths {
    Keep,
    Wide,
    Narrow,
    Any,
}

fn of_family(r: &mut Random, t: Type, widths: Widths) -> Type {
    let same: Vec<Type> = TYPES.iter().filter(|o| o.family == t.family).copied().collect();
    match widths {
        Widths::Keep => t,
        Widths::Narrow => same[0],
        Widths::Wide => same[same.len() - 1],
        Widths::Any => *r.pick(&same),
    }
}

fn retype(r: &mut Random, ops: &mut [Op]) {
    let widths = *r.pick(&[Widths::Keep, Widths::Wide, Widths::Wide, Widths::Any, Widths::Any, Widths::Narrow]);
    let one_in = *r.pick(&[1, 1, 2, 3]);
    for op in ops {
        for k in 0..op.types.len() {
            if r.one_in(one_in) {
                op.types[k] = of_family(r, op.types[k], widths);
            }
        }
    }
}

/// New opcodes in another order, with other gaps.
fn recode(r: &mut Random, ops: &mut [Op]) {
    r.shuffle(ops);
    let most = 256 - ops.len();
    let gaps = if r.one_in(4) { r.below(most + 1) } else { r.below(most.min(4) + 1) };
    let codes = some_codes(r, ops.len(), ops.len() + gaps);
    for (op, code) in ops.iter_mut().zip(codes) {
        op.code = code;
    }
}

/// A name like another and different from it; one that is taken already does not come back.
fn rename(r: &mut Random, name: &str) -> String {
    let mut other = name.to_string();
    match r.below(4) {
        0 if name.len() > 2 => drop(other.pop()),
        1 if name.len() < 48 => other.push('x'),
        2 => other = other.to_ascii_uppercase() + "_",
        _ => other = format!("Q{}", &other[1..]),
    }
    other.truncate(48);
    other
}

/// A change of one opcode that most carries through it don't survive.
fn harm(r: &mut Random, ops: &mut Vec<Op>) {
    let at = r.below(ops.len());
    let operands = ops[at].types.len();
    match r.below(6) {
        0 => {
            let other = rename(r, &ops[at].name);
            if ops.iter().all(|o| o.name != other) && !other.starts_with("Function") {
                ops[at].name = other;
            }
        }
        1 if ops.len() > 1 => drop(ops.remove(at)),
        2 if operands < 8 => {
            let k = r.below(operands + 1);
            ops[at].types.insert(k, *r.pick(&TYPES));
        }
        3 if operands > 0 => drop(ops[at].types.remove(r.below(operands))),
        4 if operands > 1 => ops[at].types.swap(0, operands - 1),
        _ if operands > 0 => ops[at].types[r.below(operands)] = *r.pick(&TYPES),
        _ => {}
    }
}

fn add(r: &mut Random, ops: &mut Vec<Op>) {
    let code = ops.last().map_or(0, |o| o.code + 1);
    if code < 256 && ops.len() < 256 {
        ops.push(Op { code, name: format!("Added{code}"), jump: false, types: some_types(r) });
    }
}

/// Makes jumps as narrow as they were, or as Addr8 is.
fn narrow_jumps(r: &mut Random, first: &[Op], ops: &mut [Op]) {
    for (op, old) in ops.iter_mut().zip(first) {
        for (t, old) in op.types.iter_mut().zip(&old.types).filter(|(_, old)| old.family == Family::Addr) {
            *t = if r.one_in(3) { type_named("Addr8") } else { *old };
        }
    }
}

/// A second sheet made from the first: widths, names, operands, families and opcodes changed, opcodes taken away and added.
/// Where jumps are wanted near Addr8's bounds, most keep their type and less is harmed.
pub fn second(r: &mut Random, first: &[Op], near_bounds: bool) -> Vec<Op> {
    let mut ops = first.to_vec();
    retype(r, &mut ops);
    if near_bounds && !r.one_in(4) {
        narrow_jumps(r, first, &mut ops);
    }
    let harms: &[usize] = if near_bounds { &[0, 0, 0, 0, 0, 0, 1, 2] } else { &[0, 0, 0, 0, 1, 1, 2, 5] };
    for _ in 0..*r.pick(harms) {
        harm(r, &mut ops);
    }
    if r.one_in(2) {
        recode(r, &mut ops);
    }
    ops.sort_by_key(|o| o.code);
    for _ in 0..*r.pick(&[0, 0, 1, 3]) {
        add(r, &mut ops);
    }
    ops
}

/// Replacements that break a rule of the sheet, or only look so.
const EDITS: [(&str, &str); 40] = [
    ("version=1", "version=01"),
    ("version=1", "version=4294967295"),
    ("version=1", "version=4294967296"),
    ("version=1", "version="),
    ("version=1", "version=+1"),
    ("version=1", " version=1"),
    ("version=1\n", ""),
    ("version=1\n", "version=1\r\n"),
    ("count=", "count=0"),
    ("count=", "count=1"),
    ("count=", "count=99999999999999999999"),
    ("count=", "Count="),
    ("count=", "count=\ncount="),
    ("op=", "op=0"),
    ("op=", "op=2"),
    ("op=", "op=-"),
    ("op=", "op="),
    ("op=", " op="),
    ("op=", "op"),
    (" name=", "  name="),
    (" name=", " name=x"),
    (" name=", " name=_"),
    (" name=", " name=Function"),
    (" name=", " name=Functio"),
    (" name=", " name=9"),
    (" name=", " name=AAAAAAAAAAAAAAAAAAAAAAAAAAAAAAAAAAAAAAAAAAAAA"),
    (" name=", " name=\u{c9}"),
    (" jump=0", " jump=2"),
    (" jump=0", " jump=00"),
    (" jump=1", " jump=true"),
    (" jump=0", " jump="),
    (" jump=", " Jump="),
    (" types=", " types=,"),
    (" types=", " types=-"),
    (" types=", " types=Reg8,Reg8,Reg8,Reg8,Reg8,Reg8,Reg8,"),
    (" types=", " types=UInt64,"),
    (" types=-", " types="),
    ("Reg8", "reg8"),
    ("Addr8", "Addr8 "),
    ("\n", "\n\n"),
];

/// The places where one text stands in another.
fn places(text: &[u8], part: &[u8]) -> Vec<usize> {
    (0..text.len().saturating_sub(part.len() - 1)).filter(|at| text[*at..].starts_with(part)).collect()
}

fn edit(r: &mut Random, text: &mut Vec<u8>) {
    let (from, to) = *r.pick(&EDITS);
    let at = places(text, from.as_bytes());
    if !at.is_empty() {
        let at = *r.pick(&at);
        text.splice(at..at + from.len(), to.bytes());
    }
}

/// Line starts, with the text's end as the last.
fn line_starts(text: &[u8]) -> Vec<usize> {
    let behind = text.iter().enumerate().filter(|(_, b)| **b == b'\n').map(|(at, _)| at + 1);
    std::iter::once(0).chain(behind).collect()
}

/// Takes a line away, doubles it, or puts it in front of the line before.
fn move_line(r: &mut Random, text: &mut Vec<u8>) {
    let starts = line_starts(text);
    if starts.len() < 3 {
        return;
    }
    let n = r.below(starts.len() - 1);
    let line = text[starts[n]..starts[n + 1]].to_vec();
    match r.below(3) {
        0 => drop(text.drain(starts[n]..starts[n + 1])),
        1 => drop(text.splice(starts[n]..starts[n], line)),
        _ => {
            text.drain(starts[n]..starts[n + 1]);
            let before = starts[n.saturating_sub(1)];
            text.splice(before..before, line);
        }
    }
}

/// Damages a sheet's text.
pub fn damage(r: &mut Random, text: &mut Vec<u8>) {
    match r.below(10) {
        0 if !text.is_empty() => drop(text.pop()),
        1 => text.truncate(r.below(text.len() + 1)),
        2 => text.push(*r.pick(b"\n x")),
        3 => move_line(r, text),
        4 if !text.is_empty() => {
            let at = r.below(text.len());
            text[at] = *r.pick(b"0159AZaz_ =,-\n\r\t\x00\x80");
        }
        5 if !text.is_empty() => {
            let at = r.below(text.len());
            text.remove(at);
        }
        _ => edit(r, text),
    }
}
