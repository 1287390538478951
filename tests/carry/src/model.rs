// Carrying by direct reading of document 01: an executable model to compare desk_carry with. Quotations are document 01's.

use std::collections::HashMap;

/// "18 job or body over 65,536 bytes, .. more than 65,536 strings or 1,048,576 string bytes"
pub const BODY_LIMIT: usize = 65_536;
pub const STRINGS_LIMIT: usize = 65_536;
pub const STRING_BYTES_LIMIT: usize = 1_048_576;

/// "families are Reg, UInt, string, Addr, Imm32, Double"
#[derive(Clone, Copy, Debug, PartialEq, Eq)]
pub enum Family {
    Reg,
    UInt,
    String,
    Addr,
    Imm32,
    Double,
}

#[derive(Clone, Copy, Debug, PartialEq, Eq)]
pub struct Type {
    pub name: &'static str,
    pub width: usize,
    pub family: Family,
}

const fn operand_type(name: &'static str, width: usize, family: Family) -> Type {
    Type { name, width, family }
}

/// "Bytes: Reg8, UInt8, UInt8S, Addr8 1; UInt16, UInt16S 2; Reg32, UInt32, UInt32S, Addr32, Imm32 4; Double 8. .. S marks a
/// string id."
pub const TYPES: [Type; 12] = [
    operand_type("Reg8", 1, Family::Reg),
    operand_type("Reg32", 4, Family::Reg),
    operand_type("UInt8", 1, Family::UInt),
    operand_type("UInt16", 2, Family::UInt),
    operand_type("UInt32", 4, Family::UInt),
    operand_type("UInt8S", 1, Family::String),
    operand_type("UInt16S", 2, Family::String),
    operand_type("UInt32S", 4, Family::String),
    operand_type("Addr8", 1, Family::Addr),
    operand_type("Addr32", 4, Family::Addr),
    operand_type("Imm32", 4, Family::Imm32),
    operand_type("Double", 8, Family::Double),
];

/// What a carry gives: a refusal's number, place and operand with length 0, or three zeros and the length.
#[repr(C)]
#[derive(Clone, Copy, Debug, PartialEq, Eq)]
pub struct Answer {
    pub number: u64,
    pub place: u64,
    pub operand: u64,
    pub length: u64,
}

#[derive(Clone, Copy, Debug, PartialEq, Eq)]
pub struct Refusal {
    pub number: u64,
    pub place: u64,
    pub operand: u64,
}

pub fn refusal(number: u64, place: usize, operand: usize) -> Refusal {
    Refusal { number, place: place as u64, operand: operand as u64 }
}

/// A sheet's text and a string table.
#[derive(Clone, Debug, Default)]
pub struct Context {
    pub sheet: Vec<u8>,
    pub bytes: Vec<u8>,
    pub ends: Vec<u32>,
}

#[derive(Clone, Debug, Default)]
pub struct Input {
    pub first: Context,
    pub second: Context,
    pub body: Vec<u8>,
}

// Opcode sheet.

#[derive(Clone, Debug, PartialEq, Eq)]
pub struct Opcode {
    pub name: String,
    pub types: Vec<Type>,
}

/// By opcode, up to the largest. None is a gap: "gaps below the largest opcode become "<invalid>" with no operands".
#[derive(Clone, Debug)]
pub struct Sheet {
    pub opcodes: Vec<Option<Opcode>>,
}

impl Sheet {
    /// An opcode's operand types: "gaps .. with no operands".
    pub fn types(&self, opcode: u8) -> &[Type] {
        self.opcodes[opcode as usize].as_ref().map_or(&[], |o| &o.types)
    }
}

/// "LF-ended lines": the next line without its LF, counted from 1; none at the end or where the LF is missing.
struct Lines<'a> {
    rest: &'a [u8],
    number: usize,
}

impl<'a> Lines<'a> {
    fn next(&mut self) -> Option<&'a [u8]> {
        self.number += 1;
        let end = self.rest.iter().position(|b| *b == b'\n')?;
        let line = &self.rest[..end];
        self.rest = &self.rest[end + 1..];
        Some(line)
    }
}

/// "Numbers have no leading zeros."
fn decimal(text: &[u8], most: u64) -> Option<u64> {
    let digits = !text.is_empty() && text.iter().all(u8::is_ascii_digit);
    if !digits || (text.len() > 1 && text[0] == b'0') {
        return None;
    }
    // Digits past u64 do not parse, and are over any limit.
    std::str::from_utf8(text).ok()?.parse().ok().filter(|n| *n <= most)
}

/// "Names .. are 1 to 48 letters, digits or underscores, and open with an upper-case letter, but not with `Function`"
fn is_name(text: &[u8]) -> bool {
    (1..=48).contains(&text.len())
        && text.iter().all(|b| b.is_ascii_alphanumeric() || *b == b'_')
        && text[0].is_ascii_uppercase()
        && !text.starts_with(b"Function")
}

/// "`types=-` for none"; "at most eight operand types"
fn type_list(text: &[u8]) -> Option<Vec<Type>> {
    if text == b"-" {
        return Some(Vec::new());
    }
    let one = |name: &[u8]| TYPES.iter().find(|t| t.name.as_bytes() == name).copied();
    let types: Vec<Type> = text.split(|b| *b == b',').map(one).collect::<Option<_>>()?;
    (types.len() <= 8).then_some(types)
}

/// "`op=18 name=Jmp jump=1 types=Addr8`, opcodes 0 to 255"
fn opcode_line(line: &[u8]) -> Option<(usize, Opcode)> {
    let fields: Vec<&[u8]> = line.split(|b| *b == b' ').collect();
    let [op, name, jump, types] = fields[..] else { return None };
    let code = decimal(op.strip_prefix(b"op=")?, 255)?;
    let name = name.strip_prefix(b"name=").filter(|n| is_name(n))?;
    decimal(jump.strip_prefix(b"jump=")?, 1)?;
    let types = type_list(types.strip_prefix(b"types=")?)?;
    Some((code as usize, Opcode { name: String::from_utf8(name.to_vec()).ok()?, types }))
}

/// "lines `version=V` (u32), `count=N` (1 to 256), then N lines .. rising .. Names differ"; "a line too many is 1". None where a
/// line is malformed; `lines.number` is then its number.
fn sheet_lines(lines: &mut Lines) -> Option<Sheet> {
    decimal(lines.next()?.strip_prefix(b"version=")?, u32::MAX as u64)?;
    let count = decimal(lines.next()?.strip_prefix(b"count=")?, 256).filter(|n| *n >= 1)?;
    let mut sheet = Sheet { opcodes: Vec::new() };
    for _ in 0..count {
        let (code, opcode) = opcode_line(lines.next()?)?;
        let rising = code >= sheet.opcodes.len();
        let new = !sheet.opcodes.iter().flatten().any(|o| o.name == opcode.name);
        if !rising || !new {
            return None;
        }
        sheet.opcodes.resize(code, None);
        sheet.opcodes.push(Some(opcode));
    }
    lines.number += 1;
    lines.rest.is_empty().then_some(sheet)
}

/// "1 sheet or job line malformed; place is its line"; "A missing line is 1 where it would stand"
pub fn read_sheet(text: &[u8]) -> Result<Sheet, Refusal> {
    let mut lines = Lines { rest: text, number: 0 };
    sheet_lines(&mut lines).ok_or_else(|| refusal(1, lines.number, 0))
}

// Strings.

/// "17 string table: ends fall or pass the bytes, or an entry isn't UTF-8"; "each by entry"; place: "index from 0 for ..
/// strings"
pub fn check_table(context: &Context) -> Result<(), Refusal> {
    let mut start = 0;
    for (id, end) in context.ends.iter().enumerate() {
        let end = *end as usize;
        let text = context.bytes.get(start..end).ok_or(refusal(17, id, 0))?;
        std::str::from_utf8(text).map_err(|_| refusal(17, id, 0))?;
        start = end;
    }
    Ok(())
}

/// "`string_at` .. the entry of that index, if below the count"; of a table that 17 lets through.
pub fn string_at(context: &Context, id: u64) -> Option<&[u8]> {
    let id = usize::try_from(id).ok().filter(|id| *id < context.ends.len())?;
    let start = if id == 0 { 0 } else { context.ends[id - 1] as usize };
    Some(&context.bytes[start..context.ends[id] as usize])
}

/// "Lookup gives the first id whose text is equal."
pub fn first_ids(context: &Context) -> HashMap<&[u8], u64> {
    let mut ids = HashMap::new();
    for id in 0..context.ends.len() as u64 {
        ids.entry(string_at(context, id).unwrap()).or_insert(id);
    }
    ids
}

// Decoder.

/// An instruction as it stands in a body; operands by their bits, zero above their width.
#[derive(Clone, Debug)]
pub struct Instruction {
    pub offset: usize,
    pub opcode: u8,
    pub operands: Vec<u64>,
}

/// "All little-endian"
fn little_endian(bytes: &[u8]) -> u64 {
    bytes.iter().rev().fold(0, |n, b| n << 8 | *b as u64)
}

/// "13 opcode beyond the sheet's largest", "14 bytes end inside an instruction"; "An "<invalid>" opcode decodes as one byte."
/// Place: "byte offset of the instruction when decoding or listing (13 and 14 of a carry too)".
pub fn decode(sheet: &Sheet, body: &[u8]) -> Result<Vec<Instruction>, Refusal> {
    let (mut all, mut at) = (Vec::new(), 0);
    while at < body.len() {
        let (offset, opcode) = (at, body[at]);
        if opcode as usize >= sheet.opcodes.len() {
            return Err(refusal(13, offset, 0));
        }
        at += 1;
        let mut operands = Vec::new();
        for t in sheet.types(opcode) {
            let bytes = body.get(at..at + t.width).ok_or(refusal(14, offset, 0))?;
            operands.push(little_endian(bytes));
            at += t.width;
        }
        all.push(Instruction { offset, opcode, operands });
    }
    Ok(all)
}

/// "Addr and Imm32 signed": an Addr's bits as a distance.
pub fn distance(width: usize, bits: u64) -> i64 {
    if width == 1 { bits as u8 as i8 as i64 } else { bits as u32 as i32 as i64 }
}

/// For each offset up to the body's length, "the index of the instruction starting" there, "or the instruction count where
/// that is the body's length".
pub struct Starts(Vec<Option<usize>>);

impl Starts {
    pub fn new(instructions: &[Instruction], length: usize) -> Self {
        let mut at = vec![None; length + 1];
        for (i, instruction) in instructions.iter().enumerate() {
            at[instruction.offset] = Some(i);
        }
        at[length] = Some(instructions.len());
        Starts(at)
    }

    /// "an instruction's start or the body's length" at "offset plus distance", by its index.
    pub fn target(&self, offset: usize, distance: i64) -> Option<usize> {
        let sum = usize::try_from(offset as i64 + distance).ok()?;
        self.0.get(sum).copied().flatten()
    }
}

// Meaning.

/// "by operand in order, the family and the value, a double's bits, a string's text, or an Addr's target"
#[derive(Clone, Debug, PartialEq, Eq)]
pub enum Part<'a> {
    Value(u64),
    Text(Option<&'a [u8]>),
    Target(Option<usize>),
}

/// "An instruction's *meaning*, under a sheet and table: its name and" its operands'.
#[derive(Clone, Debug, PartialEq, Eq)]
pub struct Meaning<'a> {
    pub name: &'a str,
    pub operands: Vec<(Family, Part<'a>)>,
}

/// "the value, a double's bits, a string's text, or an Addr's target"
fn part<'a>(context: &'a Context, starts: &Starts, offset: usize, t: Type, bits: u64) -> Part<'a> {
    match t.family {
        Family::String => Part::Text(string_at(context, bits)),
        Family::Addr => Part::Target(starts.target(offset, distance(t.width, bits))),
        _ => Part::Value(bits),
    }
}

/// "An instruction's *meaning*, under a sheet and table", for each instruction of a body.
pub fn meanings<'a>(sheet: &'a Sheet, context: &'a Context, body: &[u8]) -> Result<Vec<Meaning<'a>>, Refusal> {
    let instructions = decode(sheet, body)?;
    let starts = Starts::new(&instructions, body.len());
    let meaning = |i: &Instruction| Meaning {
        name: sheet.opcodes[i.opcode as usize].as_ref().map_or("<invalid>", |o| &o.name),
        operands: (sheet.types(i.opcode).iter().zip(&i.operands))
            .map(|(t, bits)| (t.family, part(context, &starts, i.offset, *t, *bits)))
            .collect(),
    };
    Ok(instructions.iter().map(meaning).collect())
}

// Carrying.

/// An operand of the result: what is written, or the index of the instruction that a distance leads to.
#[derive(Clone, Copy, Debug)]
pub enum Held {
    Bits(u64),
    Target(usize),
}

/// An instruction of the result before its distances are known.
#[derive(Clone, Debug)]
pub struct Planned {
    pub opcode: u8,
    pub operands: Vec<(Type, Held)>,
}

impl Planned {
    /// The opcode's byte, which "An "<invalid>" opcode decodes as one byte" shows, and the bytes of each operand's type.
    pub fn length(&self) -> usize {
        1 + self.operands.iter().map(|(t, _)| t.width).sum::<usize>()
    }
}

/// The inputs, once 18, 17, 1, 13 and 14 have let them through.
pub struct Opened<'a> {
    pub input: &'a Input,
    pub first: Sheet,
    pub second: Sheet,
    pub instructions: Vec<Instruction>,
    pub starts: Starts,
    /// The second sheet's opcode of each name.
    pub codes: HashMap<String, u8>,
    /// The second table's first id of each text.
    pub ids: HashMap<&'a [u8], u64>,
}

/// "18 of inputs (body or text, then each table's strings, then its bytes)"; "18 and 19 have place 0."
fn check_limits(input: &Input) -> Result<(), Refusal> {
    let over = |c: &Context| c.ends.len() > STRINGS_LIMIT || c.bytes.len() > STRING_BYTES_LIMIT;
    if input.body.len() > BODY_LIMIT || over(&input.first) || over(&input.second) {
        return Err(refusal(18, 0, 0));
    }
    Ok(())
}

/// "the second sheet's opcode of its name"; "<invalid>" is no name of it.
fn codes_of(sheet: &Sheet) -> HashMap<String, u8> {
    let named = sheet.opcodes.iter().enumerate().filter_map(|(code, o)| Some((o.as_ref()?.name.clone(), code as u8)));
    named.collect()
}

/// "Order: 18 of inputs .., 17 (first table, then second, each by entry), 1 (first sheet, then second)"; "Decode under the first
/// sheet: 13, 14."
pub fn open(input: &Input) -> Result<Opened<'_>, Refusal> {
    check_limits(input)?;
    check_table(&input.first)?;
    check_table(&input.second)?;
    let first = read_sheet(&input.first.sheet)?;
    let second = read_sheet(&input.second.sheet)?;
    let instructions = decode(&first, &input.body)?;
    let starts = Starts::new(&instructions, input.body.len());
    let codes = codes_of(&second);
    Ok(Opened { input, first, second, instructions, starts, codes, ids: first_ids(&input.second) })
}

/// "a register or number doesn't fit": whether it is below 256 to the power of the width.
pub fn fits(n: u64, width: usize) -> bool {
    width == 8 || n < 1 << (8 * width)
}

/// "a string is 16 without text, 10 if the second table lacks the text, else its first id, 16 if that doesn't fit"
fn string_id(opened: &Opened, id: u64, width: usize) -> Result<u64, u64> {
    let text = string_at(&opened.input.first, id).ok_or(16u64)?;
    let found = *opened.ids.get(text).ok_or(10u64)?;
    if fits(found, width) { Ok(found) } else { Err(16) }
}

/// "families are .., 16 if they differ or a register or number doesn't fit; a string ..; an Addr is 7 unless offset plus
/// distance is an instruction's start or the body's length". What is held, or the refusal's number.
pub fn carried_operand(opened: &Opened, offset: usize, from: Type, bits: u64, to: Type) -> Result<Held, u64> {
    if from.family != to.family {
        return Err(16);
    }
    match from.family {
        Family::String => string_id(opened, bits, to.width).map(Held::Bits),
        Family::Addr => opened.starts.target(offset, distance(from.width, bits)).map(Held::Target).ok_or(7),
        _ if fits(bits, to.width) => Ok(Held::Bits(bits)),
        _ => Err(16),
    }
}

/// "4 if the second lacks the name (always for "<invalid>"), 5; then by operand". Place: "index from 0 for .. carrying"; "An
/// operand number goes only with 6 to 12, 16".
pub fn carried_instruction(opened: &Opened, index: usize) -> Result<Planned, Refusal> {
    let instruction = &opened.instructions[index];
    let named = opened.first.opcodes[instruction.opcode as usize].as_ref();
    let opcode = *named.and_then(|o| opened.codes.get(&o.name)).ok_or(refusal(4, index, 0))?;
    let (from, to) = (opened.first.types(instruction.opcode), opened.second.types(opcode));
    if from.len() != to.len() {
        return Err(refusal(5, index, 0));
    }
    let mut operands = Vec::new();
    for (k, bits) in instruction.operands.iter().enumerate() {
        let held = carried_operand(opened, instruction.offset, from[k], *bits, to[k]);
        operands.push((to[k], held.map_err(|number| refusal(number, index, k + 1))?));
    }
    Ok(Planned { opcode, operands })
}

/// "First pass, by instruction"
pub fn first_pass(opened: &Opened) -> Result<Vec<Planned>, Refusal> {
    (0..opened.instructions.len()).map(|index| carried_instruction(opened, index)).collect()
}

/// "the new offsets", one for each instruction, and the length behind them.
pub fn new_offsets(lengths: impl Iterator<Item = usize>) -> Vec<usize> {
    let mut offsets = vec![0];
    for length in lengths {
        offsets.push(offsets[offsets.len() - 1] + length);
    }
    offsets
}

/// "8 distance outside -128 to 127 for Addr8"
pub fn reaches(distance: i64, width: usize) -> bool {
    width > 1 || (-128..=127).contains(&distance)
}

/// "Second pass: each is written with the second sheet's opcode of its name, its registers, numbers and double bits, the ids
/// found, and distances from the new offsets, 8."
pub fn second_pass(plan: &[Planned]) -> Result<Vec<u8>, Refusal> {
    let offsets = new_offsets(plan.iter().map(Planned::length));
    let mut bytes = Vec::new();
    for (index, planned) in plan.iter().enumerate() {
        bytes.push(planned.opcode);
        for (k, (t, held)) in planned.operands.iter().enumerate() {
            let bits = match *held {
                Held::Bits(bits) => bits,
                Held::Target(target) => {
                    let distance = offsets[target] as i64 - offsets[index] as i64;
                    if !reaches(distance, t.width) {
                        return Err(refusal(8, index, k + 1));
                    }
                    distance as u64
                }
            };
            bytes.extend_from_slice(&bits.to_le_bytes()[..t.width]);
        }
    }
    Ok(bytes)
}

/// What a carry without lent space comes to: the result and the instructions in it.
#[derive(Clone, Debug)]
pub struct Carried {
    pub bytes: Vec<u8>,
    pub instructions: usize,
}

/// "Then 18, 19": 18 of the result.
pub fn within_limit(bytes: Vec<u8>, instructions: usize) -> Result<Carried, Refusal> {
    if bytes.len() > BODY_LIMIT { Err(refusal(18, 0, 0)) } else { Ok(Carried { bytes, instructions }) }
}

/// "These refusals, after the inputs' 18, 17 and 1, are the carry list": all of it but 19, which depends on the lent space.
pub fn carried(input: &Input) -> Result<Carried, Refusal> {
    let opened = open(input)?;
    let plan = first_pass(&opened)?;
    within_limit(second_pass(&plan)?, plan.len())
}

/// A carry's answer and what the lent buffers hold afterwards.
#[derive(Clone, Debug, PartialEq, Eq)]
pub struct Run {
    pub answer: Answer,
    pub out: Vec<u8>,
    pub labels: Vec<[u32; 3]>,
}

/// "19 lent output or work space shorter than needed, and nothing else refuses"; "Space needed, exactly: the result's length; ..
/// Carrying needs one [label entry] for each instruction."
fn in_lent_space(carried: Result<Carried, Refusal>, room: usize, entries: usize) -> Result<Carried, Refusal> {
    carried.and_then(|c| if room < c.bytes.len() || entries < c.instructions { Err(refusal(19, 0, 0)) } else { Ok(c) })
}

/// "A refusal gives number, place and operand .., length 0. Afterwards every lent output and work buffer is all zero. After
/// success, work buffers are zero and output past the result keeps its entry content; length counts the bytes written".
pub fn run_of(carried: Result<Carried, Refusal>, out: &[u8], entries: usize) -> Run {
    let labels = vec![[0; 3]; entries];
    match in_lent_space(carried, out.len(), entries) {
        Err(Refusal { number, place, operand }) => {
            Run { answer: Answer { number, place, operand, length: 0 }, out: vec![0; out.len()], labels }
        }
        Ok(c) => {
            let length = c.bytes.len();
            let left = [&c.bytes[..], &out[length..]].concat();
            Run { answer: Answer { number: 0, place: 0, operand: 0, length: length as u64 }, out: left, labels }
        }
    }
}
