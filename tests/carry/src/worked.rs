// Carries worked by hand from document 01's sentences. The answers are written out; nothing here asks the model.

use crate::compare::{carrier_run, filled_bytes, hex, Carrier};
use crate::model::{Context, Input};

/// A carry, the lent space, and what is said of it.
pub struct Worked {
    pub name: String,
    pub input: Input,
    pub bytes: usize,
    pub entries: usize,
    /// Number, place, operand and length.
    pub answer: [u64; 4],
    pub result: Vec<u8>,
}

fn sheet(lines: &[&str]) -> Vec<u8> {
    format!("version=1\ncount={}\n{}\n", lines.len(), lines.join("\n")).into_bytes()
}

fn context(lines: &[&str], strings: &[&str]) -> Context {
    let ends = (0..strings.len()).map(|n| strings[..=n].concat().len() as u32).collect();
    Context { sheet: sheet(lines), bytes: strings.concat().into_bytes(), ends }
}

fn carry(name: &str, first: &Context, second: &Context, body: &[u8]) -> Worked {
    let input = Input { first: first.clone(), second: second.clone(), body: body.to_vec() };
    Worked { name: name.to_string(), input, bytes: 40, entries: 10, answer: [0; 4], result: Vec::new() }
}

impl Worked {
    fn lends(mut self, bytes: usize, entries: usize) -> Self {
        (self.bytes, self.entries) = (bytes, entries);
        self
    }

    fn gives(mut self, result: &[u8]) -> Self {
        self.answer = [0, 0, 0, result.len() as u64];
        self.result = result.to_vec();
        self
    }

    fn refuses(mut self, number: u64, place: u64, operand: u64) -> Self {
        self.answer = [number, place, operand, 0];
        self
    }
}

/// Document 01's job: its sheet, strings and body.
const OF_DOCUMENT: [&str; 4] = [
    "op=0 name=LoadByte jump=0 types=Reg8,UInt8",
    "op=1 name=Jmp jump=1 types=Addr8",
    "op=2 name=LoadText jump=0 types=Reg8,UInt16S",
    "op=4 name=Ret jump=0 types=Reg8",
];
const OF_DOCUMENT_WIDE: [&str; 4] =
    [OF_DOCUMENT[0], OF_DOCUMENT[1], "op=2 name=LoadText jump=0 types=Reg8,UInt32S", OF_DOCUMENT[3]];
const BODY: [u8; 11] = [0, 1, 7, 1, 6, 2, 1, 0, 0, 4, 1];
const CARRIED: [u8; 13] = [0, 1, 7, 1, 8, 2, 1, 1, 0, 0, 0, 4, 1];

fn documents() -> Context {
    context(&OF_DOCUMENT, &["a,b", "\u{e9}"])
}

fn wide_documents() -> Context {
    context(&OF_DOCUMENT_WIDE, &["x", "a,b"])
}

/// "carry the job's body to a sheet with LoadText as Reg8,UInt32S and strings "x", "a,b"", and the space that it needs.
fn trial() -> Vec<Worked> {
    let (d, w) = (documents(), wide_documents());
    vec![
        carry("the document's trial", &d, &w, &BODY).gives(&CARRIED),
        carry("the trial, exact space", &d, &w, &BODY).lends(13, 4).gives(&CARRIED),
        carry("the trial, more bytes", &d, &w, &BODY).lends(20, 4).gives(&CARRIED),
        carry("the trial, more entries", &d, &w, &BODY).lends(13, 9).gives(&CARRIED),
        carry("the trial, a byte short", &d, &w, &BODY).lends(12, 4).refuses(19, 0, 0),
        carry("the trial, an entry short", &d, &w, &BODY).lends(13, 3).refuses(19, 0, 0),
        carry("the trial, no bytes", &d, &w, &BODY).lends(0, 4).refuses(19, 0, 0),
        carry("the trial, no entries", &d, &w, &BODY).lends(13, 0).refuses(19, 0, 0),
        carry("the trial, no space", &d, &w, &BODY).lends(0, 0).refuses(19, 0, 0),
        carry("the body to its own sheet", &d, &d, &BODY).lends(11, 4).gives(&BODY),
        carry("empty body", &d, &w, &[]).gives(&[]),
        carry("empty body, no space", &d, &w, &[]).lends(0, 0).gives(&[]),
        carry("empty body, no strings", &context(&OF_DOCUMENT, &[]), &context(&OF_DOCUMENT, &[]), &[]).gives(&[]),
    ]
}

/// 13, 14 and 4: "Decode under the first sheet", "4 if the second lacks the name (always for "<invalid>")".
fn decoding_and_names() -> Vec<Worked> {
    let (d, w) = (documents(), wide_documents());
    let no_jump = context(&[OF_DOCUMENT[0], "op=1 name=Jmpx jump=1 types=Addr8", OF_DOCUMENT[3]], &["a,b"]);
    let shorter = context(&[OF_DOCUMENT[0], "op=1 name=Jm jump=1 types=Addr8", OF_DOCUMENT[3]], &["a,b"]);
    let moved = context(
        &["op=7 name=Ret jump=0 types=Reg8", "op=9 name=Jmp jump=0 types=Addr8", "op=255 name=LoadByte jump=1 types=Reg8,UInt8"],
        &[],
    );
    vec![
        carry("05", &d, &w, &[5]).refuses(13, 0, 0),
        carry("13 behind an instruction", &d, &w, &[0, 1, 7, 5]).refuses(13, 3, 0),
        carry("00 01", &d, &w, &[0, 1]).refuses(14, 0, 0),
        carry("14 behind an instruction", &d, &w, &[4, 1, 2, 1, 0]).refuses(14, 2, 0),
        carry("an opcode alone", &d, &w, &[4]).refuses(14, 0, 0),
        carry("<invalid>", &d, &w, &[3]).refuses(4, 0, 0),
        carry("<invalid> at index 1", &d, &d, &[0, 1, 7, 3]).refuses(4, 1, 0),
        carry("<invalid> before 13", &d, &d, &[3, 5]).refuses(13, 1, 0),
        carry("<invalid> before 14", &d, &d, &[3, 4]).refuses(14, 1, 0),
        carry("13 before 14's place", &d, &d, &[5, 4]).refuses(13, 0, 0),
        carry("no Jmp but Jmpx", &d, &no_jump, &[4, 1, 1, 0]).refuses(4, 1, 0),
        carry("no Jmp but Jm", &d, &shorter, &[4, 1, 1, 0]).refuses(4, 1, 0),
        carry("no LoadText, and it is not used", &d, &no_jump, &[4, 1, 0, 1, 2]).gives(&[4, 1, 0, 1, 2]),
        carry("other opcodes", &d, &moved, &[0, 1, 7, 1, 2, 4, 9]).gives(&[255, 1, 7, 9, 2, 7, 9]),
        carry("opcodes beyond the second's largest", &moved, &d, &[255, 1, 7, 9, 253]).gives(&[0, 1, 7, 1, 253]),
    ]
}

/// One opcode of the given types, in both sheets.
fn one_op(name: &str, from: &str, to: &str, body: &[u8]) -> Worked {
    let line = |types: &str| format!("op=0 name=One jump=0 types={types}");
    carry(name, &context(&[&line(from)], &["s", "t"]), &context(&[&line(to)], &["t"]), body)
}

/// "5", "16 if they differ or a register or number doesn't fit".
fn operands() -> Vec<Worked> {
    let nan = [0, 0x34, 0x12, 0, 0, 0, 0, 0xf4, 0xff];
    vec![
        one_op("an operand more", "Reg8", "Reg8,Reg8", &[0, 1]).refuses(5, 0, 0),
        one_op("an operand less", "Reg8,Reg8", "Reg8", &[0, 1, 2]).refuses(5, 0, 0),
        one_op("no operands", "Reg8", "-", &[0, 1]).refuses(5, 0, 0),
        one_op("5 before the operands' 16", "Reg8", "UInt8,Reg8", &[0, 1]).refuses(5, 0, 0),
        one_op("register to number", "Reg8", "UInt8", &[0, 1]).refuses(16, 0, 1),
        one_op("number to string", "Reg8,UInt16", "Reg8,UInt16S", &[0, 1, 0, 0]).refuses(16, 0, 2),
        one_op("string to number", "UInt8S", "UInt8", &[0, 1]).refuses(16, 0, 1),
        one_op("Addr to number", "Addr8", "UInt8", &[0, 0]).refuses(16, 0, 1),
        one_op("Imm32 to Addr32", "Imm32", "Addr32", &[0, 0, 0, 0, 0]).refuses(16, 0, 1),
        one_op("Imm32 to UInt32", "Imm32", "UInt32", &[0, 0, 0, 0, 0]).refuses(16, 0, 1),
        one_op("register 255", "Reg32", "Reg8", &[0, 255, 0, 0, 0]).gives(&[0, 255]),
        one_op("register 256", "Reg32", "Reg8", &[0, 0, 1, 0, 0]).refuses(16, 0, 1),
        one_op("register to the wide one", "Reg8", "Reg32", &[0, 255]).gives(&[0, 255, 0, 0, 0]),
        one_op("number 65535", "UInt32", "UInt16", &[0, 255, 255, 0, 0]).gives(&[0, 255, 255]),
        one_op("number 65536", "UInt32", "UInt16", &[0, 0, 0, 1, 0]).refuses(16, 0, 1),
        one_op("number 256", "UInt16", "UInt8", &[0, 0, 1]).refuses(16, 0, 1),
        one_op("number 200 stays unsigned", "UInt8", "UInt32", &[0, 200]).gives(&[0, 200, 0, 0, 0]),
        one_op("Imm32 -2", "Imm32", "Imm32", &[0, 254, 255, 255, 255]).gives(&[0, 254, 255, 255, 255]),
        one_op("a NaN's bits", "Double", "Double", &nan).gives(&nan),
        one_op("eight operands", "Reg8,Reg8,Reg8,Reg8,Reg8,Reg8,Reg8,Reg8", "Reg8,Reg8,Reg8,Reg8,Reg8,Reg8,Reg8,UInt8", &[
            0, 1, 2, 3, 4, 5, 6, 7, 8,
        ])
        .refuses(16, 0, 8),
        one_op("16 of operand 1 before 7 of operand 2", "Reg8,Addr8", "UInt8,Addr8", &[0, 1, 1]).refuses(16, 0, 1),
        one_op("7 of operand 1 before 16 of operand 2", "Addr8,Reg8", "Addr8,UInt8", &[0, 1, 1]).refuses(7, 0, 1),
        one_op("10 of operand 1 before 16 of operand 2", "UInt8S,Reg8", "UInt8S,UInt8", &[0, 0, 1]).refuses(10, 0, 1),
        one_op("another family before 7", "Addr8", "Reg8", &[0, 1]).refuses(16, 0, 1),
        one_op("another family before 10", "UInt8S", "Reg8", &[0, 0]).refuses(16, 0, 1),
    ]
}

fn numbered(count: usize) -> Vec<String> {
    (0..count).map(|n| format!("{n};")).collect()
}

/// As many other texts, and "t" behind them.
fn behind(count: usize) -> Vec<String> {
    let mut strings = numbered(count);
    strings.push("t".to_string());
    strings
}

fn text_context(types: &str, strings: &[String]) -> Context {
    let texts: Vec<&str> = strings.iter().map(|s| s.as_str()).collect();
    let mut ends = Vec::new();
    for s in strings {
        ends.push(ends.last().copied().unwrap_or(0) + s.len() as u32);
    }
    Context { sheet: sheet(&[&format!("op=0 name=Text jump=0 types={types}")]), bytes: texts.concat().into_bytes(), ends }
}

fn texts(name: &str, from: (&str, &[&str]), to: (&str, &[&str]), body: &[u8]) -> Worked {
    let owned = |strings: &[&str]| strings.iter().map(|s| s.to_string()).collect::<Vec<_>>();
    carry(name, &text_context(from.0, &owned(from.1)), &text_context(to.0, &owned(to.1)), body)
}

/// "a string is 16 without text, 10 if the second table lacks the text, else its first id, 16 if that doesn't fit".
fn strings() -> Vec<Worked> {
    let (one, two, four) = ("UInt8S", "UInt16S", "UInt32S");
    let t = text_context(one, &["t".to_string()]);
    vec![
        texts("no such id", (one, &["a"]), (one, &["a"]), &[0, 1]).refuses(16, 0, 1),
        texts("no strings", (one, &[]), (one, &["a"]), &[0, 0]).refuses(16, 0, 1),
        texts("the largest id of four bytes", (four, &["a"]), (one, &["a"]), &[0, 255, 255, 255, 255]).refuses(16, 0, 1),
        texts("text missing", (one, &["a", "b"]), (one, &["a"]), &[0, 0, 0, 1]).refuses(10, 1, 1),
        texts("a longer text is another", (one, &["a"]), (one, &["ab", "", "A"]), &[0, 0]).refuses(10, 0, 1),
        texts("no empty text", (one, &[""]), (one, &["a"]), &[0, 0]).refuses(10, 0, 1),
        texts("the empty text", (one, &["a", ""]), (two, &["b", ""]), &[0, 1]).gives(&[0, 1, 0]),
        texts("two ids in the second", (one, &["a"]), (one, &["b", "a", "a"]), &[0, 0]).gives(&[0, 1]),
        texts("two ids in the first", (one, &["a", "b", "a"]), (one, &["b", "a"]), &[0, 2, 0, 0]).gives(&[0, 1, 0, 1]),
        texts("the first id in its own table", (one, &["a", "a"]), (one, &["a", "a"]), &[0, 1]).gives(&[0, 0]),
        texts("an id grows", (one, &["\u{65e5}"]), (four, &["a", "b", "\u{65e5}"]), &[0, 0]).gives(&[0, 2, 0, 0, 0]),
        carry("id 255 in one byte", &t, &text_context(one, &behind(255)), &[0, 0]).gives(&[0, 255]),
        carry("id 256 in one byte", &t, &text_context(one, &behind(256)), &[0, 0]).refuses(16, 0, 1),
        carry("id 256 in two bytes", &t, &text_context(two, &behind(256)), &[0, 0]).gives(&[0, 0, 1]),
        carry("id 256 to id 0", &text_context(two, &behind(256)), &t, &[0, 0, 1]).gives(&[0, 0]),
        carry("id 65535", &t, &text_context(two, &behind(65_535)), &[0, 0]).gives(&[0, 255, 255]),
        carry("10 where ids don't fit either", &t, &text_context(one, &numbered(300)), &[0, 0]).refuses(10, 0, 1),
    ]
}

const NARROW: [&str; 5] = [
    "op=0 name=Nop jump=0 types=-",
    "op=1 name=Jmp jump=1 types=Addr8",
    "op=2 name=Move jump=0 types=Reg8",
    "op=3 name=JmpLong jump=1 types=Addr32",
    "op=4 name=Two jump=1 types=Addr8,Reg8,Addr8",
];
/// Move has five bytes; Jmp and JmpLong have changed widths.
const EXCHANGED: [&str; 5] = [
    NARROW[0],
    "op=1 name=Jmp jump=1 types=Addr32",
    "op=2 name=Move jump=0 types=Reg32",
    "op=3 name=JmpLong jump=1 types=Addr8",
    "op=4 name=Two jump=0 types=Addr8,Reg32,Addr8",
];
/// Move alone has changed: two bytes become five.
const LONG_MOVE: [&str; 5] = [NARROW[0], NARROW[1], EXCHANGED[2], NARROW[3], NARROW[4]];

fn repeat(parts: &[(&[u8], usize)]) -> Vec<u8> {
    parts.iter().flat_map(|(bytes, times)| bytes.repeat(*times)).collect()
}

/// "an Addr is 7 unless offset plus distance is an instruction's start or the body's length".
fn targets() -> Vec<Worked> {
    let n = context(&NARROW, &[]);
    let x = context(&EXCHANGED, &[]);
    vec![
        carry("jump to the end", &n, &n, &[1, 2]).gives(&[1, 2]),
        carry("jump to the end over a longer one", &n, &context(&LONG_MOVE, &[]), &[1, 4, 2, 9]).gives(&[1, 7, 2, 9, 0, 0, 0]),
        carry("jump to itself", &n, &n, &[0, 1, 0]).gives(&[0, 1, 0]),
        carry("jump to the start", &n, &n, &[0, 1, 255]).gives(&[0, 1, 255]),
        carry("jump into itself", &n, &n, &[0, 1, 1, 0]).refuses(7, 1, 1),
        carry("jump into a Move", &n, &n, &[1, 3, 2, 9]).refuses(7, 0, 1),
        carry("jump back into a Move", &n, &n, &[2, 9, 1, 255]).refuses(7, 1, 1),
        carry("jump before the start", &n, &n, &[0, 1, 254]).refuses(7, 1, 1),
        carry("jump behind the end", &n, &n, &[1, 3]).refuses(7, 0, 1),
        carry("the largest distance", &n, &n, &[3, 255, 255, 255, 127]).refuses(7, 0, 1),
        carry("the smallest distance", &n, &n, &[3, 0, 0, 0, 128]).refuses(7, 0, 1),
        carry("second Addr into the middle", &n, &n, &[4, 0, 9, 1]).refuses(7, 0, 3),
        carry("two Addrs of one instruction", &n, &x, &[0, 4, 255, 7, 4]).gives(&[0, 4, 255, 7, 0, 0, 0, 7]),
        carry("Addr8 to Addr32", &n, &x, &[0, 1, 255]).gives(&[0, 1, 255, 255, 255, 255]),
        carry("Addr32 to Addr8", &n, &x, &[3, 5, 0, 0, 0]).gives(&[3, 2]),
        carry("forward over a jump", &n, &x, &[1, 7, 3, 254, 255, 255, 255]).gives(&[1, 7, 0, 0, 0, 3, 251]),
    ]
}

/// "distances from the new offsets, 8": 25 Moves take 50 bytes before and 125 after the carry.
fn reach() -> Vec<Worked> {
    let (n, l, x) = (context(&NARROW, &[]), context(&LONG_MOVE, &[]), context(&EXCHANGED, &[]));
    let (short, long): (&[u8], &[u8]) = (&[2, 9], &[2, 9, 0, 0, 0]);
    let far = repeat(&[(&[3, 205, 0, 0, 0], 1), (&[0], 200)]);
    vec![
        carry("127 forward", &n, &l, &repeat(&[(&[1, 52], 1), (short, 25)]))
            .lends(127, 26)
            .gives(&repeat(&[(&[1, 127], 1), (long, 25)])),
        carry("128 forward", &n, &l, &repeat(&[(&[1, 53], 1), (short, 25), (&[0], 1)])).lends(200, 30).refuses(8, 0, 1),
        carry("128 forward to a Nop", &n, &l, &repeat(&[(&[0], 1), (&[1, 53], 1), (short, 25), (&[0], 2)]))
            .lends(200, 30)
            .refuses(8, 1, 1),
        carry("-128 back", &n, &l, &repeat(&[(&[0], 3), (short, 25), (&[1, 203], 1)]))
            .lends(130, 29)
            .gives(&repeat(&[(&[0], 3), (long, 25), (&[1, 128], 1)])),
        carry("-129 back", &n, &l, &repeat(&[(&[0], 4), (short, 25), (&[1, 202], 1)])).lends(200, 40).refuses(8, 29, 1),
        carry("second Addr out of reach", &n, &l, &repeat(&[(&[4, 0, 9, 54], 1), (short, 25), (&[0], 1)]))
            .lends(200, 40)
            .refuses(8, 0, 3),
        carry("Addr32 out of Addr8's reach", &n, &x, &far).lends(300, 300).refuses(8, 0, 1),
        carry("Addr32 stays", &n, &n, &far).lends(205, 201).gives(&far),
        carry("a jump over shorter ones", &l, &n, &repeat(&[(&[3, 255, 0, 0, 0], 1), (long, 50)]))
            .lends(200, 60)
            .gives(&repeat(&[(&[3, 105, 0, 0, 0], 1), (short, 50)])),
        carry("8 where nothing is lent", &n, &l, &repeat(&[(&[1, 53], 1), (short, 25), (&[0], 1)])).lends(0, 0).refuses(8, 0, 1),
    ]
}

/// Two refusals at once: the passes one after the other, in each by instruction, then by operand.
fn two_faults() -> Vec<Worked> {
    let n = context(&NARROW, &["a"]);
    let without = |name: &str, other: &str| {
        let lines: Vec<String> = LONG_MOVE.iter().map(|l| l.replace(&format!("name={name} "), other)).collect();
        context(&lines.iter().map(|l| l.as_str()).collect::<Vec<_>>(), &[])
    };
    let no_long = without("JmpLong", "name=Other ");
    let no_jmp = without("Jmp", "name=Other ");
    let far = repeat(&[(&[1, 53], 1), (&[2, 9], 25), (&[0], 1)]);
    let far_then = |last: &[u8]| [&far[..], last].concat();
    let five = context(&[NARROW[0], "op=1 name=Jmp jump=1 types=Addr8,Reg8", "op=2 name=Move jump=0 types=UInt8"], &[]);
    vec![
        carry("4 at the last before 8 at the first", &n, &no_long, &far_then(&[3, 0, 0, 0, 0])).refuses(4, 27, 0),
        carry("7 at the last before 8 at the first", &n, &context(&LONG_MOVE, &[]), &far_then(&[1, 1])).refuses(7, 27, 1),
        carry("14 at the last before 8 at the first", &n, &context(&LONG_MOVE, &[]), &far_then(&[1])).refuses(14, 53, 0),
        carry("8 of the first before 8 of the second", &n, &context(&LONG_MOVE, &[]), &[&[1, 55][..], &far].concat())
            .refuses(8, 0, 1),
        carry("7 at the first before 4 at the second", &n, &no_long, &[1, 1, 3, 0, 0, 0, 0]).refuses(7, 0, 1),
        carry("4 at the first before 7 at the second", &n, &no_jmp, &[1, 0, 3, 1, 0, 0, 0]).refuses(4, 0, 0),
        carry("16 at the first before 5 at the second", &n, &five, &[2, 9, 1, 0]).refuses(16, 0, 1),
        carry("5 at the first before 16 at the second", &n, &five, &[1, 0, 2, 9]).refuses(5, 0, 0),
        carry("16 at the first before 4 at the second", &n, &five, &[2, 9, 3, 0, 0, 0, 0]).refuses(16, 0, 1),
        carry("4 at the first before 16 at the second", &n, &five, &[3, 0, 0, 0, 0, 2, 9]).refuses(4, 0, 0),
        carry("5 at the first before 4 at the second", &n, &five, &[1, 0, 3, 0, 0, 0, 0]).refuses(5, 0, 0),
        carry("13 at the last before 4 at the first", &n, &five, &[3, 0, 0, 0, 0, 9]).refuses(13, 5, 0),
        carry("4 where nothing is lent", &n, &five, &[3, 0, 0, 0, 0]).lends(0, 0).refuses(4, 0, 0),
    ]
}

fn table(bytes: &[u8], ends: &[u32]) -> Context {
    Context { sheet: sheet(&OF_DOCUMENT), bytes: bytes.to_vec(), ends: ends.to_vec() }
}

/// "17 string table: ends fall or pass the bytes, or an entry isn't UTF-8".
fn tables() -> Vec<Worked> {
    let good = documents();
    let first = |name: &str, bytes: &[u8], ends: &[u32]| carry(name, &table(bytes, ends), &good, &[4, 1]);
    let second = |name: &str, bytes: &[u8], ends: &[u32]| carry(name, &good, &table(bytes, ends), &[4, 1]);
    vec![
        first("ends fall", b"abc", &[2, 3, 1]).refuses(17, 2, 0),
        first("the first end passes the bytes", b"abc", &[4]).refuses(17, 0, 0),
        first("an end is the largest u32", b"abc", &[3, 4_294_967_295]).refuses(17, 1, 0),
        first("not UTF-8", b"a\xff", &[1, 2]).refuses(17, 1, 0),
        first("a surrogate", b"a\xed\xa0\x80", &[4]).refuses(17, 0, 0),
        first("an overlong form", b"\xc0\x80", &[2]).refuses(17, 0, 0),
        first("past the last character", b"\xf4\x90\x80\x80", &[4]).refuses(17, 0, 0),
        first("a character over two entries", b"a\xc3\xa9", &[1, 2, 3]).refuses(17, 1, 0),
        first("the last character", b"\xf4\x8f\xbf\xbf", &[4]).gives(&[4, 1]),
        first("equal ends, and bytes behind them", b"ab\xff", &[0, 0, 2, 2]).gives(&[4, 1]),
        second("ends fall in the second", b"abc", &[3, 2]).refuses(17, 1, 0),
        second("the second's end passes the bytes", b"", &[0, 0, 1]).refuses(17, 2, 0),
        second("not UTF-8 in the second", b"\x80", &[1]).refuses(17, 0, 0),
        carry("17 of both", &table(b"ab", &[1, 2, 3]), &table(b"", &[1]), &[4, 1]).refuses(17, 2, 0),
        carry("17 of the second before 13", &good, &table(b"", &[1]), &[9]).refuses(17, 0, 0),
    ]
}

/// A sheet's text in place of the first or the second one's.
fn with_sheets(name: &str, first: &str, second: &str) -> Worked {
    let mut w = carry(name, &documents(), &documents(), &[4, 1]);
    if !first.is_empty() {
        w.input.first.sheet = first.as_bytes().to_vec();
    }
    if !second.is_empty() {
        w.input.second.sheet = second.as_bytes().to_vec();
    }
    w
}

/// Sheets of two opcode lines with a fault, and the fault's line; 0 where there is none.
const SHEETS: [(&str, &str, u64); 42] = [
    ("as it should be", "version=0\ncount=1\nop=4 name=Ret jump=0 types=Reg8\n", 0),
    ("largest numbers", "version=4294967295\ncount=2\nop=4 name=Ret jump=1 types=Reg8\nop=255 name=Z jump=0 types=-\n", 0),
    ("no line", "\n", 1),
    ("version past u32", "version=4294967296\ncount=1\nop=4 name=Ret jump=0 types=Reg8\n", 1),
    ("version with a leading zero", "version=01\ncount=1\nop=4 name=Ret jump=0 types=Reg8\n", 1),
    ("version with a sign", "version=+1\ncount=1\nop=4 name=Ret jump=0 types=Reg8\n", 1),
    ("no version", "count=1\nop=4 name=Ret jump=0 types=Reg8\n", 1),
    ("version alone", "version=1\n", 2),
    ("version without LF", "version=1", 1),
    ("CR LF", "version=1\r\ncount=1\r\n", 1),
    ("count 0", "version=1\ncount=0\n", 2),
    ("count 257", "version=1\ncount=257\nop=4 name=Ret jump=0 types=Reg8\n", 2),
    ("count with a space", "version=1\ncount=1 \nop=4 name=Ret jump=0 types=Reg8\n", 2),
    ("no opcode line", "version=1\ncount=1\n", 3),
    ("a line missing", "version=1\ncount=2\nop=4 name=Ret jump=0 types=Reg8\n", 4),
    ("a line too many", "version=1\ncount=1\nop=4 name=Ret jump=0 types=Reg8\nop=5 name=A jump=0 types=-\n", 4),
    ("an empty line too many", "version=1\ncount=1\nop=4 name=Ret jump=0 types=Reg8\n\n", 4),
    ("a byte too many", "version=1\ncount=1\nop=4 name=Ret jump=0 types=Reg8\nx", 4),
    ("last line without LF", "version=1\ncount=1\nop=4 name=Ret jump=0 types=Reg8", 3),
    ("an empty line inside", "version=1\n\ncount=1\nop=4 name=Ret jump=0 types=Reg8\n", 2),
    ("opcode 256", "version=1\ncount=1\nop=256 name=Ret jump=0 types=Reg8\n", 3),
    ("opcode 04", "version=1\ncount=1\nop=04 name=Ret jump=0 types=Reg8\n", 3),
    ("opcode twice", "version=1\ncount=2\nop=4 name=Ret jump=0 types=Reg8\nop=4 name=A jump=0 types=-\n", 4),
    ("opcodes fall", "version=1\ncount=2\nop=4 name=Ret jump=0 types=Reg8\nop=3 name=A jump=0 types=-\n", 4),
    ("name twice", "version=1\ncount=2\nop=4 name=Ret jump=0 types=Reg8\nop=5 name=Ret jump=0 types=-\n", 4),
    ("lower-case name", "version=1\ncount=1\nop=4 name=ret jump=0 types=Reg8\n", 3),
    ("no name", "version=1\ncount=1\nop=4 name= jump=0 types=Reg8\n", 3),
    ("name with a digit in front", "version=1\ncount=1\nop=4 name=4Ret jump=0 types=Reg8\n", 3),
    ("name with an underscore in front", "version=1\ncount=1\nop=4 name=_Ret jump=0 types=Reg8\n", 3),
    ("name with a hyphen", "version=1\ncount=1\nop=4 name=Re-t jump=0 types=Reg8\n", 3),
    ("Function", "version=1\ncount=2\nop=4 name=Ret jump=0 types=Reg8\nop=5 name=Function jump=0 types=-\n", 4),
    ("Function5", "version=1\ncount=2\nop=4 name=Ret jump=0 types=Reg8\nop=5 name=Function5 jump=0 types=-\n", 4),
    ("Functio_n", "version=1\ncount=2\nop=4 name=Ret jump=0 types=Reg8\nop=5 name=Functio_n jump=0 types=-\n", 0),
    ("jump 2", "version=1\ncount=1\nop=4 name=Ret jump=2 types=Reg8\n", 3),
    ("no jump", "version=1\ncount=1\nop=4 name=Ret types=Reg8\n", 3),
    ("no types", "version=1\ncount=1\nop=4 name=Ret jump=0 types=\n", 3),
    ("unknown type", "version=1\ncount=1\nop=4 name=Ret jump=0 types=Reg16\n", 3),
    ("type of lower case", "version=1\ncount=1\nop=4 name=Ret jump=0 types=reg8\n", 3),
    ("comma at the end", "version=1\ncount=1\nop=4 name=Ret jump=0 types=Reg8,\n", 3),
    ("none and a type", "version=1\ncount=1\nop=4 name=Ret jump=0 types=-,Reg8\n", 3),
    ("two spaces", "version=1\ncount=1\nop=4  name=Ret jump=0 types=Reg8\n", 3),
    ("space at the end", "version=1\ncount=1\nop=4 name=Ret jump=0 types=Reg8 \n", 3),
];

fn sheets() -> Vec<Worked> {
    let mut all = Vec::new();
    for (name, text, line) in SHEETS {
        for (w, side) in [(with_sheets(name, text, ""), "first"), (with_sheets(name, "", text), "second")] {
            let mut w = if line == 0 { w.gives(&[4, 1]) } else { w.refuses(1, line, 0) };
            w.name = format!("{side} sheet: {name}");
            all.push(w);
        }
    }
    let named = |letters: usize| format!("version=1\ncount=1\nop=4 name={} jump=0 types=Reg8\n", "N".repeat(letters));
    let typed = |types: usize| format!("version=1\ncount=1\nop=4 name=Ret jump=0 types={}\n", vec!["Reg8"; types].join(","));
    all.push(with_sheets("a name of 48", &named(48), &named(48)).gives(&[4, 1]));
    all.push(with_sheets("a name of 49", &named(48), &named(49)).refuses(1, 3, 0));
    all.push(with_sheets("eight types", &typed(1), &typed(8)).refuses(5, 0, 0));
    all.push(with_sheets("nine types", &typed(1), &typed(9)).refuses(1, 3, 0));
    all.push(with_sheets("1 of both", "version=1\n", "x\n").refuses(1, 2, 0));
    let mut empty = with_sheets("empty sheet", "", "");
    empty.input.second.sheet.clear();
    all.push(empty.refuses(1, 1, 0));
    let mut body = with_sheets("1 of the second before 13", "", "version=1\n");
    body.input.body = vec![9];
    all.push(body.refuses(1, 2, 0));
    let mut none = with_sheets("1 of the second, empty body", "", "version=1\n");
    none.input.body.clear();
    all.push(none.refuses(1, 2, 0));
    all
}

/// "18 of inputs .., 17 .., 1": each in front of what comes behind it.
fn limits() -> Vec<Worked> {
    let n = context(&NARROW, &[]);
    let l = context(&LONG_MOVE, &[]);
    let nops = |count: usize| vec![0; count];
    let moves = |count: usize, nops: usize| repeat(&[(&[2, 9], count), (&[0], nops)]);
    let long_moves = |count: usize, nops: usize| repeat(&[(&[2, 9, 0, 0, 0], count), (&[0], nops)]);
    let empty_texts = |count: usize| Context { ends: vec![0; count], ..n.clone() };
    let megabyte = |bytes: usize, ends: &[u32]| Context { bytes: vec![b'm'; bytes], ends: ends.to_vec(), ..n.clone() };
    let bad_sheet = |mut c: Context| {
        c.sheet.clear();
        c
    };
    vec![
        carry("65,536 bytes", &n, &n, &nops(65_536)).lends(65_536, 65_536).gives(&nops(65_536)),
        carry("65,536 bytes, an entry short", &n, &n, &nops(65_536)).lends(65_536, 65_535).refuses(19, 0, 0),
        carry("65,537 bytes", &n, &n, &nops(65_537)).lends(65_537, 65_537).refuses(18, 0, 0),
        carry("a result of 65,536", &n, &l, &moves(13_107, 1)).lends(65_536, 13_108).gives(&long_moves(13_107, 1)),
        carry("a result of 65,537", &n, &l, &moves(13_107, 2)).lends(65_537, 13_109).refuses(18, 0, 0),
        carry("18 of the result before 19", &n, &l, &moves(13_107, 2)).lends(0, 0).refuses(18, 0, 0),
        carry("8 before 18 of the result", &n, &l, &[&[1, 102][..], &moves(13_107, 2)].concat()).refuses(8, 0, 1),
        carry("7 before 18 of the result", &n, &l, &[&moves(13_107, 2)[..], &[1, 1]].concat()).refuses(7, 13_109, 1),
        carry("65,536 strings", &empty_texts(65_536), &empty_texts(65_536), &[0]).gives(&[0]),
        carry("65,537 strings", &empty_texts(65_537), &n, &[0]).refuses(18, 0, 0),
        carry("65,537 strings in the second", &n, &empty_texts(65_537), &[0]).refuses(18, 0, 0),
        carry("1,048,576 string bytes", &megabyte(1_048_576, &[1_048_576]), &n, &[0]).gives(&[0]),
        carry("1,048,577 string bytes", &megabyte(1_048_577, &[1_048_577]), &n, &[0]).refuses(18, 0, 0),
        carry("1,048,577 string bytes in no entry", &n, &megabyte(1_048_577, &[]), &[0]).refuses(18, 0, 0),
        carry("18 before 17 before 1", &bad_sheet(megabyte(1, &[2])), &bad_sheet(empty_texts(65_537)), &[0]).refuses(18, 0, 0),
        carry("17 of the second before 1 of the first", &bad_sheet(n.clone()), &megabyte(1, &[1, 2]), &[0]).refuses(17, 1, 0),
        carry("1 of the first before 13", &bad_sheet(n.clone()), &n, &[9]).refuses(1, 1, 0),
    ]
}

pub fn all() -> Vec<Worked> {
    let groups =
        [trial(), decoding_and_names(), operands(), strings(), targets(), reach(), two_faults(), tables(), sheets(), limits()];
    groups.into_iter().flatten().collect()
}

/// What a carrier says of a worked carry, where that is not what is written here.
pub fn difference(carrier: Carrier, worked: &Worked) -> Option<String> {
    let run = carrier_run(carrier, &worked.input, worked.bytes, worked.entries);
    let mut out = vec![0; worked.bytes];
    if worked.answer[0] == 0 {
        out = filled_bytes(worked.bytes);
        out[..worked.result.len()].copy_from_slice(&worked.result);
    }
    let answer = [run.answer.number, run.answer.place, run.answer.operand, run.answer.length];
    let same = answer == worked.answer && run.out == out && run.labels.iter().all(|l| *l == [0; 3]);
    let front = |bytes: &[u8]| hex(&bytes[..bytes.len().min(60)]);
    (!same).then(|| {
        format!("worked carry '{}': want {:?} {}, got {answer:?} {}", worked.name, worked.answer, front(&out), front(&run.out))
    })
}
