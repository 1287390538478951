// How much stack the desk uses: a thread's stack is filled with a mark below the caller, and searched after the call.

use crate::areas::Area;
use crate::assemble::Table;
use crate::desk::{self, Answer};
use crate::listing::DEFAULT;
use crate::rust::{refusal, success};
use crate::sheets;

const MARK: u8 = 0xd7;
const SPACE: usize = 64 << 20;
/// Left alone below the caller, whose own frame and those of the loops here lie there.
const NEAR: usize = 4096;

/// The lowest byte that a call on this thread's stack has changed, counted downwards from here.
#[inline(never)]
fn used_by(call: impl FnOnce()) -> usize {
    let here = 0u8;
    let top = &raw const here as usize - NEAR;
    let low = top - (SPACE - (1 << 20));
    for at in low..top {
        unsafe { (at as *mut u8).write_volatile(MARK) };
    }
    call();
    let first = (low..top).find(|at| unsafe { (*at as *const u8).read_volatile() } != MARK);
    top + NEAR - first.unwrap_or(top)
}

/// A text of quotes alone: with its two quotes it fills a line of LoadText, and each quote hands the scans over.
fn quotes() -> String {
    "\"".repeat(4096 - 15)
}

/// A text of the largest size whose result is of the largest size: labels, the last of which is looked up, texts of the
/// largest table, lines of quotes at the limit.
fn largest() -> String {
    let mut text = String::new();
    for n in 0..8190 {
        let s = if n % 80 == 0 { quotes() } else { format!("s{}", 65_534 - n) };
        let target = if n == 8189 { String::new() } else { format!("{}", 8 * n + 4) };
        text += &format!("L:\nLoadText r1, \"{s}\"\nJmp L{target}\nRet r1\n");
    }
    text += &"Ret r1\n".repeat(8);
    let rest = 1_048_576 - text.len();
    text + &"\n".repeat(rest)
}

/// A call and the stack that it used.
pub struct Used {
    pub call: String,
    pub bytes: usize,
}

/// Adds the stack of one call, which has to answer as expected.
fn add(all: &mut Vec<Used>, call: &str, expected: Answer, f: impl FnOnce() -> Answer + Send) {
    let mut answer = success(0);
    let work = || used_by(|| answer = f());
    let thread = std::thread::Builder::new().stack_size(SPACE);
    let bytes = std::thread::scope(|s| thread.spawn_scoped(s, work).unwrap().join().unwrap());
    assert!(answer == expected, "{call}: {answer:?}");
    all.push(Used { call: call.to_string(), bytes });
}

/// A text to assemble under document 01's sheet, with so many bytes and label entries lent, and the answer to it.
struct Text<'a> {
    table: &'a Table,
    text: &'a str,
    room: usize,
    lent: usize,
    expected: Answer,
}

fn assembled(all: &mut Vec<Used>, what: &str, t: Text) {
    let sheet = sheets::of_document();
    let (mut out, mut entries) = (vec![0u8; t.room], vec![[0u32; 3]; t.lent]);
    add(all, &format!("desk_assemble, {what}"), t.expected, || {
        desk::assemble(&sheet.text, &t.table.bytes, &t.table.ends, t.text.as_bytes(), &mut out, &mut entries)
    });
}

/// A body of so many jumps by 127, whose labels lie apart and, at its end, far outside.
fn jumps(count: usize) -> Vec<u8> {
    [1, 127].repeat(count)
}

/// A body as the one function of an area.
fn alone(body: Vec<u8>) -> Area {
    Area { functions: vec![0, body.len() as u32, 0], bytes: body, base: 0 }
}

/// Listing the one function of an area, as a body, as a function and as a module, with so many label entries lent.
fn listed(all: &mut Vec<Used>, what: &str, sheet: &[u8], area: &Area, lent: usize) {
    let body = &area.bytes;
    let (mut text, mut entries) = (vec![0u8; 1 << 20], vec![0u32; lent]);
    let length = desk::list(sheet, &[], &[], body, DEFAULT, &mut text, &mut entries).length as usize;
    add(all, &format!("desk_list, {what}"), success(length), || {
        desk::list(sheet, &[], &[], body, DEFAULT, &mut text, &mut entries)
    });
    add(all, &format!("desk_list_function, {what}"), success(length), || {
        desk::list_function(sheet, &[], &[], area, 0, DEFAULT, &mut text, &mut entries)
    });
    let module = desk::list_module(sheet, &[], &[], area, DEFAULT, &mut text, &mut entries).length as usize;
    add(all, &format!("desk_list_module, {what}"), success(module), || {
        desk::list_module(sheet, &[], &[], area, DEFAULT, &mut text, &mut entries)
    });
}

/// The operations on bodies, of which the largest has 65,536 bytes, as a body and as the one function of an area.
fn on_body(all: &mut Vec<Used>, what: &str, count: usize) {
    let sheet = sheets::of_document();
    let area = alone(jumps(count));
    let body = &area.bytes;
    let mut words = vec![0u64; 20 * count];
    let mut bytes = vec![0u8; body.len()];
    add(all, &format!("desk_decode, {what}"), success(count), || desk::decode(&sheet.text, body, &mut words));
    add(all, &format!("desk_decode_function, {what}"), success(count), || desk::decode_function(&sheet.text, &area, 0, &mut words));
    add(all, &format!("desk_encode, {what}"), success(body.len()), || desk::encode(&sheet.text, &words, &mut bytes));
    listed(all, what, &sheet.text, &area, 1 << 16);
}

/// Listing 13,107 long jumps to places far outside of the body, with so many label entries lent.
fn far_labels(all: &mut Vec<Used>, what: &str, lent: usize, place: impl Fn(u32) -> u32) {
    let sheet = b"version=1\ncount=1\nop=0 name=JmpLong jump=1 types=Addr32\n";
    let jump = |n: u32| [&[0u8][..], &place(n).wrapping_sub(5 * n).to_le_bytes()].concat();
    listed(all, what, sheet, &alone((0..13_107).flat_map(jump).collect()), lent);
}

/// The last place there is, for 1,024 jumps, and the one in front of it for the others. Where fewer entries are lent than labels
/// are met no listing goes deeper: the last half of each range has more than 1,024 offsets, down to the range of these two, and
/// the last range has no more, which are told apart by parting them; they are equal, so that they are parted to the end.
fn last_two_places(n: u32) -> u32 {
    if n < 1024 { 0x7fff_ffff } else { 0x7fff_fffe }
}

/// Carrying jumps, with as many strings on both sides.
fn carried(all: &mut Vec<Used>, what: &str, table: &Table, count: usize) {
    let sheet = sheets::of_document();
    let edition = desk::Edition { sheet: &sheet.text, bytes: &table.bytes, ends: &table.ends };
    let body = [1, 0].repeat(count);
    let (mut out, mut labels) = (vec![0u8; body.len()], vec![[0u32; 3]; count]);
    add(all, &format!("desk_carry, {what}"), success(body.len()), || desk::carry(edition, edition, &body, &mut out, &mut labels));
}

/// The stack of each function, on nothing and at the limits.
pub fn of_calls() -> Vec<Used> {
    let mut all = Vec::new();
    on_body(&mut all, "an empty body", 0);
    on_body(&mut all, "65,536 bytes", 32_768);
    far_labels(&mut all, "13,107 labels far outside", 1 << 16, |n| n.wrapping_mul(0x9e37_79b1) >> 1);
    far_labels(&mut all, "13,107 jumps to the last two places, 13,109 entries lent", 13_109, last_two_places);
    let none = &Table::new(Vec::new());
    let many = &Table::new((0..65_535).map(|n| format!("s{n}")).chain([quotes()]).collect());
    let text = &largest();
    assembled(&mut all, "nothing", Text { table: none, text: "", room: 0, lent: 0, expected: success(0) });
    assembled(&mut all, "one line", Text { table: none, text: "Ret r1\n", room: 2, lent: 0, expected: success(2) });
    assembled(&mut all, "at the limits", Text { table: many, text, room: 65_536, lent: 8190, expected: success(65_536) });
    assembled(&mut all, "at the limits, no label entries", Text { table: many, text, room: 65_536, lent: 0, expected: refusal(19, 0, 0) });
    carried(&mut all, "an empty body, no strings", none, 0);
    carried(&mut all, "an empty body, 65,536 strings", many, 0);
    carried(&mut all, "65,536 bytes, no strings", none, 32_768);
    carried(&mut all, "at the limits", many, 32_768);
    all
}
