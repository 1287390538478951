// parse_hasm_function, then encode_function_body: texts into bodies. `asked` says how far the Rust tells a refusal.

use crate::asked::{Asked, Refused};
use crate::asm_texts::{self, TOKENS};
use crate::desk::{self, Answer};
use crate::listing::{Spare, DEFAULT, ENTRY};
use crate::random::Random;
use crate::rust::{self, refusal, success};
use crate::sheets::{self, Op, Sheet, TYPES};
use crate::tally::{hex, left, show, smallest, Tally, BYTE};
use crate::texts::table_of;
use hbc_decomp::file::BytecodeFile;
use std::collections::HashMap;

const TEXT_LIMIT: usize = 1_048_576;
const LINE_LIMIT: usize = 4096;
const BODY_LIMIT: usize = 65_536;

/// A string table for both sides.
pub struct Table {
    pub strings: Vec<String>,
    pub bytes: Vec<u8>,
    pub ends: Vec<u32>,
    pub lookup: HashMap<String, u32>,
}

impl Table {
    pub fn new(strings: Vec<String>) -> Self {
        let (bytes, ends) = table_of(&strings);
        let mut lookup = HashMap::new();
        for (id, s) in strings.iter().enumerate() {
            lookup.entry(s.clone()).or_insert(id as u32);
        }
        Table { strings, bytes, ends, lookup }
    }
}

pub struct Run {
    pub answer: Answer,
    pub out: Vec<u8>,
    pub entries: Vec<[u32; 3]>,
}

/// What is expected, and whether the operand's number is known.
pub struct Expected {
    pub run: Run,
    pub whole: bool,
}

/// The first line that 3 or 2 refuses; the Rust has neither.
fn bad_line(text: &[u8]) -> Option<Answer> {
    let is_text = |b: &u8| matches!(b, 9 | 10 | 13 | 32..=126);
    text.split_inclusive(|b| *b == b'\n').enumerate().find_map(|(n, whole)| {
        let line = whole.strip_suffix(b"\n").map_or(whole, |l| l.strip_suffix(b"\r").unwrap_or(l));
        if line.len() > LINE_LIMIT {
            return Some(refusal(3, n + 1, 0));
        }
        (!line.iter().all(is_text)).then(|| refusal(2, n + 1, 0))
    })
}

/// The body, or the refusal apart from 19. None where the Rust cannot be asked.
fn told(asked: &Asked, table: &Table, text: &[u8]) -> Option<Result<Vec<u8>, Refused>> {
    let refused = |answer| Some(Err(Refused { answer, whole: true }));
    if text.len() > TEXT_LIMIT {
        return refused(refusal(18, 0, 0));
    }
    if let Some(answer) = bad_line(text) {
        return refused(answer);
    }
    // Every byte is ASCII from here on.
    match asked.assemble(std::str::from_utf8(text).unwrap(), &table.lookup)? {
        Ok(body) if body.len() > BODY_LIMIT => refused(refusal(18, 0, 0)),
        other => Some(other),
    }
}

/// The Rust's answer with document 01's limits and lent space around it.
pub fn expected(asked: &Asked, table: &Table, text: &[u8], spare: Spare) -> Option<Expected> {
    let told = told(asked, table, text)?;
    let needed = if told.is_ok() { asked.entries(std::str::from_utf8(text).unwrap()) } else { 1 };
    let length = told.as_ref().map_or(20, |b| b.len());
    let room = (length as i64 + spare.bytes).max(0) as usize;
    let lent = (needed as i64 + spare.entries).max(0) as usize;
    let entries = vec![[0; 3]; lent];
    Some(match told {
        Ok(body) if length <= room && needed <= lent => {
            Expected { run: Run { answer: success(length), out: left(Some(&body), room, BYTE), entries }, whole: true }
        }
        Ok(_) => Expected { run: Run { answer: refusal(19, 0, 0), out: left(None, room, BYTE), entries }, whole: true },
        Err(e) => Expected { run: Run { answer: e.answer, out: left(None, room, BYTE), entries }, whole: e.whole },
    })
}

pub fn desk_run(sheet: &Sheet, table: &Table, text: &[u8], room: usize, lent: usize) -> Run {
    let mut out = vec![BYTE; room];
    let mut entries = vec![[ENTRY; 3]; lent];
    let answer = desk::assemble(&sheet.text, &table.bytes, &table.ends, text, &mut out, &mut entries);
    Run { answer, out, entries }
}

fn same(e: &Expected, d: &Run) -> bool {
    let mut answer = d.answer;
    if !e.whole {
        answer.operand = e.run.answer.operand;
    }
    answer == e.run.answer && d.out == e.run.out && d.entries == e.run.entries
}

/// What the run has met.
struct Seen {
    name: &'static str,
    by_number: [u64; 21],
    no_operand: u64,
    left_out: u64,
}

impl Seen {
    fn new(name: &'static str) -> Self {
        Seen { name, by_number: [0; 21], no_operand: 0, left_out: 0 }
    }

    fn end(&self) {
        let numbers: Vec<String> =
            (1..21).filter(|n| self.by_number[*n] > 0).map(|n| format!("{n}: {}", self.by_number[n])).collect();
        println!(
            "{}: {} accepted; refused with {}; without the operand's number: {}; not asked: {}",
            self.name,
            self.by_number[0],
            numbers.join(", "),
            self.no_operand,
            self.left_out
        );
    }
}

fn differs(asked: &Asked, table: &Table, text: &[u8], spare: Spare) -> Option<(Expected, Run)> {
    let e = expected(asked, table, text, spare)?;
    let d = desk_run(asked.sheet, table, text, e.run.out.len(), e.run.entries.len());
    (!same(&e, &d)).then_some((e, d))
}

/// A smaller text that still differs. A large one is cut in coarse parts first, since each question takes its time.
fn shrunk(asked: &Asked, table: &Table, text: &[u8], spare: Spare) -> Vec<u8> {
    let mut now = text.to_vec();
    loop {
        let unit = if now.len() > 5000 { now.len() / 20 } else { 1 };
        let less = smallest(&now, unit, |t| differs(asked, table, t, spare).is_some());
        if unit == 1 || less.len() == now.len() {
            return less;
        }
        now = less;
    }
}

/// The front of what is told, as a text at a limit is long.
fn short(s: String) -> String {
    if s.len() < 3000 { s } else { format!("{} .. ({} in all)", s.chars().take(300).collect::<String>(), s.len()) }
}

fn tell(asked: &Asked, table: &Table, text: &[u8], spare: Spare) -> String {
    let small = shrunk(asked, table, text, spare);
    let (e, d) = differs(asked, table, &small, spare).unwrap();
    format!(
        "{}strings={}\ntext={} {spare:?}\n  rust: {} {}\n  desk: {} {}\n  entries left: {}",
        String::from_utf8_lossy(&asked.sheet.text),
        short(format!("{:?}", table.strings)),
        short(format!("{:?}", String::from_utf8_lossy(&small))),
        show(&e.run.answer),
        short(hex(&e.run.out)),
        show(&d.answer),
        short(hex(&d.out)),
        short(format!("{:?}", d.entries))
    )
}

fn one(t: &mut Tally, seen: &mut Seen, asked: &Asked, table: &Table, text: &[u8], spare: Spare) {
    let Some(e) = expected(asked, table, text, spare) else {
        seen.left_out += 1;
        return;
    };
    seen.by_number[e.run.answer.number as usize] += 1;
    seen.no_operand += !e.whole as u64;
    let d = desk_run(asked.sheet, table, text, e.run.out.len(), e.run.entries.len());
    t.count(same(&e, &d), || tell(asked, table, text, spare));
}

pub const EXACT: Spare = Spare { bytes: 0, entries: 0 };

/// A sheet with operands of one type: alone, behind another operand, and in front of one.
pub fn sheet_of_type(ty: usize) -> Sheet {
    let op = |code, name: &str, types: &[usize]| Op { code, name: name.to_string(), jump: false, types: types.to_vec() };
    Sheet::new(vec![op(0, "One", &[ty]), op(1, "Last", &[0, ty]), op(2, "First", &[ty, 0])])
}

/// Every token for every type.
fn every_token(t: &mut Tally, seen: &mut Seen) {
    let table = Table::new(["a", "", "a\n", "a\"b"].map(String::from).to_vec());
    for ty in 0..TYPES.len() {
        let sheet = sheet_of_type(ty);
        let asked = Asked::new(&sheet);
        for token in TOKENS {
            for text in [
                format!("One {token}"),
                format!("One\t{token} \r\n"),
                format!("Last r1, {token}\nFirst {token}, r2\nL:\nOne {token}"),
                format!("Last r1, {token}//\nL99999999999:\nFirst {token} ,r2 // x\n"),
            ] {
                one(t, seen, &asked, &table, text.as_bytes(), EXACT);
                one(t, seen, &asked, &table, text.as_bytes(), Spare { bytes: 3, entries: 1 });
                one(t, seen, &asked, &table, text.as_bytes(), Spare { bytes: -1, entries: 0 });
                one(t, seen, &asked, &table, text.as_bytes(), Spare { bytes: 0, entries: -1 });
            }
        }
    }
}

/// Document 01's trials of assembling, with what it says of each: the numbers, or the body.
fn trials(t: &mut Tally, seen: &mut Seen) {
    let sheet = sheets::of_document();
    let asked = Asked::new(&sheet);
    let table = Table::new(["a,b", "é"].map(String::from).to_vec());
    let said: [(&str, Answer, &[u8]); 11] = [
        ("", success(0), &[]),
        ("LoadByte r256, 7", success(3), &[0, 0, 7]),
        ("Jmp L127", success(2), &[1, 0x7f]),
        ("Jmp L128", refusal(8, 1, 1), &[]),
        ("Ret r+1", success(2), &[4, 1]),
        ("Ret r-1", refusal(6, 1, 1), &[]),
        ("LoadText r1, \"zz\"", refusal(10, 1, 2), &[]),
        ("LoadText r1, \"\\u00E9\"", refusal(10, 1, 2), &[]),
        ("Ret r1,", success(2), &[4, 1]),
        ("Ret r1,,", refusal(5, 1, 0), &[]),
        ("Ret x\nNone r1", refusal(4, 2, 0), &[]),
    ];
    for (text, answer, body) in said {
        let e = expected(&asked, &table, text.as_bytes(), EXACT).unwrap();
        let as_said = e.run.answer == answer && (answer.number > 0 || e.run.out == body);
        t.count(as_said, || format!("the Rust on the trial {text:?}"));
        one(t, seen, &asked, &table, text.as_bytes(), EXACT);
    }
}

/// Texts, lines and bodies at their limits, and one past them.
fn at_limits(t: &mut Tally, seen: &mut Seen) {
    let sheet = sheets::of_document();
    let asked = Asked::new(&sheet);
    let table = Table::new((0..65_536).map(|n| format!("s{n}")).collect());
    let mut texts = Vec::new();
    for n in [LINE_LIMIT - 1, LINE_LIMIT, LINE_LIMIT + 1] {
        let long = format!("Ret r1{}//", " ".repeat(n - 8));
        texts.extend([long.clone(), format!("{long}\r\nRet x"), format!("\n{long}\r"), format!("Ret \u{7f}\n{long}")]);
        texts.push(format!("LoadText r1, \"{}\"", "\"".repeat(n - 15)));
    }
    for n in [TEXT_LIMIT - 1, TEXT_LIMIT, TEXT_LIMIT + 1] {
        texts.push("L5:\n".repeat(n / 4) + &"Ret"[..n % 4]);
        texts.push("\n".repeat(n));
    }
    for n in [32_767, 32_768, 32_769] {
        texts.push("L:\nRet r1\n".repeat(n));
        texts.push("Ret r1\n".repeat(n - 2) + "LoadByte r1, 7\n");
        texts.push("Jmp L65408\n".to_string() + &"Ret r1\n".repeat(n - 1) + "Jmp L65408\n");
    }
    texts.push("LoadText r0, \"s65535\"\nLoadText r1, \"s0\"\nLoadText r1, \"s65536\"".to_string());
    for text in &texts {
        one(t, seen, &asked, &table, text.as_bytes(), EXACT);
        one(t, seen, &asked, &table, text.as_bytes(), Spare { bytes: 3, entries: -1 });
    }
}

/// The refusals in front of the text, which the Rust has not, in document 01's order.
fn inputs(t: &mut Tally) {
    let good = sheets::of_document().text;
    let long = vec![b'\n'; TEXT_LIMIT + 1];
    let zeros = vec![0; 65_537];
    let wide = vec![b'a'; TEXT_LIMIT + 1];
    let said: [(&[u8], &[u8], &[u32], &[u8], Answer); 9] = [
        (b"", &wide, &[1, 0], &long, refusal(18, 0, 0)),
        (b"", b"", &zeros, b"x", refusal(18, 0, 0)),
        (b"", &wide, &[1, 0], b"x", refusal(18, 0, 0)),
        (b"", b"ab", &[2, 1], b"x", refusal(17, 1, 0)),
        (b"", b"ab", &[1, 3], b"x", refusal(17, 1, 0)),
        (&good, b"a\xff", &[1, 2], b"x", refusal(17, 1, 0)),
        (b"version=1\n", b"ab", &[2], b"\x01", refusal(1, 2, 0)),
        (&good[..good.len() - 1], b"", &[], b"", refusal(1, 6, 0)),
        (&good, b"", &[], b"\n\x01", refusal(2, 2, 0)),
    ];
    for (sheet, bytes, ends, text, answer) in said {
        let (mut out, mut entries) = ([BYTE; 9], [[ENTRY; 3]; 2]);
        let got = desk::assemble(sheet, bytes, ends, text, &mut out, &mut entries);
        let cleared = out == [0; 9] && entries == [[0; 3]; 2];
        t.count(got == answer && cleared, || format!("expected {}\n  desk: {}", show(&answer), show(&got)));
    }
}

/// A body's default listing by the desk, what the desk assembles it to, and whether that is the body again.
struct Circle {
    listed: Answer,
    text: Vec<u8>,
    answer: Answer,
    back: bool,
}

fn circle_of(sheet: &Sheet, table: &Table, body: &[u8]) -> Circle {
    let mut text = vec![0; 60 * body.len() + 5000];
    let mut entries = vec![0; 5 * body.len() + 1];
    let listed = desk::list(&sheet.text, &table.bytes, &table.ends, body, DEFAULT, &mut text, &mut entries);
    text.truncate(listed.length as usize);
    // A listing's label lines are those of its instructions, so each is taken.
    let labels = text.split(|b| *b == b'\n').filter(|l| l.first() == Some(&b'L') && l.last() == Some(&b':')).count();
    let d = desk_run(sheet, table, &text, body.len() + 2, labels);
    let same = d.answer == success(body.len()) && d.out == left(Some(body), body.len() + 2, BYTE);
    let back = listed.number == 0 && same && d.entries == vec![[0; 3]; labels];
    Circle { listed, text, answer: d.answer, back }
}

/// The desk's default listing of a body that meets the premises is assembled to the body.
fn circle(t: &mut Tally, r: &mut Random, asked: &Asked, table: &Table) {
    let most = if r.one_in(50) { 2000 } else { 70 };
    let body = asm_texts::that_comes_back(r, asked.sheet, table, most);
    t.count(circle_of(asked.sheet, table, &body).back, || {
        // A smaller body counts where the Rust assembles its listing to it: there the premises are met too.
        let small = smallest(&rust::pieces(&asked.sheet.format, &body), 1, |some| {
            let b = some.concat();
            let c = circle_of(asked.sheet, table, &b);
            !c.back && matches!(told(asked, table, &c.text), Some(Ok(other)) if other == b)
        });
        let small = small.concat();
        let c = circle_of(asked.sheet, table, &small);
        format!(
            "{}strings={}\ncircle of {}\n{}\n  listed: {}\n  assembled: {}",
            String::from_utf8_lossy(&asked.sheet.text),
            short(format!("{:?}", table.strings)),
            short(hex(&small)),
            short(String::from_utf8_lossy(&c.text).into_owned()),
            show(&c.listed),
            show(&c.answer)
        )
    });
}

pub fn random_spare(r: &mut Random) -> Spare {
    Spare { bytes: *r.pick(&[0, 0, 3, 40, -1]), entries: *r.pick(&[0, 0, 2, -1]) }
}

pub fn random_text(r: &mut Random, sheet: &Sheet, table: &Table, f: &mut BytecodeFile) -> Vec<u8> {
    match r.below(4) {
        0 | 1 => asm_texts::generated(r, sheet, &table.strings),
        2 => asm_texts::soup(r, sheet, &table.strings),
        _ => asm_texts::damaged(r, sheet, table, f),
    }
}

/// Texts that are the same in every run.
pub fn run_fixed() -> (u64, u64) {
    let name = "assemble, fixed texts";
    let (mut t, mut seen) = (Tally::new(name), Seen::new(name));
    trials(&mut t, &mut seen);
    every_token(&mut t, &mut seen);
    at_limits(&mut t, &mut seen);
    inputs(&mut t);
    seen.end();
    t.end()
}

/// Texts in groups that share a sheet and a string table.
pub fn run(name: &'static str, r: &mut Random, count: u64, sheets: &[Sheet], large: &[Sheet]) -> (u64, u64) {
    let (mut t, mut seen) = (Tally::new(name), Seen::new(name));
    let small: Vec<Asked> = sheets.iter().map(Asked::new).collect();
    let large: Vec<Asked> = large.iter().map(Asked::new).collect();
    let mut f = rust::file_of(&[]);
    for n in 0..count.div_ceil(10) {
        let asked = if n % 300 == 0 { r.pick(&large) } else { r.pick(&small) };
        let table = Table::new(asm_texts::strings(r));
        for _ in 0..10 {
            let text = random_text(r, asked.sheet, &table, &mut f);
            let spare = random_spare(r);
            one(&mut t, &mut seen, asked, &table, &text, spare);
        }
        circle(&mut t, r, asked, &table);
    }
    seen.end();
    t.end()
}
