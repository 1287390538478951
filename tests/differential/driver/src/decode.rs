// decode_function_instructions: a body, and a function of an area.

use crate::areas::Area;
use crate::desk::{self, Answer};
use crate::random::Random;
use crate::rust;
use crate::sheets::{self, Sheet};
use crate::tally::{hex, left, show, smallest, Tally, WORD};
use hbc_decomp::file::BytecodeFile;
use std::cell::RefCell;

/// A body and how many words more than the records need are lent.
pub struct Case {
    pub body: Vec<u8>,
    pub spare: i64,
}

/// How many words more than the records are lent, around a record's 20.
const SPARES: [i64; 9] = [0, 0, 1, 19, 20, 45, -1, -20, -21];

pub struct Run {
    pub answer: Answer,
    pub out: Vec<u64>,
}

/// The Rust's answer, where so many words more are lent than it has; 40 where it is a refusal.
fn around(told: Result<Vec<u64>, Answer>, spare: i64) -> Run {
    let room = (told.as_ref().map_or(40, |w| w.len() as i64) + spare).max(0) as usize;
    match told {
        Ok(words) if words.len() <= room => {
            Run { answer: rust::success(words.len() / 20), out: left(Some(&words), room, WORD) }
        }
        Ok(_) => Run { answer: rust::refusal(19, 0, 0), out: left(None, room, WORD) },
        Err(answer) => Run { answer, out: left(None, room, WORD) },
    }
}

/// The Rust's answer with document 01's limits and lent space around it.
pub fn expected(f: &mut BytecodeFile, sheet: &Sheet, body: &[u8], spare: i64) -> Run {
    let told = if body.len() > 65536 { Err(rust::refusal(18, 0, 0)) } else { rust::decode(f, &sheet.format, body) };
    around(told, spare)
}

fn desk_run(sheet: &Sheet, body: &[u8], room: usize) -> Run {
    let mut out = vec![WORD; room];
    let answer = desk::decode(&sheet.text, body, &mut out);
    Run { answer, out }
}

fn same(f: &mut BytecodeFile, sheet: &Sheet, body: &[u8], spare: i64) -> bool {
    let e = expected(f, sheet, body, spare);
    let d = desk_run(sheet, body, e.out.len());
    d.answer == e.answer && d.out == e.out
}

fn tell(f: &RefCell<BytecodeFile>, sheet: &Sheet, body: &[u8], spare: i64) -> String {
    let small = smallest(body, 1, |b| !same(&mut f.borrow_mut(), sheet, b, spare));
    let e = expected(&mut f.borrow_mut(), sheet, &small, spare);
    let d = desk_run(sheet, &small, e.out.len());
    format!(
        "{}body={} words lent={}\n  rust: {} {:?}\n  desk: {} {:?}",
        String::from_utf8_lossy(&sheet.text),
        hex(&small),
        e.out.len(),
        show(&e.answer),
        e.out,
        show(&d.answer),
        d.out
    )
}

/// Damages a body: cut, byte changed, bytes behind it.
pub fn damage(r: &mut Random, body: &mut Vec<u8>) {
    match r.below(4) {
        0 => {
            let n = r.below(body.len() + 1);
            body.truncate(n);
        }
        1 if !body.is_empty() => {
            let at = r.below(body.len());
            body[at] = r.byte();
        }
        2 => body.push(r.byte()),
        _ if !body.is_empty() => {
            let at = r.below(body.len());
            body.remove(at);
        }
        _ => {}
    }
}

pub fn random_case(r: &mut Random, sheet: &Sheet) -> Case {
    let most = if r.one_in(40) { 1000 } else { 40 };
    let most = r.below(most);
    let mut body = if r.one_in(6) { (0..r.below(12)).map(|_| r.byte()).collect() } else { sheet.body(r, most) };
    if r.one_in(3) {
        damage(r, &mut body);
    }
    let spare = *r.pick(&SPARES);
    Case { body, spare }
}

pub fn one(t: &mut Tally, f: &RefCell<BytecodeFile>, sheet: &Sheet, body: &[u8], spare: i64) {
    let ok = same(&mut f.borrow_mut(), sheet, body, spare);
    t.count(ok, || tell(f, sheet, body, spare));
}

/// Every body of up to two bytes, and of three with a low first byte.
fn exhaustive(t: &mut Tally, f: &RefCell<BytecodeFile>, sheet: &Sheet) {
    one(t, f, sheet, &[], 0);
    for a in 0..=255u8 {
        one(t, f, sheet, &[a], 0);
        for b in 0..=255u8 {
            one(t, f, sheet, &[a, b], 0);
        }
    }
    for a in 0..8u8 {
        for b in (0..=255u8).step_by(3) {
            for c in (0..=255u8).step_by(15) {
                one(t, f, sheet, &[a, b, c], 0);
            }
        }
    }
}

/// Bodies at the limit of 65,536 bytes.
fn at_limit(t: &mut Tally, f: &RefCell<BytecodeFile>, r: &mut Random, sheets: &[Sheet]) {
    for sheet in sheets {
        for size in [65535, 65536, 65537] {
            let mut body = sheet.body(r, size);
            one(t, f, sheet, &body, 0);
            one(t, f, sheet, &body, -1);
            body.resize(size, sheet.ops[0].code);
            one(t, f, sheet, &body, 7);
        }
    }
}

pub fn run(r: &mut Random, count: u64, sheets: &[Sheet], large: &[Sheet]) -> (u64, u64) {
    let mut t = Tally::new("decode");
    let f = RefCell::new(rust::file_of(&[]));
    for sheet in sheets.iter().take(6) {
        exhaustive(&mut t, &f, sheet);
    }
    at_limit(&mut t, &f, r, &[sheets::of_document(), large[0].clone(), sheets[1].clone()]);
    for n in 0..count {
        let sheet = if n % 200 == 0 { r.pick(large) } else { r.pick(sheets) };
        let case = random_case(r, sheet);
        one(&mut t, &f, sheet, &case.body, case.spare);
    }
    t.end()
}

/// A function of an area, by the Rust and by the desk.
fn function_runs(sheet: &Sheet, a: &Area, id: usize, spare: i64) -> (Run, Run) {
    let mut f = rust::file_of(&[]);
    a.put_in(&mut f);
    let told = match f.decode_function_instructions(&sheet.format, id as u32) {
        Ok(list) => Ok(list.iter().flat_map(rust::words_of).collect()),
        Err(e) if rust::decode_number(&e) == 20 => Err(rust::refusal(20, id, 0)),
        // Where in its body the fault is, the Rust is asked about the body alone.
        Err(_) => rust::decode(&mut f, &sheet.format, &a.body_of(id).expect("a function of the area")),
    };
    let e = around(told, spare);
    let mut out = vec![WORD; e.out.len()];
    let answer = desk::decode_function(&sheet.text, a, id, &mut out);
    (e, Run { answer, out })
}

pub fn run_functions(r: &mut Random, count: u64, sheets: &[Sheet]) -> (u64, u64) {
    let mut t = Tally::new("decode_function");
    for _ in 0..count {
        let sheet = r.pick(sheets);
        let base = *r.pick(&[0u32, 1, 100, 0xffff_fff0]);
        let mut a = Area::random(r, base, |r| (sheet.body(r, 20), 0));
        if r.one_in(3) {
            a.damage(r);
        }
        a.leave_rest(r);
        let (id, spare) = (r.below(5), *r.pick(&SPARES));
        let differs = |a: &Area| {
            let (e, d) = function_runs(sheet, a, id, spare);
            d.answer != e.answer || d.out != e.out
        };
        t.count(!differs(&a), || {
            let small = a.smallest(sheet, differs);
            let (e, d) = function_runs(sheet, &small, id, spare);
            let shown = |r: &Run| format!("{} {:?}", show(&r.answer), r.out);
            let text = String::from_utf8_lossy(&sheet.text);
            format!("{text}{} id={id}\n  rust: {}\n  desk: {}", small.show(), shown(&e), shown(&d))
        });
    }
    t.end()
}
