// encode_instruction and encode_function_body: records back to bytes.

use crate::desk::{self, Answer};
use crate::random::Random;
use crate::rust;
use crate::sheets::{self, Op, Sheet, TYPES};
use crate::tally::{hex, left, show, smallest, Tally, BYTE};

pub struct Run {
    pub answer: Answer,
    pub out: Vec<u8>,
}

/// The width of a kind's bits.
const KIND_WIDTHS: [usize; 6] = [1, 2, 4, 1, 4, 8];
/// The kind that a value of each type is decoded to.
const KINDS: [u64; 12] = [0, 2, 0, 1, 2, 0, 1, 2, 3, 4, 4, 5];

/// The Rust's answer with document 01's limit and lent space around it.
pub fn expected(sheet: &Sheet, words: &[u64], spare: i64) -> Run {
    let told = rust::encode(sheet, words);
    let room = (told.as_ref().map_or(9, |b| b.len() as i64) + spare).max(0) as usize;
    let refused = |answer| Run { answer, out: left(None, room, BYTE) };
    match told {
        Ok(bytes) if bytes.len() > 65536 => refused(rust::refusal(18, 0, 0)),
        Ok(bytes) if bytes.len() <= room => Run { answer: rust::success(bytes.len()), out: left(Some(&bytes), room, BYTE) },
        Ok(_) => refused(rust::refusal(19, 0, 0)),
        Err(answer) => refused(answer),
    }
}

fn desk_run(sheet: &Sheet, words: &[u64], room: usize) -> Run {
    let mut out = vec![BYTE; room];
    let answer = desk::encode(&sheet.text, words, &mut out);
    Run { answer, out }
}

fn same(sheet: &Sheet, words: &[u64], spare: i64) -> bool {
    let e = expected(sheet, words, spare);
    let d = desk_run(sheet, words, e.out.len());
    d.answer == e.answer && d.out == e.out
}

fn one(t: &mut Tally, sheet: &Sheet, words: &[u64], spare: i64) {
    t.count(same(sheet, words, spare), || {
        let small = smallest(words, 20, |w| !same(sheet, w, spare));
        let e = expected(sheet, &small, spare);
        let d = desk_run(sheet, &small, e.out.len());
        format!(
            "{}words={small:?} bytes lent={}\n  rust: {} {}\n  desk: {} {}",
            String::from_utf8_lossy(&sheet.text),
            e.out.len(),
            show(&e.answer),
            hex(&e.out),
            show(&d.answer),
            hex(&d.out)
        )
    });
}

/// A record with the values of its opcode's own kinds, or now and then another's.
fn record(r: &mut Random, op: &Op, strange: bool) -> [u64; 20] {
    let mut w = [0u64; 20];
    w[0] = r.edge(4);
    w[1] = op.code as u64;
    w[2] = r.edge(4);
    w[3] = op.types.len() as u64;
    for (k, t) in op.types.iter().enumerate() {
        let kind = if strange && r.one_in(3) { r.below(6) as u64 } else { KINDS[*t] };
        w[4 + 2 * k] = kind;
        w[5 + 2 * k] = r.edge(KIND_WIDTHS[kind as usize]);
    }
    w
}

pub fn random_words(r: &mut Random, sheet: &Sheet) -> Vec<u64> {
    let strange = r.one_in(2);
    let most = if r.one_in(6) { 40 } else { 5 };
    let mut words = Vec::new();
    for _ in 0..r.below(most) {
        let op = r.pick(&sheet.ops).clone();
        let mut w = record(r, &op, strange);
        if strange && r.one_in(8) {
            w[1] = r.byte() as u64;
        }
        if strange && r.one_in(8) && w[3] > 0 {
            // One operand less, and its words cleared, so that the shape stays good.
            w[3] -= 1;
            let k = w[3] as usize;
            w[4 + 2 * k] = 0;
            w[5 + 2 * k] = 0;
        }
        words.extend(w);
    }
    words
}

/// Every kind into every type, at the edges of each.
fn every_pair(t: &mut Tally, r: &mut Random) {
    for ty in 0..TYPES.len() {
        let sheet = Sheet::new(vec![Op { code: 0, name: "One".to_string(), jump: false, types: vec![ty] }]);
        for kind in 0..6u64 {
            let width = KIND_WIDTHS[kind as usize];
            let all = if width == 8 { u64::MAX } else { (1u64 << (8 * width)) - 1 };
            let mut values: Vec<u64> = vec![all, all - 1, all / 2, all / 2 + 1];
            for edge in [0u64, 127, 128, 255, 256, 32767, 32768, 65535, 65536, 0x7fff_ffff, 0x8000_0000, 0xffff_ff7f, 0xffff_ff80, 0xffff_ff81] {
                values.push(edge);
            }
            values.extend(0..256u64);
            values.extend((0..200).map(|_| r.next()));
            for v in values {
                let mut w = [0u64; 20];
                (w[3], w[4], w[5]) = (1, kind, v & all);
                one(t, &sheet, &w, 0);
            }
        }
    }
}

/// Results at the limit of 65,536 bytes.
fn at_limit(t: &mut Tally) {
    let sheet = sheets::of_document();
    let byte = [0u64, 3, 0, 0, 0, 0, 0, 0, 0, 0, 0, 0, 0, 0, 0, 0, 0, 0, 0, 0];
    for n in [65535, 65536, 65537] {
        let words = byte.repeat(n);
        one(t, &sheet, &words, 0);
        one(t, &sheet, &words, -1);
        one(t, &sheet, &words, 3);
    }
}

pub fn run(r: &mut Random, count: u64, sheets: &[Sheet], large: &[Sheet]) -> (u64, u64) {
    let mut t = Tally::new("encode");
    every_pair(&mut t, r);
    at_limit(&mut t);
    for n in 0..count {
        let sheet = if n % 200 == 0 { r.pick(large) } else { r.pick(sheets) };
        let words = random_words(r, sheet);
        let spare = *r.pick(&[0, 0, 1, 7, -1, -2, 30]);
        one(&mut t, sheet, &words, spare);
    }
    t.end()
}
