// Making a case small as long as it still has its fault: instructions, opcodes and strings are taken away.

use crate::generate::{Case, EXACT};
use crate::model::{decode, distance, read_sheet, Context, Family, Input, Starts, Type};

/// Takes parts of a list away, half of it first and single elements last, as long as `keeps` holds, and then begins again until
/// nothing more can go. A long list is left alone once only small parts of it could go, since each question takes its time.
pub fn smallest<T: Clone>(input: &[T], keeps: impl Fn(&[T]) -> bool) -> Vec<T> {
    let mut now = input.to_vec();
    loop {
        let before = now.len();
        let mut size = (before / 2).max(1);
        while size > 0 && (now.len() <= 2000 || size * 200 >= now.len()) {
            now = without_parts(now, size, &keeps);
            size /= 2;
        }
        if now.len() == before {
            return now;
        }
    }
}

fn without_parts<T: Clone>(mut now: Vec<T>, size: usize, keeps: impl Fn(&[T]) -> bool) -> Vec<T> {
    let mut at = 0;
    while at < now.len() {
        let mut less = now.clone();
        less.drain(at..(at + size).min(now.len()));
        if keeps(&less) {
            now = less;
        } else {
            at += size;
        }
    }
    now
}

/// An Addr inside a piece: where it stands, its width, and the index of the piece that it leads to.
type Link = (usize, usize, usize);

/// An instruction of a body, or the bytes behind the last one that decodes.
#[derive(Clone)]
struct Piece {
    index: usize,
    bytes: Vec<u8>,
    links: Vec<Link>,
}

fn links(types: &[Type], operands: &[u64], offset: usize, starts: &Starts) -> Vec<Link> {
    let (mut all, mut at) = (Vec::new(), 1);
    for (t, bits) in types.iter().zip(operands) {
        if t.family == Family::Addr {
            all.extend(starts.target(offset, distance(t.width, *bits)).map(|to| (at, t.width, to)));
        }
        at += t.width;
    }
    all
}

/// A body's pieces; a sheet that is malformed leaves single bytes.
fn pieces(input: &Input) -> Vec<Piece> {
    let single = |(index, b): (usize, &u8)| Piece { index, bytes: vec![*b], links: Vec::new() };
    let Ok(sheet) = read_sheet(&input.first.sheet) else {
        return input.body.iter().enumerate().map(single).collect();
    };
    let whole = decode(&sheet, &input.body).map_or_else(|r| r.place as usize, |_| input.body.len());
    let front = decode(&sheet, &input.body[..whole]).expect("what decoded before");
    let starts = Starts::new(&front, whole);
    let end = |index: usize| front.get(index + 1).map_or(whole, |next| next.offset);
    let piece = |(index, i): (usize, &crate::model::Instruction)| Piece {
        index,
        bytes: input.body[i.offset..end(index)].to_vec(),
        links: links(sheet.types(i.opcode), &i.operands, i.offset, &starts),
    };
    let mut all: Vec<Piece> = front.iter().enumerate().map(piece).collect();
    if whole < input.body.len() {
        all.push(Piece { index: front.len(), bytes: input.body[whole..].to_vec(), links: Vec::new() });
    }
    all
}

/// The pieces as a body, with the jumps led to where their targets now stand, or to what follows them.
fn joined(pieces: &[Piece], linked: bool) -> Vec<u8> {
    let offsets = crate::model::new_offsets(pieces.iter().map(|p| p.bytes.len()));
    let mut body: Vec<u8> = pieces.iter().flat_map(|p| p.bytes.clone()).collect();
    for (n, piece) in pieces.iter().enumerate().filter(|_| linked) {
        for (at, width, target) in &piece.links {
            let to = pieces.iter().position(|p| p.index >= *target).unwrap_or(pieces.len());
            let distance = offsets[to] as i64 - offsets[n] as i64;
            let start = offsets[n] + at;
            body[start..start + width].copy_from_slice(&distance.to_le_bytes()[..*width]);
        }
    }
    body
}

fn with_body(case: &Case, body: Vec<u8>) -> Case {
    Case { input: Input { body, ..case.input.clone() }, ..case.clone() }
}

fn smaller_body(case: &Case, keeps: &impl Fn(&Case) -> bool) -> Case {
    let mut best = case.clone();
    for linked in [true, false] {
        let pieces = smallest(&pieces(&best.input), |p| keeps(&with_body(&best, joined(p, linked))));
        let less = with_body(&best, joined(&pieces, linked));
        if less.input.body.len() < best.input.body.len() && keeps(&less) {
            best = less;
        }
    }
    best
}

/// A sheet's text without some of its opcode lines, and its count lowered by as many.
fn sheet_of(text: &[u8], lines: &[&[u8]], kept: &[usize]) -> Vec<u8> {
    let dropped = lines.len() - 2 - kept.len();
    let count = lines[1].strip_prefix(b"count=").and_then(|n| String::from_utf8_lossy(n).trim_end().parse::<usize>().ok());
    if dropped == 0 || count.is_none() {
        return text.to_vec();
    }
    let count = format!("count={}\n", count.unwrap().saturating_sub(dropped)).into_bytes();
    let mut all = vec![lines[0], &count];
    all.extend(kept.iter().map(|k| lines[*k]));
    all.concat()
}

fn smaller_sheet(case: &Case, side: fn(&mut Input) -> &mut Context, keeps: &impl Fn(&Case) -> bool) -> Case {
    let mut best = case.clone();
    let text = side(&mut best.input).sheet.clone();
    let lines: Vec<&[u8]> = text.split_inclusive(|b| *b == b'\n').collect();
    if lines.len() < 4 {
        return best;
    }
    let with = |kept: &[usize]| {
        let mut less = case.clone();
        side(&mut less.input).sheet = sheet_of(&text, &lines, kept);
        less
    };
    let all: Vec<usize> = (2..lines.len()).collect();
    let kept = smallest(&all, |k| keeps(&with(k)));
    best = with(&kept);
    best
}

fn smaller_table(case: &Case, side: fn(&mut Input) -> &mut Context, keeps: &impl Fn(&Case) -> bool) -> Case {
    let mut copy = case.clone();
    let context = side(&mut copy.input).clone();
    if crate::model::check_table(&context).is_err() || context.ends.len() > 2000 {
        return copy;
    }
    let texts: Vec<&[u8]> = (0..context.ends.len()).map(|id| crate::model::string_at(&context, id as u64).unwrap()).collect();
    let with = |kept: &[&[u8]]| {
        let mut less = case.clone();
        let table = side(&mut less.input);
        table.bytes = kept.concat();
        table.ends = crate::model::new_offsets(kept.iter().map(|t| t.len())).iter().skip(1).map(|e| *e as u32).collect();
        less
    };
    let kept = smallest(&texts, |k| keeps(&with(k)));
    let less = with(&kept);
    if keeps(&less) { less } else { copy }
}

fn plain_space(case: &Case, keeps: &impl Fn(&Case) -> bool) -> Case {
    let plain = Case { spare: EXACT, ..case.clone() };
    if keeps(&plain) { plain } else { case.clone() }
}

/// A smaller case for which `keeps` still holds.
pub fn smaller(case: &Case, keeps: impl Fn(&Case) -> bool) -> Case {
    let first: fn(&mut Input) -> &mut Context = |i| &mut i.first;
    let second: fn(&mut Input) -> &mut Context = |i| &mut i.second;
    let mut now = plain_space(case, &keeps);
    for _ in 0..2 {
        now = smaller_body(&now, &keeps);
        for side in [first, second] {
            now = smaller_sheet(&now, side, &keeps);
            now = smaller_table(&now, side, &keeps);
        }
    }
    now
}
