// Inputs at document 01's limits and one past them.

use super::sheets::{op, text, Op};
use super::tables::lay;
use crate::model::{Context, Input, BODY_LIMIT, STRINGS_LIMIT, STRING_BYTES_LIMIT};
use crate::random::Random;

/// The first sheet of these inputs.
fn narrow() -> Vec<Op> {
    vec![
        op(0, "Nop", &[]),
        op(1, "Move", &["Reg8", "Reg8"]),
        op(2, "Jmp", &["Addr8"]),
        op(3, "JmpLong", &["Addr32"]),
        op(4, "Text", &["UInt16S"]),
        op(6, "Wide", &["Reg8"; 8]),
    ]
}

/// The second sheet: the same names, wide.
fn wide() -> Vec<Op> {
    vec![
        op(0, "Wide", &["Reg32"; 8]),
        op(1, "JmpLong", &["Addr32"]),
        op(2, "Jmp", &["Addr8"]),
        op(3, "Text", &["UInt32S"]),
        op(7, "Nop", &[]),
        op(9, "Move", &["Reg32", "Reg32"]),
    ]
}

fn context(ops: &[Op], strings: &[String]) -> Context {
    let (bytes, ends) = lay(strings);
    Context { sheet: text(1, ops), bytes, ends }
}

fn numbered(count: usize) -> Vec<String> {
    (0..count).map(|n| format!("{n:x}")).collect()
}

/// A body of one-byte instructions, around the limit, to the same sheet.
fn long_body(r: &mut Random) -> Input {
    let length = *r.pick(&[BODY_LIMIT - 1, BODY_LIMIT, BODY_LIMIT + 1, BODY_LIMIT + 1, 2 * BODY_LIMIT]);
    let mut body = vec![0; length];
    if r.one_in(4) {
        // A jump over all of it.
        let distance = (body.len() as u32 - 5).to_le_bytes();
        body.splice(0..5, [vec![3], [0; 4].to_vec()].concat());
        let at = body.len() - 5;
        body.splice(at.., [vec![3], (-(at as i32)).to_le_bytes().to_vec()].concat());
        body[1..5].copy_from_slice(&distance);
    }
    Input { first: context(&narrow(), &[]), second: context(&narrow(), &[]), body }
}

/// A body whose result is around the limit: as many wide instructions as fit and one-byte ones behind them.
fn long_result(r: &mut Random) -> Input {
    let (old, new): (&[u8], usize) = *r.pick(&[(&[1, 7, 8][..], 9), (&[6, 1, 2, 3, 4, 5, 6, 7, 8][..], 33)]);
    let over = *r.pick(&[-1, 0, 0, 1, 1, 40, 20_000]);
    let length = (BODY_LIMIT as i64 + over) as usize;
    let mut body = old.repeat(length / new);
    body.resize(body.len() + length % new, 0);
    if r.one_in(4) {
        // The last instruction's jump leaves Addr8's reach while the result is over the limit.
        body.extend([2, (-30i8) as u8]);
    }
    Input { first: context(&narrow(), &[]), second: context(&wide(), &[]), body }
}

/// Tables of as many strings as there may be, and one more, with the last ones in use.
fn many_strings(r: &mut Random) -> Input {
    let some = |r: &mut Random| numbered(*r.pick(&[STRINGS_LIMIT, STRINGS_LIMIT, STRINGS_LIMIT - 1, STRINGS_LIMIT + 1]));
    let (strings, mut strings2) = (some(r), some(r));
    if r.one_in(2) {
        strings2.reverse();
    }
    let ids = [0u16, 1, 255, 256, 65_534, 65_535];
    let body = (0..r.below(8)).flat_map(|_| [&[4], &r.pick(&ids).to_le_bytes()[..]].concat()).collect();
    let second = if r.one_in(2) { narrow() } else { wide() };
    Input { first: context(&narrow(), &strings), second: context(&second, &strings2), body }
}

/// A string of a megabyte, and one more byte.
fn long_string(r: &mut Random) -> Input {
    let some = |r: &mut Random| {
        let length = *r.pick(&[STRING_BYTES_LIMIT, STRING_BYTES_LIMIT, STRING_BYTES_LIMIT, STRING_BYTES_LIMIT + 1]);
        let mut bytes = vec![b'm'; length];
        if r.one_in(3) {
            bytes[length - 1] = *r.pick(b"n\xff");
        }
        Context { sheet: text(1, &narrow()), bytes, ends: vec![0, STRING_BYTES_LIMIT as u32] }
    };
    let (first, second) = (some(r), some(r));
    Input { first, second, body: vec![4, 1, 0, 4, 0, 0, 4, 1, 0] }
}

/// Inputs at the limits; now and then with a fault that comes behind 18.
pub fn input(r: &mut Random) -> Input {
    let mut input = match r.below(10) {
        0..=3 => long_body(r),
        4..=6 => long_result(r),
        7 | 8 => many_strings(r),
        _ => long_string(r),
    };
    match r.below(8) {
        0 => input.first.sheet[0] = b'x',
        1 => input.second.ends.push(u32::MAX),
        2 => drop(input.second.sheet.pop()),
        _ => {}
    }
    input
}
