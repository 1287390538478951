// Bodies of a first sheet's instructions, with an eye on where their jumps will stand after the carry.

use super::sheets::Op;
use crate::model::{new_offsets, reaches, Family, Type};
use crate::random::Random;

/// What a body is made for.
pub struct Made<'a> {
    pub first: &'a [Op],
    pub second: &'a [Op],
    /// How many strings the first table has.
    pub strings: usize,
}

/// Old and new offsets of the instructions, and the lengths behind them.
struct Layout {
    old: Vec<usize>,
    new: Vec<usize>,
}

impl Layout {
    fn of(made: &Made, ops: &[&Op]) -> Self {
        let carried = |o: &&Op| made.second.iter().find(|s| s.name == o.name).map_or(o.length(), Op::length);
        Layout { old: new_offsets(ops.iter().map(|o| o.length())), new: new_offsets(ops.iter().map(carried)) }
    }

    fn old_distance(&self, from: usize, to: usize) -> i64 {
        self.old[to] as i64 - self.old[from] as i64
    }

    fn new_distance(&self, from: usize, to: usize) -> i64 {
        self.new[to] as i64 - self.new[from] as i64
    }

    /// Instructions near one that its Addr reaches in the old body, the end among them.
    fn reached(&self, from: usize, width: usize) -> Vec<usize> {
        let near = from.saturating_sub(135)..=(from + 135).min(self.old.len() - 1);
        near.filter(|to| reaches(self.old_distance(from, *to), width)).collect()
    }
}

/// How a body's jumps are aimed: one in so many at Addr8's bounds after the carry, at a distance past them, or anywhere. A body
/// has one such distance, as the earlier jump's refusal would hide the later one's.
#[derive(Clone, Copy)]
struct Aim {
    bounds: usize,
    past: usize,
    past_distance: i64,
    wild: usize,
}

impl Aim {
    fn some(r: &mut Random, near_bounds: bool) -> Self {
        let wild = if r.one_in(4) { 10 } else { usize::MAX };
        let bounds = if near_bounds || r.one_in(4) { 2 } else { usize::MAX };
        let past = *r.pick(&[usize::MAX, usize::MAX, 12, 3]);
        Aim { bounds, past, past_distance: *r.pick(&[128, 128, -129, -129, 130, -131]), wild }
    }
}

/// The instruction whose new distance is nearest to a distance.
fn nearest(layout: &Layout, from: usize, among: &[usize], distance: i64) -> usize {
    *among.iter().min_by_key(|to| (layout.new_distance(from, **to) - distance).abs()).unwrap()
}

/// Where a jump leads to: an instruction or the end.
fn target(r: &mut Random, layout: &Layout, from: usize, width: usize, aim: Aim) -> usize {
    let reached = layout.reached(from, width);
    if r.one_in(aim.past) {
        return nearest(layout, from, &reached, aim.past_distance);
    }
    let safe: Vec<usize> = reached.into_iter().filter(|to| reaches(layout.new_distance(from, *to), 1)).collect();
    if r.one_in(aim.bounds) {
        return nearest(layout, from, &safe, *r.pick(&[127, -128]));
    }
    let end = layout.old.len() - 1;
    if r.one_in(5) && safe.contains(&end) { end } else { *r.pick(&safe) }
}

fn aimed_distance(r: &mut Random, layout: &Layout, from: usize, width: usize, aim: Aim) -> u64 {
    let distance = if r.one_in(aim.wild) {
        match r.below(3) {
            0 => return r.edge(width),
            1 => r.below(41) as i64 - 20,
            // An offset around the body's end or start.
            _ => *r.pick(&[layout.old[layout.old.len() - 1] as i64 + 1, -1, 1]) - layout.old[from] as i64,
        }
    } else {
        let to = target(r, layout, from, width, aim);
        layout.old_distance(from, to)
    };
    distance as u64
}

/// A value for an operand that is no Addr.
fn value(r: &mut Random, made: &Made, t: Type, wild: usize) -> u64 {
    match t.family {
        Family::String if made.strings > 0 && !r.one_in(wild) => r.below(made.strings) as u64,
        Family::String if r.one_in(2) => made.strings as u64 + r.below(3) as u64,
        Family::Reg | Family::UInt if !r.one_in(wild) => r.next() % 256,
        _ => r.edge(t.width),
    }
}

/// Opcodes of a body up to a length, from a few of the sheet's.
fn some_ops<'a>(r: &mut Random, made: &Made<'a>, most: usize) -> Vec<&'a Op> {
    let chosen: Vec<&Op> = (0..1 + r.below(6)).map(|_| r.pick(made.first)).collect();
    let (mut ops, mut length) = (Vec::new(), 0);
    loop {
        let op = *r.pick(&chosen);
        length += op.length();
        if length > most {
            return ops;
        }
        ops.push(op);
    }
}

/// Whole instructions, up to a length, with jumps near Addr8's bounds if so wanted.
pub fn body(r: &mut Random, made: &Made, most: usize, near_bounds: bool) -> Vec<u8> {
    let ops = some_ops(r, made, most);
    let layout = Layout::of(made, &ops);
    let aim = Aim::some(r, near_bounds);
    let mut body = Vec::new();
    for (index, op) in ops.iter().enumerate() {
        body.push(op.code as u8);
        for t in &op.types {
            let bits = if t.family == Family::Addr {
                aimed_distance(r, &layout, index, t.width, aim)
            } else {
                value(r, made, *t, aim.wild)
            };
            body.extend_from_slice(&bits.to_le_bytes()[..t.width]);
        }
    }
    body
}

/// Damages a body: cut, a byte changed, put in or taken away, an opcode of a gap or past the largest.
pub fn damage(r: &mut Random, first: &[Op], body: &mut Vec<u8>) {
    let largest = first[first.len() - 1].code;
    match r.below(6) {
        0 => body.truncate(r.below(body.len() + 1)),
        1 => drop(body.pop()),
        2 if !body.is_empty() => {
            let at = r.below(body.len());
            body[at] = r.byte();
        }
        3 => body.push((largest + 1).min(255) as u8),
        4 => body.push(r.below(largest + 1) as u8),
        _ => {
            let gaps: Vec<u8> = (0..largest).filter(|c| first.iter().all(|o| o.code != *c)).map(|c| c as u8).collect();
            let byte = if gaps.is_empty() { r.byte() } else { *r.pick(&gaps) };
            let at = if r.one_in(2) { body.len() } else { 0 };
            body.insert(at, byte);
        }
    }
}
