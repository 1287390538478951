// Generated carries: two sheets, two string tables, a body and lent space.

pub mod bodies;
pub mod limits;
pub mod sheets;
pub mod tables;

use crate::model::{Context, Input};
use crate::random::Random;
use bodies::Made;

/// How much more than needed is lent: bytes and label entries, less where negative, nothing from NONE on.
#[derive(Clone, Copy, Debug, PartialEq, Eq)]
pub struct Spare {
    pub bytes: i64,
    pub entries: i64,
}

pub const NONE: i64 = -100_000_000;
pub const EXACT: Spare = Spare { bytes: 0, entries: 0 };

#[derive(Clone, Debug)]
pub struct Case {
    pub input: Input,
    pub spare: Spare,
}

fn spare(r: &mut Random) -> Spare {
    if r.one_in(2) {
        return EXACT;
    }
    let more = [0, 0, 1, 3, 40];
    match r.below(6) {
        0 => Spare { bytes: *r.pick(&[-1, -1, -7, NONE]), entries: *r.pick(&more) },
        1 => Spare { bytes: *r.pick(&more), entries: *r.pick(&[-1, -1, -2, NONE]) },
        _ => Spare { bytes: *r.pick(&more), entries: *r.pick(&more) },
    }
}

fn length_of_body(r: &mut Random) -> usize {
    match r.below(100) {
        0..=4 => 0,
        5..=49 => r.below(40),
        50..=84 => 60 + r.below(250),
        85..=98 => r.below(400),
        _ => r.below(3000),
    }
}

fn context(sheet: Vec<u8>, strings: &[String]) -> Context {
    let (bytes, ends) = tables::lay(strings);
    Context { sheet, bytes, ends }
}

/// Damages one of the inputs, now and then several.
fn damage(r: &mut Random, input: &mut Input, first: &[sheets::Op]) {
    loop {
        let context = if r.one_in(2) { &mut input.first } else { &mut input.second };
        match r.below(5) {
            0 | 1 => sheets::damage(r, &mut context.sheet),
            2 => tables::damage(r, &mut context.bytes, &mut context.ends),
            _ => bodies::damage(r, first, &mut input.body),
        }
        if !r.one_in(3) {
            return;
        }
    }
}

/// One generated carry.
pub fn case(r: &mut Random) -> Case {
    if r.one_in(400) {
        let input = limits::input(r);
        return Case { input, spare: spare(r) };
    }
    let near_bounds = r.one_in(4);
    let first = if near_bounds { sheets::jumping(r) } else { sheets::first(r) };
    let second = sheets::second(r, &first, near_bounds);
    let strings = tables::first(r);
    let strings2 = tables::second(r, &strings);
    let most = if near_bounds { 80 + r.below(250) } else { length_of_body(r) };
    let made = Made { first: &first, second: &second, strings: strings.len() };
    let body = bodies::body(r, &made, most, near_bounds);
    let (one, other) = (sheets::text(1, &first), sheets::text(*r.pick(&[1, 1, 96, 4_294_967_295]), &second));
    let mut input = Input { first: context(one, &strings), second: context(other, &strings2), body };
    if r.one_in(4) {
        damage(r, &mut input, &first);
    }
    Case { input, spare: spare(r) }
}
