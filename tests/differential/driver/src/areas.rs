// Functions of an area, as both sides take them.

use crate::desk::Answer;
use crate::random::Random;
use crate::rust;
use crate::sheets::Sheet;
use crate::tally::{hex, smallest};
use hbc_decomp::file::BytecodeFile;

/// Triples of offset, size and name id, offsets from a base, and the bytes that they are parts of.
#[derive(Clone)]
pub struct Area {
    pub functions: Vec<u32>,
    pub bytes: Vec<u8>,
    pub base: u32,
}

impl Area {
    fn empty(base: u32) -> Self {
        Area { functions: Vec::new(), bytes: Vec::new(), base }
    }

    /// Up to three functions, one behind the other.
    pub fn random(r: &mut Random, base: u32, mut function: impl FnMut(&mut Random) -> (Vec<u8>, u32)) -> Self {
        let mut a = Area::empty(base);
        for _ in 0..r.below(4) {
            let (body, name) = function(r);
            a.push(&body, name);
        }
        a
    }

    fn push(&mut self, body: &[u8], name: u32) {
        self.functions.extend([self.base.wrapping_add(self.bytes.len() as u32), body.len() as u32, name]);
        self.bytes.extend(body);
    }

    /// Another offset or size for one of the functions.
    pub fn damage(&mut self, r: &mut Random) {
        if !self.functions.is_empty() {
            let at = r.below(self.functions.len() / 3) * 3 + r.below(2);
            self.functions[at] = self.functions[at].wrapping_add(*r.pick(&[1, 3, u32::MAX, 0x8000_0000]));
        }
    }

    /// Some numbers behind the last triple that are none.
    pub fn leave_rest(&mut self, r: &mut Random) {
        self.functions.extend((0..r.below(3)).map(|_| 0));
    }

    /// The body of a function, or its 20 or 18.
    pub fn body_of(&self, id: usize) -> Result<Vec<u8>, Answer> {
        let none = rust::refusal(20, id, 0);
        let w = self.functions.chunks_exact(3).nth(id).ok_or(none)?;
        let start = w[0].checked_sub(self.base).ok_or(none)? as usize;
        let part = self.bytes.get(start..start + w[1] as usize).ok_or(none)?;
        if part.len() > 65536 { Err(rust::refusal(18, 0, 0)) } else { Ok(part.to_vec()) }
    }

    /// Makes the functions those of a file.
    pub fn put_in(&self, f: &mut BytecodeFile) {
        f.instructions = self.bytes.clone();
        f.instruction_offset = self.base;
        f.function_headers =
            self.functions.chunks_exact(3).enumerate().map(|(i, w)| rust::header(i as u32, w[0], w[1], w[2])).collect();
    }

    /// The functions' bodies cut into instructions, with the ids of their names. None where a function is not in the area.
    fn cut(&self, sheet: &Sheet) -> Option<Vec<(Vec<Vec<u8>>, u32)>> {
        let body = |(id, w): (usize, &[u32])| self.body_of(id).ok().map(|b| (rust::pieces(&sheet.format, &b), w[2]));
        self.functions.chunks_exact(3).enumerate().map(body).collect()
    }

    fn of_cut(base: u32, cut: &[(Vec<Vec<u8>>, u32)]) -> Self {
        let mut a = Area::empty(base);
        cut.iter().for_each(|(pieces, name)| a.push(&pieces.concat(), *name));
        a
    }

    /// A smaller area that still differs: fewer functions, and fewer instructions of each.
    pub fn smallest(&self, sheet: &Sheet, differs: impl Fn(&Area) -> bool) -> Area {
        let functions = smallest(&self.functions, 3, |w| differs(&Area { functions: w.to_vec(), ..self.clone() }));
        let mut now = Area { functions, ..self.clone() };
        let Some(mut cut) = now.cut(sheet) else { return now };
        for id in 0..cut.len() {
            let with = |some: &[Vec<u8>]| {
                let mut other = cut.clone();
                other[id].0 = some.to_vec();
                Area::of_cut(now.base, &other)
            };
            if differs(&with(&cut[id].0)) {
                let less = smallest(&cut[id].0, 1, |some| differs(&with(some)));
                (now, cut[id].0) = (with(&less), less);
            }
        }
        now
    }

    pub fn show(&self) -> String {
        format!("functions={:?} base={} area={}", self.functions, self.base, hex(&self.bytes))
    }
}
