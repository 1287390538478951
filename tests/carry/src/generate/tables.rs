// String tables: a first one, a second one made from it, and tables that are damaged.

use crate::random::Random;

const TEXTS: [&str; 16] = [
    "", "a", "b", "ab", "a,b", "x", "\u{e9}", "\u{e9}\u{e9}", "\u{7ff}", "\u{800}", "\u{65e5}\u{672c}", "\u{ffff}",
    "\u{1f600}", "\u{10ffff}", "a\0", "\0",
];

/// Bytes that are no UTF-8: lone and missing continuations, overlong forms, surrogates, past the last character.
const NOT_UTF8: [&[u8]; 12] = [
    b"\x80", b"\xff", b"\xc3", b"\xc0\x80", b"\xc1\xbf", b"\xe0\x9f\xbf", b"\xed\xa0\x80", b"\xed\xbf\xbf", b"\xf0\x8f\xbf\xbf",
    b"\xf4\x90\x80\x80", b"\xe6\x97", b"\xf0\x9f\x98",
];

/// The bytes and ends of a table.
pub fn lay(strings: &[String]) -> (Vec<u8>, Vec<u32>) {
    let (mut bytes, mut ends) = (Vec::new(), Vec::new());
    for s in strings {
        bytes.extend_from_slice(s.as_bytes());
        ends.push(bytes.len() as u32);
    }
    (bytes, ends)
}

fn some_text(r: &mut Random) -> String {
    match r.below(6) {
        0 => format!("{}{}", r.pick(&TEXTS), r.pick(&TEXTS)),
        1 => format!("text {}", r.below(40)),
        _ => r.pick(&TEXTS).to_string(),
    }
}

/// Texts that no other part of a table has.
fn filler(count: usize) -> Vec<String> {
    (0..count).map(|n| format!("f{n}")).collect()
}

/// A first table, texts in it now and then twice; a few have over 256 strings.
pub fn first(r: &mut Random) -> Vec<String> {
    let count = *r.pick(&[0, 1, 2, 3, 4, 5, 8, 12]);
    let mut strings = if r.one_in(30) { filler(250 + r.below(12)) } else { Vec::new() };
    strings.extend((0..count).map(|_| some_text(r)));
    strings
}

/// A second table made from the first: order changed, texts taken away, doubled and added, in front of them so many that an
/// id stands around 256.
pub fn second(r: &mut Random, first: &[String]) -> Vec<String> {
    let mut strings = first.to_vec();
    if r.one_in(2) {
        r.shuffle(&mut strings);
    }
    if r.one_in(5) {
        strings.retain(|_| !r.one_in(3));
    }
    for _ in 0..*r.pick(&[0, 0, 1, 3]) {
        let again = if strings.is_empty() || r.one_in(3) { some_text(r) } else { r.pick(&strings).clone() };
        let at = r.below(strings.len() + 1);
        strings.insert(at, again);
    }
    if r.one_in(12) {
        let front = filler(250 + r.below(12));
        strings.splice(0..0, front);
    }
    strings
}

/// Damages a table: ends that fall or pass the bytes, entries that are no UTF-8, and bytes behind the last end, which harm
/// nothing.
pub fn damage(r: &mut Random, bytes: &mut Vec<u8>, ends: &mut Vec<u32>) {
    let id = r.below(ends.len().max(1));
    match r.below(6) {
        0 if !ends.is_empty() => ends[id] = ends[id].wrapping_add(*r.pick(&[1, 2, u32::MAX, u32::MAX - 1])),
        1 if !ends.is_empty() => ends[id] = r.next() as u32,
        2 if !bytes.is_empty() => {
            let at = r.below(bytes.len());
            bytes[at] ^= 1 << r.below(8);
        }
        3 => drop(bytes.pop()),
        4 => bytes.extend(*r.pick(&NOT_UTF8)),
        _ => {
            bytes.extend(*r.pick(&NOT_UTF8));
            ends.push(bytes.len() as u32);
        }
    }
}
