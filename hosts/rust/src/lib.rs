//! The desk for Rust: lists, assembles and carries function bodies of Hermes bytecode, by functions that are proved.
//!
//! Each operation takes slices and gives its result or a [`Refusal`]. It lends the C function the space that always suffices, as
//! include/desk.h derives it, so that 19, too little space, never comes back. Calls keep no state and may run on any number of
//! threads; each needs up to 860 KiB of its thread's stack, which Rust's default of 2 MiB has.
//!
//! ```
//! let sheet = b"version=1\ncount=1\nop=4 name=Ret jump=0 types=Reg8\n";
//! let edition = desk::Edition { sheet, strings: &desk::Strings::new(&["x"]) };
//! let listing = desk::list_body(edition, &[4, 1], desk::Show::ALL).unwrap();
//! assert_eq!(listing, b"0000  Ret r1\n");
//! assert_eq!(desk::assemble(edition, &listing).unwrap(), [4, 1]);
//! ```

mod raw;

use raw::Answer;
use std::ffi::{c_char, CStr};
use std::fmt;

/// The limits of document 01, as include/desk.h has them.
pub const MAX_BODY: usize = 65_536;
pub const MAX_TEXT: usize = 1_048_576;
pub const MAX_LISTING: usize = 1_048_576;
/// Words of a record, and bytes of the longest instruction.
pub const RECORD_WORDS: usize = 20;
pub const MAX_INSTRUCTION: usize = 65;

/// Why nothing was made: document 01's number, the place that it counts, and the operand, from 1, or 0 for none.
#[derive(Clone, Copy, Debug, PartialEq, Eq)]
pub struct Refusal {
    pub number: u64,
    pub place: u64,
    pub operand: u64,
}

impl Refusal {
    /// What is wrong and what to do.
    pub fn explain(&self) -> &'static str {
        fixed(unsafe { raw::desk_explain(self.number) })
    }
}

impl fmt::Display for Refusal {
    fn fmt(&self, f: &mut fmt::Formatter<'_>) -> fmt::Result {
        let Refusal { number, place, operand } = self;
        write!(f, "refused={number} place={place} operand={operand}: {}", self.explain())
    }
}

impl std::error::Error for Refusal {}

/// Version, commit, kit and the sum over the definitions of the tree that the library was built from, a line for each.
pub fn version() -> &'static str {
    fixed(unsafe { raw::desk_version() })
}

/// A text that the library holds for good.
fn fixed(text: *const c_char) -> &'static str {
    unsafe { CStr::from_ptr(text) }.to_str().expect("the library's texts are ASCII")
}

/// A string table: the texts' bytes one behind the other, and where each one ends.
#[derive(Clone, Debug, Default, PartialEq, Eq)]
pub struct Strings {
    pub bytes: Vec<u8>,
    pub ends: Vec<u32>,
}

impl Strings {
    /// The table of these texts. A table whose ends pass 32 bits is over document 01's limit in any case, and refused with 18.
    pub fn new<T: AsRef<[u8]>>(texts: &[T]) -> Self {
        let mut table = Strings::default();
        for text in texts {
            table.bytes.extend_from_slice(text.as_ref());
            table.ends.push(u32::try_from(table.bytes.len()).unwrap_or(u32::MAX));
        }
        table
    }
}

/// An edition: the text of its opcode sheet, and the strings.
#[derive(Clone, Copy, Debug)]
pub struct Edition<'a> {
    pub sheet: &'a [u8],
    pub strings: &'a Strings,
}

/// Functions of an area: triples of offset, size and name id, offsets counted from `base`, and the area's bytes.
#[derive(Clone, Copy, Debug)]
pub struct Area<'a> {
    pub functions: &'a [u32],
    pub bytes: &'a [u8],
    pub base: u32,
}

/// What a listing shows.
#[derive(Clone, Copy, Debug, PartialEq, Eq)]
pub struct Show {
    pub offsets: bool,
    pub labels: bool,
    pub texts: bool,
}

impl Show {
    /// Document 01's default.
    pub const ALL: Show = Show { offsets: true, labels: true, texts: true };
}

/// An operand of a record: kind 0 U8, 1 U16, 2 U32, 3 I8, 4 I32, 5 F64, and the value's bits.
#[repr(C)]
#[derive(Clone, Copy, Debug, Default, PartialEq, Eq)]
pub struct Operand {
    pub kind: u64,
    pub bits: u64,
}

/// A decoded instruction, the twenty words of document 01. Operands behind `count` are zero.
#[repr(C)]
#[derive(Clone, Copy, Debug, Default, PartialEq, Eq)]
pub struct Record {
    pub offset: u64,
    pub opcode: u64,
    pub length: u64,
    pub count: u64,
    pub operands: [Operand; 8],
}

impl Record {
    fn of_words(words: &[u64]) -> Self {
        let operands = std::array::from_fn(|i| Operand { kind: words[4 + 2 * i], bits: words[5 + 2 * i] });
        Record { offset: words[0], opcode: words[1], length: words[2], count: words[3], operands }
    }
}

// Encoding lends a slice of records as its words.
const _: () = assert!(std::mem::size_of::<Record>() == RECORD_WORDS * 8 && std::mem::align_of::<Record>() == 8);

/// Decodes a body.
pub fn decode(sheet: &[u8], body: &[u8]) -> Result<Vec<Record>, Refusal> {
    let mut words = words(body.len());
    let answer = unsafe {
        raw::desk_decode(sheet.as_ptr(), sheet.len(), body.as_ptr(), body.len(), words.as_mut_ptr(), words.len())
    };
    records(answer, &words)
}

/// Decodes function number `id` of an area.
pub fn decode_function(sheet: &[u8], area: Area, id: usize) -> Result<Vec<Record>, Refusal> {
    let mut words = words(area.bytes.len());
    let answer = unsafe {
        raw::desk_decode_function(
            sheet.as_ptr(),
            sheet.len(),
            area.functions.as_ptr(),
            area.functions.len(),
            area.bytes.as_ptr(),
            area.bytes.len(),
            area.base,
            id,
            words.as_mut_ptr(),
            words.len(),
        )
    };
    records(answer, &words)
}

/// Encodes records into a body.
pub fn encode(sheet: &[u8], records: &[Record]) -> Result<Vec<u8>, Refusal> {
    let mut out = vec![0; records.len().saturating_mul(MAX_INSTRUCTION).min(MAX_BODY)];
    let answer = unsafe {
        let (words, len) = (records.as_ptr().cast(), records.len() * RECORD_WORDS);
        raw::desk_encode(sheet.as_ptr(), sheet.len(), words, len, out.as_mut_ptr(), out.len())
    };
    finish(answer, out)
}

/// Lists a body.
pub fn list_body(edition: Edition, body: &[u8], show: Show) -> Result<Vec<u8>, Refusal> {
    let (mut out, mut entries) = (vec![0; MAX_LISTING], vec![0; entries(body.len(), show)]);
    let Edition { sheet, strings } = edition;
    let answer = unsafe {
        raw::desk_list(
            sheet.as_ptr(),
            sheet.len(),
            strings.bytes.as_ptr(),
            strings.bytes.len(),
            strings.ends.as_ptr(),
            strings.ends.len(),
            body.as_ptr(),
            body.len(),
            show.offsets,
            show.labels,
            show.texts,
            out.as_mut_ptr(),
            out.len(),
            entries.as_mut_ptr(),
            entries.len(),
        )
    };
    finish(answer, out)
}

/// Lists function number `id` of an area.
pub fn list_function(edition: Edition, area: Area, id: usize, show: Show) -> Result<Vec<u8>, Refusal> {
    let (mut out, mut entries) = (vec![0; MAX_LISTING], vec![0; entries(area.bytes.len(), show)]);
    let Edition { sheet, strings } = edition;
    let answer = unsafe {
        raw::desk_list_function(
            sheet.as_ptr(),
            sheet.len(),
            strings.bytes.as_ptr(),
            strings.bytes.len(),
            strings.ends.as_ptr(),
            strings.ends.len(),
            area.functions.as_ptr(),
            area.functions.len(),
            area.bytes.as_ptr(),
            area.bytes.len(),
            area.base,
            id,
            show.offsets,
            show.labels,
            show.texts,
            out.as_mut_ptr(),
            out.len(),
            entries.as_mut_ptr(),
            entries.len(),
        )
    };
    finish(answer, out)
}

/// Lists all functions of an area, each under a line that names it.
pub fn list_module(edition: Edition, area: Area, show: Show) -> Result<Vec<u8>, Refusal> {
    let (mut out, mut entries) = (vec![0; MAX_LISTING], vec![0; entries(area.bytes.len(), show)]);
    let Edition { sheet, strings } = edition;
    let answer = unsafe {
        raw::desk_list_module(
            sheet.as_ptr(),
            sheet.len(),
            strings.bytes.as_ptr(),
            strings.bytes.len(),
            strings.ends.as_ptr(),
            strings.ends.len(),
            area.functions.as_ptr(),
            area.functions.len(),
            area.bytes.as_ptr(),
            area.bytes.len(),
            area.base,
            show.offsets,
            show.labels,
            show.texts,
            out.as_mut_ptr(),
            out.len(),
            entries.as_mut_ptr(),
            entries.len(),
        )
    };
    finish(answer, out)
}

/// Assembles a text into a body. A refusal's place is the text's line, from 1.
pub fn assemble(edition: Edition, text: &[u8]) -> Result<Vec<u8>, Refusal> {
    let (mut out, mut labels) = (vec![0; MAX_BODY], vec![[0; 3]; (text.len().min(MAX_TEXT) + 1) / 5]);
    let Edition { sheet, strings } = edition;
    let answer = unsafe {
        raw::desk_assemble(
            sheet.as_ptr(),
            sheet.len(),
            strings.bytes.as_ptr(),
            strings.bytes.len(),
            strings.ends.as_ptr(),
            strings.ends.len(),
            text.as_ptr(),
            text.len(),
            out.as_mut_ptr(),
            out.len(),
            labels.as_mut_ptr(),
            labels.len(),
        )
    };
    finish(answer, out)
}

/// Carries a body to another edition. A refusal's place is the instruction's index, from 0; for 13 and 14 its offset.
pub fn carry(from: Edition, to: Edition, body: &[u8]) -> Result<Vec<u8>, Refusal> {
    let (mut out, mut labels) = (vec![0; body.len().min(MAX_BODY / 4) * 4], vec![[0; 3]; body.len().min(MAX_BODY)]);
    let answer = unsafe {
        raw::desk_carry(
            from.sheet.as_ptr(),
            from.sheet.len(),
            from.strings.bytes.as_ptr(),
            from.strings.bytes.len(),
            from.strings.ends.as_ptr(),
            from.strings.ends.len(),
            to.sheet.as_ptr(),
            to.sheet.len(),
            to.strings.bytes.as_ptr(),
            to.strings.bytes.len(),
            to.strings.ends.as_ptr(),
            to.strings.ends.len(),
            body.as_ptr(),
            body.len(),
            out.as_mut_ptr(),
            out.len(),
            labels.as_mut_ptr(),
            labels.len(),
        )
    };
    finish(answer, out)
}

/// Space for the records of a body: an instruction takes a byte or more.
fn words(body: usize) -> Vec<u64> {
    vec![0; body.min(MAX_BODY) * RECORD_WORDS]
}

/// Label entries for a listing: an instruction gives at most as many labels as it has bytes.
fn entries(body: usize, show: Show) -> usize {
    if show.labels { body.min(MAX_BODY) } else { 0 }
}

fn refused(answer: Answer) -> Result<usize, Refusal> {
    let Answer { number, place, operand, length } = answer;
    if number == 0 { Ok(length as usize) } else { Err(Refusal { number, place, operand }) }
}

/// The records that were decoded, which `length` counts.
fn records(answer: Answer, words: &[u64]) -> Result<Vec<Record>, Refusal> {
    let length = refused(answer)?;
    Ok(words.chunks_exact(RECORD_WORDS).take(length).map(Record::of_words).collect())
}

/// The bytes of the result, without the space behind them.
fn finish(answer: Answer, mut out: Vec<u8>) -> Result<Vec<u8>, Refusal> {
    out.truncate(refused(answer)?);
    out.shrink_to_fit();
    Ok(out)
}
