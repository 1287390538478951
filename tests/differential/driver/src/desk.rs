// The desk's C functions, from slices: Rust's own rules keep the caller's duties.

use crate::areas::Area;

/// Number, place and operand of a refusal, or three zeros and the length.
#[repr(C)]
#[derive(Debug, Clone, Copy, PartialEq, Eq)]
pub struct Answer {
    pub number: u64,
    pub place: u64,
    pub operand: u64,
    pub length: u64,
}

/// 1 and a number, or 0 and 0.
#[repr(C)]
#[derive(Debug, Clone, Copy, PartialEq, Eq)]
pub struct Number {
    pub found: u64,
    pub value: u64,
}

/// What a listing shows.
#[derive(Debug, Clone, Copy)]
pub struct Shown {
    pub offsets: bool,
    pub labels: bool,
    pub texts: bool,
}

impl Number {
    pub fn of(n: Option<u64>) -> Self {
        Number {
            found: n.is_some() as u64,
            value: n.unwrap_or(0),
        }
    }
}

mod c {
    use super::{Answer, Number};

    extern "C" {
        pub fn desk_decode(text: *const u8, text_len: usize, body: *const u8, body_len: usize, out: *mut u64, out_len: usize) -> Answer;
        pub fn desk_decode_function(
            text: *const u8,
            text_len: usize,
            functions: *const u32,
            functions_len: usize,
            area: *const u8,
            area_len: usize,
            base: u32,
            id: usize,
            out: *mut u64,
            out_len: usize,
        ) -> Answer;
        pub fn desk_encode(text: *const u8, text_len: usize, words: *const u64, words_len: usize, out: *mut u8, out_len: usize) -> Answer;
        pub fn desk_list(
            text: *const u8,
            text_len: usize,
            bytes: *const u8,
            bytes_len: usize,
            ends: *const u32,
            ends_len: usize,
            body: *const u8,
            body_len: usize,
            offsets: bool,
            labels: bool,
            texts: bool,
            out: *mut u8,
            out_len: usize,
            entries: *mut u32,
            entries_len: usize,
        ) -> Answer;
        pub fn desk_list_function(
            text: *const u8,
            text_len: usize,
            bytes: *const u8,
            bytes_len: usize,
            ends: *const u32,
            ends_len: usize,
            functions: *const u32,
            functions_len: usize,
            area: *const u8,
            area_len: usize,
            base: u32,
            id: usize,
            offsets: bool,
            labels: bool,
            texts: bool,
            out: *mut u8,
            out_len: usize,
            entries: *mut u32,
            entries_len: usize,
        ) -> Answer;
        pub fn desk_list_module(
            text: *const u8,
            text_len: usize,
            bytes: *const u8,
            bytes_len: usize,
            ends: *const u32,
            ends_len: usize,
            functions: *const u32,
            functions_len: usize,
            area: *const u8,
            area_len: usize,
            base: u32,
            offsets: bool,
            labels: bool,
            texts: bool,
            out: *mut u8,
            out_len: usize,
            entries: *mut u32,
            entries_len: usize,
        ) -> Answer;
        pub fn desk_assemble(
            sheet: *const u8,
            sheet_len: usize,
            bytes: *const u8,
            bytes_len: usize,
            ends: *const u32,
            ends_len: usize,
            text: *const u8,
            text_len: usize,
            out: *mut u8,
            out_len: usize,
            labels: *mut [u32; 3],
            labels_len: usize,
        ) -> Answer;
        pub fn desk_carry(
            sheet: *const u8,
            sheet_len: usize,
            bytes: *const u8,
            bytes_len: usize,
            ends: *const u32,
            ends_len: usize,
            sheet2: *const u8,
            sheet2_len: usize,
            bytes2: *const u8,
            bytes2_len: usize,
            ends2: *const u32,
            ends2_len: usize,
            body: *const u8,
            body_len: usize,
            out: *mut u8,
            out_len: usize,
            labels: *mut [u32; 3],
            labels_len: usize,
        ) -> Answer;

        pub fn part_parse_u32(text: *const u8, text_len: usize) -> Number;
        pub fn part_parse_hex(text: *const u8, text_len: usize) -> Number;
        pub fn part_parse_i32(text: *const u8, text_len: usize) -> Number;
        pub fn part_parse_double(text: *const u8, text_len: usize) -> Number;
        pub fn part_print_decimal(n: u64, out: *mut u8, out_len: usize) -> usize;
        pub fn part_print_signed(bits: u32, out: *mut u8, out_len: usize) -> usize;
        pub fn part_print_hex4(n: u64, out: *mut u8, out_len: usize) -> usize;
        pub fn part_print_double(bits: u64, out: *mut u8, out_len: usize) -> usize;
        pub fn part_escape(text: *const u8, text_len: usize, out: *mut u8, out_len: usize) -> usize;
        pub fn part_unescape(text: *const u8, text_len: usize, out: *mut u8, out_len: usize) -> usize;
        pub fn part_is_utf8(text: *const u8, text_len: usize) -> bool;
        pub fn part_table_fault(bytes: *const u8, bytes_len: usize, ends: *const u32, ends_len: usize) -> Number;
        pub fn part_lookup(text: *const u8, text_len: usize, bytes: *const u8, bytes_len: usize, ends: *const u32, ends_len: usize) -> Number;
    }
}

pub fn decode(text: &[u8], body: &[u8], out: &mut [u64]) -> Answer {
    unsafe { c::desk_decode(text.as_ptr(), text.len(), body.as_ptr(), body.len(), out.as_mut_ptr(), out.len()) }
}

pub fn decode_function(text: &[u8], area: &Area, id: usize, out: &mut [u64]) -> Answer {
    unsafe {
        c::desk_decode_function(
            text.as_ptr(),
            text.len(),
            area.functions.as_ptr(),
            area.functions.len(),
            area.bytes.as_ptr(),
            area.bytes.len(),
            area.base,
            id,
            out.as_mut_ptr(),
            out.len(),
        )
    }
}

pub fn encode(text: &[u8], words: &[u64], out: &mut [u8]) -> Answer {
    unsafe { c::desk_encode(text.as_ptr(), text.len(), words.as_ptr(), words.len(), out.as_mut_ptr(), out.len()) }
}

pub fn list(text: &[u8], bytes: &[u8], ends: &[u32], body: &[u8], shown: Shown, out: &mut [u8], entries: &mut [u32]) -> Answer {
    unsafe {
        c::desk_list(
            text.as_ptr(),
            text.len(),
            bytes.as_ptr(),
            bytes.len(),
            ends.as_ptr(),
            ends.len(),
            body.as_ptr(),
            body.len(),
            shown.offsets,
            shown.labels,
            shown.texts,
            out.as_mut_ptr(),
            out.len(),
            entries.as_mut_ptr(),
            entries.len(),
        )
    }
}

pub fn list_function(text: &[u8], bytes: &[u8], ends: &[u32], area: &Area, id: usize, shown: Shown, out: &mut [u8], entries: &mut [u32]) -> Answer {
    unsafe {
        c::desk_list_function(
            text.as_ptr(),
            text.len(),
            bytes.as_ptr(),
            bytes.len(),
            ends.as_ptr(),
            ends.len(),
            area.functions.as_ptr(),
            area.functions.len(),
            area.bytes.as_ptr(),
            area.bytes.len(),
            area.base,
            id,
            shown.offsets,
            shown.labels,
            shown.texts,
            out.as_mut_ptr(),
            out.len(),
            entries.as_mut_ptr(),
            entries.len(),
        )
    }
}

pub fn list_module(text: &[u8], bytes: &[u8], ends: &[u32], area: &Area, shown: Shown, out: &mut [u8], entries: &mut [u32]) -> Answer {
    unsafe {
        c::desk_list_module(
            text.as_ptr(),
            text.len(),
            bytes.as_ptr(),
            bytes.len(),
            ends.as_ptr(),
            ends.len(),
            area.functions.as_ptr(),
            area.functions.len(),
            area.bytes.as_ptr(),
            area.bytes.len(),
            area.base,
            shown.offsets,
            shown.labels,
            shown.texts,
            out.as_mut_ptr(),
            out.len(),
            entries.as_mut_ptr(),
            entries.len(),
        )
    }
}

pub fn assemble(sheet: &[u8], bytes: &[u8], ends: &[u32], text: &[u8], out: &mut [u8], labels: &mut [[u32; 3]]) -> Answer {
    unsafe {
        c::desk_assemble(
            sheet.as_ptr(),
            sheet.len(),
            bytes.as_ptr(),
            bytes.len(),
            ends.as_ptr(),
            ends.len(),
            text.as_ptr(),
            text.len(),
            out.as_mut_ptr(),
            out.len(),
            labels.as_mut_ptr(),
            labels.len(),
        )
    }
}

/// A sheet's text with the bytes and ends of a string table.
#[derive(Clone, Copy)]
pub struct Edition<'a> {
    pub sheet: &'a [u8],
    pub bytes: &'a [u8],
    pub ends: &'a [u32],
}

pub fn carry(from: Edition, into: Edition, body: &[u8], out: &mut [u8], labels: &mut [[u32; 3]]) -> Answer {
    unsafe {
        c::desk_carry(
            from.sheet.as_ptr(),
            from.sheet.len(),
            from.bytes.as_ptr(),
            from.bytes.len(),
            from.ends.as_ptr(),
            from.ends.len(),
            into.sheet.as_ptr(),
            into.sheet.len(),
            into.bytes.as_ptr(),
            into.bytes.len(),
            into.ends.as_ptr(),
            into.ends.len(),
            body.as_ptr(),
            body.len(),
            out.as_mut_ptr(),
            out.len(),
            labels.as_mut_ptr(),
            labels.len(),
        )
    }
}

pub fn parse_u32(text: &[u8]) -> Number {
    unsafe { c::part_parse_u32(text.as_ptr(), text.len()) }
}

pub fn parse_hex(text: &[u8]) -> Number {
    unsafe { c::part_parse_hex(text.as_ptr(), text.len()) }
}

pub fn parse_i32(text: &[u8]) -> Number {
    unsafe { c::part_parse_i32(text.as_ptr(), text.len()) }
}

pub fn parse_double(text: &[u8]) -> Number {
    unsafe { c::part_parse_double(text.as_ptr(), text.len()) }
}

pub fn print_decimal(n: u64, out: &mut [u8]) -> usize {
    unsafe { c::part_print_decimal(n, out.as_mut_ptr(), out.len()) }
}

pub fn print_signed(bits: u32, out: &mut [u8]) -> usize {
    unsafe { c::part_print_signed(bits, out.as_mut_ptr(), out.len()) }
}

pub fn print_hex4(n: u64, out: &mut [u8]) -> usize {
    unsafe { c::part_print_hex4(n, out.as_mut_ptr(), out.len()) }
}

pub fn print_double(bits: u64, out: &mut [u8]) -> usize {
    unsafe { c::part_print_double(bits, out.as_mut_ptr(), out.len()) }
}

pub fn escape(text: &[u8], out: &mut [u8]) -> usize {
    unsafe { c::part_escape(text.as_ptr(), text.len(), out.as_mut_ptr(), out.len()) }
}

pub fn unescape(text: &[u8], out: &mut [u8]) -> usize {
    unsafe { c::part_unescape(text.as_ptr(), text.len(), out.as_mut_ptr(), out.len()) }
}

pub fn is_utf8(text: &[u8]) -> bool {
    unsafe { c::part_is_utf8(text.as_ptr(), text.len()) }
}

pub fn table_fault(bytes: &[u8], ends: &[u32]) -> Number {
    unsafe { c::part_table_fault(bytes.as_ptr(), bytes.len(), ends.as_ptr(), ends.len()) }
}

pub fn lookup(text: &[u8], bytes: &[u8], ends: &[u32]) -> Number {
    unsafe { c::part_lookup(text.as_ptr(), text.len(), bytes.as_ptr(), bytes.len(), ends.as_ptr(), ends.len()) }
}
