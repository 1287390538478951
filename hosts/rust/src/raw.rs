//! The C functions as include/desk.h declares them.

#[repr(C)]
#[derive(Clone, Copy)]
pub struct Answer {
    pub number: u64,
    pub place: u64,
    pub operand: u64,
    pub length: u64,
}

extern "C" {
    pub fn desk_version() -> *const std::ffi::c_char;
    pub fn desk_explain(number: u64) -> *const std::ffi::c_char;

    pub fn desk_decode(
        sheet: *const u8,
        sheet_len: usize,
        body: *const u8,
        body_len: usize,
        out: *mut u64,
        out_len: usize,
    ) -> Answer;

    pub fn desk_decode_function(
        sheet: *const u8,
        sheet_len: usize,
        functions: *const u32,
        functions_len: usize,
        area: *const u8,
        area_len: usize,
        base: u32,
        id: usize,
        out: *mut u64,
        out_len: usize,
    ) -> Answer;

    pub fn desk_encode(
        sheet: *const u8,
        sheet_len: usize,
        words: *const u64,
        words_len: usize,
        out: *mut u8,
        out_len: usize,
    ) -> Answer;

    pub fn desk_list(
        sheet: *const u8,
        sheet_len: usize,
        bytes: *const u8,
        bytes_len: usize,
        ends: *const u32,
        ends_len: usize,
        body: *const u8,
        body_len: usize,
        offsets: bool,
        labels: bool,
        texts: bool,
        out: *mut u8,
        out_len: usize,
        entries: *mut u32,
        entries_len: usize,
    ) -> Answer;

    pub fn desk_list_function(
        sheet: *const u8,
        sheet_len: usize,
        bytes: *const u8,
        bytes_len: usize,
        ends: *const u32,
        ends_len: usize,
        functions: *const u32,
        functions_len: usize,
        area: *const u8,
        area_len: usize,
        base: u32,
        id: usize,
        offsets: bool,
        labels: bool,
        texts: bool,
        out: *mut u8,
        out_len: usize,
        entries: *mut u32,
        entries_len: usize,
    ) -> Answer;

    pub fn desk_list_module(
        sheet: *const u8,
        sheet_len: usize,
        bytes: *const u8,
        bytes_len: usize,
        ends: *const u32,
        ends_len: usize,
        functions: *const u32,
        functions_len: usize,
        area: *const u8,
        area_len: usize,
        base: u32,
        offsets: bool,
        labels: bool,
        texts: bool,
        out: *mut u8,
        out_len: usize,
        entries: *mut u32,
        entries_len: usize,
    ) -> Answer;

    pub fn desk_assemble(
        sheet: *const u8,
        sheet_len: usize,
        bytes: *const u8,
        bytes_len: usize,
        ends: *const u32,
        ends_len: usize,
        text: *const u8,
        text_len: usize,
        out: *mut u8,
        out_len: usize,
        labels: *mut [u32; 3],
        labels_len: usize,
    ) -> Answer;

    pub fn desk_carry(
        sheet: *const u8,
        sheet_len: usize,
        bytes: *const u8,
        bytes_len: usize,
        ends: *const u32,
        ends_len: usize,
        sheet2: *const u8,
        sheet2_len: usize,
        bytes2: *const u8,
        bytes2_len: usize,
        ends2: *const u32,
        ends2_len: usize,
        body: *const u8,
        body_len: usize,
        out: *mut u8,
        out_len: usize,
        labels: *mut [u32; 3],
        labels_len: usize,
    ) -> Answer;
}
