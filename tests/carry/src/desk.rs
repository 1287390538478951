// desk_carry, from slices: Rust's own rules keep the caller's duties.

use crate::model::{Answer, Input};

mod c {
    use super::Answer;

    extern "C" {
        pub fn desk_carry(
            sheet: *const u8,
            sheet_len: usize,
            bytes: *const u8,
            bytes_len: usize,
            ends: *const u32,
            ends_len: usize,
            sheet2: *const u8,
            sheet2_len: usize,
            bytes2: *const u8,
            bytes2_len: usize,
            ends2: *const u32,
            ends2_len: usize,
            body: *const u8,
            body_len: usize,
            out: *mut u8,
            out_len: usize,
            labels: *mut [u32; 3],
            labels_len: usize,
        ) -> Answer;
    }
}

pub fn carry(input: &Input, out: &mut [u8], labels: &mut [[u32; 3]]) -> Answer {
    let (one, two) = (&input.first, &input.second);
    unsafe {
        c::desk_carry(
            one.sheet.as_ptr(),
            one.sheet.len(),
            one.bytes.as_ptr(),
            one.bytes.len(),
            one.ends.as_ptr(),
            one.ends.len(),
            two.sheet.as_ptr(),
            two.sheet.len(),
            two.bytes.as_ptr(),
            two.bytes.len(),
            two.ends.as_ptr(),
            two.ends.len(),
            input.body.as_ptr(),
            input.body.len(),
            out.as_mut_ptr(),
            out.len(),
            labels.as_mut_ptr(),
            labels.len(),
        )
    }
}
