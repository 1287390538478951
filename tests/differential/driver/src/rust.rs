// What the published Rust answers, told in the desk's numbers where its error says enough.

use crate::desk::Answer;
use crate::sheets::Sheet;
use hbc_decomp::error::Error;
use hbc_decomp::file::{BytecodeFile, Instruction, StringTableEntry};
use hbc_decomp::format::*;
use hbc_decomp::opcode::{BytecodeFormat, Operand, OperandType, OperandValue};
use hbc_decomp::write::encode::{encode_function_body, encode_instruction};
use std::collections::BTreeMap;

/// A file with one function, whose body is the area.
pub fn file_of(body: &[u8]) -> BytecodeFile {
    let mut f = BytecodeFile {
        header: BytecodeHeader {
            magic: 0,
            version: 1,
            source_hash: [0; 20],
            file_length: 0,
            global_code_index: 0,
            function_count: 1,
            string_kind_count: 0,
            identifier_count: 0,
            string_count: 0,
            overflow_string_count: 0,
            string_storage_size: 0,
            big_int_count: None,
            big_int_storage_size: None,
            reg_exp_count: 0,
            reg_exp_storage_size: 0,
            literal_value_buffer_size: None,
            array_buffer_size: None,
            obj_key_buffer_size: 0,
            obj_value_buffer_size: None,
            obj_shape_table_count: None,
            num_string_switch_imms: None,
            segment_id: None,
            cjs_module_offset: None,
            cjs_module_count: 0,
            function_source_count: None,
            debug_info_offset: 0,
            options: 0,
            layout: HeaderLayout::Modern,
            function_header_layout: FunctionHeaderLayout::Modern12,
        },
        function_headers: Vec::new(),
        string_kinds: Vec::new(),
        identifier_hashes: Vec::new(),
        strings: Vec::new(),
        big_int_table: Vec::new(),
        big_int_storage: Vec::new(),
        reg_exp_table: Vec::new(),
        reg_exp_storage: Vec::new(),
        array_buffer: Vec::new(),
        literal_value_buffer: Vec::new(),
        obj_key_buffer: Vec::new(),
        obj_value_buffer: Vec::new(),
        obj_shape_table: Vec::new(),
        cjs_module_table: Vec::new(),
        function_source_table: Vec::new(),
        instruction_offset: 0,
        instructions: Vec::new(),
        debug_info: None,
        exception_handlers: BTreeMap::new(),
        sections: Vec::new(),
        raw_bytes: None,
    };
    set_body(&mut f, body);
    f
}

pub fn header(id: u32, offset: u32, size: u32, name: u32) -> FunctionHeader {
    FunctionHeader::Modern(ModernFunctionHeader {
        function_id: id,
        offset,
        param_count: 0,
        loop_depth: 0,
        bytecode_size_in_bytes: size,
        function_name: name,
        number_reg_count: 0,
        non_ptr_reg_count: 0,
        frame_size: 0,
        read_cache_size: 0,
        write_cache_size: 0,
        num_cache_new_object: 0,
        private_name_cache_size: 0,
        flags: 0,
        info_offset: 0,
    })
}

/// Makes a body the file's only function.
pub fn set_body(f: &mut BytecodeFile, body: &[u8]) {
    f.instructions.clear();
    f.instructions.extend_from_slice(body);
    f.instruction_offset = 0;
    f.function_headers.clear();
    f.function_headers.push(header(0, 0, body.len() as u32, u32::MAX));
}

pub fn set_strings(f: &mut BytecodeFile, strings: &[String]) {
    f.strings = strings
        .iter()
        .map(|s| StringTableEntry { value: s.clone(), is_utf16: false, is_identifier: false })
        .collect();
}

pub fn success(length: usize) -> Answer {
    Answer { number: 0, place: 0, operand: 0, length: length as u64 }
}

pub fn refusal(number: u64, place: usize, operand: usize) -> Answer {
    Answer { number, place: place as u64, operand: operand as u64, length: 0 }
}

pub fn message(e: &Error) -> &str {
    match e {
        Error::Parse(m) | Error::Write(m) => m,
        _ => "",
    }
}

/// The refusal's number that a decoding error tells.
pub fn decode_number(e: &Error) -> u64 {
    let m = message(e);
    if m.starts_with("unknown opcode") {
        13
    } else if m.starts_with("invalid function id") || m.contains("underflow") || m.contains("out of range") || m.contains("offset overflow") {
        20
    } else {
        14
    }
}

fn bits_of(v: &OperandValue) -> (u64, u64) {
    match v {
        OperandValue::U8(x) => (0, *x as u64),
        OperandValue::U16(x) => (1, *x as u64),
        OperandValue::U32(x) => (2, *x as u64),
        OperandValue::I8(x) => (3, *x as u8 as u64),
        OperandValue::I32(x) => (4, *x as u32 as u64),
        OperandValue::F64(x) => (5, x.to_bits()),
    }
}

/// Document 01's record of 20 words.
pub fn words_of(i: &Instruction) -> [u64; 20] {
    let mut w = [0; 20];
    w[0] = i.offset as u64;
    w[1] = i.opcode as u64;
    w[2] = i.length as u64;
    w[3] = i.operands.len() as u64;
    for (k, o) in i.operands.iter().enumerate() {
        (w[4 + 2 * k], w[5 + 2 * k]) = bits_of(&o.value);
    }
    w
}

/// Decodes the file's only function: the records' words, or the refusal with its place.
pub fn decode(f: &mut BytecodeFile, format: &BytecodeFormat, body: &[u8]) -> Result<Vec<u64>, Answer> {
    set_body(f, body);
    match f.decode_function_instructions(format, 0) {
        Ok(list) => Ok(list.iter().flat_map(words_of).collect()),
        Err(e) => Err(refusal(decode_number(&e), fault_place(f, format, body), 0)),
    }
}

/// A body cut between its instructions, or between all bytes where the Rust does not decode it.
pub fn pieces(format: &BytecodeFormat, body: &[u8]) -> Vec<Vec<u8>> {
    let of_list = |list: Vec<Instruction>| list.iter().map(|i| body[i.offset as usize..][..i.length as usize].to_vec()).collect();
    let decoded = file_of(body).decode_function_instructions(format, 0);
    decoded.map_or_else(|_| body.iter().map(|b| vec![*b]).collect(), of_list)
}

/// The Rust does not tell where it stopped, but it takes exactly the fronts of a body that end between instructions: the
/// longest of them ends where the fault is. An instruction has at most 65 bytes, so the search steps from start to start.
fn fault_place(f: &mut BytecodeFile, format: &BytecodeFormat, body: &[u8]) -> usize {
    let mut at = 0;
    loop {
        let most = (body.len() - at).min(65);
        let step = (1..=most).find(|n| {
            set_body(f, &body[at..at + n]);
            f.decode_function_instructions(format, 0).is_ok()
        });
        match step {
            Some(n) => at += n,
            None => return at,
        }
    }
}

fn value_of(kind: u64, bits: u64) -> OperandValue {
    match kind {
        0 => OperandValue::U8(bits as u8),
        1 => OperandValue::U16(bits as u16),
        2 => OperandValue::U32(bits as u32),
        3 => OperandValue::I8(bits as u8 as i8),
        4 => OperandValue::I32(bits as u32 as i32),
        _ => OperandValue::F64(f64::from_bits(bits)),
    }
}

/// Records whose shape document 01 allows, as the Rust's instructions. The type that goes with a value is not looked at.
pub fn instructions_of(words: &[u64]) -> Vec<Instruction> {
    words
        .chunks(20)
        .map(|w| Instruction {
            offset: w[0] as u32,
            opcode: w[1] as u8,
            length: w[2] as u32,
            operands: (0..w[3] as usize)
                .map(|k| Operand { ty: OperandType::Reg8, value: value_of(w[4 + 2 * k], w[5 + 2 * k]) })
                .collect(),
        })
        .collect()
}

/// The first operand that the Rust does not take: that with which the front of the operands is refused.
fn misfit(format: &BytecodeFormat, i: &Instruction) -> usize {
    let def = &format.definitions[i.opcode as usize];
    for n in 1..=i.operands.len() {
        let mut front = def.clone();
        front.operand_types.truncate(n);
        front.opcode = 0;
        let one = BytecodeFormat { version: 1, definitions: vec![front], abstract_definitions: Vec::new() };
        let mut part = i.clone();
        part.opcode = 0;
        part.operands.truncate(n);
        if encode_instruction(&one, &part).is_err() {
            return n;
        }
    }
    0
}

/// Encodes records: the bytes, or the refusal with its record and operand.
pub fn encode(sheet: &Sheet, words: &[u64]) -> Result<Vec<u8>, Answer> {
    let list = instructions_of(words);
    let Err(whole) = encode_function_body(&sheet.format, &list) else {
        return Ok(encode_function_body(&sheet.format, &list).unwrap());
    };
    let at = list.iter().position(|i| encode_instruction(&sheet.format, i).is_err()).unwrap();
    let m = message(&whole);
    Err(if m.starts_with("unknown opcode") {
        refusal(13, at, 0)
    } else if m.starts_with("opcode ") {
        refusal(5, at, 0)
    } else {
        refusal(15, at, misfit(&sheet.format, &list[at]))
    })
}
