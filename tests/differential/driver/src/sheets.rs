// Opcode sheets of many shapes, each as the desk's text and as the Rust's format.

use crate::random::Random;
use hbc_decomp::opcode::BytecodeFormat;

pub const TYPES: [(&str, usize); 12] = [
    ("Reg8", 1),
    ("Reg32", 4),
    ("UInt8", 1),
    ("UInt16", 2),
    ("UInt32", 4),
    ("UInt8S", 1),
    ("UInt16S", 2),
    ("UInt32S", 4),
    ("Addr8", 1),
    ("Addr32", 4),
    ("Imm32", 4),
    ("Double", 8),
];
pub const DOUBLE: usize = 11;

#[derive(Clone)]
pub struct Op {
    pub code: u8,
    pub name: String,
    pub jump: bool,
    pub types: Vec<usize>,
}

/// A sheet for both sides.
#[derive(Clone)]
pub struct Sheet {
    pub ops: Vec<Op>,
    pub text: Vec<u8>,
    pub json: String,
    pub format: BytecodeFormat,
}

impl Sheet {
    pub fn has_doubles(&self) -> bool {
        self.ops.iter().any(|o| o.types.contains(&DOUBLE))
    }

    pub fn new(ops: Vec<Op>) -> Self {
        let mut text = format!("version=1\ncount={}\n", ops.len());
        let mut json = "{\"Version\":1,\"Definitions\":[".to_string();
        for (i, op) in ops.iter().enumerate() {
            let names: Vec<&str> = op.types.iter().map(|t| TYPES[*t].0).collect();
            let list = if names.is_empty() { "-".to_string() } else { names.join(",") };
            text += &format!("op={} name={} jump={} types={list}\n", op.code, op.name, op.jump as u8);
            let quoted: Vec<String> = names.iter().map(|n| format!("\"{n}\"")).collect();
            let comma = if i == 0 { "" } else { "," };
            json += &format!(
                "{comma}{{\"Opcode\":{},\"Name\":\"{}\",\"OperandTypes\":[{}],\"IsJump\":{}}}",
                op.code,
                op.name,
                quoted.join(","),
                op.jump
            );
        }
        json += "]}";
        let format = BytecodeFormat::from_json_str(&json).expect("a sheet that the Rust takes");
        Sheet { ops, text: text.into_bytes(), json, format }
    }

    /// The bytes of an instruction with random operands.
    pub fn instruction(&self, r: &mut Random) -> Vec<u8> {
        let op = r.pick(&self.ops).clone();
        let mut bytes = vec![op.code];
        for t in &op.types {
            let n = r.edge(TYPES[*t].1);
            bytes.extend_from_slice(&n.to_le_bytes()[..TYPES[*t].1]);
        }
        bytes
    }

    /// Whole instructions up to about a length; never more than it.
    pub fn body(&self, r: &mut Random, most: usize) -> Vec<u8> {
        let mut body = Vec::new();
        loop {
            let next = self.instruction(r);
            if most < body.len() + next.len() {
                return body;
            }
            body.extend(next);
        }
    }
}

fn op(code: u8, name: &str, jump: bool, types: &[usize]) -> Op {
    Op { code, name: name.to_string(), jump, types: types.to_vec() }
}

/// Document 01's sheet.
pub fn of_document() -> Sheet {
    Sheet::new(vec![
        op(0, "LoadByte", false, &[0, 2]),
        op(1, "Jmp", true, &[8]),
        op(2, "LoadText", false, &[0, 6]),
        op(4, "Ret", false, &[0]),
    ])
}

/// The shapes that every run has: gaps, one opcode, each type alone, eight operands, names of hex digits, 256 opcodes.
pub fn fixed() -> Vec<Sheet> {
    let mut all = vec![of_document()];
    all.push(Sheet::new(vec![op(0, "Nop", false, &[])]));
    all.push(Sheet::new(vec![op(255, "Last", true, &[9])]));
    all.push(Sheet::new(vec![op(7, "Wide", false, &[11; 8])]));
    for t in 0..12 {
        all.push(Sheet::new(vec![op(0, "One", t == 8 || t == 9, &[t])]));
    }
    all.push(Sheet::new(vec![
        op(0, "Add", false, &[0, 0, 0]),
        op(3, "Dec", false, &[0, 0]),
        op(9, "Bad", true, &[8, 9]),
        op(200, "FACE", false, &[10]),
    ]));
    all.push(Sheet::new(vec![
        op(1, "JmpLong", true, &[9]),
        op(2, "Throw", false, &[0]),
        op(3, "Ret", false, &[1]),
        op(6, "JmpTrue", true, &[8, 0]),
        op(250, "Switch", true, &[1, 4, 9, 3, 3]),
    ]));
    all
}

fn name_of(r: &mut Random, code: usize) -> String {
    let front = *r.pick(&["Op", "LoadConst", "A", "B0", "CAFE", "Call", "Get_By_Id", "X"]);
    format!("{front}{code}")
}

/// A sheet of `count` opcodes below `above`.
pub fn random(r: &mut Random, count: usize, above: usize, most_operands: usize) -> Sheet {
    let mut codes: Vec<usize> = (0..above).collect();
    while count < codes.len() {
        let at = r.below(codes.len());
        codes.remove(at);
    }
    let ops = codes
        .into_iter()
        .map(|code| {
            let types: Vec<usize> = (0..r.below(most_operands + 1)).map(|_| r.below(12)).collect();
            Op { code: code as u8, name: name_of(r, code), jump: r.one_in(3), types }
        })
        .collect();
    Sheet::new(ops)
}

/// The sheets of one run: the fixed ones, and random ones from small to 256 opcodes.
pub fn for_run(r: &mut Random) -> Vec<Sheet> {
    let mut all = fixed();
    for _ in 0..40 {
        let above = 1 + r.below(12);
        let count = 1 + r.below(above);
        let most = 1 + r.below(8);
        all.push(random(r, count, above, most));
    }
    all
}

/// Large sheets, which cost more to read.
pub fn large(r: &mut Random) -> Vec<Sheet> {
    vec![random(r, 256, 256, 8), random(r, 100, 256, 3), random(r, 200, 255, 5)]
}
