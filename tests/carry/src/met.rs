// What generated carries have met beside the refusals, to show that they come near the edges.

use crate::generate::Case;
use crate::model::{decode, distance, read_sheet, Family, Input, Instruction, Run};

/// Names of what is counted among accepted carries.
pub const NAMES: [&str; 7] = [
    "with instructions",
    "with an Addr",
    "with 127 in Addr8",
    "with -128 in Addr8",
    "with another id",
    "with a longer result",
    "with a shorter result",
];
pub type Counts = [u64; NAMES.len()];

/// The bits of all operands of a family in a body, with their widths.
fn bits_of(sheet: &[u8], body: &[u8], family: Family) -> Vec<(usize, u64)> {
    let Ok(sheet) = read_sheet(sheet) else { return Vec::new() };
    let instructions = decode(&sheet, body).unwrap_or_default();
    let of = |i: &Instruction| {
        let pairs = sheet.types(i.opcode).iter().zip(i.operands.clone());
        pairs.filter(|(t, _)| t.family == family).map(|(t, bits)| (t.width, bits)).collect::<Vec<_>>()
    };
    instructions.iter().flat_map(of).collect()
}

fn accepted(input: &Input, result: &[u8], counts: &mut Counts) {
    let jumps = bits_of(&input.second.sheet, result, Family::Addr);
    let narrow = |n: i64| jumps.iter().any(|(width, bits)| *width == 1 && distance(1, *bits) == n);
    let ids = |sheet: &[u8], body: &[u8]| -> Vec<u64> {
        bits_of(sheet, body, Family::String).into_iter().map(|(_, bits)| bits).collect()
    };
    let other_ids = ids(&input.first.sheet, &input.body) != ids(&input.second.sheet, result);
    let met = [
        !result.is_empty(),
        !jumps.is_empty(),
        narrow(127),
        narrow(-128),
        other_ids,
        result.len() > input.body.len(),
        result.len() < input.body.len(),
    ];
    for (count, met) in counts.iter_mut().zip(met) {
        *count += met as u64;
    }
}

/// Counts what a case has met.
pub fn count(case: &Case, run: &Run, counts: &mut Counts) {
    if run.answer.number == 0 {
        accepted(&case.input, &run.out[..run.answer.length as usize], counts);
    }
}
