// Carriers that are wrong in one respect. Each has to differ from the model on generated carries, or those show nothing.

use crate::compare::Carrier;
use crate::model::*;
use std::ops::RangeInclusive;

type Told = Result<Carried, Refusal>;

fn lend(told: Told, out: &mut [u8], labels: &mut [[u32; 3]]) -> Answer {
    let run = run_of(told, out, labels.len());
    out.copy_from_slice(&run.out);
    labels.copy_from_slice(&run.labels);
    run.answer
}

fn written(plan: &[Planned]) -> Told {
    within_limit(second_pass(plan)?, plan.len())
}

/// Distances stay as they were.
fn distance_kept(input: &Input) -> Told {
    let opened = open(input)?;
    let mut plan = first_pass(&opened)?;
    for (planned, old) in plan.iter_mut().zip(&opened.instructions) {
        for (k, t) in opened.first.types(old.opcode).iter().enumerate() {
            if t.family == Family::Addr {
                planned.operands[k].1 = Held::Bits(distance(t.width, old.operands[k]) as u64);
            }
        }
    }
    written(&plan)
}

/// Distances count from the operand's own place.
fn distance_from_operand(input: &Input) -> Told {
    let plan = first_pass(&open(input)?)?;
    let mut c = written(&plan)?;
    let offsets = new_offsets(plan.iter().map(Planned::length));
    for (index, planned) in plan.iter().enumerate() {
        let mut at = 1;
        for (t, held) in &planned.operands {
            if let Held::Target(to) = held {
                let place = offsets[index] + at;
                let bits = (offsets[*to] as i64 - place as i64) as u64;
                c.bytes[place..place + t.width].copy_from_slice(&bits.to_le_bytes()[..t.width]);
            }
            at += t.width;
        }
    }
    Ok(c)
}

/// Texts get their last id.
fn last_id(input: &Input) -> Told {
    let mut opened = open(input)?;
    for id in 0..input.second.ends.len() as u64 {
        opened.ids.insert(string_at(&input.second, id).unwrap(), id);
    }
    written(&first_pass(&opened)?)
}

/// Ids stay as they were.
fn id_kept(input: &Input) -> Told {
    let opened = open(input)?;
    let mut plan = first_pass(&opened)?;
    for (planned, old) in plan.iter_mut().zip(&opened.instructions) {
        for (operand, bits) in planned.operands.iter_mut().zip(&old.operands) {
            if operand.0.family == Family::String {
                operand.1 = Held::Bits(*bits);
            }
        }
    }
    written(&plan)
}

/// The length that an instruction will have, whether or not it can be carried.
fn later_length(opened: &Opened, old: &Instruction) -> usize {
    let name = opened.first.opcodes[old.opcode as usize].as_ref().map_or("", |o| &o.name);
    let types = opened.codes.get(name).map_or(&[][..], |code| opened.second.types(*code));
    1 + types.iter().map(|t| t.width).sum::<usize>()
}

/// 8 is tested in the first pass.
fn eight_in_first_pass(input: &Input) -> Told {
    let opened = open(input)?;
    let offsets = new_offsets(opened.instructions.iter().map(|i| later_length(&opened, i)));
    let mut plan = Vec::new();
    for index in 0..opened.instructions.len() {
        let planned = carried_instruction(&opened, index)?;
        for (k, (t, held)) in planned.operands.iter().enumerate() {
            match held {
                Held::Target(to) if !reaches(offsets[*to] as i64 - offsets[index] as i64, t.width) => {
                    return Err(refusal(8, index, k + 1));
                }
                _ => {}
            }
        }
        plan.push(planned);
    }
    written(&plan)
}

/// 4 and 5 are tested over all instructions before any operand, as assembling does.
fn names_first(input: &Input) -> Told {
    let opened = open(input)?;
    let faults = (0..opened.instructions.len()).filter_map(|i| carried_instruction(&opened, i).err());
    match faults.into_iter().find(|r| r.number == 4 || r.number == 5) {
        Some(r) => Err(r),
        None => written(&first_pass(&opened)?),
    }
}

/// Instructions are counted from 1.
fn place_off_by_one(input: &Input) -> Told {
    let moved = |r: Refusal| if matches!(r.number, 4..=12 | 16) { Refusal { place: r.place + 1, ..r } } else { r };
    carried(input).map_err(moved)
}

/// The place of 4 to 12 and 16 is the instruction's offset.
fn place_is_offset(input: &Input) -> Told {
    let offset = |at: u64| open(input).map_or(0, |o| o.instructions[at as usize].offset as u64);
    carried(input).map_err(|r| if matches!(r.number, 4..=12 | 16) { Refusal { place: offset(r.place), ..r } } else { r })
}

/// A target at the body's length is refused.
fn end_refused(input: &Input) -> Told {
    let opened = open(input)?;
    let mut plan = Vec::new();
    for index in 0..opened.instructions.len() {
        let planned = carried_instruction(&opened, index)?;
        let end = |held: &Held| matches!(held, Held::Target(to) if *to == opened.instructions.len());
        if let Some(k) = planned.operands.iter().position(|(_, held)| end(held)) {
            return Err(refusal(7, index, k + 1));
        }
        plan.push(planned);
    }
    written(&plan)
}

/// Addr8 has other bounds; a distance within them keeps its low byte.
fn other_bounds(input: &Input, bounds: RangeInclusive<i64>) -> Told {
    let mut plan = first_pass(&open(input)?)?;
    let offsets = new_offsets(plan.iter().map(Planned::length));
    for (index, planned) in plan.iter_mut().enumerate() {
        for (k, (t, held)) in planned.operands.iter_mut().enumerate() {
            if let Held::Target(to) = *held {
                let distance = offsets[to] as i64 - offsets[index] as i64;
                if t.width == 1 && !bounds.contains(&distance) {
                    return Err(refusal(8, index, k + 1));
                }
                *held = Held::Bits(distance as u64);
            }
        }
    }
    written(&plan)
}

/// The sheets are read before the tables.
fn one_before_seventeen(input: &Input) -> Told {
    match carried(input) {
        Err(r) if r.number == 17 => {
            read_sheet(&input.first.sheet)?;
            read_sheet(&input.second.sheet)?;
            Err(r)
        }
        other => other,
    }
}

/// The bytes are copied.
fn copied(input: &Input) -> Told {
    Ok(Carried { bytes: input.body.clone(), instructions: carried(input)?.instructions })
}

/// Space is asked for as the body has it.
fn space_of_body(input: &Input, out: &mut [u8], labels: &mut [[u32; 3]]) -> Answer {
    let told = carried(input).and_then(|c| if out.len() < input.body.len() { Err(refusal(19, 0, 0)) } else { Ok(c) });
    lend(told, out, labels)
}

/// No label entries are needed.
fn no_entries(input: &Input, out: &mut [u8], labels: &mut [[u32; 3]]) -> Answer {
    lend(carried(input).map(|c| Carried { instructions: 0, ..c }), out, labels)
}

/// The result's front stays in the lent bytes after 19.
fn front_left(input: &Input, out: &mut [u8], labels: &mut [[u32; 3]]) -> Answer {
    let answer = lend(carried(input), out, labels);
    if let (19, Ok(c)) = (answer.number, carried(input)) {
        let length = c.bytes.len().min(out.len());
        out[..length].copy_from_slice(&c.bytes[..length]);
    }
    answer
}

/// Bytes behind the result are cleared.
fn rest_cleared(input: &Input, out: &mut [u8], labels: &mut [[u32; 3]]) -> Answer {
    let answer = lend(carried(input), out, labels);
    out[answer.length as usize..].fill(0);
    answer
}

macro_rules! carrier {
    ($told:expr) => {
        |input, out, labels| lend($told(input), out, labels)
    };
}

pub fn all() -> Vec<(&'static str, Carrier)> {
    vec![
        ("distance kept", carrier!(distance_kept)),
        ("distance from the operand", carrier!(distance_from_operand)),
        ("last id", carrier!(last_id)),
        ("id kept", carrier!(id_kept)),
        ("8 in the first pass", carrier!(eight_in_first_pass)),
        ("8 missing", carrier!(|i| other_bounds(i, i64::MIN..=i64::MAX))),
        ("127 refused", carrier!(|i| other_bounds(i, -128..=126))),
        ("128 taken", carrier!(|i| other_bounds(i, -128..=128))),
        ("-128 refused", carrier!(|i| other_bounds(i, -127..=127))),
        ("-129 taken", carrier!(|i| other_bounds(i, -129..=127))),
        ("4 and 5 over all first", carrier!(names_first)),
        ("place off by one", carrier!(place_off_by_one)),
        ("place an offset", carrier!(place_is_offset)),
        ("jump to the end refused", carrier!(end_refused)),
        ("1 before 17", carrier!(one_before_seventeen)),
        ("bytes copied", carrier!(copied)),
        ("space of the old body", space_of_body),
        ("no label entries", no_entries),
        ("front left after 19", front_left),
        ("rest cleared", rest_cleared),
    ]
}
