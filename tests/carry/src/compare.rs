// One carry by the model and by a carrier, and how a difference is told.

use crate::generate::{Case, Spare};
use crate::laws::{same_meaning, way_back};
use crate::model::{carried, run_of, Answer, Carried, Context, Input, Refusal, Run};
use crate::shrink;

/// Carries an input into lent buffers.
pub type Carrier = fn(&Input, &mut [u8], &mut [[u32; 3]]) -> Answer;

/// What lent bytes hold before a call; never zero.
pub fn filled_bytes(count: usize) -> Vec<u8> {
    (0..count).map(|i| 0xa5 ^ (i % 64) as u8).collect()
}

pub fn filled_entries(count: usize) -> Vec<[u32; 3]> {
    (0..count).map(|i| [0xa5a5_a5a5 ^ (i % 64) as u32; 3]).collect()
}

/// How much is lent: around what is needed, or around 20 bytes and 3 entries for a refusal.
fn lent(told: &Result<Carried, Refusal>, spare: Spare) -> (usize, usize) {
    let (bytes, entries) = told.as_ref().map_or((20, 3), |c| (c.bytes.len() as i64, c.instructions as i64));
    ((bytes + spare.bytes).max(0) as usize, (entries + spare.entries).max(0) as usize)
}

/// What the model says of a case.
pub fn expected(case: &Case) -> Run {
    let told = carried(&case.input);
    let (room, entries) = lent(&told, case.spare);
    run_of(told, &filled_bytes(room), entries)
}

/// What a carrier does with as much lent space.
pub fn carrier_run(carrier: Carrier, input: &Input, room: usize, entries: usize) -> Run {
    let (mut out, mut labels) = (filled_bytes(room), filled_entries(entries));
    let answer = carrier(input, &mut out, &mut labels);
    Run { answer, out, labels }
}

/// The model in a carrier's place.
pub fn model_carrier(input: &Input, out: &mut [u8], labels: &mut [[u32; 3]]) -> Answer {
    let run = run_of(carried(input), out, labels.len());
    out.copy_from_slice(&run.out);
    labels.copy_from_slice(&run.labels);
    run.answer
}

/// What is wrong with a carrier's run: not the model's, or a result that means something else.
pub fn fault(case: &Case, want: &Run, got: &Run) -> Option<String> {
    if got != want {
        return Some("not the model's answer or buffers".to_string());
    }
    let result = &got.out[..got.answer.length as usize];
    if got.answer.number > 0 {
        return None;
    }
    same_meaning(&case.input, result).and_then(|()| way_back(&case.input, result)).err()
}

/// A carrier's fault on a case.
pub fn difference(carrier: Carrier, case: &Case) -> Option<String> {
    let want = expected(case);
    let got = carrier_run(carrier, &case.input, want.out.len(), want.labels.len());
    fault(case, &want, &got)
}

// Telling.

pub fn hex(bytes: &[u8]) -> String {
    bytes.iter().map(|b| format!("{b:02X}")).collect()
}

/// The front of what is told, as an input at a limit is long.
fn short(s: String) -> String {
    if s.len() < 3000 { s } else { format!("{} .. ({} in all)", s.chars().take(300).collect::<String>(), s.len()) }
}

fn show_context(name: &str, c: &Context) -> String {
    let sheet = short(c.sheet.escape_ascii().to_string().replace("\\n", "\n"));
    format!("{name}\n{sheet}bytes={}\nends={}\n", short(c.bytes.escape_ascii().to_string()), short(format!("{:?}", c.ends)))
}

fn show_run(run: &Run) -> String {
    let a = run.answer;
    let numbers = format!("number={} place={} operand={} length={}", a.number, a.place, a.operand, a.length);
    let touched = run.labels.iter().filter(|l| **l != [0; 3]).count();
    format!("{numbers} out={} label entries not zero: {touched}", short(hex(&run.out)))
}

/// A case with both runs.
pub fn show(case: &Case, want: &Run, got: &Run, fault: &str) -> String {
    format!(
        "{}{}body={}\nlent: {} bytes, {} entries ({:?})\n  model: {}\n  desk:  {}\n  {fault}",
        show_context("first sheet", &case.input.first),
        show_context("second sheet", &case.input.second),
        short(hex(&case.input.body)),
        want.out.len(),
        want.labels.len(),
        case.spare,
        show_run(want),
        show_run(got),
    )
}

/// A smaller case that still has a fault, with both runs.
pub fn tell(carrier: Carrier, case: &Case) -> String {
    let small = shrink::smaller(case, |c| difference(carrier, c).is_some());
    let want = expected(&small);
    let got = carrier_run(carrier, &small.input, want.out.len(), want.labels.len());
    let fault = fault(&small, &want, &got).unwrap_or_else(|| "the difference comes and goes".to_string());
    show(&small, &want, &got, &fault)
}
