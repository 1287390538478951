// The Rust's listings and bodies as jobs with what the program prints for them, for the replay.

use crate::asked::Asked;
use crate::asm_texts;
use crate::assemble::{self, Table};
use crate::desk::Answer;
use crate::listing::{self, Spare, DEFAULT};
use crate::random::Random;
use crate::rust;
use crate::sheets::{self, Sheet};
use crate::tally::hex;

/// A job and what is printed for it.
pub type Case = (Vec<u8>, String);

/// The lines of a job in front of its last.
fn job(word: &str, sheet: &Sheet, strings: &[String]) -> Vec<u8> {
    let mut job = format!("job={word}\n").into_bytes();
    job.extend_from_slice(&sheet.text);
    job.extend(format!("strings={}\n", strings.len()).bytes());
    for s in strings {
        job.extend(format!("s={}\n", hex(s.as_bytes())).bytes());
    }
    job
}

fn refused(a: &Answer) -> String {
    format!("refused={} place={} operand={}\n", a.number, a.place, a.operand)
}

/// What the program prints: it lends 65,536 bytes and 4,096 label entries.
fn listed(sheet: &Sheet, strings: &[String], body: &[u8]) -> String {
    let mut f = rust::file_of(&[]);
    rust::set_strings(&mut f, strings);
    let run = listing::expected(&mut f, sheet, body, DEFAULT, Spare { bytes: 0, entries: 0 });
    if run.answer.number != 0 {
        return refused(&run.answer);
    }
    if run.out.len() > 65536 || run.entries.len() > 4096 {
        return refused(&rust::refusal(19, 0, 0));
    }
    String::from_utf8(run.out).unwrap()
}

fn list_job(r: &mut Random, sheet: &Sheet) -> Case {
    let strings = listing::strings(r);
    let most = r.below(80);
    let mut body = listing::body(r, sheet, strings.len(), most);
    if r.one_in(5) && !sheet.has_doubles() {
        crate::decode::damage(r, &mut body);
    }
    let mut job = job("list", sheet, &strings);
    job.extend(format!("body={}\n", hex(&body)).bytes());
    (job, listed(sheet, &strings, &body))
}

/// None where the Rust cannot be asked, or does not tell the operand.
fn assemble_job(r: &mut Random, sheet: &Sheet) -> Option<Case> {
    let table = Table::new(asm_texts::strings(r));
    let text = assemble::random_text(r, sheet, &table, &mut rust::file_of(&[]));
    let e = assemble::expected(&Asked::new(sheet), &table, &text, assemble::EXACT)?;
    let printed = match e.run.answer.number {
        0 => format!("body={}\n", hex(&e.run.out)),
        _ => refused(&e.run.answer),
    };
    let mut job = job("assemble", sheet, &table.strings);
    job.extend(b"text=\n");
    job.extend(text);
    e.whole.then_some((job, printed))
}

/// As many jobs as asked for, two that list to one that assembles.
pub fn cases(count: usize) -> Vec<Case> {
    let mut r = Random::new(5);
    let sheets = sheets::for_run(&mut r);
    let mut all = Vec::new();
    while all.len() < count {
        let sheet = r.pick(&sheets);
        let case = if all.len() % 3 == 2 { assemble_job(&mut r, sheet) } else { Some(list_job(&mut r, sheet)) };
        all.extend(case.filter(|(job, text)| job.len() + text.len() <= 3000));
    }
    all
}
