// disassemble_all, and disassemble_function of one function among several.

use crate::areas::Area;
use crate::desk::{self, Answer, Shown};
use crate::listing::{self, around, entries_of, long_line, Run, Spare, ENTRY};
use crate::random::Random;
use crate::rust;
use crate::sheets::Sheet;
use crate::tally::{lines, show, Tally, BYTE};
use crate::texts::table_of;
use hbc_decomp::disasm::{disassemble_all, disassemble_function};
use hbc_decomp::file::BytecodeFile;

fn random(r: &mut Random, sheet: &Sheet, strings: usize) -> Area {
    let base = *r.pick(&[0u32, 1, 100, 0xffff_0000]);
    let mut a = Area::random(r, base, |r| {
        let body = listing::body(r, sheet, strings, 30);
        (body, if r.one_in(4) { u32::MAX } else { r.below(strings + 1) as u32 })
    });
    // A double that another offset makes of other bytes is outside demand 2's domain.
    if r.one_in(5) && !sheet.has_doubles() {
        a.damage(r);
    }
    a.leave_rest(r);
    a
}

/// Whether a function's body may be listed behind an indent, and how many label entries it needs.
fn told(scratch: &mut BytecodeFile, sheet: &Sheet, a: &Area, id: usize, shown: Shown, indent: usize) -> Result<(String, usize), Answer> {
    let body = a.body_of(id)?;
    rust::decode(scratch, &sheet.format, &body)?;
    rust::set_body(scratch, &body);
    let text = disassemble_function(scratch, &sheet.format, 0, &listing::options(shown)).unwrap();
    match long_line(scratch, sheet, &text, indent) {
        Some(at) => Err(rust::refusal(3, at, 0)),
        None => Ok((text, entries_of(scratch, sheet, 0, shown))),
    }
}

/// Whether every function of a module may be listed, in document 01's order, and the most label entries that one needs.
fn told_all(scratch: &mut BytecodeFile, sheet: &Sheet, strings: &[String], a: &Area, shown: Shown) -> Result<usize, Answer> {
    let mut most = 0;
    for id in 0..a.functions.len() / 3 {
        a.body_of(id)?;
        let name = strings.get(a.functions[3 * id + 2] as usize).map_or("", |s| s.as_str());
        let banner = if name.is_empty() {
            format!("function {id}:")
        } else {
            format!("function {id} ({}):", hbc_decomp::util::escape_js_string(name))
        };
        if banner.len() > 4096 {
            return Err(rust::refusal(3, id, 0));
        }
        most = most.max(told(scratch, sheet, a, id, shown, 2)?.1);
    }
    Ok(most)
}

/// What is asked: one function or the whole module, with which options, and how much is lent beyond what it needs.
#[derive(Clone, Copy)]
struct Question {
    one: Option<usize>,
    shown: Shown,
    spare: Spare,
}

fn expected(sheet: &Sheet, strings: &[String], a: &Area, q: Question) -> Run {
    let (mut scratch, mut f) = (rust::file_of(&[]), rust::file_of(&[]));
    rust::set_strings(&mut scratch, strings);
    rust::set_strings(&mut f, strings);
    a.put_in(&mut f);
    let options = listing::options(q.shown);
    if let Some(id) = q.one {
        let of = told(&mut scratch, sheet, a, id, q.shown, 0).map(|(text, needed)| {
            assert_eq!(text, disassemble_function(&f, &sheet.format, id as u32, &options).unwrap());
            (text, needed)
        });
        let needed = of.as_ref().map_or(0, |x| x.1);
        return around(of.map(|x| x.0), needed, q.spare);
    }
    let most = told_all(&mut scratch, sheet, strings, a, q.shown);
    let needed = *most.as_ref().unwrap_or(&0);
    around(most.map(|_| disassemble_all(&f, &sheet.format, &options).unwrap()), needed, q.spare)
}

fn desk_run(sheet: &Sheet, strings: &[String], a: &Area, q: Question, e: &Run) -> Run {
    let (bytes, ends) = table_of(strings);
    let (mut out, mut entries) = (vec![BYTE; e.out.len()], vec![ENTRY; e.entries.len()]);
    let answer = match q.one {
        Some(id) => desk::list_function(&sheet.text, &bytes, &ends, a, id, q.shown, &mut out, &mut entries),
        None => desk::list_module(&sheet.text, &bytes, &ends, a, q.shown, &mut out, &mut entries),
    };
    Run { answer, out, entries }
}

/// Both answers, where they differ.
fn compare(sheet: &Sheet, strings: &[String], a: &Area, q: Question) -> Option<(Run, Run)> {
    let e = expected(sheet, strings, a, q);
    let d = desk_run(sheet, strings, a, q, &e);
    (d.answer != e.answer || d.out != e.out || d.entries != e.entries).then_some((e, d))
}

fn tell(sheet: &Sheet, strings: &[String], a: &Area, q: Question) -> String {
    let small = a.smallest(sheet, |a| compare(sheet, strings, a, q).is_some());
    let (e, d) = compare(sheet, strings, &small, q).unwrap();
    let shown = |r: &Run| format!("{}\n{}", show(&r.answer), lines(&r.out));
    let of = q.one.map_or("the module".to_string(), |id| format!("function {id}"));
    format!(
        "{}strings={strings:?}\n{} of {of} {:?} {:?}\n  rust: {}\n  desk: {}",
        String::from_utf8_lossy(&sheet.text),
        small.show(),
        q.shown,
        q.spare,
        shown(&e),
        shown(&d)
    )
}

pub fn run(r: &mut Random, count: u64, sheets: &[Sheet]) -> (u64, u64) {
    let mut t = Tally::new("list_function, list_module");
    for n in 0..count {
        let sheet = r.pick(sheets);
        let strings = listing::strings(r);
        let a = random(r, sheet, strings.len());
        let shown = listing::shown(r);
        let spare = Spare { bytes: *r.pick(&[0, 0, 3, 40, -1]), entries: *r.pick(&[0, 0, 2, -1]) };
        let id = r.below(4);
        let q = Question { one: (n % 2 == 0).then_some(id), shown, spare };
        t.count(compare(sheet, &strings, &a, q).is_none(), || tell(sheet, &strings, &a, q));
    }
    t.end()
}
