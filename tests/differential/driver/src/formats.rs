// Formats as JSON, in every form that serde takes, and with what it or a sheet cannot take.

use crate::random::Random;
use crate::sheets::TYPES;

/// Whether an opcode has two definitions: the Rust takes the last of them, and the converter refuses both.
#[derive(Clone, Copy, PartialEq)]
pub enum Twice {
    No,
    Yes,
    Perhaps,
}

/// A JSON text, and what is known of it.
pub struct Text {
    pub json: String,
    pub twice: Twice,
}

/// A definition: what stands in the JSON for a number and a truth value, and the characters of the strings.
#[derive(Clone)]
struct Definition {
    code: String,
    name: String,
    types: Vec<String>,
    jump: String,
}

struct Format {
    version: String,
    definitions: Vec<Definition>,
    twice: Twice,
}

/// A name that a sheet takes and that the code makes different from the others.
fn name(r: &mut Random, code: usize) -> String {
    let letters: Vec<char> = ('A'..='Z').chain('a'..='z').chain('0'..='9').chain(['_']).collect();
    let end = format!("_{code}");
    let most = if r.one_in(4) { 48 } else { 12 };
    let rest = (2 + end.len()..=most).map(|_| *r.pick(&letters)).collect::<String>();
    format!("{}{rest}{end}", r.pick(&letters[..26]))
}

fn definition(r: &mut Random, code: usize) -> Definition {
    let types = (0..r.below(9)).map(|_| TYPES[r.below(12)].0.to_string()).collect();
    Definition { code: code.to_string(), name: name(r, code), types, jump: r.one_in(3).to_string() }
}

/// What `from_json_str` itself puts into a gap.
fn gap(code: usize) -> Definition {
    Definition { code: code.to_string(), name: "<invalid>".to_string(), types: Vec::new(), jump: "false".to_string() }
}

/// 1 to 256 opcodes with gaps between them, some of which have a definition that says so.
fn format(r: &mut Random) -> Format {
    let above = *r.pick(&[1, 3, 8, 8, 20, 60, 256]);
    let keep = 1 + r.below(4);
    let last = r.below(above);
    let mut definitions = Vec::new();
    for code in 0..last {
        if keep == 4 || r.below(4) < keep {
            definitions.push(definition(r, code));
        } else if r.one_in(4) {
            definitions.push(gap(code));
        }
    }
    definitions.push(definition(r, last));
    Format { version: (r.edge(4)).to_string(), definitions, twice: Twice::No }
}

/// Something that no sheet has, or that the Rust does not read.
fn spoil(r: &mut Random, f: &mut Format) {
    let at = r.below(f.definitions.len());
    let other = f.definitions[r.below(f.definitions.len())].clone();
    let d = &mut f.definitions[at];
    match r.below(10) {
        0 => d.types = (0..9 + r.below(3)).map(|_| TYPES[r.below(12)].0.to_string()).collect(),
        1 => d.name = format!("A{}", "a".repeat(48 + r.below(3))),
        2 => d.name = r.pick(&["", "a", "_A", "0A", "A b", "A-", "A\n", "É", "Function", "FunctionA", "<invalid>"]).to_string(),
        3 => d.code = r.pick(&["256", "-1", "-0", "1.0", "1e0", "\"1\"", "null", "true", "18446744073709551616"]).to_string(),
        4 => d.types.push(r.pick(&["reg8", "Reg16", "", "UInt8s", "Double "]).to_string()),
        5 => d.jump = r.pick(&["0", "1", "null", "\"true\"", "TRUE", "{}"]).to_string(),
        6 => f.version = r.pick(&["4294967296", "-1", "1.5", "null", "\"1\"", "01", "+1"]).to_string(),
        7 => f.definitions.clear(),
        8 => {
            let code = f.definitions.len() + 300;
            f.definitions.push(Definition { name: name(r, code), ..other });
            f.twice = Twice::Yes;
        }
        _ => {
            let largest = f.definitions.iter().filter_map(|d| d.code.parse::<usize>().ok()).max().unwrap();
            let free = (largest + 1).min(255);
            f.twice = if free == largest { Twice::Yes } else { Twice::No };
            f.definitions.push(Definition { code: free.to_string(), ..other });
        }
    }
}

/// A string, some of its characters as escapes.
fn quoted(r: &mut Random, s: &str) -> String {
    let one = |r: &mut Random, c: char| if c < ' ' || r.one_in(30) { format!("\\u{:04x}", c as u32) } else { c.to_string() };
    format!("\"{}\"", s.chars().map(|c| one(r, c)).collect::<String>())
}

fn shuffled<T>(r: &mut Random, mut list: Vec<T>) -> Vec<T> {
    (1..list.len()).rev().for_each(|i| list.swap(i, r.below(i + 1)));
    list
}

/// A struct: as an object in any order with other fields between, or as an array of its fields.
fn structure(r: &mut Random, mut fields: Vec<(&str, String)>, space: &str) -> String {
    if r.one_in(6) {
        let values: Vec<String> = fields.into_iter().map(|f| f.1).collect();
        return format!("[{}]", values.join(&format!(",{space}")));
    }
    if r.one_in(8) {
        let other = *r.pick(&["null", "[{}]", "{\"Opcode\":[1e999]}", "\"\\ud800\"", "-0.5E+3"]);
        let name = *r.pick(&["opcode", "Since", "isJump", ""]);
        fields.push((name, other.to_string()));
    }
    let list: Vec<String> = shuffled(r, fields).into_iter().map(|(n, v)| format!("\"{n}\":{space}{v}")).collect();
    format!("{{{space}{}{space}}}", list.join(&format!(",{space}")))
}

fn definition_json(r: &mut Random, d: &Definition, space: &str) -> String {
    let one = |r: &mut Random, t: &String| {
        let q = quoted(r, t);
        if r.one_in(20) { format!("{{{q}:null}}") } else { q }
    };
    let types: Vec<String> = d.types.iter().map(|t| one(r, t)).collect();
    let mut fields = vec![
        ("Opcode", d.code.clone()),
        ("Name", quoted(r, &d.name)),
        ("OperandTypes", format!("[{}]", types.join(","))),
        ("IsJump", d.jump.clone()),
    ];
    if r.one_in(2) {
        fields.push(("AbstractDefinition", r.pick(&["null", "0", "18446744073709551615"]).to_string()));
    }
    structure(r, fields, space)
}

fn json(r: &mut Random, f: &Format) -> String {
    let space = *r.pick(&["", "", " ", "\n\t", "\r\n"]);
    let order = if r.one_in(3) { shuffled(r, f.definitions.clone()) } else { f.definitions.clone() };
    let list: Vec<String> = order.iter().map(|d| definition_json(r, d, space)).collect();
    let mut fields = vec![("Version", f.version.clone()), ("Definitions", format!("[{}]", list.join(",")))];
    if r.one_in(2) {
        fields.push(("AbstractDefinitions", r.pick(&["[]", "[{\"Name\":\"Call\",\"VariantOpcodes\":[0,255]}]"]).to_string()));
    }
    structure(r, fields, space)
}

/// Puts a field that the Rust refuses in front of another.
fn put_field(r: &mut Random, json: &str) -> String {
    let before = *r.pick(&["\"IsJump\":", "\"Definitions\":"]);
    let fields = ["IsJump\":true", "Definitions\":[]", "\\ud800\":0", "AbstractDefinition\":-1", "AbstractDefinitions\":null"];
    json.replacen(before, &format!("\"{},{before}", r.pick(&fields)), 1)
}

/// Damages a text: cut, a character changed, taken out or put in, or a field too many.
fn damage(r: &mut Random, json: &str) -> String {
    if r.one_in(4) {
        return put_field(r, json);
    }
    let mut all: Vec<char> = json.chars().collect();
    let at = r.below(all.len());
    let others: Vec<char> = "{}[]\",:019-.eAnS \\\n\u{1}é".chars().collect();
    let other = *r.pick(&others);
    match r.below(8) {
        0 => all.truncate(at),
        1 | 2 => all[at] = other,
        3 | 4 => all.insert(at, other),
        _ => drop(all.remove(at)),
    }
    all.into_iter().collect()
}

/// A text: half of them good ones.
pub fn random(r: &mut Random) -> Text {
    let mut f = format(r);
    let way = r.below(4);
    if way == 0 {
        spoil(r, &mut f);
    }
    let whole = json(r, &f);
    if way == 1 {
        return Text { json: damage(r, &whole), twice: Twice::Perhaps };
    }
    Text { json: whole, twice: f.twice }
}
