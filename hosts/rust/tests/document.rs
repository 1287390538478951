//! Document 01's jobs, trials and refusals through the wrapper.

use desk::{Area, Edition, Record, Refusal, Show, Strings};

const SHEET: &[u8] = b"version=1
count=4
op=0 name=LoadByte jump=0 types=Reg8,UInt8
op=1 name=Jmp jump=1 types=Addr8
op=2 name=LoadText jump=0 types=Reg8,UInt16S
op=4 name=Ret jump=0 types=Reg8
";
const BODY: [u8; 11] = [0x00, 0x01, 0x07, 0x01, 0x06, 0x02, 0x01, 0x00, 0x00, 0x04, 0x01];
const LISTING: &str = include_str!("../../../examples/list.out");

fn strings() -> Strings {
    Strings::new(&["a,b", "é"])
}

fn list(body: &[u8]) -> Result<Vec<u8>, Refusal> {
    desk::list_body(Edition { sheet: SHEET, strings: &strings() }, body, Show::ALL)
}

fn assemble(text: &str) -> Result<Vec<u8>, Refusal> {
    desk::assemble(Edition { sheet: SHEET, strings: &strings() }, text.as_bytes())
}

fn refusal<T>(number: u64, place: u64, operand: u64) -> Result<T, Refusal> {
    Err(Refusal { number, place, operand })
}

#[test]
fn the_job_is_listed_and_assembled() {
    assert_eq!(list(&BODY), Ok(LISTING.as_bytes().to_vec()));
    assert_eq!(assemble(LISTING), Ok(BODY.to_vec()));
    let plain = Show { offsets: false, labels: false, texts: false };
    let short = desk::list_body(Edition { sheet: SHEET, strings: &strings() }, &BODY, plain);
    assert_eq!(short, Ok(b"LoadByte r1, 7\nJmp L9\nLoadText r1, 0\nRet r1\n".to_vec()));
}

#[test]
fn the_job_is_carried() {
    let second = String::from_utf8(SHEET.to_vec()).unwrap().replace("UInt16S", "UInt32S");
    let (from, to) = (strings(), Strings::new(&["x", "a,b"]));
    let carry = |sheet: &[u8], to: &Strings| {
        desk::carry(Edition { sheet: SHEET, strings: &from }, Edition { sheet, strings: to }, &BODY)
    };
    let carried = [0x00, 0x01, 0x07, 0x01, 0x08, 0x02, 0x01, 0x01, 0x00, 0x00, 0x00, 0x04, 0x01];
    assert_eq!(carry(second.as_bytes(), &to), Ok(carried.to_vec()));
    assert_eq!(carry(second.as_bytes(), &Strings::new(&["x"])), refusal(10, 2, 2));
    assert_eq!(carry(second.replace("LoadByte", "StoreByte").as_bytes(), &to), refusal(4, 0, 0));
    assert_eq!(carry(second.replace("Reg8,UInt8\n", "UInt8,UInt8\n").as_bytes(), &to), refusal(16, 0, 1));
}

#[test]
fn the_job_is_decoded_and_encoded() {
    let records = desk::decode(SHEET, &BODY).unwrap();
    let offsets: Vec<(u64, u64, u64)> = records.iter().map(|r| (r.offset, r.opcode, r.length)).collect();
    assert_eq!(offsets, [(0, 0, 3), (3, 1, 2), (5, 2, 4), (9, 4, 2)]);
    let values: Vec<(u64, u64)> = records[1].operands.iter().map(|o| (o.kind, o.bits)).collect();
    assert_eq!((records[1].count, &values[..2]), (1, &[(3, 6), (0, 0)][..]));
    assert_eq!(desk::encode(SHEET, &records), Ok(BODY.to_vec()));

    let mut wrong = records.clone();
    wrong[2].operands[1].bits = 65_536; // no U16, so the record's shape is bad
    assert_eq!(desk::encode(SHEET, &wrong), refusal(15, 2, 0));
    wrong[2].operands[1].kind = 2; // a U32, which does not fit
    assert_eq!(desk::encode(SHEET, &wrong), refusal(15, 2, 2));
    assert_eq!(desk::encode(SHEET, &[Record { opcode: 5, ..Record::default() }]), refusal(13, 0, 0));
    assert_eq!(desk::encode(SHEET, &[Record { opcode: 4, ..Record::default() }]), refusal(5, 0, 0));
}

#[test]
fn an_area_is_listed_by_function_and_whole() {
    let strings = strings();
    let edition = Edition { sheet: SHEET, strings: &strings };
    let bytes = [&BODY[..], &[4, 9]].concat();
    let area = Area { functions: &[100, 11, 0, 111, 2, 7], bytes: &bytes, base: 100 };
    assert_eq!(desk::list_function(edition, area, 0, Show::ALL), list(&BODY));
    assert_eq!(desk::decode_function(SHEET, area, 1), desk::decode(SHEET, &[4, 9]));
    let indented: String = LISTING.lines().map(|line| format!("  {line}\n")).collect();
    let module = format!("function 0 (\"a,b\"):\n{indented}\nfunction 1:\n  0000  Ret r9\n\n");
    assert_eq!(desk::list_module(edition, area, Show::ALL), Ok(module.into_bytes()));
    assert_eq!(desk::list_function(edition, area, 2, Show::ALL), refusal(20, 2, 0));
    assert_eq!(desk::decode_function(SHEET, Area { base: 101, ..area }, 0), refusal(20, 0, 0));
}

#[test]
fn the_trials() {
    assert_eq!(list(&[]), Ok(vec![]));
    assert_eq!(assemble(""), Ok(vec![]));
    assert_eq!(list(&[3]), Ok(b"0000  <invalid>\n".to_vec()));
    assert_eq!(list(&[5]), refusal(13, 0, 0));
    assert_eq!(list(&[0, 1]), refusal(14, 0, 0));
    assert_eq!(assemble("LoadByte r256, 7"), Ok(vec![0, 0, 7]));
    assert_eq!(assemble("Jmp L127"), Ok(vec![1, 0x7f]));
    assert_eq!(assemble("Jmp L128"), refusal(8, 1, 1));
    assert_eq!(assemble("Ret r+1"), Ok(vec![4, 1]));
    assert_eq!(assemble("Ret r-1"), refusal(6, 1, 1));
    assert_eq!(assemble("LoadText r1, \"zz\""), refusal(10, 1, 2));
    assert_eq!(assemble("Ret r1,"), Ok(vec![4, 1]));
    assert_eq!(assemble("Ret r1,,"), refusal(5, 1, 0));
    assert_eq!(assemble("Ret x\nNone r1"), refusal(4, 2, 0));
}

#[test]
fn the_inputs_refusals() {
    assert_eq!(desk::decode(b"version=1\ncount=0\n", &[]), refusal(1, 2, 0));
    assert_eq!(assemble("Ret r1 // \u{e9}"), refusal(2, 1, 0));
    assert_eq!(assemble(&" ".repeat(4_097)), refusal(3, 1, 0));
    assert_eq!(list(&[4; desk::MAX_BODY + 1]), refusal(18, 0, 0));
    assert_eq!(assemble(&" \n".repeat(desk::MAX_TEXT / 2 + 1)), refusal(18, 0, 0));
    let broken = Strings { bytes: vec![0xff], ends: vec![1] };
    assert_eq!(desk::list_body(Edition { sheet: SHEET, strings: &broken }, &BODY, Show::ALL), refusal(17, 0, 0));
}

/// The space that is lent suffices also where all of it is needed.
#[test]
fn the_largest_results() {
    let ret = b"version=1\ncount=1\nop=0 name=Ret jump=0 types=-\n";
    let none = Strings::default();
    let edition = Edition { sheet: ret, strings: &none };
    let body = vec![0; desk::MAX_BODY];
    assert_eq!(desk::decode(ret, &body).unwrap().len(), desk::MAX_BODY);
    let labels = Show { offsets: false, labels: true, texts: true };
    let listing = desk::list_body(edition, &body, labels).unwrap();
    assert_eq!(listing.iter().filter(|b| **b == b'L').count(), desk::MAX_BODY - 1);
    assert_eq!(desk::assemble(edition, &listing), Ok(body.clone()));
    assert_eq!(desk::assemble(edition, &b"L:\nRet\n".repeat(desk::MAX_BODY)), Ok(body.clone()));
    assert_eq!(desk::carry(edition, edition, &body), Ok(body));
}

#[test]
fn a_refusal_is_told() {
    let told = desk::decode(SHEET, &[0, 1, 7, 5]).unwrap_err().to_string();
    let row = include_str!("../../../host/refusals.tsv").lines().find(|line| line.starts_with("13\t")).unwrap();
    let parts: Vec<&str> = row.split('\t').collect();
    assert_eq!(told, format!("refused=13 place=3 operand=0: {}; {}", parts[2], parts[4]));
    assert!(desk::version().starts_with("version=") && desk::version().lines().count() == 4);
}

#[test]
fn the_limits_are_those_of_the_header() {
    let header = include_str!("../../../include/desk.h");
    for (name, value) in [
        ("DESK_MAX_BODY", desk::MAX_BODY),
        ("DESK_MAX_TEXT", desk::MAX_TEXT),
        ("DESK_MAX_LISTING", desk::MAX_LISTING),
        ("DESK_MAX_INSTRUCTION", desk::MAX_INSTRUCTION),
        ("DESK_RECORD_WORDS", desk::RECORD_WORDS),
    ] {
        let line = header.lines().find_map(|line| line.strip_prefix(&format!("#define {name} "))).unwrap();
        assert_eq!(line.split_whitespace().next(), Some(value.to_string().as_str()), "{name}");
    }
}

/// README.md shows the example that stands, and is run, in the crate's comment.
#[test]
fn the_example_of_the_readme() {
    let comment = include_str!("../src/lib.rs").split("//! ```\n").nth(1).unwrap();
    let example = comment.replace("//! ", "    ");
    assert!(example.lines().count() == 5 && include_str!("../../../README.md").contains(&example));
}
