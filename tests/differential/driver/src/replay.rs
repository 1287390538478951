// Writes the Rust's answers as the cases of crate `replay`, whose source says the format.

use crate::asked::Asked;
use crate::asm_texts::{self, TOKENS};
use crate::assemble::{self, Table};
use crate::decode;
use crate::encode;
use crate::jobs;
use crate::listing::Spare;
use crate::random::Random;
use crate::rust;
use crate::sheets::{self, Sheet, TYPES};
use crate::tally::BYTE;
use crate::texts;
use hbc_decomp::util::escape_js_string;

struct File {
    bytes: Vec<u8>,
    cases: usize,
    sheet: Vec<u8>,
}

struct Numbers {
    operation: u32,
    room: usize,
    number: u64,
    place: u64,
    operand: u64,
    length: u64,
}

impl File {
    fn case(&mut self, n: Numbers, sheet: &[u8], input: &[u8], expected: &[u8]) {
        let sheet = if sheet == self.sheet.as_slice() { &[][..] } else { sheet };
        if !sheet.is_empty() {
            self.sheet = sheet.to_vec();
        }
        let head = [
            n.operation,
            sheet.len() as u32,
            input.len() as u32,
            n.room as u32,
            n.number as u32,
            n.place as u32,
            n.operand as u32,
            n.length as u32,
            expected.len() as u32,
        ];
        self.bytes.extend(head.iter().flat_map(|w| w.to_le_bytes()));
        self.bytes.extend_from_slice(sheet);
        self.bytes.extend_from_slice(input);
        self.bytes.extend_from_slice(expected);
        self.cases += 1;
    }

    /// A number that was read, or that the text is none.
    fn read(&mut self, operation: u32, text: &str, told: Option<u64>) {
        let n = Numbers { operation, room: 0, number: told.is_none() as u64, place: 0, operand: 0, length: 0 };
        let value = told.map_or(Vec::new(), |v| v.to_le_bytes().to_vec());
        self.case(n, &[], text.as_bytes(), &value);
    }

    fn printed(&mut self, operation: u32, input: &[u8], told: &str) {
        let length = told.len();
        let n = Numbers { operation, room: length + 3, number: 0, place: 0, operand: 0, length: length as u64 };
        self.case(n, &[], input, told.as_bytes());
    }
}

fn bytes_of(words: &[u64]) -> Vec<u8> {
    words.iter().flat_map(|w| w.to_le_bytes()).collect()
}

fn decoding(file: &mut File, r: &mut Random, sheet: &Sheet, count: usize) {
    let mut f = rust::file_of(&[]);
    for _ in 0..count {
        let case = decode::random_case(r, sheet);
        if case.body.len() > 200 {
            continue;
        }
        let e = decode::expected(&mut f, sheet, &case.body, case.spare);
        let result = &e.out[..20 * e.answer.length as usize];
        let n = Numbers {
            operation: 1,
            room: e.out.len(),
            number: e.answer.number,
            place: e.answer.place,
            operand: e.answer.operand,
            length: e.answer.length,
        };
        file.case(n, &sheet.text, &case.body, &bytes_of(result));
    }
}

fn encoding(file: &mut File, r: &mut Random, sheet: &Sheet, count: usize) {
    for _ in 0..count {
        let words = encode::random_words(r, sheet);
        if words.len() > 400 {
            continue;
        }
        let spare = *r.pick(&[0, 0, 1, 7, -1]);
        let e = encode::expected(sheet, &words, spare);
        let result = &e.out[..e.answer.length as usize];
        let n = Numbers {
            operation: 2,
            room: e.out.len(),
            number: e.answer.number,
            place: e.answer.place,
            operand: e.answer.operand,
            length: e.answer.length,
        };
        file.case(n, &sheet.text, &bytes_of(&words), result);
    }
}

/// Operation 13's input: the string table, how many label entries are lent, and the text.
fn text_input(table: &Table, lent: usize, text: &[u8]) -> Vec<u8> {
    let head = [table.ends.len() as u32, table.bytes.len() as u32, lent as u32];
    let numbers = head.iter().chain(&table.ends).flat_map(|n| n.to_le_bytes());
    numbers.chain(table.bytes.iter().copied()).chain(text.iter().copied()).collect()
}

/// One text, if the Rust tells its refusal with line and operand.
fn text_case(file: &mut File, asked: &Asked, table: &Table, text: &[u8], spare: Spare) -> bool {
    let told = assemble::expected(asked, table, text, spare);
    let Some(e) = told.filter(|e| e.whole) else { return false };
    let (a, out) = (e.run.answer, e.run.out);
    let n = Numbers {
        operation: 13,
        room: out.len(),
        number: a.number,
        place: a.place,
        operand: a.operand,
        length: a.length,
    };
    let input = text_input(table, e.run.entries.len(), text);
    file.case(n, &asked.sheet.text, &input, &out[..a.length as usize]);
    true
}

/// Short texts as the comparison draws them.
fn assembling(file: &mut File, r: &mut Random, sheet: &Sheet, count: usize) {
    let mut f = rust::file_of(&[]);
    let asked = Asked::new(sheet);
    let mut done = 0;
    while done < count {
        let table = Table::new(asm_texts::strings(r));
        let text = assemble::random_text(r, sheet, &table, &mut f);
        let spare = assemble::random_spare(r);
        if text.len() < 200 {
            done += text_case(file, &asked, &table, &text, spare) as usize;
        }
    }
}

/// Every token for every type.
fn tokens(file: &mut File) {
    let table = Table::new(["a", "a\n"].map(String::from).to_vec());
    for ty in 0..TYPES.len() {
        let sheet = assemble::sheet_of_type(ty);
        let asked = Asked::new(&sheet);
        for token in TOKENS {
            assert!(text_case(file, &asked, &table, format!("Last r1, {token}").as_bytes(), assemble::EXACT));
        }
    }
}

fn numbers(file: &mut File, r: &mut Random) {
    let edges = [0u64, 1, 9, 10, 127, 128, 255, 256, 65535, 65536, 0x7fff_ffff, 0x8000_0000, 0xffff_ffff, 0x1_0000_0000, u64::MAX];
    let mut texts: Vec<String> = ["", "+", "-", "0", "-0", "+0", "00", "r1", " 1", "1 ", "0x1", "a", "F", "g", "1_0"].map(String::from).to_vec();
    for v in edges {
        for sign in ["", "+", "-"] {
            texts.push(format!("{sign}{v}"));
            texts.push(format!("{sign}{v:x}"));
            texts.push(format!("{sign}00{v:X}"));
        }
    }
    for s in &texts {
        file.read(3, s, s.parse::<u32>().ok().map(u64::from));
        file.read(4, s, u32::from_str_radix(s, 16).ok().map(u64::from));
        file.read(5, s, s.parse::<i32>().ok().map(|n| n as u32 as u64));
    }
    for _ in 0..150 {
        let v = if r.one_in(3) { 1u64 << r.below(54) } else { r.next() % ((1 << 53) + 1) };
        for s in [format!("{v}"), format!("-{v}")] {
            file.read(6, &s, s.parse::<f64>().ok().map(f64::to_bits));
            file.printed(10, &bytes_of(&[s.parse::<f64>().unwrap().to_bits()]), &s);
        }
    }
    for k in 0..200 {
        let n = if k < 20 { k } else { r.edge(4) };
        file.printed(7, &bytes_of(&[n]), &n.to_string());
        file.printed(8, &bytes_of(&[n]), &(n as u32 as i32).to_string());
        file.printed(9, &bytes_of(&[n]), &format!("{n:04x}"));
    }
}

fn escapes(file: &mut File, r: &mut Random) {
    let some = ['a', '"', '\\', '\n', '\r', '\t', '\0', '\u{7f}', '\u{80}', 'é', '\u{7ff}', '\u{800}', '\u{ffff}', '\u{10000}', '😀', ' ', '~'];
    for _ in 0..300 {
        let s: String = (0..r.below(10)).map(|_| *r.pick(&some)).collect();
        file.printed(11, s.as_bytes(), &escape_js_string(&s));
    }
    let sheet = texts::one_string();
    for _ in 0..200 {
        let s = texts::escaped_text(r);
        let (told, same) = texts::unescaped(&sheet, &s);
        assert!(same, "the Rust reads another text from {s:?}");
        file.printed(12, s.as_bytes(), &told);
    }
}

pub fn write(path: &str) {
    let mut r = Random::new(5);
    let mut file = File { bytes: Vec::new(), cases: 0, sheet: Vec::new() };
    let mut all = sheets::fixed();
    all.extend((0..10).map(|_| sheets::random(&mut r, 4, 9, 8)));
    all.push(sheets::random(&mut r, 256, 256, 3));
    for sheet in &all {
        decoding(&mut file, &mut r, sheet, 45);
        encoding(&mut file, &mut r, sheet, 35);
    }
    numbers(&mut file, &mut r);
    escapes(&mut file, &mut r);
    for sheet in &all {
        assembling(&mut file, &mut r, sheet, 25);
    }
    tokens(&mut file);
    for (job, printed) in jobs::cases(900) {
        file.printed(14, &job, &printed);
    }
    std::fs::write(path, &file.bytes).expect("the file is written");
    println!("{} cases, {} bytes, lent space filled with {BYTE:02X}", file.cases, file.bytes.len());
}
