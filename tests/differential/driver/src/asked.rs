// What the published Rust says of a text that is assembled, told in the desk's numbers.
//
// An error of parse_hasm_function is a message. Its first words tell the number, it has no line and no operand number. Its
// passes are those of document 01: names and counts over all lines, then the operands line by line. So the fault that it
// meets first is the one that the desk has to report, in a text with many faults too, and what it does not say is found by
// asking it about changed texts:
// - the line of 4 and 5: the shortest front of the lines that has one of them;
// - the line of 6 to 12: later lines get operands that are taken in any case, and the same length; the text is refused as
//   long as the faulty line keeps its own operands;
// - the operand: likewise within that line. Where the changed line is not read as it is meant (a quote left open may take
//   in what follows), the operand stays unknown.
// What a line is, with its name and tokens, is told by a format that has the names and an operand count that no line has.

use crate::desk::Answer;
use crate::numbers::comparable;
use crate::rust::{message, refusal};
use crate::sheets::{Op, Sheet, TYPES};
use hbc_decomp::error::Error;
use hbc_decomp::opcode::{BytecodeFormat, OperandType};
use hbc_decomp::write::encode::encode_function_body;
use hbc_decomp::write::hasm::parse_hasm_function;
use std::collections::HashMap;

/// More operands than a line of 4,096 bytes can have.
const UNMET: usize = 5000;

/// Labels that no text of the run holds, but for damaged ones by chance; so there are two.
const MARKS: [&str; 2] = ["L90909090909", "L80808080808"];

#[derive(Debug, Clone, PartialEq)]
enum Line {
    Nothing,
    Label,
    Code { name: String, tokens: Vec<String> },
    Unknown,
}

/// Bytes that stand in the result for a double that only the desk reads.
struct Patch {
    at: usize,
    bytes: [u8; 8],
}

/// A refusal, and whether its operand could be told.
#[derive(Debug, Clone, Copy, PartialEq)]
pub struct Refused {
    pub answer: Answer,
    pub whole: bool,
}

/// A sheet, and the formats by which the Rust is asked about lines.
pub struct Asked<'a> {
    pub sheet: &'a Sheet,
    unmet: BytecodeFormat,
    mark: Sheet,
    doubles: bool,
}

/// The number that an error of parse_hasm_function tells.
fn number_of(e: &Error) -> u64 {
    let opens = [
        ("unknown mnemonic: ", 4),
        ("expected register, ", 6),
        ("bad register ", 6),
        ("unknown label ", 7),
        ("bad address operand ", 7),
        ("Addr8 out of range: ", 8),
        ("expected quoted string, ", 9),
        ("string not in table: ", 10),
        ("bad hex ", 11),
        ("bad uint ", 11),
        ("bad imm ", 11),
        ("bad double ", 12),
    ];
    let m = message(e);
    let number = opens.iter().find(|o| m.starts_with(o.0)).map(|o| o.1);
    number.unwrap_or_else(|| {
        assert!(m.contains(": expected "), "an error of the Rust that is not known: {m}");
        5
    })
}

/// The strings of a list as Rust's Debug prints it.
fn printed_strings(list: &str) -> Vec<String> {
    let mut all = Vec::new();
    let mut now: Option<String> = None;
    let mut rest = list.chars();
    while let Some(c) = rest.next() {
        match (&mut now, c) {
            (None, '"') => now = Some(String::new()),
            (None, _) => {}
            (Some(_), '"') => all.extend(now.take()),
            (Some(s), '\\') => s.push(escaped(&mut rest)),
            (Some(s), _) => s.push(c),
        }
    }
    all
}

/// The character behind a backslash of Debug.
fn escaped(rest: &mut std::str::Chars) -> char {
    match rest.next() {
        Some('n') => '\n',
        Some('r') => '\r',
        Some('t') => '\t',
        Some('0') => '\0',
        Some('u') => {
            let code: String = rest.by_ref().skip(1).take_while(|c| *c != '}').collect();
            char::from_u32(u32::from_str_radix(&code, 16).unwrap()).unwrap()
        }
        Some(c) => c,
        None => panic!("a printed list that ends in a backslash"),
    }
}

/// A line with these operands. A last token that is empty needs its comma to be one.
fn written(name: &str, tokens: &[String]) -> String {
    let end = if tokens.last().is_some_and(|t| t.is_empty()) { "," } else { "" };
    format!("{name} {}{end}", tokens.join(", "))
}

/// The bits of a double in document 01's own form.
fn double_bits(token: &str) -> Option<u64> {
    let digits = token.strip_prefix("0x")?;
    let form = digits.len() == 16 && digits.bytes().all(|b| b.is_ascii_hexdigit());
    if form { u64::from_str_radix(digits, 16).ok() } else { None }
}

/// What the Rust is given for a double's token: another one where document 01 reads it otherwise.
fn double_token(token: &str) -> Option<&'static str> {
    if double_bits(token).is_some() {
        return Some("0");
    }
    let taken = token.parse::<f64>().is_ok();
    if taken && !comparable(token) { Some("x") } else { None }
}

impl<'a> Asked<'a> {
    pub fn new(sheet: &'a Sheet) -> Self {
        let mut unmet = sheet.format.clone();
        for d in &mut unmet.definitions {
            d.operand_types = vec![OperandType::Reg8; UNMET];
        }
        let mark = Sheet::new(vec![Op { code: 0, name: "Mark".to_string(), jump: false, types: vec![9] }]);
        let doubles = sheet.has_doubles();
        Asked { sheet, unmet, mark, doubles }
    }

    fn op(&self, name: &str) -> &Op {
        self.sheet.ops.iter().find(|o| o.name == name).expect("a name of the sheet")
    }

    /// What a line is.
    fn line(&self, line: &str) -> Line {
        let Err(e) = parse_hasm_function(line, &self.unmet, &HashMap::new()) else {
            let label = line.contains(':') && self.is_label(line);
            return if label { Line::Label } else { Line::Nothing };
        };
        let m = message(&e);
        match m.split_once(": expected ") {
            Some((name, rest)) if number_of(&e) == 5 => {
                let tokens = printed_strings(rest.split_once('(').unwrap().1);
                Line::Code { name: name.to_string(), tokens }
            }
            _ => Line::Unknown,
        }
    }

    /// Whether a line takes the place of a label that waits.
    fn is_label(&self, line: &str) -> bool {
        MARKS.iter().any(|m| {
            let text = format!("{m}:\n{line}\nMark {m}\n");
            parse_hasm_function(&text, &self.mark.format, &HashMap::new()).is_err()
        })
    }

    /// How many label lines instructions take.
    pub fn entries(&self, text: &str) -> usize {
        let (mut waits, mut taken) = (false, 0);
        if !text.contains(':') {
            return 0;
        }
        for line in text.lines() {
            match self.line(line) {
                Line::Nothing => {}
                Line::Label => waits = true,
                _ => taken += std::mem::take(&mut waits) as usize,
            }
        }
        taken
    }

    /// The body, or the refusal: what the Rust says, with the doubles that document 01 reads in its own way. None where
    /// such a double stands in a line that cannot be written anew.
    pub fn assemble(&self, text: &str, strings: &HashMap<String, u32>) -> Option<Result<Vec<u8>, Refused>> {
        let told = parse_hasm_function(text, &self.sheet.format, strings);
        let number = told.as_ref().err().map_or(0, number_of);
        if number == 4 || number == 5 {
            let line = self.bad_name(text);
            return Some(Err(Refused { answer: refusal(number, line, 0), whole: true }));
        }
        if !self.doubles {
            return Some(match told {
                Ok(list) => Ok(encode_function_body(&self.sheet.format, &list).unwrap()),
                Err(_) => Err(self.bad_operand(text, strings, number)),
            });
        }
        let (text, patches) = self.with_doubles(text)?;
        Some(match parse_hasm_function(&text, &self.sheet.format, strings) {
            Ok(list) => {
                let mut body = encode_function_body(&self.sheet.format, &list).unwrap();
                for p in patches {
                    body[p.at..p.at + 8].copy_from_slice(&p.bytes);
                }
                Ok(body)
            }
            Err(e) => Err(self.bad_operand(&text, strings, number_of(&e))),
        })
    }

    /// The line of the first 4 or 5: fronts of the lines have one from that line on.
    fn bad_name(&self, text: &str) -> usize {
        let lines: Vec<&str> = text.lines().collect();
        1 + first(lines.len(), |k| {
            let front = lines[..=k].join("\n") + "\n";
            let told = parse_hasm_function(&front, &self.sheet.format, &HashMap::new());
            told.is_err_and(|e| number_of(&e) <= 5)
        })
        .unwrap()
    }

    /// Operands that an instruction at an offset takes in any case.
    fn taken(&self, name: &str, at: usize) -> Vec<String> {
        let token = |t: &usize| match TYPES[*t].0 {
            "Reg8" | "Reg32" => "r0".to_string(),
            "Addr8" | "Addr32" => format!("L{at}"),
            _ => "0".to_string(),
        };
        self.op(name).types.iter().map(token).collect()
    }

    /// What each line is and the offset of its instruction; all names and counts are good.
    fn lines(&self, text: &str) -> Vec<(Line, usize)> {
        let mut at = 0;
        text.lines()
            .map(|l| {
                let line = self.line(l);
                let start = at;
                if let Line::Code { name, .. } = &line {
                    at += 1 + self.op(name).types.iter().map(|t| TYPES[*t].1).sum::<usize>();
                }
                (line, start)
            })
            .collect()
    }

    /// The line and operand of the first of 6 to 12.
    fn bad_operand(&self, text: &str, strings: &HashMap<String, u32>, number: u64) -> Refused {
        let now: Vec<&str> = text.lines().collect();
        let lines = self.lines(text);
        let easy: Vec<String> = lines
            .iter()
            .zip(&now)
            .map(|((line, at), l)| match line {
                Line::Code { name, .. } => written(name, &self.taken(name, *at)),
                _ => l.to_string(),
            })
            .collect();
        let refuses = |k: usize, own: &str| {
            let front = now[..k].iter().copied();
            let all: Vec<&str> = front.chain([own]).chain(easy[k + 1..].iter().map(|s| s.as_str())).collect();
            parse_hasm_function(&(all.join("\n") + "\n"), &self.sheet.format, strings).is_err()
        };
        let k = first(now.len(), |k| refuses(k, now[k])).expect("a line that is refused");
        let Line::Code { name, tokens } = &lines[k].0 else { panic!("a refused line without a name") };
        let easy = self.taken(name, lines[k].1);
        let mixed = |q: usize| [&tokens[..=q], &easy[q + 1..]].concat();
        let read = |q: usize| self.line(&written(name, &mixed(q))) == Line::Code { name: name.clone(), tokens: mixed(q) };
        let q = first(tokens.len(), |q| refuses(k, &written(name, &mixed(q))));
        let whole = q.is_some() && (0..tokens.len()).all(read);
        Refused { answer: refusal(number, k + 1, q.map_or(0, |q| q + 1)), whole }
    }

    /// The text as the Rust is to read it where a double's token is one that document 01 reads in its own way.
    fn with_doubles(&self, text: &str) -> Option<(String, Vec<Patch>)> {
        let mut patches = Vec::new();
        let mut now = String::new();
        for (l, (line, at)) in text.lines().zip(self.lines(text)) {
            now += &self.with_doubles_in(l, &line, at, &mut patches)?;
            now.push('\n');
        }
        Some((now, patches))
    }

    fn with_doubles_in(&self, l: &str, line: &Line, at: usize, patches: &mut Vec<Patch>) -> Option<String> {
        let Line::Code { name, tokens } = line else { return Some(l.to_string()) };
        let mut changed = tokens.clone();
        let mut place = at + 1;
        for (token, t) in changed.iter_mut().zip(&self.op(name).types) {
            if let Some(other) = (*t == crate::sheets::DOUBLE).then(|| double_token(token)).flatten() {
                patches.extend(double_bits(token).map(|b| Patch { at: place, bytes: b.to_le_bytes() }));
                *token = other.to_string();
            }
            place += TYPES[*t].1;
        }
        if changed == *tokens {
            return Some(l.to_string());
        }
        let line = written(name, &changed);
        (self.line(&line) == Line::Code { name: name.clone(), tokens: changed }).then_some(line)
    }
}

/// The first of n numbers that passes a test which holds from some number on.
fn first(n: usize, test: impl Fn(usize) -> bool) -> Option<usize> {
    let (mut low, mut high) = (0, n);
    while low < high {
        let middle = (low + high) / 2;
        if test(middle) {
            high = middle;
        } else {
            low = middle + 1;
        }
    }
    (low < n).then_some(low)
}
