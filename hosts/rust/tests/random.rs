//! Random bodies through the wrapper: what goes there comes back, and damage is refused or read, never more.

use desk::{Edition, Refusal, Show, Strings};

/// A small generator, so that a seed gives the same inputs everywhere (splitmix64).
struct Random(u64);

impl Random {
    fn next(&mut self) -> u64 {
        self.0 = self.0.wrapping_add(0x9e37_79b9_7f4a_7c15);
        let mut z = self.0;
        z = (z ^ (z >> 30)).wrapping_mul(0xbf58_476d_1ce4_e5b9);
        z = (z ^ (z >> 27)).wrapping_mul(0x94d0_49bb_1331_11eb);
        z ^ (z >> 31)
    }

    fn below(&mut self, n: usize) -> usize {
        (self.next() % n as u64) as usize
    }
}

const TYPES: [(&str, usize); 12] = [
    ("Reg8", 1),
    ("Reg32", 4),
    ("UInt8", 1),
    ("UInt16", 2),
    ("UInt32", 4),
    ("UInt8S", 1),
    ("UInt16S", 2),
    ("UInt32S", 4),
    ("Addr8", 1),
    ("Addr32", 4),
    ("Imm32", 4),
    ("Double", 8),
];

/// A sheet with the types of each opcode. There is no gap, so that every opcode has a name.
fn sheet(r: &mut Random) -> (Vec<u8>, Vec<Vec<usize>>) {
    let ops: Vec<Vec<usize>> =
        (0..1 + r.below(20)).map(|_| (0..r.below(5)).map(|_| r.below(TYPES.len())).collect()).collect();
    let mut text = format!("version=1\ncount={}\n", ops.len());
    for (code, types) in ops.iter().enumerate() {
        let names: Vec<&str> = types.iter().map(|t| TYPES[*t].0).collect();
        let list = if names.is_empty() { "-".to_string() } else { names.join(",") };
        text += &format!("op={code} name=Op{code} jump={} types={list}\n", r.below(2));
    }
    (text.into_bytes(), ops)
}

/// A body of whole instructions. Every value survives a listing: a double is a whole number, a target is no negative one.
fn body(r: &mut Random, ops: &[Vec<usize>]) -> Vec<u8> {
    let mut body = Vec::new();
    for _ in 0..r.below(40) {
        let code = r.below(ops.len());
        let offset = body.len();
        body.push(code as u8);
        for t in &ops[code] {
            let (name, width) = TYPES[*t];
            let value = match name {
                "Double" => ((r.next() % 2_000_001) as f64 - 1e6).to_bits(),
                "Addr8" => r.below(128) as u64,
                "Addr32" => (r.below(70_000) as u64).wrapping_sub(offset as u64),
                _ => r.next(),
            };
            body.extend_from_slice(&value.to_le_bytes()[..width]);
        }
    }
    body
}

fn texts() -> Strings {
    Strings::new(&["a", "b, c", "", "// d", "Ret r1", "L9:"])
}

#[test]
fn round_trips() {
    let strings = texts();
    for seed in 0..5_000 {
        let mut r = Random(seed);
        let (sheet, ops) = sheet(&mut r);
        let body = body(&mut r, &ops);
        let edition = Edition { sheet: &sheet, strings: &strings };
        let records = desk::decode(&sheet, &body).unwrap_or_else(|e| panic!("seed {seed}: {e}"));
        assert_eq!(desk::encode(&sheet, &records).as_ref(), Ok(&body), "seed {seed}");
        let listing = desk::list_body(edition, &body, Show::ALL).unwrap_or_else(|e| panic!("seed {seed}: {e}"));
        let instructions = String::from_utf8(listing.clone()).unwrap().lines().filter(|l| !l.starts_with('L')).count();
        assert_eq!(instructions, records.len(), "seed {seed}");
        assert_eq!(desk::assemble(edition, &listing).as_ref(), Ok(&body), "seed {seed}");
    }
}

/// A body that is carried to its own edition comes back, or an instruction cannot be carried.
#[test]
fn carried_to_itself() {
    let strings = texts();
    let mut carried = 0;
    for seed in 0..5_000 {
        let mut r = Random(seed);
        let (sheet, ops) = sheet(&mut r);
        let body = body(&mut r, &ops);
        let edition = Edition { sheet: &sheet, strings: &strings };
        match desk::carry(edition, edition, &body) {
            Ok(same) => {
                assert_eq!(same, body, "seed {seed}");
                carried += 1;
            }
            Err(Refusal { number, .. }) => assert!(number == 7 || number == 16, "seed {seed}: {number}"),
        }
    }
    assert!(carried > 100, "{carried} of them were carried");
}

fn damaged(r: &mut Random, bytes: &[u8]) -> Vec<u8> {
    let mut bytes = bytes.to_vec();
    for _ in 0..1 + r.below(3) {
        let at = r.below(bytes.len() + 1);
        match r.below(4) {
            0 => bytes.truncate(at),
            1 => bytes.insert(at, r.next() as u8),
            _ if at < bytes.len() => bytes[at] = r.next() as u8,
            _ => bytes.extend_from_slice(&r.next().to_le_bytes()),
        }
    }
    bytes
}

/// Whatever comes in, an answer comes out; space is never too short.
#[test]
fn damage() {
    let strings = texts();
    let mut refused = 0;
    let mut see = |seed: u64, answer: Result<(), Refusal>| {
        if let Err(e) = answer {
            assert!((1..=18).contains(&e.number), "seed {seed}: {e}");
            refused += 1;
        }
    };
    for seed in 0..5_000 {
        let mut r = Random(seed);
        let (sheet, ops) = sheet(&mut r);
        let body = body(&mut r, &ops);
        let edition = Edition { sheet: &sheet, strings: &strings };
        let listing = desk::list_body(edition, &body, Show::ALL).unwrap();
        let (bad_sheet, bad_body, bad_text) = (damaged(&mut r, &sheet), damaged(&mut r, &body), damaged(&mut r, &listing));
        let bad_strings = Strings { bytes: damaged(&mut r, &strings.bytes), ends: vec![r.below(20) as u32; r.below(4)] };
        let bad = Edition { sheet: &bad_sheet, strings: &bad_strings };
        if let Ok(records) = desk::decode(&sheet, &bad_body) {
            assert_eq!(desk::encode(&sheet, &records), Ok(bad_body.clone()), "seed {seed}");
        }
        see(seed, desk::decode(&bad_sheet, &bad_body).map(|_| ()));
        see(seed, desk::list_body(edition, &bad_body, Show::ALL).map(|_| ()));
        see(seed, desk::list_body(bad, &body, Show::ALL).map(|_| ()));
        see(seed, desk::assemble(edition, &bad_text).map(|_| ()));
        see(seed, desk::assemble(bad, &listing).map(|_| ()));
        see(seed, desk::carry(edition, bad, &bad_body).map(|_| ()));
        let mut records = desk::decode(&sheet, &body).unwrap();
        if !records.is_empty() {
            let at = r.below(records.len());
            records[at].operands[r.below(8)].bits ^= 1 << r.below(64);
            see(seed, desk::encode(&sheet, &records).map(|_| ()));
        }
    }
    assert!(refused > 5_000, "{refused} calls were refused");
}
