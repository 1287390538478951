// Compares desk_carry with the model, carry by carry.
//   carry [SEED [COUNT]]          generated carries and the worked ones, each by desk_carry and by the model
//   carry --self [SEED [COUNT]]   the model alone: the worked carries, the laws of meaning, and whether wrong carriers are seen

mod compare;
#[cfg(feature = "desk")]
mod desk;
mod generate;
mod laws;
mod met;
mod model;
mod random;
mod shrink;
mod worked;
mod wrong;

use compare::Carrier;
use random::Random;
use std::sync::atomic::{AtomicU64, Ordering};
use std::sync::Mutex;

/// Generated carries that share a generator; blocks are dealt out to the threads.
const BLOCK: u64 = 500;
/// Generated carries that each wrong carrier is tried on.
const FOR_WRONG: usize = 5000;

/// What has been compared, and what the model said.
#[derive(Default)]
struct Tally {
    compared: u64,
    differ: u64,
    by_number: [u64; 21],
    met: met::Counts,
}

impl Tally {
    fn add(&mut self, other: &Tally) {
        self.compared += other.compared;
        self.differ += other.differ;
        for (sum, n) in self.by_number.iter_mut().zip(&other.by_number) {
            *sum += n;
        }
        for (sum, n) in self.met.iter_mut().zip(&other.met) {
            *sum += n;
        }
    }

    fn show_numbers(&self) {
        let refused: Vec<String> =
            (1..21).filter(|n| self.by_number[*n] > 0).map(|n| format!("{n}: {}", self.by_number[n])).collect();
        println!("generated carries: {} accepted; refused with {}", self.by_number[0], refused.join(", "));
        let met: Vec<String> = met::NAMES.iter().zip(self.met).map(|(name, n)| format!("{name}: {n}")).collect();
        println!("accepted {}", met.join(", "));
    }
}

/// Differences that have been told; a few are enough.
static TOLD: AtomicU64 = AtomicU64::new(0);

fn tell(text: impl FnOnce() -> String) {
    if TOLD.fetch_add(1, Ordering::Relaxed) < 3 {
        println!("DIFFERS\n{}", text());
    }
}

fn run_block(carrier: Carrier, r: &mut Random, count: u64) -> Tally {
    let mut tally = Tally::default();
    for _ in 0..count {
        let case = generate::case(r);
        let want = compare::expected(&case);
        let got = compare::carrier_run(carrier, &case.input, want.out.len(), want.labels.len());
        tally.compared += 1;
        tally.by_number[want.answer.number as usize] += 1;
        met::count(&case, &want, &mut tally.met);
        if compare::fault(&case, &want, &got).is_some() {
            tally.differ += 1;
            tell(|| compare::tell(carrier, &case));
        }
    }
    tally
}

/// Runs the blocks on all processors. A block's generator follows from the seed and its number alone.
fn run_generated(carrier: Carrier, seed: u64, count: u64) -> Tally {
    let (next, sum) = (AtomicU64::new(0), Mutex::new(Tally::default()));
    let work = || loop {
        let block = next.fetch_add(1, Ordering::Relaxed);
        if block * BLOCK >= count {
            return;
        }
        let mut own = Random::new(Random::new(seed ^ block << 32).next());
        let tally = run_block(carrier, &mut own, BLOCK.min(count - block * BLOCK));
        sum.lock().unwrap().add(&tally);
    };
    let threads = std::thread::available_parallelism().map_or(1, |n| n.get());
    std::thread::scope(|s| {
        for _ in 0..threads {
            std::thread::Builder::new().stack_size(64 << 20).spawn_scoped(s, work).unwrap();
        }
    });
    sum.into_inner().unwrap()
}

fn run_worked(who: &str, carrier: Carrier) -> Tally {
    let mut tally = Tally::default();
    for worked in worked::all() {
        tally.compared += 1;
        if let Some(difference) = worked::difference(carrier, &worked) {
            tally.differ += 1;
            println!("DIFFERS, {who}: {difference}");
        }
    }
    println!("worked carries, {who}: {} compared, {} differ", tally.compared, tally.differ);
    tally
}

/// Each wrong carrier differs somewhere from the model. How many don't.
fn run_wrong(seed: u64) -> Tally {
    let mut r = Random::new(seed);
    let cases: Vec<generate::Case> = (0..FOR_WRONG).map(|_| generate::case(&mut r)).collect();
    let worked = worked::all();
    let mut tally = Tally::default();
    for (name, carrier) in wrong::all() {
        let met = cases.iter().filter(|c| compare::difference(carrier, c).is_some()).count();
        let by_hand = worked.iter().filter(|w| worked::difference(carrier, w).is_some()).count();
        println!("wrong carrier '{name}': differs on {met} of {FOR_WRONG} generated carries, {by_hand} worked ones");
        tally.compared += 1;
        tally.differ += (met == 0 || by_hand == 0) as u64;
    }
    tally
}

/// The whole run; whether nothing differs.
fn run(carrier: Carrier, with_wrong: bool, seed: u64, count: u64) -> bool {
    let mut sum = run_worked("model", compare::model_carrier);
    if with_wrong {
        sum.add(&run_wrong(seed));
    } else {
        sum.add(&run_worked("desk_carry", carrier));
    }
    let generated = run_generated(carrier, seed, count);
    generated.show_numbers();
    sum.add(&generated);
    println!("seed {seed}, count {count}");
    println!("{} compared, {} differ", sum.compared, sum.differ);
    sum.differ == 0
}

#[cfg(feature = "desk")]
fn desk_carrier() -> Option<Carrier> {
    Some(desk::carry)
}

#[cfg(not(feature = "desk"))]
fn desk_carrier() -> Option<Carrier> {
    None
}

fn main() {
    let mut words: Vec<String> = std::env::args().skip(1).collect();
    let alone = words.first().is_some_and(|w| w == "--self");
    words.drain(..alone as usize);
    let number = |i: usize, otherwise: u64| words.get(i).map_or(otherwise, |w| w.parse().expect("a number"));
    let (seed, count) = (number(0, 1), number(1, 300_000));
    let carrier = if alone { Some(compare::model_carrier as Carrier) } else { desk_carrier() };
    let Some(carrier) = carrier else {
        eprintln!("built without desk_carry: only --self [SEED [COUNT]]");
        std::process::exit(2);
    };
    std::process::exit(!run(carrier, alone, seed, count) as i32);
}
