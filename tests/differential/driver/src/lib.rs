// Feeds the same inputs to the published Rust and to the desk, and compares every answer; times both on request; writes
// the Rust's answers for the replay.

mod areas;
mod asked;
mod asm_texts;
mod assemble;
mod bench;
mod converted;
mod decode;
mod desk;
mod encode;
mod formats;
mod jobs;
mod listing;
mod modules;
mod numbers;
mod random;
mod replay;
mod rust;
mod sheets;
mod stack;
mod tally;
mod texts;

use random::Random;
use std::collections::VecDeque;
use std::sync::Mutex;

/// One part of the comparison: how many answers it compared, and how many differ.
type Part<'a> = Box<dyn FnOnce(&mut Random) -> (u64, u64) + Send + 'a>;

/// Runs the parts on all processors. Each has a generator of its own, so that its inputs are the same whenever it runs.
fn run_parts(r: &mut Random, parts: Vec<Part>) -> (u64, u64) {
    let queue: VecDeque<(Part, Random)> = parts.into_iter().map(|p| (p, Random::new(r.next()))).collect();
    let (queue, sums) = (Mutex::new(queue), Mutex::new((0, 0)));
    let work = || loop {
        let Some((part, mut own)) = queue.lock().unwrap().pop_front() else { return };
        let (compared, differ) = part(&mut own);
        let mut s = sums.lock().unwrap();
        *s = (s.0 + compared, s.1 + differ);
    };
    let threads = std::thread::available_parallelism().map_or(1, |n| n.get());
    std::thread::scope(|s| {
        for _ in 0..threads {
            std::thread::Builder::new().stack_size(64 << 20).spawn_scoped(s, work).unwrap();
        }
    });
    sums.into_inner().unwrap()
}

fn compare(seed: u64, count: u64) -> bool {
    let mut r = Random::new(seed);
    let (sheets, large) = (sheets::for_run(&mut r), sheets::large(&mut r));
    let (sheets, large) = (&sheets[..], &large[..]);
    // The longest first, so that the processors end together.
    let parts: Vec<Part> = vec![
        Box::new(move |r| assemble::run("assemble, first half", r, count / 2, sheets, large)),
        Box::new(move |r| assemble::run("assemble, second half", r, count - count / 2, sheets, large)),
        Box::new(move |r| decode::run(r, count, sheets, large)),
        Box::new(move |r| encode::run(r, count, sheets, large)),
        Box::new(move |r| listing::run(r, count / 4, sheets, large)),
        Box::new(move |r| converted::run(r, 100 + count / 500)),
        Box::new(move |r| modules::run(r, count / 10, sheets)),
        Box::new(move |r| texts::run(r, count / 5)),
        Box::new(move |r| numbers::run(r, count / 10)),
        Box::new(move |_| assemble::run_fixed()),
        Box::new(move |r| decode::run_functions(r, count / 10, sheets)),
    ];
    let (compared, differ) = run_parts(&mut r, parts);
    println!("seed {seed}, count {count}");
    println!("{compared} compared, {differ} differ");
    differ == 0
}

/// All that the program does.
pub fn main() {
    let words: Vec<String> = std::env::args().skip(1).collect();
    let number = |i: usize, otherwise: u64| words.get(i).map_or(otherwise, |w| w.parse().expect("a number"));
    let word = |i: usize| words.get(i).map_or("", |w| w.as_str());
    match words.first().map_or("compare", |w| w.as_str()) {
        "compare" => {
            let same = compare(number(1, 1), number(2, 1_000_000));
            std::process::exit(!same as i32);
        }
        "bench" => bench::run(word(1)),
        "count" => bench::count(word(1), word(2)),
        "replay" => replay::write(words.get(1).expect("the file to write")),
        _ => {
            eprintln!("compare [SEED [COUNT]] | bench [record | PART] | replay FILE");
            std::process::exit(2);
        }
    }
}
