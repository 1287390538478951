// Machine instructions of single calls: the program runs itself under valgrind's callgrind, which counts while these calls run and
// not while their inputs are made. Counts do not depend on the machine's load.

use super::figures::Record;
use std::arch::asm;
use std::fs;
use std::io::ErrorKind;
use std::process::{Command, Stdio};

/// Requests to callgrind, as callgrind.h numbers them.
const DUMP_STATS: u64 = 0x4354_0000;
const START_INSTRUMENTATION: u64 = DUMP_STATS + 4;
const STOP_INSTRUMENTATION: u64 = DUMP_STATS + 5;

/// callgrind counts an instruction with a repeat prefix once for each byte; memset and memcpy do without such ones.
const TUNABLES: &str = "glibc.cpu.x86_rep_stosb_threshold=0x7fffffff:glibc.cpu.x86_rep_movsb_threshold=0x7fffffff";

/// The sequence of valgrind.h, which changes nothing where valgrind does not look for it.
fn request(code: u64) {
    let words = [code, 0, 0, 0, 0, 0];
    unsafe {
        asm!(
            "rol rdi, 3", "rol rdi, 13", "rol rdi, 61", "rol rdi, 51", "xchg rbx, rbx",
            in("rax") &words, inout("rdx") 0u64 => _, options(nostack)
        );
    }
}

/// Counts calls of the process that it is in, which runs under callgrind.
pub struct Counter {
    file: String,
    dumps: usize,
}

impl Counter {
    pub fn new(file: &str) -> Self {
        Counter { file: file.to_string(), dumps: 0 }
    }

    /// The machine instructions of a call that is not the first, so that nothing counts that is done once in a process.
    pub fn count(&mut self, mut call: impl FnMut()) -> f64 {
        call();
        request(START_INSTRUMENTATION);
        call();
        request(STOP_INSTRUMENTATION);
        request(DUMP_STATS);
        self.dumps += 1;
        self.total()
    }

    /// The sum that the last dump has.
    fn total(&self) -> f64 {
        let path = format!("{}.{}", self.file, self.dumps);
        let text = fs::read_to_string(&path).expect("callgrind's dump");
        fs::remove_file(&path).unwrap();
        let total = text.lines().find_map(|l| l.strip_prefix("totals: ")).expect("a dump with totals");
        total.parse().expect("a number")
    }
}

/// The counts of a part's rows, or of all; none, and a line that says so, where valgrind is not at hand.
pub fn counted(part: &str) -> Record {
    eprintln!("counting machine instructions, before anything is timed");
    let program = std::env::current_exe().unwrap();
    let file = program.with_extension("callgrind");
    let run = Command::new("valgrind")
        .args(["-q", "--tool=callgrind", "--instr-atstart=no"])
        .arg(format!("--callgrind-out-file={}", file.display()))
        .arg(&program)
        .arg("count")
        .arg(&file)
        .arg(part)
        .env("GLIBC_TUNABLES", TUNABLES)
        .stderr(Stdio::inherit())
        .output();
    match run {
        Err(e) if e.kind() == ErrorKind::NotFound => {
            println!("valgrind is not at hand: machine instructions are not counted");
            Record::default()
        }
        run => {
            let run = run.unwrap();
            assert!(run.status.success(), "counting under valgrind failed");
            let _ = fs::remove_file(&file);
            Record::parse(&String::from_utf8(run.stdout).unwrap())
        }
    }
}
