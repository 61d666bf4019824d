//! `speed`: what an access costs, the C library beside the carried Rust, over the same recording registers.
//!
//!     speed    the table, in markdown; instructions are counted by callgrind
//!     speed run SIDE CALL TIMES    one call again and again, for callgrind
//!     speed run window WINDOW TIMES    one speed window again and again
//!     speed courses    the calls and their answers as a C header, for the same count on RV32 (rv32/courses.h)
//!
//! Counted are the instructions inside the driver: the C library's functions, or the Rust's without the recording.

mod chips;
#[allow(dead_code)] // The comparison asks more of it.
mod library;

use std::panic::Location;
use std::process::Command;
use std::time::{Duration, Instant};

use oracle::answers::{MadeUp, Mood};
use oracle::edges::transaction;
use oracle::random::Random;
use oracle::rust;
use oracle::windows::Window;
use record::{kind, register, value, Answers, Call, Entry, Record, READ, WRITE};

/// The same answers again and again.
struct Repeated {
    answers: Vec<u16>,
    used: usize,
}

impl Answers for Repeated {
    fn next(&mut self, _accesses: &[u32]) -> Option<u16> {
        let answer = self.answers[self.used];
        self.used = (self.used + 1) % self.answers.len();
        Some(answer)
    }
}

/// Makes an access on the recording registers.
#[inline(always)]
fn carry_out(access: u32) -> u16 {
    let here = Location::caller();
    match kind(access) {
        READ => record::read(register(access), here),
        WRITE => {
            record::write(register(access), value(access), here);
            0
        }
        _ => record::clock(here),
    }
}

#[derive(Copy, Clone, PartialEq)]
enum Side {
    Rust,
    Library,
}

fn side_named(name: &str) -> Option<Side> {
    match name {
        "rust" => Some(Side::Rust),
        "library" => Some(Side::Library),
        _ => None,
    }
}

/// A call with the accesses and answers of its good course.
struct Course {
    name: String,
    /// Instructions for each access, at most.
    goal: usize,
    call: Call,
    accesses: Vec<u32>,
    answers: Vec<u16>,
}

impl Course {
    fn new(name: &str, goal: usize, call: Call) -> Self {
        let answers = MadeUp {
            mood: Mood::calm(u64::MAX),
            random: Random::of(&[1]),
            entry: call.entry,
            looks: call.written.len().max(call.read.len()) as u64 + 1,
        };
        let outcome = rust::run(&call, Record::default(), Box::new(answers), false);
        assert!(
            outcome.end.is_some_and(|end| end & 0xffff == 0),
            "{name} does not end with 0"
        );
        Self {
            name: name.into(),
            goal,
            call,
            accesses: outcome.record.accesses,
            answers: outcome.record.answers,
        }
    }

    fn library(&self, block: &mut [u8], read: &mut [u8]) {
        let call = &self.call;
        let mut next = library::begin(call, block, &call.list, &call.written, read);
        while kind(next as u32) != record::END {
            let answer = carry_out(next as u32);
            next = library::step(call.entry, block, &call.list, &call.written, read, answer);
        }
        assert!(next & 0xffff == 0, "the C library does not end with 0");
    }

    /// Runs the call so many times, and says how long it took.
    fn run(&self, side: Side, times: u64) -> Duration {
        let mut read = self.call.read.clone();
        let mut block = [0; 32];
        let mut record = Record::default();
        let mut answers: Box<dyn Answers> = Box::new(Repeated {
            answers: self.answers.clone(),
            used: 0,
        });
        let began = Instant::now();
        for _ in 0..times {
            record::start(record, answers, false);
            match side {
                Side::Rust => {
                    rust::run_bare(&self.call, &mut read);
                }
                Side::Library => self.library(&mut block, &mut read),
            }
            (record, answers) = record::finish();
        }
        let took = began.elapsed();
        assert!(times == 0 || record.accesses == self.accesses, "other accesses");
        took
    }
}

fn alternating(count: usize) -> Call {
    let operations: Vec<(bool, u16)> = (0..count).map(|i| (i % 2 == 1, 1)).collect();
    transaction(0, &operations)
}

/// Of a list of two operations; and for each further one, that begins a run or goes on one.
const LIST: usize = 240;
const BEGINS: usize = 18;
const GOES_ON: usize = 12;
const SLAVE: usize = 90;

fn courses() -> Vec<Course> {
    let call = |entry, written, read| {
        let mut call = Call::new(entry);
        (call.written, call.read) = (vec![0x5a; written], vec![0; read]);
        call
    };
    vec![
        Course::new("write, 1 byte", 150, call(Entry::Write, 1, 0)),
        Course::new("write-read, 2 + 6 bytes", 175, call(Entry::WriteRead, 2, 6)),
        Course::new("transaction, 2 operations, 2 runs", LIST, alternating(2)),
        Course::new("transaction, 16 operations, 16 runs", LIST + 14 * BEGINS, alternating(16)),
        Course::new("transaction, 256 operations, 256 runs", LIST + 254 * BEGINS, alternating(256)),
        Course::new("transaction, 16 operations, 1 run", LIST + 14 * GOES_ON, transaction(0, &[(false, 1); 16])),
        Course::new("transaction, 256 operations, 1 run", LIST + 254 * GOES_ON, transaction(0, &[(false, 1); 256])),
        Course::new("slave receive, 8 bytes", SLAVE, call(Entry::RespondToWrite, 0, 8)),
        Course::new("slave reply, 8 bytes", SLAVE, call(Entry::RespondToRead, 8, 0)),
    ]
}

/// The speed windows that are counted: in each another factor's pair is found, or none.
const WINDOWS: [Window; 4] = [
    Window::new(36_000_000, 95_000, 100_000),
    Window::new(36_000_000, 380_000, 400_000),
    Window::new(36_000_000, 360_000, 360_000),
    Window::new(36_000_000, 387_097, 399_999),
];

fn ask(window: &Window, times: u64) {
    for _ in 0..times {
        std::hint::black_box(library::speed_window(std::hint::black_box(window)));
    }
}

/// Instructions that callgrind counts inside these functions, for so many runs.
fn counted(side: &str, functions: &[String], course: usize, times: u64) -> u64 {
    let this = std::env::current_exe().expect("the program's own path");
    let output = Command::new("valgrind")
        .args(["--tool=callgrind", "--callgrind-out-file=/dev/null"])
        .args(functions.iter().map(|function| format!("--toggle-collect={function}")))
        .arg(this)
        .args(["run", side, &course.to_string(), &times.to_string()])
        .output()
        .expect("valgrind runs");
    let text = String::from_utf8_lossy(&output.stderr);
    let line = text
        .lines()
        .find(|line| line.contains("Collected"))
        .expect("callgrind's count");
    line.split(':')
        .nth(1)
        .and_then(|n| n.trim().parse().ok())
        .expect("a number")
}

/// Instructions inside these functions for each access: more runs less fewer, so that the program's start does not count.
fn inside(side: &str, functions: &[&str], index: usize, course: &Course) -> f64 {
    let functions: Vec<String> = functions.iter().map(|function| function.to_string()).collect();
    let times = (20_000 / course.accesses.len() as u64).max(2);
    let more = counted(side, &functions, index, 2 * times) - counted(side, &functions, index, times);
    more as f64 / (times * course.accesses.len() as u64) as f64
}

fn rust_instructions(index: usize, course: &Course) -> f64 {
    let recording = ["record::read", "record::write", "record::clock"];
    inside("rust", &["*doors::run"], index, course) - inside("rust", &recording, index, course)
}

fn library_instructions(index: usize, course: &Course) -> f64 {
    let name = course.call.entry.name();
    let (begin, step) = (format!("ch32_i2c_{name}_begin"), format!("ch32_i2c_{name}_step"));
    inside("library", &[&begin, &step], index, course)
}

fn window_instructions(index: usize) -> f64 {
    let functions = ["ch32_i2c_speed_window".to_string()];
    let times = 1000;
    let more = counted("window", &functions, index, 2 * times) - counted("window", &functions, index, times);
    more as f64 / times as f64
}

/// Millions of accesses in a second.
fn rate(side: Side, course: &Course) -> f64 {
    let times = (2_000_000 / course.accesses.len() as u64).max(1);
    course.run(side, times / 10);
    let best = (0..3).map(|_| course.run(side, times)).min().unwrap_or_default();
    (times * course.accesses.len() as u64) as f64 / best.as_secs_f64() / 1e6
}

fn table() {
    println!(
        "Instructions for each access, by callgrind: inside the C library's functions, and inside the Rust without the"
    );
    println!("recording. Millions of accesses in a second: with the recording, which costs both the same.");
    println!();
    println!("| call | accesses | the Rust | C library | goal | the Rust, M/s | C library, M/s |");
    println!("|---|---|---|---|---|---|---|");
    for (index, course) in courses().iter().enumerate() {
        println!(
            "| {} | {} | {:.1} | {:.1} | {} | {:.1} | {:.1} |",
            course.name,
            course.accesses.len(),
            rust_instructions(index, course),
            library_instructions(index, course),
            course.goal,
            rate(Side::Rust, course),
            rate(Side::Library, course)
        );
    }
}

fn window_table() {
    println!();
    println!("| speed window | C library |");
    println!("|---|---|");
    for (index, window) in WINDOWS.iter().enumerate() {
        println!("| {} | {:.1} |", window.text(), window_instructions(index));
    }
}

/// The numbers of a C array.
fn c_array(kind: &str, name: &str, numbers: &[u16]) {
    println!("static const {kind} {name}[] = {{");
    for row in numbers.chunks(20) {
        let row: Vec<String> = row.iter().map(u16::to_string).collect();
        println!("    {},", row.join(", "));
    }
    println!("}};");
}

/// The calls as a C header.
fn c_header() {
    println!("/* Made by `make rv32-courses`: the calls of docs/SPEED.md, with the answers that `make speed` gives them. */");
    for (index, course) in courses().iter().enumerate() {
        let list: Vec<u16> = course.call.list.iter().map(|byte| *byte as u16).collect();
        if !list.is_empty() {
            c_array("uint8_t", &format!("list_{index}"), &list);
        }
        c_array("uint16_t", &format!("answers_{index}"), &course.answers);
    }
    println!("static const struct course courses[] = {{");
    for (index, course) in courses().iter().enumerate() {
        let call = &course.call;
        println!(
            "    {{\"{}\", {}, {}, {}, {}, {}, {}, {}, answers_{index}}},",
            course.name,
            call.entry.name().to_uppercase(),
            call.address,
            if call.list.is_empty() { "NULL".into() } else { format!("list_{index}") },
            call.list.len(),
            call.written.len(),
            call.read.len(),
            course.accesses.len()
        );
    }
    println!("}};");
}

fn main() {
    rust::use_chips(chips::CHIPS);
    let arguments: Vec<String> = std::env::args().skip(1).collect();
    let arguments: Vec<&str> = arguments.iter().map(String::as_str).collect();
    match arguments[..] {
        [] => {
            table();
            window_table();
        }
        ["courses"] => c_header(),
        ["run", "window", window, times] => {
            let window: usize = window.parse().expect("the number of a window");
            ask(&WINDOWS[window], times.parse().expect("how many times"));
        }
        ["run", side, course, times] => {
            let side = side_named(side).expect("rust or library");
            let course: usize = course.parse().expect("the number of a call");
            courses()[course].run(side, times.parse().expect("how many times"));
        }
        _ => println!("speed | speed run SIDE CALL TIMES | speed run window WINDOW TIMES | speed courses"),
    }
}
