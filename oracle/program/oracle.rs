//! `oracle`: calls on the carried Rust alone.
//!
//!     oracle bench    document 01's bench input from standard input, as the Rust runs it in the port's order of errors
//!     oracle lines    calls from standard input, one line each, with their records
//!     oracle calls SEED COUNT [ENTRY [CHIP]]    random calls as lines
//!     oracle sample FILE SEED TRIES lines|ways    chooses the sample and writes it
//!     oracle bench-cases DIRECTORY SEED COUNT    bench inputs with what the bench program is to print
//!     oracle bench-compare DIRECTORY    the bench program's outputs for them, held to that and to the unchanged Rust's
//!     oracle check FILE    runs a sample's calls again
//!     oracle document    the documents' edges, looked up in what the Rust does
//!     oracle orders    every set of error flags, on every chip, in the Rust's order and in the port's
//!     oracle panics SEED COUNT    bus settings that are refused with 10, 11 or 12, given to the Rust all the same
//!     oracle reserved SEED COUNT    own addresses that are refused with 17, given to the Rust all the same

mod chips;

use std::collections::HashSet;
use std::io::Read;
use std::process::exit;

use oracle::flags::{Departing, Order};
use oracle::generate::{Generator, Sizes};
use oracle::sample::{Chosen, Detail};
use oracle::{bench, causes, coverage, document, rust, sample, sample_file, text};
use record::{Entry, Given, NoAnswers, Place, Record, ENTRIES};

fn input() -> String {
    let mut input = String::new();
    std::io::stdin()
        .read_to_string(&mut input)
        .expect("standard input is text");
    input
}

fn lines() {
    for line in input().lines() {
        match text::parse_call(line) {
            Err(field) => println!("not a call: {field}"),
            Ok((call, answers)) => {
                let source = Box::new(Given { answers, used: 0 });
                print!(
                    "{}",
                    text::record_text(&rust::run(&call, Record::default(), source, false))
                );
            }
        }
    }
}

fn calls(seed: u64, count: u64, entries: &[Entry], chips: &[u8]) {
    for entry in entries {
        for chip in chips {
            for number in 0..count {
                let (call, answers) = Generator::new(seed, *entry, *chip, number, Sizes::All).call(*entry, *chip);
                let outcome = rust::run(&call, Record::default(), answers, false);
                println!("{}", text::call_line(&call, &outcome.record.answers));
            }
        }
    }
}

/// The lines and ends that the sample should show and does not.
fn missing(chosen: &[Chosen]) -> Vec<String> {
    let mut missing = Vec::new();
    for chip in 0..4 {
        let on_chip = || chosen.iter().filter(move |call| call.chip == chip);
        let reached: HashSet<Place> = on_chip().flat_map(|call| call.places.iter().copied()).collect();
        for line in coverage::lines(chip).into_iter().filter(|line| !reached.contains(line)) {
            missing.push(format!("chip {chip}: line {}", coverage::line_text(line)));
        }
        for entry in ENTRIES {
            let mut ends: Vec<Option<u8>> = coverage::ends(entry, chip).into_iter().map(Some).collect();
            ends.push(None);
            let any_chip = coverage::has_16_by_chip_alone(entry);
            let has = |end: &Option<u8>| {
                let counts = |call: &&Chosen| call.chip == chip || any_chip && *end == Some(16);
                chosen
                    .iter()
                    .filter(counts)
                    .any(|call| call.entry == entry && call.end == *end)
            };
            missing.extend(
                ends.iter()
                    .filter(|end| !has(end))
                    .map(|end| format!("chip {chip}: {} end {end:?}", entry.name())),
            );
        }
    }
    missing
}

fn write_sample(path: &str, seed: u64, tries: u64, detail: Detail) {
    let chosen = sample::sample(seed, tries, detail);
    let bytes = sample::file(&chosen);
    std::fs::write(path, &bytes).expect("the sample can be written");
    for entry in ENTRIES {
        let of_entry: Vec<&Chosen> = chosen.iter().filter(|call| call.entry == entry).collect();
        let accesses: usize = of_entry.iter().map(|call| call.places.len()).sum();
        println!("{:16} {} calls, {accesses} accesses", entry.name(), of_entry.len());
    }
    println!("{} calls, {} bytes", chosen.len(), bytes.len());
    let lines: usize = (0..4).map(|chip| coverage::lines(chip).len()).sum();
    let missing = missing(&chosen);
    println!(
        "{lines} access lines on four chips; {} lines or ends missing",
        missing.len()
    );
    missing.iter().for_each(|text| println!("missing: {text}"));
    if !missing.is_empty() {
        exit(1);
    }
}

/// Writes N.in and N.out, what the bench program is to print, for random transactions that it can be given.
fn bench_cases(directory: &str, seed: u64, count: u64) {
    std::fs::create_dir_all(directory).expect("the directory can be made");
    for number in 0..count {
        let chip = (number % 4) as u8;
        let mut generator = Generator::new(seed, Entry::Transaction, chip, number, Sizes::All);
        let (call, answers) = generator.call(Entry::Transaction, chip);
        let outcome = rust::run(&call, Record::default(), answers, false);
        let mut answers = outcome.record.answers;
        answers.extend((0..generator.random.below(3)).map(|_| generator.random.word()));
        if let Some(input) = bench::input_of(&call, &answers) {
            std::fs::write(format!("{directory}/{number}.out"), bench::run(&input, Order::Port)).expect("written");
            std::fs::write(format!("{directory}/{number}.in"), input).expect("written");
        }
    }
}

/// Holds the bench program's outputs, N.got, to what it is to print, N.out; and with the end as the Rust's to what the unchanged
/// Rust makes of the inputs N.in.
fn bench_compare(directory: &str) {
    let (mut count, mut departing) = (0, 0);
    for entry in std::fs::read_dir(directory).expect("the directory can be read") {
        let path = entry.expect("the directory can be read").path();
        if path.extension().is_none_or(|extension| extension != "in") {
            continue;
        }
        let text = |extension| std::fs::read_to_string(path.with_extension(extension)).expect("a text");
        let (input, got) = (text("in"), text("got"));
        let unchanged = bench::run(&input, Order::Rust);
        if got != text("out") || bench::as_the_rust(&input, &got).as_ref() != Some(&unchanged) {
            println!("differs: {}", path.display());
            exit(1);
        }
        count += 1;
        departing += (got != unchanged) as u64;
    }
    println!("{count} bench inputs, 0 differences; in {departing} of them Bus where the Rust has another error");
    if count >= 1000 && departing == 0 {
        println!("a case was not met");
        exit(1);
    }
}

fn check_sample(path: &str) {
    let bytes = std::fs::read(path).expect("the sample can be read");
    let calls = sample_file::decode(&bytes);
    let mut departing = Departing::default();
    for (number, (sampled, stored)) in calls.iter().enumerate() {
        departing.add(&sampled.call, stored.flags);
        let answers = Box::new(Given {
            answers: stored.record.answers.clone(),
            used: 0,
        });
        let again = rust::run(&sampled.call, Record::default(), answers, false);
        let same_record = again.record.accesses == stored.record.accesses && again.read == stored.read;
        if !(same_record && again.end == stored.end && again.extra() == stored.extra()) {
            println!(
                "call {number} differs: {}",
                text::call_line(&sampled.call, &stored.record.answers)
            );
            exit(1);
        }
    }
    println!("{} calls of the sample, all as the Rust runs them; {}", calls.len(), departing.text());
    if !departing.is_whole() {
        println!("a case was not met");
        exit(1);
    }
}

fn check_document() {
    let differences = document::differences();
    differences.iter().for_each(|difference| println!("{difference}"));
    if !differences.is_empty() {
        exit(1);
    }
    println!("the documents' edges: all as the Rust has them");
}

fn check_orders() {
    match document::orders() {
        Ok(departing) => println!("every set of error flags on every chip: as the two orders have it; {}", departing.text()),
        Err(difference) => {
            println!("{difference}");
            exit(1);
        }
    }
}

/// The number that stands for the assertion at which the Rust panicked.
fn assertion_number(message: &str) -> Option<u8> {
    let assertions = [
        ("frequency.0 > 0", 10),
        ("input_mhz >= 4", 12),
        ("divider <= 0xfff", 11),
    ];
    assertions
        .iter()
        .find(|(text, _)| message.contains(text))
        .map(|(_, number)| *number)
}

/// The Rust has to panic, before any access, at every setting that `causes` refuses with 10, 11 or 12, and at the
/// assertion that this number stands for.
fn panics(seed: u64, count: u64) {
    let mut refused = [0; 3];
    for chip in 0..4 {
        for number in 0..count {
            let (mut call, _) = Generator::new(seed, Entry::Init, chip, number, Sizes::All).call(Entry::Init, chip);
            (call.block_length, call.chip, call.duty) = (32, chip, call.duty & 1);
            let Some(cause) = causes::added(&call) else { continue };
            let outcome = rust::run_rust(&call, Record::default(), Box::new(NoAnswers), false);
            let asserted = outcome.panic.as_deref().and_then(assertion_number);
            if asserted != Some(cause) || !outcome.record.accesses.is_empty() {
                println!("not refused with {cause} by the Rust: {}", text::call_line(&call, &[]));
                exit(1);
            }
            refused[cause as usize - 10] += 1;
        }
    }
    let [ten, eleven, twelve] = refused;
    println!("the Rust panics before any access, and for the same cause, at {ten} settings with 10, {eleven} with 11, {twelve} with 12");
}

/// The Rust has to take every configuration that `causes` refuses with 17, and to write its addresses.
fn reserved(seed: u64, count: u64) {
    let mut taken = 0;
    for chip in 0..4 {
        for number in 0..count {
            let (call, _) = Generator::new(seed, Entry::InitSlave, chip, number, Sizes::All).call(Entry::InitSlave, chip);
            if causes::added(&call) != Some(17) {
                continue;
            }
            let answers = Box::new(Given {
                answers: vec![0; 8],
                used: 0,
            });
            let outcome = rust::run_rust(&call, Record::default(), answers, false);
            if outcome.end != Some(0) || outcome.record.accesses.len() != 8 {
                println!("not taken by the Rust: {}", text::call_line(&call, &[]));
                exit(1);
            }
            taken += 1;
        }
    }
    println!("the Rust takes all of {taken} configurations with 17");
}

fn main() {
    rust::use_chips(chips::CHIPS);
    let arguments: Vec<String> = std::env::args().skip(1).collect();
    let arguments: Vec<&str> = arguments.iter().map(String::as_str).collect();
    let number = |text: &str| text.parse::<u64>().unwrap_or_else(|_| usage());
    match arguments[..] {
        ["bench"] => print!("{}", bench::run(&input(), Order::Port)),
        ["lines"] => lines(),
        ["calls", seed, count] => calls(number(seed), number(count), &ENTRIES, &[0, 1, 2, 3]),
        ["calls", seed, count, entry] => calls(number(seed), number(count), &[named(entry)], &[0, 1, 2, 3]),
        ["calls", seed, count, entry, chip] => {
            calls(number(seed), number(count), &[named(entry)], &[number(chip) as u8 & 3])
        }
        ["sample", path, seed, tries, "lines"] => write_sample(path, number(seed), number(tries), Detail::Lines),
        ["sample", path, seed, tries, "ways"] => write_sample(path, number(seed), number(tries), Detail::Ways),
        ["bench-compare", directory] => bench_compare(directory),
        ["bench-cases", directory, seed, count] => bench_cases(directory, number(seed), number(count)),
        ["document"] => check_document(),
        ["orders"] => check_orders(),
        ["panics", seed, count] => panics(number(seed), number(count)),
        ["reserved", seed, count] => reserved(number(seed), number(count)),
        ["check", path] => check_sample(path),
        _ => usage(),
    }
}

fn named(entry: &str) -> Entry {
    Entry::named(entry).unwrap_or_else(|| usage())
}

fn usage() -> ! {
    println!("oracle bench | lines | calls SEED COUNT [ENTRY [CHIP]] | sample FILE SEED TRIES | bench-cases DIRECTORY SEED COUNT | bench-compare DIRECTORY | check FILE | document | orders | panics SEED COUNT | reserved SEED COUNT");
    exit(2)
}
