//! `compare`: the carried Rust and the C library on the same calls; on `ch32v4` the Rust in the port's order of errors too.
//!
//!     compare SEED CALLS [ENTRY [CHIP]]    random calls, CALLS of each entry on each chip
//!     compare windows SEED COUNT    speed windows, beside brute force, and what `init` makes of the pairs
//!     compare window INPUT LOWEST HIGHEST    one of them
//!     compare until SEED CALLS    calls of all entries and chips and windows, by turns, up to the first difference
//!     compare replay SEED ENTRY CHIP NUMBER    one of them again, with its whole record
//!     compare sample FILE    the stored sample
//!     compare lines    calls from standard input, one line each (the form in which differences are printed)

mod chips;
mod library;
mod play;

use std::io::BufRead;
use std::process::exit;
use std::time::Instant;

use oracle::generate::{Generator, Sizes};
use oracle::generate_windows::Windows;
use oracle::random::Random;
use oracle::flags;
use oracle::second;
use oracle::windows::{self, Window};
use oracle::{rust, sample_file, text};
use record::{Call, Entry, Given, Record, ENTRIES};
use rust::Outcome;

use play::Player;

/// The place of open calls in a tally, behind the ends 0 to 17.
const OPEN: usize = 18;

/// How often each end came.
#[derive(Default)]
struct Tally {
    ends: [u64; OPEN + 1],
    calls: u64,
    accesses: u64,
}

impl Tally {
    fn add(&mut self, outcome: &Outcome) {
        let end = outcome.end.map_or(OPEN, |end| (end >> 8 & 0xff) as usize);
        self.ends[end] += 1;
        self.calls += 1;
        self.accesses += outcome.record.accesses.len() as u64;
    }

    fn ends_text(&self) -> String {
        let counts = self.ends.iter().enumerate().filter(|(_, count)| **count > 0);
        let named = counts.map(|(end, count)| match end {
            OPEN => format!("open:{count}"),
            _ => format!("{end}:{count}"),
        });
        named.collect::<Vec<_>>().join(" ")
    }
}

/// What was compared that the Rust does not have: second counts and flags.
#[derive(Default)]
struct Beside {
    seconds: second::Compared,
    flags: flags::Compared,
}

impl Beside {
    fn add(&mut self, call: &Call, outcome: &Outcome) {
        self.seconds.add(call, &outcome.record, outcome.end);
        self.flags.add(call, outcome.flags, outcome.end, outcome.is_refused());
    }

    /// Where there are many calls, none of the cases may be missing.
    fn check(&self) {
        let (seconds, flags) = (&self.seconds, &self.flags);
        for (count, text, is_whole) in [
            (seconds.replies, seconds.text(), seconds.is_whole()),
            (flags.errors(), flags.text(), flags.is_whole()),
        ] {
            check_cases(count, text, is_whole);
        }
    }
}

fn check_cases(count: u64, text: String, is_whole: bool) {
    if count > 0 {
        println!("{text}");
    }
    if count >= 10_000 && !is_whole {
        println!("a case was not met");
        exit(1);
    }
}

fn report(call: &Call, outcome: &Outcome, difference: &str) {
    println!("DIFFERENCE: {difference}");
    println!("input: {}", text::call_line(call, &outcome.record.answers));
    println!("the Rust:");
    let shown = text::record_text(outcome);
    let lines: Vec<&str> = shown.lines().collect();
    if lines.len() > 400 {
        println!("... {} lines, the last 400:", lines.len());
    }
    for line in &lines[lines.len().saturating_sub(400)..] {
        println!("  {line}");
    }
}

fn made_call(seed: u64, entry: Entry, chip: u8, number: u64, record: Record) -> (Call, Outcome, Random) {
    let mut generator = Generator::new(seed, entry, chip, number, Sizes::All);
    let (call, answers) = generator.call(entry, chip);
    let outcome = rust::run(&call, record, answers, false);
    (call, outcome, generator.random)
}

/// Compares the calls of one entry on one chip. `Err` holds the number of calls up to the first difference.
fn compare(seed: u64, calls: u64, entry: Entry, chip: u8, player: &mut Player, beside: &mut Beside) -> Result<Tally, u64> {
    let mut tally = Tally::default();
    let mut record = Record::default();
    for number in 0..calls {
        let (call, outcome, mut random) = made_call(seed, entry, chip, number, record);
        tally.add(&outcome);
        if let Err(difference) = player.play(&call, &outcome, &mut random) {
            report(&call, &outcome, &difference);
            println!("again: compare replay {seed} {} {chip} {number}", entry.name());
            return Err(number + 1);
        }
        beside.add(&call, &outcome);
        record = outcome.record;
    }
    Ok(tally)
}

fn compare_all(seed: u64, calls: u64, entries: &[Entry], chips: &[u8]) {
    let mut player = Player::default();
    let mut total = Tally::default();
    let mut beside = Beside::default();
    let began = Instant::now();
    let mut done = 0;
    for entry in entries {
        for chip in chips {
            match compare(seed, calls, *entry, *chip, &mut player, &mut beside) {
                Ok(tally) => {
                    println!(
                        "{:16} chip {chip}: {} calls, {} accesses, 0 differences; ends {}",
                        entry.name(),
                        tally.calls,
                        tally.accesses,
                        tally.ends_text()
                    );
                    total.calls += tally.calls;
                    total.accesses += tally.accesses;
                }
                Err(number) => {
                    println!(
                        "found after {} calls ({} of {} on chip {chip})",
                        done + number,
                        number,
                        entry.name()
                    );
                    exit(1);
                }
            }
            done += calls;
        }
    }
    beside.check();
    println!(
        "{} calls, {} accesses, {} refused steps tried, {} calls on the reordered Rust too, 0 differences, {:.1} s",
        total.calls,
        total.accesses,
        player.refused_steps,
        player.reordered_calls,
        began.elapsed().as_secs_f64()
    );
}

/// A speed window beside brute force; then `init` with its pair.
fn compare_window(
    window: &Window,
    player: &mut Player,
    compared: &mut windows::Compared,
    random: &mut Random,
) -> Result<(), String> {
    let found = play::play_window(window)?;
    compared.add(window, found);
    for setting in windows::settings(window, found) {
        player.play_setting(&setting, random)?;
        compared.add_setting(&setting);
    }
    Ok(())
}

fn compare_windows(seed: u64, count: u64) {
    let (windows, mut player, mut compared) = (Windows::new(seed), Player::default(), windows::Compared::default());
    let began = Instant::now();
    for number in 0..count {
        let (window, mut random) = windows.numbered(number);
        if let Err(difference) = compare_window(&window, &mut player, &mut compared, &mut random) {
            println!("DIFFERENCE: {}: {difference}", window.text());
            println!("again: compare window {} {} {}", window.input, window.lowest, window.highest);
            exit(1);
        }
    }
    check_cases(compared.windows(), compared.text(), compared.is_whole());
    println!("{count} windows, 0 differences, {:.1} s", began.elapsed().as_secs_f64());
}

fn show_window(window: &Window) {
    let number = windows::number(windows::brute_force(window));
    println!("{}", window.text());
    println!("brute force   {}", windows::number_text(number));
    println!("the C library {}", windows::number_text(library::speed_window(window)));
    let (mut player, mut compared, mut random) = (Player::default(), windows::Compared::default(), Random::of(&[0]));
    match compare_window(window, &mut player, &mut compared, &mut random) {
        Ok(()) => println!("no difference"),
        Err(difference) => {
            println!("DIFFERENCE: {difference}");
            exit(1);
        }
    }
}

/// How many windows come behind a call of each entry on each chip.
const WINDOWS_A_TURN: u64 = 4;

/// All entries and chips by turns, and windows, up to the first difference. Here no window is set by `init`: that is for its calls.
fn compare_until(seed: u64, calls: u64) {
    let windows = Windows::new(seed);
    let mut player = Player::default();
    let mut count = 0u64;
    for number in 0..calls {
        for (entry, chip) in ENTRIES.iter().flat_map(|entry| [0, 1, 2, 3].map(|chip| (*entry, chip))) {
            let (call, outcome, mut random) = made_call(seed, entry, chip, number, Record::default());
            count += 1;
            if let Err(difference) = player.play(&call, &outcome, &mut random) {
                println!("found at call {count}, {} on chip {chip}: {difference}", entry.name());
                exit(1);
            }
        }
        for place in number * WINDOWS_A_TURN..(number + 1) * WINDOWS_A_TURN {
            let (window, _) = windows.numbered(place);
            if let Err(difference) = play::play_window(&window) {
                println!("found at window {}, behind {count} calls: {}: {difference}", place + 1, window.text());
                exit(1);
            }
        }
    }
    println!("NOT FOUND in {count} calls and {} windows", calls * WINDOWS_A_TURN);
}

fn replay(seed: u64, entry: Entry, chip: u8, number: u64) {
    let (call, outcome, mut random) = made_call(seed, entry, chip, number, Record::default());
    match Player::default().play(&call, &outcome, &mut random) {
        Err(difference) => {
            report(&call, &outcome, &difference);
            exit(1);
        }
        Ok(()) => {
            println!("{}", text::call_line(&call, &outcome.record.answers));
            print!("{}", text::record_text(&outcome));
            println!("no difference");
        }
    }
}

fn compare_lines() {
    let mut player = Player::default();
    let mut count = 0;
    for line in std::io::stdin().lock().lines() {
        let line = line.expect("standard input is text");
        let (call, answers) = text::parse_call(line.trim_start_matches("input: ")).unwrap_or_else(|field| {
            println!("not a call: {field}");
            exit(2);
        });
        let outcome = rust::run(&call, Record::default(), Box::new(Given { answers, used: 0 }), false);
        if let Err(difference) = player.play(&call, &outcome, &mut Random::of(&[count])) {
            report(&call, &outcome, &difference);
            exit(1);
        }
        count += 1;
    }
    println!("{count} calls, 0 differences");
}

fn compare_sample(path: &str) {
    let calls = sample_file::decode(&std::fs::read(path).expect("the sample can be read"));
    let mut player = Player::default();
    for (number, (sampled, outcome)) in calls.iter().enumerate() {
        if let Err(difference) = player.play(&sampled.call, outcome, &mut Random::of(&[number as u64])) {
            report(&sampled.call, outcome, &difference);
            exit(1);
        }
    }
    println!("{} calls of the sample, 0 differences", calls.len());
}

fn main() {
    rust::use_chips(chips::CHIPS);
    let arguments: Vec<String> = std::env::args().skip(1).collect();
    let arguments: Vec<&str> = arguments.iter().map(String::as_str).collect();
    let number = |text: &str| text.parse::<u64>().ok();
    match arguments[..] {
        ["lines"] => compare_lines(),
        ["sample", path] => compare_sample(path),
        ["windows", seed, count] => match (number(seed), number(count)) {
            (Some(seed), Some(count)) => compare_windows(seed, count),
            _ => usage(),
        },
        ["window", input, lowest, highest] => match [input, lowest, highest].map(|text| text.parse().ok()) {
            [Some(input), Some(lowest), Some(highest)] => show_window(&Window::new(input, lowest, highest)),
            _ => usage(),
        },
        ["until", seed, calls] => match (number(seed), number(calls)) {
            (Some(seed), Some(calls)) => compare_until(seed, calls),
            _ => usage(),
        },
        ["replay", seed, entry, chip, n] => match (number(seed), Entry::named(entry), number(chip), number(n)) {
            (Some(seed), Some(entry), Some(chip), Some(n)) => replay(seed, entry, chip as u8, n),
            _ => usage(),
        },
        [seed, calls, ref rest @ ..] => match (number(seed), number(calls), chosen(rest)) {
            (Some(seed), Some(calls), Some((entries, chips))) => compare_all(seed, calls, &entries, &chips),
            _ => usage(),
        },
        _ => usage(),
    }
}

fn chosen(rest: &[&str]) -> Option<(Vec<Entry>, Vec<u8>)> {
    match rest {
        [] => Some((ENTRIES.to_vec(), vec![0, 1, 2, 3])),
        [entry] => Some((vec![Entry::named(entry)?], vec![0, 1, 2, 3])),
        [entry, chip] => Some((vec![Entry::named(entry)?], vec![chip.parse().ok().filter(|c| *c < 4)?])),
        _ => None,
    }
}

fn usage() {
    println!("compare SEED CALLS [ENTRY [CHIP]] | compare windows SEED COUNT | compare window INPUT LOWEST HIGHEST | compare until SEED CALLS | compare replay SEED ENTRY CHIP NUMBER | compare sample FILE | compare lines");
    exit(2);
}
