//! Calls and records as text. A call is one line of `name=value` fields, numbers in decimal and bytes in hex;
//! records are printed as document 01's bench program prints them.

use std::fmt::Write;

use record::{kind, register, value, Call, Entry, CLOCK, READ, REGISTER_NAMES};

use crate::rust::Outcome;

pub fn hex(bytes: &[u8]) -> String {
    bytes.iter().fold(String::new(), |mut text, byte| {
        write!(text, "{byte:02x}").unwrap();
        text
    })
}

pub fn from_hex(text: &str) -> Option<Vec<u8>> {
    if text.len() % 2 != 0 {
        return None;
    }
    (0..text.len())
        .step_by(2)
        .map(|i| u8::from_str_radix(text.get(i..i + 2)?, 16).ok())
        .collect()
}

/// The whole call with its answers, in one line.
pub fn call_line(call: &Call, answers: &[u16]) -> String {
    let numbers = [
        ("chip", call.chip as u64),
        ("address", call.address as u64),
        ("option", call.option as u64),
        ("input", call.input as u64),
        ("frequency", call.frequency as u64),
        ("duty", call.duty as u64),
        ("ten_bit", call.ten_bit as u64),
        ("has_second", call.has_second as u64),
        ("second", call.second as u64),
        ("general_call", call.general_call as u64),
        ("clock_stretching", call.clock_stretching as u64),
        ("block_length", call.block_length as u64),
    ];
    let mut line = format!("entry={}", call.entry.name());
    for (name, number) in numbers {
        write!(line, " {name}={number}").unwrap();
    }
    for (name, bytes) in [("list", &call.list), ("written", &call.written), ("read", &call.read)] {
        write!(line, " {name}={}", hex(bytes)).unwrap();
    }
    let answers: Vec<u8> = answers.iter().flat_map(|answer| answer.to_be_bytes()).collect();
    write!(line, " answers={}", hex(&answers)).unwrap();
    line
}

/// The call and answers of a line, or the field that is wrong.
pub fn parse_call(line: &str) -> Result<(Call, Vec<u16>), String> {
    let mut call = Call::new(Entry::Init);
    let mut answers = Vec::new();
    for field in line.split_whitespace() {
        let (name, text) = field.split_once('=').ok_or(field)?;
        let number = || text.parse::<u64>().map_err(|_| field.to_string());
        let bytes = || from_hex(text).ok_or(field.to_string());
        match name {
            "entry" => call.entry = Entry::named(text).ok_or(field)?,
            "chip" => call.chip = number()? as u8,
            "address" => call.address = number()? as u16,
            "option" => call.option = number()? as u8,
            "input" => call.input = number()? as u32,
            "frequency" => call.frequency = number()? as u32,
            "duty" => call.duty = number()? as u8,
            "ten_bit" => call.ten_bit = number()? as u8,
            "has_second" => call.has_second = number()? as u8,
            "second" => call.second = number()? as u8,
            "general_call" => call.general_call = number()? as u8,
            "clock_stretching" => call.clock_stretching = number()? as u8,
            "block_length" => call.block_length = number()? as usize,
            "list" => call.list = bytes()?,
            "written" => call.written = bytes()?,
            "read" => call.read = bytes()?,
            "answers" => {
                answers = bytes()?
                    .chunks_exact(2)
                    .map(|a| u16::from_be_bytes([a[0], a[1]]))
                    .collect()
            }
            _ => return Err(field.into()),
        }
    }
    Ok((call, answers))
}

/// One access with the value written or the answer, if there is one.
pub fn access_line(access: u32, answer: Option<u16>) -> String {
    let (letter, name) = match kind(access) {
        CLOCK => ("c", "clock"),
        READ => ("r", REGISTER_NAMES[register(access) as usize]),
        _ => ("w", REGISTER_NAMES[register(access) as usize]),
    };
    let shown = if letter == "w" {
        Some(value(access) as u16)
    } else {
        answer
    };
    match shown {
        Some(word) => format!("{letter},{name},{word:04x}"),
        None => format!("{letter},{name}"),
    }
}

/// What the C library's number says.
pub fn number_text(number: u64) -> String {
    match number & 0xff {
        0 => format!(
            "end {} value {:04x} second {:04x} flags {:04x}",
            number >> 8 & 0xff,
            number >> 16 & 0xffff,
            number >> 32 & 0xffff,
            number >> 48
        ),
        1..=3 if number >> 8 & 0xff < 9 && number >> 32 == 0 => access_line(number as u32, None),
        _ => format!("no such number {number:016x}"),
    }
}

/// How many of the bytes read have arrived.
pub fn arrived(outcome: &Outcome) -> usize {
    let record = &outcome.record;
    let asked = record
        .accesses
        .iter()
        .filter(|a| kind(**a) == READ && register(**a) == record::DATAR)
        .count();
    let owed = record.open && record.accesses.last() == Some(&record::read_of(record::DATAR));
    (asked - owed as usize).min(outcome.read.len())
}

/// The record as document 01's bench program prints it.
pub fn record_text(outcome: &Outcome) -> String {
    let record = &outcome.record;
    let mut answers = record.answers.iter();
    let mut text = String::new();
    for access in &record.accesses {
        let answer = if kind(*access) == record::WRITE {
            None
        } else {
            answers.next()
        };
        if kind(*access) == record::WRITE || answer.is_some() {
            writeln!(text, "{}", access_line(*access, answer.copied())).unwrap();
        }
    }
    writeln!(text, "d,{}", hex(&outcome.read[..arrived(outcome)])).unwrap();
    let end = match (&outcome.panic, outcome.end) {
        (Some(message), _) => format!("panic: {message}"),
        (None, None) => "open".into(),
        (None, Some(end)) => format!("{}", end >> 8 & 0xff),
    };
    let value = outcome.end.map_or(0, value);
    write!(text, "end,{end},{},{:04x}", record.answers.len(), outcome.flags).unwrap();
    if value != 0 {
        write!(text, ",value {value:04x}").unwrap();
    }
    if outcome.second != 0 {
        write!(text, ",second {:04x}", outcome.second).unwrap();
    }
    text.push('\n');
    text
}
