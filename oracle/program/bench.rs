//! Document 01's bench input, run on the Rust. Meant for well-formed input: a bad line is named, and that is all.

use record::{Call, Entry};

use crate::flags::Order;
use crate::{ends, rust, text};

fn hex_number(text: &str) -> Option<u16> {
    u16::from_str_radix(text, 16).ok()
}

fn read_line(call: &mut Call, answers: &mut Vec<u16>, line: &str) -> Option<()> {
    let (letter, rest) = line.split_once(',')?;
    let mut operation = |direction: u8, length: usize| {
        call.list.extend([direction, length as u8, (length >> 8) as u8]);
    };
    match letter {
        "T" => {
            let (chip, address) = rest.split_once(',')?;
            call.chip = chip.parse().ok()?;
            call.address = hex_number(address)?;
        }
        "W" => {
            let bytes = text::from_hex(rest)?;
            operation(0, bytes.len());
            call.written.extend(bytes);
        }
        "R" => {
            let length = hex_number(rest)? as usize;
            operation(1, length);
            call.read.resize(call.read.len() + length, 0);
        }
        "A" => answers.extend(rest.split(',').map(hex_number).collect::<Option<Vec<u16>>>()?),
        _ => return None,
    }
    Some(())
}

/// What the Rust makes of this input in an order, as the bench program prints it. The bench program's own order is the port's.
pub fn run(input: &str, order: Order) -> String {
    let mut call = Call::new(Entry::Transaction);
    let mut answers = Vec::new();
    for (index, line) in input.lines().enumerate() {
        if read_line(&mut call, &mut answers, line).is_none() {
            return format!("bad,{}\n", index + 1);
        }
    }
    text::record_text(&rust::run_in(order, &call, &answers))
}

/// The bench input of a transaction, if it can be said in one: a chip that exists, a sound list, not too long.
pub fn input_of(call: &Call, answers: &[u16]) -> Option<String> {
    let is_sound = call.list.len() % 3 == 0 && call.operations().all(|(direction, _)| direction < 2);
    if call.chip > 3 || !is_sound || answers.len() > 4096 {
        return None;
    }
    let mut input = format!("T,{},{:02x}\n", call.chip, call.address);
    let mut written = &call.written[..];
    for (direction, length) in call.operations() {
        if direction == 1 {
            input += &format!("R,{length:04x}\n");
        } else {
            let (part, rest) = written.split_at_checked(length)?;
            input += &format!("W,{}\n", text::hex(part));
            written = rest;
        }
    }
    for line in answers.chunks(16) {
        let words: Vec<String> = line.iter().map(|answer| format!("{answer:04x}")).collect();
        input += &format!("A,{}\n", words.join(","));
    }
    (input.len() <= 65_536).then_some(input)
}

/// The bench program's output with its end as the Rust's: the line `end,NUMBER,USED,FLAGS` goes through `ends`. The flags stay,
/// and are compared with those of the words that the Rust was fed.
pub fn as_the_rust(input: &str, output: &str) -> Option<String> {
    let chip = input.strip_prefix("T,")?.split(',').next()?.parse().ok()?;
    let (start, last) = output.split_at(output.rfind("end,")?);
    let (number, rest) = last.strip_prefix("end,")?.split_once(',')?;
    let Ok(number) = number.parse::<u64>() else {
        return Some(output.into());
    };
    let (_, flags) = rest.trim_end().split_once(',')?;
    let end = ends::of_transfer(chip, number << 8 | u64::from(hex_number(flags)?) << 48);
    Some(format!("{start}end,{},{rest}", end >> 8 & 0xff))
}
