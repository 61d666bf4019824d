//! The stored sample: calls with the Rust's record, end and bytes. oracle/SAMPLE.md describes the format.

use record::{kind, register, value, Call, Record, CLOCK, ENTRIES, READ, WRITE};

use crate::rust::Outcome;
use crate::text::arrived;

pub const MAGIC: &[u8; 8] = b"ch32i2c3";

/// Byte `place` of lent bytes with this seed.
pub fn rule(seed: u8, place: usize) -> u8 {
    (seed as usize + 7 * place + place / 256) as u8
}

pub fn by_rule(seed: u8, length: usize) -> Vec<u8> {
    (0..length).map(|place| rule(seed, place)).collect()
}

/// A call whose lent bytes follow the rule, from these seeds.
pub struct Sampled {
    pub call: Call,
    pub written_seed: u8,
    pub read_seed: u8,
}

impl Sampled {
    pub fn new(mut call: Call, written_seed: u8, read_seed: u8) -> Self {
        call.written = by_rule(written_seed, call.written.len());
        call.read = by_rule(read_seed, call.read.len());
        Self {
            call,
            written_seed,
            read_seed,
        }
    }
}

fn put_record(bytes: &mut Vec<u8>, record: &Record) {
    let mut answers = record.answers.iter();
    for access in &record.accesses {
        let code = (kind(*access) << 4 | register(*access)) as u8;
        let word = if kind(*access) == WRITE {
            Some(value(*access) as u16)
        } else {
            answers.next().copied()
        };
        match word {
            Some(word) => {
                bytes.push(code);
                bytes.extend(word.to_le_bytes());
            }
            None => bytes.push(code | 0x40),
        }
    }
}

/// The bytes of one call.
pub fn encode(sampled: &Sampled, outcome: &Outcome) -> Vec<u8> {
    let call = &sampled.call;
    let mut bytes = vec![0; 4];
    bytes.extend([call.entry as u8, call.chip]);
    bytes.extend(call.address.to_le_bytes());
    bytes.extend([call.option, call.duty, call.ten_bit, call.has_second, call.second]);
    bytes.extend([call.general_call, call.clock_stretching, call.block_length as u8]);
    bytes.extend(call.input.to_le_bytes());
    bytes.extend(call.frequency.to_le_bytes());
    bytes.extend((call.written.len() as u32).to_le_bytes());
    bytes.extend((call.read.len() as u32).to_le_bytes());
    bytes.extend([sampled.written_seed, sampled.read_seed]);
    bytes.extend((call.list.len() as u16).to_le_bytes());
    bytes.extend(&call.list);
    put_record(&mut bytes, &outcome.record);
    if let Some(end) = outcome.end {
        bytes.extend([0, (end >> 8) as u8]);
        bytes.extend((value(end) as u16).to_le_bytes());
        bytes.extend(outcome.extra().to_le_bytes());
    }
    let arrived = arrived(outcome);
    bytes.extend((arrived as u16).to_le_bytes());
    bytes.extend(&outcome.read[..arrived]);
    let length = bytes.len() as u32;
    bytes[..4].copy_from_slice(&length.to_le_bytes());
    bytes
}

/// Takes bytes and numbers off the front.
struct Cursor<'a>(&'a [u8]);

impl<'a> Cursor<'a> {
    fn take(&mut self, count: usize) -> &'a [u8] {
        let (front, rest) = self.0.split_at(count);
        self.0 = rest;
        front
    }

    fn number(&mut self, count: usize) -> u32 {
        self.take(count)
            .iter()
            .rev()
            .fold(0, |number, byte| number << 8 | *byte as u32)
    }
}

fn get_call(bytes: &mut Cursor<'_>) -> Sampled {
    let mut call = Call::new(ENTRIES[bytes.number(1) as usize]);
    call.chip = bytes.number(1) as u8;
    call.address = bytes.number(2) as u16;
    call.option = bytes.number(1) as u8;
    call.duty = bytes.number(1) as u8;
    call.ten_bit = bytes.number(1) as u8;
    call.has_second = bytes.number(1) as u8;
    call.second = bytes.number(1) as u8;
    call.general_call = bytes.number(1) as u8;
    call.clock_stretching = bytes.number(1) as u8;
    call.block_length = bytes.number(1) as usize;
    call.input = bytes.number(4);
    call.frequency = bytes.number(4);
    call.written = vec![0; bytes.number(4) as usize];
    call.read = vec![0; bytes.number(4) as usize];
    let (written_seed, read_seed) = (bytes.number(1) as u8, bytes.number(1) as u8);
    let list_length = bytes.number(2) as usize;
    call.list = bytes.take(list_length).to_vec();
    Sampled::new(call, written_seed, read_seed)
}

/// The record up to its end, and the end with what stands beside it; `None` for an open call.
fn get_record(bytes: &mut Cursor<'_>) -> (Record, Option<u32>, u16) {
    let mut record = Record::default();
    loop {
        let code = bytes.number(1);
        if code == 0 {
            let end = bytes.number(1) << 8 | bytes.number(2) << 16;
            return (record, Some(end), bytes.number(2) as u16);
        }
        let access = code >> 4 & 3 | (code & 15) << 8;
        if code & 0x40 != 0 {
            record.accesses.push(access);
            record.open = true;
            return (record, None, 0);
        }
        let word = bytes.number(2);
        match code >> 4 {
            WRITE => record.accesses.push(access | word << 16),
            READ | CLOCK => {
                record.accesses.push(access);
                record.answers.push(word as u16);
            }
            _ => panic!("no such access in the sample"),
        }
    }
}

fn decode_one(bytes: &mut Cursor<'_>) -> (Sampled, Outcome) {
    let length = bytes.number(4) as usize;
    let mut one = Cursor(bytes.take(length - 4));
    let sampled = get_call(&mut one);
    let (record, end, extra) = get_record(&mut one);
    let is_done = end.is_some_and(|end| end >> 8 & 0xff == 0);
    let (second, flags) = if is_done { (extra, 0) } else { (0, extra) };
    let arrived = one.number(2) as usize;
    let mut read = sampled.call.read.clone();
    read[..arrived].copy_from_slice(one.take(arrived));
    assert!(one.0.is_empty(), "a call's length is wrong");
    let outcome = Outcome {
        record,
        end,
        second,
        flags,
        read,
        panic: None,
    };
    (sampled, outcome)
}

/// All calls of a sample.
pub fn decode(bytes: &[u8]) -> Vec<(Sampled, Outcome)> {
    let mut bytes = Cursor(bytes);
    assert!(bytes.take(8) == MAGIC, "not a sample");
    let count = bytes.number(4);
    let calls = (0..count).map(|_| decode_one(&mut bytes)).collect();
    assert!(bytes.0.is_empty(), "bytes after the last call");
    calls
}
