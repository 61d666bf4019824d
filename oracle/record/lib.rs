//! What a call asks of its registers and its clock, in order, and the calls themselves.
//!
//! An access is held as the number by which the C library hands it out:
//! bits 0-7 the kind, bits 8-15 the register, bits 16-31 the value written.

mod call;

pub use call::{Call, Entry, ENTRIES};

use std::cell::RefCell;
use std::panic::Location;

pub const END: u32 = 0;
pub const READ: u32 = 1;
pub const WRITE: u32 = 2;
pub const CLOCK: u32 = 3;

pub const CTLR1: u32 = 0;
pub const CTLR2: u32 = 1;
pub const OADDR1: u32 = 2;
pub const OADDR2: u32 = 3;
pub const DATAR: u32 = 4;
pub const STAR1: u32 = 5;
pub const STAR2: u32 = 6;
pub const CKCFGR: u32 = 7;
pub const RTR: u32 = 8;

pub const REGISTER_NAMES: [&str; 9] = [
    "CTLR1", "CTLR2", "OADDR1", "OADDR2", "DATAR", "STAR1", "STAR2", "CKCFGR", "RTR",
];

pub const fn read_of(register: u32) -> u32 {
    READ | register << 8
}

pub const fn write_of(register: u32, value: u32) -> u32 {
    WRITE | register << 8 | value << 16
}

pub fn kind(access: u32) -> u32 {
    access & 0xff
}

pub fn register(access: u32) -> u32 {
    access >> 8 & 0xff
}

pub fn value(access: u32) -> u32 {
    access >> 16
}

/// A line of the carried Rust that makes an access: 0 for i2c.rs, 1 for slave.rs, and its number.
pub type Place = (u8, u32);

/// Where a call's answers come from. The last access is the one asked. `None` leaves the call open.
pub trait Answers {
    fn next(&mut self, accesses: &[u32]) -> Option<u16>;
}

/// No answers at all.
pub struct NoAnswers;

impl Answers for NoAnswers {
    fn next(&mut self, _accesses: &[u32]) -> Option<u16> {
        None
    }
}

/// A list of answers, taken in order.
pub struct Given {
    pub answers: Vec<u16>,
    pub used: usize,
}

impl Answers for Given {
    fn next(&mut self, _accesses: &[u32]) -> Option<u16> {
        let answer = self.answers.get(self.used).copied();
        self.used += answer.is_some() as usize;
        answer
    }
}

/// All accesses, the owed one included; whether interrupts were held off at each; the answers to reads and questions;
/// the place of each access.
#[derive(Default)]
pub struct Record {
    pub accesses: Vec<u32>,
    pub held: Vec<bool>,
    pub answers: Vec<u16>,
    pub places: Vec<Place>,
    pub open: bool,
}

struct Recorder {
    record: Record,
    source: Box<dyn Answers>,
    with_places: bool,
    held: bool,
}

thread_local! {
    static RECORDER: RefCell<Recorder> = RefCell::new(Recorder {
        record: Record::default(),
        source: Box::new(NoAnswers),
        with_places: false,
        held: false,
    });
}

/// What unwinds a call that is out of answers.
pub struct OutOfAnswers;

/// Begins a record. `record` is emptied and reused.
pub fn start(mut record: Record, source: Box<dyn Answers>, with_places: bool) {
    record.accesses.clear();
    record.held.clear();
    record.answers.clear();
    record.places.clear();
    record.open = false;
    RECORDER.with_borrow_mut(|r| {
        *r = Recorder {
            record,
            source,
            with_places,
            held: false,
        }
    })
}

/// From here on interrupts are held off, or no longer.
pub fn hold(held: bool) {
    RECORDER.with_borrow_mut(|r| r.held = held)
}

/// Hands back the record and the source of its answers.
pub fn finish() -> (Record, Box<dyn Answers>) {
    RECORDER.with_borrow_mut(|r| {
        (
            std::mem::take(&mut r.record),
            std::mem::replace(&mut r.source, Box::new(NoAnswers)),
        )
    })
}

fn place(caller: &Location<'_>) -> Place {
    (caller.file().ends_with("slave.rs") as u8, caller.line())
}

impl Recorder {
    fn note(&mut self, access: u32, caller: &Location<'_>) {
        self.record.accesses.push(access);
        self.record.held.push(self.held);
        if self.with_places {
            self.record.places.push(place(caller));
        }
    }

    fn ask(&mut self, access: u32, caller: &Location<'_>) -> Option<u16> {
        self.note(access, caller);
        let answer = self.source.next(&self.record.accesses);
        match answer {
            Some(answer) => self.record.answers.push(answer),
            None => self.record.open = true,
        }
        answer
    }
}

/// Out of answers the call is unwound. What its guards do on the way out is not part of it, and reads 0.
fn ask(access: u32, caller: &Location<'_>) -> u16 {
    let answer = RECORDER.with_borrow_mut(|r| match r.record.open {
        true => Some(0),
        false => r.ask(access, caller),
    });
    answer.unwrap_or_else(|| std::panic::resume_unwind(Box::new(OutOfAnswers)))
}

/// A register read, which takes the next answer.
#[inline(never)]
pub fn read(register: u32, caller: &Location<'_>) -> u16 {
    ask(read_of(register), caller)
}

/// A register write.
#[inline(never)]
pub fn write(register: u32, value: u32, caller: &Location<'_>) {
    assert!(value <= 0xffff, "a register is a 16-bit word");
    RECORDER.with_borrow_mut(|r| {
        if !r.record.open {
            r.note(write_of(register, value), caller)
        }
    })
}

/// A question to the clock, which takes the next answer: 0 in time, other values late.
#[inline(never)]
pub fn clock(caller: &Location<'_>) -> u16 {
    ask(CLOCK, caller)
}
