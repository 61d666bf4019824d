//! Runs a call on the carried Rust, or on the copy of it that has the port's order of errors.

use std::any::Any;
use std::panic::{catch_unwind, AssertUnwindSafe};
use std::sync::OnceLock;

use record::{Answers, Call, Entry, Given, OutOfAnswers, Record};

use crate::flags::Order;
use crate::{causes, flags, second};

/// Calls one build of the Rust.
type Build = fn(&Call, &mut [u8]) -> (u8, u16);

/// The carried Rust, built for each chip, and the copy in the port's order, built for chips 2 and 3. On the others that order is
/// the Rust's.
pub struct Chips {
    pub carried: [Build; 4],
    pub reordered: [Build; 2],
}

static CHIPS: OnceLock<Chips> = OnceLock::new();

/// Says which builds to run, once and first of all. Panics of the Rust are then kept quiet; `Outcome::panic` has them.
pub fn use_chips(chips: Chips) {
    CHIPS.get_or_init(|| chips);
    std::panic::set_hook(Box::new(|_| {}))
}

/// What a call comes to: its record, its end as the C library's number (none for an open call), the second count and the
/// flags beside it and the read bytes.
pub struct Outcome {
    pub record: Record,
    pub end: Option<u32>,
    pub second: u16,
    pub flags: u16,
    pub read: Vec<u8>,
    pub panic: Option<String>,
}

pub const fn end_number(end: u8, value: u16) -> u32 {
    (end as u32) << 8 | (value as u32) << 16
}

impl Outcome {
    /// What stands beside the end: the second count at an end with 0, the flags at an error.
    pub fn extra(&self) -> u16 {
        if self.end.is_some_and(|end| end >> 8 & 0xff == 0) {
            self.second
        } else {
            self.flags
        }
    }

    /// Refused before any access: nothing may have changed.
    pub fn is_refused(&self) -> bool {
        self.record.accesses.is_empty() && !matches!(self.end, Some(0) | None)
    }
}

fn message(panic: Box<dyn Any + Send>) -> String {
    match panic.downcast::<&str>() {
        Ok(text) => text.to_string(),
        Err(panic) => panic.downcast::<String>().map_or("?".into(), |text| *text),
    }
}

fn build(call: &Call, order: Order) -> Build {
    let (chips, chip) = (CHIPS.get().expect("use_chips comes first"), call.chip as usize);
    match order {
        Order::Port if chip > 1 => chips.reordered[chip - 2],
        _ => chips.carried[chip],
    }
}

/// Calls the Rust and nothing else: the record is the caller's to start and finish.
pub fn run_bare(call: &Call, read: &mut [u8]) -> (u8, u16) {
    build(call, Order::Rust)(call, read)
}

fn run_build(build: Build, call: &Call, record: Record, answers: Box<dyn Answers>, with_places: bool) -> Outcome {
    let mut read = call.read.clone();
    record::start(record, answers, with_places);
    let result = catch_unwind(AssertUnwindSafe(|| build(call, &mut read)));
    let (record, _) = record::finish();
    let (end, panic) = match result {
        Ok((end, value)) => (Some(end_number(end, value)), None),
        Err(payload) if payload.is::<OutOfAnswers>() => (None, None),
        Err(payload) => (None, Some(message(payload))),
    };
    Outcome {
        second: second::of_end(call, &record, end),
        flags: flags::of_end(call, &record, end),
        record,
        end,
        read,
        panic,
    }
}

/// Runs a call on the Rust, without a look at the added causes.
pub fn run_rust(call: &Call, record: Record, answers: Box<dyn Answers>, with_places: bool) -> Outcome {
    run_build(build(call, Order::Rust), call, record, answers, with_places)
}

/// A list whose sums are not the lent lengths comes here only if the Rust refuses it for another cause. The Rust's
/// operations hold their own bytes, so they get as many as the list says.
fn with_bytes_for_its_list(call: &Call) -> Option<Call> {
    let sum = |asked| call.operations().filter(|o| o.0 == asked).map(|o| o.1).sum::<usize>();
    let sums = (sum(0), sum(1));
    if call.entry != Entry::Transaction || sums == (call.written.len(), call.read.len()) {
        return None;
    }
    let mut lent = call.clone();
    lent.written = vec![0; sums.0];
    lent.read = vec![0; sums.1];
    Some(lent)
}

/// Runs a call: the added causes first, then the Rust. `record` is reused.
pub fn run(call: &Call, record: Record, answers: Box<dyn Answers>, with_places: bool) -> Outcome {
    run_with(Order::Rust, call, record, answers, with_places)
}

/// Runs a call with given answers on the Rust in an order.
pub fn run_in(order: Order, call: &Call, answers: &[u16]) -> Outcome {
    let given = Given {
        answers: answers.to_vec(),
        used: 0,
    };
    run_with(order, call, Record::default(), Box::new(given), false)
}

fn run_with(order: Order, call: &Call, mut record: Record, answers: Box<dyn Answers>, with_places: bool) -> Outcome {
    if let Some(cause) = causes::added(call) {
        record::start(record, answers, false);
        record = record::finish().0;
        return Outcome {
            record,
            end: Some(end_number(cause, 0)),
            second: 0,
            flags: 0,
            read: call.read.clone(),
            panic: None,
        };
    }
    match with_bytes_for_its_list(call) {
        None => run_build(build(call, order), call, record, answers, with_places),
        Some(lent) => {
            let mut outcome = run_build(build(call, order), &lent, record, answers, with_places);
            assert!(outcome.is_refused(), "a list that does not fit its buffers was run");
            outcome.read = call.read.clone();
            outcome
        }
    }
}
