//! Document 02's flags of an error, kept beside the Rust from the words that it was fed, and the two orders in which they
//! decide. An error check clears the error flags of the word that it reads, so a check is a read of STAR1 and a write of it; it
//! decides the end if one of the flags is an error on this chip, for a master or a slave.

use record::{kind, register, Call, Entry, Record, READ, STAR1, WRITE};

const BERR: u16 = 1 << 8;
const ARLO: u16 = 1 << 9;
const AF: u16 = 1 << 10;
const OVR: u16 = 1 << 11;
const PECERR: u16 = 1 << 12;
const TIMEOUT: u16 = 1 << 14;

/// All of them: those that a check clears.
pub const ALL: u16 = BERR | ARLO | AF | OVR | PECERR | TIMEOUT;

/// Whose order of errors: document 01's, which is the unchanged Rust's, or document 02's, the port's.
#[derive(Copy, Clone, PartialEq, Eq)]
pub enum Order {
    Rust,
    Port,
}

fn is_master(call: &Call) -> bool {
    matches!(
        call.entry,
        Entry::Transaction | Entry::WriteRead | Entry::Write | Entry::Read
    )
}

fn is_v3(call: &Call) -> bool {
    call.chip & 1 != 0
}

fn is_ch32v4(call: &Call) -> bool {
    call.chip & 2 != 0
}

/// The errors in an order: flag, end, and whether this call's chip and side have it.
fn classes(call: &Call, order: Order) -> [(u16, u8, bool); 6] {
    let mut classes = [
        (ARLO, 2, true),
        (TIMEOUT, 4, is_v3(call)),
        (PECERR, 5, true),
        (OVR, 6, true),
        (AF, 3, is_master(call)),
        (BERR, 1, is_ch32v4(call)),
    ];
    // BERR comes directly behind ARLO.
    if order == Order::Port && is_ch32v4(call) {
        classes[1..].rotate_right(1);
    }
    classes
}

/// The flags that are errors for this call.
fn errors(call: &Call) -> u16 {
    let of_call = classes(call, Order::Rust).into_iter().filter(|(_, _, is_error)| *is_error);
    of_call.fold(0, |mask, (flag, _, _)| mask | flag)
}

/// The end that a check of this word decides.
pub fn decided(call: &Call, order: Order, word: u16) -> Option<u8> {
    let mut set = classes(call, order).into_iter().filter(|(flag, _, is_error)| *is_error && word & flag != 0);
    set.next().map(|(_, end, _)| end)
}

/// Whether the port has another end than the Rust at this word, or at these flags of one.
pub fn departs(call: &Call, word: u16) -> bool {
    let between = PECERR | OVR | if is_v3(call) { TIMEOUT } else { 0 } | if is_master(call) { AF } else { 0 };
    is_ch32v4(call) && word & BERR != 0 && word & ARLO == 0 && word & between != 0
}

/// The last word read from STAR1, if it was cleared at once. Nothing after it reads STAR1: listen's clearing of old flags,
/// which is no check, is followed by reads of it.
fn cleared(record: &Record) -> Option<u16> {
    let (mut answers, mut last) = (record.answers.iter(), None);
    for (place, access) in record.accesses.iter().enumerate() {
        if kind(*access) == WRITE {
            continue;
        }
        let word = *answers.next()?;
        if (kind(*access), register(*access)) == (READ, STAR1) {
            let next = record.accesses.get(place + 1);
            let is_cleared = next.is_some_and(|next| (kind(*next), register(*next)) == (WRITE, STAR1));
            last = is_cleared.then_some(word);
        }
    }
    last
}

/// The word of the check that decided this end.
fn deciding(call: &Call, record: &Record, end: Option<u32>) -> Option<u16> {
    let is_error = end.is_some_and(|end| end >> 8 & 0xff != 0) && !record.accesses.is_empty();
    let word = if is_error { cleared(record)? } else { return None };
    (word & errors(call) != 0).then_some(word)
}

/// The flags of an end, and 0 where no check decided it.
pub fn of_end(call: &Call, record: &Record, end: Option<u32>) -> u16 {
    deciding(call, record, end).map_or(0, |word| word & ALL)
}

/// Whether an end is the one that these flags decide in an order. Without them only a late clock is left, and a master's START
/// that was lost.
pub fn decide(call: &Call, order: Order, record: &Record, end: u32) -> bool {
    let number = (end >> 8) as u8;
    match deciding(call, record, Some(end)) {
        Some(word) => decided(call, order, word) == Some(number),
        None => matches!(number, 0 | 4) || number == 2 && is_master(call),
    }
}

/// Of masters and slaves, by a number for each side.
fn sides<T: Copy>(of: &[T; 2], text: impl Fn(&str, T) -> String) -> String {
    format!("{}; {}", text("masters'", of[1]), text("slaves'", of[0]))
}

/// How often flags were compared at an error, for masters and slaves: none, one, or several of them; how often a flag was among
/// them that is no error there; and how often the port's end is another than the Rust's.
#[derive(Default)]
pub struct Compared {
    counts: [[u64; 3]; 2],
    beside: [u64; 2],
    departing: Departing,
}

impl Compared {
    pub fn add(&mut self, call: &Call, flags: u16, end: Option<u32>, is_refused: bool) {
        if is_refused || end.is_none_or(|end| end >> 8 & 0xff == 0) {
            return;
        }
        let side = is_master(call) as usize;
        self.counts[side][flags.count_ones().min(2) as usize] += 1;
        self.beside[side] += (flags & !errors(call) != 0) as u64;
        self.departing.add(call, flags);
    }

    pub fn errors(&self) -> u64 {
        self.counts.iter().flatten().sum()
    }

    pub fn is_whole(&self) -> bool {
        let counts = self.counts.iter().flatten().chain(&self.beside);
        counts.chain(&self.departing.0).all(|count| *count > 0)
    }

    pub fn text(&self) -> String {
        let of = [0, 1].map(|side| (self.counts[side], self.beside[side]));
        let counts = sides(&of, |name, ([none, one, several], beside)| {
            format!("{name} none {none}, one {one}, several {several}, one that is no error {beside}")
        });
        let departing = self.departing.text();
        format!("flags compared at {} errors: {counts}; {departing}", self.errors())
    }
}

/// How often the port's end is another than the Rust's, of slaves and masters.
#[derive(Default)]
pub struct Departing([u64; 2]);

impl Departing {
    /// With the flags of an end.
    pub fn add(&mut self, call: &Call, flags: u16) {
        self.0[is_master(call) as usize] += departs(call, flags) as u64;
    }

    pub fn is_whole(&self) -> bool {
        self.0.iter().all(|count| *count > 0)
    }

    pub fn text(&self) -> String {
        let counts = sides(&self.0, |name, count| format!("{name} {count}"));
        format!("Bus where the Rust has another error: {counts}")
    }
}
