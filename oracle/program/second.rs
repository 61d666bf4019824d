//! Document 02's second count of a reply, kept beside the unchanged Rust from the words that it was fed: nothing here comes
//! from the Rust. In it AF takes a byte off a positive sent count as STOPF and ADDR do, when TXE is clear in that word.

use record::{kind, register, value, Call, Entry, Record, DATAR, STAR1, WRITE};

const ADDR: u16 = 1 << 1;
const STOPF: u16 = 1 << 4;
const TXE: u16 = 1 << 7;
const AF: u16 = 1 << 10;

/// The word by which a reply's loop ended, and the bytes that had gone to DATAR before it.
#[derive(Copy, Clone)]
pub struct Closing {
    word: u16,
    sent: usize,
}

impl Closing {
    /// The first STAR1 word with AF, STOPF or ADDR: the loop reads no other word before it that ends it.
    fn of(record: &Record) -> Option<Self> {
        let (mut sent, mut answers) = (0, record.answers.iter());
        for access in &record.accesses {
            if kind(*access) == WRITE {
                sent += (register(*access) == DATAR) as usize;
                continue;
            }
            let word = *answers.next()?;
            if register(*access) == STAR1 && word & (AF | STOPF | ADDR) != 0 {
                return Some(Self { word, sent });
            }
        }
        None
    }

    /// Whether it was AF, whether TXE was set, and how much had been sent: the classes of `SENT` that it belongs to.
    pub fn class(self, length: usize) -> (bool, bool, [bool; SENT.len()]) {
        let sent = self.sent;
        let classes = [sent == 0, sent == 1, sent == length, sent == length + 1, sent > length + 1];
        (self.word & AF != 0, self.word & TXE != 0, classes)
    }

    /// How many of `length` bytes are left over, where a byte that waits is taken off the count, or is not.
    fn left_over(self, length: usize, takes_off: bool) -> u16 {
        let waits = takes_off && self.word & TXE == 0 && self.sent > 0;
        length.saturating_sub(self.sent - waits as usize) as u16
    }

    /// Whether the Rust's own count, at the end that it gave, is of the bytes counted here. AF takes nothing off it.
    pub fn is_of_the_rust(self, length: usize, end: u32) -> bool {
        u32::from(self.left_over(length, self.word & AF == 0)) == value(end)
    }
}

/// How a call came to an end with two counts: a reply's with 0.
pub fn closing(call: &Call, record: &Record, end: Option<u32>) -> Option<Closing> {
    let is_done = end.is_some_and(|end| end >> 8 & 0xff == 0);
    if call.entry == Entry::RespondToRead && is_done {
        Closing::of(record)
    } else {
        None
    }
}

/// The second count of an end, and 0 where there is none.
pub fn of_end(call: &Call, record: &Record, end: Option<u32>) -> u16 {
    closing(call, record, end).map_or(0, |closing| closing.left_over(call.written.len(), true))
}

const SENT: [&str; 5] = ["0", "1", "the length", "the length + 1", "more"];

/// In how many replies the second count was compared, and at AF by what was sent, with TXE clear and set.
#[derive(Default)]
pub struct Compared {
    pub replies: u64,
    at_af: [[u64; SENT.len()]; 2],
}

impl Compared {
    pub fn add(&mut self, call: &Call, record: &Record, end: Option<u32>) {
        let Some(closing) = closing(call, record, end) else {
            return;
        };
        self.replies += 1;
        let (is_af, is_txe, classes) = closing.class(call.written.len());
        if is_af {
            let counts = self.at_af[is_txe as usize].iter_mut();
            counts.zip(classes).for_each(|(count, is_of)| *count += is_of as u64);
        }
    }

    /// Whether each of the numbers sent was met at AF, with TXE clear and set.
    pub fn is_whole(&self) -> bool {
        self.at_af.iter().flatten().all(|count| *count > 0)
    }

    pub fn text(&self) -> String {
        let [clear, set] = &self.at_af;
        let classes = SENT.iter().zip(clear.iter().zip(set));
        let counts: Vec<String> = classes
            .map(|(sent, (clear, set))| format!("{sent}: {clear} and {set}"))
            .collect();
        format!(
            "second count compared in {} replies; at AF with TXE clear and set, bytes sent {}",
            self.replies,
            counts.join("; ")
        )
    }
}
