//! Random answers, chosen with the register asked and the accesses before it in view.

use record::{kind, read_of, register, Answers, Entry, CLOCK, CTLR1, CTLR2, DATAR, STAR1, STAR2, WRITE};

use crate::random::Random;

const SB: u16 = 1 << 0;
const ADDR: u16 = 1 << 1;
const BTF: u16 = 1 << 2;
const STOPF: u16 = 1 << 4;
const RXNE: u16 = 1 << 6;
const TXE: u16 = 1 << 7;
const AF: u16 = 1 << 10;
const ERRORS: [u16; 6] = [1 << 8, 1 << 9, AF, 1 << 11, 1 << 12, 1 << 14];
const UNUSED: u16 = 1 << 3 | 1 << 5 | 1 << 13 | 1 << 15;
const START: u16 = 1 << 8;
const STOP: u16 = 1 << 9;
const MSL: u16 = 1 << 0;
const GENCALL: u16 = 1 << 4;

/// How a call's answers behave. Chances are in 1024.
#[derive(Clone)]
pub struct Mood {
    /// Answers in all; then the call is open.
    pub limit: u64,
    random_word: u16,
    error: u16,
    late: u16,
    /// That a status flag which the driver may wait for is set.
    flag: u16,
    /// That START or STOP is still set in CTLR1.
    pending: u16,
    not_master: u16,
    /// That the other side ends a slave's call at this look. 0 leaves it to `MadeUp::looks`.
    over: u16,
}

impl Mood {
    pub fn new(random: &mut Random, longest: usize) -> Self {
        let limit = match random.below(1024) {
            0..=150 => random.below(30),
            151..=200 => random.below(200),
            201..=215 => 1_000_000,
            _ if longest > 4000 => 300,
            _ => 4000,
        };
        let undisturbed = limit > 4000 || random.one_in(4);
        let mut mood = Self {
            limit,
            random_word: random.pick(&[0, 0, 0, 0, 0, 8, 64, 512]),
            error: random.pick(&[0, 0, 0, 2, 8, 32, 128]),
            late: random.pick(&[0, 0, 0, 8, 64, 256]),
            flag: random.pick(&[1024, 1000, 900, 900, 600, 400]),
            pending: random.pick(&[0, 0, 4, 64, 256]),
            not_master: random.pick(&[0, 0, 0, 16, 128]),
            over: random.pick(&[512, 256, 128, 64, 32, 8]),
        };
        if undisturbed {
            (mood.random_word, mood.error, mood.late, mood.not_master) = (0, 0, 0, 0);
        }
        if limit > 4000 {
            // Long calls should come to their end in reasonable time.
            mood.flag = mood.flag.max(900);
            if longest > 4000 {
                (mood.flag, mood.over) = (1024, 0);
            }
        }
        mood
    }

    /// Nothing goes wrong, and a slave's call ends after `MadeUp::looks`.
    pub fn calm(limit: u64) -> Self {
        Self {
            limit,
            random_word: 0,
            error: 0,
            late: 0,
            flag: 1024,
            pending: 0,
            not_master: 0,
            over: 0,
        }
    }
}

/// The answers of a call, made as they are asked.
pub struct MadeUp {
    pub random: Random,
    pub mood: Mood,
    pub entry: Entry,
    /// Looks at STAR1 after which a long slave call ends.
    pub looks: u64,
}

impl MadeUp {
    fn flags(&mut self, flags: &[u16]) -> u16 {
        let chance = self.mood.flag;
        flags
            .iter()
            .map(|flag| if self.random.chance(chance) { *flag } else { 0 })
            .sum()
    }

    fn unused(&mut self) -> u16 {
        if self.random.one_in(4) {
            self.random.word() & UNUSED
        } else {
            0
        }
    }

    fn errors(&mut self) -> u16 {
        if !self.random.chance(self.mood.error) {
            return 0;
        }
        let mut errors = self.random.pick(&ERRORS);
        while self.random.one_in(2) {
            errors |= self.random.pick(&ERRORS);
        }
        errors
    }

    /// That the other side ends a slave's call now.
    fn is_over(&mut self) -> bool {
        self.looks = self.looks.saturating_sub(1);
        if self.mood.over == 0 {
            self.looks == 0
        } else {
            self.random.chance(self.mood.over)
        }
    }

    fn status_for_master(&mut self, before: &[u32]) -> u16 {
        let status = self.flags(&[SB, ADDR, BTF, RXNE, TXE]) | self.random.word() & STOPF;
        // The look at SB before START.
        let at_start = before.last() == Some(&read_of(CTLR1));
        if at_start && !self.random.one_in(8) {
            status & !SB
        } else {
            status
        }
    }

    fn status_for_slave(&mut self) -> u16 {
        let idle = self.random.word() & (SB | BTF);
        let over = self.is_over();
        match self.entry {
            Entry::Listen if over => idle | ADDR | self.random.word() & (STOPF | RXNE | TXE),
            Entry::Listen => idle | self.random.word() & (STOPF | RXNE | TXE),
            Entry::RespondToWrite if over => {
                idle | self.random.pick(&[STOPF, ADDR, STOPF | ADDR]) | self.random.word() & TXE
            }
            Entry::RespondToWrite => idle | self.flags(&[RXNE]) | self.random.word() & TXE,
            _ if over => {
                idle | self
                    .random
                    .pick(&[STOPF, ADDR, AF, STOPF | ADDR, AF | STOPF, AF | ADDR])
                    | self.random.word() & TXE
            }
            _ => idle | self.flags(&[TXE]) | self.random.word() & RXNE,
        }
    }

    fn status(&mut self, before: &[u32]) -> u16 {
        let is_slave = matches!(self.entry, Entry::Listen | Entry::RespondToWrite | Entry::RespondToRead);
        let status = if is_slave {
            self.status_for_slave()
        } else {
            self.status_for_master(before)
        };
        status | self.errors() | self.unused()
    }

    fn control(&mut self, before: &[u32]) -> u16 {
        let word = self.random.word();
        let in_abort = before
            .last()
            .is_some_and(|a| kind(*a) == WRITE && register(*a) == CTLR2);
        if in_abort {
            return match self.random.below(4) {
                0 => word,
                1 => word & !STOP | START,
                _ => word & !(START | STOP),
            };
        }
        let mut word = word & !(START | STOP);
        for bit in [START, STOP] {
            if self.random.chance(self.mood.pending) {
                word |= bit;
            }
        }
        word
    }

    fn second_status(&mut self, before: &[u32]) -> u16 {
        let mut word = self.random.word();
        let in_abort = before.len() > 1 && register(before[before.len() - 2]) == CTLR2;
        let is_master = !matches!(self.entry, Entry::Listen | Entry::RespondToWrite | Entry::RespondToRead);
        if is_master && !in_abort {
            word |= MSL;
            if self.random.chance(self.mood.not_master) {
                word &= !MSL;
            }
        }
        if self.entry == Entry::Listen && !self.random.one_in(4) {
            word &= !GENCALL;
        }
        word
    }

    fn late(&mut self) -> u16 {
        match self.random.chance(self.mood.late) {
            false => 0,
            true if self.random.one_in(2) => 1,
            true => self.random.word().max(1),
        }
    }
}

impl Answers for MadeUp {
    fn next(&mut self, accesses: &[u32]) -> Option<u16> {
        self.mood.limit = self.mood.limit.checked_sub(1)?;
        let (asked, before) = accesses.split_last()?;
        if kind(*asked) == CLOCK {
            return Some(self.late());
        }
        if self.random.chance(self.mood.random_word) {
            return Some(self.random.word());
        }
        Some(match register(*asked) {
            STAR1 => self.status(before),
            CTLR1 => self.control(before),
            STAR2 => self.second_status(before),
            DATAR => self.random.word(),
            _ => self.random.word(),
        })
    }
}
