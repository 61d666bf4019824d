//! Calls that belong in the sample whatever chance brings: document 01's edges, its traps, document 02's second count and flags,
//! and boundary lengths.

use record::{Answers, Call, Entry, Given};

use crate::answers::{MadeUp, Mood};
use crate::random::Random;

type WithAnswers = (Call, Box<dyn Answers>);

struct Edges<'a> {
    random: &'a mut Random,
    calls: Vec<WithAnswers>,
}

/// All of them.
pub fn all(random: &mut Random) -> Vec<WithAnswers> {
    let mut edges = Edges {
        random,
        calls: Vec::new(),
    };
    for chip in 0..4 {
        edges.clocks(chip);
        edges.own_addresses(chip);
        edges.status_words(chip);
        edges.traps(chip);
        edges.second_counts(chip);
        edges.flags(chip);
        edges.refused(chip);
        edges.boundary_lengths(chip);
    }
    edges.long_calls();
    edges.example();
    edges.calls
}

fn on_chip(entry: Entry, chip: u8) -> Call {
    let mut call = Call::new(entry);
    call.chip = chip;
    call
}

/// A transaction of these operations: `true` reads.
pub fn transaction(chip: u8, operations: &[(bool, u16)]) -> Call {
    let mut call = on_chip(Entry::Transaction, chip);
    call.address = 0x21;
    for (reads, length) in operations {
        let [low, high] = length.to_le_bytes();
        call.list.extend([*reads as u8, low, high]);
        let bytes = if *reads { &mut call.read } else { &mut call.written };
        // Past this the list is refused with 8, whatever is lent.
        bytes.resize((bytes.len() + *length as usize).min(65_536), 0);
    }
    call
}

impl Edges<'_> {
    /// With answers that let the call run to its end, or stop after `limit` of them.
    fn calm(&mut self, call: Call, limit: u64) {
        let answers = MadeUp {
            mood: Mood::calm(limit),
            random: Random::of(&[self.random.next()]),
            entry: call.entry,
            looks: call.written.len().max(call.read.len()) as u64 + 2,
        };
        self.calls.push((call, Box::new(answers)));
    }

    fn given(&mut self, call: Call, answers: &[u16]) {
        let answers = answers.to_vec();
        self.calls.push((call, Box::new(Given { answers, used: 0 })));
    }

    /// Divider, MHz and rise at their edges.
    fn clocks(&mut self, chip: u8) {
        let settings = [
            (36_000_000, 100_000, 0),
            (36_000_000, 400_000, 0),
            (36_000_000, 400_000, 1),
            (81_900_000, 10_000, 0),
            (81_900_001, 10_000, 0),
            (0, 100_000, 0),
            (36_000_000, 0, 0),
            (36_000_000, 400_001, 0),
            (36_000_000, 100_001, 1),
            (300_000_000, 100_000, 0),
            (300_000_000, 400_000, 0),
            (3_999_999, 100_000, 0),
            (4_000_000, 100_000, 0),
            (60_999_999, 100_000, 0),
            (61_000_000, 400_000, 1),
            (63_000_000, 100_000, 0),
            (64_000_000, 100_000, 0),
            (255_000_000, 100_000, 0),
            (256_000_000, 100_000, 0),
            (u32::MAX, 400_000, 1),
            (0, 400_000, 1),
            (0, 0, 2),
        ];
        for (input, frequency, duty) in settings {
            let mut call = on_chip(Entry::Init, chip);
            (call.input, call.frequency, call.duty) = (input, frequency, duty);
            self.calm(call, 100);
        }
    }

    /// Ten bits or not, own address, general call, second address.
    fn own_addresses(&mut self, chip: u8) {
        let settings = [
            (0, 0, 1, None),
            (0, 0, 0, None),
            (0, 1, 0, None),
            (0, 0x07, 0, None),
            (0, 0x08, 0, Some(0x77)),
            (0, 0x77, 0, Some(0x08)),
            (0, 0x78, 0, None),
            (0, 0x78, 0, Some(0x80)),
            (0, 127, 0, Some(127)),
            (0, 128, 1, None),
            (0, 256 + 85, 0, None),
            (0, 85, 0, Some(0)),
            (0, 85, 0, Some(0x07)),
            (0, 85, 0, Some(0x78)),
            (0, 85, 0, Some(128)),
            (1, 0, 0, None),
            (1, 0x003, 0, None),
            (1, 0x3ff, 0, None),
            (1, 0x400, 1, None),
            (1, 0x2a5, 0, Some(85)),
        ];
        for (ten_bit, address, general_call, second) in settings {
            let mut call = on_chip(Entry::InitSlave, chip);
            (call.ten_bit, call.address, call.general_call) = (ten_bit, address, general_call);
            (call.has_second, call.second) = (second.is_some() as u8, second.unwrap_or(200));
            self.calm(call, 100);
        }
    }

    /// Each error flag by itself, 0x0600 and all of them: while the master waits for SB, and in a slave's loop.
    fn status_words(&mut self, chip: u8) {
        for status in [
            0x0100, 0x0200, 0x0400, 0x0800, 0x1000, 0x4000, 0x0600, 0x0500, 0x5f00, 0xffff,
        ] {
            let mut call = on_chip(Entry::Write, chip);
            (call.address, call.written) = (0x50, vec![0]);
            self.given(call, &[1, 1, 0, 1, status, 0x1f24, 1, 3, 1, 0, 0, 0, 0, 0, 0, 0, 0]);
            self.given(
                on_chip(Entry::Listen, chip),
                &[0, 1, status, 8, 1, status, 0x1f24, 2, 1, 0, 0, 0],
            );
            let mut call = on_chip(Entry::RespondToWrite, chip);
            call.read = vec![0; 2];
            self.given(call, &[0x40, 0x1aa, status, 0x1f24, 2, 1, 0x40, 0x77]);
            let mut call = on_chip(Entry::RespondToRead, chip);
            call.written = vec![0; 3];
            self.given(call, &[0x80, 0x80, status, 0x1f24, 2, 1, 0x80]);
        }
    }

    /// Where document 01 says that a quick port goes astray.
    fn traps(&mut self, chip: u8) {
        self.calm(transaction(chip, &[(true, 2), (false, 0), (true, 3)]), 400);
        self.calm(transaction(chip, &[(true, 1), (true, 1), (false, 0), (false, 2)]), 400);
        self.calm(transaction(chip, &[(false, 0), (false, 0)]), 400);
        self.calm(transaction(chip, &[]), 400);
        for option in 0..6 {
            for length in 0..5 {
                let mut call = on_chip(Entry::Read, chip);
                (call.address, call.option, call.read) = (0x50, option, vec![0; length]);
                self.calm(call.clone(), 400);
                call.entry = Entry::Write;
                call.written = std::mem::take(&mut call.read);
                self.calm(call, 400);
            }
        }
        // RXNE in the word of the error check, not in the second; then the other way round.
        let mut call = on_chip(Entry::Read, chip);
        (call.address, call.option, call.read) = (0x50, 3, vec![0; 2]);
        self.given(call, &[1, 0x40, 0, 0, 0, 0x40, 0x1234, 0, 0x40, 0xff56]);
    }

    /// Replies that end by each flag, with TXE clear and set and what was sent around the length. The next word shows TXE
    /// the other way.
    fn second_counts(&mut self, chip: u8) {
        for length in 0..3 {
            for sent in 0..length + 3 {
                for status in [0x400, 0x480, 0x10, 0x90, 2, 0x82] {
                    let mut call = on_chip(Entry::RespondToRead, chip);
                    call.written = vec![0; length];
                    let mut answers = vec![0x80; sent];
                    answers.extend([status, status ^ 0x80, 1]);
                    self.given(call, &answers);
                }
            }
        }
    }

    /// Flags beside the one that decides, and flags that decide nothing before a late clock or a lost START.
    fn flags(&mut self, chip: u8) {
        for status in [0x5f00, 0x0300, 0x4100, 0x0500, 0x0d00, 0x1c00] {
            let mut call = on_chip(Entry::Write, chip);
            (call.address, call.option, call.written) = (0x50, 3, vec![0; 1]);
            self.given(call, &[status, 0x1f24, 0x0600, 0x0600, 0x0600, 0x0600, 0x0600]);
            let mut call = on_chip(Entry::RespondToWrite, chip);
            call.read = vec![0; 1];
            self.given(call, &[status, 0x1f24, 0x0600, 0x0600, 0x0600]);
        }
        for status in [0x0100, 0x4100, 0x0400] {
            let mut call = on_chip(Entry::Write, chip);
            (call.address, call.written) = (0x50, vec![0; 1]);
            self.given(call.clone(), &[0, 0, 0, 0, status, 1, 0x1f24, 0, 0, 0, 0]);
            self.given(call, &[0, 0, 0, 0, status | 1, 0x100, 0x1f24, 0, 0, 0, 0]);
            let mut call = on_chip(Entry::RespondToWrite, chip);
            call.read = vec![0; 1];
            self.given(call, &[status, 1, 0x1f24, 2, 0]);
        }
    }

    /// Every number of refusal, and which comes first.
    fn refused(&mut self, chip: u8) {
        let mut call = transaction(chip, &[(false, 1); 257]);
        self.calm(call.clone(), 4);
        call.address = 200;
        self.calm(call.clone(), 4);
        call.list[768] = 2;
        self.calm(call, 4);
        self.calm(transaction(chip, &[(false, 65_535), (true, 0), (true, 1)]), 4);
        self.calm(transaction(chip, &[(false, 65_535), (true, 1), (true, 0)]), 4);
        self.calm(transaction(chip, &[(false, 65_535), (true, 65_535), (true, 65_535)]), 4);
        let mut call = transaction(chip, &[(false, 2), (true, 2)]);
        call.read.push(0);
        self.calm(call.clone(), 4);
        call.list[3] = 0;
        self.calm(call.clone(), 4);
        call.list.pop();
        self.calm(call.clone(), 4);
        call.block_length = 31;
        self.calm(call, 4);
        for (address, written, read) in [(200, 65_535, 0), (200, 65_535, 1), (80, 65_535, 1), (80, 65_534, 1)] {
            let mut call = on_chip(Entry::WriteRead, chip);
            (call.address, call.written, call.read) = (address, vec![0; written], vec![0; read]);
            self.calm(call, 12);
        }
        let with_chip = [
            Entry::WriteRead,
            Entry::Write,
            Entry::Read,
            Entry::Listen,
            Entry::RespondToWrite,
            Entry::RespondToRead,
        ];
        for entry in with_chip {
            let mut call = on_chip(entry, chip);
            call.block_length = 33;
            self.calm(call.clone(), 4);
            (call.block_length, call.chip) = (32, 4 + chip);
            self.calm(call, 4);
        }
    }

    /// Long buffers, with few answers.
    fn boundary_lengths(&mut self, chip: u8) {
        for length in [255, 256, 65_535, 65_536] {
            for entry in [
                Entry::WriteRead,
                Entry::Write,
                Entry::Read,
                Entry::RespondToWrite,
                Entry::RespondToRead,
            ] {
                let mut call = on_chip(entry, chip);
                call.address = if matches!(entry, Entry::RespondToWrite | Entry::RespondToRead) {
                    0
                } else {
                    0x68
                };
                if matches!(entry, Entry::Write | Entry::RespondToRead) {
                    call.written = vec![0; length];
                } else {
                    call.read = vec![0; length];
                }
                self.calm(call, 30);
            }
        }
        self.calm(transaction(chip, &[(true, 32_768), (true, 32_767)]), 30);
        self.calm(transaction(chip, &[(false, 1), (true, 65_534)]), 30);
    }

    /// A few long calls that run to their end.
    fn long_calls(&mut self) {
        for (chip, length) in [(0, 255), (3, 256)] {
            for entry in [Entry::Write, Entry::Read, Entry::RespondToWrite, Entry::RespondToRead] {
                let mut call = on_chip(entry, chip);
                if matches!(entry, Entry::Write | Entry::RespondToRead) {
                    call.written = vec![0; length];
                } else {
                    call.read = vec![0; length];
                }
                self.calm(call, 4000);
            }
        }
        self.calm(transaction(1, &[(false, 1); 256]), 4000);
        self.calm(transaction(2, &[(true, 1); 255]), 4000);
        let alternating: Vec<(bool, u16)> = (0..256).map(|i| (i % 2 == 1, 1)).collect();
        self.calm(transaction(3, &alternating), 8000);
        self.calm(
            transaction(0, &[(false, 200), (false, 56), (true, 255), (true, 2)]),
            4000,
        );
    }

    /// The bench example of document 01.
    fn example(&mut self) {
        let answers = [1, 1, 0, 1, 1, 1, 3, 0x400, 8, 1, 3, 1];
        self.given(transaction(0, &[(false, 0)]), &answers);
    }
}
