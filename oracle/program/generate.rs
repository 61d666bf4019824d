//! Random calls. Each call has a random source of its own, made from seed, entry, chip and number.

use record::{Call, Entry};

use crate::answers::{MadeUp, Mood};
use crate::random::Random;

/// Which lengths may come. `Small` is for the stored sample.
#[derive(Copy, Clone, PartialEq, Eq)]
pub enum Sizes {
    All,
    Small,
}

pub struct Generator {
    pub random: Random,
    sizes: Sizes,
}

const CLOCKS: [u32; 24] = [
    0,
    1,
    999_999,
    1_000_000,
    3_999_999,
    4_000_000,
    8_000_000,
    36_000_000,
    48_000_000,
    59_999_999,
    60_000_000,
    61_000_000,
    63_999_999,
    64_000_000,
    72_000_000,
    81_900_000,
    81_900_001,
    144_000_000,
    254_999_999,
    255_000_000,
    256_000_000,
    300_000_000,
    819_000_000,
    u32::MAX,
];

const FREQUENCIES: [u32; 14] = [
    0,
    1,
    100,
    10_000,
    50_000,
    99_999,
    100_000,
    100_001,
    200_000,
    399_999,
    400_000,
    400_001,
    1_000_000,
    u32::MAX,
];

impl Generator {
    pub fn new(seed: u64, entry: Entry, chip: u8, number: u64, sizes: Sizes) -> Self {
        Self {
            random: Random::of(&[seed, entry as u64, chip as u64, number]),
            sizes,
        }
    }

    /// A call of this entry on this chip, with its answers.
    pub fn call(&mut self, entry: Entry, chip: u8) -> (Call, Box<MadeUp>) {
        let mut call = Call::new(entry);
        call.chip = chip;
        match entry {
            Entry::Init => self.clocks(&mut call),
            Entry::Transaction => {
                call.address = self.address();
                self.list(&mut call);
            }
            Entry::WriteRead => {
                call.address = self.address();
                self.two_lengths(&mut call);
            }
            Entry::Write => {
                call.address = self.address();
                call.option = self.option();
                call.written = self.lent();
            }
            Entry::Read => {
                call.address = self.address();
                call.option = self.option();
                call.read = self.lent();
            }
            Entry::InitSlave => self.own_addresses(&mut call),
            Entry::Listen => {}
            Entry::RespondToWrite => call.read = self.lent(),
            Entry::RespondToRead => call.written = self.lent(),
        }
        if self.random.one_in(200) && entry != Entry::InitSlave {
            call.chip = self.random.pick(&[4, 5, 7, 128, 255]);
        }
        if self.random.one_in(300) {
            call.block_length = self.random.pick(&[0, 1, 31, 33, 64]);
        }
        let answers = self.answers(&call);
        (call, answers)
    }

    fn answers(&mut self, call: &Call) -> Box<MadeUp> {
        let longest = call.written.len().max(call.read.len());
        Box::new(MadeUp {
            mood: Mood::new(&mut self.random, longest),
            random: Random::of(&[self.random.next()]),
            entry: call.entry,
            looks: longest as u64 + self.random.below(4),
        })
    }

    fn clocks(&mut self, call: &mut Call) {
        call.input = match self.random.below(4) {
            0 => self.random.pick(&CLOCKS),
            1 => self.random.next() as u32,
            2 => self.random.below(310) as u32 * 1_000_000,
            _ => self.random.below(150_000_000) as u32,
        };
        call.frequency = match self.random.below(4) {
            0 => self.random.pick(&FREQUENCIES),
            1 => 1 + self.random.below(100_000) as u32,
            2 => 100_001 + self.random.below(300_000) as u32,
            // Near the largest divider.
            _ => (call.input / self.random.pick(&[8190, 12_285, 102_375])).wrapping_add(self.random.below(3) as u32),
        };
        call.duty = self.random.below(2) as u8;
        if self.random.one_in(100) {
            call.duty = self.random.pick(&[2, 3, 255]);
        }
    }

    fn address(&mut self) -> u16 {
        match self.random.below(64) {
            0 => 128 + self.random.below(128) as u16,
            1 => self.random.pick(&[0, 127, 128, 255]),
            _ => self.random.below(128) as u16,
        }
    }

    fn option(&mut self) -> u8 {
        match self.random.below(100) {
            0 => self.random.pick(&[6, 7, 255]),
            _ => self.random.below(6) as u8,
        }
    }

    fn length(&mut self) -> usize {
        match self.random.below(256) {
            0 | 1 if self.sizes == Sizes::All => self.random.pick(&[65_534, 65_535, 65_535, 65_536, 65_537]),
            2..=6 if self.sizes == Sizes::All => self.random.pick(&[254, 255, 256, 257]),
            7..=20 if self.sizes == Sizes::All => 13 + self.random.below(60) as usize,
            21..=90 => 5 + self.random.below(8) as usize,
            _ => self.random.below(5) as usize,
        }
    }

    fn lent(&mut self) -> Vec<u8> {
        let length = self.length();
        self.random.bytes(length)
    }

    fn two_lengths(&mut self, call: &mut Call) {
        let (written, mut read) = (self.length(), self.length());
        if written + read > 65_535 && self.random.one_in(2) {
            read = (65_535 - written.min(65_535)) + self.random.below(2) as usize;
        }
        call.written = self.random.bytes(written);
        call.read = self.random.bytes(read);
    }

    fn count(&mut self) -> usize {
        match self.random.below(256) {
            0..=5 => 0,
            6 | 7 if self.sizes == Sizes::All => self.random.pick(&[255, 256, 257, 300]),
            8..=23 => 7 + self.random.below(14) as usize,
            _ => 1 + self.random.below(6) as usize,
        }
    }

    /// A list of operations whose neighbours often have one direction, and buffers that mostly fit it.
    fn list(&mut self, call: &mut Call) {
        let count = self.count();
        let mut reads = self.random.one_in(2);
        let mut sums = [0, 0];
        let long = self.random.one_in(60) && self.sizes == Sizes::All;
        for _ in 0..count {
            reads ^= self.random.one_in(2);
            let mut length = self.operation_length(long);
            if reads && length == 0 && !self.random.one_in(32) {
                length = 1;
            }
            sums[reads as usize] += length;
            call.list.extend([reads as u8, length as u8, (length >> 8) as u8]);
        }
        self.damage(&mut call.list);
        if self.random.one_in(40) {
            let side = self.random.below(2) as usize;
            sums[side] = (sums[side] + self.random.below(3) as usize).saturating_sub(1);
        }
        call.written = self.random.bytes(sums[0].min(70_000));
        call.read = self.random.bytes(sums[1].min(70_000));
    }

    fn operation_length(&mut self, long: bool) -> usize {
        match self.random.below(128) {
            0..=15 if long => self.random.pick(&[255, 256, 32_767, 32_768, 65_535]),
            16..=18 if self.sizes == Sizes::All => self.random.below(80) as usize,
            _ => self.random.below(5) as usize,
        }
    }

    fn damage(&mut self, list: &mut Vec<u8>) {
        match self.random.below(200) {
            0 => list.push(self.random.byte()),
            1 => list.truncate(list.len().saturating_sub(1)),
            2 if list.len() >= 3 => {
                let operation = self.random.below(list.len() as u64 / 3) as usize;
                list[3 * operation] = self.random.pick(&[2, 3, 255]);
            }
            _ => {}
        }
    }

    fn flag(&mut self) -> u8 {
        match self.random.below(250) {
            0 => self.random.pick(&[2, 255]),
            _ => self.random.below(2) as u8,
        }
    }

    fn own_addresses(&mut self, call: &mut Call) {
        call.ten_bit = self.flag();
        call.has_second = self.flag();
        call.second = if self.random.one_in(4) {
            self.random.byte()
        } else {
            self.random.below(128) as u8
        };
        call.general_call = self.flag();
        call.clock_stretching = self.flag();
        call.address = match self.random.below(8) {
            0 => self.random.pick(&[0, 1, 7, 8, 0x77, 0x78, 127, 128, 255, 256, 1023, 1024, 65_535]),
            1 => self.random.word(),
            2 => self.random.below(1024) as u16,
            _ if call.ten_bit == 1 => self.random.below(1024) as u16,
            _ => self.random.below(128) as u16,
        };
        if call.ten_bit == 1 && !self.random.one_in(4) {
            call.has_second = 0;
        }
    }
}
