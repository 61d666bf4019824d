//! Document 02's speed window by brute force: every pair of factor and divider is looked at, and nothing here comes from the
//! Rust or the library. Then what `init` has to make of a pair.

use std::cmp::Ordering;

use record::{kind, register, value, Call, Entry, CKCFGR, WRITE};

use crate::rust::{end_number, Outcome};

/// An input clock, and the lowest and highest speed of the bus, in hertz.
#[derive(Copy, Clone)]
pub struct Window {
    pub input: u32,
    pub lowest: u32,
    pub highest: u32,
}

/// A factor and a divider, which make a speed of input / (factor × divider).
#[derive(Copy, Clone)]
struct Pair {
    factor: u64,
    divider: u64,
}

/// Document 02's factors, each with its smallest divider; and the largest divider of all.
const FACTORS: [(u64, u64); 3] = [(2, 4), (3, 1), (25, 1)];
const LARGEST: u64 = 4095;

impl Window {
    pub const fn new(input: u32, lowest: u32, highest: u32) -> Self {
        Self { input, lowest, highest }
    }

    pub fn text(&self) -> String {
        format!("input {} window {} to {}", self.input, self.lowest, self.highest)
    }
}

impl Pair {
    /// The clocks of the input for one of the bus.
    fn clocks(self) -> u64 {
        self.factor * self.divider
    }

    /// Whether its speed is one that this factor has.
    fn is_of_its_factor(self, input: u64) -> bool {
        let clocks = self.clocks();
        match self.factor {
            2 => input <= 100_000 * clocks,
            _ => 100_000 * clocks < input && input <= 400_000 * clocks,
        }
    }

    /// Whether its speed lies in the window, ends included.
    fn is_in(self, window: &Window) -> bool {
        let (input, clocks) = (window.input as u64, self.clocks());
        window.lowest as u64 * clocks <= input && input <= window.highest as u64 * clocks
    }

    /// Its speed beside the other's: input / ours and input / theirs, each times ours times theirs.
    fn compared(self, other: Pair, input: u64) -> Ordering {
        (input * other.clocks()).cmp(&(input * self.clocks()))
    }

    fn is_smaller(self, other: Pair) -> bool {
        (self.factor, self.divider) < (other.factor, other.divider)
    }
}

/// The pair that is wanted of those looked at so far, and whether one with another factor is as fast.
#[derive(Copy, Clone)]
pub struct Found {
    pair: Pair,
    is_tie: bool,
}

impl Found {
    fn or(self, pair: Pair, input: u64) -> Self {
        match pair.compared(self.pair, input) {
            Ordering::Less => self,
            Ordering::Greater => Self { pair, is_tie: false },
            Ordering::Equal => Self {
                pair: if pair.is_smaller(self.pair) { pair } else { self.pair },
                is_tie: self.is_tie || pair.factor != self.pair.factor,
            },
        }
    }
}

/// What document 02 wants, if there is such a pair.
pub fn brute_force(window: &Window) -> Option<Found> {
    let input = window.input as u64;
    let mut found: Option<Found> = None;
    for (factor, least) in FACTORS {
        for divider in least..=LARGEST {
            let pair = Pair { factor, divider };
            if pair.is_of_its_factor(input) && pair.is_in(window) {
                found = Some(found.map_or(Found { pair, is_tie: false }, |found| found.or(pair, input)));
            }
        }
    }
    found
}

/// The number that the C library is to return: the divider in bits 16-31 and the factor in bits 32-47, or 20.
pub fn number(found: Option<Found>) -> u64 {
    match found {
        Some(Found { pair, .. }) => pair.divider << 16 | pair.factor << 32,
        None => 20 << 8,
    }
}

/// A returned number, as it is and taken apart.
pub fn number_text(number: u64) -> String {
    let (kind, end) = (number & 0xff, number >> 8 & 0xff);
    let (divider, factor, rest) = (number >> 16 & 0xffff, number >> 32 & 0xffff, number >> 48);
    format!("{number:016x} (kind {kind} end {end} factor {factor} divider {divider} above {rest:04x})")
}

/// The call of `init` that sets a pair on a chip, and what CKCFGR then holds.
pub struct Setting {
    pub call: Call,
    word: u32,
}

impl Setting {
    /// The frequency is the speed rounded up, the duty 16:9 for factor 25. F_S is set for factors 3 and 25, DUTY for 25.
    fn new(input: u32, pair: Pair, chip: u8) -> Self {
        let mut call = Call::new(Entry::Init);
        (call.chip, call.input) = (chip, input);
        call.frequency = (input as u64).div_ceil(pair.clocks()) as u32;
        call.duty = (pair.factor == 25) as u8;
        let word = pair.divider as u32 | ((pair.factor != 2) as u32) << 15 | ((pair.factor == 25) as u32) << 14;
        Self { call, word }
    }

    /// On `ch32v4` an input clock below 4 MHz is refused.
    fn is_too_slow(&self) -> bool {
        self.call.chip & 2 != 0 && self.call.input < 4_000_000
    }

    /// Whether `init` wrote this word to CKCFGR, once; or refused with 12.
    pub fn is_made(&self, outcome: &Outcome) -> bool {
        let accesses = &outcome.record.accesses;
        if self.is_too_slow() {
            return outcome.end == Some(end_number(12, 0)) && accesses.is_empty();
        }
        let writes = accesses.iter().filter(|access| (kind(**access), register(**access)) == (WRITE, CKCFGR));
        outcome.end == Some(0) && writes.map(|access| value(*access)).eq([self.word])
    }
}

/// The settings of what was found, on every chip. A speed of 0 is not set.
pub fn settings(window: &Window, found: Option<Found>) -> Vec<Setting> {
    let found = found.filter(|_| window.input > 0);
    let on_chips = found.into_iter().flat_map(|found| (0..4).map(move |chip| (found.pair, chip)));
    on_chips.map(|(pair, chip)| Setting::new(window.input, pair, chip)).collect()
}

/// How often each case was compared.
#[derive(Default)]
pub struct Compared {
    factors: [u64; FACTORS.len()],
    refused: u64,
    ties: u64,
    upside_down: u64,
    one_speed: u64,
    of_input_0: u64,
    settings: u64,
    too_slow: u64,
}

impl Compared {
    pub fn add(&mut self, window: &Window, found: Option<Found>) {
        self.upside_down += (window.lowest > window.highest) as u64;
        let Some(Found { pair, is_tie }) = found else {
            self.refused += 1;
            return;
        };
        let counts = self.factors.iter_mut().zip(FACTORS);
        counts.for_each(|(count, (factor, _))| *count += (pair.factor == factor) as u64);
        self.ties += is_tie as u64;
        self.one_speed += (window.lowest == window.highest) as u64;
        self.of_input_0 += (window.input == 0) as u64;
    }

    pub fn add_setting(&mut self, setting: &Setting) {
        self.settings += 1;
        self.too_slow += setting.is_too_slow() as u64;
    }

    pub fn windows(&self) -> u64 {
        self.factors.iter().sum::<u64>() + self.refused
    }

    pub fn is_whole(&self) -> bool {
        let cases = [self.refused, self.ties, self.upside_down, self.one_speed, self.of_input_0, self.settings, self.too_slow];
        self.factors.iter().chain(&cases).all(|count| *count > 0)
    }

    pub fn text(&self) -> String {
        let [two, three, twenty_five] = self.factors;
        let pairs = format!("factor 2 {two}, 3 {three}, 25 {twenty_five}, 20 {}", self.refused);
        let cases = format!(
            "ties of 3 and 25 {}, upside down {}, of one speed that exists {}, input 0 with a pair {}",
            self.ties, self.upside_down, self.one_speed, self.of_input_0
        );
        let settings = format!("{} settings on the Rust, {} of them refused with 12", self.settings, self.too_slow);
        format!("{} windows by brute force: {pairs}; {cases}; {settings}", self.windows())
    }
}
