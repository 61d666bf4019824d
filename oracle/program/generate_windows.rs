//! The speed windows that are asked for: the edges first, then random ones, each with a random source of its own.

use crate::random::Random;
use crate::windows::Window;

const MAX: u32 = u32::MAX;

/// Windows at which an answer changes.
const EDGES: [Window; 59] = [
    Window::new(36_000_000, 95_000, 100_000),
    Window::new(36_000_000, 100_000, 100_000),
    Window::new(8_000_000, 100_000, 100_000),
    Window::new(36_000_000, 400_000, 400_000),
    Window::new(48_000_000, 400_000, 400_000),
    Window::new(36_000_000, 400_001, 400_001),
    Window::new(36_000_000, 400_000, 400_001),
    Window::new(36_000_000, 400_001, MAX),
    Window::new(36_000_000, 100_000, 400_001),
    // On ch32v4 `init` refuses the first.
    Window::new(3_999_999, 95_000, 100_000),
    Window::new(4_000_000, 95_000, 100_000),
    // Just above what factor 2 has: as both ends, that no pair and that a pair makes; as one end.
    Window::new(36_000_000, 100_001, 100_001),
    Window::new(30_000_300, 100_001, 100_001),
    Window::new(36_000_000, 100_001, 400_000),
    Window::new(36_000_000, 100_000, 100_001),
    Window::new(36_000_000, 95_000, 100_001),
    Window::new(30_000_300, 100_000, 100_001),
    Window::new(30_000_300, 0, 100_000),
    // 100,000 of factor 3 and of 25, and of factor 2 with divider 3.
    Window::new(600_000, 100_000, 100_000),
    Window::new(900_000, 100_000, 100_000),
    Window::new(2_500_000, 100_000, 100_000),
    Window::new(7_500_000, 100_000, 100_000),
    // Input 0: every pair of factor 2 makes 0.
    Window::new(0, 0, 0),
    Window::new(0, 0, 100_000),
    Window::new(0, 0, MAX),
    Window::new(0, 1, 100_000),
    Window::new(0, 1, MAX),
    Window::new(0, 1, 0),
    Window::new(0, MAX, MAX),
    Window::new(1, 0, 0),
    Window::new(1, 0, 1),
    Window::new(1, 1, 1),
    Window::new(8, 1, 1),
    Window::new(36_000_000, 0, 0),
    Window::new(MAX, 0, 0),
    Window::new(MAX, 0, MAX),
    Window::new(MAX, 0, 100_000),
    Window::new(MAX, 100_000, 100_000),
    Window::new(MAX, 95_000, 400_000),
    Window::new(MAX, 100_001, 110_000),
    Window::new(MAX, 400_000, 400_000),
    Window::new(MAX, 1, 41_953),
    Window::new(MAX, MAX, MAX),
    Window::new(36_000_000, 0, MAX),
    Window::new(36_000_000, 1, MAX),
    Window::new(36_000_000, 400_000, MAX),
    Window::new(36_000_000, MAX, MAX),
    // Upside down.
    Window::new(36_000_000, 100_000, 95_000),
    Window::new(36_000_000, 100_001, 100_000),
    Window::new(36_000_000, 400_000, 100_001),
    Window::new(36_000_000, 1, 0),
    Window::new(36_000_000, MAX, 0),
    Window::new(36_000_000, MAX, 100_000),
    // Between two speeds: 99,447.5 and 100,000; 387,096.8 and 400,000; 4,395.6 is the slowest.
    Window::new(36_000_000, 99_448, 99_999),
    Window::new(36_000_000, 99_447, 99_999),
    Window::new(36_000_000, 387_097, 399_999),
    Window::new(36_000_000, 387_096, 399_999),
    Window::new(36_000_000, 1, 4_395),
    Window::new(36_000_000, 1, 4_396),
];

/// Factor, divider and speed: dividers at their limits, one more and one less, as far as the input clock goes; equals of 3 and 25.
const LIMITS: [(u32, u32, u32); 34] = [
    (2, 3, 100_000),
    (2, 4, 100_000),
    (2, 5, 100_000),
    (2, 3, 1),
    (2, 4, 1),
    (2, 5, 99_999),
    (2, 4094, 100_000),
    (2, 4095, 100_000),
    (2, 4096, 100_000),
    (2, 4094, 1),
    (2, 4095, 1),
    (2, 4096, 1),
    (3, 1, 100_000),
    (3, 1, 100_001),
    (3, 1, 400_000),
    (3, 1, 400_001),
    (3, 2, 100_001),
    (3, 2, 400_000),
    (3, 4094, 349_000),
    (3, 4095, 100_001),
    (3, 4095, 349_000),
    (3, 4096, 100_001),
    (3, 4096, 349_000),
    (25, 1, 100_000),
    (25, 1, 100_001),
    (25, 1, 400_000),
    (25, 1, 400_001),
    (25, 2, 100_001),
    (25, 1716, 100_001),
    (25, 1717, 100_001),
    (25, 4095, 41_953),
    (3, 25, 100_001),
    (3, 25, 400_000),
    (25, 6, 200_000),
];

/// Around each of them, input clocks of one hertz more and less, and windows of one speed and two, and from 0 on.
fn around_limits() -> impl Iterator<Item = Window> {
    let products = LIMITS.into_iter().map(|(factor, divider, speed)| (factor * divider * speed, speed));
    let inputs = products.flat_map(|(input, speed)| [(input - 1, speed), (input, speed), (input + 1, speed)]);
    inputs.flat_map(|(input, speed)| {
        let ends = [(speed, speed), (speed - 1, speed), (speed, speed + 1), (0, speed)];
        ends.map(|(lowest, highest)| Window::new(input, lowest, highest))
    })
}

const CLOCKS: [u32; 10] = [
    4_000_000,
    8_000_000,
    12_000_000,
    24_000_000,
    36_000_000,
    48_000_000,
    60_000_000,
    72_000_000,
    96_000_000,
    144_000_000,
];

/// The windows of a seed.
pub struct Windows {
    seed: u64,
    edges: Vec<Window>,
}

impl Windows {
    pub fn new(seed: u64) -> Self {
        let edges = EDGES.into_iter().chain(around_limits()).collect();
        Self { seed, edges }
    }

    /// The window of this number, and what is left of its random source.
    pub fn numbered(&self, number: u64) -> (Window, Random) {
        let mut random = Random::of(&[self.seed, number]);
        let edge = self.edges.get(number as usize).copied();
        (edge.unwrap_or_else(|| any(&mut random)), random)
    }
}

/// From 0 up to and with `most`, small numbers as often as large ones.
fn up_to(random: &mut Random, most: u32) -> u32 {
    let width = random.below(33);
    (random.next() & ((1 << width) - 1)).min(most as u64) as u32
}

fn any(random: &mut Random) -> Window {
    match random.below(16) {
        0 => Window::new(up_to(random, MAX), up_to(random, MAX), up_to(random, MAX)),
        1 => to_highest(random),
        2..=4 => usual(random),
        5..=7 => of_one_speed(random),
        8 | 9 => beside_one_speed(random),
        10 | 11 => beside_its_input(random),
        12 | 13 => with_equals(random),
        14 => upside_down(random),
        _ => between_speeds(random),
    }
}

fn input(random: &mut Random) -> u32 {
    match random.below(4) {
        0 => up_to(random, MAX),
        1 => random.below(150_000_000) as u32,
        _ => random.pick(&CLOCKS),
    }
}

/// A speed that this factor has, or the first beyond.
fn speed(random: &mut Random, factor: u32) -> u32 {
    match (random.below(8), factor) {
        (0, 2) => random.pick(&[1, 99_999, 100_000, 100_001]),
        (0, _) => random.pick(&[100_000, 100_001, 399_999, 400_000, 400_001]),
        (1, 2) => up_to(random, 99_999) + 1,
        (_, 2) => 1 + random.below(100_000) as u32,
        _ => 100_001 + random.below(300_000) as u32,
    }
}

/// Any lowest, and a highest at a factor's limit or anywhere.
fn to_highest(random: &mut Random) -> Window {
    let highest = match random.below(2) {
        0 => random.pick(&[1, 99_999, 100_000, 100_001, 399_999, 400_000, 400_001, MAX]),
        _ => 1 + random.below(500_000) as u32,
    };
    Window::new(input(random), up_to(random, highest), highest)
}

/// A narrow window: up to a tenth of the speed.
fn usual(random: &mut Random) -> Window {
    let factor = random.pick(&[2, 3]);
    let highest = speed(random, factor);
    let width = random.below(highest as u64 / 10 + 1) as u32;
    Window::new(input(random), highest - width, highest)
}

/// A divider whose product with these is an input clock, from 1 to one too large for every factor.
fn divider(random: &mut Random, factor: u32, speed: u32) -> u32 {
    let most = (MAX / (factor * speed)).min(4096);
    match random.below(4) {
        0 => random.pick(&[1, 2, 3, 4, 4095, 4096]).min(most),
        1 => 1 + random.below(most.min(60) as u64) as u32,
        _ => 1 + random.below(most as u64) as u32,
    }
}

/// Exactly the speed of a pair, for which its factor times divider divides the input clock.
fn of_one_speed(random: &mut Random) -> Window {
    let factor = random.pick(&[2, 3, 25]);
    let speed = speed(random, factor);
    Window::new(factor * divider(random, factor, speed) * speed, speed, speed)
}

/// One hertz to either side of it, with both ends or one.
fn beside_one_speed(random: &mut Random) -> Window {
    let Window { input, highest: speed, .. } = of_one_speed(random);
    let ends = [(speed + 1, speed + 1), (speed - 1, speed - 1), (speed - 1, speed), (speed, speed + 1)];
    let (lowest, highest) = random.pick(&ends);
    Window::new(input, lowest, highest)
}

/// An input clock of one hertz more or less.
fn beside_its_input(random: &mut Random) -> Window {
    let Window { input, highest: speed, .. } = of_one_speed(random);
    let input = random.pick(&[input - 1, input.saturating_add(1)]);
    let (lowest, highest) = random.pick(&[(speed, speed), (speed - 1, speed), (speed, speed + 1)]);
    Window::new(input, lowest, highest)
}

/// A speed that factors 3 and 25 make alike: 75 times any number divides the input clock.
fn with_equals(random: &mut Random) -> Window {
    let speed = speed(random, 3);
    let most = (MAX / (75 * speed)).min(4095 / 25);
    let input = 75 * (1 + random.below(most as u64) as u32) * speed;
    let width = random.pick(&[0, 0, 1, 1000, speed]);
    Window::new(input, speed - width, speed)
}

/// The ends of another window the wrong way round, or a lowest that lies just above a speed.
fn upside_down(random: &mut Random) -> Window {
    let Window { input, lowest, highest } = if random.one_in(2) { usual(random) } else { of_one_speed(random) };
    let above = if lowest < highest { highest } else { highest + 1 + up_to(random, 1000) };
    Window::new(input, above, lowest)
}

/// The whole hertz between the speeds of two neighbouring dividers. Another factor may have a speed there.
fn between_speeds(random: &mut Random) -> Window {
    let (input, factor) = (input(random).max(1), random.pick(&[2, 3, 25]));
    let speed = speed(random, factor);
    let divider = (input / (factor * speed)).clamp(1, 4095);
    Window::new(input, input / (factor * (divider + 1)) + 1, (input - 1) / (factor * divider))
}
