//! The carried Rust, built for each chip: 1 for `i2c_v3` plus 2 for `ch32v4`; and the copy in the port's order, for chips 2 and 3.

use oracle::rust::Chips;

pub const CHIPS: Chips = Chips {
    carried: [chip0::run, chip1::run, chip2::run, chip3::run],
    reordered: [reordered2::run, reordered3::run],
};
