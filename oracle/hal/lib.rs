//! A crate root around the carried driver: every name that it takes from ch32-hal or from other crates, over
//! registers and a clock that record. Compiled once for each chip, by the flags `i2c_v3` and `ch32v4`.

#![allow(unexpected_cfgs, dead_code, unused_imports)]

#[macro_use]
mod macros;

pub mod pac;

mod dma;
mod gpio;
mod interrupt;
mod mode;
mod peripheral;

pub use embassy_hal_internal::{self as internal, Peri};
pub use peripheral::{_generated, peripherals, Timeout};

#[path = "../carried/src"]
mod carried {
    pub mod i2c;
    pub mod time;
}

use carried::time;

pub use carried::i2c::doors::run;
