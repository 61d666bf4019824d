//! The one peripheral, I2C1, its clock and the deadline of a call.

use std::cell::Cell;
use std::future::Future;
use std::panic::Location;

use crate::time::Hertz;

thread_local! {
    static INPUT: Cell<u32> = const { Cell::new(0) };
}

/// The peripheral's input clock for the next call.
pub fn set_input(input: u32) {
    INPUT.set(input)
}

pub trait RccPeripheral {
    fn frequency() -> Hertz {
        Hertz(INPUT.get())
    }
    fn enable_and_reset() {}
    fn disable() {}
}

pub trait RemapBound {}

/// A deadline. Setting it is no access; asking it is a question to the clock.
#[derive(Copy, Clone)]
pub struct Timeout {
    pub deadline: embassy_time::Instant,
}

impl Timeout {
    #[track_caller]
    pub fn check(self) -> Option<()> {
        match record::clock(Location::caller()) {
            0 => Some(()),
            _ => None,
        }
    }

    pub async fn with<T>(self, future: impl Future<Output = Option<T>>) -> Option<T> {
        future.await
    }
}

pub mod peripherals {
    use super::{RccPeripheral, RemapBound};

    #[derive(Copy, Clone)]
    pub struct I2C1;

    impl embassy_hal_internal::PeripheralType for I2C1 {}
    impl RccPeripheral for I2C1 {}
    impl RemapBound for I2C1 {}
}

pub mod _generated {
    pub mod peripheral_interrupts {
        #[allow(non_snake_case)]
        pub mod I2C1 {
            use crate::interrupt::typelevel::Interrupt;

            pub struct EV;
            pub struct ER;

            impl Interrupt for EV {}
            impl Interrupt for ER {}
        }
    }
}
