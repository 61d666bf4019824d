//! Pins: the driver sets them up, and no access of its registers comes of it.

use embassy_hal_internal::PeripheralType;

pub trait SealedPin {
    fn set_as_disconnected(&self) {}
}

pub trait Pin: PeripheralType + SealedPin + Into<AnyPin> {}

#[derive(Copy, Clone)]
pub struct AnyPin;

impl PeripheralType for AnyPin {}
impl SealedPin for AnyPin {}
impl Pin for AnyPin {}

pub enum OutputType {
    OpenDrain,
    PushPull,
}

pub enum Speed {
    High,
}

#[derive(Copy, Clone)]
pub struct AfType;

impl AfType {
    pub fn output(_output: OutputType, _speed: Speed) -> Self {
        Self
    }
}
