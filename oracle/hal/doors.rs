//! The nine entries: each calls the carried Rust and gives the end's number and value as the C library does.

use std::mem::ManuallyDrop;

use record::{Call, Entry};

use super::*;
use crate::gpio::AnyPin;
use crate::peripherals::I2C1;

type Driver<O> = I2c<'static, I2C1, Blocking, O>;

/// A driver whose drop makes no accesses.
fn driver<O: OperatingMode>() -> ManuallyDrop<Driver<O>> {
    ManuallyDrop::new(I2c {
        tx_dma: None,
        rx_dma: None,
        timeout: Config::default().timeout,
        pins: I2cPins {
            scl: Peri::new(AnyPin),
            sda: Peri::new(AnyPin),
            _phantom: PhantomData,
        },
        _phantom: PhantomData,
    })
}

fn error_number(error: Error) -> u8 {
    match error {
        Error::Bus => 1,
        Error::Arbitration => 2,
        Error::Nack => 3,
        Error::Timeout => 4,
        Error::Crc => 5,
        Error::Overrun => 6,
        Error::ZeroLengthTransfer => 7,
        Error::BufferTooLong => 8,
        Error::InvalidAddress => 9,
    }
}

fn end<V>(result: Result<V, Error>, value: impl FnOnce(V) -> u16) -> (u8, u16) {
    match result {
        Ok(v) => (0, value(v)),
        Err(error) => (error_number(error), 0),
    }
}

fn command_number(command: SlaveCommand) -> u16 {
    let address = match command.address {
        SlaveAddress::SevenBit(address) => u16::from(address),
        SlaveAddress::TenBit(address) => 1 << 10 | address,
    };
    let kind = match command.kind {
        SlaveCommandKind::GeneralCall => 0,
        SlaveCommandKind::Read => 1,
        SlaveCommandKind::Write => 2,
    };
    kind << 12 | address
}

fn left_over(status: SendStatus) -> u16 {
    match status {
        SendStatus::Done => 0,
        SendStatus::LeftoverBytes(count) => count as u16,
    }
}

fn frame(option: u8) -> FrameOptions {
    [
        FrameOptions::FirstAndLastFrame,
        FrameOptions::FirstFrame,
        FrameOptions::FirstAndNextFrame,
        FrameOptions::NextFrame,
        FrameOptions::LastFrame,
        FrameOptions::LastFrameNoStop,
    ][option as usize]
}

/// The list's operations, each with its part of the joined bytes.
fn operations<'a>(call: &'a Call, mut read: &'a mut [u8]) -> Vec<Operation<'a>> {
    let mut written = &call.written[..];
    let mut operations = Vec::with_capacity(call.list.len() / 3);
    for (direction, length) in call.operations() {
        if direction == 0 {
            let (part, rest) = written.split_at(length);
            operations.push(Operation::Write(part));
            written = rest;
        } else {
            let (part, rest) = read.split_at_mut(length);
            operations.push(Operation::Read(part));
            read = rest;
        }
    }
    operations
}

fn init(call: &Call) -> (u8, u16) {
    crate::peripheral::set_input(call.input);
    let config = Config {
        duty: if call.duty == 0 { Duty::Duty2_1 } else { Duty::Duty16_9 },
        ..Config::default()
    };
    let scl = Peri::new(AnyPin);
    let sda = Peri::new(AnyPin);
    let _driver = ManuallyDrop::new(Driver::<Master>::new_blocking(
        Peri::new(I2C1),
        scl,
        sda,
        Hertz(call.frequency),
        config,
    ));
    (0, 0)
}

fn init_slave(call: &Call) -> Result<(), Error> {
    let config = SlaveConfig {
        address: if call.ten_bit == 0 {
            SlaveAddress::SevenBit(call.address.min(255) as u8)
        } else {
            SlaveAddress::TenBit(call.address)
        },
        second_address: (call.has_second != 0).then_some(call.second),
        general_call: call.general_call != 0,
        clock_stretching: call.clock_stretching != 0,
    };
    config.validate()?;
    Driver::<Master>::init_slave(config);
    Ok(())
}

fn write(call: &Call) -> Result<(), Error> {
    let mut master = driver::<Master>();
    if call.option == 0 {
        return master.blocking_write(call.address as u8, &call.written);
    }
    let timeout = master.timeout();
    master.write_bytes(call.address as u8, &call.written, timeout, frame(call.option))
}

fn read(call: &Call, read: &mut [u8]) -> Result<(), Error> {
    let mut master = driver::<Master>();
    if call.option == 0 {
        return master.blocking_read(call.address as u8, read);
    }
    let timeout = master.timeout();
    master.blocking_read_timeout(call.address as u8, read, timeout, frame(call.option))
}

/// Runs a call that has no added cause for a refusal. `buffer` holds the bytes read.
pub fn run(call: &Call, buffer: &mut [u8]) -> (u8, u16) {
    match call.entry {
        Entry::Init => init(call),
        Entry::Transaction => {
            let address = call.address as u8;
            end(
                driver::<Master>().blocking_transaction(address, &mut operations(call, buffer)),
                |()| 0,
            )
        }
        Entry::WriteRead => {
            let address = call.address as u8;
            end(
                driver::<Master>().blocking_write_read(address, &call.written, buffer),
                |()| 0,
            )
        }
        Entry::Write => end(write(call), |()| 0),
        Entry::Read => end(read(call, buffer), |()| 0),
        Entry::InitSlave => end(init_slave(call), |()| 0),
        Entry::Listen => end(driver::<Slave>().blocking_listen(), command_number),
        Entry::RespondToWrite => end(driver::<Slave>().blocking_respond_to_write(buffer), |n| n as u16),
        Entry::RespondToRead => end(driver::<Slave>().blocking_respond_to_read(&call.written), left_over),
    }
}
