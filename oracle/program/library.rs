//! The C library's functions.

use oracle::windows::Window;
use record::{Call, Entry};

macro_rules! declare {
    ($($name:ident($($parameter:ident: $type:ty),*);)*) => {
        extern "C" {
            $(fn $name(block: *mut u8, block_length: usize, $($parameter: $type),*) -> u64;)*
        }
    };
}

declare! {
    ch32_i2c_init_begin(chip: u8, input: u32, frequency: u32, duty: u8);
    ch32_i2c_init_step(answer: u16);
    ch32_i2c_transaction_begin(chip: u8, address: u8, list: *const u8, list_length: usize, written: *const u8, written_length: usize, read: *mut u8, read_length: usize);
    ch32_i2c_transaction_step(list: *const u8, list_length: usize, written: *const u8, written_length: usize, read: *mut u8, read_length: usize, answer: u16);
    ch32_i2c_write_read_begin(chip: u8, address: u8, written: *const u8, written_length: usize, read: *mut u8, read_length: usize);
    ch32_i2c_write_read_step(written: *const u8, written_length: usize, read: *mut u8, read_length: usize, answer: u16);
    ch32_i2c_write_begin(chip: u8, address: u8, option: u8, written: *const u8, written_length: usize);
    ch32_i2c_write_step(written: *const u8, written_length: usize, answer: u16);
    ch32_i2c_read_begin(chip: u8, address: u8, option: u8, read: *mut u8, read_length: usize);
    ch32_i2c_read_step(read: *mut u8, read_length: usize, answer: u16);
    ch32_i2c_init_slave_begin(ten_bit: u8, address: u16, has_second: u8, second: u8, general_call: u8, clock_stretching: u8);
    ch32_i2c_init_slave_step(answer: u16);
    ch32_i2c_listen_begin(chip: u8);
    ch32_i2c_listen_step(answer: u16);
    ch32_i2c_respond_to_write_begin(chip: u8, buffer: *mut u8, buffer_length: usize);
    ch32_i2c_respond_to_write_step(buffer: *mut u8, buffer_length: usize, answer: u16);
    ch32_i2c_respond_to_read_begin(chip: u8, data: *const u8, data_length: usize);
    ch32_i2c_respond_to_read_step(data: *const u8, data_length: usize, answer: u16);
}

extern "C" {
    fn ch32_i2c_is_critical(block: *const u8, block_length: usize) -> u64;
    fn ch32_i2c_speed_window(input: u32, lowest: u32, highest: u32) -> u64;
}

/// Whether interrupts are to be held off for the access that the block owes: 0 or 1.
pub fn is_critical(block: &[u8]) -> u64 {
    // SAFETY: the pointer goes with its length.
    unsafe { ch32_i2c_is_critical(block.as_ptr(), block.len()) }
}

/// Factor and divider for a speed in a window.
pub fn speed_window(window: &Window) -> u64 {
    // SAFETY: a function of numbers.
    unsafe { ch32_i2c_speed_window(window.input, window.lowest, window.highest) }
}

/// Begins a call with the parameters of `call` and the bytes lent.
pub fn begin(call: &Call, block: &mut [u8], list: &[u8], written: &[u8], read: &mut [u8]) -> u64 {
    let (b, bn) = (block.as_mut_ptr(), block.len());
    let (l, ln) = (list.as_ptr(), list.len());
    let (w, wn) = (written.as_ptr(), written.len());
    let (r, rn) = (read.as_mut_ptr(), read.len());
    let (c, address) = (call, call.address as u8);
    // SAFETY: each pointer goes with its length, and no two slices overlap.
    unsafe {
        match c.entry {
            Entry::Init => ch32_i2c_init_begin(b, bn, c.chip, c.input, c.frequency, c.duty),
            Entry::Transaction => ch32_i2c_transaction_begin(b, bn, c.chip, address, l, ln, w, wn, r, rn),
            Entry::WriteRead => ch32_i2c_write_read_begin(b, bn, c.chip, address, w, wn, r, rn),
            Entry::Write => ch32_i2c_write_begin(b, bn, c.chip, address, c.option, w, wn),
            Entry::Read => ch32_i2c_read_begin(b, bn, c.chip, address, c.option, r, rn),
            Entry::InitSlave => ch32_i2c_init_slave_begin(
                b,
                bn,
                c.ten_bit,
                c.address,
                c.has_second,
                c.second,
                c.general_call,
                c.clock_stretching,
            ),
            Entry::Listen => ch32_i2c_listen_begin(b, bn, c.chip),
            Entry::RespondToWrite => ch32_i2c_respond_to_write_begin(b, bn, c.chip, r, rn),
            Entry::RespondToRead => ch32_i2c_respond_to_read_begin(b, bn, c.chip, w, wn),
        }
    }
}

/// One step of an entry.
pub fn step(entry: Entry, block: &mut [u8], list: &[u8], written: &[u8], read: &mut [u8], answer: u16) -> u64 {
    let (b, bn) = (block.as_mut_ptr(), block.len());
    let (l, ln) = (list.as_ptr(), list.len());
    let (w, wn) = (written.as_ptr(), written.len());
    let (r, rn) = (read.as_mut_ptr(), read.len());
    // SAFETY: each pointer goes with its length, and no two slices overlap.
    unsafe {
        match entry {
            Entry::Init => ch32_i2c_init_step(b, bn, answer),
            Entry::Transaction => ch32_i2c_transaction_step(b, bn, l, ln, w, wn, r, rn, answer),
            Entry::WriteRead => ch32_i2c_write_read_step(b, bn, w, wn, r, rn, answer),
            Entry::Write => ch32_i2c_write_step(b, bn, w, wn, answer),
            Entry::Read => ch32_i2c_read_step(b, bn, r, rn, answer),
            Entry::InitSlave => ch32_i2c_init_slave_step(b, bn, answer),
            Entry::Listen => ch32_i2c_listen_step(b, bn, answer),
            Entry::RespondToWrite => ch32_i2c_respond_to_write_step(b, bn, r, rn, answer),
            Entry::RespondToRead => ch32_i2c_respond_to_read_step(b, bn, w, wn, answer),
        }
    }
}
