//! The library's ends as the unchanged Rust's, by oracle/as_the_rust.c.

use record::{Call, Entry};

extern "C" {
    fn as_the_rust(chip: u8, master: u8, end: u64) -> u64;
}

/// An end of a transfer on a chip.
pub fn of_transfer(chip: u8, end: u64) -> u64 {
    // SAFETY: a function of numbers.
    unsafe { as_the_rust(chip, 1, end) }
}

/// An end of a call. `init` and `init_slave` have no error check.
pub fn of_call(call: &Call, end: u64) -> u64 {
    match call.entry {
        Entry::Init | Entry::InitSlave => end,
        Entry::Transaction | Entry::WriteRead | Entry::Write | Entry::Read => of_transfer(call.chip, end),
        // SAFETY: a function of numbers.
        Entry::Listen | Entry::RespondToWrite | Entry::RespondToRead => unsafe { as_the_rust(call.chip, 0, end) },
    }
}
