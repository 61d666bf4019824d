//! THE ADDED CAUSES. The port refuses some calls at which the Rust panics or has no refusal: 8 at the port's size,
//! 10 to 16, and 17. They are document 01's, and 17 is document 02's, in their order, and nothing here comes from the
//! Rust. A call whose first cause is one of them is never given to the Rust. Where 6 or 9 comes first it is, whatever
//! holds behind.

use record::{Call, Entry};

/// The first cause, if it is an added one. `None` if there is no cause, and also if one of the Rust's own comes first.
pub fn added(call: &Call) -> Option<u8> {
    if call.block_length != 32 {
        return Some(15);
    }
    if malformed(call) {
        return Some(16);
    }
    let bad_address = call.address > 127;
    let no_read = call.read.is_empty();
    match call.entry {
        Entry::Init => init(call),
        Entry::Transaction if bad_address => None,
        Entry::Transaction => transaction(call),
        Entry::WriteRead if no_read || bad_address => None,
        Entry::WriteRead => too_long(call.written.len() + call.read.len()),
        Entry::Write if bad_address => None,
        Entry::Write => too_long(call.written.len()),
        Entry::Read if bad_address || no_read => None,
        Entry::Read => too_long(call.read.len()),
        Entry::InitSlave => own_addresses(call),
        Entry::Listen => None,
        Entry::RespondToWrite => too_long(call.read.len()),
        Entry::RespondToRead => too_long(call.written.len()),
    }
}

/// 16: a number that C can pass and that means nothing.
fn malformed(call: &Call) -> bool {
    let flags = [
        call.duty,
        call.ten_bit,
        call.has_second,
        call.general_call,
        call.clock_stretching,
    ];
    call.chip > 3
        || call.option > 5
        || flags.iter().any(|flag| *flag > 1)
        || call.list.len() % 3 != 0
        || call.operations().any(|(direction, _)| direction > 1)
}

/// 8: more bytes than 65,535.
fn too_long(total: usize) -> Option<u8> {
    (total > 65_535).then_some(8)
}

/// What UM10204 reserves of the addresses of seven bits.
fn is_reserved(address: u16) -> bool {
    matches!(address, 0x01..=0x07 | 0x78..=0x7f)
}

/// 17, behind every cause of 9. An own address of ten bits is never reserved.
fn own_addresses(call: &Call) -> Option<u8> {
    let second = (call.has_second == 1).then_some(call.second as u16);
    let own_is_bad = match call.ten_bit {
        1 => call.address > 1023 || second.is_some(),
        _ => call.address > 127 || call.address == 0 && call.general_call == 0,
    };
    if own_is_bad || second.is_some_and(|second| second > 127) {
        return None;
    }
    let own_is_reserved = call.ten_bit == 0 && is_reserved(call.address);
    let second_is_reserved = second.is_some_and(|second| second == 0 || is_reserved(second));
    (own_is_reserved || second_is_reserved).then_some(17)
}

/// 10, 12, 11.
fn init(call: &Call) -> Option<u8> {
    if call.frequency == 0 || call.frequency > 400_000 {
        return Some(10);
    }
    if call.chip & 2 != 0 && call.input / 1_000_000 < 4 {
        return Some(12);
    }
    let factor = match (call.frequency > 100_000, call.duty) {
        (false, _) => 2,
        (true, 0) => 3,
        (true, _) => 25,
    };
    let largest = 4095 * factor * call.frequency as u64;
    (largest < call.input as u64).then_some(11)
}

/// 13, then at each operation 6 (the Rust's) before 8, then 14.
fn transaction(call: &Call) -> Option<u8> {
    if call.list.len() / 3 > 256 {
        return Some(13);
    }
    let mut sums = [0, 0];
    for (direction, length) in call.operations() {
        if direction == 1 && length == 0 {
            return None;
        }
        sums[direction as usize] += length;
        if sums[0] + sums[1] > 65_535 {
            return Some(8);
        }
    }
    (sums != [call.written.len(), call.read.len()]).then_some(14)
}
