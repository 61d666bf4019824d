//! Which lines of the carried blocking Rust make accesses, found in its text, and which ends each entry has.

use record::{Entry, Place};

const SOURCES: [&str; 2] = [
    include_str!("../carried/src/i2c.rs"),
    include_str!("../carried/src/i2c/slave.rs"),
];

const MARKS: [&str; 5] = [".read()", ".modify(", ".write(|", ".write_value(", "timeout.check()"];

/// The async driver, interrupts and the drop of a driver are outside the entries.
fn opens_other_part(line: &str) -> Option<bool> {
    let opens = line.starts_with("impl") || line.starts_with("pub unsafe fn");
    opens.then(|| line.contains("Async") || line.contains("Drop for") || line.contains("on_interrupt"))
}

/// Functions of the common part that only the async driver calls.
fn is_async_helper(line: &str) -> Option<bool> {
    let opens = line.starts_with("    fn ") || line.starts_with("    pub fn ");
    opens.then(|| line.contains("enable_slave_interrupts"))
}

/// The lines with accesses on this chip.
pub fn lines(chip: u8) -> Vec<Place> {
    let mut lines = Vec::new();
    for (file, source) in SOURCES.iter().enumerate() {
        let (mut outside, mut helper, mut before) = (false, false, "");
        for (index, line) in source.lines().enumerate() {
            outside = opens_other_part(line).unwrap_or(outside);
            helper = is_async_helper(line).unwrap_or(helper);
            let absent = before.trim() == "#[cfg(i2c_v3)]" && chip & 1 == 0;
            let is_comment = line.trim_start().starts_with("//");
            if !outside && !helper && !absent && !is_comment && MARKS.iter().any(|mark| line.contains(mark)) {
                lines.push((file as u8, index as u32 + 1));
            }
            before = line;
        }
    }
    lines
}

/// The text of a line.
pub fn line_text(place: Place) -> String {
    let name = ["i2c.rs", "slave.rs"][place.0 as usize];
    let text = SOURCES[place.0 as usize]
        .lines()
        .nth(place.1 as usize - 1)
        .unwrap_or("");
    format!("{name}:{} {}", place.1, text.trim())
}

/// The entries at which only a chip that does not exist gives 16, so that no chip has that end.
pub fn has_16_by_chip_alone(entry: Entry) -> bool {
    matches!(
        entry,
        Entry::WriteRead | Entry::Listen | Entry::RespondToWrite | Entry::RespondToRead
    )
}

/// The numbers with which an entry can end on a chip.
pub fn ends(entry: Entry, chip: u8) -> Vec<u8> {
    let mut ends = match entry {
        Entry::Init => vec![0, 10, 11, 15, 16],
        Entry::Transaction => vec![0, 2, 3, 4, 5, 6, 8, 9, 13, 14, 15, 16],
        Entry::WriteRead | Entry::Write | Entry::Read => vec![0, 2, 3, 4, 5, 6, 8, 9, 15, 16],
        Entry::InitSlave => vec![0, 9, 15, 16, 17],
        Entry::Listen => vec![0, 2, 4, 5, 6, 15, 16],
        Entry::RespondToWrite | Entry::RespondToRead => vec![0, 2, 4, 5, 6, 8, 15, 16],
    };
    let is_ch32v4 = chip & 2 != 0;
    match entry {
        Entry::Init if is_ch32v4 => ends.push(12),
        Entry::Init | Entry::InitSlave => {}
        _ if is_ch32v4 => ends.push(1),
        _ => {}
    }
    ends
}
