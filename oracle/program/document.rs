//! Document 01's edges, as it gives them, and document 02's reserved addresses, second counts, flags and order of errors, looked
//! up in what the Rust does behind the added causes, unchanged and in the port's order, with count and flags kept beside it.
//! Answers are 0 where none are given.

use record::{Call, Entry};

use crate::flags::{self, Departing, Order};
use crate::{rust, text};

/// A call, and a line that is to be in its record in both orders.
const EDGES: [(&str, &str); 42] = [
    ("entry=init input=36000000 frequency=100000", "w,CKCFGR,00b4"),
    ("entry=init input=36000000 frequency=400000", "w,CKCFGR,801e"),
    ("entry=init input=36000000 frequency=400000 duty=1", "w,CKCFGR,c004"),
    ("entry=init input=81900000 frequency=10000", "w,CKCFGR,0fff"),
    ("entry=init input=81900001 frequency=10000", "end,11,0,0000"),
    ("entry=init input=0 frequency=100000", "w,CKCFGR,0004"),
    ("entry=init chip=2 input=0 frequency=100000", "end,12,0,0000"),
    ("entry=init input=36000000 frequency=400001", "end,10,0,0000"),
    ("entry=init chip=1 input=300000000 frequency=100000", "w,CTLR2,002c"),
    ("entry=init chip=3 input=300000000 frequency=100000", "w,CTLR2,003c"),
    ("entry=init_slave address=0 general_call=1", "w,OADDR1,4000"),
    ("entry=init_slave address=0", "end,9,0,0000"),
    ("entry=init_slave ten_bit=1 address=1023", "w,OADDR1,c3ff"),
    ("entry=init_slave address=85 has_second=1 second=51", "w,OADDR2,0067"),
    ("entry=init_slave address=85", "w,OADDR2,0000"),
    ("entry=init_slave address=7", "end,17,0,0000"),
    ("entry=init_slave address=8", "w,OADDR1,4010"),
    ("entry=init_slave address=119", "w,OADDR1,40ee"),
    ("entry=init_slave address=120", "end,17,0,0000"),
    ("entry=init_slave address=85 has_second=1 second=0", "end,17,0,0000"),
    ("entry=init_slave address=85 has_second=1 second=8", "w,OADDR2,0011"),
    ("entry=init_slave address=0 general_call=1 has_second=1 second=3", "end,17,0,0000"),
    ("entry=init_slave address=120 has_second=1 second=128", "end,9,0,0000"),
    ("entry=init_slave ten_bit=1 address=3", "w,OADDR1,c003"),
    ("entry=write option=3 written=aa answers=0600", "end,2,4,0600"),
    ("entry=write option=3 written=aa answers=0600", "w,STAR1,f9ff"),
    ("entry=write option=3 chip=2 written=aa answers=0100", "end,1,4,0100"),
    ("entry=write option=3 chip=0 written=aa answers=01800004", "end,0,2,0000"),
    // All error flags of the deciding word: an AF in a slave's too, a BERR that decides nothing.
    ("entry=write option=3 chip=0 written=aa answers=1d80", "end,5,4,1d00"),
    ("entry=respond_to_write chip=1 read=00 answers=4d00", "end,4,3,4d00"),
    // No flags at a late clock, nor where START was lost, though some were cleared before.
    ("entry=write option=3 chip=0 written=aa answers=01000001", "end,4,5,0000"),
    ("entry=respond_to_write chip=0 read=00 answers=0400000100", "end,4,4,0000"),
    ("entry=write chip=0 answers=0000000000000000010101000100", "end,2,9,0000"),
    // No STOP for one byte of `LastFrame`: POS, the error check, RXNE, the byte, STOP's fall, POS.
    (
        "entry=read option=4 read=00 answers=00000000004000aa00000000",
        "end,0,6,0000",
    ),
    ("entry=transaction", "end,0,0,0000"),
    // AF: the Rust counts what waits in the data register as sent, and the second count doesn't.
    ("entry=respond_to_read written=0102 answers=008000800400", "end,0,4,0000,second 0001"),
    ("entry=respond_to_read written=0102 answers=008000800480", "end,0,4,0000"),
    ("entry=respond_to_read written=0102 answers=0080008000800400", "end,0,5,0000"),
    ("entry=respond_to_read written=0102 answers=0400", "end,0,2,0000,value 0002,second 0002"),
    (
        "entry=respond_to_read written=0102 answers=00800400",
        "end,0,3,0000,value 0001,second 0002",
    ),
    (
        "entry=respond_to_read written=0102 answers=00800080001000000000",
        "end,0,5,0000,value 0001,second 0001",
    ),
    (
        "entry=respond_to_read written=0102 answers=008000800002",
        "end,0,3,0000,value 0001,second 0001",
    ),
];

/// A call, its last line in the Rust's order and in the port's: on `ch32v4` a bus error comes before all but ARLO.
const ORDERED: [(&str, &str, &str); 12] = [
    ("entry=write option=3 chip=2 written=aa answers=0500", "end,3,4,0500", "end,1,4,0500"),
    ("entry=write option=3 chip=3 written=aa answers=0500", "end,3,4,0500", "end,1,4,0500"),
    ("entry=write option=3 chip=2 written=aa answers=0700", "end,2,4,0700", "end,2,4,0700"),
    ("entry=write option=3 chip=0 written=aa answers=0500", "end,3,4,0500", "end,3,4,0500"),
    ("entry=write option=3 chip=1 written=aa answers=0500", "end,3,4,0500", "end,3,4,0500"),
    // TIMEOUT is an error with `i2c_v3` alone.
    ("entry=write option=3 chip=2 written=aa answers=4100", "end,1,4,4100", "end,1,4,4100"),
    ("entry=write option=3 chip=3 written=aa answers=4100", "end,4,4,4100", "end,1,4,4100"),
    ("entry=write option=3 chip=3 written=aa answers=1100", "end,5,4,1100", "end,1,4,1100"),
    ("entry=respond_to_write chip=2 read=00 answers=0900", "end,6,3,0900", "end,1,3,0900"),
    ("entry=respond_to_write chip=3 read=00 answers=0900", "end,6,3,0900", "end,1,3,0900"),
    ("entry=respond_to_write chip=0 read=00 answers=0900", "end,6,3,0900", "end,6,3,0900"),
    // AF is no error in a slave.
    ("entry=respond_to_write chip=2 read=00 answers=0500", "end,1,3,0500", "end,1,3,0500"),
];

/// What is wrong where the Rust in this order does something else.
fn difference(order: Order, line: &str, wanted: &str) -> Option<String> {
    let (call, mut answers) = text::parse_call(line).expect("a call");
    answers.resize(40, 0);
    let shown = text::record_text(&rust::run_in(order, &call, &answers));
    let is_there = shown.lines().any(|line| line == wanted);
    (!is_there).then(|| format!("{line}: not {wanted}, but\n{shown}"))
}

/// The edges at which the Rust does something else.
pub fn differences() -> Vec<String> {
    let both = EDGES.iter().map(|(line, wanted)| (line, wanted, wanted));
    let ordered = ORDERED.iter().map(|(line, rust, port)| (line, rust, port));
    let each = both.chain(ordered).flat_map(|(line, rust, port)| [(Order::Rust, line, rust), (Order::Port, line, port)]);
    each.filter_map(|(order, line, wanted)| difference(order, line, wanted)).collect()
}

/// Every set of error flags in a word that a master or a slave checks, on every chip: the end is the order's in the Rust and in
/// its reordered copy, and the two differ where `flags::departs` says.
pub fn orders() -> Result<Departing, String> {
    let mut departing = Departing::default();
    for entry in [Entry::Write, Entry::RespondToWrite] {
        for place in 0..256 {
            let mut call = Call::new(entry);
            let flags = (place & 31) << 8 | (place & 32) << 9;
            (call.chip, call.option) = ((place >> 6) as u8, if entry == Entry::Write { 3 } else { 0 });
            call.written.resize((entry == Entry::Write) as usize, 0);
            let ends = [Order::Rust, Order::Port].map(|order| {
                let end = rust::run_in(order, &call, &[flags, 0, 0, 0, 0, 0]).end;
                (end.map(|end| (end >> 8) as u8), flags::decided(&call, order, flags))
            });
            let departs = ends[0].0 != ends[1].0;
            if ends.iter().any(|(end, decided)| end != decided) || departs != flags::departs(&call, flags) {
                return Err(format!("{} on chip {}, flags {flags:04x}: {ends:?}", entry.name(), call.chip));
            }
            departing.add(&call, flags);
        }
    }
    Ok(departing)
}
