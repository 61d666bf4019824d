//! A call of one of the nine entries, in the parameters of the C library.

#[derive(Copy, Clone, PartialEq, Eq, Debug)]
pub enum Entry {
    Init,
    Transaction,
    WriteRead,
    Write,
    Read,
    InitSlave,
    Listen,
    RespondToWrite,
    RespondToRead,
}

pub const ENTRIES: [Entry; 9] = [
    Entry::Init,
    Entry::Transaction,
    Entry::WriteRead,
    Entry::Write,
    Entry::Read,
    Entry::InitSlave,
    Entry::Listen,
    Entry::RespondToWrite,
    Entry::RespondToRead,
];

impl Entry {
    pub fn name(self) -> &'static str {
        match self {
            Entry::Init => "init",
            Entry::Transaction => "transaction",
            Entry::WriteRead => "write_read",
            Entry::Write => "write",
            Entry::Read => "read",
            Entry::InitSlave => "init_slave",
            Entry::Listen => "listen",
            Entry::RespondToWrite => "respond_to_write",
            Entry::RespondToRead => "respond_to_read",
        }
    }

    pub fn named(name: &str) -> Option<Entry> {
        ENTRIES.into_iter().find(|entry| entry.name() == name)
    }
}

/// Parameters that an entry does not have are 0 or empty. `written` is also the reply's `data`, `read` the
/// receive's `buffer`; `read` holds the bytes that lie there before the call.
#[derive(Clone, Debug)]
pub struct Call {
    pub entry: Entry,
    pub chip: u8,
    pub address: u16,
    pub option: u8,
    pub input: u32,
    pub frequency: u32,
    pub duty: u8,
    pub ten_bit: u8,
    pub has_second: u8,
    pub second: u8,
    pub general_call: u8,
    pub clock_stretching: u8,
    pub list: Vec<u8>,
    pub written: Vec<u8>,
    pub read: Vec<u8>,
    pub block_length: usize,
}

impl Call {
    pub fn new(entry: Entry) -> Self {
        Self {
            entry,
            chip: 0,
            address: 0,
            option: 0,
            input: 0,
            frequency: 0,
            duty: 0,
            ten_bit: 0,
            has_second: 0,
            second: 0,
            general_call: 0,
            clock_stretching: 0,
            list: Vec::new(),
            written: Vec::new(),
            read: Vec::new(),
            block_length: 32,
        }
    }

    /// The list's operations: whether each reads, and its length.
    pub fn operations(&self) -> impl Iterator<Item = (u8, usize)> + '_ {
        self.list
            .chunks_exact(3)
            .map(|o| (o[0], o[1] as usize + 256 * o[2] as usize))
    }
}
