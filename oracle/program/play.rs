//! Plays a call to the C library with the Rust's answers, and compares everything that can be seen; on `ch32v4` also with the
//! Rust in the port's order.

use oracle::ends;
use oracle::flags::{self, Order};
use oracle::random::Random;
use oracle::rust::{self, end_number, Outcome};
use oracle::second;
use oracle::text::{call_line, number_text};
use oracle::windows::{self, Found, Setting, Window};
use record::{kind, Call, Entry, Given, Record, ENTRIES, WRITE};

use crate::library;

const REFUSED_STEP: u64 = end_number(15, 0) as u64;
const GUARD: usize = 16;

/// Lent bytes with guard bytes on both sides.
#[derive(Default)]
struct Lent {
    bytes: Vec<u8>,
    before: Vec<u8>,
}

impl Lent {
    fn fill(&mut self, bytes: &[u8]) {
        self.bytes.clear();
        self.bytes.extend([0xa5; GUARD]);
        self.bytes.extend(bytes);
        self.bytes.extend([0x5a; GUARD]);
    }

    fn part(&mut self) -> &mut [u8] {
        let end = self.bytes.len() - GUARD;
        &mut self.bytes[GUARD..end]
    }

    fn keep(&mut self) {
        self.before.clone_from(&self.bytes);
    }

    fn is_kept(&self) -> bool {
        self.before == self.bytes
    }

    /// The lent bytes are these, and the guards are as they were.
    fn holds(&self, bytes: &[u8]) -> bool {
        let end = self.bytes.len() - GUARD;
        self.bytes[..GUARD] == [0xa5; GUARD] && self.bytes[end..] == [0x5a; GUARD] && self.bytes[GUARD..end] == *bytes
    }
}

#[derive(Default)]
pub struct Player {
    block: Lent,
    list: Lent,
    written: Lent,
    read: Lent,
    /// Steps offered that had to be refused.
    pub refused_steps: u64,
    /// Calls run on the Rust in the port's order too.
    pub reordered_calls: u64,
}

fn check(holds: bool, text: impl FnOnce() -> String) -> Result<(), String> {
    if holds {
        Ok(())
    } else {
        Err(text())
    }
}

/// Asks the library for a window: it has to return the number that brute force finds.
pub fn play_window(window: &Window) -> Result<Option<Found>, String> {
    let found = windows::brute_force(window);
    let (wanted, number) = (windows::number(found), library::speed_window(window));
    check(number == wanted, || {
        let (wanted, number) = (windows::number_text(wanted), windows::number_text(number));
        format!("brute force {wanted}, the C library {number}")
    })?;
    Ok(found)
}

impl Player {
    pub fn play(&mut self, call: &Call, outcome: &Outcome, random: &mut Random) -> Result<(), String> {
        if let Some(message) = &outcome.panic {
            return Err(format!("the Rust panicked: {message}"));
        }
        self.block.fill(&random.bytes(call.block_length));
        self.list.fill(&call.list);
        self.written.fill(&call.written);
        self.read.fill(&call.read);
        self.keep();
        let first = library::begin(
            call,
            self.block.part(),
            self.list.part(),
            self.written.part(),
            self.read.part(),
        );
        if outcome.is_refused() {
            let end = outcome.end.unwrap_or(0) as u64;
            check(first == end, || differs("begin", end, first))?;
            self.check_kept("a refused begin")?;
            return self.check_reordered(call, outcome, first);
        }
        let last = self.play_accesses(call, outcome, random, first)?;
        if let Some(end) = outcome.end {
            let closing = second::closing(call, &outcome.record, outcome.end);
            let is_kept = closing.is_none_or(|closing| closing.is_of_the_rust(call.written.len(), end));
            check(is_kept, || "the Rust's count is not of the bytes that were sent".into())?;
            check(flags::decide(call, Order::Rust, &outcome.record, end), || {
                format!("the flags {:04x} do not decide the Rust's end", outcome.flags)
            })?;
            let (second, flags) = (last >> 32 & 0xffff, last >> 48);
            check(second == outcome.second as u64, || {
                format!("the second count: {} by the words that the Rust was fed, the C library {second}", outcome.second)
            })?;
            check(flags == outcome.flags as u64, || {
                format!("the flags: {:04x} by the words that the Rust was fed, the C library {flags:04x}", outcome.flags)
            })?;
            if !flags::departs(call, outcome.flags) {
                check(last as u32 == end, || differs("the end", end as u64, last))?;
            }
            let as_the_rust = ends::of_call(call, last);
            check(as_the_rust == end as u64, || differs("the end as the Rust's", end as u64, as_the_rust))?;
            self.check_critical(0, || "the end".into())?;
            for _ in 0..2 {
                self.refused_step(call.entry, "a step after the end", random)?;
            }
        }
        self.check_bytes(call, outcome)?;
        self.check_reordered(call, outcome, last)?;
        let is_decided = outcome.end.is_none() || flags::decide(call, Order::Port, &outcome.record, last as u32);
        check(is_decided, || format!("the flags {:04x} do not decide the C library's end", outcome.flags))
    }

    /// `init` with a window's pair: by the library as on the Rust, which has to set this very pair.
    pub fn play_setting(&mut self, setting: &Setting, random: &mut Random) -> Result<(), String> {
        let (call, answers) = (&setting.call, (0..8).map(|_| random.word()).collect());
        let outcome = rust::run(call, Record::default(), Box::new(Given { answers, used: 0 }), false);
        let line = || call_line(call, &outcome.record.answers);
        self.play(call, &outcome, random).map_err(|difference| format!("{difference}: {}", line()))?;
        check(setting.is_made(&outcome), || format!("the Rust sets another pair: {}", line()))
    }

    /// On `ch32v4`: the Rust in the port's order, fed the same answers, makes the same record, and its end is the library's
    /// own.
    fn check_reordered(&mut self, call: &Call, outcome: &Outcome, last: u64) -> Result<(), String> {
        if !matches!(call.chip, 2 | 3) {
            return Ok(());
        }
        self.reordered_calls += 1;
        let again = rust::run_in(Order::Port, call, &outcome.record.answers);
        let (ours, rusts) = (&again.record, &outcome.record);
        // A stored call has no note of where interrupts are held off.
        let same_holds = ours.held == rusts.held || rusts.held.is_empty();
        let same_record = same_holds && (&ours.accesses, &ours.answers, ours.open) == (&rusts.accesses, &rusts.answers, rusts.open);
        check(same_record, || "the reordered Rust: another record".into())?;
        let same_rest = (&again.read, again.second, again.flags) == (&outcome.read, outcome.second, outcome.flags);
        check(same_rest && again.panic.is_none(), || "the reordered Rust: other bytes, count or flags".into())?;
        let (end, number) = (again.end.map(u64::from), outcome.end.map(|_| last & 0xffff_ffff));
        check(end == number, || {
            let shown = end.map_or("open".into(), number_text);
            format!("the reordered Rust: {shown}, the C library {}", number_text(last))
        })
    }

    /// Feeds the answers and compares each access. Hands back the number that follows the last of them.
    fn play_accesses(
        &mut self,
        call: &Call,
        outcome: &Outcome,
        random: &mut Random,
        first: u64,
    ) -> Result<u64, String> {
        let accesses = &outcome.record.accesses;
        let mut answers = outcome.record.answers.iter();
        // Now and then something happens in between.
        let disturb_at = if random.one_in(8) {
            random.below(accesses.len() as u64 + 1) as usize
        } else {
            usize::MAX
        };
        let mut number = first;
        for (place, access) in accesses.iter().enumerate() {
            check(number == *access as u64, || {
                differs(&format!("access {place}"), *access as u64, number)
            })?;
            // A stored call has no such note.
            if let Some(held) = outcome.record.held.get(place) {
                self.check_critical(*held as u64, || format!("access {place}, {}", number_text(number)))?;
            }
            if place == disturb_at {
                self.disturb(call, random)?;
            }
            // After a write the answer is ignored.
            let answer = if kind(*access) == WRITE {
                Some(random.word())
            } else {
                answers.next().copied()
            };
            let Some(answer) = answer else { break };
            number = self.step(call.entry, answer);
        }
        Ok(number)
    }

    fn step(&mut self, entry: Entry, answer: u16) -> u64 {
        let (block, list, written, read) = (&mut self.block, &mut self.list, &mut self.written, &mut self.read);
        library::step(entry, block.part(), list.part(), written.part(), read.part(), answer)
    }

    fn keep(&mut self) {
        for lent in [&mut self.block, &mut self.list, &mut self.written, &mut self.read] {
            lent.keep();
        }
    }

    /// What the library says of interrupts is what the Rust did; and it changes nothing.
    fn check_critical(&mut self, held: u64, what: impl FnOnce() -> String) -> Result<(), String> {
        self.block.keep();
        let critical = library::is_critical(self.block.part());
        check(self.block.is_kept(), || "is_critical changed the block".into())?;
        check(critical == held, || {
            format!("{}: the Rust holds interrupts off: {held}, the C library says {critical}", what())
        })
    }

    fn check_kept(&self, what: &str) -> Result<(), String> {
        let lent = [
            ("block", &self.block),
            ("list", &self.list),
            ("written", &self.written),
            ("read", &self.read),
        ];
        match lent.iter().find(|(_, lent)| !lent.is_kept()) {
            None => Ok(()),
            Some((name, _)) => Err(format!("{what} changed the bytes of {name}")),
        }
    }

    /// A step that has to answer 15 and change nothing.
    fn refused_step(&mut self, entry: Entry, what: &str, random: &mut Random) -> Result<(), String> {
        self.refused_steps += 1;
        self.keep();
        let number = self.step(entry, random.word());
        check(number == REFUSED_STEP, || differs(what, REFUSED_STEP, number))?;
        self.check_kept(what)
    }

    /// A step with another call's function, a block cut short, or bytes that begin would refuse; or something that
    /// must not matter.
    fn disturb(&mut self, call: &Call, random: &mut Random) -> Result<(), String> {
        match random.below(5) {
            0 => {
                let others: Vec<Entry> = ENTRIES.into_iter().filter(|entry| *entry != call.entry).collect();
                self.refused_step(random.pick(&others), "a step of another entry", random)
            }
            1 => {
                let length = random.below(32) as usize;
                let short = self.block.part()[..length].to_vec();
                self.bad_block(call, short, "a step with a short block", random)
            }
            2 => self.bad_block(call, random.bytes(32), "a step on random bytes", random),
            3 => self.refused_bytes(call, random),
            _ => {
                self.move_and_begin_another(call, random);
                Ok(())
            }
        }
    }

    /// Everything lent moves to other addresses, and the same call begins on another block.
    fn move_and_begin_another(&mut self, call: &Call, random: &mut Random) {
        for lent in [&mut self.block, &mut self.list, &mut self.written, &mut self.read] {
            lent.bytes = lent.bytes.clone();
        }
        let (mut block, mut read) = (random.bytes(32), call.read.clone());
        library::begin(call, &mut block, &call.list, &call.written, &mut read);
        library::step(
            call.entry,
            &mut block,
            &call.list,
            &call.written,
            &mut read,
            random.word(),
        );
    }

    /// A step on another block, which is no image.
    fn bad_block(&mut self, call: &Call, bad: Vec<u8>, what: &str, random: &mut Random) -> Result<(), String> {
        let mut block = bad.clone();
        self.refused_steps += 1;
        self.keep();
        let (list, written, read) = (self.list.part(), self.written.part(), self.read.part());
        let number = library::step(call.entry, &mut block, list, written, read, random.word());
        check(number == REFUSED_STEP, || differs(what, REFUSED_STEP, number))?;
        check(block == bad, || format!("{what} changed the block"))?;
        check(library::is_critical(&bad) == 0, || format!("{what} is critical"))?;
        self.check_kept(what)
    }

    fn refused_bytes(&mut self, call: &Call, random: &mut Random) -> Result<(), String> {
        let what = "a step with bytes that begin would refuse";
        let (mut list, mut written, mut read) = (call.list.clone(), call.written.clone(), call.read.clone());
        match call.entry {
            Entry::Init | Entry::InitSlave | Entry::Listen => return Ok(()),
            Entry::Transaction => match random.below(4) {
                0 => list.push(0),
                1 => list[0] = 2,
                2 => written.push(0),
                _ => read.push(0),
            },
            Entry::WriteRead | Entry::Read if random.one_in(2) => read.clear(),
            Entry::WriteRead | Entry::Write | Entry::RespondToRead => written.resize(65_536, 0),
            Entry::Read | Entry::RespondToWrite => read.resize(65_536, 0),
        }
        let kept = read.clone();
        self.refused_steps += 1;
        self.keep();
        let number = library::step(call.entry, self.block.part(), &list, &written, &mut read, random.word());
        check(number == REFUSED_STEP, || differs(what, REFUSED_STEP, number))?;
        check(read == kept, || format!("{what} changed the bytes of read"))?;
        self.check_kept(what)
    }

    fn check_bytes(&self, call: &Call, outcome: &Outcome) -> Result<(), String> {
        check(self.list.holds(&call.list), || "the list was changed".into())?;
        check(self.written.holds(&call.written), || {
            "the written bytes were changed".into()
        })?;
        check(self.read.holds(&outcome.read), || {
            read_differs(&outcome.read, &self.read)
        })?;
        let end = self.block.bytes.len() - GUARD;
        let guards = self.block.bytes[..GUARD] == [0xa5; GUARD] && self.block.bytes[end..] == [0x5a; GUARD];
        check(guards, || "bytes beside the block were changed".into())
    }
}

fn read_differs(rust: &[u8], read: &Lent) -> String {
    let library = &read.bytes[GUARD..read.bytes.len() - GUARD];
    match rust.iter().zip(library).position(|(a, b)| a != b) {
        None => "bytes beside the read buffer were changed".into(),
        Some(i) => format!(
            "byte {i} of the read buffer: the Rust {:02x}, the C library {:02x}",
            rust[i], library[i]
        ),
    }
}

fn differs(what: &str, rust: u64, library: u64) -> String {
    format!(
        "{what}: the Rust {}, the C library {}",
        number_text(rust),
        number_text(library)
    )
}
