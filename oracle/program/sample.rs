//! Chooses the sample: calls that between them show every line, every way from line to line and every end.

use std::collections::HashMap;
use std::hash::{DefaultHasher, Hash, Hasher};

use record::{Answers, Call, Entry, Place, Record, ENTRIES};

use crate::edges;
use crate::generate::{Generator, Sizes};
use crate::random::Random;
use crate::rust::{self, Outcome};
use crate::sample_file::{encode, Sampled, MAGIC};
use crate::second;

/// A call in the sample: its bytes in the file and what it shows.
pub struct Chosen {
    pub entry: Entry,
    pub chip: u8,
    pub end: Option<u8>,
    pub places: Vec<Place>,
    bytes: Vec<u8>,
    features: Vec<u64>,
    /// Stays, whatever else shows the same.
    fixed: bool,
}

fn feature(parts: impl Hash) -> u64 {
    let mut hasher = DefaultHasher::new();
    parts.hash(&mut hasher);
    hasher.finish()
}

fn length_class(length: usize) -> usize {
    length.min(4)
}

/// MHz: too few for `ch32v4`, its clamp, six bits, eight bits.
fn clock_class(input: u32) -> usize {
    [4, 60, 64, 256]
        .iter()
        .filter(|bound| input / 1_000_000 >= **bound)
        .count()
}

/// The number of runs, and of operations, each up to 4.
fn shape(call: &Call) -> (usize, usize) {
    let directions: Vec<u8> = call.operations().map(|o| o.0).collect();
    let changes = directions.windows(2).filter(|pair| pair[0] != pair[1]).count();
    (changes.min(4), directions.len().min(4))
}

/// How much the sample is to show.
#[derive(Copy, Clone, PartialEq, Eq)]
pub enum Detail {
    /// Each access line and each end.
    Lines,
    /// Also each way from one line to the next, the sets of error flags, and the kinds of parameters.
    Ways,
}

/// The ways from one access to the next, the sets of error flags, the kind of the parameters.
fn ways(call: &Call, outcome: &Outcome) -> Vec<u64> {
    let who = (call.entry as u8, call.chip);
    let record = &outcome.record;
    let end = outcome.end.map(|end| end >> 8 & 0xff);
    let lengths = (length_class(call.written.len()), length_class(call.read.len()));
    let flags = [call.ten_bit, call.has_second, call.general_call, call.clock_stretching];
    let clocks = (call.frequency > 100_000, call.duty, clock_class(call.input));
    let mut features = vec![
        feature((who, "kind", call.option, lengths, end)),
        feature((who, "list", shape(call), end)),
        feature((who, "flags", flags, end)),
        feature((who, "clocks", clocks, end)),
    ];
    let mut before = ((0, 0), 0);
    for (place, access) in record.places.iter().zip(&record.accesses) {
        let here = (*place, access & 0xffff);
        features.push(feature((who, "way", before, here)));
        before = here;
    }
    features.push(feature((who, "last", before, end)));
    features.push(feature((who, "told", outcome.flags, end)));
    if let Some(closing) = second::closing(call, record, outcome.end) {
        features.push(feature((who, "closing", closing.class(call.written.len()))));
    }
    let errors = record
        .answers
        .iter()
        .map(|answer| feature((who, "errors", answer & 0x5f00, end)));
    features.extend(errors);
    features
}

/// What a call shows.
fn features(call: &Call, outcome: &Outcome, detail: Detail) -> Vec<u64> {
    let who = (call.entry as u8, call.chip);
    let record = &outcome.record;
    let end = outcome.end.map(|end| end >> 8 & 0xff);
    let mut features = vec![feature((who, "end", end))];
    for (place, access) in record.places.iter().zip(&record.accesses) {
        features.push(feature((who, "line", place, access & 0xffff)));
    }
    if detail == Detail::Ways {
        features.extend(ways(call, outcome));
    }
    features.sort();
    features.dedup();
    features
}

fn choose(call: Call, answers: Box<dyn Answers>, random: &mut Random, detail: Detail) -> Chosen {
    let sampled = Sampled::new(call, random.byte(), random.byte());
    let outcome = rust::run(&sampled.call, Record::default(), answers, true);
    assert!(outcome.panic.is_none(), "the Rust panicked");
    Chosen {
        entry: sampled.call.entry,
        chip: sampled.call.chip,
        end: outcome.end.map(|end| (end >> 8) as u8),
        bytes: encode(&sampled, &outcome),
        features: features(&sampled.call, &outcome, detail),
        places: outcome.record.places,
        fixed: false,
    }
}

/// How many chosen calls show each feature.
type Shown = HashMap<u64, u32>;

fn add(chosen: &mut Vec<Chosen>, shown: &mut Shown, call: Chosen) {
    let is_new = call.features.iter().any(|f| !shown.contains_key(f));
    if call.fixed || is_new {
        call.features.iter().for_each(|f| *shown.entry(*f).or_default() += 1);
        chosen.push(call);
    }
}

/// Drops the largest calls first, as long as everything stays shown.
fn prune(mut chosen: Vec<Chosen>, shown: &mut Shown) -> Vec<Chosen> {
    let mut order: Vec<usize> = (0..chosen.len()).filter(|i| !chosen[*i].fixed).collect();
    order.sort_by_key(|i| std::cmp::Reverse(chosen[*i].bytes.len()));
    let mut dropped = vec![false; chosen.len()];
    for i in order {
        if chosen[i].features.iter().all(|f| shown[f] > 1) {
            chosen[i].features.iter().for_each(|f| *shown.get_mut(f).unwrap() -= 1);
            dropped[i] = true;
        }
    }
    let mut dropped = dropped.into_iter();
    chosen.retain(|_| !dropped.next().unwrap());
    chosen
}

/// The sample for a seed, from `tries` random calls of each entry on each chip.
pub fn sample(seed: u64, tries: u64, detail: Detail) -> Vec<Chosen> {
    let mut chosen = Vec::new();
    let mut shown = Shown::new();
    let mut random = Random::of(&[seed]);
    for (call, answers) in edges::all(&mut random) {
        let mut edge = choose(call, answers, &mut random, detail);
        edge.fixed = true;
        add(&mut chosen, &mut shown, edge);
    }
    for entry in ENTRIES {
        for chip in 0..4 {
            for number in 0..tries {
                let (call, mut answers) = Generator::new(seed, entry, chip, number, Sizes::Small).call(entry, chip);
                answers.mood.limit = answers.mood.limit.min(150);
                add(&mut chosen, &mut shown, choose(call, answers, &mut random, detail));
            }
        }
    }
    prune(chosen, &mut shown)
}

/// The sample's file.
pub fn file(chosen: &[Chosen]) -> Vec<u8> {
    let mut bytes = MAGIC.to_vec();
    bytes.extend((chosen.len() as u32).to_le_bytes());
    chosen.iter().for_each(|call| bytes.extend(&call.bytes));
    bytes
}
