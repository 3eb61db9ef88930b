//! The stored list: cases with the Rust's answers, for the port to be replayed on.

use std::collections::{BTreeMap, HashSet};
use std::fs;

use original::call::Call;

use crate::check::{Expected, expected, numbers};
use crate::edges;
use crate::tally::Tally;

/// Longer texts are stored by length and check sum only.
const WHOLE: usize = 600;

/// Seeds that are looked through, the longest form that is taken, and how often each branch is wanted.
const SEEDS: u64 = 40_000;
const LONGEST: usize = 500;
const WANTED: u64 = 3;

struct Stored {
    bytes: Vec<u8>,
    count: u32,
    names: HashSet<String>,
}

/// Writes the list, and says how much is in it.
pub fn store(file: &str, input: impl Fn(u64) -> (Vec<u8>, Vec<Call>, &'static str)) -> bool {
    let mut stored = Stored { bytes: Vec::new(), count: 0, names: HashSet::new() };
    let mut reached: BTreeMap<String, u64> = BTreeMap::new();
    for edge in edges::all().0 {
        for branch in branches(&edge.bytes, &edge.calls) {
            *reached.entry(branch).or_default() += 1;
        }
        stored.add(&edge.name, &edge.bytes, &edge.calls);
    }
    let edges = stored.count;
    for seed in 0..SEEDS {
        let (bytes, calls, _) = input(seed);
        if bytes.len() > LONGEST {
            continue;
        }
        let branches = branches(&bytes, &calls);
        if branches.iter().all(|branch| reached.get(branch).is_some_and(|count| *count >= WANTED)) {
            continue;
        }
        for branch in branches {
            *reached.entry(branch).or_default() += 1;
        }
        stored.add(&format!("seed {seed}"), &bytes, &calls);
    }
    let mut all = stored.count.to_le_bytes().to_vec();
    all.extend(&stored.bytes);
    fs::write(file, &all).unwrap();
    println!("{} cases, {edges} of them thought of, {} branches, {} bytes", stored.count, reached.len(), all.len());
    true
}

fn branches(bytes: &[u8], calls: &[Call]) -> Vec<String> {
    let mut tally = Tally::default();
    match expected(bytes, calls) {
        Expected::Refused(refused) => tally.refused(refused),
        Expected::Tree { dump, print, run } => tally.tree(bytes, calls, &run, &dump, print.len()),
    }
    tally.counts.into_keys().collect()
}

impl Stored {
    fn word(&mut self, word: usize) {
        let word = u32::try_from(word).expect("the list has numbers of 32 bits");
        self.bytes.extend(word.to_le_bytes());
    }

    fn part(&mut self, part: &[u8]) {
        self.word(part.len());
        self.bytes.extend(part);
    }

    fn text(&mut self, text: &[u8]) {
        self.word(text.len());
        self.word(sum(text) as usize);
        self.part(if text.len() <= WHOLE { text } else { &[] });
    }

    fn add(&mut self, name: &str, bytes: &[u8], calls: &[Call]) {
        assert!(self.names.insert(name.to_owned()), "two cases have the name {name}");
        self.count += 1;
        self.part(name.as_bytes());
        self.part(bytes);
        let calls_as_numbers = numbers(calls);
        self.word(calls_as_numbers.len());
        for call in calls_as_numbers {
            self.word(call as usize);
        }
        match expected(bytes, calls) {
            Expected::Refused(refused) => {
                self.word(refused.number() as usize);
                self.text(&[]);
                self.text(&[]);
            }
            Expected::Tree { dump, print, .. } => {
                self.word(0);
                self.text(&dump);
                self.text(&print);
            }
        }
    }
}

/// A check sum of bytes.
fn sum(bytes: &[u8]) -> u32 {
    bytes.iter().fold(2_166_136_261, |sum, byte| (sum ^ u32::from(*byte)).wrapping_mul(16_777_619))
}
