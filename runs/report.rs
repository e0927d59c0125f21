//! What a run counts and says: each kind of call as it is compared, the smallest input that differs, and the total.

use std::fmt::Debug;
use std::process::ExitCode;
use std::time::Instant;

/// A kind of call under comparison.
struct Kind {
    name: String,
    calls: u64,
    differ: u64,
    smallest: Option<(Vec<u32>, String)>,
    begun: Instant,
}

pub struct Run {
    seed: u64,
    scale: u64,
    subject: &'static str,
    random: Random,
    kind: Option<Kind>,
    /// The calls that the subject is there to compare, and how often each that it compared was.
    declared: &'static [&'static str],
    by_call: Vec<(&'static str, u64)>,
    /// Of the subjects before: the same counts, and what they compared against what they are there for.
    counted: Vec<(&'static str, u64)>,
    faults: Vec<String>,
    calls: u64,
    differ: u64,
    until_found: bool,
}

impl Run {
    /// SEED (default 1) chooses the random inputs; SCALE (default 1) multiplies their number.
    /// Where `until_found`, the run ends with the first kind of call that differs.
    pub fn from_environment(until_found: bool) -> Run {
        let (seed, scale) = (number("SEED", 1), number("SCALE", 1));
        eprintln!("SEED={seed} SCALE={scale}");
        let (by_call, counted, faults) = (Vec::new(), Vec::new(), Vec::new());
        let (subject, random, kind, declared) = ("", Random(0), None, &[]);
        Run { seed, scale, subject, random, kind, declared, by_call, counted, faults, calls: 0, differ: 0, until_found }
    }

    /// A subject's random inputs depend on the seed and its name alone, and not on the subjects before it.
    pub fn subject(&mut self, name: &'static str, calls: &'static [&'static str]) {
        self.end_subject();
        (self.subject, self.declared) = (name, calls);
        self.random = Random(name.bytes().fold(self.seed, |sum, byte| sum.wrapping_mul(257) + u64::from(byte)));
    }

    pub fn begin(&mut self, name: &str) {
        self.end();
        let kind = Kind { name: name.to_string(), calls: 0, differ: 0, smallest: None, begun: Instant::now() };
        self.kind = Some(kind);
    }

    /// One call compared. `size` orders inputs, so that the smallest one that differs is kept: shorter, then lower.
    pub fn compare<T: PartialEq + Debug>(
        &mut self,
        call: &'static str,
        ours: T,
        theirs: T,
        size: impl FnOnce() -> Vec<u32>,
        input: impl FnOnce() -> String,
    ) {
        let kind = self.kind.as_mut().expect("a kind is begun before a call is compared");
        kind.calls += 1;
        match self.by_call.last_mut() {
            Some((name, calls)) if *name == call => *calls += 1,
            _ => count_last(&mut self.by_call, call),
        }
        if ours == theirs {
            return;
        }
        kind.differ += 1;
        let size = size();
        let smaller = |(other, _): &(Vec<u32>, String)| (size.len(), &size) < (other.len(), other);
        if kind.smallest.as_ref().is_none_or(smaller) {
            kind.smallest = Some((size, format!("{}\n    call:   {ours:?}\n    oracle: {theirs:?}", input())));
        }
    }

    fn end(&mut self) {
        let Some(kind) = self.kind.take() else { return };
        let seconds = kind.begun.elapsed().as_secs_f64();
        eprintln!("{}: {}: {} calls, {} differ ({seconds:.1} s)", self.subject, kind.name, kind.calls, kind.differ);
        if let Some((_, text)) = kind.smallest {
            eprintln!("  smallest: {text}");
        }
        if kind.calls == 0 {
            self.faults.push(format!("{}: {}: no call was compared", self.subject, kind.name));
        }
        self.calls += kind.calls;
        self.differ += kind.differ;
        if self.until_found && self.differ > 0 {
            println!("{} calls compared, {} differ", self.calls, self.differ);
            std::process::exit(1);
        }
    }

    /// A subject compares each call that it declares, and no other.
    fn end_subject(&mut self) {
        self.end();
        let name = self.subject;
        for call in self.declared.iter().filter(|call| self.by_call.iter().all(|(other, _)| other != *call)) {
            self.faults.push(format!("{name}: no call of {call} was compared"));
        }
        for (call, _) in self.by_call.iter().filter(|(call, _)| !self.declared.contains(call)) {
            self.faults.push(format!("{name}: {call} was compared, and the subject does not declare it"));
        }
        self.counted.append(&mut self.by_call);
    }

    pub fn conclude(mut self) -> ExitCode {
        self.end_subject();
        self.counted.sort();
        for (call, calls) in &self.counted {
            eprintln!("{call}: {calls} calls compared");
        }
        let sum = format!("{} calls compared, {} differ", self.calls, self.differ);
        if !self.faults.is_empty() || self.calls == 0 {
            self.faults.iter().for_each(|fault| println!("{fault}"));
            println!("{sum}, but not of each call and each kind");
            return ExitCode::FAILURE;
        }
        println!("{sum}");
        if self.differ == 0 { ExitCode::SUCCESS } else { ExitCode::FAILURE }
    }

    /// So many random inputs, times SCALE.
    pub fn times(&self, count: u64) -> std::ops::Range<u64> {
        0..count * self.scale
    }

    pub fn random(&mut self) -> &mut Random {
        &mut self.random
    }
}

/// Counts a call, and moves its counter to the end, where it is soon looked for again.
fn count_last(counters: &mut Vec<(&'static str, u64)>, call: &'static str) {
    match counters.iter().position(|(name, _)| *name == call) {
        None => counters.push((call, 1)),
        Some(place) => {
            let last = counters.len() - 1;
            counters[place].1 += 1;
            counters.swap(place, last);
        }
    }
}

fn number(name: &str, default: u64) -> u64 {
    match std::env::var(name) {
        Err(_) => default,
        Ok(text) => text.parse().unwrap_or_else(|_| {
            eprintln!("{name} is no number: {text}");
            std::process::exit(2)
        }),
    }
}

/// The generator splitmix64.
pub struct Random(pub u64);

impl Random {
    pub fn next(&mut self) -> u64 {
        self.0 = self.0.wrapping_add(0x9e3779b97f4a7c15);
        let mixed = (self.0 ^ (self.0 >> 30)).wrapping_mul(0xbf58476d1ce4e5b9);
        let mixed = (mixed ^ (mixed >> 27)).wrapping_mul(0x94d049bb133111eb);
        mixed ^ (mixed >> 31)
    }

    /// A number below `limit`, which is not 0.
    pub fn below(&mut self, limit: usize) -> usize {
        (self.next() % limit as u64) as usize
    }

    pub fn of<T: Copy>(&mut self, choices: &[T]) -> T {
        choices[self.below(choices.len())]
    }

    /// A letter of a text, as a number.
    pub fn letter_of(&mut self, text: &str) -> u32 {
        let place = self.below(text.chars().count());
        text.chars().nth(place).map_or(0, u32::from)
    }
}
