//! The comparison of one call: its inputs' source, how many there are to be, and what came of them.

use answers::{Axis, Date};
use samples::Random;
use samples::cutovers::allowed_at;
use std::collections::{BTreeMap, HashSet};
use std::fmt::Debug;
use std::time::Instant;

#[derive(Clone, Copy, PartialEq)]
pub enum Scale {
    Short,
    Long,
}

/// The greatest number that a call answers.
const MOST: usize = 16;
/// How often each number was answered.
type Counts = [u64; MOST + 1];

pub struct Run {
    call: &'static str,
    scale: Scale,
    start: Instant,
    kinds: BTreeMap<&'static str, Counts>,
    /// How many offsets were tried in each calendar and mode.
    spread: BTreeMap<(u32, u32), u64>,
    /// How many readings were stepped back by so many days.
    days_back: BTreeMap<u32, u64>,
    /// The cutovers that `standard` was given, and the last of them.
    cutovers: HashSet<Date>,
    last_cutover: Date,
    differences: u64,
    pub random: Random,
}

/// After so many differences of a call the rest are only counted.
const SHOWN: u64 = 5;

impl Run {
    pub fn of(call: &'static str, scale: Scale) -> Run {
        let seed = call.bytes().fold(1582, |seed, byte| seed * 31 + byte as u64);
        println!("{call}");
        Run {
            call,
            scale,
            start: Instant::now(),
            kinds: BTreeMap::new(),
            spread: BTreeMap::new(),
            days_back: BTreeMap::new(),
            cutovers: HashSet::new(),
            last_cutover: Date::default(),
            differences: 0,
            random: Random::seeded(seed),
        }
    }

    /// The number of inputs at this scale.
    pub fn count(&self, short: u64, long: u64) -> u64 {
        match self.scale {
            Scale::Short => short,
            Scale::Long => long,
        }
    }

    /// Takes down one input of a kind with the two answers to it.
    pub fn judge<A: PartialEq + Debug>(
        &mut self,
        kind: &'static str,
        number: u32,
        input: &dyn Debug,
        ours: A,
        second: A,
    ) {
        self.kinds.entry(kind).or_default()[MOST.min(number as usize)] += 1;
        if ours != second {
            self.differs(kind, input, &format!("archive {ours:?}\n    second  {second:?}"));
        }
    }

    /// Takes down the cutover that is given with a calendar.
    pub fn with(&mut self, calendar: u32, cutover: Date) {
        if calendar == 0 && (cutover != self.last_cutover || self.cutovers.is_empty()) {
            self.last_cutover = cutover;
            self.cutovers.insert(cutover);
        }
    }

    /// Takes down so many offsets on an axis.
    pub fn on(&mut self, axis: Axis, offsets: u64) {
        self.with(axis.calendar, axis.cutover);
        if axis.calendar < 6 && axis.mode < 2 {
            *self.spread.entry((axis.calendar, axis.mode)).or_default() += offsets;
        }
    }

    /// Takes down by how many days a reading was stepped back.
    pub fn stepped_back(&mut self, days: u32) {
        if days > 0 {
            *self.days_back.entry(days).or_default() += 1;
        }
    }

    /// Takes down that a lent buffer is not as it should be.
    pub fn expect(&mut self, kind: &'static str, input: &dyn Debug, is_good: bool, what: &str) {
        if !is_good {
            self.differs(kind, input, what);
        }
    }

    fn differs(&mut self, kind: &str, input: &dyn Debug, what: &str) {
        self.differences += 1;
        if self.differences <= SHOWN {
            println!("  DIFFERENCE in {}, {kind}\n    input   {input:?}\n    {what}", self.call);
        }
    }

    pub fn differences(&self) -> u64 {
        self.differences
    }

    pub fn inputs(&self) -> u64 {
        self.kinds.values().flatten().sum()
    }

    /// A row for each kind of input, with a column for each number that the call answered.
    pub fn print(&self) {
        let numbers: Vec<usize> = (0..=MOST).filter(|&n| self.kinds.values().any(|counts| counts[n] > 0)).collect();
        let heads: String = numbers.iter().map(|n| format!("{n:>10}")).collect();
        println!("  {:36}{heads}", "kind of input, and how often each number");
        for (kind, counts) in &self.kinds {
            let cells: String = numbers.iter().map(|&n| format!("{:>10}", counts[n])).collect();
            println!("  {kind:40}{cells}");
        }
        if let (12, Some(least)) = (self.spread.len(), self.spread.values().min()) {
            println!("  {least} offsets or more in each calendar and mode");
        }
        if !self.days_back.is_empty() {
            let counts: Vec<String> = self.days_back.iter().map(|(days, count)| format!("{count} by {days}")).collect();
            println!("  stepped back, by so many days: {}", counts.join(", "));
        }
        if !self.cutovers.is_empty() {
            let allowed = self.cutovers.iter().filter(|&&cutover| allowed_at(cutover).is_some()).count();
            println!("  {} cutovers of standard, {allowed} of them allowed", self.cutovers.len());
        }
        println!(
            "  {} inputs, {} differences, {:.1} s",
            self.inputs(),
            self.differences,
            self.start.elapsed().as_secs_f64()
        );
    }
}
