//! What workloads come to, counted: to see that they cover what they should.

use crate::format::{Event, Sound};
use crate::listing::LONGEST_LISTING;
use crate::replay::replay;
use crate::station::Station;
use crate::workload::{damaged, workload};
use std::collections::BTreeMap;
use std::io::{self, Write};

/// The lines of listings by their words, the refusals and the faults by their numbers.
#[derive(Default)]
pub struct Lines {
    pub words: BTreeMap<String, u64>,
    pub refusals: BTreeMap<u64, u64>,
    pub faults: BTreeMap<(u64, u64), u64>,
}

impl Lines {
    pub fn add(&mut self, listing: &[u8]) {
        let text = std::str::from_utf8(listing).expect("listings are ASCII");
        for line in text.lines() {
            let fields: Vec<&str> = line.split(' ').collect();
            let number = |at: usize| fields[at].parse().expect("a number");
            let word = match fields[0] {
                "app" => "app",
                "fault" => {
                    *self.faults.entry((number(1), number(2))).or_default() += 1;
                    "fault"
                }
                _ => fields[1],
            };
            if word == "refuse" {
                *self.refusals.entry(number(2)).or_default() += 1;
            }
            match self.words.get_mut(word) {
                Some(count) => *count += 1,
                None => drop(self.words.insert(word.to_string(), 1)),
            }
        }
    }

    pub fn words_and_refusals(&self) -> String {
        let words = joined(self.words.iter().map(|(word, count)| format!("{word} {count}")));
        let refusals = joined(self.refusals.iter().map(|(number, count)| format!("{number}: {count}")));
        format!("{words}; refusals {refusals}")
    }
}

fn joined(parts: impl Iterator<Item = String>) -> String {
    parts.collect::<Vec<_>>().join(", ")
}

/// Times of events, counted from the end of the hold that they meet.
#[derive(Default)]
struct Offsets {
    before: u64,
    near: [u64; 7],
    behind: u64,
}

impl Offsets {
    fn add(&mut self, time: u64, end: u64) {
        match i128::from(time) - i128::from(end) {
            ..-3 => self.before += 1,
            offset @ -3..=3 => self.near[(offset + 3) as usize] += 1,
            _ => self.behind += 1,
        }
    }

    fn shown(&self) -> String {
        let near = joined((-3..).zip(self.near).map(|(offset, count)| format!("{offset}: {count}")));
        format!("earlier {}, {near}, later {}", self.before, self.behind)
    }
}

/// How the events of a file meet its holds.
#[derive(Default)]
struct Holds {
    given: u64,
    first: Offsets,
    all: BTreeMap<&'static str, Offsets>,
}

impl Holds {
    fn add(&mut self, trace: &[u8]) {
        let Ok(sound) = Sound::read(trace) else { return };
        let mut station = Station::new(&sound.settings, sound.applications());
        // A hold is given by a completion. The same end can be given twice, so the calls are told
        // apart and not the ends.
        let mut just_given = false;
        for (time, event) in sound.events() {
            if let Some(end) = station.scheduler().held_until() {
                if just_given {
                    self.first.add(time, end);
                }
                self.all.entry(name(event)).or_default().add(time, end);
            }
            let kept = station.keeps_token();
            station.play(time, event, |index| sound.request(index));
            let completed = kept && !station.keeps_token();
            just_given = completed && station.scheduler().held_until().is_some();
            self.given += u64::from(just_given);
        }
    }
}

fn name(event: Event) -> &'static str {
    match event {
        Event::Arrival(_) => "arrival",
        Event::Dispatch => "dispatch",
        Event::Completion => "completion",
        Event::Tick => "tick",
    }
}

/// So many workloads from the seed on, and half as many damaged ones.
pub fn tally(out: &mut impl Write, seed: u64, count: u64) -> io::Result<()> {
    let mut listing = vec![0; LONGEST_LISTING];
    let mut lines = Lines::default();
    let mut holds = Holds::default();
    let mut full = 0;
    let mut events = 0;
    let mut rules_and_pools = [[0; 2]; 2];
    for i in 0..count {
        let trace = workload(seed.wrapping_add(i));
        let sound = Sound::read(&trace).expect("a workload is sound");
        full += u64::from(sound.events().len() == 960);
        events += sound.events().len();
        rules_and_pools[usize::from(sound.settings.feedback)][usize::from(sound.settings.c_look)] += 1;
        let length = replay(&trace, &mut listing).expect("the buffer is long enough");
        lines.add(&listing[..length]);
        holds.add(&trace);
    }
    writeln!(out, "workloads {count}, of them full {full}, damaged 0; events {events}")?;
    let [[a, b], [c, d]] = rules_and_pools;
    writeln!(out, "steady: first-come {a}, C-LOOK {b}; feedback: first-come {c}, C-LOOK {d}")?;
    for (word, count) in &lines.words {
        writeln!(out, "line {word} {count}")?;
    }
    for (number, count) in &lines.refusals {
        writeln!(out, "refusal {number} {count}")?;
    }
    writeln!(out, "holds given {}", holds.given)?;
    writeln!(out, "time - end of the first event after a hold was given: {}", holds.first.shown())?;
    for (event, offsets) in &holds.all {
        writeln!(out, "time - end of each {event} during a hold: {}", offsets.shown())?;
    }
    let mut lines = Lines::default();
    for i in 0..count / 2 {
        let length = replay(&damaged(seed.wrapping_add(i)), &mut listing).expect("the buffer is long enough");
        lines.add(&listing[..length]);
    }
    let faults = lines.faults.values().sum::<u64>();
    let kinds = joined(lines.faults.iter().map(|((layer, number), count)| format!("{layer} {number}: {count}")));
    writeln!(out, "damaged files apart {}: played all the same {}, faults {kinds}", count / 2, count / 2 - faults)
}
