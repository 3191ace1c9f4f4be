//! How long the two replays take over the same busy traces.

use crate::sides::{Answer, Side};
use std::hint::black_box;
use std::process::ExitCode;
use std::time::{Duration, Instant};
use traces::busy::busy_of;
use traces::listing::LONGEST_LISTING;

const MOST_EVENTS: usize = 960;

/// So many events has each set in all, be its traces long or short: a processor learns the turns of a
/// short row of events by heart, and would run short traces faster than they deserve.
const EVENTS_OF_A_SET: usize = 8 * MOST_EVENTS;

/// Busy traces of one rule and one pool, with the same number of events each.
struct Set {
    name: String,
    events: usize,
    traces: Vec<Vec<u8>>,
}

fn sets(events: usize) -> Vec<Set> {
    let seeds = 1..=(EVENTS_OF_A_SET / events) as u64;
    let mut sets = Vec::new();
    for (rule, rule_name) in [(0, "steady"), (1, "feedback")] {
        for (pool, pool_name) in [(0, "first-come"), (1, "C-LOOK")] {
            let traces = seeds.clone().map(|seed| busy_of(seed, rule, pool, events)).collect();
            sets.push(Set { name: format!("{rule_name} {pool_name}"), events, traces });
        }
    }
    sets
}

impl Set {
    fn run(&self, side: Side, listing: &mut [u8]) {
        for trace in &self.traces {
            let answer = side.replay(black_box(trace), listing);
            assert!(matches!(answer, Answer::Written(_)), "a replay answered {answer:?}");
            black_box(&*listing);
        }
    }

    fn time(&self, side: Side, listing: &mut [u8]) -> Duration {
        let begin = Instant::now();
        self.run(side, listing);
        begin.elapsed()
    }
}

/// The least time of each side. Anything that disturbs a round makes it longer, never shorter.
#[derive(Clone, Copy)]
struct Least {
    events: u64,
    ours: Duration,
    reference: Duration,
}

impl Least {
    fn shown(&self, name: &str) -> String {
        let per_event = |time: Duration| time.as_nanos() as f64 / self.events as f64;
        let (ours, reference) = (per_event(self.ours), per_event(self.reference));
        format!("{name:<22} {ours:>9.2} {reference:>9.2} {:>7.3}", ours / reference)
    }

    fn and(self, other: Least) -> Least {
        Least { events: self.events + other.events, ours: self.ours + other.ours, reference: self.reference + other.reference }
    }
}

/// The sides take turns at going first, so that neither always finds the caches warm.
fn least(sets: &[Set], rounds: u64) -> Vec<Least> {
    let mut listing = vec![0; LONGEST_LISTING];
    let count = |set: &Set| (set.events * set.traces.len()) as u64;
    let mut leasts: Vec<Least> =
        sets.iter().map(|set| Least { events: count(set), ours: Duration::MAX, reference: Duration::MAX }).collect();
    for round in 0..rounds.max(1) {
        for (set, least) in sets.iter().zip(&mut leasts) {
            let order = if round % 2 == 0 { [Side::Ours, Side::Reference] } else { [Side::Reference, Side::Ours] };
            for side in order {
                let time = set.time(side, &mut listing);
                match side {
                    Side::Ours => least.ours = least.ours.min(time),
                    Side::Reference => least.reference = least.reference.min(time),
                }
            }
        }
    }
    leasts
}

fn heading(first: &str) {
    println!("{first:<22} {:>9} {:>9} {:>7}", "ours", "reference", "ratio");
}

fn in_all(leasts: &[Least]) -> Least {
    let nothing = Least { events: 0, ours: Duration::ZERO, reference: Duration::ZERO };
    leasts.iter().fold(nothing, |sum, &least| sum.and(least))
}

pub fn measure(rounds: u64) -> ExitCode {
    let sets = sets(MOST_EVENTS);
    let leasts = least(&sets, rounds);
    heading("ns per event");
    for (set, least) in sets.iter().zip(&leasts) {
        println!("{}", least.shown(&set.name));
    }
    println!("{}", in_all(&leasts).shown("in all"));
    ExitCode::SUCCESS
}

/// Whether an event takes longer where a file has more of them. A short file has to bear what every
/// replay costs, so there it takes longer.
pub fn growth(rounds: u64) -> ExitCode {
    heading("ns per event");
    for events in [60, 120, 240, 480, 960] {
        let leasts = least(&sets(events), rounds);
        println!("{}", in_all(&leasts).shown(&format!("{events} events")));
    }
    ExitCode::SUCCESS
}

/// One side alone, for counting its instructions. With 0 rounds only the traces are made, which is
/// what has to be taken off.
pub fn count(side: Side, rounds: u64) -> ExitCode {
    let sets = sets(MOST_EVENTS);
    let mut listing = vec![0; LONGEST_LISTING];
    for _ in 0..rounds {
        sets.iter().for_each(|set| set.run(side, &mut listing));
    }
    let events: u64 = sets.iter().map(|set| (set.events * set.traces.len()) as u64).sum();
    println!("{rounds} rounds of {events} events");
    ExitCode::SUCCESS
}
