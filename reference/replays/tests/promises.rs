//! The promises of docs/SHARES.md, over the histories of many workloads. A history is the calls with
//! their answers; nothing here looks into the scheduler.

use traces::format::{Application, Event, Request, Settings, Tables, decode};
use traces::pool::Numbered;
use traces::station::{Outcome, Station};
use traces::workload::{busy, workload};

/// What the entries so far say of one application.
#[derive(Default)]
struct Seen {
    /// From the oldest to the youngest.
    waiting: Vec<Numbered>,
    outstanding: bool,
    latest_completion: Option<(u64, bool)>,
    sent: i128,
}

impl Seen {
    fn is_idle(&self, time: u64, hold: u64) -> bool {
        let kept = matches!(self.latest_completion, Some((done, true)) if time < done + hold);
        self.waiting.is_empty() && !self.outstanding && !kept
    }
}

struct History {
    settings: Settings,
    seen: Vec<Seen>,
    in_flight: Option<Numbered>,
    completed_last: Option<usize>,
    head: u64,
    sent: i128,
}

impl History {
    fn new(settings: Settings, applications: usize) -> History {
        let seen = (0..applications).map(|_| Seen::default()).collect();
        History { settings, seen, in_flight: None, completed_last: None, head: 0, sent: 0 }
    }

    fn hold(&self) -> u64 {
        u64::from(self.settings.hold)
    }

    /// Promise 3, of an accepted dispatch.
    fn check_dispatch(&self, time: u64, outcome: &Outcome) {
        let all_idle = self.seen.iter().all(|a| a.is_idle(time, self.hold()));
        assert_eq!(all_idle, *outcome == Outcome::None);
        let held = self.completed_last.filter(|&k| self.seen[k].waiting.is_empty() && !self.seen[k].is_idle(time, self.hold()));
        match (held, outcome) {
            (Some(k), Outcome::Hold { application, until }) => {
                let (done, _) = self.seen[k].latest_completion.unwrap();
                assert_eq!((*application, *until), (k, done + self.hold()));
            }
            (None, Outcome::Send(sent)) => assert_eq!(self.chosen(sent.request.application), **sent),
            (None, Outcome::None) => {}
            _ => panic!("{held:?} {outcome:?}"),
        }
    }

    /// What the pool chooses from the application's line, by the words of docs/SCHEDULER.md.
    fn chosen(&self, application: u8) -> Numbered {
        let line = &self.seen[usize::from(application)].waiting;
        if !self.settings.c_look {
            return line[0];
        }
        let lowest = |line: &mut dyn Iterator<Item = &Numbered>| line.min_by_key(|w| w.request.first).copied();
        let ahead = lowest(&mut line.iter().filter(|w| w.request.first >= self.head));
        ahead.or_else(|| lowest(&mut line.iter())).unwrap()
    }

    fn add(&mut self, time: u64, outcome: &Outcome, arrived: Option<Request>) {
        match *outcome {
            Outcome::Arrive { application, number } => {
                let request = arrived.unwrap();
                self.seen[usize::from(application)].waiting.push(Numbered { number, request });
            }
            Outcome::Send(sent) => {
                let seen = &mut self.seen[usize::from(sent.request.application)];
                seen.waiting.retain(|w| w.number != sent.number);
                seen.outstanding = true;
                seen.sent += i128::from(sent.request.size);
                self.sent += i128::from(sent.request.size);
                self.head = sent.request.first + u64::from(sent.request.size);
                self.in_flight = Some(*sent);
            }
            Outcome::Done { number } => {
                let done = self.in_flight.take().unwrap();
                assert_eq!(done.number, number);
                let application = usize::from(done.request.application);
                self.seen[application].outstanding = false;
                self.seen[application].latest_completion = Some((time, done.request.synchronous));
                self.completed_last = Some(application);
            }
            _ => {}
        }
    }
}

/// The most that a sum has grown over a stretch, given that it begins anew wherever it may not.
#[derive(Clone, Copy, Default)]
struct Growth {
    least: i128,
}

impl Growth {
    fn check(&mut self, in_stretch: bool, sum: i128, bound: i128) {
        self.least = if in_stretch { self.least.min(sum) } else { sum };
        assert!(sum - self.least <= bound);
    }
}

fn check(tables: &Tables) {
    let mut all = vec![Application { weight: 1, limit: 256 }];
    all.extend(&tables.applications);
    let weight = |k: usize| i128::from(all[k].weight);
    let limit = |k: usize| i128::from(all[k].limit);
    let total: i128 = (0..all.len()).map(weight).sum();
    let most = (0..all.len()).map(limit).max().unwrap();
    let mut station = Station::new(&tables.settings, tables.applications.iter().copied());
    let mut history = History::new(tables.settings, all.len());
    let mut shares = vec![Growth::default(); all.len()];
    let mut pairs = vec![Growth::default(); all.len() * all.len()];
    for &(time, event) in &tables.events {
        let outcome = station.play(time, event, |index| tables.requests[index as usize]);
        if matches!(outcome, Outcome::Refuse(_)) {
            continue;
        }
        if event == Event::Dispatch {
            history.check_dispatch(time, &outcome);
        }
        let busy: Vec<bool> = history.seen.iter().map(|a| !a.is_idle(time, history.hold())).collect();
        let arrived = match event {
            Event::Arrival(index) => Some(tables.requests[index as usize]),
            _ => None,
        };
        history.add(time, &outcome, arrived);
        let sent = |k: usize| history.seen[k].sent;
        for k in 0..all.len() {
            let bound = (2 * total - weight(k)) * limit(k) + weight(k) * most;
            shares[k].check(busy[k], weight(k) * history.sent - total * sent(k), bound);
            for j in 0..all.len() {
                let bound = 2 * total * (weight(j) * limit(k) + weight(k) * limit(j))
                    + weight(k) * weight(j) * (2 * most - limit(k) - limit(j));
                let sum = total * (weight(j) * sent(k) - weight(k) * sent(j));
                pairs[k * all.len() + j].check(busy[k] && busy[j], sum, bound);
            }
        }
    }
}

#[test]
fn workloads_keep_the_promises() {
    (0..400).for_each(|seed| check(&decode(&workload(seed)).unwrap()));
}

#[test]
fn busy_traces_keep_the_promises() {
    for seed in 0..4 {
        (0..4).for_each(|codes| check(&decode(&busy(seed, codes / 2, codes % 2)).unwrap()));
    }
}

/// The least whole number of sectors that the share bound allows an application to be behind.
fn bound_in_sectors(weight: u64, limit: u64, total: u64, most: u64) -> u64 {
    ((2 * total - weight) * limit + weight * most).div_ceil(total)
}

#[test]
fn the_bounds_of_the_worked_examples() {
    assert_eq!(bound_in_sectors(3, 512, 4, 512), 1_024);
    assert_eq!(bound_in_sectors(1, 256, 4, 512), 576);
    assert_eq!(bound_in_sectors(1, 256, 11, 65_536), 6_447);
    assert_eq!(bound_in_sectors(10, 65_536, 11, 65_536), 131_072);
}
