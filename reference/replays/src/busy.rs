//! A heavy load, as the disk of a crowded machine has it: for measuring how long a replay takes.

use crate::format::{Application, Event, Request, Settings, Tables, encode};
use crate::random::Random;
use crate::scheduler::LAST_SECTOR;
use crate::station::{Outcome, Station};

/// All records that a file may have, with the rule and the pool of these codes.
pub fn busy(seed: u64, rule: u8, pool: u8) -> Vec<u8> {
    busy_of(seed, rule, pool, 960)
}

/// The same with fewer events, and as many requests.
pub fn busy_of(seed: u64, rule: u8, pool: u8, events: usize) -> Vec<u8> {
    let mut r = Random::new(seed);
    let settings = Settings { hold: 8, feedback: rule == 1, c_look: pool == 1 };
    let applications: Vec<Application> =
        (0..15).map(|_| Application { weight: 1 + r.below(10) as u8, limit: r.pick(&[512, 1024, 2048, 4096, 16_384]) }).collect();
    // Each of the sixteen applications has a record, however short the file.
    let requests = requests(&mut r, events.max(16));
    let station = Station::new(&settings, applications.iter().copied());
    let tables = Tables { settings, applications, requests, events: Vec::new() };
    let mut load = Load { r, station, tables, arrived: [0; 16], crowd: events / 8, waiting: 0, sent: 0 };
    while load.tables.events.len() < events {
        load.event();
    }
    encode(&load.tables)
}

/// Record after record for one application after the other, so that record i is of application
/// i mod 16. Half of them read on from where they were, and wait for each answer; the others write
/// here and there in a region of their own.
fn requests(r: &mut Random, count: usize) -> Vec<Request> {
    let mut next = [0; 16].map(|_: u64| r.below(LAST_SECTOR / 2));
    let one = |i: usize| {
        let application = i % 16;
        let size = 8 * (1 + r.below(32));
        let reads = application % 2 == 1;
        let first = if reads { next[application] } else { next[application] + 8 * r.below(200_000) };
        next[application] += if reads { size } else { 0 };
        Request { first, size: size as u16, application: application as u8, synchronous: reads }
    };
    (0..count).map(one).collect()
}

struct Load {
    r: Random,
    station: Station,
    tables: Tables,
    /// How many records of each application have arrived.
    arrived: [usize; 16],
    /// As many wait as long as the load lasts: in proportion to the file, so that short and long ones
    /// have arrivals and dispatches in the same parts.
    crowd: usize,
    waiting: usize,
    /// The size of the request in flight: larger ones take longer.
    sent: u64,
}

impl Load {
    fn event(&mut self) {
        let crowded = self.waiting >= self.crowd;
        let clock = self.station.scheduler().clock();
        let held = self.station.scheduler().held_until().is_some();
        let (time, event) = if self.station.keeps_token() {
            match crowded || self.r.below(100) < 45 {
                true => (clock + 1 + self.sent / 32, Event::Completion),
                false => (clock, self.arrival()),
            }
        } else if held {
            // The one that the disk is held for mostly comes back in time.
            match self.r.below(8) {
                0..5 => (clock + 1, self.arrival_of_served()),
                5..7 => (clock + 2, Event::Dispatch),
                _ => (clock + 4, Event::Tick),
            }
        } else if self.waiting == 0 || !crowded && self.r.one_in(4) {
            (clock, self.arrival())
        } else {
            (clock, Event::Dispatch)
        };
        self.tables.events.push((time, event));
        match self.station.play(time, event, |index| self.tables.requests[index as usize]) {
            Outcome::Arrive { .. } => self.waiting += 1,
            Outcome::Send(sent) => {
                self.waiting -= 1;
                self.sent = u64::from(sent.request.size);
            }
            _ => {}
        }
    }

    /// Of an application whose line has room.
    fn arrival(&mut self) -> Event {
        loop {
            let application = self.r.below(16) as usize;
            if self.station.scheduler().waiting(application) < 14 {
                return self.arrival_of(application);
            }
        }
    }

    fn arrival_of_served(&mut self) -> Event {
        let served = self.station.scheduler().serving();
        served.map_or(Event::Tick, |application| self.arrival_of(application))
    }

    /// The next record of that application; when all have arrived, from the first on again.
    fn arrival_of(&mut self, application: usize) -> Event {
        let records = (self.tables.requests.len() - application).div_ceil(16);
        let index = application + 16 * (self.arrived[application] % records);
        self.arrived[application] += 1;
        Event::Arrival(index as u32)
    }
}

#[cfg(test)]
mod tests {
    use super::*;
    use crate::format::decode;
    use crate::listing::LONGEST_LISTING;
    use crate::replay::replay;

    #[test]
    fn full_and_hardly_ever_refused() {
        for (rule, pool) in [(0, 0), (0, 1), (1, 0), (1, 1)] {
            let trace = busy(3, rule, pool);
            let tables = decode(&trace).unwrap();
            assert_eq!((tables.applications.len(), tables.requests.len(), tables.events.len()), (15, 960, 960));
            assert_eq!((tables.settings.feedback, tables.settings.c_look), (rule == 1, pool == 1));
            let mut listing = vec![0; LONGEST_LISTING];
            let length = replay(&trace, &mut listing).unwrap();
            let text = std::str::from_utf8(&listing[..length]).unwrap();
            assert!(text.matches(" refuse ").count() < 10);
            assert!(text.matches(" send ").count() > 250);
        }
    }
}
