//! Random traces that are made for replaying. A station runs alongside while a file is made, so that
//! the events can be aimed: at the end of a running hold, at the head, at a line that is full.

use crate::format::{Application, Event, Request, Settings, Tables, encode};
use crate::pool::LONGEST;
use crate::random::Random;
use crate::scheduler::{LAST_SECTOR, LAST_TIME, Scheduler};
use crate::station::Station;

pub use crate::busy::busy;
pub use crate::damage::damaged;

const MOST_RECORDS: usize = 960;

/// The same file for the same seed.
pub fn workload(seed: u64) -> Vec<u8> {
    encode(&tables(seed))
}

pub fn tables(seed: u64) -> Tables {
    let mut r = Random::new(seed);
    let character = Character::new(&mut r);
    let settings = Settings { hold: hold(&mut r), feedback: r.one_in(2), c_look: r.one_in(2) };
    let applications = applications(&mut r);
    let station = Station::new(&settings, applications.iter().copied());
    let tables = Tables { settings, applications, requests: Vec::new(), events: Vec::new() };
    let mood = Mood::any(&mut r);
    let mut maker = Maker { r, character, station, tables, mood, burst: None };
    while maker.tables.events.len() < maker.character.events {
        maker.event();
    }
    maker.spare_requests();
    maker.tables
}

fn hold(r: &mut Random) -> u32 {
    match r.below(8) {
        0..2 => 1,
        2..7 => 2 + r.below(19) as u32,
        _ => match r.below(3) {
            0 => 21 + r.below(1000) as u32,
            1 => 21 + r.below(999_980) as u32,
            _ => 1_000_000,
        },
    }
}

/// Applications that are all alike finish at equal times, and then the lower number decides.
fn applications(r: &mut Random) -> Vec<Application> {
    let count = if r.one_in(2) { r.below(16) } else { r.below(5) };
    if r.one_in(3) {
        return vec![application(r); count as usize];
    }
    (0..count).map(|_| application(r)).collect()
}

fn application(r: &mut Random) -> Application {
    let weight = if r.one_in(4) { r.pick(&[1, 10]) } else { 1 + r.below(10) as u8 };
    let limit = match r.below(8) {
        0..3 => 256,
        3 => 65_536,
        4 => 257 + r.below(60) as u32,
        5..7 => 256 + r.below(1800) as u32,
        _ => 256 + r.below(65_281) as u32,
    };
    Application { weight, limit }
}

/// What all of a file has in common.
struct Character {
    events: usize,
    full: bool,
    /// One request or time in so many is one that a scheduler refuses; 0 for none at all.
    odd_one_in: u64,
    sizes: Sizes,
    /// Requests begin at few places, so that many begin at the same.
    places: Vec<u64>,
    /// So many requests of eight are synchronous.
    synchronous: u64,
    /// So many applications make most of the requests.
    favourites: u64,
    /// Whether the last events come close to the last time there is.
    ends_at_the_top: bool,
}

enum Sizes {
    Any,
    Small,
    Large,
    /// The same for all, so that a budget can be used up exactly.
    Equal(u16),
}

impl Character {
    fn new(r: &mut Random) -> Character {
        let full = r.one_in(10);
        let events = match r.below(8) {
            _ if full => MOST_RECORDS,
            0 => r.below(6) as usize,
            1..3 => r.below(40) as usize,
            3..6 => 40 + r.below(160) as usize,
            _ => 200 + r.below(500) as usize,
        };
        let base = match r.below(4) {
            0 => 0,
            1 => r.below(100_000),
            2 => r.below(LAST_SECTOR - 100_000),
            _ => LAST_SECTOR - 100_000,
        };
        let spread = r.pick(&[2, 300, 20_000]);
        Character {
            events,
            full,
            odd_one_in: r.pick(&[0, 12, 40, 40, 150]),
            sizes: match r.below(8) {
                0..4 => Sizes::Any,
                4 => Sizes::Small,
                5..7 => Sizes::Large,
                _ => Sizes::Equal(r.pick(&[1, 64, 128, 256])),
            },
            places: (0..1 + r.below(6)).map(|_| base + r.below(spread)).collect(),
            synchronous: r.pick(&[0, 2, 4, 7, 8]),
            favourites: 1 + r.below(6),
            ends_at_the_top: r.one_in(3),
        }
    }
}

/// How much the applications want at the moment.
#[derive(Clone, Copy)]
enum Mood {
    Crowd,
    Even,
    Quiet,
}

impl Mood {
    fn any(r: &mut Random) -> Mood {
        r.pick(&[Mood::Crowd, Mood::Even, Mood::Quiet])
    }
}

struct Maker {
    r: Random,
    character: Character,
    station: Station,
    tables: Tables,
    mood: Mood,
    /// Arrivals of one application that are still to come one after the other.
    burst: Option<(u8, u64)>,
}

impl Maker {
    fn event(&mut self) {
        if self.r.one_in(50) {
            self.mood = Mood::any(&mut self.r);
        }
        if self.r.one_in(250) {
            self.burst = Some((self.application(), 10 + self.r.below(14)));
        }
        let time = self.time();
        let event = match self.burst {
            Some((_, 0)) => {
                self.burst = None;
                Event::Tick
            }
            Some((application, left)) => {
                self.burst = Some((application, left - 1));
                self.arrival_of(application)
            }
            None => self.call(),
        };
        self.tables.events.push((time, event));
        self.station.play(time, event, |index| self.tables.requests[index as usize]);
    }

    /// What happens next, as one would expect it at this station, and at times what one would not.
    fn call(&mut self) -> Event {
        let held = self.scheduler().held_until().is_some();
        let [arrival, dispatch, completion, tick] = match (self.station.keeps_token(), held, self.mood) {
            (true, _, Mood::Crowd) => [48, 3, 47, 2],
            (true, _, Mood::Even) => [18, 4, 73, 5],
            (true, _, Mood::Quiet) => [3, 6, 81, 10],
            (false, true, _) => [28, 46, 4, 22],
            (false, false, Mood::Crowd) => [45, 50, 2, 3],
            (false, false, Mood::Even) => [24, 66, 3, 7],
            (false, false, Mood::Quiet) => [18, 58, 6, 18],
        };
        let way = self.r.below(arrival + dispatch + completion + tick);
        if way < arrival {
            self.arrival()
        } else if way < arrival + dispatch {
            Event::Dispatch
        } else if way < arrival + dispatch + completion {
            Event::Completion
        } else {
            Event::Tick
        }
    }

    fn arrival(&mut self) -> Event {
        if self.r.one_in(20) && !self.tables.requests.is_empty() {
            return Event::Arrival(self.r.below(self.tables.requests.len() as u64) as u32);
        }
        // A full line is good for a refusal now and then, but not for each event of a long backlog.
        for _ in 0..4 {
            let application = self.application();
            if self.scheduler().waiting(usize::from(application)) < LONGEST || self.r.one_in(16) {
                return self.arrival_of(application);
            }
        }
        if self.station.keeps_token() { Event::Completion } else { Event::Dispatch }
    }

    fn arrival_of(&mut self, application: u8) -> Event {
        let request = self.request(application);
        self.tables.requests.push(request);
        Event::Arrival(self.tables.requests.len() as u32 - 1)
    }

    /// An application on the roster. While the disk is held, often the one that it is held for.
    fn application(&mut self) -> u8 {
        let count = self.scheduler().applications() as u64;
        if let Some(serving) = self.scheduler().serving()
            && self.r.one_in(4)
        {
            return serving as u8;
        }
        if self.r.one_in(3) {
            return self.r.below(count) as u8;
        }
        // The favourites are the last ones: application 0 has the least weight and limit.
        (count - 1 - self.r.below(self.character.favourites.min(count))) as u8
    }

    fn request(&mut self, application: u8) -> Request {
        let size = match self.character.sizes {
            Sizes::Any => 1 + self.r.below(256) as u16,
            Sizes::Small => 1 + self.r.below(12) as u16,
            Sizes::Large => 100 + self.r.below(157) as u16,
            Sizes::Equal(size) => size,
        };
        let synchronous = self.r.below(8) < self.character.synchronous;
        let mut request = Request { first: self.first(u64::from(size)), size, application, synchronous };
        if self.odd() {
            self.spoil(&mut request);
        }
        request
    }

    /// A first sector from which so many sectors end by the last.
    fn first(&mut self, size: u64) -> u64 {
        let head = self.scheduler().head();
        let first = match self.r.below(32) {
            0..20 => self.r.pick(&self.character.places),
            20..25 => head,
            25 => head + 1,
            26 => head.saturating_sub(1),
            27 => head + self.r.below(300),
            28..30 => self.r.below(LAST_SECTOR),
            30 => LAST_SECTOR - size,
            _ => LAST_SECTOR - size - self.r.below(600),
        };
        first.min(LAST_SECTOR - size)
    }

    /// One thing that is refused, or several at once: then the order of the refusals matters.
    fn spoil(&mut self, request: &mut Request) {
        let ways = 1 + self.r.below(7);
        if ways & 1 != 0 {
            let next = self.scheduler().applications() as u8;
            let above = next.saturating_add(self.r.below(256) as u8);
            request.application = self.r.pick(&[next, next, next.max(15), 16, 255, above]);
        }
        if ways & 2 != 0 {
            let above = 257 + self.r.below(65_279) as u16;
            request.size = self.r.pick(&[0, 257, 65_535, above]);
        }
        if ways & 4 != 0 {
            request.first = self.first_beyond(u64::from(request.size));
        }
    }

    /// A first sector from which so many sectors end behind the last. Some ends would be small ones
    /// if they were added up in 64 bits, and some would be negative in 64 bits with a sign.
    fn first_beyond(&mut self, size: u64) -> u64 {
        match self.r.below(8) {
            0..2 => LAST_SECTOR - size + 1,
            2 => LAST_SECTOR,
            3 => LAST_SECTOR + self.r.below(1000),
            4 => u64::MAX,
            5 => u64::MAX - size + self.r.below(size.min(2) + 1),
            6 => (1 << 63) - size,
            _ => LAST_SECTOR + (self.r.bits() >> 1 >> self.r.below(24)),
        }
    }

    fn odd(&mut self) -> bool {
        self.character.odd_one_in != 0 && self.r.one_in(self.character.odd_one_in)
    }

    fn time(&mut self) -> u64 {
        let clock = self.scheduler().clock();
        if self.tables.events.is_empty() {
            return self.first_time();
        }
        if self.odd() {
            return self.odd_time(clock);
        }
        let late = self.tables.events.len() * 8 > self.character.events * 7;
        if self.character.ends_at_the_top && late && self.r.one_in(12) || self.r.one_in(20_000) {
            let near = if self.r.one_in(2) { self.r.below(2) } else { self.r.below(60) };
            return clock.max(LAST_TIME - near);
        }
        if let Some(end) = self.scheduler().held_until()
            && self.r.below(8) < 3
        {
            return self.near_end(clock, end);
        }
        let step = match self.r.below(100) {
            0..45 => 0,
            45..70 => 1,
            70..85 => 2,
            85..98 => 3,
            98 => self.r.below(50),
            _ => self.r.below(1_000_000),
        };
        (clock + step).min(LAST_TIME)
    }

    fn first_time(&mut self) -> u64 {
        match self.r.below(8) {
            0..4 => 0,
            4..6 => self.r.below(100),
            _ => self.r.bits() >> (24 + self.r.below(40)),
        }
    }

    fn odd_time(&mut self, clock: u64) -> u64 {
        match self.r.below(8) {
            0..3 => clock.saturating_sub(1),
            3..5 => clock.saturating_sub(1 + self.r.below(10)),
            5 => self.r.below(clock + 1),
            6 => LAST_TIME + 1,
            _ => match self.r.below(3) {
                0 => u64::MAX,
                1 => LAST_TIME + 1 + self.r.below(100),
                _ => 1 << 63 | clock,
            },
        }
    }

    /// On the end of a hold, just before or just behind it.
    fn near_end(&mut self, clock: u64, end: u64) -> u64 {
        let aim = match self.r.below(16) {
            0..5 => end,
            5..9 => end - 1,
            9..12 => end + 1,
            12 => end.saturating_sub(2),
            13 => end.saturating_sub(3),
            14 => end + 2,
            _ => end + 3,
        };
        aim.clamp(clock, LAST_TIME)
    }

    /// Records that no event names, and records in another order than the arrivals.
    fn spare_requests(&mut self) {
        let more = if self.character.full { MOST_RECORDS } else { self.r.below(4) as usize };
        let count = self.tables.requests.len().max(more);
        while self.tables.requests.len() < count {
            let application = self.application();
            let request = self.request(application);
            self.tables.requests.push(request);
        }
        if self.r.one_in(2) {
            self.shuffle_requests();
        }
    }

    fn shuffle_requests(&mut self) {
        let mut order: Vec<u32> = (0..self.tables.requests.len() as u32).collect();
        for i in (1..order.len()).rev() {
            order.swap(i, self.r.below(i as u64 + 1) as usize);
        }
        let old = self.tables.requests.clone();
        for (from, &to) in order.iter().enumerate() {
            self.tables.requests[to as usize] = old[from];
        }
        for (_, event) in &mut self.tables.events {
            if let Event::Arrival(index) = event {
                *index = order[*index as usize];
            }
        }
    }

    fn scheduler(&self) -> &Scheduler {
        self.station.scheduler()
    }
}

#[cfg(test)]
mod tests {
    use super::*;
    use crate::format::{Sound, decode};

    #[test]
    fn every_workload_is_sound() {
        for seed in 0..500 {
            assert!(Sound::read(&workload(seed)).is_ok(), "{seed}");
        }
    }

    #[test]
    fn full_ones_are_full() {
        let full = (0..200).filter_map(|seed| decode(&workload(seed)).ok()).filter(|t| t.events.len() == 960);
        assert!(full.map(|t| assert_eq!(t.requests.len(), 960)).count() > 5);
    }
}
