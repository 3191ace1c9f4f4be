//! The stamp table: whose turn it is, by virtual times.

use crate::format::Application;
use crate::roster::MOST;

/// What one sector adds to the virtual time. 1 to 10 all divide it, so a sector's cost is whole.
const UNIT: u64 = 2520;

/// As many sectors may be sent: so far every virtual time fits 64 bits.
pub const MOST_SECTORS: u64 = 1 << 40;

#[derive(Clone, Copy, PartialEq, Eq, Debug)]
pub enum Status {
    Idle,
    Queued,
    Serving,
}

#[derive(Clone, Copy, Debug)]
pub struct Row {
    pub status: Status,
    pub limit: u32,
    pub budget: u32,
    pub served: u32,
    pub cost: u64,
    pub start: u64,
    pub finish: u64,
    pub reached: u64,
}

impl Row {
    fn allows(&self, budget: u32) -> bool {
        1 <= budget && budget <= self.limit
    }

    /// The virtual time that its sectors have brought it to.
    fn position(&self) -> u64 {
        self.start + u64::from(self.served) * self.cost
    }

    fn queue(&mut self, start: u64, budget: u32) {
        self.status = Status::Queued;
        self.start = start;
        self.budget = budget;
        self.finish = start + u64::from(budget) * self.cost;
    }
}

#[derive(Debug)]
pub struct Stamps {
    rows: [Row; MOST],
    count: usize,
    serving: Option<usize>,
    now: u64,
    sent: u64,
}

/// An operation that is out of place changes nothing and answers false (a pick: none).
impl Stamps {
    pub fn new(applications: &[Application]) -> Stamps {
        let weights: u64 = applications.iter().map(|a| u64::from(a.weight)).sum();
        let idle = Row { status: Status::Idle, limit: 0, budget: 0, served: 0, cost: 0, start: 0, finish: 0, reached: 0 };
        let mut rows = [idle; MOST];
        for (row, a) in rows.iter_mut().zip(applications) {
            row.limit = a.limit;
            row.budget = a.limit;
            row.cost = UNIT * weights / u64::from(a.weight);
        }
        Stamps { rows, count: applications.len(), serving: None, now: 0, sent: 0 }
    }

    pub fn allot(&mut self, application: usize, budget: u32) -> bool {
        let row = &mut self.rows[application];
        let in_place = row.status == Status::Idle && row.allows(budget);
        if in_place {
            row.budget = budget;
        }
        in_place
    }

    pub fn wake(&mut self, application: usize) -> bool {
        let row = &mut self.rows[application];
        let in_place = row.status == Status::Idle;
        if in_place {
            row.queue(self.now.max(row.reached), row.budget);
        }
        in_place
    }

    pub fn pick(&mut self) -> Option<usize> {
        if self.serving.is_some() {
            return None;
        }
        let queued = || self.rows[..self.count].iter().enumerate().filter(|(_, row)| row.status == Status::Queued);
        let earliest = queued().map(|(_, row)| row.start).min()?;
        let now = self.now.max(earliest);
        // Of equals the first is taken, which has the lower number.
        let (picked, _) = queued().filter(|(_, row)| row.start <= now).min_by_key(|(_, row)| row.finish)?;
        self.now = now;
        self.serving = Some(picked);
        self.rows[picked].status = Status::Serving;
        self.rows[picked].served = 0;
        Some(picked)
    }

    pub fn send(&mut self, size: u32) -> bool {
        let Some(serving) = self.serving else { return false };
        let row = &mut self.rows[serving];
        let in_place = size <= row.budget - row.served && u64::from(size) <= MOST_SECTORS - self.sent;
        if in_place {
            row.served += size;
            self.sent += u64::from(size);
            self.now += UNIT * u64::from(size);
        }
        in_place
    }

    /// A budget that would let the application finish earlier than before is out of place.
    pub fn requeue(&mut self, budget: u32) -> bool {
        let Some(serving) = self.serving else { return false };
        let row = &mut self.rows[serving];
        let in_place = row.allows(budget) && budget >= row.budget - row.served;
        if in_place {
            row.queue(row.position(), budget);
            self.serving = None;
        }
        in_place
    }

    pub fn rest(&mut self, budget: u32) -> bool {
        let Some(serving) = self.serving else { return false };
        let row = &mut self.rows[serving];
        let in_place = row.allows(budget);
        if in_place {
            row.reached = row.position();
            row.budget = budget;
            row.status = Status::Idle;
            self.serving = None;
        }
        in_place
    }

    pub fn serving(&self) -> Option<usize> {
        self.serving
    }

    pub fn row(&self, application: usize) -> &Row {
        &self.rows[application]
    }

    pub fn now(&self) -> u64 {
        self.now
    }
}

#[cfg(test)]
mod tests {
    use super::*;

    fn two() -> Stamps {
        Stamps::new(&[Application { weight: 1, limit: 256 }, Application { weight: 3, limit: 512 }])
    }

    /// The worked example of docs/SHARES.md, row by row.
    #[test]
    fn shares_example() {
        let mut s = two();
        assert_eq!((s.row(0).cost, s.row(1).cost), (10_080, 3_360));
        assert!(s.wake(0) && s.wake(1));
        assert_eq!((s.row(0).finish, s.row(1).finish), (2_580_480, 1_720_320));
        assert_eq!(s.pick(), Some(1));
        assert_eq!(s.now(), 0);
        assert!(s.send(200) && s.send(200));
        assert_eq!((s.now(), s.row(1).position()), (1_008_000, 1_344_000));
        assert!(!s.send(113));
        assert_eq!((s.now(), s.row(1).position()), (1_008_000, 1_344_000));
        assert!(s.requeue(512));
        assert_eq!((s.row(1).start, s.row(1).finish), (1_344_000, 3_064_320));
        assert_eq!(s.pick(), Some(0));
        assert_eq!(s.now(), 1_008_000);
        assert!(s.send(256));
        assert_eq!((s.now(), s.row(0).position()), (1_653_120, 2_580_480));
    }

    #[test]
    fn a_pick_pushes_the_virtual_time_to_the_earliest_start() {
        let mut s = two();
        assert!(s.wake(0));
        assert_eq!(s.pick(), Some(0));
        assert!(s.send(256) && s.requeue(256));
        assert_eq!(s.now(), 645_120);
        assert_eq!(s.pick(), Some(0));
        assert_eq!(s.now(), 2_580_480);
    }

    #[test]
    fn of_equal_finishes_the_lower_number() {
        let alike = Application { weight: 2, limit: 300 };
        let mut s = Stamps::new(&[Application { weight: 1, limit: 256 }, alike, alike, alike]);
        assert!(s.wake(3) && s.wake(2) && s.wake(1));
        assert_eq!(s.pick(), Some(1));
    }

    #[test]
    fn out_of_place_changes_nothing() {
        let mut s = two();
        assert!(!s.send(1) && !s.requeue(256) && !s.rest(256));
        assert_eq!(s.pick(), None);
        assert!(!s.allot(0, 0) && !s.allot(0, 257) && s.allot(0, 256));
        assert!(s.wake(0) && !s.wake(0) && !s.allot(0, 256));
        assert_eq!(s.pick(), Some(0));
        assert_eq!(s.pick(), None);
        assert!(!s.wake(0) && !s.allot(0, 1));
        assert!(s.send(200) && !s.requeue(55) && !s.requeue(257) && !s.rest(0));
        assert!(s.requeue(56));
        assert_eq!(s.row(0).finish, 256 * 10_080);
    }

    #[test]
    fn one_that_rests_wakes_at_what_it_had_reached_or_later() {
        let mut s = two();
        assert!(s.wake(0) && s.pick() == Some(0) && s.send(10) && s.rest(256));
        assert_eq!((s.row(0).reached, s.now()), (100_800, 25_200));
        assert!(s.wake(0));
        assert_eq!(s.row(0).start, 100_800);
        assert!(s.wake(1));
        assert_eq!(s.row(1).start, 25_200);
    }

    #[test]
    fn the_dearest_sector() {
        let mut all = [Application { weight: 10, limit: 65_536 }; 16];
        all[0] = Application { weight: 1, limit: 256 };
        // Application 0 has weight 1, so the sum of the weights comes to 151 at most on a roster.
        assert_eq!(Stamps::new(&all).row(0).cost, 2520 * 151);
    }

    #[test]
    fn the_2_to_the_40th_sector_is_the_last() {
        let mut s = two();
        s.sent = MOST_SECTORS - 5;
        assert!(s.wake(0) && s.pick() == Some(0));
        assert!(!s.send(6) && s.send(5) && !s.send(1));
    }
}
