//! The sealed scheduler: four calls, each of which brings a time.

use crate::format::Request;
use crate::pool::{LONGEST, Numbered, Order, Pool};
use crate::refusal::Refusal;
use crate::roster::Roster;
use crate::rule::{Reason, Rule};
use crate::stamps::{MOST_SECTORS, Stamps, Status};

/// No time is later, no request ends farther out.
pub const LAST_TIME: u64 = 1 << 40;
pub const LAST_SECTOR: u64 = 1 << 40;

const LARGEST: u16 = 256;

#[derive(Debug)]
pub struct Scheduler {
    stamps: Stamps,
    pool: Pool,
    rule: Rule,
    hold: u64,
    clock: u64,
    head: u64,
    in_flight: Option<Numbered>,
    /// While the disk is held for the application that serves: until when.
    held_until: Option<u64>,
    applications: usize,
    accepted: u64,
    sectors: u64,
}

/// What a caller gets for a request that was sent, and brings back when it is done. Only a dispatch
/// makes one, and it cannot be copied.
#[derive(PartialEq, Eq, Debug)]
pub struct Token(Numbered);

impl Token {
    pub fn bears(&self) -> &Numbered {
        &self.0
    }
}

#[derive(PartialEq, Eq, Debug)]
pub enum Dispatched {
    Send(Token),
    Hold { application: usize, until: u64 },
    None,
}

/// What hands a token on is marked for inlining: a token is several words long, and would otherwise
/// be copied from one place in memory to another at every step.
impl Scheduler {
    pub fn seal(roster: &Roster, order: Order, rule: Rule) -> Scheduler {
        let applications = roster.applications();
        let mut stamps = Stamps::new(applications);
        for (number, application) in applications.iter().enumerate() {
            let allotted = stamps.allot(number, rule.first(application.limit));
            debug_assert!(allotted);
        }
        Scheduler {
            stamps,
            pool: Pool::new(order),
            rule,
            hold: u64::from(roster.hold()),
            clock: 0,
            head: 0,
            in_flight: None,
            held_until: None,
            applications: applications.len(),
            accepted: 0,
            sectors: 0,
        }
    }

    /// Answers the number that the request waits under.
    pub fn arrival(&mut self, time: u64, request: Request) -> Result<u64, Refusal> {
        self.check_time(time)?;
        let application = usize::from(request.application);
        self.check_request(application, &request)?;
        self.advance(time);
        self.accepted += 1;
        self.sectors += u64::from(request.size);
        self.pool.put(Numbered { number: self.accepted, request }).expect("the line has room");
        match self.stamps.row(application).status {
            Status::Idle => {
                self.stamps.wake(application);
            }
            Status::Queued => {}
            Status::Serving => self.held_until = None,
        }
        Ok(self.accepted)
    }

    #[inline]
    pub fn dispatch(&mut self, time: u64) -> Result<Dispatched, Refusal> {
        self.check_time(time)?;
        if self.in_flight.is_some() {
            return Err(Refusal::InFlight);
        }
        self.advance(time);
        let Some(application) = self.stamps.serving() else { return Ok(self.pick()) };
        // Nothing is in flight, so a hold stands exactly while nothing of the served application waits.
        if let Some(until) = self.held_until {
            return Ok(Dispatched::Hold { application, until });
        }
        if let Some(token) = self.send(application) {
            return Ok(Dispatched::Send(token));
        }
        self.retire(application, Reason::Exhausted);
        Ok(self.pick())
    }

    /// A refused completion hands the token back.
    #[inline]
    pub fn completion(&mut self, time: u64, token: Token) -> Result<(), (Refusal, Token)> {
        if let Err(refusal) = self.check_time(time) {
            return Err((refusal, token));
        }
        if self.in_flight != Some(token.0) {
            return Err((Refusal::Token, token));
        }
        self.advance(time);
        self.in_flight = None;
        let Request { application, synchronous, .. } = token.0.request;
        let application = usize::from(application);
        if self.pool.count(application) == 0 {
            if synchronous {
                self.held_until = Some(time + self.hold);
            } else {
                self.retire(application, Reason::RanDry);
            }
        }
        Ok(())
    }

    pub fn tick(&mut self, time: u64) -> Result<(), Refusal> {
        self.check_time(time)?;
        self.advance(time);
        Ok(())
    }

    fn check_time(&self, time: u64) -> Result<(), Refusal> {
        if (self.clock..=LAST_TIME).contains(&time) { Ok(()) } else { Err(Refusal::Time) }
    }

    fn check_request(&self, application: usize, request: &Request) -> Result<(), Refusal> {
        let size = u64::from(request.size);
        if application >= self.applications {
            Err(Refusal::Application)
        } else if !(1..=LARGEST).contains(&request.size) {
            Err(Refusal::Size)
        } else if request.first > LAST_SECTOR - size {
            Err(Refusal::End)
        } else if self.pool.count(application) == LONGEST {
            Err(Refusal::LineFull)
        } else if size > MOST_SECTORS - self.sectors {
            Err(Refusal::Total)
        } else {
            Ok(())
        }
    }

    /// What every accepted call does first. A hold that ends at this very time is over.
    fn advance(&mut self, time: u64) {
        self.clock = time;
        if self.held_until.is_some_and(|until| until <= time)
            && let Some(application) = self.stamps.serving()
        {
            self.retire(application, Reason::HoldRanOut);
        }
    }

    /// Ends the turn of the application that serves.
    fn retire(&mut self, application: usize, reason: Reason) {
        let row = self.stamps.row(application);
        let budget = self.rule.next(row.limit, row.budget, reason);
        let retired = if self.pool.count(application) > 0 { self.stamps.requeue(budget) } else { self.stamps.rest(budget) };
        debug_assert!(retired);
        self.held_until = None;
    }

    #[inline]
    fn pick(&mut self) -> Dispatched {
        match self.stamps.pick() {
            None => Dispatched::None,
            // Whoever is queued has something waiting, and any request fits a fresh budget.
            Some(picked) => Dispatched::Send(self.send(picked).expect("a fresh budget reaches")),
        }
    }

    /// Sends the chosen request of the application that serves, if the budget reaches.
    #[inline]
    fn send(&mut self, application: usize) -> Option<Token> {
        let slot = self.pool.choose(application, self.head)?;
        if !self.stamps.send(u32::from(self.pool.size_at(application, slot))) {
            return None;
        }
        let sent = self.pool.take(application, slot);
        self.head = sent.request.first + u64::from(sent.request.size);
        self.in_flight = Some(sent);
        Some(Token(sent))
    }

    pub fn applications(&self) -> usize {
        self.applications
    }

    pub fn clock(&self) -> u64 {
        self.clock
    }

    pub fn head(&self) -> u64 {
        self.head
    }

    pub fn serving(&self) -> Option<usize> {
        self.stamps.serving()
    }

    pub fn held_until(&self) -> Option<u64> {
        self.held_until
    }

    pub fn waiting(&self, application: usize) -> usize {
        self.pool.count(application)
    }
}

#[cfg(test)]
mod tests {
    use super::*;
    use crate::format::Application;

    fn two(hold: u32, order: Order, rule: Rule) -> Scheduler {
        let mut roster = Roster::new();
        roster.add(Application { weight: 3, limit: 512 }).unwrap();
        roster.set_hold(hold).unwrap();
        Scheduler::seal(&roster, order, rule)
    }

    fn request(application: u8, first: u64, size: u16, synchronous: bool) -> Request {
        Request { first, size, application, synchronous }
    }

    fn sent(answer: Result<Dispatched, Refusal>) -> Token {
        match answer {
            Ok(Dispatched::Send(token)) => token,
            other => panic!("{other:?}"),
        }
    }

    #[test]
    fn an_arrival_is_refused_in_the_documented_order() {
        let mut s = two(5, Order::FirstCome, Rule::Steady);
        assert_eq!(s.tick(3), Ok(()));
        assert_eq!(s.arrival(2, request(2, u64::MAX, 0, true)), Err(Refusal::Time));
        assert_eq!(s.arrival(LAST_TIME + 1, request(2, u64::MAX, 0, true)), Err(Refusal::Time));
        assert_eq!(s.arrival(4, request(2, u64::MAX, 0, true)), Err(Refusal::Application));
        assert_eq!(s.arrival(4, request(1, u64::MAX, 0, true)), Err(Refusal::Size));
        assert_eq!(s.arrival(4, request(1, u64::MAX, 257, true)), Err(Refusal::Size));
        assert_eq!(s.arrival(4, request(1, u64::MAX, 1, true)), Err(Refusal::End));
        assert_eq!(s.arrival(4, request(1, LAST_SECTOR - 9, 10, true)), Err(Refusal::End));
        // None of the refused calls moved the clock.
        assert_eq!(s.arrival(3, request(1, LAST_SECTOR - 10, 10, true)), Ok(1));
        for number in 2..=16 {
            assert_eq!(s.arrival(3, request(1, 0, 256, true)), Ok(number));
        }
        s.sectors = MOST_SECTORS;
        assert_eq!(s.arrival(3, request(1, 0, 256, true)), Err(Refusal::LineFull));
        assert_eq!(s.arrival(3, request(0, 0, 1, true)), Err(Refusal::Total));
        s.sectors -= 1;
        assert_eq!(s.arrival(LAST_TIME, request(0, 0, 1, true)), Ok(17));
    }

    #[test]
    fn a_token_that_differs_is_handed_back() {
        let mut s = two(5, Order::FirstCome, Rule::Steady);
        s.arrival(0, request(1, 7, 8, true)).unwrap();
        let token = sent(s.dispatch(1));
        assert_eq!(s.dispatch(1), Err(Refusal::InFlight));
        assert_eq!(s.dispatch(0), Err(Refusal::Time));
        let right = token.0;
        for wrong in [
            Numbered { number: 2, ..right },
            Numbered { request: Request { application: 0, ..right.request }, ..right },
            Numbered { request: Request { first: 8, ..right.request }, ..right },
            Numbered { request: Request { size: 9, ..right.request }, ..right },
            Numbered { request: Request { synchronous: false, ..right.request }, ..right },
        ] {
            assert_eq!(s.completion(2, Token(wrong)), Err((Refusal::Token, Token(wrong))));
            assert_eq!(s.completion(0, Token(wrong)), Err((Refusal::Time, Token(wrong))));
        }
        assert_eq!(s.completion(1, token), Ok(()));
        assert_eq!(s.completion(1, Token(right)), Err((Refusal::Token, Token(right))));
    }

    #[test]
    fn an_arrival_in_the_tick_in_which_a_hold_ends_comes_too_late() {
        for (arrives, in_time) in [(6, true), (7, false), (8, false)] {
            let mut s = two(5, Order::FirstCome, Rule::Steady);
            s.arrival(0, request(1, 0, 8, true)).unwrap();
            let token = sent(s.dispatch(0));
            s.completion(2, token).unwrap();
            assert_eq!(s.dispatch(3), Ok(Dispatched::Hold { application: 1, until: 7 }));
            s.arrival(arrives, request(1, 8, 256, true)).unwrap();
            assert_eq!(s.serving(), in_time.then_some(1));
            assert_eq!(s.held_until(), None);
        }
    }

    #[test]
    fn an_exhausted_application_may_be_picked_again_at_once() {
        let mut s = two(5, Order::FirstCome, Rule::Feedback);
        s.arrival(0, request(1, 0, 200, false)).unwrap();
        s.arrival(0, request(1, 200, 200, false)).unwrap();
        let token = sent(s.dispatch(0));
        assert_eq!(s.stamps.row(1).budget, 256);
        s.completion(0, token).unwrap();
        let token = sent(s.dispatch(0));
        assert_eq!((token.bears().number, s.stamps.row(1).budget, s.stamps.row(1).served), (2, 512, 200));
        s.completion(0, token).unwrap();
        assert_eq!(s.dispatch(0), Ok(Dispatched::None));
    }
}
