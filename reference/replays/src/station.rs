//! A scheduler, and the token that its one caller keeps: what the events of a trace act on.

use crate::format::{Application, Event, Request, Settings};
use crate::pool::{Numbered, Order};
use crate::refusal::Refusal;
use crate::roster::{MOST, Roster};
use crate::rule::Rule;
use crate::scheduler::{Dispatched, Scheduler, Token};

/// What one event came to.
#[derive(Clone, Copy, PartialEq, Eq, Debug)]
pub enum Outcome<'a> {
    Arrive { application: u8, number: u64 },
    Send(&'a Numbered),
    Hold { application: usize, until: u64 },
    None,
    Done { number: u64 },
    Tick,
    Refuse(Refusal),
}

pub struct Station {
    scheduler: Scheduler,
    token: Option<Token>,
    sent: [u64; MOST],
}

impl Station {
    /// The weights, limits and the hold must be ones that a roster takes, as those of a sound file are.
    pub fn new(settings: &Settings, applications: impl Iterator<Item = Application>) -> Station {
        let mut roster = Roster::new();
        for application in applications {
            roster.add(application).expect("a weight and a limit within their ranges");
        }
        roster.set_hold(settings.hold).expect("a hold within its range");
        let order = if settings.c_look { Order::CLook } else { Order::FirstCome };
        let rule = if settings.feedback { Rule::Feedback } else { Rule::Steady };
        Station { scheduler: Scheduler::seal(&roster, order, rule), token: None, sent: [0; MOST] }
    }

    /// One event is one call. `request` looks up the record that an arrival names.
    pub fn play(&mut self, time: u64, event: Event, request: impl Fn(u32) -> Request) -> Outcome<'_> {
        match event {
            Event::Arrival(index) => self.arrival(time, request(index)),
            Event::Dispatch => self.dispatch(time),
            Event::Completion => self.completion(time),
            Event::Tick => self.scheduler.tick(time).map_or_else(Outcome::Refuse, |()| Outcome::Tick),
        }
    }

    fn arrival(&mut self, time: u64, request: Request) -> Outcome<'_> {
        match self.scheduler.arrival(time, request) {
            Ok(number) => Outcome::Arrive { application: request.application, number },
            Err(refusal) => Outcome::Refuse(refusal),
        }
    }

    fn dispatch(&mut self, time: u64) -> Outcome<'_> {
        match self.scheduler.dispatch(time) {
            Ok(Dispatched::Send(token)) => {
                let sent = self.token.insert(token).bears();
                self.sent[usize::from(sent.request.application)] += u64::from(sent.request.size);
                Outcome::Send(sent)
            }
            Ok(Dispatched::Hold { application, until }) => Outcome::Hold { application, until },
            Ok(Dispatched::None) => Outcome::None,
            Err(refusal) => Outcome::Refuse(refusal),
        }
    }

    fn completion(&mut self, time: u64) -> Outcome<'_> {
        let Some(token) = self.token.take() else { return Outcome::Refuse(Refusal::NoToken) };
        let number = token.bears().number;
        match self.scheduler.completion(time, token) {
            Ok(()) => Outcome::Done { number },
            Err((refusal, token)) => {
                self.token = Some(token);
                Outcome::Refuse(refusal)
            }
        }
    }

    /// A token that is still kept is completed at the time that the clock shows.
    pub fn close(mut self) -> [u64; MOST] {
        if let Some(token) = self.token.take() {
            let done = self.scheduler.completion(self.scheduler.clock(), token);
            debug_assert!(done.is_ok());
        }
        self.sent
    }

    pub fn scheduler(&self) -> &Scheduler {
        &self.scheduler
    }

    pub fn keeps_token(&self) -> bool {
        self.token.is_some()
    }
}
