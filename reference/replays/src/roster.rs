//! Who shares the disk.

use crate::format::Application;
use crate::refusal::Refusal;

/// Application 0 is always there, and fifteen may be added.
pub const MOST: usize = 16;

#[derive(Clone, Debug)]
pub struct Roster {
    applications: [Application; MOST],
    count: usize,
    hold: u32,
}

impl Roster {
    pub fn new() -> Roster {
        Roster { applications: [Application { weight: 1, limit: 256 }; MOST], count: 1, hold: 8 }
    }

    /// Answers the number of the application that was added.
    pub fn add(&mut self, application: Application) -> Result<usize, Refusal> {
        if self.count == MOST {
            return Err(Refusal::RosterFull);
        }
        if !(1..=10).contains(&application.weight) {
            return Err(Refusal::Weight);
        }
        if !(256..=65_536).contains(&application.limit) {
            return Err(Refusal::Limit);
        }
        let number = self.count;
        self.applications[number] = application;
        self.count += 1;
        Ok(number)
    }

    pub fn set_hold(&mut self, hold: u32) -> Result<(), Refusal> {
        if !(1..=1_000_000).contains(&hold) {
            return Err(Refusal::Hold);
        }
        self.hold = hold;
        Ok(())
    }

    pub fn applications(&self) -> &[Application] {
        &self.applications[..self.count]
    }

    pub fn hold(&self) -> u32 {
        self.hold
    }
}

impl Default for Roster {
    fn default() -> Roster {
        Roster::new()
    }
}

#[cfg(test)]
mod tests {
    use super::*;

    #[test]
    fn refuses_in_the_documented_order() {
        let mut roster = Roster::new();
        assert_eq!(roster.hold(), 8);
        assert_eq!(roster.applications(), [Application { weight: 1, limit: 256 }]);
        assert_eq!(roster.add(Application { weight: 0, limit: 0 }), Err(Refusal::Weight));
        assert_eq!(roster.add(Application { weight: 11, limit: 256 }), Err(Refusal::Weight));
        assert_eq!(roster.add(Application { weight: 10, limit: 255 }), Err(Refusal::Limit));
        assert_eq!(roster.add(Application { weight: 10, limit: 65_537 }), Err(Refusal::Limit));
        for number in 1..16 {
            assert_eq!(roster.add(Application { weight: 10, limit: 65_536 }), Ok(number));
        }
        assert_eq!(roster.add(Application { weight: 0, limit: 0 }), Err(Refusal::RosterFull));
        assert_eq!(roster.set_hold(0), Err(Refusal::Hold));
        assert_eq!(roster.set_hold(1_000_001), Err(Refusal::Hold));
        assert_eq!(roster.set_hold(1_000_000), Ok(()));
        assert_eq!(roster.hold(), 1_000_000);
    }
}
