//! How many sectors an application may send in its turn.

#[derive(Clone, Copy, PartialEq, Eq, Debug)]
pub enum Rule {
    Steady,
    Feedback,
}

/// Why a turn ended.
#[derive(Clone, Copy, PartialEq, Eq, Debug)]
pub enum Reason {
    Exhausted,
    HoldRanOut,
    RanDry,
}

/// No request is larger, so whatever waits fits a fresh budget.
const LEAST: u32 = 256;

impl Rule {
    pub fn first(self, limit: u32) -> u32 {
        match self {
            Rule::Steady => limit,
            Rule::Feedback => LEAST,
        }
    }

    /// The budget that follows `last`. Neither of these rules asks how much of it was served.
    pub fn next(self, limit: u32, last: u32, reason: Reason) -> u32 {
        match (self, reason) {
            (Rule::Steady, _) => limit,
            (Rule::Feedback, Reason::Exhausted) => last.saturating_mul(4).min(limit),
            (Rule::Feedback, Reason::HoldRanOut) => last.saturating_sub(limit / 8).max(LEAST),
            (Rule::Feedback, Reason::RanDry) => last,
        }
    }
}

#[cfg(test)]
mod tests {
    use super::*;

    /// The figures of "Budget rules" and of "Trying a workload", limit 2,048.
    #[test]
    fn feedback_at_2048() {
        let rule = Rule::Feedback;
        assert_eq!(rule.first(2048), 256);
        assert_eq!(rule.next(2048, 256, Reason::Exhausted), 1024);
        assert_eq!(rule.next(2048, 1024, Reason::Exhausted), 2048);
        assert_eq!(rule.next(2048, 2048, Reason::Exhausted), 2048);
        assert_eq!(rule.next(2048, 2048, Reason::HoldRanOut), 1792);
        assert_eq!(rule.next(2048, 300, Reason::HoldRanOut), 256);
        assert_eq!(rule.next(2048, 300, Reason::RanDry), 300);
    }

    #[test]
    fn the_eighth_is_rounded_down_and_a_difference_stops_at_zero() {
        assert_eq!(Rule::Feedback.next(2055, 2000, Reason::HoldRanOut), 2000 - 256);
        assert_eq!(Rule::Feedback.next(65_536, 300, Reason::HoldRanOut), 256);
    }

    #[test]
    fn steady_stays() {
        assert_eq!(Rule::Steady.first(2048), 2048);
        for reason in [Reason::Exhausted, Reason::HoldRanOut, Reason::RanDry] {
            assert_eq!(Rule::Steady.next(2048, 2048, reason), 2048);
        }
    }
}
