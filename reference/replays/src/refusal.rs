//! Why a call is refused, by its number.

#[derive(Clone, Copy, PartialEq, Eq, Debug)]
#[repr(u8)]
pub enum Refusal {
    RosterFull = 1,
    Weight = 2,
    Limit = 3,
    Hold = 4,
    Time = 5,
    Application = 6,
    Size = 7,
    End = 8,
    LineFull = 9,
    Total = 10,
    InFlight = 11,
    Token = 12,
    NoToken = 17,
}

impl Refusal {
    pub fn number(self) -> u8 {
        self as u8
    }
}
