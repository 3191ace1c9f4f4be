//! The listing: lines of text in the caller's buffer.

use crate::format::Fault;
use crate::station::Outcome;

/// 976 lines of 64 bytes: no listing is longer.
pub const LONGEST_LISTING: usize = 62_464;

/// Writes from byte 0 on, and nothing behind the last line.
pub struct Listing<'a> {
    bytes: &'a mut [u8],
    length: usize,
}

impl<'a> Listing<'a> {
    pub fn new(bytes: &'a mut [u8]) -> Listing<'a> {
        Listing { bytes, length: 0 }
    }

    pub fn fault(&mut self, fault: Fault) {
        self.word(b"fault ");
        self.number(u64::from(fault.layer));
        self.word(b" ");
        self.number(u64::from(fault.number));
        self.word(b" ");
        self.number(fault.place as u64);
        self.word(b"\n");
    }

    pub fn event(&mut self, time: u64, outcome: Outcome) {
        self.number(time);
        match outcome {
            Outcome::Arrive { application, number } => {
                self.word(b" arrive ");
                self.number(u64::from(application));
                self.word(b" ");
                self.number(number);
            }
            Outcome::Send(sent) => {
                self.word(b" send ");
                self.number(u64::from(sent.request.application));
                self.word(b" ");
                self.number(sent.number);
                self.word(b" ");
                self.number(sent.request.first);
                self.word(b" ");
                self.number(u64::from(sent.request.size));
            }
            Outcome::Hold { application, until } => {
                self.word(b" hold ");
                self.number(application as u64);
                self.word(b" ");
                self.number(until);
            }
            Outcome::None => self.word(b" none"),
            Outcome::Done { number } => {
                self.word(b" done ");
                self.number(number);
            }
            Outcome::Tick => self.word(b" tick"),
            Outcome::Refuse(refusal) => {
                self.word(b" refuse ");
                self.number(u64::from(refusal.number()));
            }
        }
        self.word(b"\n");
    }

    pub fn application(&mut self, application: usize, weight: u8, sent: u64) {
        self.word(b"app ");
        self.number(application as u64);
        self.word(b" weight ");
        self.number(u64::from(weight));
        self.word(b" sent ");
        self.number(sent);
        self.word(b"\n");
    }

    pub fn length(&self) -> usize {
        self.length
    }

    fn word<const SIZE: usize>(&mut self, word: &[u8; SIZE]) {
        self.bytes[self.length..self.length + SIZE].copy_from_slice(word);
        self.length += SIZE;
    }

    /// The digits go straight to their places, the last ones first and two at a time.
    fn number(&mut self, mut number: u64) {
        let end = self.length + digits(number);
        let (single, pairs) = self.bytes[self.length..end].as_rchunks_mut();
        for pair in pairs.iter_mut().rev() {
            *pair = PAIRS[(number % 100) as usize];
            number /= 100;
        }
        if let [digit] = single {
            *digit = b'0' + number as u8;
        }
        self.length = end;
    }
}

/// 00 to 99.
const PAIRS: [[u8; 2]; 100] = {
    let mut pairs = [[b'0'; 2]; 100];
    let mut number = 0;
    while number < 100 {
        pairs[number] = [b'0' + (number / 10) as u8, b'0' + (number % 10) as u8];
        number += 1;
    }
    pairs
};

fn digits(number: u64) -> usize {
    number.checked_ilog10().map_or(1, |power| power as usize + 1)
}

#[cfg(test)]
mod tests {
    use super::*;

    #[test]
    fn numbers_in_decimal() {
        let edges = (0..20).flat_map(|power| [10u64.pow(power) - 1, 10u64.pow(power), 10u64.pow(power) + 1]);
        for number in edges.chain([0, 255, 1 << 40, u64::MAX]) {
            let mut bytes = [b'?'; 24];
            let mut listing = Listing::new(&mut bytes);
            listing.number(number);
            let length = listing.length();
            assert_eq!(&bytes[..length], number.to_string().as_bytes());
            assert!(bytes[length..].iter().all(|&b| b == b'?'));
        }
    }
}
