//! A trace file in, its listing out.

use crate::format::{Application, Sound};
use crate::listing::{LONGEST_LISTING, Listing};
use crate::station::Station;

/// The buffer could be too short for a listing (refusal 18).
#[derive(Clone, Copy, PartialEq, Eq, Debug)]
pub struct TooShort;

/// Answers the listing's length. What stands in the buffer behind it stays.
pub fn replay(trace: &[u8], listing: &mut [u8]) -> Result<usize, TooShort> {
    if listing.len() < LONGEST_LISTING {
        return Err(TooShort);
    }
    let mut listing = Listing::new(listing);
    match Sound::read(trace) {
        Ok(sound) => play(&sound, &mut listing),
        Err(fault) => listing.fault(fault),
    }
    Ok(listing.length())
}

fn play(sound: &Sound, listing: &mut Listing) {
    let mut station = Station::new(&sound.settings, sound.applications());
    for (time, event) in sound.events() {
        let outcome = station.play(time, event, |index| sound.request(index));
        listing.event(time, outcome);
    }
    // Application 0 is on no record; the records are numbered from 1.
    let weights = [Application { weight: 1, limit: 256 }].into_iter().chain(sound.applications()).map(|a| a.weight);
    for (application, (weight, sent)) in weights.zip(station.close()).enumerate() {
        listing.application(application, weight, sent);
    }
}

#[cfg(test)]
mod tests {
    use super::*;
    use crate::format::encode;
    use crate::suites::example;

    const EXAMPLE: &str = "\
0 arrive 0 1
0 arrive 1 2
1 send 1 2 5000 200
2 done 2
3 hold 1 7
4 arrive 1 3
4 send 1 3 5200 200
5 done 3
10 tick
10 send 0 1 1000 256
11 done 1
9 refuse 5
11 none
app 0 weight 1 sent 256
app 1 weight 3 sent 400
";

    #[test]
    fn the_example() {
        let mut buffer = vec![b'?'; LONGEST_LISTING + 7];
        let length = replay(&encode(&example()), &mut buffer).unwrap();
        assert_eq!(std::str::from_utf8(&buffer[..length]).unwrap(), EXAMPLE);
        assert!(buffer[length..].iter().all(|&b| b == b'?'));
    }

    #[test]
    fn a_buffer_that_is_too_short_is_refused_whatever_the_file_holds() {
        let mut buffer = vec![b'?'; LONGEST_LISTING - 1];
        for trace in [encode(&example()), Vec::new()] {
            assert_eq!(replay(&trace, &mut buffer), Err(TooShort));
            assert_eq!(replay(&trace, &mut []), Err(TooShort));
        }
        assert!(buffer.iter().all(|&b| b == b'?'));
    }

    #[test]
    fn a_fault_is_one_line() {
        let mut buffer = vec![0; LONGEST_LISTING];
        let length = replay(&[0; 31], &mut buffer).unwrap();
        assert_eq!(&buffer[..length], b"fault 1 13 0\n");
    }
}
