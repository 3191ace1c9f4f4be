//! Workloads that something has happened to on the way.

use crate::random::Random;
use crate::workload::workload;

/// A workload with a byte or a few changed, or cut short, or with something behind it.
pub fn damaged(seed: u64) -> Vec<u8> {
    let mut bytes = workload(seed);
    let mut r = Random::new(!seed);
    let size = bytes.len() as u64;
    let (requests_at, _) = entry(&bytes, 2);
    match r.below(12) {
        0..4 => change(&mut r, &mut bytes, size),
        4 => (0..2 + r.below(4)).for_each(|_| change(&mut r, &mut bytes, size)),
        // The contents, the settings and the applications are a small part of most files, but have
        // most of the faults.
        5 => change(&mut r, &mut bytes, u64::from(requests_at)),
        6..10 => change_field(&mut r, &mut bytes),
        10 => {
            let size = if r.one_in(2) { r.below(size) } else { size - r.pick(&[1, 8, 16, 32]) };
            bytes.truncate(size as usize);
        }
        _ => {
            let any = 1 + r.below(40);
            let more = r.pick(&[1, 8, 16, any, 30_000]);
            let zeros = r.one_in(2);
            bytes.extend((0..more).map(|_| if zeros { 0 } else { r.bits() as u8 }));
        }
    }
    bytes
}

/// Changes one of the first so many bytes.
fn change(r: &mut Random, bytes: &mut [u8], size: u64) {
    let at = r.below(size) as usize;
    bytes[at] = match r.below(4) {
        0 => bytes[at] ^ (1 << r.below(8)),
        1 => r.pick(&[0, 1, 2, 3, 4, 5, 10, 11, 255]),
        2 => bytes[at].wrapping_add(r.pick(&[1, 255])),
        _ => r.bits() as u8,
    };
}

/// Puts a field on the edge of its range or just behind it, where changes of single bytes seldom
/// come to.
fn change_field(r: &mut Random, bytes: &mut [u8]) {
    let (applications, many) = entry(bytes, 1);
    let (_, requests) = entry(bytes, 2);
    let (events, most) = entry(bytes, 3);
    match r.below(6) {
        0 => put(bytes, 32, r.pick(&[0, 1, 1_000_000, 1_000_001, u32::MAX])),
        1..4 if many > 0 => {
            let at = applications as usize + 8 * r.below(u64::from(many)) as usize;
            let which = 1 + r.below(3);
            if which & 1 != 0 {
                bytes[at] = r.pick(&[0, 1, 10, 11, 255]);
            }
            if which & 2 != 0 {
                put(bytes, at + 4, r.pick(&[0, 255, 256, 65_536, 65_537, u32::MAX]));
            }
        }
        4 if most > 0 => {
            let at = events as usize + 16 * r.below(u64::from(most)) as usize;
            if r.one_in(3) {
                bytes[at + 8] = r.below(6) as u8;
            } else {
                put(bytes, at + 12, r.pick(&[0, 1, requests.wrapping_sub(1), requests, requests + 1, u32::MAX]));
            }
        }
        _ => {
            let at = 4 * r.below(8) as usize;
            let more = r.pick(&[1, 8, 16, u32::MAX]);
            put(bytes, at, number(bytes, at).wrapping_add(more));
        }
    }
}

/// An entry of the contents: where the body begins, and how many records it has.
fn entry(bytes: &[u8], index: usize) -> (u32, u32) {
    (number(bytes, 8 * index), number(bytes, 8 * index + 4))
}

fn number(bytes: &[u8], at: usize) -> u32 {
    u32::from_le_bytes([bytes[at], bytes[at + 1], bytes[at + 2], bytes[at + 3]])
}

fn put(bytes: &mut [u8], at: usize, number: u32) {
    bytes[at..at + 4].copy_from_slice(&number.to_le_bytes());
}
