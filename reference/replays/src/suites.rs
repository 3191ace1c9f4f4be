//! The inputs of a comparison.

use crate::format::{Application, Event, Request, Settings, Tables, encode};
use crate::random::Random;
use std::io::{self, Write};

pub fn example() -> Tables {
    use Event::*;
    let request = |application, first, size, synchronous| Request { first, size, application, synchronous };
    Tables {
        settings: Settings { hold: 5, feedback: false, c_look: false },
        applications: vec![Application { weight: 3, limit: 512 }],
        requests: vec![request(0, 1000, 256, false), request(1, 5000, 200, true), request(1, 5200, 200, true)],
        events: vec![
            (0, Arrival(0)),
            (0, Arrival(1)),
            (1, Dispatch),
            (2, Completion),
            (3, Dispatch),
            (4, Arrival(2)),
            (4, Dispatch),
            (5, Completion),
            (10, Tick),
            (10, Dispatch),
            (11, Completion),
            (9, Tick),
            (11, Dispatch),
        ],
    }
}

fn tables_of(r: &mut Random, applications: u64, requests: u64, events: u64) -> Tables {
    let settings = Settings { hold: r.pick(&[1, 8, 1_000_000, 77]), feedback: r.one_in(2), c_look: r.one_in(2) };
    let application = |r: &mut Random| Application { weight: 1 + r.below(10) as u8, limit: r.pick(&[256, 65_536, 512, 4096]) };
    let request = |r: &mut Random| Request {
        first: r.bits() >> r.below(64),
        size: r.bits() as u16,
        application: r.bits() as u8,
        synchronous: r.one_in(2),
    };
    let event = |r: &mut Random| {
        let event = match r.below(4) {
            0 if requests > 0 => Event::Arrival(r.below(requests) as u32),
            1 => Event::Dispatch,
            2 => Event::Completion,
            _ => Event::Tick,
        };
        (r.bits() >> r.below(64), event)
    };
    Tables {
        settings,
        applications: (0..applications).map(|_| application(r)).collect(),
        requests: (0..requests).map(|_| request(r)).collect(),
        events: (0..events).map(|_| event(r)).collect(),
    }
}

/// Few records mostly, now and then as many as there may be.
fn some_tables(r: &mut Random) -> Tables {
    let applications = if r.one_in(8) { 15 } else { r.below(5) };
    let requests = if r.one_in(64) { 960 } else { r.below(12) };
    let events = if r.one_in(64) { 960 } else { r.below(20) };
    tables_of(r, applications, requests, events)
}

fn damage_tables(r: &mut Random, t: &mut Tables) {
    match r.below(8) {
        0 => t.settings.hold = r.pick(&[0, 1_000_001, u32::MAX]),
        1 => t.applications.iter_mut().for_each(|a| if r.one_in(3) { a.weight = r.pick(&[0, 11, 255]) }),
        2 => t.applications.iter_mut().for_each(|a| if r.one_in(3) { a.limit = r.pick(&[0, 255, 65_537, u32::MAX]) }),
        3 => {
            let requests = t.requests.len() as u32;
            let wrong = [requests, requests + 1, u32::MAX];
            t.events.iter_mut().for_each(|e| if r.one_in(5) { e.1 = Event::Arrival(r.pick(&wrong)) })
        }
        4 => t.applications = tables_of(r, 16, 0, 0).applications,
        5 => t.requests = tables_of(r, 0, 961, 0).requests,
        6 => t.events = tables_of(r, 0, 0, 961).events,
        _ => {}
    }
}

fn damage_bytes(r: &mut Random, bytes: &mut Vec<u8>) {
    for _ in 0..1 + r.below(3) {
        let size = bytes.len() as u64;
        let head = size.min(48);
        match r.below(6) {
            0 => bytes.truncate(r.below(size + 1) as usize),
            1 => bytes.push(r.bits() as u8),
            2 if head > 0 => bytes[r.below(head) as usize] = r.bits() as u8,
            3 if size > 0 => bytes[r.below(size) as usize] = r.pick(&[0, 1, 2, 3, 4, 5, 255]),
            4 if size > 0 => bytes[r.below(size) as usize] ^= 1 << r.below(8),
            _ if size > 0 => bytes[r.below(size) as usize] = r.bits() as u8,
            _ => {}
        }
        if bytes.is_empty() {
            return;
        }
    }
}

/// A file: one in three valid, one in three of wrong tables, one in three with wrong bytes.
pub fn some_file(seed: u64) -> Vec<u8> {
    let mut r = Random::new(seed);
    let mut t = some_tables(&mut r);
    let way = r.below(3);
    if way == 1 {
        damage_tables(&mut r, &mut t);
    }
    let mut bytes = encode(&t);
    if way == 2 {
        damage_bytes(&mut r, &mut bytes);
    }
    bytes
}

fn put_file(out: &mut impl Write, bytes: &[u8]) -> io::Result<()> {
    out.write_all(&(bytes.len() as u32).to_le_bytes())?;
    out.write_all(bytes)
}

/// Each truncation of the example, each change of one byte of it, and so many files.
pub fn files(out: &mut impl Write, seed: u64, count: u64) -> io::Result<()> {
    let whole = encode(&example());
    for size in 0..=whole.len() {
        put_file(out, &whole[..size])?;
    }
    for at in 0..whole.len() {
        for step in 1..=255u8 {
            let mut changed = whole.clone();
            changed[at] = changed[at].wrapping_add(step);
            put_file(out, &changed)?;
        }
    }
    for i in 0..count {
        put_file(out, &some_file(seed.wrapping_add(i)))?;
    }
    Ok(())
}

/// A file of as many records as there may be, so many times.
pub fn full_files(out: &mut impl Write, count: u64) -> io::Result<()> {
    let full = encode(&tables_of(&mut Random::new(7), 15, 960, 960));
    (0..count).try_for_each(|_| put_file(out, &full))
}
