//! The report on one file, in the words of the program that it is compared with.

use crate::format::{Event, Fault, Tables, decode};
use std::io::{self, Write};

const SHOWN: usize = 5;

pub fn report(out: &mut impl Write, bytes: &[u8]) -> io::Result<()> {
    match decode(bytes) {
        Ok(tables) => show(out, &tables),
        Err(fault) => show_fault(out, fault),
    }
}

pub fn show_fault(out: &mut impl Write, fault: Fault) -> io::Result<()> {
    let Fault { layer, number, place } = fault;
    let sentence = match (number, place) {
        (13, _) => "The file ends before its contents do.",
        (14, 0) => "The settings do not begin at byte 32, or are not one record.",
        (14, 1) => "The applications do not begin where the settings end, or are more than 15.",
        (14, 2) => "The requests do not begin where the applications end, or are more than 960.",
        (14, 3) => "The events do not begin where the requests end, or are more than 960.",
        (14, _) => "The file does not end with its last event.",
        (15, _) => "In the record at that byte a code has no meaning, or a byte that must be zero is not.",
        (16, _) => "The arrival at that byte names a request that is not there.",
        (4, _) => "The hold is not 1 to 1,000,000 ticks.",
        (2, _) => "The weight of that application is not 1 to 10.",
        _ => "The limit of that application is not 256 to 65,536 sectors.",
    };
    writeln!(out, "fault {layer} {number} {place}\n{sentence}")
}

fn show(out: &mut impl Write, t: &Tables) -> io::Result<()> {
    let rule = if t.settings.feedback { "feedback" } else { "steady" };
    let pool = if t.settings.c_look { "C-LOOK" } else { "first-come" };
    writeln!(out, "hold {}, rule {rule}, pool {pool}", t.settings.hold)?;
    let (applications, requests, events) = (t.applications.len(), t.requests.len(), t.events.len());
    writeln!(out, "records: applications {applications}, requests {requests}, events {events}")?;
    writeln!(out, "application 0: weight 1, limit 256")?;
    for (i, a) in t.applications.iter().enumerate() {
        writeln!(out, "application {} at {}: weight {}, limit {}", i + 1, 40 + 8 * i, a.weight, a.limit)?;
    }
    let requests_at = 40 + 8 * applications;
    for (i, r) in t.requests.iter().take(SHOWN).enumerate() {
        let kind = if r.synchronous { "synchronous" } else { "asynchronous" };
        let at = requests_at + 16 * i;
        writeln!(out, "request {i} at {at}: application {}, first {}, size {}, {kind}", r.application, r.first, r.size)?;
    }
    rest(out, requests, "requests")?;
    for (i, (time, event)) in t.events.iter().take(SHOWN).enumerate() {
        let at = requests_at + 16 * requests + 16 * i;
        write!(out, "event {i} at {at}: time {time}, ")?;
        match event {
            Event::Arrival(request) => writeln!(out, "arrival of request {request}"),
            Event::Dispatch => writeln!(out, "dispatch"),
            Event::Completion => writeln!(out, "completion"),
            Event::Tick => writeln!(out, "tick"),
        }?;
    }
    rest(out, events, "events")
}

fn rest(out: &mut impl Write, count: usize, name: &str) -> io::Result<()> {
    match count.checked_sub(SHOWN) {
        None | Some(0) => Ok(()),
        Some(more) => writeln!(out, "and {more} {name} more"),
    }
}
