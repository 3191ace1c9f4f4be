//! The format: tables from bytes, and bytes from tables.

#[derive(Clone, Copy, PartialEq, Eq, Debug)]
pub struct Fault {
    pub layer: u8,
    pub number: u8,
    pub place: usize,
}

#[derive(Clone, Copy, PartialEq, Eq, Debug, Default)]
pub struct Settings {
    pub hold: u32,
    pub feedback: bool,
    pub c_look: bool,
}

#[derive(Clone, Copy, PartialEq, Eq, Debug)]
pub struct Application {
    pub weight: u8,
    pub limit: u32,
}

#[derive(Clone, Copy, PartialEq, Eq, Debug)]
pub struct Request {
    pub first: u64,
    pub size: u16,
    pub application: u8,
    pub synchronous: bool,
}

#[derive(Clone, Copy, PartialEq, Eq, Debug)]
pub enum Event {
    Arrival(u32),
    Dispatch,
    Completion,
    Tick,
}

#[derive(Clone, PartialEq, Eq, Debug, Default)]
pub struct Tables {
    pub settings: Settings,
    pub applications: Vec<Application>,
    pub requests: Vec<Request>,
    pub events: Vec<(u64, Event)>,
}

fn u32_at(bytes: &[u8], at: usize) -> u32 {
    u32::from_le_bytes(bytes[at..at + 4].try_into().unwrap())
}

fn u64_at(bytes: &[u8], at: usize) -> u64 {
    u64::from_le_bytes(bytes[at..at + 8].try_into().unwrap())
}

/// Where the bodies of applications, requests and events begin, and where the file ends.
fn layout(bytes: &[u8]) -> Result<[usize; 4], Fault> {
    if bytes.len() < 32 {
        return Err(Fault { layer: 1, number: 13, place: 0 });
    }
    let mut starts = [0; 4];
    let mut next = 32;
    for (entry, (width, least, most)) in [(8, 1, 1), (8, 0, 15), (16, 0, 960), (16, 0, 960)].into_iter().enumerate() {
        let offset = u32_at(bytes, 8 * entry) as usize;
        let count = u32_at(bytes, 8 * entry + 4) as usize;
        if offset != next || !(least..=most).contains(&count) {
            return Err(Fault { layer: 1, number: 14, place: entry });
        }
        next += width * count;
        starts[entry] = next;
    }
    if next != bytes.len() {
        return Err(Fault { layer: 1, number: 14, place: 4 });
    }
    Ok(starts)
}

pub fn settings_of(b: &[u8]) -> Option<Settings> {
    (b[4] < 2 && b[5] < 2 && b[6..8] == [0, 0]).then(|| Settings { hold: u32_at(b, 0), feedback: b[4] == 1, c_look: b[5] == 1 })
}

pub fn application_of(b: &[u8]) -> Option<Application> {
    (b[1..4] == [0; 3]).then(|| Application { weight: b[0], limit: u32_at(b, 4) })
}

pub fn request_of(b: &[u8]) -> Option<Request> {
    (b[11] < 2 && b[12..16] == [0; 4]).then(|| Request {
        first: u64_at(b, 0),
        size: u16::from_le_bytes([b[8], b[9]]),
        application: b[10],
        synchronous: b[11] == 1,
    })
}

pub fn event_of(b: &[u8]) -> Option<(u64, Event)> {
    if b[9..12] != [0; 3] {
        return None;
    }
    let event = match (b[8], u32_at(b, 12)) {
        (1, request) => Event::Arrival(request),
        (2, 0) => Event::Dispatch,
        (3, 0) => Event::Completion,
        (4, 0) => Event::Tick,
        _ => return None,
    };
    Some((u64_at(b, 0), event))
}

/// The records of a body, or the offset of the first that is none.
fn records<T>(bytes: &[u8], from: usize, to: usize, width: usize, of: fn(&[u8]) -> Option<T>) -> Result<Vec<T>, Fault> {
    let pieces = bytes[from..to].chunks_exact(width);
    pieces.enumerate().map(|(i, b)| of(b).ok_or(Fault { layer: 2, number: 15, place: from + width * i })).collect()
}

fn events(bytes: &[u8], from: usize, to: usize, requests: usize) -> Result<Vec<(u64, Event)>, Fault> {
    let mut all = Vec::with_capacity((to - from) / 16);
    for (i, b) in bytes[from..to].chunks_exact(16).enumerate() {
        let event = event_of(b).ok_or(Fault { layer: 2, number: 15, place: from + 16 * i })?;
        if matches!(event.1, Event::Arrival(request) if request as usize >= requests) {
            return Err(Fault { layer: 2, number: 16, place: from + 16 * i });
        }
        all.push(event);
    }
    Ok(all)
}

fn roster(settings: &Settings, applications: &[Application]) -> Result<(), Fault> {
    let fault = |number, place| Err(Fault { layer: 3, number, place });
    if !(1..=1_000_000).contains(&settings.hold) {
        return fault(4, 0);
    }
    for (i, a) in applications.iter().enumerate() {
        if !(1..=10).contains(&a.weight) {
            return fault(2, i + 1);
        }
        if !(256..=65_536).contains(&a.limit) {
            return fault(3, i + 1);
        }
    }
    Ok(())
}

pub fn decode(bytes: &[u8]) -> Result<Tables, Fault> {
    let [applications_at, requests_at, events_at, end] = layout(bytes)?;
    let settings = settings_of(&bytes[32..40]).ok_or(Fault { layer: 2, number: 15, place: 32 })?;
    let applications = records(bytes, applications_at, requests_at, 8, application_of)?;
    let requests = records(bytes, requests_at, events_at, 16, request_of)?;
    let events = events(bytes, events_at, end, requests.len())?;
    roster(&settings, &applications)?;
    Ok(Tables { settings, applications, requests, events })
}

pub fn settings_bytes(s: &Settings) -> [u8; 8] {
    let [a, b, c, d] = s.hold.to_le_bytes();
    [a, b, c, d, s.feedback as u8, s.c_look as u8, 0, 0]
}

pub fn application_bytes(a: &Application) -> [u8; 8] {
    let [p, q, r, s] = a.limit.to_le_bytes();
    [a.weight, 0, 0, 0, p, q, r, s]
}

pub fn request_bytes(r: &Request) -> [u8; 16] {
    let mut b = [0; 16];
    b[..8].copy_from_slice(&r.first.to_le_bytes());
    b[8..10].copy_from_slice(&r.size.to_le_bytes());
    b[10] = r.application;
    b[11] = r.synchronous as u8;
    b
}

pub fn event_bytes((time, event): &(u64, Event)) -> [u8; 16] {
    let (code, argument) = match *event {
        Event::Arrival(request) => (1, request),
        Event::Dispatch => (2, 0),
        Event::Completion => (3, 0),
        Event::Tick => (4, 0),
    };
    let mut b = [0; 16];
    b[..8].copy_from_slice(&time.to_le_bytes());
    b[8] = code;
    b[12..].copy_from_slice(&u32::to_le_bytes(argument));
    b
}

/// The file of the tables, whatever they hold.
pub fn encode(t: &Tables) -> Vec<u8> {
    let mut bytes = Vec::with_capacity(40 + 8 * t.applications.len() + 16 * (t.requests.len() + t.events.len()));
    let mut offset = 32;
    for (width, count) in [(8, 1), (8, t.applications.len()), (16, t.requests.len()), (16, t.events.len())] {
        bytes.extend_from_slice(&(offset as u32).to_le_bytes());
        bytes.extend_from_slice(&(count as u32).to_le_bytes());
        offset += width * count;
    }
    bytes.extend_from_slice(&settings_bytes(&t.settings));
    t.applications.iter().for_each(|a| bytes.extend_from_slice(&application_bytes(a)));
    t.requests.iter().for_each(|r| bytes.extend_from_slice(&request_bytes(r)));
    t.events.iter().for_each(|e| bytes.extend_from_slice(&event_bytes(e)));
    bytes
}
