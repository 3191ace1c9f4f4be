//! The format: tables from bytes, and bytes from tables.

#[derive(Clone, Copy, PartialEq, Eq, Debug)]
pub struct Fault {
    pub layer: u8,
    pub number: u8,
    pub place: usize,
}

#[derive(Clone, Copy, PartialEq, Eq, Debug, Default)]
pub struct Settings {
    pub hold: u32,
    pub feedback: bool,
    pub c_look: bool,
}

#[derive(Clone, Copy, PartialEq, Eq, Debug)]
pub struct Application {
    pub weight: u8,
    pub limit: u32,
}

#[derive(Clone, Copy, PartialEq, Eq, Debug)]
pub struct Request {
    pub first: u64,
    pub size: u16,
    pub application: u8,
    pub synchronous: bool,
}

#[derive(Clone, Copy, PartialEq, Eq, Debug)]
pub enum Event {
    Arrival(u32),
    Dispatch,
    Completion,
    Tick,
}

#[derive(Clone, PartialEq, Eq, Debug, Default)]
pub struct Tables {
    pub settings: Settings,
    pub applications: Vec<Application>,
    pub requests: Vec<Request>,
    pub events: Vec<(u64, Event)>,
}

/// A file without a fault. Its bodies stay where they stand in the file, so that it can be played
/// without copying its records into tables first.
pub struct Sound<'a> {
    pub settings: Settings,
    applications: &'a [[u8; 8]],
    requests: &'a [[u8; 16]],
    events: &'a [[u8; 16]],
}

impl<'a> Sound<'a> {
    /// The layers in their order; in each the first fault counts.
    pub fn read(bytes: &'a [u8]) -> Result<Sound<'a>, Fault> {
        let [applications_at, requests_at, events_at, end] = layout(bytes)?;
        let settings: &[u8; 8] = bytes[32..40].try_into().unwrap();
        let applications = bytes[applications_at..requests_at].as_chunks().0;
        let requests = bytes[requests_at..events_at].as_chunks().0;
        let events = bytes[events_at..end].as_chunks().0;
        if !settings_fit(settings) {
            return Err(Fault { layer: 2, number: 15, place: 32 });
        }
        check_records(applications, applications_at, application_fits)?;
        check_records(requests, requests_at, request_fits)?;
        check_events(events, events_at, requests.len())?;
        let sound = Sound { settings: settings_of(settings), applications, requests, events };
        sound.check_roster()?;
        Ok(sound)
    }

    pub fn applications(&self) -> impl ExactSizeIterator<Item = Application> + 'a {
        self.applications.iter().map(application_of)
    }

    pub fn requests(&self) -> impl ExactSizeIterator<Item = Request> + 'a {
        self.requests.iter().map(request_of)
    }

    pub fn events(&self) -> impl ExactSizeIterator<Item = (u64, Event)> + 'a {
        self.events.iter().map(event_of)
    }

    /// The request record of an arrival: every arrival of this file names one that is there.
    pub fn request(&self, index: u32) -> Request {
        request_of(&self.requests[index as usize])
    }

    fn check_roster(&self) -> Result<(), Fault> {
        let fault = |number, place| Err(Fault { layer: 3, number, place });
        if !(1..=1_000_000).contains(&self.settings.hold) {
            return fault(4, 0);
        }
        for (i, a) in self.applications().enumerate() {
            if !(1..=10).contains(&a.weight) {
                return fault(2, i + 1);
            }
            if !(256..=65_536).contains(&a.limit) {
                return fault(3, i + 1);
            }
        }
        Ok(())
    }
}

pub fn decode(bytes: &[u8]) -> Result<Tables, Fault> {
    let sound = Sound::read(bytes)?;
    Ok(Tables {
        settings: sound.settings,
        applications: sound.applications().collect(),
        requests: sound.requests().collect(),
        events: sound.events().collect(),
    })
}

/// Where the bodies of applications, requests and events begin, and where the file ends.
fn layout(bytes: &[u8]) -> Result<[usize; 4], Fault> {
    if bytes.len() < 32 {
        return Err(Fault { layer: 1, number: 13, place: 0 });
    }
    let mut starts = [0; 4];
    let mut next = 32;
    for (entry, (width, least, most)) in [(8, 1, 1), (8, 0, 15), (16, 0, 960), (16, 0, 960)].into_iter().enumerate() {
        let offset = u32_at(bytes, 8 * entry) as usize;
        let count = u32_at(bytes, 8 * entry + 4) as usize;
        if offset != next || !(least..=most).contains(&count) {
            return Err(Fault { layer: 1, number: 14, place: entry });
        }
        next += width * count;
        starts[entry] = next;
    }
    if next != bytes.len() {
        return Err(Fault { layer: 1, number: 14, place: 4 });
    }
    Ok(starts)
}

fn check_records<const WIDTH: usize>(records: &[[u8; WIDTH]], from: usize, fits: fn(&[u8; WIDTH]) -> bool) -> Result<(), Fault> {
    match records.iter().position(|b| !fits(b)) {
        None => Ok(()),
        Some(i) => Err(Fault { layer: 2, number: 15, place: from + WIDTH * i }),
    }
}

fn check_events(events: &[[u8; 16]], from: usize, requests: usize) -> Result<(), Fault> {
    // How many numbers an event of each code may come with: an arrival those of the requests, the
    // others 0 alone, and what is no code none.
    let numbers = [0, requests, 1, 1, 1];
    let fits = |b: &[u8; 16]| numbers.get(event_code(b)).is_some_and(|&numbers| (u32_at(b, 12) as usize) < numbers);
    match events.iter().position(|b| !fits(b)) {
        None => Ok(()),
        Some(i) => {
            let number = if event_code(&events[i]) == 1 { 16 } else { 15 };
            Err(Fault { layer: 2, number, place: from + 16 * i })
        }
    }
}

fn settings_fit(b: &[u8; 8]) -> bool {
    b[4] < 2 && b[5] < 2 && b[6..] == [0; 2]
}

fn application_fits(b: &[u8; 8]) -> bool {
    b[1..4] == [0; 3]
}

fn request_fits(b: &[u8; 16]) -> bool {
    b[11] < 2 && b[12..] == [0; 4]
}

/// What happens, with the three blank bytes behind it as the number's upper ones: they are zero
/// exactly if the whole is 1 to 4.
fn event_code(b: &[u8; 16]) -> usize {
    u32_at(b, 8) as usize
}

fn settings_of(b: &[u8; 8]) -> Settings {
    Settings { hold: u32_at(b, 0), feedback: b[4] == 1, c_look: b[5] == 1 }
}

fn application_of(b: &[u8; 8]) -> Application {
    Application { weight: b[0], limit: u32_at(b, 4) }
}

fn request_of(b: &[u8; 16]) -> Request {
    Request { first: u64_at(b, 0), size: u16::from_le_bytes([b[8], b[9]]), application: b[10], synchronous: b[11] == 1 }
}

/// Of an event whose code was looked at before.
fn event_of(b: &[u8; 16]) -> (u64, Event) {
    let event = match event_code(b) {
        1 => Event::Arrival(u32_at(b, 12)),
        2 => Event::Dispatch,
        3 => Event::Completion,
        _ => Event::Tick,
    };
    (u64_at(b, 0), event)
}

fn u32_at(bytes: &[u8], at: usize) -> u32 {
    u32::from_le_bytes(bytes[at..at + 4].try_into().unwrap())
}

fn u64_at(bytes: &[u8], at: usize) -> u64 {
    u64::from_le_bytes(bytes[at..at + 8].try_into().unwrap())
}

pub fn settings_bytes(s: &Settings) -> [u8; 8] {
    let [a, b, c, d] = s.hold.to_le_bytes();
    [a, b, c, d, s.feedback as u8, s.c_look as u8, 0, 0]
}

pub fn application_bytes(a: &Application) -> [u8; 8] {
    let [p, q, r, s] = a.limit.to_le_bytes();
    [a.weight, 0, 0, 0, p, q, r, s]
}

pub fn request_bytes(r: &Request) -> [u8; 16] {
    let mut b = [0; 16];
    b[..8].copy_from_slice(&r.first.to_le_bytes());
    b[8..10].copy_from_slice(&r.size.to_le_bytes());
    b[10] = r.application;
    b[11] = r.synchronous as u8;
    b
}

pub fn event_bytes((time, event): &(u64, Event)) -> [u8; 16] {
    let (code, argument) = match *event {
        Event::Arrival(request) => (1, request),
        Event::Dispatch => (2, 0),
        Event::Completion => (3, 0),
        Event::Tick => (4, 0),
    };
    let mut b = [0; 16];
    b[..8].copy_from_slice(&time.to_le_bytes());
    b[8] = code;
    b[12..].copy_from_slice(&u32::to_le_bytes(argument));
    b
}

/// The file of the tables, whatever they hold.
pub fn encode(t: &Tables) -> Vec<u8> {
    let mut bytes = Vec::with_capacity(40 + 8 * t.applications.len() + 16 * (t.requests.len() + t.events.len()));
    let mut offset = 32;
    for (width, count) in [(8, 1), (8, t.applications.len()), (16, t.requests.len()), (16, t.events.len())] {
        bytes.extend_from_slice(&(offset as u32).to_le_bytes());
        bytes.extend_from_slice(&(count as u32).to_le_bytes());
        offset += width * count;
    }
    bytes.extend_from_slice(&settings_bytes(&t.settings));
    t.applications.iter().for_each(|a| bytes.extend_from_slice(&application_bytes(a)));
    t.requests.iter().for_each(|r| bytes.extend_from_slice(&request_bytes(r)));
    t.events.iter().for_each(|e| bytes.extend_from_slice(&event_bytes(e)));
    bytes
}
