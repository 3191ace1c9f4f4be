//! Both replays of the same files into buffers that hold the same bytes before: they must hold the
//! same bytes afterwards, behind the listing too.

use crate::sides::{Answer, Side};
use std::fmt::Display;
use std::process::ExitCode;
use traces::listing::LONGEST_LISTING;
use traces::random::Random;
use traces::tally::Lines;
use traces::workload::{damaged, workload};

/// Bytes behind the buffer that neither side is told of, and that neither may touch.
const GUARD: usize = 64;
const LONGEST_BUFFER: usize = LONGEST_LISTING + 40_000;

/// So many bytes of the given file are changed, one at a time, to every other value.
const CHANGED_BYTES: usize = 200;

const SIZES: [usize; 11] = [
    0,
    1,
    13,
    64,
    LONGEST_LISTING / 2,
    LONGEST_LISTING - 64,
    LONGEST_LISTING - 1,
    LONGEST_LISTING + 1,
    LONGEST_LISTING + 64,
    65_536,
    LONGEST_BUFFER,
];

pub fn compare(seed: u64, count: u64, file: Option<&str>) -> ExitCode {
    let mut comparison = Comparison::new(seed);
    match comparison.all(seed, count, file) {
        Ok(()) => {
            println!("{}", comparison.summary());
            ExitCode::SUCCESS
        }
        Err(difference) => {
            println!("{difference}");
            ExitCode::FAILURE
        }
    }
}

#[derive(Default)]
struct Files {
    workloads: u64,
    damaged: u64,
    changes: u64,
    truncations: u64,
    too_short: u64,
    longer: u64,
}

struct Comparison {
    before: Vec<u8>,
    ours: Vec<u8>,
    reference: Vec<u8>,
    r: Random,
    lines: Lines,
    files: Files,
}

impl Comparison {
    fn new(seed: u64) -> Comparison {
        let buffer = vec![0; LONGEST_BUFFER + GUARD];
        Comparison {
            before: buffer.clone(),
            ours: buffer.clone(),
            reference: buffer,
            r: Random::new(!seed),
            lines: Lines::default(),
            files: Files::default(),
        }
    }

    fn all(&mut self, seed: u64, count: u64, file: Option<&str>) -> Result<(), String> {
        for i in 0..count {
            let seed = seed.wrapping_add(i);
            let trace = workload(seed);
            self.one(&trace, LONGEST_LISTING, format_args!("workload {seed}"))?;
            self.files.workloads += 1;
            if i % 64 == 0 {
                self.sizes(&trace, format_args!("workload {seed}"))?;
            }
        }
        for i in 0..count / 2 {
            let seed = seed.wrapping_add(i);
            let trace = damaged(seed);
            self.one(&trace, LONGEST_LISTING, format_args!("damaged {seed}"))?;
            self.files.damaged += 1;
            if i % 64 == 0 {
                self.sizes(&trace, format_args!("damaged {seed}"))?;
            }
        }
        match file {
            None => Ok(()),
            Some(name) => {
                let whole = std::fs::read(name).map_err(|error| format!("{name}: {error}"))?;
                self.given(&whole)
            }
        }
    }

    /// The given file, its truncations, and the changes of one byte.
    fn given(&mut self, whole: &[u8]) -> Result<(), String> {
        self.one(whole, LONGEST_LISTING, "the given file")?;
        self.sizes(whole, "the given file")?;
        for size in 0..whole.len() {
            self.one(&whole[..size], LONGEST_LISTING, format_args!("the given file's first {size} bytes"))?;
            self.files.truncations += 1;
        }
        let mut changed = whole.to_vec();
        for at in 0..whole.len().min(CHANGED_BYTES) {
            for step in 1..=255 {
                changed[at] = whole[at].wrapping_add(step);
                let what = format_args!("the given file with byte {at} changed from {} to {}", whole[at], changed[at]);
                self.one(&changed, LONGEST_LISTING, what)?;
                self.files.changes += 1;
            }
            changed[at] = whole[at];
        }
        Ok(())
    }

    /// Buffers that are too short, or longer than a listing can be.
    fn sizes(&mut self, trace: &[u8], what: impl Display) -> Result<(), String> {
        let any_shorter = self.r.below(LONGEST_LISTING as u64) as usize;
        let any_longer = LONGEST_LISTING + self.r.below((LONGEST_BUFFER - LONGEST_LISTING) as u64) as usize;
        for size in SIZES.into_iter().chain([any_shorter, any_longer]) {
            self.one(trace, size, &what)?;
            if size < LONGEST_LISTING {
                self.files.too_short += 1;
            } else {
                self.files.longer += 1;
            }
        }
        Ok(())
    }

    fn one(&mut self, trace: &[u8], size: usize, what: impl Display) -> Result<(), String> {
        let guarded = size + GUARD;
        fill(&mut self.r, &mut self.before[..guarded]);
        self.ours[..guarded].copy_from_slice(&self.before[..guarded]);
        self.reference[..guarded].copy_from_slice(&self.before[..guarded]);
        let ours = Side::Ours.replay(trace, &mut self.ours[..size]);
        let reference = Side::Reference.replay(trace, &mut self.reference[..size]);
        if ours == reference && self.ours[..guarded] == self.reference[..guarded] {
            if let Answer::Written(length) = reference {
                self.lines.add(&self.reference[..length]);
            }
            return Ok(());
        }
        Err(format!(
            "DIFFERENCE: {what}, buffer of {size} bytes\nours {ours:?}, reference {reference:?}\n{}\n{}",
            self.first_difference(guarded),
            keep(trace)
        ))
    }

    fn first_difference(&self, size: usize) -> String {
        let (ours, reference) = (&self.ours[..size], &self.reference[..size]);
        let Some(at) = (0..size).find(|&at| ours[at] != reference[at]) else {
            return "the buffers hold the same bytes".to_string();
        };
        let begin = reference[..at].iter().rposition(|&b| b == b'\n').map_or(0, |newline| newline + 1);
        let line = |bytes: &[u8]| {
            let line = bytes[begin..].split(|&b| b == b'\n').next().unwrap_or_default();
            line[..line.len().min(80)].escape_ascii().to_string()
        };
        format!("first at byte {at}, in these lines:\nours      {}\nreference {}", line(ours), line(reference))
    }

    fn summary(&self) -> String {
        let Files { workloads, damaged, changes, truncations, too_short, longer } = self.files;
        format!(
            "no difference: workloads {workloads}, damaged {damaged}, changes of a byte {changes}, truncations {truncations}, \
             buffers too short {too_short}, buffers longer {longer}; lines {}",
            self.lines.words_and_refusals()
        )
    }
}

fn fill(r: &mut Random, bytes: &mut [u8]) {
    for piece in bytes.chunks_mut(8) {
        piece.copy_from_slice(&r.bits().to_le_bytes()[..piece.len()]);
    }
}

/// Keeps the trace, so that both sides can be asked again.
fn keep(trace: &[u8]) -> String {
    let path = std::env::temp_dir().join(format!("beside-difference-{}.trace", std::process::id()));
    match std::fs::write(&path, trace) {
        Ok(()) => format!("the trace is in {}", path.display()),
        Err(error) => format!("the trace could not be written to {}: {error}", path.display()),
    }
}
