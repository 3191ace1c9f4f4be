//! A second reader, writer and player of trace files, in plain Rust, made without looking at the
//! first: what the two say of the same input must be the same.

use std::io::{self, BufWriter, Read, Write};
use traces::listing::LONGEST_LISTING;
use traces::{format, many, replay, report, suites, tally, workload};

const USAGE: &str = "usage: traces example | gen SEED | suite SEED COUNT | full COUNT | inspect < FILE | many < FILES \
    | replay < FILE | workload SEED | damaged SEED | busy SEED RULE POOL | tally SEED COUNT";

/// More than any trace has. What lies behind so many bytes cannot change the listing: a file as long
/// as this is too long whatever follows, and its first fault stands in front.
const MOST_INPUT: u64 = 65_536;

fn number(word: Option<String>) -> io::Result<u64> {
    word.and_then(|w| w.parse().ok()).ok_or_else(|| io::Error::other(USAGE))
}

/// The code of a rule or a pool.
fn code(word: Option<String>) -> io::Result<u8> {
    match number(word)? {
        code @ 0..2 => Ok(code as u8),
        _ => Err(io::Error::other(USAGE)),
    }
}

fn input() -> io::Result<Vec<u8>> {
    let mut bytes = Vec::new();
    io::stdin().read_to_end(&mut bytes)?;
    Ok(bytes)
}

fn replay_input(out: &mut impl Write) -> io::Result<()> {
    let mut trace = Vec::new();
    io::stdin().take(MOST_INPUT).read_to_end(&mut trace)?;
    let mut listing = vec![0; LONGEST_LISTING];
    let length = replay::replay(&trace, &mut listing).expect("the buffer is long enough");
    out.write_all(&listing[..length])
}

fn main() -> io::Result<()> {
    let mut args = std::env::args().skip(1);
    let mut out = BufWriter::new(io::stdout().lock());
    match args.next().as_deref() {
        Some("busy") => out.write_all(&workload::busy(number(args.next())?, code(args.next())?, code(args.next())?))?,
        Some("damaged") => out.write_all(&workload::damaged(number(args.next())?))?,
        Some("example") => out.write_all(&format::encode(&suites::example()))?,
        Some("full") => suites::full_files(&mut out, number(args.next())?)?,
        Some("gen") => out.write_all(&suites::some_file(number(args.next())?))?,
        Some("inspect") => report::report(&mut out, &input()?)?,
        Some("many") => many::read_files(&mut out, &input()?)?,
        Some("replay") => replay_input(&mut out)?,
        Some("suite") => suites::files(&mut out, number(args.next())?, number(args.next())?)?,
        Some("tally") => tally::tally(&mut out, number(args.next())?, number(args.next())?)?,
        Some("workload") => out.write_all(&workload::workload(number(args.next())?))?,
        _ => return Err(io::Error::other(USAGE)),
    }
    out.flush()
}
