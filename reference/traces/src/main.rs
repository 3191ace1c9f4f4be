//! A second reader and writer of trace files, in plain Rust, made without looking at the first: what
//! the two say of the same input must be the same.

mod format;
mod many;
mod random;
mod report;
mod suites;

use std::io::{self, BufWriter, Read, Write};

const USAGE: &str = "usage: traces example | gen SEED | suite SEED COUNT | full COUNT | inspect < FILE | many < FILES";

fn number(word: Option<String>) -> io::Result<u64> {
    word.and_then(|w| w.parse().ok()).ok_or_else(|| io::Error::other(USAGE))
}

fn input() -> io::Result<Vec<u8>> {
    let mut bytes = Vec::new();
    io::stdin().read_to_end(&mut bytes)?;
    Ok(bytes)
}

fn main() -> io::Result<()> {
    let mut args = std::env::args().skip(1);
    let mut out = BufWriter::new(io::stdout().lock());
    match args.next().as_deref() {
        Some("example") => out.write_all(&format::encode(&suites::example()))?,
        Some("full") => suites::full_files(&mut out, number(args.next())?)?,
        Some("gen") => out.write_all(&suites::some_file(number(args.next())?))?,
        Some("inspect") => report::report(&mut out, &input()?)?,
        Some("many") => many::read_files(&mut out, &input()?)?,
        Some("suite") => suites::files(&mut out, number(args.next())?, number(args.next())?)?,
        _ => return Err(io::Error::other(USAGE)),
    }
    out.flush()
}
