//! Two replays side by side: ours, behind its C interface in a static library, and the reference,
//! which is this package. Compared byte by byte, and timed.
//!
//! The caller names the library on the link line:
//!
//!     cargo rustc --release --features beside --bin beside -- \
//!         -L native=DIR -l static=fuvgyarom -l static=rattleheap
//!
//! Cargo does not notice when the library changes. Touch this file to have it linked anew.

#[path = "beside/compare.rs"]
mod compare;
#[path = "beside/measure.rs"]
mod measure;
#[path = "beside/sides.rs"]
mod sides;

use sides::Side;
use std::process::ExitCode;

const USAGE: &str =
    "usage: beside compare SEED COUNT [FILE] | measure ROUNDS | growth [ROUNDS] | count ours|reference ROUNDS";

fn main() -> ExitCode {
    let args: Vec<String> = std::env::args().skip(1).collect();
    let words: Vec<&str> = args.iter().map(String::as_str).collect();
    let number = |word: &str| word.parse::<u64>().unwrap_or_else(|_| refuse(word));
    match words[..] {
        ["compare", seed, count] => compare::compare(number(seed), number(count), None),
        ["compare", seed, count, file] => compare::compare(number(seed), number(count), Some(file)),
        ["measure", rounds] => measure::measure(number(rounds)),
        ["growth"] => measure::growth(300),
        ["growth", rounds] => measure::growth(number(rounds)),
        ["count", "ours", rounds] => measure::count(Side::Ours, number(rounds)),
        ["count", "reference", rounds] => measure::count(Side::Reference, number(rounds)),
        _ => {
            eprintln!("{USAGE}");
            ExitCode::FAILURE
        }
    }
}

fn refuse(word: &str) -> ! {
    eprintln!("not a number: {word}\n{USAGE}");
    std::process::exit(1)
}
