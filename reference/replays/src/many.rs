//! Many files on one input.

use crate::format::{decode, encode};
use crate::report::report;
use std::io::{self, Write};

fn split<'a>(input: &mut &'a [u8], size: usize) -> Option<&'a [u8]> {
    let (front, rest) = input.split_at_checked(size)?;
    *input = rest;
    Some(front)
}

/// Files, each behind its length in 4 bytes. One that is accepted is written back from its tables.
pub fn read_files(out: &mut impl Write, mut input: &[u8]) -> io::Result<()> {
    while let Some(size) = split(&mut input, 4) {
        let size = u32::from_le_bytes(size.try_into().unwrap());
        let Some(file) = split(&mut input, size as usize) else { break };
        report(out, file)?;
        if let Ok(tables) = decode(file) {
            let again = encode(&tables);
            writeln!(out, "written {} {}", again.len(), again == file)?;
        }
    }
    Ok(())
}
