//! Many run files as one input, and what both benches print for each of them in short: so many lines and bytes, and their sum.

use std::fs::File;
use std::io::{self, Write};
use std::path::PathBuf;

use crate::bench::Bench;
use crate::compare::read_run;
use crate::sum;

/// Writes the files one behind the other, each behind its length in three bytes, highest first.
pub fn write_pack(files: &[PathBuf], out: &mut impl Write) -> io::Result<()> {
    for file in files {
        let bytes = read_run(File::open(file)?)?;
        out.write_all(&(bytes.len() as u32).to_be_bytes()[1..])?;
        out.write_all(&bytes)?;
    }
    Ok(())
}

/// Writes what is printed for each of the files, in short.
pub fn write_digest(files: &[PathBuf], out: &mut impl Write) -> io::Result<()> {
    for (number, file) in files.iter().enumerate() {
        let bytes = read_run(File::open(file)?)?;
        for (name, bench) in [("nv", Bench::Nv), ("mr", Bench::Mr)] {
            let text = bench.print(&bytes);
            let lines = text.iter().filter(|&&byte| byte == b'\n').count();
            writeln!(out, "{number} {name} {lines} lines {} bytes sum {:04X}", text.len(), sum::of(&text))?;
        }
    }
    Ok(())
}
