//! Compares what two bench programs print with what the model says they must print.

use std::ffi::OsStr;
use std::fs::{self, File};
use std::io::{self, Read, Write};
use std::path::{Path, PathBuf};
use std::process::{Command, Stdio};

use crate::bench::Bench;
use crate::run_file::LONGEST;

/// The files of a directory, in the order of their names.
pub fn files_of(directory: &Path) -> io::Result<Vec<PathBuf>> {
    let mut files = Vec::new();
    for entry in fs::read_dir(directory)? {
        let path = entry?.path();
        if path.is_file() {
            files.push(path);
        }
    }
    files.sort();
    Ok(files)
}

/// Reads as much of a run file as a bench does.
pub fn read_run(source: impl Read) -> io::Result<Vec<u8>> {
    let mut bytes = Vec::with_capacity(LONGEST + 1);
    source.take(LONGEST as u64 + 1).read_to_end(&mut bytes)?;
    Ok(bytes)
}

/// Plays each file on both programs, reports the differences to `report`, and answers how many there are.
pub fn compare(files: &[PathBuf], nv: &OsStr, mr: &OsStr, report: &mut impl Write) -> io::Result<usize> {
    let mut differences = 0;
    for file in files {
        let bytes = read_run(File::open(file)?)?;
        for (bench, program) in [(Bench::Nv, nv), (Bench::Mr, mr)] {
            if let Some(difference) = difference(file, program, &bench.print(&bytes))? {
                writeln!(report, "{} {}: {difference}", file.display(), program.to_string_lossy())?;
                differences += 1;
            }
        }
    }
    writeln!(report, "{} files, {differences} differences", files.len())?;
    Ok(differences)
}

/// How a program's run on a file differs from what is expected, if it does.
fn difference(file: &Path, program: &OsStr, expected: &[u8]) -> io::Result<Option<String>> {
    let run = Command::new(program).stdin(File::open(file)?).stderr(Stdio::inherit()).output()?;
    if !run.status.success() {
        return Ok(Some(format!("ended with {}", run.status)));
    }
    Ok(first_difference(expected, &run.stdout))
}

/// The first line in which two outputs differ. Line feeds stay with their lines, so that a missing one shows.
fn first_difference(expected: &[u8], found: &[u8]) -> Option<String> {
    if expected == found {
        return None;
    }
    let mut expected = expected.split_inclusive(|&byte| byte == b'\n');
    let mut found = found.split_inclusive(|&byte| byte == b'\n');
    loop {
        let (must, is) = (expected.next(), found.next());
        if must != is {
            let same = same_start(must.unwrap_or_default(), is.unwrap_or_default());
            return Some(format!("must be {}, is {}", quoted(must, same), quoted(is, same)));
        }
    }
}

/// How many bytes two lines have in common at their start.
fn same_start(one: &[u8], other: &[u8]) -> usize {
    one.iter().zip(other).take_while(|(one, other)| one == other).count()
}

/// The most bytes of a line that are shown. Lines of long transfers are much longer.
const SHOWN: usize = 400;

/// A line, or of a long one what stands around the first difference.
fn quoted(line: Option<&[u8]>, same: usize) -> String {
    match line {
        None => "no line".to_string(),
        Some(line) if line.len() <= SHOWN => format!("\"{}\"", line.escape_ascii()),
        Some(line) => {
            let from = same.saturating_sub(SHOWN / 2);
            let to = line.len().min(from + SHOWN);
            let start = &line[..line.len().min(12)];
            format!("\"{}\".. from {from} on \"{}\"", start.escape_ascii(), line[from..to].escape_ascii())
        }
    }
}

#[cfg(test)]
mod tests {
    use super::first_difference;

    #[test]
    fn equal_outputs_have_no_difference() {
        assert_eq!(first_difference(b"0 P 0\n", b"0 P 0\n"), None);
    }

    #[test]
    fn the_first_differing_line_is_told() {
        let told = first_difference(b"0 P 0\n1 P 6\n", b"0 P 0\n1 P 0\n").unwrap();
        assert_eq!(told, r#"must be "1 P 6\n", is "1 P 0\n""#);
    }

    #[test]
    fn a_missing_line_and_a_missing_line_feed_are_told() {
        assert_eq!(first_difference(b"0 P 0\n", b"").unwrap(), r#"must be "0 P 0\n", is no line"#);
        assert_eq!(first_difference(b"0 P 0\n", b"0 P 0").unwrap(), r#"must be "0 P 0\n", is "0 P 0""#);
    }
}
