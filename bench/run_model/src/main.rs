//! The model as a program: it plays run files, counts what they reach, makes them, and compares bench programs with itself.

use std::env;
use std::error::Error;
use std::ffi::OsString;
use std::fs::File;
use std::io::{self, Write};
use std::path::{Path, PathBuf};
use std::process::ExitCode;

use run_model::bench::Bench;
use run_model::compare::{compare, files_of, read_run};
use run_model::tally::Tally;
use run_model::{dense, digest, make};

const USAGE: &str = "usage:
  run_model nv|mr                                 play the run file on standard input
  run_model tally nv|mr FILE...                   count what the files reach
  run_model make SEED COUNT DIR                   write pseudo-random run files
  run_model dense nv|mr                           write one long run file for timing
  run_model compare DIR NVBENCH MRBENCH [FROM TO] compare programs with the model, on the files
                                                  from number FROM up to but not including TO
  run_model pack FILE...                          write the files as one input for manyruns
  run_model digest FILE...                        print what manyruns must print for them";

type Outcome = Result<ExitCode, Box<dyn Error>>;

fn main() -> ExitCode {
    let arguments: Vec<OsString> = env::args_os().skip(1).collect();
    match run(&arguments) {
        Ok(code) => code,
        Err(error) => {
            eprintln!("run_model: {error}");
            ExitCode::from(2)
        }
    }
}

fn run(arguments: &[OsString]) -> Outcome {
    let Some((command, rest)) = arguments.split_first() else {
        return Err(USAGE.into());
    };
    match (command.to_str(), rest) {
        (Some("nv"), []) => play(Bench::Nv),
        (Some("mr"), []) => play(Bench::Mr),
        (Some("tally"), [bench, files @ ..]) => tally(named(bench)?, files),
        (Some("make"), [seed, count, directory]) => {
            make::write_files(number(seed)?, number(count)?, Path::new(directory))?;
            Ok(ExitCode::SUCCESS)
        }
        (Some("dense"), [bench]) => {
            io::stdout().write_all(&dense::file(named(bench)?))?;
            Ok(ExitCode::SUCCESS)
        }
        (Some("compare"), [directory, nv, mr, bounds @ ..]) => compare_files(directory, nv, mr, bounds),
        (Some("pack"), files) => {
            digest::write_pack(&paths(files), &mut io::stdout().lock())?;
            Ok(ExitCode::SUCCESS)
        }
        (Some("digest"), files) => {
            digest::write_digest(&paths(files), &mut io::stdout().lock())?;
            Ok(ExitCode::SUCCESS)
        }
        _ => Err(USAGE.into()),
    }
}

fn paths(files: &[OsString]) -> Vec<PathBuf> {
    files.iter().map(PathBuf::from).collect()
}

fn named(bench: &OsString) -> Result<Bench, Box<dyn Error>> {
    bench.to_str().and_then(Bench::named).ok_or_else(|| USAGE.into())
}

fn number(text: &OsString) -> Result<u64, Box<dyn Error>> {
    Ok(text.to_str().ok_or(USAGE)?.parse()?)
}

fn play(bench: Bench) -> Outcome {
    let bytes = read_run(io::stdin().lock())?;
    io::stdout().write_all(&bench.print(&bytes))?;
    Ok(ExitCode::SUCCESS)
}

fn tally(bench: Bench, files: &[OsString]) -> Outcome {
    let mut tally = Tally::default();
    for file in files {
        let bytes = read_run(File::open(file)?)?;
        tally = bench.watched(&bytes, tally).1;
    }
    print!("{tally}");
    Ok(ExitCode::SUCCESS)
}

fn compare_files(directory: &OsString, nv: &OsString, mr: &OsString, bounds: &[OsString]) -> Outcome {
    let mut files = files_of(Path::new(directory))?;
    match bounds {
        [] => {}
        [from, to] => {
            files.truncate(number(to)? as usize);
            files.drain(..files.len().min(number(from)? as usize));
        }
        _ => return Err(USAGE.into()),
    }
    let differences = compare(&files, nv, mr, &mut io::stdout().lock())?;
    Ok(if differences > 0 { ExitCode::FAILURE } else { ExitCode::SUCCESS })
}
