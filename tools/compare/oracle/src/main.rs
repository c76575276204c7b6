//! The command line of the comparison tool.

use std::path::{Path, PathBuf};
use std::process::ExitCode;
use std::time::Instant;
use std::{fs, io};

use oracle::alter::{self, Altered};
use oracle::compare::{self, Run};
use oracle::generate::Options;
use oracle::history::History;
use oracle::mutants::{Mutant, Slip};
use oracle::oracle::Oracle;
use oracle::subject::Subject;
use oracle::{cover, edges, report, shrink, trace};

const HELP: &str = "\
compare [--seed N] [--calls N] [--wide] [--out DIR]   compare the Rust with the port and count
compare --rust-twice [--seed N] [--calls N]            the same of two copies of the Rust
compare --self-test [--seed N] [--calls N] [--out DIR] find slips made on purpose
compare --write-traces DIR [--count N] [--seed N]      write histories and their expected output
compare --count-traces DIR                             count what the traces of a folder reach
compare --expect FILE                                  print the expected output for a trace
compare --test                                         run the tests
";

/// Histories tried for each one that is written.
const TRIED_PER_TRACE: u64 = 200;

/// The flags.
struct Flags {
    seed: u64,
    calls: u64,
    count: usize,
    wide: bool,
    rust_twice: bool,
    out: PathBuf,
    mode: Mode,
}

/// What to do.
enum Mode {
    Compare,
    SelfTest,
    WriteTraces(PathBuf),
    CountTraces(PathBuf),
    Expect(PathBuf),
    Help,
}

fn main() -> ExitCode {
    let flags = match flags(std::env::args().skip(1)) {
        Ok(flags) => flags,
        Err(message) => {
            eprintln!("compare: {message}\n{HELP}");
            return ExitCode::from(2);
        }
    };
    let done = match &flags.mode {
        Mode::Compare => run(&flags),
        Mode::SelfTest => self_test(&flags),
        Mode::WriteTraces(folder) => write_traces(&flags, folder),
        Mode::CountTraces(folder) => count_traces(folder),
        Mode::Expect(file) => expect(file),
        Mode::Help => {
            print!("{HELP}");
            Ok(true)
        }
    };
    match done {
        Ok(true) => ExitCode::SUCCESS,
        Ok(false) => ExitCode::FAILURE,
        Err(error) => {
            eprintln!("compare: {error}");
            ExitCode::from(2)
        }
    }
}

fn flags(mut args: impl Iterator<Item = String>) -> Result<Flags, String> {
    let mut flags = Flags {
        seed: 1,
        calls: 1_000_000,
        count: 300,
        wide: false,
        rust_twice: false,
        out: PathBuf::from("differences"),
        mode: Mode::Compare,
    };
    while let Some(flag) = args.next() {
        let mut value = || args.next().ok_or_else(|| format!("{flag} needs a value"));
        match flag.as_str() {
            "--seed" => flags.seed = number(&value()?)?,
            "--calls" => flags.calls = number(&value()?)?,
            "--count" => flags.count = number(&value()?)?,
            "--wide" => flags.wide = true,
            "--rust-twice" => flags.rust_twice = true,
            "--out" => flags.out = value()?.into(),
            "--self-test" => flags.mode = Mode::SelfTest,
            "--write-traces" => flags.mode = Mode::WriteTraces(value()?.into()),
            "--count-traces" => flags.mode = Mode::CountTraces(value()?.into()),
            "--expect" => flags.mode = Mode::Expect(value()?.into()),
            "--help" => flags.mode = Mode::Help,
            other => return Err(format!("unknown flag {other}")),
        }
    }
    Ok(flags)
}

fn number<T: std::str::FromStr>(text: &str) -> Result<T, String> {
    text.parse().map_err(|_| format!("{text} is not a number that fits"))
}

/// The port.
#[cfg(port)]
fn port() -> io::Result<Box<dyn Subject>> {
    Ok(Box::new(oracle::port::Port::new()))
}

/// The port, which this build has not.
#[cfg(not(port))]
fn port() -> io::Result<Box<dyn Subject>> {
    Err(io::Error::other("no port is linked in"))
}

/// Compares the Rust with the port.
fn run(flags: &Flags) -> io::Result<bool> {
    let mut left = Oracle::new();
    let (mut right, name): (Box<dyn Subject>, _) = if flags.rust_twice {
        (Box::new(Oracle::new()), "a second copy of the Rust")
    } else {
        (port()?, "the port")
    };
    let started = Instant::now();
    let outcome = compare::compare(&mut left, right.as_mut(), &flags.run(false));
    let calls = outcome.opened.calls() + outcome.planted.calls();
    println!("from an open\n{}", outcome.opened);
    println!("from a state set up\n{}", outcome.planted);
    println!("seed {}: {calls} calls in {:.1} s", flags.seed, started.elapsed().as_secs_f64());
    match outcome.difference {
        None => {
            println!("no difference between the Rust and {name}");
            Ok(true)
        }
        Some((history, _)) => {
            let name = format!("difference-{}", flags.seed);
            shrunk(&mut left, right.as_mut(), &history, &flags.out, &name)?;
            Ok(false)
        }
    }
}

/// Looks for each slip of the port in histories that a trace can hold, then for each field altered, and shrinks what
/// shows it.
fn self_test(flags: &Flags) -> io::Result<bool> {
    let mut left = Oracle::new();
    let mut all_found = true;
    for slip in Slip::ALL {
        let mut right = Mutant::new(slip, port()?);
        let outcome = compare::compare(&mut left, &mut right, &flags.run(true));
        let calls = outcome.opened.calls();
        match outcome.difference {
            Some((history, _)) => {
                println!("{slip:?}: found after {calls} calls");
                let name = format!("slip-{slip:?}");
                shrunk(&mut left, &mut right, &history, &flags.out, &name)?;
            }
            None => {
                println!("{slip:?}: not found in {calls} calls");
                all_found = false;
            }
        }
    }
    for (name, edit) in alter::FIELDS.into_iter().flatten() {
        let mut right = Altered::new(port()?, *edit);
        let outcome = compare::compare(&mut left, &mut right, &flags.run(false));
        let calls = outcome.opened.calls() + outcome.planted.calls();
        match outcome.difference {
            Some((history, _)) => {
                let short = shrink::shrink(&history, &mut |candidate| {
                    compare::first_difference(&mut left, &mut right, candidate).is_some()
                });
                let length = short.calls.len();
                println!("altered {name}: found after {calls} calls, shrunk to {length}");
            }
            None => {
                println!("altered {name}: not found in {calls} calls");
                all_found = false;
            }
        }
    }
    Ok(all_found)
}

/// Shrinks a history that shows a difference, prints it and writes it down.
fn shrunk(
    left: &mut dyn Subject,
    right: &mut dyn Subject,
    history: &History,
    folder: &Path,
    name: &str,
) -> io::Result<()> {
    let short = shrink::shrink(history, &mut |candidate| {
        compare::first_difference(left, right, candidate).is_some()
    });
    let difference = compare::first_difference(left, right, &short)
        .ok_or_else(|| io::Error::other("the difference does not come again"))?;
    println!("shrunk from {} to {} calls", history.calls.len(), short.calls.len());
    print!("{}", report::describe(&short, &difference));
    for path in report::write(folder, name, &short, &difference)? {
        println!("written: {}", path.display());
    }
    Ok(())
}

/// Writes `NNN.trace` and `NNN.expected`.
fn write_traces(flags: &Flags, folder: &Path) -> io::Result<bool> {
    fs::create_dir_all(folder)?;
    let mut inputs = edges::inputs();
    let wanted = flags.count.saturating_sub(inputs.len());
    let tried = TRIED_PER_TRACE * u64::try_from(wanted).map_err(io::Error::other)?;
    let histories = cover::choose(flags.seed, tried, wanted);
    let stats = cover::stats(&histories);
    inputs.extend(histories.iter().filter_map(History::trace));
    for (number, input) in inputs.iter().enumerate() {
        fs::write(folder.join(format!("{number:03}.trace")), input)?;
        let expected = trace::program::output(input);
        fs::write(folder.join(format!("{number:03}.expected")), expected)?;
    }
    println!("{stats}{} traces", inputs.len());
    Ok(true)
}

/// Counts what the traces of a folder reach, up to where each stops.
fn count_traces(folder: &Path) -> io::Result<bool> {
    let mut files = fs::read_dir(folder)?
        .map(|entry| entry.map(|entry| entry.path()))
        .collect::<io::Result<Vec<_>>>()?;
    files.retain(|path| path.extension().is_some_and(|extension| extension == "trace"));
    files.sort();
    let inputs = files.iter().map(fs::read).collect::<io::Result<Vec<_>>>()?;
    let histories: Vec<_> = inputs.iter().map(|input| trace::calls(input)).collect();
    println!("{}{} traces", cover::stats(&histories), inputs.len());
    Ok(true)
}

fn expect(file: &Path) -> io::Result<bool> {
    print!("{}", trace::program::output(&fs::read(file)?));
    Ok(true)
}

impl Flags {
    const fn run(&self, traceable: bool) -> Run {
        Run { seed: self.seed, calls: self.calls, options: Options { wide: self.wide, traceable } }
    }
}
