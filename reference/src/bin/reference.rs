//! Reads a log on standard input and writes a line an event.

use reference::log;
use std::error::Error;
use std::io::{self, BufWriter, Read, Write};
use std::process::ExitCode;

const USAGE: &str = "usage: reference [--many | --list | --stream]
A log on standard input gives its lines on standard output.
  --many    a sequence of logs, each after its length in 4 bytes, least significant first;
            the lines of each log are followed by a line --
  --list    the log's fields, readable
  --stream  a log of any length: no refusal 26";

fn main() -> ExitCode {
    let arguments: Vec<String> = std::env::args().skip(1).collect();
    let arguments: Vec<&str> = arguments.iter().map(String::as_str).collect();
    let mut out = BufWriter::new(io::stdout().lock());
    let done = match arguments[..] {
        [] => one(&mut out),
        ["--many"] => many(&mut out),
        ["--list"] => list(&mut out),
        ["--stream"] => stream(&mut out),
        _ => Err(USAGE.into()),
    };
    match done.and_then(|()| Ok(out.flush()?)) {
        Ok(()) => ExitCode::SUCCESS,
        Err(error) => {
            eprintln!("reference: {error}");
            ExitCode::FAILURE
        }
    }
}

type Done = Result<(), Box<dyn Error>>;

/// No more than is needed to see that a log is too long.
fn read_log() -> io::Result<Vec<u8>> {
    let mut bytes = Vec::new();
    let limit = log::MAX_BYTES as u64 + 1;
    io::stdin().lock().take(limit).read_to_end(&mut bytes)?;
    Ok(bytes)
}

fn one(out: &mut impl Write) -> Done {
    Ok(log::run(log::open(&read_log()?), out)?)
}

fn list(out: &mut impl Write) -> Done {
    Ok(log::list(log::open(&read_log()?), out)?)
}

fn stream(out: &mut impl Write) -> Done {
    let mut bytes = Vec::new();
    io::stdin().lock().read_to_end(&mut bytes)?;
    Ok(log::run(log::open_stream(&bytes), out)?)
}

fn many(out: &mut impl Write) -> Done {
    let mut input = io::stdin().lock();
    while let Some(bytes) = log::next_of_many(&mut input)? {
        log::run(log::open(&bytes), out)?;
        writeln!(out, "--")?;
    }
    Ok(())
}
