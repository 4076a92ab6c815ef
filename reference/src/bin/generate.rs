//! Writes random logs, the same for a seed on every machine.

use reference::count::{log_of, Count, EVENTS};
use reference::damage;
use reference::generate::{self, Generator};
use std::error::Error;
use std::io::{self, BufWriter, Write};
use std::ops::RangeInclusive;
use std::process::ExitCode;

const USAGE: &str = "usage: generate SEED N           a log of N events, or as many as fit
       generate --damage SEED N  the same, damaged
       generate --stream SEED N [PROCESSORS]
                                 a recorded stream of N events, of any length, that never ends;
                                 PROCESSORS is 1 to 8, chosen by the seed when it isn't given
       generate --flood SEED N [PROCESSORS]
                                 the same, in which alarms arise under a flood of low ones
       generate --many A..B [N]  the logs of seeds A to B, both included, each after its length in
                                 4 bytes, least significant first; those of odd seeds are damaged
       generate --count A..B [N] how often what came up in these logs
N is 400 for --many and --count when it isn't given.";

fn main() -> ExitCode {
    let arguments: Vec<String> = std::env::args().skip(1).collect();
    let arguments: Vec<&str> = arguments.iter().map(String::as_str).collect();
    let mut out = BufWriter::new(io::stdout().lock());
    match write(&arguments, &mut out).and_then(|()| Ok(out.flush()?)) {
        Ok(()) => ExitCode::SUCCESS,
        Err(error) => {
            eprintln!("generate: {error}");
            ExitCode::FAILURE
        }
    }
}

type Done = Result<(), Box<dyn Error>>;

fn write(arguments: &[&str], out: &mut impl Write) -> Done {
    match *arguments {
        ["--damage", seed, n] => out.write_all(&damage::log(number(seed)?, events(n)?))?,
        ["--stream", seed, n] => stream(Generator::stream(number(seed)?), number(n)?, out)?,
        ["--flood", seed, n] => stream(Generator::flood(number(seed)?), number(n)?, out)?,
        [kind @ ("--stream" | "--flood"), seed, n, many] => {
            let fresh = if kind == "--flood" { Generator::flood } else { Generator::stream };
            let generator = fresh(number(seed)?).on_processors(processors(many)?);
            stream(generator, number(n)?, out)?;
        }
        ["--many", seeds] => many(range(seeds)?, EVENTS, out)?,
        ["--many", seeds, n] => many(range(seeds)?, events(n)?, out)?,
        ["--count", seeds] => count(range(seeds)?, EVENTS, out)?,
        ["--count", seeds, n] => count(range(seeds)?, events(n)?, out)?,
        [seed, n] if !seed.starts_with('-') => {
            out.write_all(&generate::log(number(seed)?, events(n)?))?;
        }
        _ => return Err(USAGE.into()),
    }
    Ok(())
}

fn stream(mut generator: Generator, events: u64, out: &mut impl Write) -> Done {
    out.write_all(&generator.start.to_field())?;
    for _ in 0..events {
        out.write_all(&generator.event().to_field())?;
    }
    Ok(())
}

fn many(seeds: RangeInclusive<u64>, events: usize, out: &mut impl Write) -> Done {
    for seed in seeds {
        let log = log_of(seed, events);
        out.write_all(&(log.len() as u32).to_le_bytes())?;
        out.write_all(&log)?;
    }
    Ok(())
}

fn count(seeds: RangeInclusive<u64>, events: usize, out: &mut impl Write) -> Done {
    for (name, times) in Count::of_seeds(seeds, events).rows() {
        writeln!(out, "{times:>9} {name}")?;
    }
    Ok(())
}

fn number(text: &str) -> Result<u64, Box<dyn Error>> {
    text.parse().map_err(|_| format!("{text:?} is not a number from 0 on\n{USAGE}").into())
}

fn processors(text: &str) -> Result<u8, Box<dyn Error>> {
    match text.parse() {
        Ok(many) if (1..=8).contains(&many) => Ok(many),
        _ => Err(format!("{text:?} is not a number of processors, 1 to 8\n{USAGE}").into()),
    }
}

/// A number of events. No log holds more than 65,536.
fn events(text: &str) -> Result<usize, Box<dyn Error>> {
    Ok(number(text)?.min(65_536) as usize)
}

fn range(text: &str) -> Result<RangeInclusive<u64>, Box<dyn Error>> {
    let Some((first, last)) = text.split_once("..") else {
        return Err(format!("{text:?} is not a range of seeds such as 1..400\n{USAGE}").into());
    };
    let (first, last) = (number(first)?, number(last)?);
    if first > last {
        return Err(format!("seed {first} comes after seed {last}").into());
    }
    Ok(first..=last)
}
