//! Tells how long the ready waited, from logs and the lines printed for them.

use reference::log;
use reference::waits::{Lines, Waits};
use std::error::Error;
use std::io::{self, Read, Write};
use std::process::ExitCode;

const USAGE: &str = "usage: waits [--many | --stream] LOG LINES ...
A log and the lines that a desk has printed for it, or several such pairs, one after the other; - is
standard input. For those that were ready with k before them in their line, high and low: the choices
that are promised and the most that one waited, from every moment to the choice that ran it or to its end.
  --many    LOG is a sequence of logs, each after its length in 4 bytes, least significant first;
            the lines of each log are followed by a line --
  --stream  LOG is a log of any length: no refusal 26
Lines that cannot be so, or a wait longer than promised, are told with their place; the status is then 1.";

fn main() -> ExitCode {
    let arguments: Vec<String> = std::env::args().skip(1).collect();
    let arguments: Vec<&str> = arguments.iter().map(String::as_str).collect();
    let told = match arguments[..] {
        ["--help"] => Ok(format!("{USAGE}\n")),
        _ => recount(&arguments).map(|waits| waits.to_string()),
    };
    let mut out = io::stdout().lock();
    match told.and_then(|text| Ok(out.write_all(text.as_bytes()).and_then(|()| out.flush())?)) {
        Ok(()) => ExitCode::SUCCESS,
        Err(error) => {
            eprintln!("waits: {error}");
            ExitCode::FAILURE
        }
    }
}

#[derive(Clone, Copy)]
enum Form {
    One,
    Many,
    Stream,
}

fn recount(mut arguments: &[&str]) -> Result<Waits, Box<dyn Error>> {
    let mut waits = Waits::default();
    if arguments.is_empty() {
        return Err(USAGE.into());
    }
    while !arguments.is_empty() {
        let form;
        (form, arguments) = match arguments {
            ["--many", rest @ ..] => (Form::Many, rest),
            ["--stream", rest @ ..] => (Form::Stream, rest),
            _ => (Form::One, arguments),
        };
        let [log, lines, rest @ ..] = arguments else {
            return Err(USAGE.into());
        };
        if let Some(option) = [log, lines].into_iter().find(|name| name.len() > 1 && name.starts_with('-')) {
            return Err(format!("what is {option:?}?\n{USAGE}").into());
        }
        pair(&mut waits, form, log, lines)?;
        arguments = rest;
    }
    Ok(waits)
}

fn pair(waits: &mut Waits, form: Form, log: &str, lines: &str) -> Result<(), Box<dyn Error>> {
    let bytes = read(log)?;
    let text = String::from_utf8(read(lines)?).map_err(|error| format!("{lines}: {error}"))?;
    let mut told = Lines::new(&text);
    let logs = match form {
        Form::Many => split(log, &bytes)?,
        _ => vec![bytes],
    };
    for (bytes, number) in logs.iter().zip(1..) {
        one(waits, form, bytes, &mut told)
            .map_err(|what| format!("{log}, log {number}; {lines}, line {}: {what}", told.number))?;
    }
    told.end().map_err(|what| format!("{lines}, line {}: {what}", told.number).into())
}

fn one(waits: &mut Waits, form: Form, bytes: &[u8], lines: &mut Lines) -> Result<(), String> {
    match form {
        Form::One => waits.log(log::open(bytes), lines),
        Form::Stream => waits.log(log::open_stream(bytes), lines),
        Form::Many => waits.log(log::open(bytes), lines).and_then(|()| lines.expect("--")),
    }
}

fn split(name: &str, mut bytes: &[u8]) -> Result<Vec<Vec<u8>>, Box<dyn Error>> {
    let mut logs = Vec::new();
    loop {
        match log::next_of_many(&mut bytes) {
            Ok(Some(log)) => logs.push(log),
            Ok(None) => return Ok(logs),
            Err(error) => return Err(format!("{name}, log {}: {error}", logs.len() + 1).into()),
        }
    }
}

fn read(name: &str) -> Result<Vec<u8>, Box<dyn Error>> {
    let mut bytes = Vec::new();
    let read = match name {
        "-" => io::stdin().lock().read_to_end(&mut bytes).map(|_| ()),
        _ => std::fs::read(name).map(|read| bytes = read),
    };
    read.map_err(|error| format!("{name}: {error}"))?;
    Ok(bytes)
}
