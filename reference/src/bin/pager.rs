//! The pager in ordinary Rust: its answers to a text of events, and random texts.

use reference::pager;
use std::error::Error;
use std::io::Read;
use std::process::ExitCode;

const USAGE: &str = "usage: pager < TEXT            the answers to a text of events
       pager --generate SEED N   a random text of N events and some more";

fn main() -> ExitCode {
    match run() {
        Ok(text) => {
            print!("{text}");
            ExitCode::SUCCESS
        }
        Err(error) => {
            eprintln!("pager: {error}");
            ExitCode::FAILURE
        }
    }
}

fn run() -> Result<String, Box<dyn Error>> {
    let arguments: Vec<String> = std::env::args().skip(1).collect();
    match arguments.iter().map(String::as_str).collect::<Vec<_>>().as_slice() {
        [] => {
            let mut text = String::new();
            std::io::stdin().read_to_string(&mut text)?;
            Ok(pager::answers(&text)?)
        }
        ["--generate", seed, n] => Ok(pager::text(seed.parse()?, n.parse()?)),
        ["--help"] => Ok(USAGE.to_owned() + "\n"),
        _ => Err(USAGE.into()),
    }
}
