//! `sleep < TEXT` answers a text about sleepers; `sleep --generate SEED LINES` writes a random one.

use reference::sleep::{generate, run};
use std::io::{Read, Write};
use std::process::ExitCode;

fn main() -> ExitCode {
    let args: Vec<String> = std::env::args().skip(1).collect();
    let written = match args.as_slice() {
        [] => {
            let mut text = Vec::new();
            if let Err(e) = std::io::stdin().read_to_end(&mut text) {
                eprintln!("sleep: the text can't be read: {e}");
                return ExitCode::FAILURE;
            }
            match run(&text) {
                Ok(lines) => std::io::stdout().write_all(&lines),
                Err(told) => {
                    let _ = std::io::stderr().write_all(&told);
                    return ExitCode::FAILURE;
                }
            }
        }
        [word, seed, lines] if word == "--generate" => match (seed.parse(), lines.parse()) {
            (Ok(seed), Ok(lines)) => std::io::stdout().write_all(&generate(seed, lines)),
            _ => {
                eprintln!("sleep: SEED and LINES are numbers");
                return ExitCode::from(2);
            }
        },
        _ => {
            eprintln!("sleep [--generate SEED LINES]");
            return ExitCode::from(2);
        }
    };
    match written {
        Ok(()) => ExitCode::SUCCESS,
        Err(e) => {
            eprintln!("sleep: the lines can't be written: {e}");
            ExitCode::FAILURE
        }
    }
}
