//! Feeds one recorded stream to the proved desk and to the one in ordinary Rust, in turn, and says
//! how long each takes an event. Equal checksums of all answers show that both did the same work.

mod checksum;

use reference::log;
use std::error::Error;
use std::hint::black_box;
use std::process::ExitCode;
use std::time::Instant;

const USAGE: &str = "usage: speed STREAM [RUNS]        both desks in turn, RUNS times each (9 when not given)
       speed --proved STREAM RUNS  the proved desk alone, for a profile
       speed --rust STREAM RUNS    the Rust desk alone, for a profile";

extern "C" {
    /// crates/replay: a slice passes as its address and its length.
    fn replay(bytes: *const u8, length: usize) -> u64;
}

fn proved(stream: &[u8]) -> u64 {
    // SAFETY: the address and the length are those of one lent slice, which `replay` only reads.
    unsafe { replay(stream.as_ptr(), stream.len()) }
}

fn rust(stream: &[u8]) -> u64 {
    checksum::of_answers(log::open_stream(stream)).0
}

type Replay = fn(&[u8]) -> u64;

fn main() -> ExitCode {
    let arguments: Vec<String> = std::env::args().skip(1).collect();
    let arguments: Vec<&str> = arguments.iter().map(String::as_str).collect();
    let done = match arguments[..] {
        ["--proved", stream, runs] => alone(proved, stream, runs),
        ["--rust", stream, runs] => alone(rust, stream, runs),
        [stream] => both(stream, "9"),
        [stream, runs] => both(stream, runs),
        _ => Err(USAGE.into()),
    };
    match done {
        Ok(()) => ExitCode::SUCCESS,
        Err(error) => {
            eprintln!("speed: {error}");
            ExitCode::FAILURE
        }
    }
}

type Done = Result<(), Box<dyn Error>>;

fn both(file: &str, runs: &str) -> Done {
    let (stream, runs) = (read(file)?, number(runs)?);
    let (expected, events) = checksum::of_answers(log::open_stream(&stream));
    let found = proved(&stream);
    if found != expected || events == 0 {
        return Err(format!(
            "the desks differ: over {events} events the proved one sums to {found:016x}, the Rust one to {expected:016x}"
        )
        .into());
    }
    println!(
        "{events} events, {} bytes, both desks sum to {found:016x}, {runs} runs each in turn",
        stream.len()
    );
    let mut times = [Vec::new(), Vec::new()];
    for _ in 0..runs {
        for (desk, times) in [proved as Replay, rust].into_iter().zip(&mut times) {
            times.push(nanoseconds(desk, &stream, found)? / events as f64);
        }
    }
    let [proved, rust] = times.map(Times::of);
    println!("              best  median   worst  (ns an event)");
    println!("proved desk {proved}");
    println!("Rust desk   {rust}");
    println!(
        "proved {:.1} ns an event, Rust {:.1} ns an event, ratio {:.2} (best of {runs}; by medians {:.2})",
        proved.best,
        rust.best,
        proved.best / rust.best,
        proved.median / rust.median
    );
    Ok(())
}

fn alone(desk: Replay, file: &str, runs: &str) -> Done {
    let stream = read(file)?;
    for _ in 0..number(runs)? {
        println!("{:016x}", desk(black_box(&stream)));
    }
    Ok(())
}

/// One run of a desk over the stream, from a fresh machine on.
fn nanoseconds(desk: Replay, stream: &[u8], expected: u64) -> Result<f64, Box<dyn Error>> {
    let before = Instant::now();
    let found = black_box(desk(black_box(stream)));
    let took = before.elapsed();
    if found != expected {
        return Err(format!("a later run sums to {found:016x}, not {expected:016x}").into());
    }
    Ok(took.as_nanos() as f64)
}

struct Times {
    best: f64,
    median: f64,
    worst: f64,
}

impl Times {
    fn of(mut times: Vec<f64>) -> Self {
        times.sort_by(f64::total_cmp);
        Times { best: times[0], median: times[times.len() / 2], worst: times[times.len() - 1] }
    }
}

impl std::fmt::Display for Times {
    fn fmt(&self, f: &mut std::fmt::Formatter) -> std::fmt::Result {
        write!(f, "{:7.1} {:7.1} {:7.1}", self.best, self.median, self.worst)
    }
}

fn read(file: &str) -> Result<Vec<u8>, Box<dyn Error>> {
    std::fs::read(file).map_err(|error| format!("{file}: {error}").into())
}

fn number(text: &str) -> Result<usize, Box<dyn Error>> {
    match text.parse() {
        Ok(number) if number > 0 => Ok(number),
        _ => Err(format!("{text:?} is not a number from 1 on\n{USAGE}").into()),
    }
}
