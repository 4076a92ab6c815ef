//! Request (x), sleeping, in ordinary Rust: the sleepers, the text that tries them out, and random texts.

use crate::rng::Rng;

/// One who sleeps: wake time in microseconds of the sum of gaps, order of asking, U-proc number.
struct Sleeper {
    wake: u128,
    asked: u64,
    number: u64,
}

/// The sum of accepted gaps is never more than this.
const LIMIT: u128 = 1 << 62;
const SECOND: u128 = 1_000_000;

/// What is answered: the refusal or 0, a word, and the U-procs woken.
pub struct Answer {
    pub refusal: u8,
    pub word: &'static str,
    pub woken: Vec<u64>,
}

fn answer(refusal: u8, word: &'static str) -> Answer {
    Answer { refusal, word, woken: Vec::new() }
}

#[derive(Default)]
pub struct Delay {
    sum: u128,
    asked: u64,
    sleepers: Vec<Sleeper>,
}

impl Delay {
    /// A gap that would bring the sum above its limit is none: the desk refuses its event.
    pub fn gap(&mut self, microseconds: u64) {
        let sum = self.sum + u128::from(microseconds);
        if sum <= LIMIT {
            self.sum = sum;
        }
    }

    fn asleep(&self, number: u64) -> bool {
        self.sleepers.iter().any(|s| s.number == number)
    }

    pub fn ask(&mut self, number: u64, seconds: i64) -> Answer {
        if !(1..=8).contains(&number) {
            return answer(9, "none");
        }
        if self.asleep(number) {
            return answer(10, "none");
        }
        let Ok(seconds) = u128::try_from(seconds) else {
            return answer(0, "end");
        };
        self.asked += 1;
        self.sleepers.push(Sleeper { wake: self.sum + seconds * SECOND, asked: self.asked, number });
        answer(0, "sleep")
    }

    pub fn tick(&mut self) -> Answer {
        let sum = self.sum;
        let (mut due, left): (Vec<_>, Vec<_>) = self.sleepers.drain(..).partition(|s| s.wake <= sum);
        self.sleepers = left;
        due.sort_by_key(|s| (s.wake, s.asked));
        if due.is_empty() {
            return answer(0, "quiet");
        }
        Answer { refusal: 0, word: "wake", woken: due.iter().map(|s| s.number).collect() }
    }

    pub fn end(&mut self, number: u64) -> Answer {
        if !(1..=8).contains(&number) {
            return answer(9, "none");
        }
        if !self.asleep(number) {
            return answer(0, "quiet");
        }
        self.sleepers.retain(|s| s.number != number);
        answer(0, "ended")
    }
}

/// An operation of the text.
pub enum Operation {
    Gap(u64),
    Ask(u64, i64),
    Tick,
    End(u64),
}

/// What is wrong with a line: the word found and what was expected.
pub struct Wrong {
    found: Vec<u8>,
    expected: &'static str,
}

const VERB: &str = "gap, ask, tick or end";
const GAP: &str = "microseconds from 0 to 18446744073709551615";
const PROC: &str = "a U-proc number from 0 to 4294967295";
const SECONDS: &str = "seconds from -2147483648 to 2147483647";
const END: &str = "the end of the line";

/// A number of digits alone, at least one.
fn digits(word: &[u8]) -> Option<u128> {
    if word.is_empty() || !word.iter().all(u8::is_ascii_digit) {
        return None;
    }
    // A number far too large stays far too large.
    word.iter()
        .try_fold(0u128, |n, d| n.checked_mul(10)?.checked_add(u128::from(d - b'0')))
        .or(Some(u128::MAX))
}

fn unsigned(word: &[u8], most: u64) -> Option<u64> {
    digits(word).filter(|n| *n <= u128::from(most)).map(|n| n as u64)
}

fn signed(word: &[u8]) -> Option<i64> {
    match word.strip_prefix(b"-") {
        Some(rest) => digits(rest).filter(|n| *n <= 1 << 31).map(|n| -(n as i64)),
        None => digits(word).filter(|n| *n < 1 << 31).map(|n| n as i64),
    }
}

/// The operation of a line; nothing where it has no word.
pub fn parse(line: &[u8]) -> Result<Option<Operation>, Wrong> {
    let said = line.split(|b| *b == b'#').next().unwrap_or(b"");
    let words: Vec<&[u8]> = said.split(|b| *b == b' ' || *b == b'\t').filter(|w| !w.is_empty()).collect();
    let word = |k: usize| words.get(k).copied().unwrap_or(b"");
    let wrong = |k: usize, expected: &'static str| Wrong { found: word(k).to_vec(), expected };
    let Some(verb) = words.first() else {
        return Ok(None);
    };
    let (operation, parts) = match *verb {
        b"gap" => (Operation::Gap(unsigned(word(1), u64::MAX).ok_or_else(|| wrong(1, GAP))?), 2),
        b"ask" => {
            let number = unsigned(word(1), u64::from(u32::MAX)).ok_or_else(|| wrong(1, PROC))?;
            (Operation::Ask(number, signed(word(2)).ok_or_else(|| wrong(2, SECONDS))?), 3)
        }
        b"tick" => (Operation::Tick, 1),
        b"end" => (Operation::End(unsigned(word(1), u64::from(u32::MAX)).ok_or_else(|| wrong(1, PROC))?), 2),
        _ => return Err(wrong(0, VERB)),
    };
    if words.len() > parts {
        return Err(wrong(parts, END));
    }
    Ok(Some(operation))
}

/// The lines that a text gives, or the complaint of its first bad line.
pub fn run(text: &[u8]) -> Result<Vec<u8>, Vec<u8>> {
    let mut operations = Vec::new();
    let whole = text.strip_suffix(b"\n").unwrap_or(text);
    for (i, line) in whole.split(|b| *b == b'\n').enumerate() {
        match parse(line) {
            Ok(operation) => operations.extend(operation),
            Err(wrong) => {
                let mut told = format!("line {}: found '", i + 1).into_bytes();
                told.extend(wrong.found.iter().take(40));
                told.extend(format!("', expected {}\n", wrong.expected).bytes());
                return Err(told);
            }
        }
    }
    let mut delay = Delay::default();
    let mut out = String::new();
    let mut count = 0;
    for operation in operations {
        let answer = match operation {
            Operation::Gap(n) => {
                delay.gap(n);
                continue;
            }
            Operation::Ask(number, seconds) => delay.ask(number, seconds),
            Operation::Tick => delay.tick(),
            Operation::End(number) => delay.end(number),
        };
        count += 1;
        out += &format!("{count} {} {}", answer.refusal, answer.word);
        for number in answer.woken {
            out += &format!(" {number}");
        }
        out += "\n";
    }
    Ok(out.into_bytes())
}

/// A random text: near sleeps and far ones, ties, refusals, remarks, and now and then a bad line.
pub fn generate(seed: u64, lines: usize) -> Vec<u8> {
    let mut rng = Rng::new(seed);
    let mut text = String::new();
    let damaged = seed.is_multiple_of(5);
    for i in 0..lines {
        let number = if rng.one_in(12) { rng.below(3) * 9 } else { 1 + rng.below(8) };
        let line = match rng.below(10) {
            0 | 1 => format!("gap {}", rng.pick(&[0, 1, 999_999, 1_000_000, 2_000_000, 500_000])),
            2 => format!(
                "gap {}",
                if rng.one_in(8) {
                    (1u64 << 62) - u64::from(rng.below(3_000_000))
                } else {
                    u64::from(rng.below(5_000_000))
                }
            ),
            3..=5 => {
                let seconds = match rng.below(12) {
                    0 => "-1".to_string(),
                    1 => "2147483647".to_string(),
                    2 => "-2147483648".to_string(),
                    _ => rng.below(4).to_string(),
                };
                format!("ask {number} {seconds}")
            }
            6 | 7 => "tick".to_string(),
            8 => format!("\tend  {number} # gone"),
            _ => rng.pick(&["", "# nothing", "  tick\t", "tick#now"]).to_string(),
        };
        text += &line;
        if damaged && i + 1 == lines - lines / 3 {
            text += rng.pick(&[
                " more",
                "\ngop 1",
                "\nask 1",
                "\nask 1 2147483648",
                "\nend -1",
                "\ngap 18446744073709551616",
                "\nask x 1",
                "\nend 4294967296",
            ]);
        }
        if i + 1 < lines || rng.one_in(2) {
            text += "\n";
        }
    }
    text.into_bytes()
}
