//! The pager of 02, (iv), in ordinary Rust: the second reading, which the proved pager is compared with. The swap table is the
//! desk's own, a vector of rows that each event looks at and changes.

use crate::rng::Rng;
use std::collections::BTreeMap;
use std::fmt::Write;

pub const FRAMES: usize = 16;
const U_PROCS: u32 = 8;
pub const MOST_ROWS: usize = 64;

/// A U-proc and an entry of its page table.
type Page = (u8, u8);

#[derive(Clone, Copy, PartialEq, Eq, Debug)]
pub struct Row {
    pub owner: u8,
    pub entry: u8,
}

const FREE: Row = Row { owner: 0, entry: 0 };

#[derive(Clone, Copy)]
pub enum Ask {
    Refill { u: u32, page: u32 },
    Fault { u: u32, page: u32, modification: bool },
    Report { ok: bool },
    End { u: u32 },
    Rows(usize),
    Row(usize, Row),
}

/// What is waited for: the block of a page, into a frame; before that the block of an evicted page may have to be written.
#[derive(Clone, Copy)]
struct Transfer {
    frame: usize,
    wanted: Page,
    evicted: Option<Page>,
}

/// A line's parts: refusal, word, U-proc, entry, frame and mask.
struct Told {
    refusal: u8,
    word: &'static str,
    u: Option<u8>,
    entry: Option<u8>,
    frame: Option<usize>,
    mask: u32,
}

impl Told {
    fn refused(refusal: u8) -> Self {
        Told { refusal, word: "none", u: None, entry: None, frame: None, mask: 0 }
    }

    fn of(word: &'static str, (u, entry): Page, frame: Option<usize>) -> Self {
        Told { refusal: 0, word, u: Some(u), entry: Some(entry), frame, mask: 0 }
    }

    fn uproc(word: &'static str, u: u8, mask: u32) -> Self {
        Told { refusal: 0, word, u: Some(u), entry: None, frame: None, mask }
    }

    fn line(&self, number: usize) -> String {
        let mut line = format!("{number} {} {}", self.refusal, self.word);
        for part in [self.u.map(usize::from), self.entry.map(usize::from), self.frame] {
            match part {
                Some(n) => write!(line, " {n}").unwrap(),
                None => line.push_str(" -"),
            }
        }
        write!(line, " {}", self.mask).unwrap();
        line
    }
}

/// The present pages, each with its frame.
pub struct Pager {
    present: BTreeMap<Page, usize>,
    hand: usize,
    open: Option<Transfer>,
    rows: Vec<Row>,
}

impl Default for Pager {
    fn default() -> Self {
        Pager { present: BTreeMap::new(), hand: 0, open: None, rows: vec![FREE; FRAMES] }
    }
}

fn entry_of(page: u32) -> Option<u8> {
    match page {
        0x80000..=0x8001E => Some((page - 0x80000) as u8),
        0xBFFFF => Some(31),
        _ => None,
    }
}

impl Pager {
    /// The rows name exactly the present pages, each in its frame, and a frame in transfer has a free row.
    fn agrees(&self) -> bool {
        if self.rows.len() != FRAMES {
            return false;
        }
        let mut named = BTreeMap::new();
        for (frame, row) in self.rows.iter().enumerate().filter(|(_, row)| row.owner != 0) {
            if named.insert((row.owner, row.entry), frame).is_some() {
                return false;
            }
        }
        named == self.present && self.open.is_none_or(|open| self.rows[open.frame].owner == 0)
    }

    /// The answer's line, or none for what only changes the table.
    pub fn take(&mut self, ask: Ask, number: usize) -> Option<String> {
        let told = match ask {
            Ask::Rows(length) => {
                self.rows.resize(length, FREE);
                return None;
            }
            Ask::Row(frame, row) => {
                if frame < self.rows.len() {
                    self.rows[frame] = row;
                }
                return None;
            }
            Ask::Refill { u, page } => self.for_uproc(u, |pager, u| pager.refill(u, page)),
            Ask::Fault { u, page, modification } => {
                self.for_uproc(u, |pager, u| pager.fault(u, page, modification))
            }
            Ask::End { u } => self.for_uproc(u, Pager::end),
            Ask::Report { ok } if self.agrees() => match self.open {
                Some(transfer) => self.report(transfer, ok),
                None => Told::refused(11),
            },
            Ask::Report { .. } => Told::refused(12),
        };
        Some(told.line(number))
    }

    /// 9, then 12, then 11.
    fn for_uproc(&mut self, u: u32, then: impl FnOnce(&mut Self, u8) -> Told) -> Told {
        if u == 0 || u > U_PROCS {
            return Told::refused(9);
        }
        if !self.agrees() {
            return Told::refused(12);
        }
        if self.open.is_some() {
            return Told::refused(11);
        }
        then(self, u as u8)
    }

    fn refill(&mut self, u: u8, page: u32) -> Told {
        match entry_of(page) {
            Some(entry) => Told::of("entry", (u, entry), self.present.get(&(u, entry)).copied()),
            None => Told::uproc("trap", u, 0),
        }
    }

    fn fault(&mut self, u: u8, page: u32, modification: bool) -> Told {
        let Some(entry) = entry_of(page).filter(|_| !modification) else {
            return Told::uproc("trap", u, 0);
        };
        if let Some(&frame) = self.present.get(&(u, entry)) {
            return Told::of("refresh", (u, entry), Some(frame));
        }
        if let Some(frame) = self.rows.iter().position(|row| row.owner == 0) {
            self.open = Some(Transfer { frame, wanted: (u, entry), evicted: None });
            return Told::of("read", (u, entry), Some(frame));
        }
        let frame = self.hand;
        self.hand = (self.hand + 1) % FRAMES;
        let old = (self.rows[frame].owner, self.rows[frame].entry);
        self.present.remove(&old);
        self.rows[frame] = FREE;
        self.open = Some(Transfer { frame, wanted: (u, entry), evicted: Some(old) });
        Told::of("write", old, Some(frame))
    }

    fn seat(&mut self, (owner, entry): Page, frame: usize) {
        self.present.insert((owner, entry), frame);
        self.rows[frame] = Row { owner, entry };
    }

    fn report(&mut self, transfer: Transfer, ok: bool) -> Told {
        let Transfer { frame, wanted, evicted } = transfer;
        match (evicted, ok) {
            (Some(_), true) => {
                self.open = Some(Transfer { evicted: None, ..transfer });
                return Told::of("read", wanted, Some(frame));
            }
            (Some(old), false) => self.seat(old, frame),
            (None, true) => self.seat(wanted, frame),
            (None, false) => {}
        }
        self.open = None;
        if ok {
            Told::of("resume", wanted, Some(frame))
        } else {
            Told::uproc("trap", wanted.0, 0)
        }
    }

    fn end(&mut self, u: u8) -> Told {
        let mut mask = 0;
        for (frame, row) in self.rows.iter_mut().enumerate().filter(|(_, row)| row.owner == u) {
            mask |= 1 << frame;
            *row = FREE;
        }
        self.present.retain(|&(owner, _), _| owner != u);
        Told::uproc("freed", u, mask)
    }
}

/// What a line asks; an empty line or a remark asks nothing. The tests' texts have good lines alone.
pub fn parse(line: &str) -> Result<Option<Ask>, String> {
    let line = line.split('#').next().unwrap_or("");
    let words: Vec<&str> = line.split([' ', '\t']).filter(|word| !word.is_empty()).collect();
    let number = |word: &str| match word.strip_prefix("0x") {
        Some(digits) => u32::from_str_radix(digits, 16).map_err(|error| format!("'{word}': {error}")),
        None => word.parse::<u32>().map_err(|error| format!("'{word}': {error}")),
    };
    let ask = match *words.as_slice() {
        [] => return Ok(None),
        ["refill", u, page] => Ask::Refill { u: number(u)?, page: number(page)? },
        ["fault", u, page, cause @ ("load" | "store" | "mod")] => {
            Ask::Fault { u: number(u)?, page: number(page)?, modification: cause == "mod" }
        }
        ["report", outcome @ ("ok" | "failed")] => Ask::Report { ok: outcome == "ok" },
        ["end", u] => Ask::End { u: number(u)? },
        ["rows", length] => Ask::Rows(number(length)? as usize),
        ["row", frame, owner, entry] => Ask::Row(
            number(frame)? as usize,
            Row { owner: number(owner)? as u8, entry: number(entry)? as u8 },
        ),
        _ => return Err(format!("'{line}' asks nothing known")),
    };
    Ok(Some(ask))
}

/// The lines that the pager writes for a text of events.
pub fn answers(text: &str) -> Result<String, String> {
    let mut pager = Pager::default();
    let mut out = String::new();
    let mut number = 0;
    for line in text.lines() {
        let Some(ask) = parse(line)? else { continue };
        if let Some(answer) = pager.take(ask, number + 1) {
            number += 1;
            writeln!(out, "{answer}").unwrap();
        }
    }
    Ok(out)
}

/// A random text of `length` events: storms of faults by all eight, failed transfers, ends in mid-transfer, tables at odds.
pub fn text(seed: u64, length: usize) -> String {
    let mut rng = Rng::new(seed);
    let mut out = String::new();
    // How many pages each U-proc touches: few give refreshes, many give evictions.
    let pages = rng.pick(&[1, 2, 4, 16, 32]);
    let failures = rng.pick(&[2, 4, 12, 1000]);
    let odd_rows = rng.pick(&[0, 0, 30]);
    for _ in 0..length {
        let line = match rng.below(20) {
            0 => format!("end {}", uproc(&mut rng)),
            1 | 2 => format!("refill {} {}", uproc(&mut rng), page(&mut rng, pages)),
            3..=10 => format!("report {}", if rng.one_in(failures) { "failed" } else { "ok" }),
            _ => {
                let cause = rng.pick(&["load", "store", "load", "store", "load", "store", "load", "mod"]);
                format!("fault {} {} {cause}", uproc(&mut rng), page(&mut rng, pages))
            }
        };
        writeln!(out, "{line}").unwrap();
        if odd_rows > 0 && rng.one_in(odd_rows) {
            damage(&mut rng, &mut out);
        }
    }
    out
}

fn uproc(rng: &mut Rng) -> String {
    if rng.one_in(40) {
        return rng.pick(&["0", "9", "4294967295", "0x10"]).to_string();
    }
    (1 + rng.below(U_PROCS)).to_string()
}

fn page(rng: &mut Rng, pages: u32) -> String {
    match rng.below(40) {
        0 => rng.pick(&["0x7FFFF", "0x8001F", "0xBFFFE", "0xC0000", "0", "4294967295"]).to_string(),
        1..=4 => rng.pick(&["0xBFFFF", "786431", "0x8001E", "0x80000"]).to_string(),
        _ => format!("{:#x}", 0x80000 + rng.below(pages.min(31))),
    }
}

/// The lent table is changed behind the pager's back, sometimes only for an event.
fn damage(rng: &mut Rng, out: &mut String) {
    match rng.below(4) {
        0 => {
            writeln!(out, "rows {}\nreport ok\nrows 16", rng.pick(&[0, 1, 15, 17, 64])).unwrap();
        }
        1 => {
            let frame = rng.index(FRAMES);
            writeln!(out, "row {frame} 0 {}", rng.below(32)).unwrap();
        }
        2 => {
            let frame = rng.index(FRAMES + 2);
            writeln!(out, "row {frame} {} {}", 1 + rng.below(9), rng.below(33)).unwrap();
        }
        _ => {
            let (u, frame) = (1 + rng.below(8), rng.index(FRAMES));
            writeln!(out, "end {u}\nrow {frame} {u} 3\nfault {u} 0x80003 load\nrow {frame} 0 0").unwrap();
        }
    }
}

#[cfg(test)]
mod tests {
    use super::*;

    #[test]
    fn one_page() {
        let lines =
            answers("refill 1 0x80000\nfault 1 0x80000 load\nreport ok\nrefill 1 524288\nend 1\n").unwrap();
        assert_eq!(
            lines,
            "1 0 entry 1 0 - 0\n2 0 read 1 0 0 0\n3 0 resume 1 0 0 0\n4 0 entry 1 0 0 0\n5 0 freed 1 - - 1\n"
        );
    }

    #[test]
    fn a_short_table() {
        let lines = answers("rows 15\nend 9\nreport ok\nrows 16\nreport ok\n").unwrap();
        assert_eq!(lines, "1 9 none - - - 0\n2 12 none - - - 0\n3 11 none - - - 0\n");
    }
}
