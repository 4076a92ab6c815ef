//! How long the ready wait, in choices: a recount from a log and the lines that a desk printed for it.
//! It keeps its own lines of who is ready and who waits, by what was told, and looks into no desk.

use crate::desk::{Action, Answer, Call, Event, Interrupt, Kind, Mode, SLOTS};
use crate::line::Line;
use crate::log::{Log, LogRefusal};
use std::collections::VecDeque;
use std::fmt::{self, Display};

/// The two ready lines.
#[derive(Clone, Copy, Debug, PartialEq, Eq)]
pub enum Rank {
    High,
    Low,
}

impl Rank {
    pub const BOTH: [Rank; 2] = [Rank::High, Rank::Low];

    /// "a2 mod 256 equal to 1 is high, all else low"
    fn of(a2: u32) -> Self {
        if a2 % 256 == 1 {
            Rank::High
        } else {
            Rank::Low
        }
    }

    /// "a high process that is ready with k before it in its line has been run, or has ended, by the
    /// time 2 × (k + 1) choices have been made; a low one by 5 × (k + 1)"
    pub fn promised(self, k: usize) -> u64 {
        let turns = k as u64 + 1;
        match self {
            Rank::High => 2 * turns,
            Rank::Low => 5 * turns,
        }
    }

    /// What the count of four leaves: of the choices until k + 1 high ones are chosen, a low one gets at
    /// most the first, and one after every four. For a low one no less than the promise is true.
    pub fn sharper(self, k: usize) -> u64 {
        match self {
            Rank::High => k as u64 + 2 + k as u64 / 4,
            Rank::Low => self.promised(k),
        }
    }
}

impl Display for Rank {
    fn fmt(&self, f: &mut fmt::Formatter) -> fmt::Result {
        f.write_str(match self {
            Rank::High => "high",
            Rank::Low => "low",
        })
    }
}

/// Of those that were ready with one k before them, and that were run or ended since.
#[derive(Clone, Copy, Debug, Default, PartialEq, Eq)]
pub struct Seen {
    /// The most choices that one of them waited, from the first moment with this k to the choice that ran it.
    pub longest: u64,
    pub waits: u64,
}

/// What was seen, by line and by k.
#[derive(Debug, Default)]
pub struct Waits {
    pub events: u64,
    /// "A choice is an answer whose action is run": "choices of all processors together".
    pub choices: u64,
    seen: [Vec<Seen>; 2],
}

impl Waits {
    /// Takes a log and the lines printed for it. What cannot be so is told, and so is a promise that was
    /// broken; `lines` then knows the place.
    pub fn log(&mut self, log: Result<Log, LogRefusal>, lines: &mut Lines) -> Result<(), String> {
        let Log { start, events } = match log {
            Ok(log) => log,
            Err(refusal) => return lines.expect(&refusal.to_string()),
        };
        let mut machine = Machine::fresh(self, start.processors);
        for (event, number) in events.zip(1..) {
            match event {
                Ok(event) => machine.line(number, &event, lines.next()?.parse()?)?,
                Err(refusal) => lines.expect(&refusal.to_string())?,
            }
        }
        machine.still_ready()
    }

    pub fn seen(&self, rank: Rank) -> &[Seen] {
        &self.seen[rank as usize]
    }

    fn add(&mut self, rank: Rank, k: usize, choices: u64) {
        let seen = &mut self.seen[rank as usize];
        if seen.len() <= k {
            seen.resize(k + 1, Seen::default());
        }
        seen[k].longest = seen[k].longest.max(choices);
        seen[k].waits += 1;
    }
}

impl Display for Waits {
    fn fmt(&self, f: &mut fmt::Formatter) -> fmt::Result {
        writeln!(f, "{} events, {} choices", self.events, self.choices)?;
        writeln!(f, "line    k promised  sharper  longest      waits")?;
        for rank in Rank::BOTH {
            for (k, Seen { longest, waits }) in self.seen(rank).iter().enumerate() {
                let (promised, sharper) = (rank.promised(k), rank.sharper(k));
                writeln!(f, "{rank:<4} {k:>4} {promised:>8} {sharper:>8} {longest:>8} {waits:>10}")?;
            }
        }
        Ok(())
    }
}

/// The lines of a text, one after the other.
pub struct Lines<'a> {
    rest: &'a str,
    /// Of the line that was asked for last, from 1.
    pub number: usize,
}

impl<'a> Lines<'a> {
    pub fn new(text: &'a str) -> Self {
        Lines { rest: text, number: 0 }
    }

    /// "each ended by a newline"
    fn next(&mut self) -> Result<&'a str, String> {
        self.number += 1;
        if self.rest.is_empty() {
            return Err("the line is missing".to_owned());
        }
        let (line, rest) = self.rest.split_once('\n').ok_or("no newline ends the line")?;
        self.rest = rest;
        Ok(line)
    }

    pub fn expect(&mut self, due: &str) -> Result<(), String> {
        match self.next()? {
            line if line == due => Ok(()),
            line => Err(format!("{line:?}, where {due:?} is due")),
        }
    }

    /// No line may be left.
    pub fn end(&mut self) -> Result<(), String> {
        if self.rest.is_empty() {
            return Ok(());
        }
        self.number += 1;
        Err("a line for which there is no event".to_owned())
    }
}

/// One that is ready.
struct Ready {
    slot: usize,
    /// Each k that it had, with the choices made before the first moment at which it had it. As others
    /// join behind it, k never grows.
    since: Vec<(usize, u64)>,
}

/// What the events and the lines tell of one machine. Its moments are those between the events.
struct Machine<'a> {
    waits: &'a mut Waits,
    /// Who runs, processor by processor.
    running: Vec<Option<usize>>,
    /// The line of whoever lives in a slot.
    living: [Option<Rank>; SLOTS],
    ready: [VecDeque<Ready>; 2],
    /// All who wait, wherever, in the order of waiting: in it a tick wakes its own.
    waiting: Vec<usize>,
}

impl<'a> Machine<'a> {
    /// "Id 1 is low", and "starts on processor 0".
    fn fresh(waits: &'a mut Waits, processors: u8) -> Self {
        let mut living = [None; SLOTS];
        living[0] = Some(Rank::Low);
        let mut running = vec![None; processors.into()];
        running[0] = Some(0);
        Machine { waits, running, living, ready: Default::default(), waiting: Vec::new() }
    }

    fn line(&mut self, number: usize, event: &Event, line: Line) -> Result<(), String> {
        if line.number != number {
            return Err(format!("the line of event {}, where {number} is due", line.number));
        }
        self.waits.events += 1;
        let answer = &line.answer;
        if let Some(refusal) = answer.refusal {
            let alone = *answer == Answer::refused(refusal);
            return if alone { Ok(()) } else { Err("a refusal, and more beside it".to_owned()) };
        }
        let at = usize::from(event.processor);
        match self.running.get(at) {
            None => return Err(format!("processor {at} is not there")),
            Some(None) if event.kind.needs_runner() => {
                return Err(format!("an event of somebody running, and processor {at} is idle"))
            }
            _ => {}
        }
        self.event(at, &event.kind, answer)
    }

    /// An accepted event. All choices up to and with its own are counted before anybody leaves a line.
    fn event(&mut self, at: usize, kind: &Kind, answer: &Answer) -> Result<(), String> {
        self.waits.choices += u64::from(matches!(answer.action, Action::Run(_)));
        self.born(kind, answer)?;
        self.woken(answer.woken)?;
        self.ended(at, answer)?;
        match answer.action {
            Action::On(slot) if gives_up(kind) || answer.ended != 0 => {
                return Err(format!("slot {slot} carries on, and after this event one is chosen"));
            }
            Action::On(slot) | Action::PassUp(slot, _) if self.running[at] != Some(slot) => {
                return Err(format!("slot {slot} does not run on processor {at}"));
            }
            Action::On(_) | Action::PassUp(..) => {}
            Action::None => return Err("neither a refusal nor an action".to_owned()),
            action => {
                self.leaves(at, kind)?;
                self.chosen(at, action)?;
            }
        }
        self.moment();
        Ok(())
    }

    fn born(&mut self, kind: &Kind, answer: &Answer) -> Result<(), String> {
        let Some(slot) = answer.newborn else {
            return Ok(());
        };
        let Kind::Call(Call { mode: Mode::Kernel, a0: -1, a2, .. }) = *kind else {
            return Err(format!("slot {slot} has a newborn, and nobody creates one"));
        };
        if self.living[slot].is_some() {
            return Err(format!("slot {slot} has a newborn, and somebody lives there"));
        }
        self.living[slot] = Some(Rank::of(a2));
        self.joins(slot)
    }

    /// "all who wait for the pseudo-clock go to the ready line, first come first"
    fn woken(&mut self, mask: u64) -> Result<(), String> {
        if let Some(slot) = slots(mask).find(|slot| !self.waiting.contains(slot)) {
            return Err(format!("slot {slot} is woken, and waits nowhere"));
        }
        let (woken, waiting): (Vec<usize>, _) = self.waiting.iter().partition(|&&slot| is_in(mask, slot));
        self.waiting = waiting;
        woken.into_iter().try_for_each(|slot| self.joins(slot))
    }

    /// "Ending a process removes it from its line without changing the order of the others"; "a kill that
    /// ends a process on another processor leaves that one idle and names it"
    fn ended(&mut self, at: usize, answer: &Answer) -> Result<(), String> {
        let mask = answer.ended;
        for slot in slots(mask) {
            self.rank(slot)?;
            self.living[slot] = None;
        }
        self.waiting.retain(|&slot| !is_in(mask, slot));
        for rank in Rank::BOTH {
            let line = std::mem::take(&mut self.ready[rank as usize]);
            let (ended, line): (VecDeque<Ready>, _) = line.into_iter().partition(|one| is_in(mask, one.slot));
            self.ready[rank as usize] = line;
            ended.into_iter().try_for_each(|one| self.waited(rank, &one))?;
        }
        let mut idle = 0u8;
        for (number, runner) in self.running.iter_mut().enumerate() {
            if runner.take_if(|slot| is_in(mask, *slot)).is_some() && number != at {
                idle |= 1 << number;
            }
        }
        if idle != answer.left_idle {
            return Err(format!("processors left idle are {}, and {idle} by who ended", answer.left_idle));
        }
        Ok(())
    }

    /// Whoever ran, and has not ended, goes where its event sends it.
    fn leaves(&mut self, at: usize, kind: &Kind) -> Result<(), String> {
        let Some(slot) = self.running[at].take() else {
            return Ok(());
        };
        match *kind {
            Kind::Call(Call { mode: Mode::Kernel, a0: -3 | -5 | -7, .. }) => self.waiting.push(slot),
            Kind::Call(Call { mode: Mode::Kernel, a0: -2 | -10, .. })
            | Kind::Interrupt(Interrupt { line: 1, .. }) => self.joins(slot)?,
            _ => {
                return Err(format!("slot {slot} does not carry on, and nothing takes the processor from it"))
            }
        }
        Ok(())
    }

    /// Who is run is the first of its line; nobody is run only where nobody is ready. So nobody is left
    /// waiting where "Halt and panic end the count".
    fn chosen(&mut self, at: usize, action: Action) -> Result<(), String> {
        let Action::Run(slot) = action else {
            let first = self.ready.iter().find_map(VecDeque::front);
            return first.map_or(Ok(()), |one| Err(format!("nobody is run, and slot {} is ready", one.slot)));
        };
        let rank = self.rank(slot)?;
        match self.ready[rank as usize].pop_front() {
            Some(one) if one.slot == slot => {
                self.running[at] = Some(slot);
                self.waited(rank, &one)
            }
            Some(one) => {
                Err(format!("slot {slot} is run, and slot {} is first of the {rank} ones", one.slot))
            }
            None => Err(format!("slot {slot} is run, and is not ready")),
        }
    }

    /// To the end of "the line of the process's own priority"
    fn joins(&mut self, slot: usize) -> Result<(), String> {
        let rank = self.rank(slot)?;
        self.ready[rank as usize].push_back(Ready { slot, since: Vec::new() });
        Ok(())
    }

    fn rank(&self, slot: usize) -> Result<Rank, String> {
        self.living[slot].ok_or_else(|| format!("nobody lives in slot {slot}"))
    }

    fn moment(&mut self) {
        let now = self.waits.choices;
        for line in &mut self.ready {
            for (k, one) in line.iter_mut().enumerate() {
                if one.since.last().is_none_or(|&(last, _)| last != k) {
                    one.since.push((k, now));
                }
            }
        }
    }

    /// One is run, or ends: from each k that it had.
    fn waited(&mut self, rank: Rank, one: &Ready) -> Result<(), String> {
        let now = self.waits.choices;
        for &(k, since) in &one.since {
            self.waits.add(rank, k, now - since);
            if now - since > rank.promised(k) {
                return Err(broken(rank, one.slot, k, now - since));
            }
        }
        Ok(())
    }

    /// At the end of the log: one that is still ready will have waited for one choice more.
    fn still_ready(&self) -> Result<(), String> {
        let now = self.waits.choices;
        for rank in Rank::BOTH {
            for one in &self.ready[rank as usize] {
                let late = one.since.iter().find(|&&(k, since)| now - since >= rank.promised(k));
                if let Some(&(k, since)) = late {
                    return Err(broken(rank, one.slot, k, now - since + 1));
                }
            }
        }
        Ok(())
    }
}

fn broken(rank: Rank, slot: usize, k: usize, choices: u64) -> String {
    let promised = rank.promised(k);
    format!(
        "the {rank} one in slot {slot}, with {k} before it, waits {choices} choices: {promised} are promised"
    )
}

/// Whether the event always takes the processor from whoever runs: a P may get through, and a terminate
/// may name nobody.
fn gives_up(kind: &Kind) -> bool {
    match *kind {
        Kind::Call(Call { mode: Mode::Kernel, a0, .. }) => matches!(a0, -5 | -7 | -10),
        Kind::Interrupt(Interrupt { line, .. }) => line == 1,
        _ => false,
    }
}

fn is_in(mask: u64, slot: usize) -> bool {
    mask >> slot & 1 == 1
}

fn slots(mask: u64) -> impl Iterator<Item = usize> {
    (0..SLOTS).filter(move |&slot| is_in(mask, slot))
}

#[cfg(test)]
mod tests;
