//! The machine: its tables, and what it answers to an event.

use crate::ready::Ready;
use std::collections::VecDeque;

pub const SLOTS: usize = 64;
pub const SEMAPHORES: usize = 32;
pub const SUB_DEVICES: usize = 48;
pub const CUSTOMERS: usize = 9;
pub const PROCESSORS: usize = 8;
/// "49 nucleus waiting lines: 48 sub-devices and the pseudo-clock."
const NUCLEUS_LINES: usize = SUB_DEVICES + 1;
const PSEUDO_CLOCK: usize = SUB_DEVICES;
pub const VALUE_MAX: u32 = 2_147_483_647;
pub const ID_MAX: u32 = 2_147_483_647;
pub const GAP_MAX: u32 = 2_147_483_647;
pub const TOTAL_MAX: u64 = 1 << 62;

#[derive(Clone, Copy, Debug, PartialEq, Eq)]
pub enum Mode {
    User,
    Kernel,
}

#[derive(Clone, Copy, Debug, PartialEq, Eq)]
pub struct Call {
    pub mode: Mode,
    pub a0: i32,
    pub a1: u32,
    pub a2: u32,
    pub a3: u32,
}

#[derive(Clone, Copy, Debug, PartialEq, Eq)]
pub struct Interrupt {
    pub line: u8,
    pub first: u8,
    pub second: u8,
}

#[derive(Clone, Copy, Debug, PartialEq, Eq)]
pub enum Kind {
    Call(Call),
    Interrupt(Interrupt),
    Exception { code: u8 },
}

#[derive(Clone, Copy, Debug, PartialEq, Eq)]
pub struct Event {
    pub clock: u32,
    /// "Each event names its processor."
    pub processor: u8,
    pub kind: Kind,
}

/// "When the desk says no": the numbers of the table.
#[derive(Clone, Copy, Debug, PartialEq, Eq)]
pub enum Refusal {
    Over = 1,
    ClockBack = 2,
    TotalFull = 3,
    NobodyRunning = 4,
    BadInterrupt = 5,
    BadException = 6,
    NoSuchProcessor = 7,
}

#[derive(Clone, Copy, Debug, PartialEq, Eq)]
pub enum PassUp {
    Tlb,
    General,
}

#[derive(Clone, Copy, Debug, PartialEq, Eq)]
pub enum Action {
    On(usize),
    Run(usize),
    Wait,
    Halt,
    Panic,
    PassUp(usize, PassUp),
    None,
}

#[derive(Clone, Copy, Debug, PartialEq, Eq)]
pub struct Answer {
    pub refusal: Option<Refusal>,
    pub action: Action,
    pub result: Option<i64>,
    pub newborn: Option<usize>,
    pub sub_device: Option<usize>,
    pub woken: u64,
    pub ended: u64,
    /// The other processors that a kill left idle, bit n for processor n.
    pub left_idle: u8,
}

impl Answer {
    fn new(action: Action) -> Self {
        Answer {
            refusal: None,
            action,
            result: None,
            newborn: None,
            sub_device: None,
            woken: 0,
            ended: 0,
            left_idle: 0,
        }
    }

    pub(crate) fn refused(refusal: Refusal) -> Self {
        Answer { refusal: Some(refusal), ..Answer::new(Action::None) }
    }

    fn result(action: Action, result: i64) -> Self {
        Answer { result: Some(result), ..Answer::new(action) }
    }

    /// A terminate with a valid target whose caller lives on: no other answer has an end and a result.
    pub(crate) fn killer_survives(&self) -> bool {
        self.ended != 0 && self.result.is_some()
    }
}

/// "each has its own last clock reading, running process and idle time"
#[derive(Clone, Debug, PartialEq, Eq)]
pub(crate) struct Processor {
    pub(crate) running: Option<usize>,
    pub(crate) clock: u32,
    pub(crate) idle: u64,
}

/// What a kill ended, and the processors that it took somebody from.
struct Ended {
    slots: u64,
    processors: u8,
}

/// Where a process that isn't running stands.
#[derive(Clone, Copy, Debug, PartialEq, Eq)]
enum Line {
    High,
    Low,
    Semaphore(usize),
    Nucleus(usize),
}

#[derive(Clone, Debug, PartialEq, Eq)]
pub(crate) struct Process {
    pub(crate) id: u32,
    /// The parent's id, 0 for id 1.
    pub(crate) parent: u32,
    /// All of a2.
    priority: u32,
    /// The support handle, 0 for none.
    pub(crate) handle: u32,
    pub(crate) customer: usize,
    time: u64,
    /// Nothing while it runs.
    line: Option<Line>,
}

/// Why a start is refused.
#[derive(Clone, Copy, Debug, PartialEq, Eq)]
pub enum StartRefusal {
    ValueTooLarge = 24,
    BadCeilings = 27,
    BadProcessors = 29,
}

#[derive(Clone, Debug, PartialEq, Eq)]
pub struct Desk {
    slots: [Option<Process>; SLOTS],
    /// How many of each customer may be alive.
    pub(crate) ceilings: [u16; CUSTOMERS],
    pub(crate) processors: Vec<Processor>,
    pub(crate) ready: Ready,
    pub(crate) values: [u32; SEMAPHORES],
    pub(crate) semaphores: [VecDeque<usize>; SEMAPHORES],
    pub(crate) nucleus: [VecDeque<usize>; NUCLEUS_LINES],
    pub(crate) last_id: u32,
    /// The sum of accepted gaps, of all processors.
    total: u64,
    ended_time: u64,
    /// Halted or panicked.
    pub(crate) over: bool,
}

impl Desk {
    /// "Id 1 is then running in slot 0, with no parent and no support handle." "Id 1 starts on
    /// processor 0, all clocks at the start's."
    pub fn fresh(
        clock: u32,
        values: [u32; SEMAPHORES],
        ceilings: [u16; CUSTOMERS],
        processors: u8,
    ) -> Result<Self, StartRefusal> {
        allow(&values, &ceilings, processors)?;
        let first = |number| (number == 0).then_some(0);
        let mut desk = Desk {
            slots: std::array::from_fn(|_| None),
            ceilings,
            processors: (0..processors)
                .map(|number| Processor { running: first(number), clock, idle: 0 })
                .collect(),
            ready: Ready::default(),
            values,
            semaphores: Default::default(),
            nucleus: std::array::from_fn(|_| VecDeque::new()),
            last_id: 1,
            total: 0,
            ended_time: 0,
            over: false,
        };
        desk.slots[0] =
            Some(Process { id: 1, parent: 0, priority: 0, handle: 0, customer: 0, time: 0, line: None });
        Ok(desk)
    }

    /// What stands beside a refused start: "the machine left when the start with the least
    /// numbers allowed ends its id 1 at once (call −2, clock unchanged)".
    pub fn refused() -> Self {
        let least = [1, 0, 0, 0, 0, 0, 0, 0, 0];
        let mut desk = Desk::fresh(0, [0; SEMAPHORES], least, 1).expect("the least is allowed");
        desk.terminate(0, 0, 0);
        desk
    }

    /// Takes one event: refused, it leaves the machine as it was.
    pub fn event(&mut self, event: &Event) -> Answer {
        if let Some(refusal) = self.refusal(event) {
            return Answer::refused(refusal);
        }
        let at = usize::from(event.processor);
        self.charge(at, event.clock);
        match event.kind {
            Kind::Call(call) => self.call(at, call),
            Kind::Interrupt(interrupt) => self.interrupt(at, interrupt),
            Kind::Exception { code: 24..=28 } => self.pass_up_or_die(at, PassUp::Tlb),
            Kind::Exception { .. } => self.trap(at),
        }
    }

    /// "Checked in the order of the rows; the first that applies is given." "A processor number out
    /// of range is refused with 7, after 1; refusals 2 and 4 speak of the named processor, 3 of all
    /// gaps together."
    fn refusal(&self, event: &Event) -> Option<Refusal> {
        if self.over {
            return Some(Refusal::Over);
        }
        let Some(processor) = self.processors.get(usize::from(event.processor)) else {
            return Some(Refusal::NoSuchProcessor);
        };
        let kind = &event.kind;
        let gap = event.clock.wrapping_sub(processor.clock);
        if matches!(kind, Kind::Interrupt(interrupt) if !interrupt.is_known()) {
            Some(Refusal::BadInterrupt)
        } else if matches!(kind, Kind::Exception { code: 8 | 11 | 29.. }) {
            Some(Refusal::BadException)
        } else if gap > GAP_MAX {
            Some(Refusal::ClockBack)
        } else if self.total + u64::from(gap) > TOTAL_MAX {
            Some(Refusal::TotalFull)
        } else if processor.running.is_none() && kind.needs_runner() {
            Some(Refusal::NobodyRunning)
        } else {
            None
        }
    }

    /// "A gap is charged, before anything else, to whoever was running, else to idle": "on that
    /// processor when the event comes".
    fn charge(&mut self, at: usize, now: u32) {
        let processor = &mut self.processors[at];
        let gap = u64::from(now.wrapping_sub(processor.clock));
        processor.clock = now;
        self.total += gap;
        match processor.running {
            Some(slot) => self.process_mut(slot).time += gap,
            None => processor.idle += gap,
        }
    }

    // Calls.

    fn call(&mut self, at: usize, call: Call) -> Answer {
        let caller = self.runner(at);
        let Call { a1, a2, a3, .. } = call;
        let number = a1 as usize;
        let on = Action::On(caller);
        match call.a0 {
            1.. => self.pass_up_or_die(at, PassUp::General),
            _ if call.mode == Mode::User => self.trap(at),
            -1 => self.create(caller, a2, a3),
            -2 => self.terminate(at, caller, a1),
            -3 if number < SEMAPHORES => self.p(at, caller, number),
            -4 if number < SEMAPHORES && self.values[number] < VALUE_MAX => self.v(caller, number),
            -5 if number < SUB_DEVICES => {
                Answer { sub_device: Some(number), ..self.leave(at, Line::Nucleus(number)) }
            }
            -6 => Answer::result(on, self.process(caller).time as i64),
            -7 => self.leave(at, Line::Nucleus(PSEUDO_CLOCK)),
            -8 => Answer::result(on, self.process(caller).handle.into()),
            -9 if a1 == 0 => Answer::result(on, self.process(caller).id.into()),
            -9 => Answer::result(on, self.process(caller).parent.into()),
            -10 => self.goes_behind(at),
            _ => self.trap(at),
        }
    }

    /// "−1 exactly when the child's customer is at its ceiling, the named customer is above 8, or
    /// ids have run out"
    fn create(&mut self, caller: usize, priority: u32, handle: u32) -> Answer {
        let action = Action::On(caller);
        let customer = self.child_customer(caller, priority);
        if customer >= CUSTOMERS || self.at_ceiling(customer) || self.last_id == ID_MAX {
            return Answer::result(action, -1);
        }
        let slot = self.slots.iter().position(Option::is_none).expect("the ceilings leave a slot free");
        self.last_id += 1;
        self.slots[slot] = Some(Process {
            id: self.last_id,
            parent: self.process(caller).id,
            priority,
            handle,
            customer,
            time: 0,
            line: None,
        });
        self.becomes_ready(slot);
        Answer { newborn: Some(slot), ..Answer::result(action, self.last_id.into()) }
    }

    /// "a1 = 0 means the caller, otherwise an id." Any other than one that may be named gives −1. "a
    /// surviving caller with a valid target goes to the end of its ready line with result 0, then
    /// schedule"
    fn terminate(&mut self, at: usize, caller: usize, id: u32) -> Answer {
        let named = if id == 0 { Some(caller) } else { self.find(id) };
        let Some(slot) = named.filter(|&slot| self.may_name(caller, slot)) else {
            return Answer::result(Action::On(caller), -1);
        };
        let ended = self.end(slot);
        let answer = match self.processors[at].running {
            Some(_) => Answer { result: Some(0), ..self.goes_behind(at) },
            None => Answer::new(self.schedule(at)),
        };
        ended.tell(at, answer)
    }

    /// "only the caller itself or its own descendants; customer 0 may still name anyone"
    pub(crate) fn may_name(&self, caller: usize, slot: usize) -> bool {
        let caller = self.process(caller);
        caller.customer == 0 || self.descent(self.process(slot)).any(|process| process.id == caller.id)
    }

    fn p(&mut self, at: usize, caller: usize, number: usize) -> Answer {
        if self.values[number] == 0 {
            return self.leave(at, Line::Semaphore(number));
        }
        self.values[number] -= 1;
        Answer::new(Action::On(caller))
    }

    fn v(&mut self, caller: usize, number: usize) -> Answer {
        let woken = self.wake(Line::Semaphore(number));
        if woken == 0 {
            self.values[number] += 1;
        }
        Answer { woken, ..Answer::new(Action::On(caller)) }
    }

    fn trap(&mut self, at: usize) -> Answer {
        self.pass_up_or_die(at, PassUp::General)
    }

    /// "with no support handle the running process and its descendants end, and schedule"
    fn pass_up_or_die(&mut self, at: usize, kind: PassUp) -> Answer {
        let slot = self.runner(at);
        if self.process(slot).handle != 0 {
            return Answer::new(Action::PassUp(slot, kind));
        }
        let ended = self.end(slot);
        ended.tell(at, Answer::new(self.schedule(at)))
    }

    // Interrupts.

    /// "A wake on one processor doesn't start an idle one; an interrupt of lines 2 to 7 there does."
    fn interrupt(&mut self, at: usize, interrupt: Interrupt) -> Answer {
        let (woken, sub_device) = match interrupt.line {
            1 => return self.goes_behind(at),
            2 => (self.wake_all(Line::Nucleus(PSEUDO_CLOCK)), None),
            _ => {
                let number = interrupt.sub_device();
                (self.wake(Line::Nucleus(number)), Some(number))
            }
        };
        let action = match self.processors[at].running {
            Some(slot) => Action::On(slot),
            None => self.schedule(at),
        };
        Answer { woken, sub_device, ..Answer::new(action) }
    }

    // Lines and the scheduler.

    /// Whoever is chosen runs. "If the line is empty: nobody alive, halt; someone waiting on a
    /// nucleus line, wait; otherwise panic." "With the ready lines empty and someone alive, a
    /// processor waits also when another is running somebody; panic needs that nobody runs anywhere."
    fn schedule(&mut self, at: usize) -> Action {
        let next = self.ready.choose();
        self.processors[at].running = next;
        if let Some(slot) = next {
            self.process_mut(slot).line = None;
            Action::Run(slot)
        } else if self.alive() == 0 {
            self.over = true;
            Action::Halt
        } else if self.nucleus.iter().any(|line| !line.is_empty()) || self.runners().next().is_some() {
            Action::Wait
        } else {
            self.over = true;
            Action::Panic
        }
    }

    /// The running process goes to the end of its ready line, then schedule.
    fn goes_behind(&mut self, at: usize) -> Answer {
        self.leave(at, self.ready_line(self.runner(at)))
    }

    /// The running process goes to the end of a line, then schedule.
    fn leave(&mut self, at: usize, line: Line) -> Answer {
        let slot = self.runner(at);
        self.processors[at].running = None;
        self.join(slot, line);
        Answer::new(self.schedule(at))
    }

    fn becomes_ready(&mut self, slot: usize) {
        self.join(slot, self.ready_line(slot));
    }

    /// "the ready line" becomes "the line of the process's own priority"
    fn ready_line(&self, slot: usize) -> Line {
        if self.process(slot).is_high() {
            Line::High
        } else {
            Line::Low
        }
    }

    fn join(&mut self, slot: usize, line: Line) {
        self.process_mut(slot).line = Some(line);
        self.line_mut(line).push_back(slot);
    }

    /// The first in the line goes to the end of its ready line; the mask names it.
    fn wake(&mut self, line: Line) -> u64 {
        let Some(slot) = self.line_mut(line).pop_front() else {
            return 0;
        };
        self.becomes_ready(slot);
        1 << slot
    }

    fn wake_all(&mut self, line: Line) -> u64 {
        let mut woken = 0;
        while !self.line_mut(line).is_empty() {
            woken |= self.wake(line);
        }
        woken
    }

    /// Ends a process and all its descendants; the masks name them and their processors. "Ending a
    /// process removes it from its line without changing the order of the others or any
    /// semaphore's value."
    fn end(&mut self, slot: usize) -> Ended {
        let mut ended = Ended { slots: 1 << slot, processors: 0 };
        let process = self.slots[slot].take().expect("only the living end");
        match process.line {
            Some(line) => self.line_mut(line).retain(|&other| other != slot),
            None => ended.processors = self.leave_idle(slot),
        }
        self.ended_time += process.time;
        for other in 0..SLOTS {
            if matches!(&self.slots[other], Some(child) if child.parent == process.id) {
                let more = self.end(other);
                ended.slots |= more.slots;
                ended.processors |= more.processors;
            }
        }
        ended
    }

    /// Takes a process from the processor that runs it; the mask names that one.
    fn leave_idle(&mut self, slot: usize) -> u8 {
        let runs_it = |processor: &Processor| processor.running == Some(slot);
        let at = self.processors.iter().position(runs_it).expect("who stands in no line runs");
        self.processors[at].running = None;
        1 << at
    }

    fn line_mut(&mut self, line: Line) -> &mut VecDeque<usize> {
        match line {
            Line::High => &mut self.ready.high,
            Line::Low => &mut self.ready.low,
            Line::Semaphore(number) => &mut self.semaphores[number],
            Line::Nucleus(number) => &mut self.nucleus[number],
        }
    }

    fn process_mut(&mut self, slot: usize) -> &mut Process {
        self.slots[slot].as_mut().expect("lines hold the living")
    }

    fn runner(&self, at: usize) -> usize {
        self.processors[at].running.expect("refusal 4 comes before")
    }

    // What the generator and the counts look at.

    /// Who runs, processor by processor.
    pub(crate) fn runners(&self) -> impl Iterator<Item = usize> + '_ {
        self.processors.iter().filter_map(|processor| processor.running)
    }

    /// Who runs on the processor that an event names, if there is one.
    pub(crate) fn running_at(&self, processor: u8) -> Option<usize> {
        self.processors.get(usize::from(processor))?.running
    }

    pub(crate) fn process(&self, slot: usize) -> &Process {
        self.slots[slot].as_ref().expect("lines hold the living")
    }

    pub(crate) fn find(&self, id: u32) -> Option<usize> {
        let named = |entry: &Option<Process>| matches!(entry, Some(process) if process.id == id);
        self.slots.iter().position(named)
    }

    /// A process, its parent, and so on up to id 1.
    pub(crate) fn descent<'a>(&'a self, process: &'a Process) -> impl Iterator<Item = &'a Process> {
        let parent = |child: &&Process| self.find(child.parent).map(|slot| self.process(slot));
        std::iter::successors(Some(process), parent)
    }

    pub(crate) fn living(&self) -> impl Iterator<Item = &Process> {
        self.slots.iter().flatten()
    }

    pub(crate) fn alive(&self) -> usize {
        self.living().count()
    }

    /// "A child has its parent's customer, but when customer 0 creates, a2 / 256 names the
    /// child's."
    pub(crate) fn child_customer(&self, caller: usize, a2: u32) -> usize {
        match self.process(caller).customer {
            0 => (a2 / 256) as usize,
            own => own,
        }
    }

    pub(crate) fn living_of(&self, customer: usize) -> usize {
        self.living().filter(|process| process.customer == customer).count()
    }

    pub(crate) fn at_ceiling(&self, customer: usize) -> bool {
        self.living_of(customer) >= self.ceilings[customer].into()
    }
}

impl Process {
    /// "a2 mod 256 equal to 1 is high, all else low"
    pub(crate) fn is_high(&self) -> bool {
        self.priority % 256 == 1
    }
}

impl Ended {
    /// The masks beside an answer: "a kill that ends a process on another processor leaves that one
    /// idle and names it". The event's own processor schedules, and isn't named.
    fn tell(&self, at: usize, answer: Answer) -> Answer {
        Answer { ended: self.slots, left_idle: self.processors & !(1 << at), ..answer }
    }
}

/// "ceiling 0 is at least 1, and they may not sum above 20, else refusal 27 after 24"; now
/// "ceilings may sum to 64"; processors: "0 or above 8 is refused with 29, after 27"
pub fn allow(
    values: &[u32; SEMAPHORES],
    ceilings: &[u16; CUSTOMERS],
    processors: u8,
) -> Result<(), StartRefusal> {
    let sum: usize = ceilings.iter().map(|&ceiling| usize::from(ceiling)).sum();
    if values.iter().any(|&value| value > VALUE_MAX) {
        Err(StartRefusal::ValueTooLarge)
    } else if ceilings[0] == 0 || sum > SLOTS {
        Err(StartRefusal::BadCeilings)
    } else if !(1..=PROCESSORS).contains(&usize::from(processors)) {
        Err(StartRefusal::BadProcessors)
    } else {
        Ok(())
    }
}

impl Kind {
    /// "call, exception or line 1 while nobody is running"
    pub(crate) fn needs_runner(&self) -> bool {
        match self {
            Kind::Call(_) | Kind::Exception { .. } => true,
            Kind::Interrupt(interrupt) => interrupt.line == 1,
        }
    }
}

impl Interrupt {
    /// Refusal 5 is for the others: "line not 1 to 7; or line 3 to 6 with first byte zero; or line
    /// 7 with both zero".
    fn is_known(&self) -> bool {
        match self.line {
            1 | 2 => true,
            3..=6 => self.first != 0,
            7 => self.first != 0 || self.second != 0,
            _ => false,
        }
    }

    /// "the lowest pending device number; on line 7 transmission before receipt of that device"
    fn sub_device(&self) -> usize {
        if self.line < 7 {
            let device = self.first.trailing_zeros() as usize;
            return (usize::from(self.line) - 3) * 8 + device;
        }
        let device = (self.first | self.second).trailing_zeros() as usize;
        let transmission = self.first >> device & 1 == 1;
        device + if transmission { 32 } else { 40 }
    }
}

#[cfg(test)]
mod tests;
