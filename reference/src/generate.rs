//! Random logs that are interesting at every moment: the generator runs the desk beside it and
//! looks at its tables before it writes the next event.

use crate::desk::{
    Call, Desk, Event, Interrupt, Kind, Mode, CUSTOMERS, GAP_MAX, ID_MAX, PROCESSORS, SEMAPHORES, SLOTS,
    SUB_DEVICES, VALUE_MAX,
};
use crate::kin::Kin;
use crate::log::{Start, MAX_BYTES};
use crate::rng::Rng;

mod alarms;

/// What the next event is about.
type Topic = fn(&mut Generator) -> Kind;

/// How often a topic comes up in logs, where much goes wrong, and in streams: a busy gateway.
const MIX: [(Topic, u32, u32); 20] = [
    (Generator::create, 14, 45),
    (|g| g.kernel(-2, Generator::target), 12, 25),
    (|g| g.p_or_v(-3), 14, 160),
    (|g| g.p_or_v(-4), 12, 150),
    (|g| g.kernel(-5, Generator::io_device), 9, 140),
    (|g| g.kernel(-6, Generator::few), 3, 50),
    (|g| g.kernel(-7, Generator::few), 4, 40),
    (|g| g.kernel(-8, Generator::few), 2, 20),
    (|g| g.kernel(-9, Generator::few), 3, 30),
    (Generator::yields, 4, 40),
    (Generator::user_call, 2, 2),
    (Generator::unknown_call, 3, 2),
    (Generator::passed_up, 2, 60),
    (Generator::slice_end, 4, 40),
    (Generator::tick, 4, 40),
    (Generator::device, 12, 170),
    (Generator::odd_line, 3, 2),
    (Generator::trap, 2, 4),
    (|g| exception(24 + g.rng.below(5) as u8), 2, 10),
    (Generator::odd_code, 2, 2),
];

/// How a family fills the table: all of them children of one, or each the child of the one before.
#[derive(Clone, Copy, PartialEq, Eq)]
enum Family {
    Broad,
    Deep,
}

/// The events of a log or a stream, without end, after `start`.
pub struct Generator {
    pub start: Start,
    rng: Rng,
    desk: Desk,
    mix: Vec<(Topic, u32)>,
    stream: bool,
    /// The processor of the event in the making.
    at: u8,
    /// The few semaphores and sub-devices that are mostly used.
    semaphores: [u32; 4],
    devices: [u32; 5],
    /// So many events come before one that ends the machine.
    careful: usize,
    /// So many turns, after a kill that its caller survived, show who is behind whom.
    turns: usize,
    /// Creates follow that name this customer, until one is denied.
    flood: Option<u32>,
    /// The table fills with one family, until nobody has room.
    family: Option<Family>,
    /// So many newborns in eight are high.
    alarms: u32,
    /// So many events lead to a wait with four counted (`last_stand`).
    stand: usize,
}

/// The log of a seed: `count` events, or as many as 65,536 bytes hold.
pub fn log(seed: u64, count: usize) -> Vec<u8> {
    let mut generator = Generator::log(seed, count);
    let mut bytes = generator.start.to_field();
    for _ in 0..count {
        let field = generator.event().to_field();
        if bytes.len() + field.len() > MAX_BYTES {
            break;
        }
        bytes.extend(field);
    }
    bytes
}

impl Generator {
    /// Most machines live until shortly before the end of the log; one in eight may end anywhere.
    fn log(seed: u64, count: usize) -> Self {
        let mut generator = Generator::stream(seed);
        generator.stream = false;
        let rng = &mut generator.rng;
        generator.careful = match rng.below(8) {
            0 => rng.index(count + 1),
            _ => count.saturating_sub(rng.index(32)),
        };
        // Each log has its own mix, and may lack some topics, but it creates.
        generator.mix = MIX.map(|(topic, often, _)| (topic, often * rng.below(4))).to_vec();
        generator.mix.push((MIX[0].0, 4));
        // A table for customer 0 alone, one that never fills, or one that does.
        let fewer = 1 + rng.index(SLOTS);
        generator.start.ceilings = match rng.below(5) {
            0 => [SLOTS as u16, 0, 0, 0, 0, 0, 0, 0, 0],
            1 => ceilings(rng, fewer),
            _ => ceilings(rng, SLOTS),
        };
        // One log in three begins with a table that fills: without it 64 slots seldom are taken.
        generator.family = rng.pick(&[None, None, None, None, Some(Family::Broad), Some(Family::Deep)]);
        generator.alarms = rng.pick(&[0, 1, 2, 3, 4, 4, 6, 7]);
        generator.desk = generator.start.desk();
        generator
    }

    /// A recorded stream: its machine never ends, and its table is full at first.
    pub fn stream(seed: u64) -> Self {
        let mut rng = Rng::new(seed);
        let first = rng.below(SEMAPHORES as u32);
        let semaphores = [0, 7, 19, 31].map(|step| (first + step) % SEMAPHORES as u32);
        let near = [[0, 0, 0], [0, 1, 2], [1, 2, 3], [VALUE_MAX, VALUE_MAX - 1, VALUE_MAX - 2]];
        let mut values = [0; SEMAPHORES].map(|_| rng.pick(&[0, 0, 1, 2, 3, VALUE_MAX]));
        for (number, among) in semaphores.into_iter().zip(near) {
            values[number as usize] = rng.pick(&among);
        }
        let terminal = rng.below(8);
        let devices = [rng.below(32), rng.below(32), rng.below(48), 32 + terminal, 40 + terminal];
        let clock = rng.word();
        let clock = rng.pick(&[0, 1000, clock, u32::MAX - clock % 4096]);
        let ceilings = ceilings(&mut rng, SLOTS);
        let any = 1 + rng.index(PROCESSORS) as u8;
        let processors = rng.pick(&[1, 1, 2, 2, 3, 4, PROCESSORS as u8, any]);
        let start = Start { clock, values, ceilings, processors };
        Generator {
            start,
            desk: start.desk(),
            rng,
            mix: MIX.map(|(topic, _, often)| (topic, often)).to_vec(),
            stream: true,
            at: 0,
            semaphores,
            devices,
            careful: usize::MAX,
            turns: 0,
            flood: None,
            family: Some(Family::Broad),
            alarms: 1,
            stand: 0,
        }
    }

    /// A stream in a flood: two events in three are the flood's, and of the others' newborns half are high.
    pub fn flood(seed: u64) -> Self {
        let mut generator = Generator::stream(seed);
        let usual: u32 = generator.mix.iter().map(|(_, often)| often).sum();
        generator.mix.push((Generator::in_a_flood, 2 * usual));
        generator.alarms = 4;
        generator
    }

    /// The same with so many processors.
    #[must_use]
    pub fn on_processors(mut self, processors: u8) -> Self {
        self.start.processors = processors;
        self.desk = self.start.desk();
        self
    }

    /// The next event: tries some until one leaves the machine alive, as long as it should be.
    pub fn event(&mut self) -> Event {
        loop {
            self.at = self.processor();
            let clock = self.clock().wrapping_add(self.gap());
            let topic = self.topic();
            let event = Event { clock, processor: self.at, kind: topic(self) };
            let mut after = self.desk.clone();
            let answer = after.event(&event);
            if !after.over || self.careful == 0 {
                if answer.killer_survives() && !self.stream {
                    self.turns = after.ready.slots().count();
                }
                if answer.result == Some(-1) {
                    self.flood = None;
                }
                self.desk = after;
                self.careful = self.careful.saturating_sub(1);
                return event;
            }
        }
    }

    /// Mostly any of the processors, and as often the last one again; now and then none.
    fn processor(&mut self) -> u8 {
        let many = self.start.processors;
        let any = self.rng.below(many.into()) as u8;
        let busy = self.in_the_stand();
        if !busy.is_empty() {
            return self.rng.pick(&busy);
        }
        match self.rng.below(if self.stream { 2000 } else { 64 }) {
            0 => self.rng.pick(&[many, many, 8, 9, 128, 255, any | 128]),
            1..=9 => self.at.min(many - 1),
            _ => any,
        }
    }

    /// The last reading of the event's processor.
    fn clock(&self) -> u32 {
        self.desk.processors.get(usize::from(self.at)).map_or(0, |processor| processor.clock)
    }

    /// From the processor's last reading to another's: back for the one, or on for the other.
    fn apart(&mut self) -> u32 {
        let other = self.rng.index(self.desk.processors.len());
        self.desk.processors[other].clock.wrapping_sub(self.clock())
    }

    fn running(&self) -> Option<usize> {
        self.desk.running_at(self.at)
    }

    /// The time since the processor's last accepted event: wraps, stands still, jumps, goes back.
    fn gap(&mut self) -> u32 {
        match self.rng.below(if self.stream { 2000 } else { 64 }) {
            0 => GAP_MAX,
            1 => GAP_MAX + 1,
            2 => 0u32.wrapping_sub(1 + self.rng.below(5000)),
            3 if !self.stream => self.rng.word(),
            4..=7 => 0,
            8 => u32::MAX - self.clock(),
            9 => 0u32.wrapping_sub(self.clock()),
            10 | 11 => self.apart(),
            _ => 1 + self.rng.below(2000),
        }
    }

    fn topic(&mut self) -> Topic {
        if let Some(topic) = self.growth().or_else(|| self.last_stand()) {
            return topic;
        }
        let idle = self.running().is_none() && !self.desk.over;
        if idle && !self.rng.one_in(if self.stream { 200 } else { 4 }) {
            return if self.rng.one_in(4) { Generator::tick } else { Generator::device };
        }
        if let Some(topic) = self.contest() {
            return topic;
        }
        if self.turns > 0 {
            self.turns -= 1;
            if !self.rng.one_in(4) {
                return self.rng.pick(&[Generator::yields, Generator::slice_end]);
            }
        }
        if self.flood.is_some() && !self.desk.over && !self.rng.one_in(8) {
            return Generator::create;
        }
        if !self.stream && self.has_room_below() && self.rng.one_in(4) {
            return Generator::create;
        }
        let sum = self.mix.iter().map(|(_, often)| often).sum();
        let mut place = self.rng.below(sum);
        for &(topic, often) in &self.mix {
            if place < often {
                return topic;
            }
            place -= often;
        }
        unreachable!("the place is below the sum")
    }

    /// What lets the family grow, one event in sixteen aside. In a deep one whoever has a child waits,
    /// so that the child runs.
    fn growth(&mut self) -> Option<Topic> {
        let family = self.family?;
        let caller = self.running().map(|slot| self.desk.process(slot))?;
        let childless = self.desk.living().all(|process| process.parent != caller.id);
        if self.roomy().is_empty() {
            self.family = None;
            return None;
        }
        if self.rng.one_in(16) {
            return None;
        }
        if family == Family::Broad || childless {
            return Some(Generator::kin);
        }
        Some(self.rng.pick(&[
            |g: &mut Generator| g.kernel(-7, Generator::few),
            |g: &mut Generator| g.kernel(-5, Generator::io_device),
        ]))
    }

    /// The customers that the caller may get a child of.
    fn roomy(&self) -> Vec<u32> {
        let own = self.running().map_or(0, |slot| self.desk.process(slot).customer);
        let may_name = |&customer: &usize| own == 0 || customer == own;
        let roomy = (0..CUSTOMERS).filter(may_name).filter(|&customer| !self.desk.at_ceiling(customer));
        roomy.map(|customer| customer as u32).collect()
    }

    /// A create that is granted: for customer 0 where it can be, since only that names others.
    fn kin(&mut self) -> Kind {
        let a1 = self.few();
        let named = self.roomy().first().copied().unwrap_or(0);
        let priority = self.priority();
        self.call_with(Mode::Kernel, -1, a1, named * 256 + priority)
    }

    /// Whether the caller has no child yet, and room for one: so families grow deep.
    fn has_room_below(&self) -> bool {
        let Some(caller) = self.running().map(|slot| self.desk.process(slot)) else {
            return false;
        };
        let childless = self.desk.living().all(|process| process.parent != caller.id);
        childless && !self.desk.at_ceiling(caller.customer)
    }

    // Calls.

    fn kernel(&mut self, a0: i32, a1: fn(&mut Self) -> u32) -> Kind {
        let a1 = a1(self);
        self.call(Mode::Kernel, a0, a1)
    }

    fn call(&mut self, mode: Mode, a0: i32, a1: u32) -> Kind {
        let a2 = self.rng.word() >> self.rng.below(32);
        self.call_with(mode, a0, a1, a2)
    }

    /// Most children get a handle (a3), lest a trap end them.
    fn call_with(&mut self, mode: Mode, a0: i32, a1: u32, a2: u32) -> Kind {
        let word = self.rng.word() | 1;
        let none = self.rng.one_in(if self.stream { 20 } else { 5 });
        let a3 = if none { 0 } else { self.rng.pick(&[1, 64, word, u32::MAX]) };
        Kind::Call(Call { mode, a0, a1, a2, a3 })
    }

    /// One create, or in a log the first of a flood: of low ones mostly, and here and there a high one.
    fn create(&mut self) -> Kind {
        let named = match self.flood {
            Some(named) => named,
            None => self.customer(),
        };
        if !self.stream && self.rng.one_in(8) {
            self.flood = Some(named);
        }
        let low = self.flood.is_some() && !self.rng.one_in(6);
        let priority = if low { self.low_priority() } else { self.priority() };
        let a1 = self.few();
        self.call_with(Mode::Kernel, -1, a1, named * 256 + priority)
    }

    /// What a2 / 256 names: mostly a customer that may live, in streams one that has room; now and
    /// then any, or none at all.
    fn customer(&mut self) -> u32 {
        let customers = 0..CUSTOMERS as u32;
        let may_live = |&customer: &u32| self.desk.ceilings[customer as usize] > 0;
        let has_room = |&customer: &u32| !self.stream || !self.desk.at_ceiling(customer as usize);
        let usual: Vec<u32> = customers.filter(may_live).filter(has_room).collect();
        let any = self.rng.word() / 256;
        match self.rng.below(if self.stream { 100 } else { 12 }) {
            0 => self.rng.pick(&[9, 10, 255, 256, 257, 256 + 8, 1 << 16, u32::MAX / 256, any]),
            2.. if !usual.is_empty() => self.rng.pick(&usual),
            _ => self.rng.below(CUSTOMERS as u32),
        }
    }

    /// A word that matters little, often 0.
    fn few(&mut self) -> u32 {
        let word = self.rng.word();
        self.rng.pick(&[0, 0, 0, 1, 2, 1 << 31, word])
    }

    /// An id: the caller's own, those above, below and beside it, the dead, the unborn and the
    /// impossible, and whoever runs elsewhere. In streams a caller with nobody below it rather ends.
    fn target(&mut self) -> u32 {
        let living: Vec<u32> = self.desk.living().map(|process| process.id).collect();
        let last = self.desk.last_id;
        let own = self.running().map(|slot| self.desk.process(slot));
        let (own, parent) = own.map_or((0, 0), |process| (process.id, process.parent));
        if living.is_empty() {
            return last;
        }
        let any = self.rng.pick(&living);
        let childless = if self.stream { own } else { any };
        match self.rng.below(if self.stream { 13 } else { 20 }) {
            0 => 0,
            1 => own,
            2 => parent,
            3 => self.ancestor(parent),
            4 => 1 + self.rng.below(last),
            5 => last + 1 + self.rng.below(3),
            6 => any | 1 << 31,
            7 => self.rng.pick(&[ID_MAX, 1 << 31, u32::MAX]),
            16.. => self.running_elsewhere().unwrap_or(any),
            8..=11 => self.relative(&[Kin::Child, Kin::Deeper, Kin::Deeper]).unwrap_or(childless),
            _ => self.relative(&[Kin::Sibling, Kin::Cousin, Kin::Stranger]).unwrap_or(any),
        }
    }

    /// One of the living that is to the caller what is picked first, of these.
    fn relative(&mut self, kinds: &[Kin]) -> Option<u32> {
        let caller = self.desk.process(self.running()?);
        let of = |&kind| {
            let kin = self.desk.living().filter(|process| Kin::of(&self.desk, caller, process) == kind);
            kin.map(|process| process.id).collect()
        };
        let mut some: Vec<Vec<u32>> = kinds.iter().map(of).collect();
        some.retain(|ids| !ids.is_empty());
        if some.is_empty() {
            return None;
        }
        let picked = self.rng.index(some.len());
        Some(self.rng.pick(&some[picked]))
    }

    /// The id of somebody who runs on another processor, rather one that the caller may name.
    fn running_elsewhere(&mut self) -> Option<u32> {
        let own = self.running()?;
        let caller = self.desk.process(own);
        let others = self.desk.runners().filter(|&slot| slot != own).map(|slot| self.desk.process(slot));
        let (below, beside): (Vec<_>, Vec<_>) = others
            .map(|process| (process.id, Kin::of(&self.desk, caller, process)))
            .partition(|(_, kin)| [Kin::Child, Kin::Deeper].contains(kin));
        let some = if below.is_empty() { beside } else { below };
        (!some.is_empty()).then(|| self.rng.pick(&some).0)
    }

    fn ancestor(&mut self, mut id: u32) -> u32 {
        while let Some(slot) = self.desk.find(id).filter(|_| self.rng.one_in(2)) {
            id = self.desk.process(slot).parent;
        }
        id
    }

    /// Mostly a usual number; now and then any below the limit, or one that is too large.
    fn number(&mut self, usual: u32, limit: u32) -> u32 {
        match self.rng.below(if self.stream { 500 } else { 24 }) {
            0 => self.rng.pick(&[limit, limit + 1, 255, usual + 256, usual | 1 << 31, u32::MAX]),
            1 | 2 => self.rng.below(limit),
            _ => usual,
        }
    }

    fn semaphore(&mut self) -> u32 {
        let usual = self.rng.pick(&self.semaphores);
        self.number(usual, SEMAPHORES as u32)
    }

    fn io_device(&mut self) -> u32 {
        let usual = self.rng.pick(&self.devices);
        self.number(usual, SUB_DEVICES as u32)
    }

    /// P or V, so that values stay near 0 or near the top; V rather where somebody waits.
    fn p_or_v(&mut self, a0: i32) -> Kind {
        let number = self.semaphore();
        let waited =
            (0..SEMAPHORES as u32).filter(|&number| !self.desk.semaphores[number as usize].is_empty());
        let waited: Vec<u32> = waited.collect();
        let (a0, a1) = match self.desk.values.get(number as usize) {
            _ if a0 == -4 && !waited.is_empty() && self.rng.one_in(2) => (-4, self.rng.pick(&waited)),
            Some(4..0x4000_0000) => (-3, number),
            Some(0x4000_0000..0x7fff_fffc) => (-4, number),
            _ => (a0, number),
        };
        self.call(Mode::Kernel, a0, a1)
    }

    fn yields(&mut self) -> Kind {
        self.kernel(-10, Generator::few)
    }

    fn user_call(&mut self) -> Kind {
        let a0 = -(self.rng.below(12) as i32);
        let a1 = self.few();
        self.call(Mode::User, a0, a1)
    }

    fn unknown_call(&mut self) -> Kind {
        let below = ((self.rng.word() | 1 << 31) as i32).min(-11);
        let a0 = self.rng.pick(&[0, 0, -11, -12, -256 - 2, below, i32::MIN, i32::MIN + 1]);
        self.kernel(a0, Generator::few)
    }

    fn passed_up(&mut self) -> Kind {
        let positive = (self.rng.word() >> 1).max(1) as i32;
        let mode = self.rng.pick(&[Mode::User, Mode::User, Mode::Kernel]);
        let a0 = self.rng.pick(&[1, 2, 5, positive, i32::MAX]);
        let a1 = self.few();
        self.call(mode, a0, a1)
    }

    // Interrupts and exceptions.

    fn slice_end(&mut self) -> Kind {
        interrupt(1, self.rng.byte() & 1, self.rng.byte() & 1)
    }

    fn tick(&mut self) -> Kind {
        interrupt(2, self.rng.byte() & 1, self.rng.byte() & 1)
    }

    /// A device interrupt: mostly one that is wanted, with more bits pending.
    fn device(&mut self) -> Kind {
        let waiting = (0..48).filter(|&number| !self.desk.nucleus[number as usize].is_empty());
        let wanted: Vec<u32> = waiting.collect();
        let usual = wanted.is_empty() || self.rng.one_in(4);
        let number = self.rng.pick(if usual { &self.devices } else { &wanted });
        let line = 3 + (number / 8).min(4) as u8;
        let bit = 1 << (number % 8);
        // Higher devices may be pending too, or any.
        let (mut more, mut other) = (self.rng.byte(), self.rng.byte());
        match self.rng.below(4) {
            0 => (more, other) = (0, 0),
            1 | 2 => (more, other) = (more & !(bit - 1), other & !(bit - 1) & !bit),
            _ => {}
        }
        if number < 40 {
            interrupt(line, bit | more, other)
        } else {
            interrupt(line, other, bit | more)
        }
    }

    fn odd_line(&mut self) -> Kind {
        let byte = self.rng.byte();
        let line = self.rng.pick(&[0, 8, 255, 3, 4, 5, 6, 7, byte]);
        interrupt(line, 0, if line == 7 { 0 } else { byte })
    }

    fn trap(&mut self) -> Kind {
        let codes: Vec<u8> = (0..24).filter(|code| ![8, 11].contains(code)).collect();
        exception(self.rng.pick(&codes))
    }

    fn odd_code(&mut self) -> Kind {
        let byte = self.rng.byte();
        exception(self.rng.pick(&[8, 11, 29, 255, byte]))
    }
}

/// Ceilings that sum to this number: customer 0's, and those of up to three others.
fn ceilings(rng: &mut Rng, sum: usize) -> [u16; CUSTOMERS] {
    let customers = [0, rng.index(CUSTOMERS), rng.index(CUSTOMERS), rng.index(CUSTOMERS)];
    let mut ceilings = [1, 0, 0, 0, 0, 0, 0, 0, 0];
    for _ in 1..sum {
        ceilings[rng.pick(&customers)] += 1;
    }
    ceilings
}

fn interrupt(line: u8, first: u8, second: u8) -> Kind {
    Kind::Interrupt(Interrupt { line, first, second })
}

fn exception(code: u8) -> Kind {
    Kind::Exception { code }
}
