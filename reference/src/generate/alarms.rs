//! Priorities, and events that show the choosing between the two ready lines.

use super::{Generator, Topic};
use crate::desk::{Kind, Mode};
use crate::kin::Kin;
use crate::ready::IN_A_ROW;

const WAITS: Topic = |g| g.kernel(-7, Generator::few);
const ENDS: Topic = |g| g.kernel(-2, |_| 0);
const KILLS: Topic = |g| g.kernel(-2, |g| g.low_one().unwrap_or(0));

impl Generator {
    /// a2 mod 256 of a newborn: high for so many in eight.
    pub(super) fn priority(&mut self) -> u32 {
        if self.rng.below(8) < self.alarms {
            1
        } else {
            self.low_priority()
        }
    }

    /// Any but 1, and rather one that is near it, by its number or by its bits.
    pub(super) fn low_priority(&mut self) -> u32 {
        let any = u32::from(self.rng.byte()).max(2);
        self.rng.pick(&[0, 0, 2, 3, 129, 255, any])
    }

    /// While high and low ones are ready, turns that let them come; and where some are counted, the end
    /// of a low one, rather of the last.
    pub(super) fn contest(&mut self) -> Option<Topic> {
        let ready = &self.desk.ready;
        let (count, low) = (ready.count, ready.low.len());
        let high = self.desk.process(self.running()?).is_high() || !ready.high.is_empty();
        if self.stream || !high || low == 0 {
            return None;
        }
        if count > 0 && self.low_one().is_some() && self.rng.one_in(if low == 1 { 3 } else { 24 }) {
            return Some(KILLS);
        }
        self.rng.one_in(10).then(|| self.rng.pick(&[Generator::yields, Generator::slice_end]))
    }

    /// A low one that is ready and that whoever runs may name.
    fn low_one(&mut self) -> Option<u32> {
        let caller = self.running()?;
        let low = self.desk.ready.low.iter().copied();
        let named: Vec<usize> = low.filter(|&slot| self.desk.may_name(caller, slot)).collect();
        (!named.is_empty()).then(|| self.desk.process(self.rng.pick(&named)).id)
    }

    /// Leads to a wait with four counted, and to the tick that shows them: a high one is left with a low
    /// child of its own, while all others wait for the pseudo-clock. It yields until four are counted, and
    /// ends; or it ends the child, has another, and yields again.
    pub(super) fn last_stand(&mut self) -> Option<Topic> {
        if self.stand == 0 {
            self.begin_stand();
            return None;
        }
        self.stand -= 1;
        let Some(slot) = self.running() else {
            return Some(Generator::tick);
        };
        let runner = self.desk.process(slot);
        let ready = &self.desk.ready;
        let is_below = |slot| {
            let kin = Kin::of(&self.desk, runner, self.desk.process(slot));
            matches!(kin, Kin::Child | Kin::Deeper)
        };
        let topic = if ready.is_empty() && !self.desk.at_ceiling(runner.customer) {
            Generator::heir
        } else if !runner.is_high() || ready.low.is_empty() || !ready.slots().all(is_below) {
            WAITS
        } else if ready.count < IN_A_ROW {
            Generator::yields
        } else {
            self.stand = 3;
            self.rng.pick(&[ENDS, ENDS, KILLS])
        };
        Some(topic)
    }

    /// Low ones that do not wait: they take turns, and create more of their kind, also where there is no
    /// room. The alarms among them wait for a device or the clock, and come one by one or many at a tick.
    pub(super) fn in_a_flood(&mut self) -> Kind {
        let high = self.running().is_some_and(|slot| self.desk.process(slot).is_high());
        match (high, self.rng.below(16)) {
            (true, 0..6) => self.kernel(-5, Generator::io_device),
            (true, 6..10) => WAITS(self),
            (true, 10..12) => self.yields(),
            (false, 0..6) => self.slice_end(),
            (false, 6..9) => self.yields(),
            (false, 9..12) => self.low_newborn(),
            (_, 12..15) => self.device(),
            _ => self.tick(),
        }
    }

    fn low_newborn(&mut self) -> Kind {
        let (a1, named, priority) = (self.few(), self.customer(), self.low_priority());
        self.call_with(Mode::Kernel, -1, a1, named * 256 + priority)
    }

    /// The processors that run somebody: none of the others has a part in it.
    pub(super) fn in_the_stand(&self) -> Vec<u8> {
        let runs = |&number: &u8| self.desk.running_at(number).is_some();
        (0..self.start.processors).filter(|number| self.stand > 0 && runs(number)).collect()
    }

    /// Where few are ready, lest it take too long.
    fn begin_stand(&mut self) {
        let few = self.desk.ready.slots().count() < 6;
        if !self.stream && few && self.family.is_none() && self.rng.one_in(50) {
            self.stand = 40;
        }
    }

    /// A child of the other priority.
    fn heir(&mut self) -> Kind {
        let high = self.running().is_some_and(|slot| self.desk.process(slot).is_high());
        let a2 = if high { self.low_priority() } else { 1 };
        let a1 = self.few();
        self.call_with(Mode::Kernel, -1, a1, a2)
    }
}
