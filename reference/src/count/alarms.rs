//! What comes up around the two ready lines, and which slips in the count of four would be seen.

use super::Count;
use crate::desk::{Action, Answer, Call, Desk, Event, Interrupt, Kind, Mode, PROCESSORS, SLOTS};
use crate::ready::IN_A_ROW;

/// How many were ready, high and low, when one of them was chosen.
struct Choice {
    high: usize,
    low: usize,
    chose_high: bool,
}

impl Choice {
    fn of(answer: &Answer, after: &Desk) -> Option<Self> {
        let Action::Run(slot) = answer.action else {
            return None;
        };
        let chose_high = after.process(slot).is_high();
        Some(Choice {
            high: after.ready.high.len() + usize::from(chose_high),
            low: after.ready.low.len() + usize::from(!chose_high),
            chose_high,
        })
    }
}

/// What a choice makes of the count; or, without one, a schedule that finds both lines empty.
type Recount = fn(Option<&Choice>, u8) -> u8;

const RULE: Recount = |choice, count| match choice {
    None => count,
    Some(choice) if choice.chose_high && choice.low > 0 => count + 1,
    Some(_) => 0,
};

/// A count that isn't the rule's. It is seen where it would choose from the other line.
pub(super) struct Slip {
    name: &'static str,
    most: u8,
    recount: Recount,
    /// Whether each processor has its own.
    each: bool,
    counts: [u8; PROCESSORS],
}

impl Slip {
    const fn new(name: &'static str, most: u8, recount: Recount) -> Self {
        Slip { name, most, recount, each: false, counts: [0; PROCESSORS] }
    }

    /// Whether the choice would be another. Then the slip goes on from the rule's own count.
    fn is_seen(&mut self, at: u8, choice: Option<&Choice>, count: u8) -> bool {
        let own = &mut self.counts[if self.each { usize::from(at) } else { 0 }];
        let seen = choice.is_some_and(|choice| {
            choice.chose_high == (choice.low > 0 && (choice.high == 0 || *own >= self.most))
        });
        *own = if seen { count } else { (self.recount)(choice, *own) };
        seen
    }
}

pub(super) const SLIPS: [Slip; 7] = [
    Slip::new("three for four", 3, RULE),
    Slip::new("five for four", 5, RULE),
    Slip::new("kept after a low one", IN_A_ROW, |choice, count| match choice {
        Some(Choice { chose_high: false, .. }) => count,
        _ => RULE(choice, count),
    }),
    Slip::new("kept with the low line empty", IN_A_ROW, |choice, count| match choice {
        Some(Choice { low: 0, .. }) => count,
        _ => RULE(choice, count),
    }),
    Slip::new("counted with the low line empty", IN_A_ROW, |choice, count| match choice {
        Some(Choice { low: 0, .. }) => count.saturating_add(1),
        _ => RULE(choice, count),
    }),
    Slip::new("nought after a wait", IN_A_ROW, |choice, count| match choice {
        None => 0,
        _ => RULE(choice, count),
    }),
    Slip { each: true, ..Slip::new("one for each processor", IN_A_ROW, RULE) },
];

impl Count {
    pub(super) fn alarms(&mut self, before: &Desk, event: &Event, answer: &Answer, after: &Desk) {
        if answer.refusal.is_some() {
            return;
        }
        self.priority(event, answer);
        self.both_woken(answer, after);
        if four_counted(before) && before.ready.low.iter().any(|slot| answer.ended >> slot & 1 == 1) {
            self.add("alarms", "a low one ended, four counted");
        }
        match Choice::of(answer, after) {
            Some(choice) => {
                self.choice(before, &choice);
                self.came_back(before, event, answer, &choice);
            }
            None if !is_schedule(answer) => {}
            None if four_counted(after) => self.add("alarms", "both lines empty, four counted"),
            None => self.add("alarms", "both lines empty"),
        }
    }

    pub(super) fn slips(&mut self, slips: &mut [Slip], event: &Event, answer: &Answer, after: &Desk) {
        if !is_schedule(answer) {
            return;
        }
        let choice = Choice::of(answer, after);
        for slip in slips {
            if slip.is_seen(event.processor, choice.as_ref(), after.ready.count) {
                self.add("slip seen", slip.name);
            }
        }
    }

    fn choice(&mut self, before: &Desk, choice: &Choice) {
        let four = four_counted(before);
        let name = match *choice {
            Choice { chose_high: true, low: 0, .. } if four => "no low one left, four counted",
            Choice { chose_high: true, low: 0, .. } => "high chosen, the low line empty",
            Choice { chose_high: true, low: 8.., .. } => "high chosen before eight low ones or more",
            Choice { chose_high: true, .. } => "high chosen before a few low ones",
            Choice { high: 0, .. } if four => "low chosen after four, the high line empty",
            Choice { high: 0, .. } => "low chosen, the high line empty",
            _ => "low chosen after four, high ones ready",
        };
        self.add("alarms", name);
    }

    /// Who ran went behind, and one was chosen.
    fn came_back(&mut self, before: &Desk, event: &Event, answer: &Answer, choice: &Choice) {
        let Some(slot) = before.running_at(event.processor) else {
            return;
        };
        let was_high = before.process(slot).is_high();
        let again = answer.action == Action::Run(slot) && choice.low > 0;
        let name = match (event.kind, was_high, choice.chose_high) {
            (_, true, true) if answer.killer_survives() && choice.low > 0 => {
                "surviving high killer, low ones ready"
            }
            (_, true, false) if answer.killer_survives() => "surviving high killer, a low one runs",
            (_, false, true) if answer.killer_survives() => "surviving low killer, a high one runs",
            (Kind::Call(Call { mode: Mode::Kernel, a0: -10, .. }), true, true) if again => {
                "a high one yields, and runs again before low ones"
            }
            (Kind::Interrupt(Interrupt { line: 1, .. }), _, true) if before.process(slot).id == 1 => {
                "id 1's slice ends, a high one runs"
            }
            _ => return,
        };
        self.add("alarms", name);
    }

    /// Those that were woken, and whoever carries on all the same.
    fn both_woken(&mut self, answer: &Answer, after: &Desk) {
        let woken = (0..SLOTS).filter(|slot| answer.woken >> slot & 1 == 1);
        let (high, low): (Vec<_>, Vec<_>) = woken.partition(|&slot| after.process(slot).is_high());
        if !high.is_empty() && !low.is_empty() {
            self.add("alarms", "one tick into both lines");
        }
        let low_one_runs = matches!(answer.action, Action::On(slot) if !after.process(slot).is_high());
        if !high.is_empty() && low_one_runs {
            self.add("alarms", "a high one woken, a low one carries on");
        }
    }

    /// The a2 of a newborn.
    fn priority(&mut self, event: &Event, answer: &Answer) {
        let Kind::Call(Call { a2, .. }) = event.kind else {
            return;
        };
        match (a2, a2 % 256) {
            _ if answer.newborn.is_none() => {}
            (0 | 1 | 2 | 255 | 256 | 257 | 513, _) => self.add("priority", a2),
            (0x900.., 1) => self.add("priority", "high, and a2 / 256 above 8"),
            (_, 1) => self.add("priority", "another high one"),
            _ => self.add("priority", "another low one"),
        }
    }
}

fn four_counted(desk: &Desk) -> bool {
    desk.ready.count == IN_A_ROW
}

/// A schedule, whether it finds somebody or not.
fn is_schedule(answer: &Answer) -> bool {
    matches!(answer.action, Action::Run(_) | Action::Wait | Action::Halt | Action::Panic)
}
