//! The checksum of what a desk answers, as crates/replay has it (its specs/Sums): every part of
//! every answer, and their order.

use reference::desk::{Action, Answer, Desk, PassUp};
use reference::log::{Log, LogRefusal};

/// Three times the sum so far, and n, wrapping at 64 bits.
fn mix(sum: u64, n: u64) -> u64 {
    sum.wrapping_mul(3).wrapping_add(n)
}

fn action_number(action: Action) -> u64 {
    let with_slot = |kind, slot| kind + 8 * slot as u64;
    match action {
        Action::On(slot) => with_slot(1, slot),
        Action::Run(slot) => with_slot(2, slot),
        Action::Wait => 3,
        Action::Halt => 4,
        Action::Panic => 5,
        Action::PassUp(slot, PassUp::Tlb) => with_slot(6, slot),
        Action::PassUp(slot, PassUp::General) => with_slot(7, slot),
        Action::None => 0,
    }
}

fn result_number(result: Option<i64>) -> u64 {
    match result {
        None => 0,
        Some(..=-1) => 1,
        Some(told) => told as u64 + 2,
    }
}

fn part_number(part: Option<usize>) -> u64 {
    part.map_or(0, |number| number as u64 + 1)
}

fn weight(answer: &Answer) -> u64 {
    let parts = [
        action_number(answer.action),
        result_number(answer.result),
        part_number(answer.newborn),
        part_number(answer.sub_device),
        answer.woken,
        answer.ended,
        u64::from(answer.left_idle),
    ];
    parts.into_iter().fold(answer.refusal.map_or(0, |refusal| refusal as u64), mix)
}

/// The sum of what is answered to the events, and how many they are. A refusal ends the reading.
pub fn of_answers(stream: Result<Log, LogRefusal>) -> (u64, usize) {
    let Ok(Log { start, events }) = stream else {
        return (0, 0);
    };
    let mut desk: Desk = start.desk();
    let (mut sum, mut count) = (0, 0);
    for event in events.map_while(Result::ok) {
        sum = mix(sum, weight(&desk.event(&event)));
        count += 1;
    }
    (sum, count)
}
