//! The whole example, the edges to try, the refusals and their order, and the rule of the tables.

use super::*;
use crate::count::{EVENTS, SEEDS};
use crate::ready::IN_A_ROW;
use crate::{generate, line, log};

const ZERO: [u32; SEMAPHORES] = [0; SEMAPHORES];
/// All places for customer 0.
const ALL: [u16; CUSTOMERS] = [SLOTS as u16, 0, 0, 0, 0, 0, 0, 0, 0];

fn kernel(clock: u32, a0: i32, a1: u32) -> Event {
    create(clock, a0, a1, 0)
}

/// A kernel call with a handle in a3.
fn create(clock: u32, a0: i32, a1: u32, a3: u32) -> Event {
    Event { clock, processor: 0, kind: Kind::Call(Call { mode: Mode::Kernel, a0, a1, a2: 7, a3 }) }
}

/// A create whose a2 / 256 names a customer, of a low priority.
fn names(customer: u32) -> Event {
    birth(256 * customer + 255)
}

/// A create with this a2.
fn birth(a2: u32) -> Event {
    Event { clock: 0, processor: 0, kind: Kind::Call(Call { mode: Mode::Kernel, a0: -1, a1: 0, a2, a3: 0 }) }
}

fn user(clock: u32, a0: i32) -> Event {
    Event { clock, processor: 0, kind: Kind::Call(Call { mode: Mode::User, a0, a1: 0, a2: 0, a3: 0 }) }
}

fn interrupt(clock: u32, line: u8, first: u8, second: u8) -> Event {
    Event { clock, processor: 0, kind: Kind::Interrupt(Interrupt { line, first, second }) }
}

fn exception(clock: u32, code: u8) -> Event {
    Event { clock, processor: 0, kind: Kind::Exception { code } }
}

fn fresh(number: usize, value: u32) -> Desk {
    let mut values = ZERO;
    values[number] = value;
    Desk::fresh(0, values, ALL, 1).unwrap()
}

fn with_ceilings(ceilings: [u16; CUSTOMERS]) -> Desk {
    Desk::fresh(0, ZERO, ceilings, 1).unwrap()
}

/// A fresh machine with some values and so many children of id 1, with handle 5, at clock 0.
fn family(children: usize) -> Desk {
    let mut desk = fresh(1, 1);
    for _ in 0..children {
        desk.event(&create(0, -1, 0, 5));
    }
    desk
}

/// The same event at another processor.
fn at(processor: u8, event: Event) -> Event {
    Event { processor, ..event }
}

/// A machine of so many processors, all places for customer 0.
fn several(processors: u8) -> Desk {
    Desk::fresh(0, ZERO, ALL, processors).unwrap()
}

/// The answer's line without its number.
fn say(desk: &mut Desk, event: Event) -> String {
    let answer = desk.event(&event);
    line::Line { number: 0, answer }.to_string()[2..].to_string()
}

/// Events that leave no processor idle: their lines end in 0.
#[track_caller]
fn play<const N: usize>(desk: &mut Desk, script: [(Event, &str); N]) {
    for (number, (event, line)) in script.into_iter().enumerate() {
        assert_eq!(say(desk, event), format!("{line} 0"), "step {number}: {event}");
    }
}

/// Events that leave the processors of this mask idle.
#[track_caller]
fn leaves(desk: &mut Desk, event: Event, line: &str, mask: u8) {
    assert_eq!(say(desk, event), format!("{line} {mask}"), "{event}");
}

/// A refusal leaves the machine as it was.
#[track_caller]
fn refuses(desk: &Desk, event: Event, number: u8) {
    let mut after = desk.clone();
    assert_eq!(say(&mut after, event), format!("{number} none - - - - 0 0 0"), "{event}");
    assert_eq!(&after, desk);
}

#[test]
fn whole_example() {
    let mut values = ZERO;
    values[0] = 1;
    let mut desk = Desk::fresh(1000, values, ALL, 1).unwrap();
    play(
        &mut desk,
        [
            (kernel(1500, -1, 0), "0 on 0 2 1 - 0 0"),
            (kernel(1600, -3, 0), "0 on 0 - - - 0 0"),
            (kernel(1700, -3, 0), "0 run 1 - - - 0 0"),
            (kernel(1800, -6, 0), "0 on 1 100 - - 0 0"),
            (kernel(1900, -4, 0), "0 on 1 - - - 1 0"),
            (kernel(2000, -5, 32), "0 run 0 - - 32 0 0"),
            (kernel(1990, -6, 0), "2 none - - - - 0 0"),
            (interrupt(2100, 7, 1, 0), "0 on 0 - - 32 2 0"),
        ],
    );
    assert_eq!((desk.process(0).time, desk.process(1).time), (800, 300));
    play(&mut desk, [(kernel(2200, -2, 0), "0 halt - - - - 0 3")]);
    assert_eq!((desk.ended_time, desk.processors[0].idle, desk.total), (1200, 0, 1200));
}

#[test]
fn creates() {
    // "Create with 19 alive, with 20 (−1), with 20 then a childless one killed": with 62, 63 and 64
    let mut desk = family(61);
    play(
        &mut desk,
        [
            (kernel(0, -1, 0), "0 on 0 63 62 - 0 0"),
            (kernel(0, -1, 0), "0 on 0 64 63 - 0 0"),
            (kernel(0, -1, 0), "0 on 0 -1 - - 0 0"),
            (kernel(0, -2, 8), "0 run 1 0 - - 0 128"),
            (kernel(0, -1, 0), "0 on 1 65 7 - 0 0"),
            (kernel(0, -2, 64), "0 run 2 0 - - 0 9223372036854775808"),
            (kernel(0, -1, 0), "0 on 2 66 63 - 0 0"),
            (kernel(0, -1, 0), "0 on 2 -1 - - 0 0"),
            (kernel(0, -2, 1), "0 halt - - - - 0 18446744073709551615"),
        ],
    );
    let mut desk = family(0);
    desk.last_id = ID_MAX - 1;
    play(
        &mut desk,
        [(kernel(0, -1, 0), "0 on 0 2147483647 1 - 0 0"), (kernel(0, -1, 0), "0 on 0 -1 - - 0 0")],
    );
}

#[test]
fn ceilings() {
    // Each customer to its own ceiling, whatever the others hold; the table's last place too.
    let mut desk = with_ceilings([2, 1, 0, 0, 0, 0, 0, 0, 61]);
    play(
        &mut desk,
        [
            (names(1), "0 on 0 2 1 - 0 0"),
            (names(1), "0 on 0 -1 - - 0 0"),
            (names(2), "0 on 0 -1 - - 0 0"),
            (names(0), "0 on 0 3 2 - 0 0"),
            (names(0), "0 on 0 -1 - - 0 0"),
        ],
    );
    for slot in 3..64 {
        play(&mut desk, [(names(8), &format!("0 on 0 {} {slot} - 0 0", slot + 1))]);
    }
    play(&mut desk, [(names(8), "0 on 0 -1 - - 0 0")]);
    // "the named customer is above 8", by all 24 bits of it
    for above in [9, 255, 256, 257, 264, 1 << 16, u32::MAX / 256] {
        let mut desk = with_ceilings([3, 3, 3, 3, 3, 1, 1, 1, 2]);
        play(&mut desk, [(names(above), "0 on 0 -1 - - 0 0"), (names(8), "0 on 0 2 1 - 0 0")]);
    }
}

#[test]
fn children_of_customers() {
    // "A child has its parent's customer": a2 of another than customer 0 is not looked at.
    let mut desk = with_ceilings([2, 4, 3, 0, 0, 0, 0, 0, 0]);
    play(
        &mut desk,
        [
            (names(1), "0 on 0 2 1 - 0 0"),
            (kernel(0, -7, 0), "0 run 1 - - - 0 0"),
            (names(2), "0 on 1 3 2 - 0 0"),
            (names(3), "0 on 1 4 3 - 0 0"),
            (names(u32::MAX / 256), "0 on 1 5 4 - 0 0"),
            (names(0), "0 on 1 -1 - - 0 0"),
        ],
    );
    assert_eq!((desk.living_of(0), desk.living_of(1), desk.living_of(2)), (1, 4, 0));
    // The running, the ready and the waiting count. A kill gives the places of its dead back, to
    // their own customers.
    play(
        &mut desk,
        [
            (kernel(0, -3, 0), "0 run 2 - - - 0 0"),
            (kernel(0, -5, 9), "0 run 3 - - 9 0 0"),
            (interrupt(0, 2, 0, 0), "0 on 3 - - - 1 0"),
            (names(0), "0 on 3 -1 - - 0 0"),
            (kernel(0, -10, 0), "0 run 4 - - - 0 0"),
            (kernel(0, -10, 0), "0 run 0 - - - 0 0"),
            (kernel(0, -2, 3), "0 run 3 0 - - 0 4"),
            (names(2), "0 on 3 6 2 - 0 0"),
            (names(2), "0 on 3 -1 - - 0 0"),
            (kernel(0, -10, 0), "0 run 4 - - - 0 0"),
            (kernel(0, -10, 0), "0 run 0 - - - 0 0"),
            (names(2), "0 on 0 7 5 - 0 0"),
            (kernel(0, -2, 2), "0 run 5 0 - - 0 30"),
            (names(1), "0 on 5 8 1 - 0 0"),
        ],
    );
    assert_eq!((desk.living_of(0), desk.living_of(1), desk.living_of(2)), (1, 0, 2));
}

#[test]
fn clocks() {
    // "Gap 2,147,483,647, 2,147,483,648", "Clock from 4,294,967,295 to 4 (gap 5)"
    let mut desk = family(0);
    refuses(&desk, kernel(GAP_MAX + 1, -6, 0), 2);
    play(&mut desk, [(kernel(GAP_MAX, -6, 0), "0 on 0 2147483647 - - 0 0")]);
    let mut desk = Desk::fresh(u32::MAX, ZERO, ALL, 1).unwrap();
    play(&mut desk, [(kernel(4, -6, 0), "0 on 0 5 - - 0 0")]);
    // The gap of a refused event is part of the next one's.
    let mut desk = family(0);
    play(
        &mut desk,
        [
            (kernel(10, -7, 0), "0 wait - - - - 0 0"),
            (kernel(20, -6, 0), "4 none - - - - 0 0"),
            (interrupt(30, 2, 0, 0), "0 run 0 - - - 1 0"),
            (kernel(31, -6, 0), "0 on 0 11 - - 0 0"),
        ],
    );
    assert_eq!((desk.processors[0].idle, desk.total), (20, 31));
}

#[test]
fn semaphores() {
    // "P at 1, at 0 alone (panic)": a shared semaphore's waiter is no reason to wait.
    let mut desk = fresh(3, 1);
    play(&mut desk, [(kernel(0, -3, 3), "0 on 0 - - - 0 0"), (kernel(0, -3, 3), "0 panic - - - - 0 0")]);
    refuses(&desk, interrupt(0, 2, 0, 0), 1);
    // "V with a waiter", first come first; "Kill of a waiter, then V (value rises)"
    let mut desk = family(3);
    play(
        &mut desk,
        [
            (kernel(0, -10, 0), "0 run 1 - - - 0 0"),
            (kernel(0, -3, 0), "0 run 2 - - - 0 0"),
            (kernel(0, -3, 0), "0 run 3 - - - 0 0"),
            (kernel(0, -3, 0), "0 run 0 - - - 0 0"),
            (kernel(0, -2, 3), "0 run 0 0 - - 0 4"),
            (kernel(0, -4, 0), "0 on 0 - - - 2 0"),
            (kernel(0, -4, 0), "0 on 0 - - - 8 0"),
            (kernel(0, -4, 0), "0 on 0 - - - 0 0"),
        ],
    );
    assert_eq!((desk.values[0], &desk.ready.low), (1, &VecDeque::from([1, 3])));
    // "V at the top, no handle (dies)"; with a handle it is passed up, and not carried out.
    let mut desk = fresh(31, VALUE_MAX);
    play(
        &mut desk,
        [
            (create(0, -1, 0, 5), "0 on 0 2 1 - 0 0"),
            (kernel(0, -10, 0), "0 run 1 - - - 0 0"),
            (kernel(0, -4, 31), "0 up1 1 - - - 0 0"),
            (kernel(0, -3, 31), "0 on 1 - - - 0 0"),
            (kernel(0, -4, 31), "0 on 1 - - - 0 0"),
            (kernel(0, -10, 0), "0 run 0 - - - 0 0"),
            (kernel(0, -4, 31), "0 halt - - - - 0 3"),
        ],
    );
    assert_eq!(desk.values[31], VALUE_MAX);
}

#[test]
fn devices() {
    // "Line 7, bytes 2 and 1 (device 0 receipt wins)"
    let mut desk = family(0);
    play(
        &mut desk,
        [
            (interrupt(0, 7, 2, 1), "0 on 0 - - 40 0 0"),
            (interrupt(0, 7, 2, 2), "0 on 0 - - 33 0 0"),
            (interrupt(0, 7, 0, 128), "0 on 0 - - 47 0 0"),
            (interrupt(0, 3, 255, 0), "0 on 0 - - 0 0 0"),
            (interrupt(0, 6, 128, 1), "0 on 0 - - 31 0 0"),
            // No permit was stored.
            (kernel(0, -5, 40), "0 wait - - - 40 0 0"),
            (interrupt(0, 7, 1, 1), "0 wait - - - 32 0 0"),
            (interrupt(0, 2, 9, 9), "0 wait - - - - 0 0"),
            (interrupt(0, 7, 2, 1), "0 run 0 - - 40 1 0"),
        ],
    );
    // "Tick with nobody waiting", and with two
    let mut desk = family(2);
    play(
        &mut desk,
        [
            (interrupt(0, 2, 0, 0), "0 on 0 - - - 0 0"),
            (kernel(0, -7, 0), "0 run 1 - - - 0 0"),
            (kernel(0, -7, 0), "0 run 2 - - - 0 0"),
            (interrupt(0, 2, 0, 0), "0 on 2 - - - 3 0"),
            (interrupt(0, 1, 0, 0), "0 run 0 - - - 0 0"),
        ],
    );
    assert_eq!(desk.ready.low, [1, 2]);
}

#[test]
fn kills() {
    // "Kill by a child of its parent (both end)": a grandchild in a line ends too.
    let mut desk = family(1);
    play(
        &mut desk,
        [
            (kernel(0, -10, 0), "0 run 1 - - - 0 0"),
            (kernel(0, -1, 0), "0 on 1 3 2 - 0 0"),
            (kernel(0, -9, 1), "0 on 1 1 - - 0 0"),
            (kernel(0, -10, 0), "0 run 0 - - - 0 0"),
            (kernel(0, -10, 0), "0 run 2 - - - 0 0"),
            (kernel(0, -1, 0), "0 on 2 4 3 - 0 0"),
            (kernel(0, -5, 9), "0 run 1 - - 9 0 0"),
            (kernel(0, -10, 0), "0 run 0 - - - 0 0"),
            (kernel(0, -10, 0), "0 run 3 - - - 0 0"),
            (kernel(0, -2, 2), "0 run 0 - - - 0 14"),
            (interrupt(0, 4, 2, 0), "0 on 0 - - 9 0 0"),
            // The dead, the unborn and the impossible; then a new id in an old slot.
            (kernel(0, -2, 2), "0 on 0 -1 - - 0 0"),
            (kernel(0, -2, 5), "0 on 0 -1 - - 0 0"),
            (kernel(0, -2, 0x8000_0001), "0 on 0 -1 - - 0 0"),
            (kernel(0, -1, 0), "0 on 0 5 1 - 0 0"),
            (kernel(0, -2, 1), "0 halt - - - - 0 3"),
        ],
    );
}

#[test]
fn killers_that_survive() {
    // "to the end of its ready line with result 0, then schedule": the result is told although
    // another runs, and each gap is still charged to whoever ran.
    let mut desk = family(4);
    play(
        &mut desk,
        [
            (kernel(7, -2, 3), "0 run 1 0 - - 0 4"),
            (kernel(9, -6, 0), "0 on 1 2 - - 0 0"),
            // A sibling that is next; the second killer goes behind the first.
            (kernel(9, -2, 4), "0 run 4 0 - - 0 8"),
            (kernel(9, -10, 0), "0 run 0 - - - 0 0"),
            (kernel(10, -6, 0), "0 on 0 8 - - 0 0"),
            (kernel(10, -10, 0), "0 run 1 - - - 0 0"),
        ],
    );
    assert_eq!((desk.running_at(0), &desk.ready.low), (Some(1), &VecDeque::from([4, 0])));
    // Nobody else is ready: the killer runs again, also where others wait.
    let mut desk = family(2);
    play(
        &mut desk,
        [
            (kernel(0, -2, 2), "0 run 2 0 - - 0 2"),
            (kernel(0, -7, 0), "0 run 0 - - - 0 0"),
            (kernel(0, -1, 0), "0 on 0 4 1 - 0 0"),
            (kernel(0, -2, 4), "0 run 0 0 - - 0 2"),
            (kernel(0, -2, 3), "0 run 0 0 - - 0 4"),
            (interrupt(0, 2, 0, 0), "0 on 0 - - - 0 0"),
        ],
    );
    // "An id that names nobody still gives −1 and carries on": the line stays as it was.
    let mut desk = family(2);
    let before = desk.clone();
    play(
        &mut desk,
        [(kernel(0, -2, 4), "0 on 0 -1 - - 0 0"), (kernel(0, -2, u32::MAX), "0 on 0 -1 - - 0 0")],
    );
    assert_eq!(desk, before);
}

/// A living id that may not be named: −1, nobody ends, and the caller carries on.
#[track_caller]
fn hands_off(desk: &Desk, ids: &[u32]) {
    let caller = desk.running_at(0).unwrap();
    for &id in ids {
        let mut after = desk.clone();
        assert!(desk.find(id).is_some());
        assert_eq!(say(&mut after, kernel(0, -2, id)), format!("0 on {caller} -1 - - 0 0 0"), "id {id}");
        assert_eq!(&after, desk);
    }
}

/// Id 1 has ids 2 and 3 of customer 1, 4 of customer 2 and 5 of customer 0; 6 and 7 are id 2's, 8
/// is id 3's, 9 is id 6's. Id 6 runs, and then come the slots 6, 1, 7, 2, 3, 4, 0, 8.
fn customers() -> Desk {
    let mut desk = with_ceilings([4, 6, 3, 0, 0, 0, 0, 0, 0]);
    let turn = kernel(0, -10, 0);
    let births = [vec![1, 1, 2, 0], vec![1, 1], vec![1], vec![], vec![], vec![], vec![1]];
    for (number, children) in births.into_iter().enumerate() {
        if number > 0 {
            desk.event(&turn);
        }
        children.into_iter().for_each(|customer| assert!(desk.event(&names(customer)).newborn.is_some()));
    }
    assert_eq!((desk.running_at(0), &desk.ready.low), (Some(5), &VecDeque::from([6, 1, 7, 2, 3, 4, 0, 8])));
    desk
}

#[test]
fn hands_off_others() {
    // Ancestors, a sibling, an uncle and a cousin; another customer's, and customer 0's.
    let mut desk = customers();
    hands_off(&desk, &[1, 2, 7, 3, 8, 4, 5]);
    // "only the caller itself or its own descendants": by its id, deeper ones, by 0.
    play(
        &mut desk,
        [
            (kernel(0, -10, 0), "0 run 6 - - - 0 0"),
            (kernel(0, -2, 7), "0 run 1 - - - 0 64"),
            (kernel(0, -2, 9), "0 run 7 0 - - 0 256"),
            (kernel(0, -2, 0), "0 run 2 - - - 0 128"),
        ],
    );
    hands_off(&desk, &[1, 2, 6, 4, 5]);
    play(&mut desk, [(kernel(0, -10, 0), "0 run 3 - - - 0 0")]);
    hands_off(&desk, &[1, 2, 6, 3, 5]);
    // "customer 0 may still name anyone": beside it, and above it.
    play(
        &mut desk,
        [
            (kernel(0, -10, 0), "0 run 4 - - - 0 0"),
            (kernel(0, -2, 4), "0 run 0 0 - - 0 8"),
            (kernel(0, -10, 0), "0 run 5 - - - 0 0"),
            (kernel(0, -10, 0), "0 run 1 - - - 0 0"),
            (kernel(0, -2, 6), "0 run 2 0 - - 0 32"),
            (kernel(0, -10, 0), "0 run 4 - - - 0 0"),
            (kernel(0, -2, 1), "0 halt - - - - 0 23"),
        ],
    );
    // Dying of a trap is no terminate: the family below ends, as ever.
    let mut desk = customers();
    play(&mut desk, [(exception(0, 0), "0 run 6 - - - 0 288")]);
}

#[test]
fn small_calls() {
    let mut desk = family(0);
    play(
        &mut desk,
        [
            (kernel(0, -10, 0), "0 run 0 - - - 0 0"),
            (interrupt(0, 1, 0, 0), "0 run 0 - - - 0 0"),
            (kernel(0, -8, 0), "0 on 0 0 - - 0 0"),
            (kernel(0, -9, 0), "0 on 0 1 - - 0 0"),
            (kernel(0, -9, 9), "0 on 0 0 - - 0 0"),
            (create(0, -1, 0, u32::MAX), "0 on 0 2 1 - 0 0"),
            (kernel(0, -10, 0), "0 run 1 - - - 0 0"),
            (kernel(0, -8, 1), "0 on 1 4294967295 - - 0 0"),
            (kernel(0, -9, 0), "0 on 1 2 - - 0 0"),
            (kernel(0, -2, 2), "0 run 0 - - - 0 2"),
        ],
    );
}

#[test]
fn pass_up_or_die() {
    let general = [
        user(0, -1),
        user(0, -10),
        user(0, 0),
        user(0, 1),
        kernel(0, 0, 0),
        kernel(0, -11, 0),
        kernel(0, i32::MIN, 0),
        kernel(0, 1, 0),
        kernel(0, i32::MAX, 0),
        kernel(0, -3, 32),
        kernel(0, -4, 32),
        kernel(0, -3, 1 << 31),
        kernel(0, -5, 48),
        kernel(0, -5, u32::MAX),
    ];
    let traps = (0..24).filter(|code| ![8, 11].contains(code)).map(|code| exception(0, code));
    let general = general.into_iter().chain(traps).map(|event| (event, 1));
    for (event, kind) in general.chain((24..29).map(|code| (exception(0, code), 0))) {
        let mut desk = family(1);
        desk.event(&kernel(0, -10, 0));
        let before = desk.clone();
        play(&mut desk, [(event, &format!("0 up{kind} 1 - - - 0 0"))]);
        assert_eq!(desk, before);
        desk.event(&kernel(0, -10, 0));
        play(&mut desk, [(event, "0 halt - - - - 0 3")]);
    }
}

#[test]
fn refusals_in_order() {
    let bad_interrupts = [(0, 1, 1), (8, 1, 1), (255, 1, 1), (3, 0, 1), (6, 0, 1), (7, 0, 0)];
    let bad_codes = [8, 11, 29, 255];
    let back = u32::MAX;
    let running = family(1);
    let mut waiting = family(0);
    waiting.event(&kernel(0, -7, 0));
    let mut halted = family(1);
    halted.event(&kernel(0, -2, 0));
    for (line, first, second) in bad_interrupts {
        for clock in [0, back] {
            refuses(&running, interrupt(clock, line, first, second), 5);
            refuses(&waiting, interrupt(clock, line, first, second), 5);
            refuses(&halted, interrupt(clock, line, first, second), 1);
        }
    }
    for code in bad_codes {
        for clock in [0, back] {
            refuses(&running, exception(clock, code), 6);
            refuses(&waiting, exception(clock, code), 6);
            refuses(&halted, exception(clock, code), 1);
        }
    }
    // "the sum of accepted gaps would exceed": exactly 2 to the 62 is allowed.
    let (mut full, mut waiting_full) = (running.clone(), waiting.clone());
    full.total = TOTAL_MAX - 9;
    waiting_full.total = TOTAL_MAX - 9;
    let needy = |clock| [kernel(clock, -6, 0), exception(clock, 0), interrupt(clock, 1, 0, 0)];
    for at in 0..3 {
        refuses(&running, needy(back)[at], 2);
        refuses(&full, needy(back)[at], 2);
        refuses(&full, needy(10)[at], 3);
        assert_eq!(full.clone().event(&needy(9)[at]).refusal, None);
        refuses(&waiting_full, needy(10)[at], 3);
        refuses(&waiting, needy(back)[at], 2);
        refuses(&waiting, needy(10)[at], 4);
        refuses(&halted, needy(10)[at], 1);
    }
    refuses(&waiting, interrupt(back, 2, 0, 0), 2);
    refuses(&halted, interrupt(0, 2, 0, 0), 1);
}

/// Id 1 runs on processor 0, and id 2, its child, on processor 1.
fn both_run(processors: u8) -> Desk {
    let mut desk = several(processors);
    play(
        &mut desk,
        [(kernel(10, -1, 0), "0 on 0 2 1 - 0 0"), (at(1, interrupt(30, 2, 0, 0)), "0 run 1 - - - 0 0")],
    );
    desk
}

#[test]
fn processors_of_their_own() {
    // "Id 1 starts on processor 0, all clocks at the start's": the others are idle from then on.
    let mut desk = Desk::fresh(1000, ZERO, ALL, 3).unwrap();
    refuses(&desk, at(1, kernel(1010, -6, 0)), 4);
    refuses(&desk, at(2, exception(1010, 0)), 4);
    refuses(&desk, at(2, interrupt(1010, 1, 0, 0)), 4);
    refuses(&desk, at(1, interrupt(999, 2, 0, 0)), 2);
    play(
        &mut desk,
        [
            (kernel(1500, -1, 0), "0 on 0 2 1 - 0 0"),
            // Its clock may be behind another's, and not behind its own.
            (at(1, interrupt(1030, 2, 0, 0)), "0 run 1 - - - 0 0"),
            (at(1, kernel(1029, -6, 0)), "2 none - - - - 0 0"),
            (kernel(1499, -6, 0), "2 none - - - - 0 0"),
            (at(1, kernel(1035, -6, 0)), "0 on 1 5 - - 0 0"),
            (kernel(1501, -6, 0), "0 on 0 501 - - 0 0"),
            (at(2, interrupt(1000, 2, 0, 0)), "0 wait - - - - 0 0"),
        ],
    );
    let idle: Vec<u64> = desk.processors.iter().map(|processor| processor.idle).collect();
    assert_eq!((idle, desk.total), (vec![0, 30, 0], 536));
    // "3 of all gaps together": exactly 2 to the 62 is allowed.
    desk.total = TOTAL_MAX - 9;
    refuses(&desk, at(1, kernel(1045, -6, 0)), 3);
    refuses(&desk, at(2, interrupt(1010, 2, 0, 0)), 3);
    refuses(&desk, at(2, kernel(1010, -6, 0)), 3);
    assert_eq!(desk.event(&at(2, interrupt(1009, 2, 0, 0))).refusal, None);
}

#[test]
fn processors_out_of_range() {
    // "refused with 7, after 1", and before 5, 6, 2, 3, 4
    for processors in 1..=PROCESSORS as u8 {
        let desk = several(processors);
        for number in [processors, 8, 9, 128, 255] {
            for clock in [0, u32::MAX] {
                refuses(&desk, at(number, kernel(clock, -6, 0)), 7);
                refuses(&desk, at(number, interrupt(clock, 0, 0, 0)), 7);
                refuses(&desk, at(number, exception(clock, 8)), 7);
            }
            let mut halted = desk.clone();
            play(&mut halted, [(kernel(0, -2, 0), "0 halt - - - - 0 1")]);
            refuses(&halted, at(number, kernel(0, -6, 0)), 1);
        }
    }
}

#[test]
fn shared_lines() {
    // "a processor waits also when another is running somebody; panic needs that nobody runs anywhere"
    let mut desk = both_run(2);
    play(
        &mut desk,
        [(kernel(40, -3, 0), "0 wait - - - - 0 0"), (at(1, kernel(40, -3, 1)), "0 panic - - - - 0 0")],
    );
    for number in [0, 1, 2] {
        refuses(&desk, at(number, interrupt(50, 2, 0, 0)), 1);
    }
    // "A wake on one processor doesn't start an idle one; an interrupt of lines 2 to 7 there does."
    let mut desk = both_run(3);
    play(
        &mut desk,
        [
            (kernel(40, -3, 0), "0 wait - - - - 0 0"),
            (at(1, kernel(50, -4, 0)), "0 on 1 - - - 1 0"),
            (kernel(60, -6, 0), "4 none - - - - 0 0"),
            (at(1, interrupt(60, 2, 0, 0)), "0 on 1 - - - 0 0"),
            (at(2, interrupt(70, 4, 8, 0)), "0 run 0 - - 11 0 0"),
            (at(2, kernel(75, -6, 0)), "0 on 0 45 - - 0 0"),
            (interrupt(80, 7, 1, 0), "0 wait - - - 32 0 0"),
        ],
    );
    // A tick on an idle processor wakes two, and runs the first there.
    let mut desk = both_run(2);
    play(
        &mut desk,
        [
            (kernel(40, -7, 0), "0 wait - - - - 0 0"),
            (at(1, kernel(40, -7, 0)), "0 wait - - - - 0 0"),
            (at(1, interrupt(41, 2, 0, 0)), "0 run 0 - - - 3 0"),
            (interrupt(42, 2, 0, 0), "0 run 1 - - - 0 0"),
        ],
    );
}

#[test]
fn kills_elsewhere() {
    // "leaves that one idle and names it": it starts nobody, though the killer is ready.
    let mut desk = both_run(2);
    play(
        &mut desk,
        [(at(1, kernel(32, -6, 0)), "0 on 1 2 - - 0 0"), (kernel(35, -1, 0), "0 on 0 3 2 - 0 0")],
    );
    leaves(&mut desk, kernel(40, -2, 2), "0 run 2 0 - - 0 2", 2);
    assert_eq!((&desk.ready.low, desk.running_at(1)), (&VecDeque::from([0]), None));
    refuses(&desk, at(1, kernel(50, -6, 0)), 4);
    // "a gap during which such a kill came is wholly idle": from 32 to 60, beside the first 30.
    play(&mut desk, [(at(1, interrupt(60, 2, 0, 0)), "0 run 0 - - - 0 0")]);
    assert_eq!((desk.processors[1].idle, desk.ended_time, desk.total), (58, 2, 100));
    // Dying of a trap, and beside halt; a child's kill of its parent doesn't name its own processor.
    leaves(&mut both_run(2), exception(40, 0), "0 halt - - - - 0 3", 2);
    leaves(&mut both_run(2), at(1, kernel(40, -2, 1)), "0 halt - - - - 0 3", 1);
    // Two at once: id 3, id 2's child, runs on processor 7 of eight.
    let mut desk = both_run(8);
    play(
        &mut desk,
        [
            (at(1, kernel(31, -1, 0)), "0 on 1 3 2 - 0 0"),
            (at(7, interrupt(32, 2, 0, 0)), "0 run 2 - - - 0 0"),
        ],
    );
    leaves(&mut desk, kernel(40, -2, 2), "0 run 0 0 - - 0 6", 128 + 2);
    // One in a line ends: no processor is named.
    let mut desk = both_run(2);
    play(
        &mut desk,
        [
            (at(1, kernel(40, -5, 3)), "0 wait - - - 3 0 0"),
            (kernel(50, -2, 2), "0 run 0 0 - - 0 2"),
            (at(1, interrupt(60, 3, 8, 0)), "0 wait - - - 3 0 0"),
        ],
    );
    // "hands off": whoever runs elsewhere runs on.
    let mut desk = Desk::fresh(0, ZERO, [2, 2, 2, 0, 0, 0, 0, 0, 0], 3).unwrap();
    play(
        &mut desk,
        [
            (names(1), "0 on 0 2 1 - 0 0"),
            (names(2), "0 on 0 3 2 - 0 0"),
            (at(1, interrupt(0, 2, 0, 0)), "0 run 1 - - - 0 0"),
            (at(2, interrupt(0, 2, 0, 0)), "0 run 2 - - - 0 0"),
            (at(1, kernel(0, -2, 3)), "0 on 1 -1 - - 0 0"),
            (at(2, kernel(0, -2, 1)), "0 on 2 -1 - - 0 0"),
            (at(2, kernel(5, -6, 0)), "0 on 2 5 - - 0 0"),
        ],
    );
}

/// Id 1, low, with a child of each of these priorities, so that ids 2, 3, .. are in slots 1, 2, ..
fn ranks(priorities: &[u32]) -> Desk {
    let mut desk = family(0);
    priorities.iter().for_each(|&a2| assert!(desk.event(&birth(a2)).newborn.is_some()));
    desk
}

#[test]
fn high_and_low() {
    // "a2 mod 256 equal to 1 is high, all else low", whichever customer creates. Id 1 is low.
    let mut desk = with_ceilings([20, 20, 20, 0, 0, 0, 0, 0, 0]);
    for a2 in [0, 1, 2, 3, 129, 255, 256, 257, 511, 512, 513, 514] {
        assert!(desk.event(&birth(a2)).newborn.is_some());
    }
    assert_eq!((&desk.ready.high, desk.process(8).customer), (&VecDeque::from([2, 8, 11]), 1));
    assert_eq!(desk.ready.low, [1, 3, 4, 5, 6, 7, 9, 10, 12]);
    play(&mut desk, [(kernel(0, -7, 0), "0 run 2 - - - 0 0"), (kernel(0, -7, 0), "0 run 8 - - - 0 0")]);
    for a2 in [1, 2, 0x0901, 0x10001, 0xffff_ff01, 0xffff_ff02, 0x0100_0000] {
        assert!(desk.event(&birth(a2)).newborn.is_some());
    }
    assert_eq!(desk.ready.high, [11, 13, 15, 16, 17]);
    // Id 1 and a high one are woken by one tick: each to its own line, while whoever runs carries on.
    play(&mut desk, [(interrupt(0, 2, 0, 0), "0 on 8 - - - 5 0")]);
    assert_eq!((desk.ready.high.back(), desk.ready.low.back()), (Some(&2), Some(&0)));
}

#[test]
fn four_in_a_row() {
    // "when four high ones in a row were chosen while a low one was waiting, the first low one"
    let turn = || kernel(0, -10, 0);
    let mut desk = ranks(&[1, 1, 1, 1, 1, 0]);
    play(
        &mut desk,
        [
            (kernel(0, -7, 0), "0 run 1 - - - 0 0"),
            (turn(), "0 run 2 - - - 0 0"),
            (interrupt(0, 1, 0, 0), "0 run 3 - - - 0 0"),
            (kernel(0, -7, 0), "0 run 4 - - - 0 0"),
            (turn(), "0 run 6 - - - 0 0"),
            // It "returns to nought when a low one is chosen".
            (turn(), "0 run 5 - - - 0 0"),
            (turn(), "0 run 1 - - - 0 0"),
            (turn(), "0 run 2 - - - 0 0"),
            (turn(), "0 run 4 - - - 0 0"),
            (turn(), "0 run 6 - - - 0 0"),
        ],
    );
    // "or at a choice made with the low line empty": a high one counts only where a low one waits.
    let mut desk = ranks(&[1, 1]);
    play(
        &mut desk,
        [
            (kernel(0, -7, 0), "0 run 1 - - - 0 0"),
            (turn(), "0 run 2 - - - 0 0"),
            (turn(), "0 run 1 - - - 0 0"),
            (birth(0), "0 on 1 4 3 - 0 0"),
            (turn(), "0 run 2 - - - 0 0"),
            (turn(), "0 run 1 - - - 0 0"),
            (turn(), "0 run 2 - - - 0 0"),
            (turn(), "0 run 1 - - - 0 0"),
            // Four are counted. Its child ends, so that there is no first low one, and another is born.
            (kernel(0, -2, 4), "0 run 2 0 - - 0 8"),
            (birth(2), "0 on 2 5 3 - 0 0"),
            (turn(), "0 run 1 - - - 0 0"),
            (turn(), "0 run 2 - - - 0 0"),
            (turn(), "0 run 1 - - - 0 0"),
            (turn(), "0 run 2 - - - 0 0"),
            (turn(), "0 run 3 - - - 0 0"),
        ],
    );
}

#[test]
fn four_counted_over_a_wait() {
    // Both lines empty is no choice. Id 1, low, and id 3, high, wait; id 2 yields before its low child
    // until four are counted, and ends with it; the tick wakes both, and the low one runs.
    let turn = || kernel(0, -10, 0);
    let mut desk = ranks(&[1, 1]);
    play(
        &mut desk,
        [
            (kernel(0, -7, 0), "0 run 1 - - - 0 0"),
            (birth(0), "0 on 1 4 3 - 0 0"),
            (turn(), "0 run 2 - - - 0 0"),
            (kernel(0, -7, 0), "0 run 1 - - - 0 0"),
            (turn(), "0 run 1 - - - 0 0"),
            (turn(), "0 run 1 - - - 0 0"),
            (kernel(0, -2, 0), "0 wait - - - - 0 10"),
            (interrupt(0, 3, 1, 0), "0 wait - - - 0 0 0"),
            (interrupt(0, 2, 0, 0), "0 run 0 - - - 5 0"),
            (turn(), "0 run 2 - - - 0 0"),
        ],
    );
}

#[test]
fn killers_of_both_priorities() {
    // "goes to the end of its ready line": a high killer before low ones, until four are counted.
    let mut desk = ranks(&[0, 0, 0, 0, 0, 0, 1]);
    desk.event(&kernel(0, -10, 0));
    for slot in 1..=3 {
        play(&mut desk, [(kernel(0, -2, slot + 1), &format!("0 run 7 0 - - 0 {}", 1 << slot))]);
    }
    play(
        &mut desk,
        [
            (kernel(0, -2, 5), "0 run 5 0 - - 0 16"),
            (kernel(0, -2, 7), "0 run 7 0 - - 0 64"),
            (kernel(0, -2, 99), "0 on 7 -1 - - 0 0"),
        ],
    );
    assert_eq!((&desk.ready.low, desk.ready.count), (&VecDeque::from([0, 5]), 1));
}

#[test]
fn one_count_for_all_processors() {
    let mut desk = several(3);
    for a2 in [1, 1, 1, 1, 1, 0] {
        desk.event(&birth(a2));
    }
    let tick = interrupt(0, 2, 0, 0);
    play(
        &mut desk,
        [
            (at(1, tick), "0 run 1 - - - 0 0"),
            (at(2, tick), "0 run 2 - - - 0 0"),
            (at(1, kernel(0, -7, 0)), "0 run 3 - - - 0 0"),
            (at(0, kernel(0, -7, 0)), "0 run 4 - - - 0 0"),
            (at(2, kernel(0, -7, 0)), "0 run 6 - - - 0 0"),
            (at(1, kernel(0, -7, 0)), "0 run 5 - - - 0 0"),
            // Nobody is started by a wake, whatever its priority.
            (at(2, tick), "0 on 6 - - - 15 0"),
        ],
    );
}

#[test]
fn refused_starts() {
    let (too_large, bad) = (Err(StartRefusal::ValueTooLarge), Err(StartRefusal::BadCeilings));
    // "0 or above 8 is refused with 29, after 27"
    for processors in [0, 9, 128, 255] {
        assert_eq!(Desk::fresh(9, ZERO, ALL, processors), Err(StartRefusal::BadProcessors));
        assert_eq!(Desk::fresh(9, ZERO, [0; CUSTOMERS], processors), bad);
        assert_eq!(Desk::fresh(9, [VALUE_MAX + 1; SEMAPHORES], [0; CUSTOMERS], processors), too_large);
    }
    for processors in 1..=8 {
        assert!(Desk::fresh(9, ZERO, ALL, processors).is_ok());
    }
    let mut values = ZERO;
    values[31] = VALUE_MAX;
    assert!(Desk::fresh(9, values, ALL, 1).is_ok());
    values[31] += 1;
    // "refusal 27 after 24"
    assert_eq!(Desk::fresh(9, values, ALL, 1), too_large);
    assert_eq!(Desk::fresh(9, values, [0; CUSTOMERS], 1), too_large);
    for allowed in [[1, 0, 0, 0, 0, 0, 0, 0, 0], [1, 0, 0, 0, 0, 0, 0, 0, 63], [8, 7, 7, 7, 7, 7, 7, 7, 7]] {
        assert!(Desk::fresh(9, ZERO, allowed, 1).is_ok());
    }
    for refused in [
        [0; CUSTOMERS],
        [0, 20, 0, 0, 0, 0, 0, 0, 0],
        [65, 0, 0, 0, 0, 0, 0, 0, 0],
        [1, 0, 0, 0, 0, 0, 0, 0, 64],
        [8, 7, 7, 7, 7, 7, 7, 7, 8],
        [1, 255, 0, 0, 0, 0, 0, 0, 0],
        [256, 0, 0, 0, 0, 0, 0, 0, 0],
        [1, 65_535, 1, 0, 0, 0, 0, 0, 0],
        [32_768, 32_768, 0, 0, 0, 0, 0, 0, 0],
        [65_535; CUSTOMERS],
    ] {
        assert_eq!(Desk::fresh(9, ZERO, refused, 1), bad);
    }
    let desk = Desk::refused();
    assert_eq!(desk.processors.len(), 1);
    assert_eq!((desk.alive(), desk.last_id, desk.processors[0].clock, desk.total), (0, 1, 0, 0));
    assert_eq!(desk.ceilings, [1, 0, 0, 0, 0, 0, 0, 0, 0]);
    refuses(&desk, interrupt(0, 2, 0, 0), 1);
}

/// The rule of the tables, after every event of the plain logs of the gate's seeds.
#[test]
fn tables_stay_in_order() {
    for seed in SEEDS {
        let bytes = generate::log(seed, EVENTS);
        let log = log::open(&bytes).unwrap();
        let mut desk = log.start.desk();
        let mut choices = Vec::new();
        for event in log.events {
            let before = desk.clone();
            let event = event.unwrap();
            let answer = desk.event(&event);
            in_order(&desk);
            if let Action::Run(slot) = answer.action {
                chosen_as_said(&mut choices, slot, &desk);
            }
            own_family_ends(&before, &event, &answer);
            left_idle(&before, &event, &answer, &desk);
            assert_eq!(desk.ceilings, log.start.ceilings);
        }
    }
}

/// While another than customer 0 runs, only that process and those below it end, all its customer's.
fn own_family_ends(before: &Desk, event: &Event, answer: &Answer) {
    let running = before.running_at(event.processor).map(|slot| before.process(slot));
    let Some(running) = running.filter(|running| running.customer != 0) else {
        return;
    };
    for slot in (0..SLOTS).filter(|slot| answer.ended >> slot & 1 == 1) {
        let ended = before.process(slot);
        assert_eq!(ended.customer, running.customer);
        assert!(before.descent(ended).any(|process| process.id == running.id));
    }
}

/// The mask names the other processors whose process ended, and nothing else changes there: not
/// who runs, not the clock, not the idle time.
fn left_idle(before: &Desk, event: &Event, answer: &Answer, after: &Desk) {
    for (number, (was, is)) in before.processors.iter().zip(&after.processors).enumerate() {
        let named = answer.left_idle >> number & 1 == 1;
        if number == event.processor.into() {
            assert!(!named);
            continue;
        }
        let ended = was.running.is_some_and(|slot| answer.ended >> slot & 1 == 1);
        assert_eq!(ended, named);
        let running = was.running.filter(|_| !ended);
        assert_eq!(*is, Processor { running, ..was.clone() });
    }
}

/// "first of the high line, or of the low if that is empty, but when four high ones in a row were chosen
/// while a low one was waiting, the first low one", by all the choices so far: of a high one, and while
/// a low one was waiting.
fn chosen_as_said(choices: &mut Vec<(bool, bool)>, slot: usize, after: &Desk) {
    let is_high = after.process(slot).is_high();
    let high = is_high || !after.ready.high.is_empty();
    let low = !is_high || !after.ready.low.is_empty();
    let in_a_row = choices.iter().rev().take_while(|&&choice| choice == (true, true)).count();
    assert_eq!(is_high, high && !(low && in_a_row == 4));
    choices.push((is_high, low));
}

fn in_order(desk: &Desk) {
    let times: u64 = desk.living().map(|process| process.time).sum();
    let idle: u64 = desk.processors.iter().map(|processor| processor.idle).sum();
    assert_eq!(times + idle + desk.ended_time, desk.total);
    // "running on exactly one processor": each slot stands in one place, or the numbers differ.
    let mut places: Vec<(usize, Option<Line>)> = desk.runners().map(|slot| (slot, None)).collect();
    places.extend(desk.ready.high.iter().map(|&slot| (slot, Some(Line::High))));
    places.extend(desk.ready.low.iter().map(|&slot| (slot, Some(Line::Low))));
    assert!(desk.ready.high.iter().all(|&slot| desk.process(slot).is_high()));
    assert!(desk.ready.low.iter().all(|&slot| !desk.process(slot).is_high()));
    assert!(desk.ready.count <= IN_A_ROW);
    for (number, line) in desk.semaphores.iter().enumerate() {
        assert!(line.is_empty() || desk.values[number] == 0);
        places.extend(line.iter().map(|&slot| (slot, Some(Line::Semaphore(number)))));
    }
    for (number, line) in desk.nucleus.iter().enumerate() {
        places.extend(line.iter().map(|&slot| (slot, Some(Line::Nucleus(number)))));
    }
    assert_eq!(places.len(), desk.alive());
    for (slot, line) in places {
        let process = desk.process(slot);
        assert_eq!(process.line, line);
        assert_eq!(desk.find(process.id), Some(slot));
        assert!(process.id <= desk.last_id && process.parent < process.id);
        match desk.find(process.parent) {
            Some(parent) => assert!([0, process.customer].contains(&desk.process(parent).customer)),
            None => assert_eq!((process.parent, process.id, process.customer), (0, 1, 0)),
        }
    }
    for customer in 0..CUSTOMERS {
        assert!(desk.living_of(customer) <= desk.ceilings[customer].into());
    }
    assert!(desk.values.iter().all(|&value| value <= VALUE_MAX));
    // On: somebody runs, or nobody is ready and somebody waits on a nucleus line.
    let waits = desk.nucleus.iter().any(|line| !line.is_empty());
    let runs = desk.runners().next().is_some();
    assert_eq!(desk.over, !(runs || desk.ready.is_empty() && waits));
}
