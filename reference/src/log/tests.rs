//! The log refusals, in the first, a middle and the last field, and their order.

use super::*;
use crate::desk::VALUE_MAX;
use crate::{damage, generate};

const START: Start =
    Start { clock: 0, values: [0; SEMAPHORES], ceilings: [3, 15, 0, 0, 0, 0, 0, 0, 2], processors: 4 };

fn at(processor: u8, clock: u32, kind: Kind) -> Vec<u8> {
    Event { clock, processor, kind }.to_field()
}

fn tick(clock: u32) -> Vec<u8> {
    at(0, clock, Kind::Interrupt(Interrupt { line: 2, first: 0, second: 0 }))
}

fn call(mode: u8) -> Vec<u8> {
    let call = Call { mode: Mode::Kernel, a0: -6, a1: 1, a2: 2, a3: 3 };
    let mut field = at(0, 5, Kind::Call(call));
    field[HEAD + 5] = mode;
    field
}

fn lines(log: &[u8]) -> String {
    let mut out = Vec::new();
    run(open(log), &mut out).unwrap();
    String::from_utf8(out).unwrap()
}

/// The field as the first, a middle and the last one.
fn places(field: &[u8]) -> [String; 3] {
    let start = START.to_field();
    let log = |fields: [&[u8]; 4]| lines(&fields.concat());
    [
        log([field, &tick(1), &tick(2), &tick(3)]),
        log([&start, &tick(1), field, &tick(3)]),
        log([&start, &tick(1), &tick(2), field]),
    ]
}

#[track_caller]
fn refused(field: &[u8], first: u8, middle: u8, last: u8) {
    let one = "1 0 on 0 - - - 0 0 0\n";
    let two = "2 0 on 0 - - - 0 0 0\n";
    let expected =
        [format!("log 0 {first}\n"), format!("{one}log 2 {middle}\n"), format!("{one}{two}log 3 {last}\n")];
    assert_eq!(places(field), expected);
}

#[test]
fn layout() {
    assert_eq!(call(1), [2, 22, 0, 5, 0, 0, 0, 0, 1, 250, 255, 255, 255, 1, 0, 0, 0, 2, 0, 0, 0, 3, 0, 0, 0]);
    assert_eq!(tick(258), [3, 8, 0, 2, 1, 0, 0, 0, 2, 0, 0]);
    assert_eq!(at(6, 1, Kind::Exception { code: 9 }), [4, 6, 0, 1, 0, 0, 0, 6, 9]);
    let start = START.to_field();
    assert_eq!((start.len(), &start[..3]), (154, &[1, 151, 0][..]));
    assert_eq!(start[135..], [3, 0, 15, 0, 0, 0, 0, 0, 0, 0, 0, 0, 0, 0, 0, 0, 2, 0, 4]);
    assert_eq!(lines(&START.to_field()), "");
    assert_eq!(lines(&[START.to_field(), call(1)].concat()), "1 0 on 0 5 - - 0 0 0\n");
    assert_eq!(lines(&[START.to_field(), call(0)].concat()), "1 0 halt - - - - 0 1 0\n");
}

#[test]
fn unknown_tags_and_lengths() {
    for tag in [0, 5, 255] {
        let mut field = tick(2);
        field[0] = tag;
        refused(&field, 21, 21, 21);
        // An unknown tag is seen before its length and its end.
        refused(&[tag, 255, 255], 21, 21, 21);
    }
    for (at, byte) in [(1, 7), (1, 9), (1, 0), (2, 1), (2, 255)] {
        let mut field = tick(2);
        field[at] = byte;
        refused(&field, 22, 22, 22);
        refused(&field[..3], 22, 22, 22);
    }
}

#[test]
fn cut_short() {
    let start = START.to_field();
    for field in [&start, &tick(2), &call(1), &call(2)] {
        for length in 1..field.len() {
            let log = &field[..length];
            assert_eq!(lines(log), "log 0 20\n");
            assert_eq!(lines(&[&start[..], &tick(1), log].concat()), "1 0 on 0 - - - 0 0 0\nlog 2 20\n");
        }
    }
}

#[test]
fn order_values_and_modes() {
    // "23 first field not a start, or a later one is": before 24 and 25
    let mut start = START;
    refused(&call(2), 23, 25, 25);
    refused(&call(255), 23, 25, 25);
    assert_eq!(places(&call(1))[0], "log 0 23\n");
    for number in [0, 16, 31] {
        start.values[number] = VALUE_MAX;
        assert_eq!(lines(&start.to_field()), "");
        assert_eq!(places(&start.to_field())[1], "1 0 on 0 - - - 0 0 0\nlog 2 23\n");
        start.values[number] += 1;
        refused(&start.to_field(), 24, 23, 23);
        start.values = [0; SEMAPHORES];
    }
}

#[test]
fn ceilings() {
    // "else refusal 27 after 24": and after 23
    let with = |ceilings| Start { ceilings, ..START };
    for refused in [
        [0, 20, 0, 0, 0, 0, 0, 0, 0],
        [1, 0, 0, 0, 0, 0, 0, 0, 64],
        [1, 0, 0, 0, 0, 0, 0, 0, 256],
        [1, 65_535, 1, 0, 0, 0, 0, 0, 0],
    ] {
        refused_start(&with(refused), 27);
        let mut start = with(refused);
        start.values[31] = VALUE_MAX + 1;
        refused_start(&start, 24);
    }
    assert_eq!(lines(&with([1, 0, 0, 0, 0, 0, 0, 0, 63]).to_field()), "");
    // A start without processors, or without ceilings too: with the new length, and with its own.
    for (end, length) in [(153, 150), (135, 132)] {
        let mut start = START.to_field();
        start.truncate(end);
        assert_eq!(lines(&start), "log 0 20\n");
        start[1] = length;
        refused(&start, 22, 22, 22);
    }
}

#[test]
fn processors() {
    // "0 or above 8 is refused with 29, after 27 wherever that is"
    for processors in [0, 9, 255] {
        let start = Start { processors, ..START };
        refused_start(&start, 29);
        refused_start(&Start { ceilings: [0; CUSTOMERS], ..start }, 27);
        refused_start(&Start { values: [VALUE_MAX + 1; SEMAPHORES], ..start }, 24);
    }
    for processors in 1..=8 {
        assert_eq!(lines(&Start { processors, ..START }.to_field()), "");
    }
    // An out-of-range byte is the desk's 7, and the reading goes on.
    let tick_at = |processor| at(processor, 1, Kind::Interrupt(Interrupt { line: 2, first: 0, second: 0 }));
    let log = [START.to_field(), tick_at(3), tick_at(4), tick_at(255), tick_at(0)].concat();
    let seven = "7 none - - - - 0 0 0";
    assert_eq!(lines(&log), format!("1 0 wait - - - - 0 0 0\n2 {seven}\n3 {seven}\n4 0 on 0 - - - 0 0 0\n"));
}

#[track_caller]
fn refused_start(start: &Start, number: u8) {
    refused(&start.to_field(), number, 23, 23);
}

#[test]
fn empty_and_long() {
    assert_eq!(lines(&[]), "log 0 23\n");
    let mut long = [START.to_field(), tick(1).repeat(5943)].concat();
    assert!(long.len() < MAX_BYTES);
    assert_eq!(lines(&long).lines().count(), 5943);
    long.resize(MAX_BYTES, 3);
    assert_eq!(lines(&long).lines().last(), Some("log 5944 22"));
    long.push(3);
    assert_eq!(lines(&long), "log 0 26\n");
}

#[test]
fn reading_goes_on_after_halt() {
    let log = [START.to_field(), call(0), tick(1), call(2)].concat();
    assert_eq!(lines(&log), "1 0 halt - - - - 0 1 0\n2 1 none - - - - 0 0 0\nlog 3 25\n");
}

#[test]
fn generated_logs_fit() {
    let log = generate::log(1, 5000);
    assert!(log.len() <= MAX_BYTES && log.len() > MAX_BYTES - 25);
    assert!(open(&log).unwrap().events.all(|event| event.is_ok()));
    assert_eq!(log, generate::log(1, 5000));
    assert_ne!(damage::log(1, 400), generate::log(1, 400));
}
