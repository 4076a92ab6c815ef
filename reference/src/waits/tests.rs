//! Waits worked by hand, lines that cannot be so, and what generated logs, streams and floods come to.

use super::*;
use crate::count::{log_of, EVENTS, SEEDS};
use crate::desk::{CUSTOMERS, SEMAPHORES};
use crate::generate::Generator;
use crate::log::{self, Start};

/// Events with the lines, but for their numbers, that a desk prints.
type Script<'a> = &'a [(Event, &'a str)];

fn kernel(a0: i32, a1: u32, a2: u32) -> Event {
    Event { clock: 0, processor: 0, kind: Kind::Call(Call { mode: Mode::Kernel, a0, a1, a2, a3: 0 }) }
}

fn create(a2: u32) -> Event {
    kernel(-1, 0, a2)
}

fn interrupt(line: u8) -> Event {
    Event { clock: 0, processor: 0, kind: Kind::Interrupt(Interrupt { line, first: 0, second: 0 }) }
}

fn at(processor: u8, event: Event) -> Event {
    Event { processor, ..event }
}

fn yields() -> Event {
    kernel(-10, 0, 0)
}

/// For the pseudo-clock.
fn waits() -> Event {
    kernel(-7, 0, 0)
}

/// All places for customer 0, all values 0.
fn log_bytes(processors: u8, script: Script) -> Vec<u8> {
    let mut ceilings = [0; CUSTOMERS];
    ceilings[0] = SLOTS as u16;
    let start = Start { clock: 0, values: [0; SEMAPHORES], ceilings, processors };
    let events = script.iter().flat_map(|(event, _)| event.to_field());
    start.to_field().into_iter().chain(events).collect()
}

fn lines_of(script: Script) -> String {
    let lines = script.iter().zip(1..).map(|((_, line), number)| format!("{number} {line}\n"));
    lines.collect()
}

/// Where it is not whole, the complaint and the number of its line.
fn recount(log: &[u8], text: &str) -> Result<Waits, String> {
    let (mut waits, mut lines) = (Waits::default(), Lines::new(text));
    let done = waits.log(log::open_stream(log), &mut lines).and_then(|()| lines.end());
    done.map(|()| waits).map_err(|what| format!("{}: {what}", lines.number))
}

/// The lines are those of the Rust desk; the longest waits are these, by k.
#[track_caller]
fn play(processors: u8, script: Script, high: &[u64], low: &[u64]) {
    let log = log_bytes(processors, script);
    let mut printed = Vec::new();
    log::run(log::open(&log), &mut printed).unwrap();
    assert_eq!(String::from_utf8(printed).unwrap(), lines_of(script));
    let waits = recount(&log, &lines_of(script)).unwrap();
    let longest = |rank| waits.seen(rank).iter().map(|seen| seen.longest).collect::<Vec<_>>();
    assert_eq!((longest(Rank::High), longest(Rank::Low)), (high.to_vec(), low.to_vec()));
}

/// The lines with one text replaced by another give this complaint.
#[track_caller]
fn told(script: Script, old: &str, new: &str, complaint: &str) {
    let lines = lines_of(script);
    assert_eq!(lines.matches(old).count(), 1, "{old}");
    let told = recount(&log_bytes(1, script), &lines.replace(old, new)).unwrap_err();
    assert_eq!(told, complaint);
}

/// After the sixth event four are counted and slot 1 is first of the high ones: a low one is chosen
/// before it. After the third the low one is first, and one high one is counted.
fn two_choices() -> [(Event, &'static str); 8] {
    [
        (create(1), "0 on 0 2 1 - 0 0 0"),
        (create(1), "0 on 0 3 2 - 0 0 0"),
        (yields(), "0 run 1 - - - 0 0 0"),
        (yields(), "0 run 2 - - - 0 0 0"),
        (interrupt(1), "0 run 1 - - - 0 0 0"),
        (yields(), "0 run 2 - - - 0 0 0"),
        (yields(), "0 run 0 - - - 0 0 0"),
        (yields(), "0 run 1 - - - 0 0 0"),
    ]
}

/// A high one that comes again and again while two low ones are ready: the first has its turn after four
/// choices, the second after four more. (258 names customer 1, which has no place here.)
fn five_choices() -> [(Event, &'static str); 13] {
    let again = (yields(), "0 run 1 - - - 0 0 0");
    [
        (create(1), "0 on 0 2 1 - 0 0 0"),
        (create(0), "0 on 0 3 2 - 0 0 0"),
        (create(258), "0 on 0 -1 - - 0 0 0"),
        (create(255), "0 on 0 4 3 - 0 0 0"),
        (waits(), "0 run 1 - - - 0 0 0"),
        again,
        again,
        again,
        (yields(), "0 run 2 - - - 0 0 0"),
        (waits(), "0 run 1 - - - 0 0 0"),
        again,
        (interrupt(1), "0 run 1 - - - 0 0 0"),
        again,
    ]
}

#[test]
fn a_high_one_waits_two_choices() {
    play(1, &two_choices(), &[2, 2], &[4]);
}

#[test]
fn a_low_one_waits_five_choices_and_another_ten() {
    let mut script = five_choices().to_vec();
    script.push((yields(), "0 run 3 - - - 0 0 0"));
    play(1, &script, &[1], &[5, 10]);
}

#[test]
fn one_tick_wakes_in_the_order_of_waiting() {
    let script = [
        (create(0), "0 on 0 2 1 - 0 0 0"),
        (create(0), "0 on 0 3 2 - 0 0 0"),
        (yields(), "0 run 1 - - - 0 0 0"),
        (yields(), "0 run 2 - - - 0 0 0"),
        (waits(), "0 run 0 - - - 0 0 0"),
        (yields(), "0 run 1 - - - 0 0 0"),
        (waits(), "0 run 0 - - - 0 0 0"),
        (interrupt(2), "0 on 0 - - - 6 0 0"),
        (yields(), "0 run 2 - - - 0 0 0"),
        (yields(), "0 run 1 - - - 0 0 0"),
    ];
    play(1, &script, &[], &[1, 2]);
    told(&script, "9 0 run 2", "9 0 run 1", "9: slot 1 is run, and slot 2 is first of the low ones");
}

/// Choices of both processors count. Then one that is ready ends by a kill, whose own choice counts for
/// it; and one that runs elsewhere.
#[test]
fn all_processors_choose() {
    let script = [
        (create(1), "0 on 0 2 1 - 0 0 0"),
        (create(1), "0 on 0 3 2 - 0 0 0"),
        (create(0), "0 on 0 4 3 - 0 0 0"),
        (at(1, interrupt(2)), "0 run 1 - - - 0 0 0"),
        (yields(), "0 run 2 - - - 0 0 0"),
        (at(1, yields()), "0 run 1 - - - 0 0 0"),
        (yields(), "0 run 2 - - - 0 0 0"),
        (at(1, yields()), "0 run 3 - - - 0 0 0"),
        (at(1, kernel(-2, 1 << 31, 0)), "0 on 3 -1 - - 0 0 0"),
        (at(1, kernel(-2, 2, 0)), "0 run 0 0 - - 0 2 0"),
        (kernel(-2, 1, 0), "0 halt - - - - 0 13 2"),
    ];
    play(2, &script, &[1, 2], &[5, 4]);
}

/// Five for four, and two low ones after four: told where the wait ends, or at the end of the log.
#[test]
fn a_wait_that_is_too_long_is_told() {
    let mut low = five_choices()[..8].to_vec();
    low.push((yields(), "0 run 1 - - - 0 0 0"));
    let whole = log_bytes(1, &low);
    let late = "the low one in slot 2, with 0 before it, waits 6 choices: 5 are promised";
    assert_eq!(recount(&whole, &lines_of(&low)).unwrap_err(), format!("9: {late}"));
    low.push((yields(), "0 run 2 - - - 0 0 0"));
    let whole = log_bytes(1, &low);
    assert_eq!(recount(&whole, &lines_of(&low)).unwrap_err(), format!("10: {late}"));

    let mut high = two_choices()[..7].to_vec();
    high.push((yields(), "0 run 0 - - - 0 0 0"));
    high.push((yields(), "0 run 1 - - - 0 0 0"));
    let late = "9: the high one in slot 1, with 0 before it, waits 3 choices: 2 are promised";
    assert_eq!(recount(&log_bytes(1, &high), &lines_of(&high)).unwrap_err(), late);
}

#[test]
fn a_choice_left_out_is_noticed() {
    let script = two_choices();
    told(&script, "5 0 run 1 - - - 0 0 0\n", "", "5: the line of event 6, where 5 is due");
    told(&script, "5 0 run 1", "5 0 on 2", "5: slot 2 carries on, and after this event one is chosen");
    told(&script, "3 0 run 1", "3 0 wait -", "3: nobody is run, and slot 1 is ready");
    told(&script, "5 0 run 1", "5 0 run 0", "6: slot 2 is run, and slot 1 is first of the high ones");
    // A P that waits, told as one that got through.
    let p = [
        (create(0), "0 on 0 2 1 - 0 0 0"),
        (kernel(-3, 0, 0), "0 run 1 - - - 0 0 0"),
        (kernel(-6, 0, 0), "0 on 1 0 - - 0 0 0"),
    ];
    play(1, &p, &[], &[1]);
    told(&p, "2 0 run 1", "2 0 on 0", "3: slot 1 does not run on processor 0");
    // A killer that carries straight on.
    let kill = [(create(0), "0 on 0 2 1 - 0 0 0"), (kernel(-2, 2, 0), "0 run 0 0 - - 0 2 0")];
    play(1, &kill, &[], &[1]);
    told(&kill, "2 0 run", "2 0 on", "2: slot 0 carries on, and after this event one is chosen");
}

#[test]
fn what_cannot_be_so_is_told() {
    let script = five_choices();
    let seventh = "7 0 run 1 - - - 0 0 0";
    for (new, complaint) in [
        ("7 0 run 3 - - - 0 0 0", "slot 3 is run, and slot 2 is first of the low ones"),
        ("7 0 run 0 - - - 0 0 0", "slot 0 is run, and slot 2 is first of the low ones"),
        ("7 0 run 9 - - - 0 0 0", "nobody lives in slot 9"),
        ("7 0 up1 2 - - - 0 0 0", "slot 2 does not run on processor 0"),
        ("7 0 none - - - - 0 0 0", "neither a refusal nor an action"),
        ("7 4 run 1 - - - 0 0 0", "a refusal, and more beside it"),
        ("7 0 run 1 - 5 - 0 0 0", "slot 5 has a newborn, and nobody creates one"),
        ("7 0 run 1 - - - 4 0 0", "slot 2 is woken, and waits nowhere"),
        ("7 0 run 1 - - - 0 32 0", "nobody lives in slot 5"),
        ("7 0 run 1 - - - 0 0 2", "processors left idle are 2, and 0 by who ended"),
    ] {
        told(&script, seventh, new, &format!("7: {complaint}"));
    }
    told(&script, "2 0 on 0 3 2", "2 0 on 0 3 1", "2: slot 1 has a newborn, and somebody lives there");
    told(
        &script,
        "2 0 on 0 3 2",
        "2 0 wait - 3 2",
        "2: slot 0 does not carry on, and nothing takes the processor from it",
    );
    // Who has just begun to wait.
    told(&script, "10 0 run 1", "10 0 run 2", "10: slot 2 is run, and slot 3 is first of the low ones");
    let idle = [(waits(), "0 wait - - - - 0 0 0"), (waits(), "4 none - - - - 0 0 0")];
    play(1, &idle, &[], &[]);
    told(&idle, "2 4 none", "2 0 wait", "2: an event of somebody running, and processor 0 is idle");
}

#[test]
fn broken_lines_are_told_with_their_place() {
    let script = five_choices();
    let seventh = "7 0 run 1 - - - 0 0 0\n";
    for (new, complaint) in [
        ("7 0 run 1 - - - 0 0\n", "a line has ten parts, and \"7 0 run 1 - - - 0 0\" has 9"),
        ("\n", "a line has ten parts, and \"\" has 1"),
        ("7 0 run 64 - - - 0 0 0\n", "slot is \"64\", and the last one is 63"),
        ("7 0 run - - - - 0 0 0\n", "action is \"run\" with slot \"-\""),
        ("7 0 runs 1 - - - 0 0 0\n", "action is \"runs\" with slot \"1\""),
        ("7 8 run 1 - - - 0 0 0\n", "refusal is \"8\""),
        ("7 0 run 1 - - - x 0 0\n", "woken is \"x\""),
        ("7 0 run 1 - - - 0 0 256\n", "processors left idle is \"256\""),
        (
            "7 0 run 01 - - - 0 0 0\n",
            "\"7 0 run 01 - - - 0 0 0\" would be written as \"7 0 run 1 - - - 0 0 0\"",
        ),
        ("log 7 20\n", "a line has ten parts, and \"log 7 20\" has 3"),
    ] {
        told(&script, seventh, new, &format!("7: {complaint}"));
    }
    let (log, lines) = (log_bytes(1, &script), lines_of(&script));
    let complaint = |log, lines: &str| recount(log, lines).unwrap_err();
    assert_eq!(complaint(&log, ""), "1: the line is missing");
    assert_eq!(complaint(&log, &lines[..lines.len() - 1]), "13: no newline ends the line");
    assert_eq!(complaint(&log, &format!("{lines}14 0\n")), "14: a line for which there is no event");
    // The log breaks off in its last field.
    let cut = &log[..log.len() - 1];
    assert_eq!(
        complaint(cut, &lines),
        format!("13: {:?}, where \"log 13 20\" is due", &lines[lines.len() - 23..lines.len() - 1])
    );
    assert_eq!(complaint(&[], "log 0 20\n"), "1: \"log 0 20\", where \"log 0 23\" is due");
    assert!(recount(&[], "log 0 23\n").is_ok());
}

/// The Rust desk's lines of a log, recounted.
fn add<'a>(waits: &mut Waits, open: impl Fn() -> Result<Log<'a>, LogRefusal>) {
    let mut printed = Vec::new();
    log::run(open(), &mut printed).unwrap();
    let text = String::from_utf8(printed).unwrap();
    let mut lines = Lines::new(&text);
    let done = waits.log(open(), &mut lines).and_then(|()| lines.end());
    assert_eq!(done, Ok(()), "line {}", lines.number);
}

/// The first so many k's, high and low, are seen at their longest; none is above.
fn reach(waits: &Waits) -> [usize; 2] {
    Rank::BOTH.map(|rank| {
        let sharper = |k: &usize| rank.sharper(*k);
        let seen = waits.seen(rank);
        for (k, seen) in seen.iter().enumerate() {
            assert!(seen.longest <= sharper(&k) && sharper(&k) <= rank.promised(k), "{rank}, {k}: {seen:?}");
        }
        (0..seen.len()).take_while(|k| seen[*k].longest == sharper(k)).count()
    })
}

/// The same on every machine.
#[test]
fn no_wait_at_the_gate_is_longer_than_promised() {
    let mut waits = Waits::default();
    for bytes in SEEDS.map(|seed| log_of(seed, EVENTS)) {
        add(&mut waits, || log::open(&bytes));
    }
    assert_eq!((waits.events, waits.choices), (105_271, 42_225));
    assert_eq!(reach(&waits), [60, 37]);
}

#[test]
fn no_wait_in_a_stream_is_longer_than_promised() {
    for fresh in [Generator::stream, Generator::flood] {
        for processors in [1, 3] {
            let mut generator = fresh(1).on_processors(processors);
            let mut stream = generator.start.to_field();
            (0..20_000).for_each(|_| stream.extend(generator.event().to_field()));
            let mut waits = Waits::default();
            add(&mut waits, || log::open_stream(&stream));
            assert!(reach(&waits).into_iter().all(|many| many >= 5), "{waits}");
        }
    }
}
