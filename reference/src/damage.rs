//! Damaged logs, so that every log refusal comes up.

use crate::desk::{CUSTOMERS, SEMAPHORES, SLOTS};
use crate::generate;
use crate::log::{value_length, HEAD, MAX_BYTES};
use crate::rng::Rng;

/// Where a start has its values, its ceilings and its processors, and where it ends.
const VALUES: usize = HEAD + 4;
const CEILINGS: usize = VALUES + 4 * SEMAPHORES;
const PROCESSORS: usize = CEILINGS + 2 * CUSTOMERS;
const START: usize = PROCESSORS + 1;

/// The log of a seed, damaged once, or twice for one seed in five.
pub fn log(seed: u64, count: usize) -> Vec<u8> {
    let mut rng = Rng::new(!seed);
    let mut bytes = generate::log(seed, count);
    damage(&mut rng, &mut bytes);
    if rng.one_in(5) {
        damage(&mut rng, &mut bytes);
    }
    bytes
}

fn damage(rng: &mut Rng, bytes: &mut Vec<u8>) {
    let fields = fields(bytes);
    if fields.is_empty() {
        return;
    }
    // The first and the last field as often as all between them.
    let field = rng.index(fields.len());
    let field = fields[rng.pick(&[0, field, field, fields.len() - 1])];
    match rng.below(18) {
        0 => bytes.truncate(field + rng.index(HEAD)),
        1 => bytes.truncate(field + HEAD + rng.index(value_length(bytes[field]).unwrap_or(1))),
        2 => bytes[field] = rng.pick(&[0, 5, 6, 255]),
        3 => {
            let step = rng.pick(&[1, 255]);
            bytes[field + 1] = bytes[field + 1].wrapping_add(step);
        }
        4 => bytes[field + 2] = rng.pick(&[1, 128]),
        5 => later_start(rng, bytes, field),
        6 => drop(bytes.drain(..fields.get(1).copied().unwrap_or(0))),
        7 => large_value(rng, bytes),
        8 => bad_mode(rng, bytes, &fields),
        9 => flip(rng, bytes),
        10 => long(rng, bytes),
        11 => old_start(rng, bytes),
        12..=14 => bad_ceilings(rng, bytes),
        15 => bytes.truncate(rng.pick(&[0, 0, field])),
        _ => bad_processors(rng, bytes),
    }
}

/// Where the fields of a log begin.
fn fields(bytes: &[u8]) -> Vec<usize> {
    let mut places = Vec::new();
    let mut place = 0;
    while let Some(length) = bytes.get(place).and_then(|&tag| value_length(tag)) {
        if place + HEAD + length > bytes.len() {
            break;
        }
        places.push(place);
        place += HEAD + length;
    }
    places
}

/// The start again, before a field or at the end; perhaps with a value, a ceiling or a number of processors too large.
fn later_start(rng: &mut Rng, bytes: &mut Vec<u8>, field: usize) {
    let length = START.min(bytes.len());
    let mut start = bytes[..length].to_vec();
    if rng.one_in(2) {
        start[rng.pick(&[CEILINGS, PROCESSORS, START]).min(length) - 1] = 255;
    }
    let place = rng.pick(&[field, bytes.len()]);
    bytes.splice(place..place, start);
}

/// A starting value of 2,147,483,648 or more.
fn large_value(rng: &mut Rng, bytes: &mut [u8]) {
    let value = VALUES + 4 * rng.index(SEMAPHORES);
    if let Some(highest) = bytes.get_mut(value + 3) {
        *highest |= 128;
    }
}

/// A start without processors, or without ceilings too, and with the length of one.
fn old_start(rng: &mut Rng, bytes: &mut Vec<u8>) {
    let end = rng.pick(&[CEILINGS, PROCESSORS]);
    if bytes.len() >= START {
        bytes.drain(end..START);
        bytes[1] = (end - HEAD) as u8;
    }
}

/// A number of processors that is refused. One in four has ceilings that are refused as well.
fn bad_processors(rng: &mut Rng, bytes: &mut [u8]) {
    if let Some(processors) = bytes.get_mut(PROCESSORS) {
        *processors = rng.pick(&[0, 0, 9, 16, 129, 255]);
    }
    if rng.one_in(4) {
        bad_ceilings(rng, bytes);
    }
}

/// Ceilings that are refused: none for customer 0, one more than there are slots, a sum that is no
/// more only where it wraps at 16 bits or in a byte, a single high byte. One in six has a value too
/// large as well.
fn bad_ceilings(rng: &mut Rng, bytes: &mut [u8]) {
    let Some(field) = bytes.get_mut(CEILINGS..PROCESSORS) else {
        return;
    };
    let mut ceilings: [u16; CUSTOMERS] =
        std::array::from_fn(|customer| u16::from_le_bytes([field[2 * customer], field[2 * customer + 1]]));
    let sum: u32 = ceilings.iter().map(|&ceiling| u32::from(ceiling)).sum();
    let customer = rng.index(CUSTOMERS);
    match rng.below(6) {
        0 => ceilings[0] = 0,
        1 => ceilings[customer] += (SLOTS as u32 + 1).saturating_sub(sum) as u16,
        2 => ceilings = [1, u16::MAX, 1, 0, 0, 0, 0, 0, rng.below(SLOTS as u32 - 1) as u16],
        3 => ceilings = [1 << 15, 0, 0, 1 << 15, 0, 0, 0, 0, rng.below(SLOTS as u32) as u16],
        4 => ceilings = [1, 85, 85, 85, 0, 0, 0, 0, rng.below(SLOTS as u32) as u16],
        _ => ceilings[customer] |= 256,
    }
    field.copy_from_slice(&ceilings.map(u16::to_le_bytes).concat());
    if rng.one_in(6) {
        large_value(rng, bytes);
    }
}

/// A call's mode byte above 1.
fn bad_mode(rng: &mut Rng, bytes: &mut [u8], fields: &[usize]) {
    let calls: Vec<usize> = fields.iter().copied().filter(|&place| bytes[place] == 2).collect();
    if !calls.is_empty() {
        bytes[rng.pick(&calls) + HEAD + 5] = rng.pick(&[2, 3, 128, 255]);
    }
}

fn flip(rng: &mut Rng, bytes: &mut [u8]) {
    for _ in 0..1 + rng.below(3) {
        bytes[rng.index(bytes.len())] ^= 1 << rng.below(8);
    }
}

/// Filled up with its own events to 65,536 bytes, to one more, or to some hundred more.
fn long(rng: &mut Rng, bytes: &mut Vec<u8>) {
    let more = rng.below(1000) as usize;
    let length = MAX_BYTES + rng.pick(&[0, 1, 1, more]);
    let events: Vec<u8> = bytes.iter().skip(START).copied().collect();
    bytes.extend(events.into_iter().cycle().take(length.saturating_sub(bytes.len())));
    bytes.resize(length, 0);
}

#[cfg(test)]
mod tests {
    #[test]
    fn short_logs_can_be_damaged() {
        for seed in 0..3000 {
            super::log(seed, (seed % 4) as usize);
        }
    }
}
