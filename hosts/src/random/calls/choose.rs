//! One call that is likely to mean something in a state: slots that hold what it wants, fields below the count,
//! births around the room that is left; and often enough none of these.

use super::State;
use crate::plain::{header, reference, Call, Kind};
use crate::random::heaps::wild_word;
use crate::random::Random;

pub fn any_call(random: &mut Random, state: &State) -> Call {
    let slot = any_slot(random, state);
    let other = any_slot(random, state);
    match random.below(100) {
        0..=7 => Call::PutInt(slot, any_integer(random)),
        8..=10 => Call::PutNil(slot),
        11..=16 => Call::Copy(slot, other),
        17..=29 => Call::NewRecord(slot, any_payload(random, state)),
        30..=39 => Call::NewRaw(slot, any_payload(random, state)),
        40..=67 => on_a_record(random, state, slot, other),
        68..=84 => on_a_raw(random, state, slot),
        85..=94 => Call::Ask(slot),
        _ => Call::Same(slot, other),
    }
}

/// A field read into or written from the other slot; mostly a birth where there is no field yet.
fn on_a_record(random: &mut Random, state: &State, slot: u32, other: u32) -> Call {
    let fitting = slots_with(state, Kind::Record);
    if fitting.is_empty() && room(state) > 1 && random.percent(70) {
        return Call::NewRecord(slot, any_payload(random, state));
    }
    let (object, field) = object_and_number(random, state, &fitting);
    if random.percent(45) {
        Call::ReadField(object, field, other)
    } else {
        Call::WriteField(object, field, other)
    }
}

/// The same for raw words.
fn on_a_raw(random: &mut Random, state: &State, slot: u32) -> Call {
    let fitting = slots_with(state, Kind::Raw);
    if fitting.is_empty() && room(state) > 1 && random.percent(70) {
        return Call::NewRaw(slot, any_payload(random, state));
    }
    let (object, index) = object_and_number(random, state, &fitting);
    if random.percent(45) {
        Call::ReadRaw(object, index)
    } else {
        Call::WriteRaw(object, index, any_word(random))
    }
}

/// A slot, or one of the numbers that are no slot.
fn any_slot(random: &mut Random, state: &State) -> u32 {
    let slots = state.roots.len();
    if slots > 0 && random.percent(96) {
        return random.below(slots) as u32;
    }
    let any = random.word();
    random.pick(&[
        slots as u32,
        slots as u32,
        slots as u32 + 1,
        64,
        65,
        1 << 31,
        u32::MAX,
        any,
    ])
}

/// The slots that seem to hold an object of a kind with at least one payload word.
fn slots_with(state: &State, wanted: Kind) -> Vec<u32> {
    (0..state.roots.len() as u32)
        .filter(|&slot| matches!(shape(state, slot), Some((kind, count)) if kind == wanted && count > 0))
        .collect()
}

/// Mostly one of the slots that fit, with a number made for its count.
fn object_and_number(random: &mut Random, state: &State, fitting: &[u32]) -> (u32, u32) {
    let slot = if !fitting.is_empty() && random.percent(88) {
        random.pick(fitting)
    } else {
        any_slot(random, state)
    };
    let count = shape(state, slot).map_or(0, |(_, count)| count);
    (slot, any_number(random, count))
}

/// Kind and count that the word a slot refers to would have as a header, wherever it stands.
fn shape(state: &State, slot: u32) -> Option<(Kind, usize)> {
    let word = *state.roots.get(slot as usize)?;
    let place = reference(word)?;
    header(*state.heap.get(place as usize)?)
}

fn any_number(random: &mut Random, count: usize) -> u32 {
    if count > 0 && random.percent(92) {
        let last = count - 1;
        let any = random.below(count);
        return random.pick(&[0, last, any, any, any]) as u32;
    }
    let any = random.word();
    let count = count as u32;
    random.pick(&[count, count, count + 1, 1023, 1 << 30, u32::MAX, any])
}

fn any_integer(random: &mut Random) -> i32 {
    let any = random.word() as i32;
    match random.below(10) {
        0..=4 => any % 100,
        5..=7 => any / 2,
        8 => random.pick(&[0, -1, 1_073_741_823, -1_073_741_824]),
        _ => random.pick(&[1_073_741_824, -1_073_741_825, i32::MAX, i32::MIN, any]),
    }
}

/// The words above the top.
fn room(state: &State) -> u32 {
    state.heap.len().saturating_sub(state.store.top as usize) as u32
}

/// Small, around the room that is left, or at the limit.
fn any_payload(random: &mut Random, state: &State) -> u32 {
    let room = room(state);
    let any = random.word();
    match random.below(20) {
        0..=11 => random.below(6) as u32,
        12..=14 => random.below(70) as u32,
        15 => random.below(300) as u32,
        16..=17 => random.pick(&[
            room.saturating_sub(2),
            room.saturating_sub(1),
            room.saturating_sub(1),
            room,
            room + 1,
        ]),
        18 => random.pick(&[62, 63, 64, 1022, 1023, 1023]),
        _ => random.pick(&[1023, 1024, 1024, 1025, 1 << 30, u32::MAX - 1, u32::MAX, any]),
    }
}

/// Raw words often look like references, to see that they are left alone.
fn any_word(random: &mut Random) -> u32 {
    match random.below(3) {
        0 => random.word(),
        1 => wild_word(random),
        _ => 2 * random.below(64) as u32 + 1,
    }
}
