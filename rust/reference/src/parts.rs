//! Device parts: the walker over a stream, loading and saving.
//!
//! A part (rule 5.1) is type (2), flags (1), reserved (1), selector (8), length (4), and its value.

use std::collections::BTreeSet;

use crate::answer::{refuse_if, Answer, Refusal};
use crate::bench::{State, LENGTH_LIMIT};
use crate::bytes::{number_at, put_number};
use crate::registers::{
    check_value, current, selector_width, value_length, Registers, Words, OFFERED_FEATURES, STATUS,
};

pub const HEADER: usize = 16;
/// Bit 0 of a part's flags.
pub const OPTIONAL: u64 = 1;
/// No part of this type or above is known, optional or not.
const TYPE_LIMIT: u64 = 0x600;

/// One part of a stream, as a step finds it.
#[derive(Clone, Copy, Debug, PartialEq, Eq)]
pub struct Part<'a> {
    pub kind: u64,
    pub flags: u64,
    /// All eight bytes as one number.
    pub selector: u64,
    pub value: &'a [u8],
    /// The place behind the part.
    pub next: u64,
}

/// Loading's first three checks on the part at `place`: 18, 19, 18. Nothing at the end.
pub fn step(stream: &[u8], place: u64) -> Answer<Option<Part<'_>>> {
    let length = stream.len() as u64;
    refuse_if(place > length, Refusal::Truncated.at(place))?;
    if place == length {
        return Ok(None);
    }
    let left = &stream[place as usize..];
    refuse_if(left.len() < HEADER, Refusal::Truncated.at(place))?;
    let flags = number_at(left, 2, 1);
    let reserved = number_at(left, 3, 1);
    refuse_if(flags > 1 || reserved != 0, Refusal::Header.at(place))?;
    let end = HEADER as u64 + number_at(left, 12, 4);
    refuse_if(end > left.len() as u64, Refusal::Truncated.at(place))?;
    Ok(Some(Part {
        kind: number_at(left, 0, 2),
        flags,
        selector: number_at(left, 4, 8),
        value: &left[HEADER..end as usize],
        next: place + end,
    }))
}

/// Keeps hold of a stream and its place in it.
#[derive(Clone, Copy, Debug, PartialEq, Eq)]
pub struct Walker<'a> {
    pub stream: &'a [u8],
    pub place: u64,
}

impl<'a> Walker<'a> {
    /// Goes behind the part that it gives; stays after a refusal and at the end.
    pub fn step(&mut self) -> Answer<Option<Part<'a>>> {
        let found = step(self.stream, self.place)?;
        if let Some(part) = found {
            self.place = part.next;
        }
        Ok(found)
    }
}

/// The registers named take their values, all others become unset.
pub fn load_parts(state: &mut State, stream: &[u8]) -> Answer<u64> {
    state.check_sound()?;
    refuse_if(state.running, Refusal::Running)?;
    refuse_if(stream.len() > LENGTH_LIMIT, Refusal::TooLong)?;
    state.registers = registers_in(state.words, stream)?;
    Ok(0)
}

/// The registers that a stream names, or its first fault.
fn registers_in(words: Words, stream: &[u8]) -> Answer<Registers> {
    let mut named = Registers::new();
    let mut seen = BTreeSet::new();
    let mut walker = Walker { stream, place: 0 };
    loop {
        let place = walker.place;
        let Some(part) = walker.step()? else { break };
        if placed(place, skipped(&part))? {
            continue;
        }
        placed(place, check_listed(words, &part, &seen))?;
        seen.insert((part.kind, part.selector));
        // The offered features are constant: their part is checked, not kept.
        if part.kind != OFFERED_FEATURES {
            named.insert((part.kind, part.selector), part.value.to_vec());
        }
    }
    let end = stream.len() as u64;
    refuse_if(!seen.contains(&(STATUS, 0)), Refusal::Missing.at(end))?;
    Ok(named)
}

/// A part's refusal, at the start of the part.
fn placed<T>(start: u64, answer: Answer<T>) -> Answer<T> {
    answer.map_err(|refused| refused.refusal.at(start))
}

/// Whether a part is passed over; 20 for an unlisted type that may not be.
fn skipped(part: &Part) -> Answer<bool> {
    refuse_if(part.kind >= TYPE_LIMIT, Refusal::UnknownPart)?;
    if selector_width(part.kind).is_some() {
        return Ok(false); // listed
    }
    refuse_if(part.flags & OPTIONAL == 0, Refusal::UnknownPart)?;
    Ok(true)
}

/// The checks on a part of a listed type: 19, 6, 22, 21, 22, 23.
fn check_listed(words: Words, part: &Part, seen: &BTreeSet<(u64, u64)>) -> Answer<()> {
    let optional = part.flags & OPTIONAL != 0;
    refuse_if(
        optional != (part.kind == OFFERED_FEATURES) || selector_bytes_outside(part),
        Refusal::Header,
    )?;
    let length = value_length(words, part.kind, part.selector).ok_or(Refusal::Index)?;
    refuse_if(part.value.len() != length, Refusal::Value)?;
    refuse_if(seen.contains(&(part.kind, part.selector)), Refusal::Twice)?;
    check_value(words, part.kind, part.value)
}

/// Whether a selector byte outside the type's field is not 0. Where no field is named, every
/// byte is outside.
fn selector_bytes_outside(part: &Part) -> bool {
    let width = selector_width(part.kind).unwrap_or(0);
    part.selector.to_le_bytes()[width..]
        .iter()
        .any(|byte| *byte != 0)
}

/// Writes the set registers to the buffer's start, and reports the length.
pub fn save_parts(state: &State, buffer: &mut [u8]) -> Answer<u64> {
    state.check_sound()?;
    refuse_if(state.running, Refusal::Running)?;
    let saved = saved(state.words, &state.registers);
    refuse_if(buffer.len() < saved.len(), Refusal::NoSpace)?;
    buffer[..saved.len()].copy_from_slice(&saved);
    Ok(saved.len() as u64)
}

/// Every register that there is: types rising, then selectors rising.
const IN_ORDER: [(u64, u64); 15] = [
    (0x100, 0),
    (0x101, 0),
    (0x102, 0),
    (0x102, 8),
    (0x102, 16),
    (0x102, 22),
    (0x103, 0),
    (0x104, 0),
    (0x104, 1),
    (0x104, 2),
    (0x104, 3),
    (0x105, 0),
    (0x105, 1),
    (0x105, 2),
    (0x105, 3),
];

fn saved(words: Words, registers: &Registers) -> Vec<u8> {
    let mut stream = Vec::new();
    for (kind, selector) in IN_ORDER {
        if let Some(value) = current(words, registers, kind, selector) {
            let flags = if kind == OFFERED_FEATURES {
                OPTIONAL
            } else {
                0
            };
            let mut header = [0; HEADER];
            put_number(&mut header, 0, 2, kind);
            put_number(&mut header, 2, 1, flags);
            put_number(&mut header, 4, 8, selector);
            put_number(&mut header, 12, 4, value.len() as u64);
            stream.extend(header);
            stream.extend(value);
        }
    }
    stream
}

#[cfg(test)]
mod tests {
    use super::*;
    use crate::registers::set_register;

    fn refused<T>(refusal: Refusal, place: u64) -> Answer<T> {
        Err(refusal.at(place))
    }

    fn part(kind: u64, flags: u64, selector: u64, value: &[u8]) -> Vec<u8> {
        let mut bytes = vec![0; HEADER];
        put_number(&mut bytes, 0, 2, kind);
        put_number(&mut bytes, 2, 1, flags);
        put_number(&mut bytes, 4, 8, selector);
        put_number(&mut bytes, 12, 4, value.len() as u64);
        bytes.extend(value);
        bytes
    }

    fn status() -> Vec<u8> {
        part(0x103, 0, 0, &[15])
    }

    fn queue() -> Vec<u8> {
        let mut value = vec![0; 32];
        value[0] = 4;
        value
    }

    /// What loading says of a status part (17 bytes) and then this one.
    fn load_behind_status(second: &[u8]) -> Answer<u64> {
        let mut state = State::fresh(0);
        load_parts(&mut state, &[&status(), second].concat())
    }

    fn everything_set() -> State {
        let mut state = State::fresh(0);
        for (kind, selector) in IN_ORDER.into_iter().skip(1).rev() {
            let value = match kind {
                0x101 => vec![0, 0, 0, 0x10, 0, 0, 0, 0],
                0x104 => queue(),
                0x105 => vec![selector as u8, 1, 2, 3, 0, 0, 0, 0],
                _ => vec![0xee; value_length(1, kind, selector).unwrap()],
            };
            assert_eq!(set_register(&mut state, kind, selector, &value), Ok(0));
        }
        state
    }

    /// Rule 7.2: 41 bytes. Rule 5.14: 0x100 is optional, and the rest of the buffer stays.
    #[test]
    fn a_reset_card_is_saved_in_41_bytes() {
        let mut buffer = [0xa5; 43];
        assert_eq!(save_parts(&State::fresh(0), &mut buffer), Ok(41));
        let mut expected = vec![0, 1, 1, 0];
        expected.extend([0; 8]);
        expected.extend([8, 0, 0, 0]);
        expected.extend([0, 0, 0, 0x30, 1, 0, 0, 0]);
        expected.extend([3, 1, 0, 0]);
        expected.extend([0; 8]);
        expected.extend([1, 0, 0, 0]);
        expected.extend([0]);
        expected.extend([0xa5, 0xa5]);
        assert_eq!(buffer.to_vec(), expected);
    }

    /// Rule 5.14: selectors rise by number; and the length's upper end.
    #[test]
    fn everything_set_is_saved_in_429_bytes_in_order_and_loads_again() {
        let state = everything_set();
        let mut buffer = [0; 429];
        assert_eq!(save_parts(&state, &mut buffer), Ok(429));
        let mut walker = Walker {
            stream: &buffer,
            place: 0,
        };
        let mut order = Vec::new();
        while let Some(part) = walker.step().unwrap() {
            let flags = if part.kind == 0x100 { 1 } else { 0 };
            assert_eq!(part.flags, flags);
            order.push((part.kind, part.selector));
        }
        assert_eq!(order.len(), 15);
        assert!(order.windows(2).all(|two| two[0] < two[1]), "{order:x?}");
        let mut loaded = State::fresh(0);
        assert_eq!(load_parts(&mut loaded, &buffer), Ok(0));
        assert_eq!(loaded, state);
    }

    /// Rules 5.9 and 5.13: 17 before 27, and before 13.
    #[test]
    fn a_running_card_is_neither_saved_nor_loaded() {
        let mut state = State::fresh(0);
        assert_eq!(
            save_parts(&state, &mut [0; 40]),
            refused(Refusal::NoSpace, 0)
        );
        assert_eq!(
            load_parts(&mut state, &[0; 65_537]),
            refused(Refusal::TooLong, 0)
        );
        state.running = true;
        assert_eq!(
            save_parts(&state, &mut [0; 40]),
            refused(Refusal::Running, 0)
        );
        assert_eq!(
            load_parts(&mut state, &[0; 65_537]),
            refused(Refusal::Running, 0)
        );
    }

    /// Rules 1.9 and 5.10: 65,536 bytes, and skipped parts any number of times.
    #[test]
    fn a_stream_may_have_65536_bytes() {
        let mut stream = status();
        stream.extend(part(0x300, 1, 0, &vec![7; 65_536 - 17 - 16 - 16]));
        stream.extend(part(0x300, 1, 0, &[]));
        assert_eq!(stream.len(), 65_536);
        assert_eq!(load_parts(&mut State::fresh(0), &stream), Ok(0));
    }

    /// Rules 7.3 to 7.5: 24 at 0, accepted, 21 at 17.
    #[test]
    fn status_occurs_exactly_once() {
        let mut state = State::fresh(0);
        assert_eq!(load_parts(&mut state, &[]), refused(Refusal::Missing, 0));
        assert_eq!(load_parts(&mut state, &status()), Ok(0));
        assert_eq!(load_behind_status(&status()), refused(Refusal::Twice, 17));
        let skipped = part(0x3ff, 1, 5, &[1, 2, 3]);
        assert_eq!(
            load_parts(&mut state, &skipped),
            refused(Refusal::Missing, 19)
        );
    }

    /// Each line breaks one rule more than the line before it breaks, from the last check on.
    #[test]
    fn a_parts_checks_run_in_the_rules_order() {
        let bad_queue = [3; 32];
        let cut = |mut bytes: Vec<u8>| {
            bytes.pop();
            bytes
        };
        let reserved = |mut bytes: Vec<u8>| {
            bytes[3] = 1;
            bytes
        };
        let queue_part = |selector, value: &[u8]| part(0x104, 0, selector, value);
        let twice = [queue_part(0, &queue()), queue_part(0, &bad_queue)].concat();
        let twice_wrong = [queue_part(0, &queue()), queue_part(0, &[3; 31])].concat();
        assert_eq!(
            load_behind_status(&queue_part(0, &bad_queue)),
            refused(Refusal::Value, 17)
        );
        assert_eq!(load_behind_status(&twice), refused(Refusal::Twice, 65));
        assert_eq!(
            load_behind_status(&twice_wrong),
            refused(Refusal::Value, 65)
        );
        assert_eq!(
            load_behind_status(&queue_part(4, &[3; 31])),
            refused(Refusal::Index, 17)
        );
        assert_eq!(
            load_behind_status(&queue_part(0x1_0004, &[3; 31])),
            refused(Refusal::Header, 17)
        );
        assert_eq!(
            load_behind_status(&part(0x106, 0, 9, &[3; 31])),
            refused(Refusal::UnknownPart, 17)
        );
        assert_eq!(
            load_behind_status(&cut(part(0x106, 0, 9, &[3; 31]))),
            refused(Refusal::Truncated, 17)
        );
        assert_eq!(
            load_behind_status(&reserved(cut(part(0x106, 2, 9, &[3; 31])))),
            refused(Refusal::Header, 17)
        );
        assert_eq!(
            load_behind_status(&reserved(cut(part(0x106, 2, 9, &[])))),
            refused(Refusal::Truncated, 17)
        );
    }

    /// Rule 5.7: 0x100 may be there, flagged optional, with its one value, once.
    #[test]
    fn the_second_card_has_two_words_of_features() {
        let mut state = State::fresh_card(2, 0, Vec::new());
        let mut buffer = [0; 445];
        assert_eq!(save_parts(&state, &mut buffer), Ok(49));
        assert_eq!(
            buffer[16..32],
            [0, 0, 0, 0x30, 1, 0, 0, 0, 1, 0, 0, 0, 0, 0, 0, 0]
        );
        let saved = buffer[..49].to_vec();
        assert_eq!(load_parts(&mut state, &saved), Ok(0));
        assert_eq!(state, State::fresh_card(2, 0, Vec::new()));
        let mut first = State::fresh(0);
        assert_eq!(load_parts(&mut first, &saved), refused(Refusal::Value, 0));
        let mut features = [0; 16];
        features[8] = 1;
        assert_eq!(set_register(&mut state, 0x101, 0, &features), Ok(0));
        features[8] = 2;
        assert_eq!(
            set_register(&mut state, 0x101, 0, &features),
            refused(Refusal::Mismatch, 0)
        );
        assert_eq!(
            set_register(&mut state, 0x101, 0, &features[..8]),
            refused(Refusal::Value, 0)
        );
        assert_eq!(
            set_register(&mut first, 0x101, 0, &[0; 16]),
            refused(Refusal::Value, 0)
        );
    }

    #[test]
    fn offered_features_in_a_stream_are_checked_and_not_kept() {
        let offered = [0, 0, 0, 0x30, 1, 0, 0, 0];
        let good = part(0x100, 1, 0, &offered);
        let again = [good.clone(), good.clone()].concat();
        assert_eq!(load_behind_status(&good), Ok(0));
        assert_eq!(load_behind_status(&again), refused(Refusal::Twice, 41));
        assert_eq!(
            load_behind_status(&part(0x100, 0, 0, &offered)),
            refused(Refusal::Header, 17)
        );
        assert_eq!(
            load_behind_status(&part(0x100, 1, 0, &[0; 8])),
            refused(Refusal::Mismatch, 17)
        );
        assert_eq!(
            load_behind_status(&part(0x100, 1, 0, &offered[..7])),
            refused(Refusal::Value, 17)
        );
        let mut state = State::fresh(0);
        assert_eq!(load_parts(&mut state, &[status(), good].concat()), Ok(0));
        assert_eq!(state.registers.len(), 1);
        assert_eq!(save_parts(&state, &mut [0; 41]), Ok(41));
    }

    /// Rule 5.10: the optional bit on a listed type other than 0x100; 19, not 6, where no selector
    /// is used; queue 256 is 6, 65,536 is 19.
    #[test]
    fn the_optional_bit_and_selector_bytes_of_listed_types() {
        let features = [0; 8];
        let cases: [(u64, u64, u64, &[u8], Refusal); 10] = [
            (0x101, 1, 0, &features, Refusal::Header),
            (0x105, 1, 0, &features, Refusal::Header),
            (0x100, 1, 1, &features, Refusal::Header),
            (0x101, 0, 1, &features, Refusal::Header),
            (0x101, 0, 1 << 56, &features, Refusal::Header),
            (0x104, 0, 256, &features, Refusal::Index),
            (0x105, 0, 65_536, &features, Refusal::Header),
            (0x102, 0, 18, &features, Refusal::Index),
            (0x102, 0, 1 << 24, &features, Refusal::Index),
            (0x102, 0, 1 << 32, &features, Refusal::Header),
        ];
        for (kind, flags, selector, value, refusal) in cases {
            assert_eq!(
                load_behind_status(&part(kind, flags, selector, value)),
                refused(refusal, 17),
                "{kind:#x} {flags} {selector:#x}"
            );
        }
    }

    /// Rule 5.10: everything below 0x600 outside the list may be skipped.
    #[test]
    fn unlisted_types_are_skipped_if_optional_and_below_0x600() {
        for kind in [0, 0xff, 0x106, 0x1ff, 0x200, 0x2ff, 0x300, 0x5ff] {
            let optional = part(kind, 1, u64::MAX, &[1, 2, 3]);
            let needed = part(kind, 0, u64::MAX, &[1, 2, 3]);
            assert_eq!(load_behind_status(&optional), Ok(0), "{kind:#x}");
            assert_eq!(
                load_behind_status(&needed),
                refused(Refusal::UnknownPart, 17),
                "{kind:#x}"
            );
        }
        for kind in [0x600, 0x1103, 0xffff] {
            let optional = part(kind, 1, 0, &[1, 2, 3]);
            assert_eq!(
                load_behind_status(&optional),
                refused(Refusal::UnknownPart, 17),
                "{kind:#x}"
            );
        }
    }

    /// Rule 5.12: unset and not zero; a refused stream changes nothing.
    #[test]
    fn loading_unsets_what_is_absent_and_a_refusal_changes_nothing() {
        let mut state = everything_set();
        let before = state.clone();
        let stream = [status(), part(0x102, 0, 8, &[1, 2, 3, 4])].concat();
        let broken = [stream.clone(), vec![0]].concat();
        assert_eq!(
            load_parts(&mut state, &broken),
            refused(Refusal::Truncated, 37)
        );
        assert_eq!(state, before);
        assert_eq!(load_parts(&mut state, &stream), Ok(0));
        let expected = Registers::from([((0x102, 8), vec![1, 2, 3, 4]), ((0x103, 0), vec![15])]);
        assert_eq!(state.registers, expected);
    }

    /// Rule 5.11: a fault of any part comes before 24.
    #[test]
    fn a_missing_status_is_said_last() {
        let mut state = State::fresh(0);
        let features = part(0x101, 0, 0, &[1, 0, 0, 0, 0, 0, 0, 0]);
        assert_eq!(
            load_parts(&mut state, &features),
            refused(Refusal::Mismatch, 0)
        );
        let features = part(0x101, 0, 0, &[0; 8]);
        assert_eq!(
            load_parts(&mut state, &features),
            refused(Refusal::Missing, 24)
        );
    }

    /// Rules 6.2 and 6.5: the end, a place past it, and where the walker then stands.
    #[test]
    fn the_walker_ends_at_the_end_and_stays_where_it_is_refused() {
        let stream = status();
        let mut walker = Walker {
            stream: &stream,
            place: 0,
        };
        let found = walker.step().unwrap().unwrap();
        assert_eq!((found.kind, found.flags, found.selector), (0x103, 0, 0));
        assert_eq!((found.value, found.next), (&stream[16..], 17));
        assert_eq!(walker.place, 17);
        assert_eq!(walker.step(), Ok(None));
        assert_eq!(walker.step(), Ok(None));
        assert_eq!(step(&stream, 18), refused(Refusal::Truncated, 18));
        assert_eq!(
            step(&stream, u64::MAX),
            refused(Refusal::Truncated, u64::MAX)
        );
        let mut inside = Walker {
            stream: &stream,
            place: 2,
        };
        assert_eq!(inside.step(), refused(Refusal::Truncated, 2));
        assert_eq!(inside.place, 2);
        assert_eq!(step(&[], 0), Ok(None));
    }

    /// Rules 6.2 and 6.3: no other check, no limit, and the selector whole.
    #[test]
    fn the_walker_makes_only_loadings_first_three_checks() {
        let long = part(0xffff, 1, u64::MAX, &vec![9; 70_000]);
        let found = step(&long, 0).unwrap().unwrap();
        assert_eq!((found.kind, found.selector), (0xffff, u64::MAX));
        assert_eq!((found.value.len(), found.next), (70_000, 70_016));
        assert_eq!(
            step(&part(0x103, 2, 0, &[]), 0),
            refused(Refusal::Header, 0)
        );
        let mut reserved = part(0x103, 0, 0, &[]);
        reserved[3] = 1;
        assert_eq!(step(&reserved, 0), refused(Refusal::Header, 0));
        let value = found.value.as_ptr();
        assert_eq!(
            value,
            long[16..].as_ptr(),
            "a stretch of the caller's stream"
        );
    }

    /// Rule 3.21: 16 + 0xfffffff0 is 2^32, not 0.
    #[test]
    fn a_length_that_would_wrap_is_past_the_end() {
        let mut stream = part(0x103, 0, 0, &[0]);
        put_number(&mut stream, 12, 4, 0xffff_fff0);
        assert_eq!(step(&stream, 0), refused(Refusal::Truncated, 0));
        put_number(&mut stream, 12, 4, 2);
        assert_eq!(step(&stream, 0), refused(Refusal::Truncated, 0));
        put_number(&mut stream, 12, 4, 0);
        assert_eq!(step(&stream, 0).unwrap().unwrap().next, 16);
    }
}
