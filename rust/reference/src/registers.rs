//! The card's registers: which there are, what their values must satisfy, setting and reading.

use std::collections::BTreeMap;

use crate::answer::{refuse_if, Answer, Refusal};
use crate::bench::State;
use crate::bytes::number_at;

pub const OFFERED_FEATURES: u64 = 0x100;
pub const DRIVER_FEATURES: u64 = 0x101;
pub const COMMON_FIELD: u64 = 0x102;
pub const STATUS: u64 = 0x103;
pub const QUEUE: u64 = 0x104;
pub const NOTIFY: u64 = 0x105;

/// The features that the cards offer, word by word: the first card has the first word, the second
/// card both.
pub const OFFERED: [u64; 2] = [0x1_3000_0000, 1];

/// How many words of features a card has. One that is neither 1 nor 2 is no card.
pub type Words = u64;

/// The features that a card offers.
fn offered(words: Words) -> &'static [u64] {
    &OFFERED[..words as usize]
}

/// The words of a features value.
fn words_of(value: &[u8]) -> Vec<u64> {
    value
        .chunks(8)
        .map(|word| number_at(word, 0, word.len()))
        .collect()
}

/// The set registers, by type and selector number, with their values' bytes. A register that is
/// not there is not set. The offered features are constant and never kept here.
///
/// The order of the keys is the order of saving: types rising, then selectors rising.
pub type Registers = BTreeMap<(u64, u64), Vec<u8>>;

/// Status set to 0, all others not set.
pub fn reset() -> Registers {
    Registers::from([((STATUS, 0), vec![0])])
}

pub fn sound(words: Words, registers: &Registers) -> bool {
    (1..=2).contains(&words)
        && registers.contains_key(&(STATUS, 0))
        && registers
            .iter()
            .all(|(&(kind, selector), value)| acceptable(words, kind, selector, value))
}

/// Whether setting (for the offered features: loading) accepts this value of a register.
fn acceptable(words: Words, kind: u64, selector: u64, value: &[u8]) -> bool {
    value_length(words, kind, selector) == Some(value.len())
        && check_value(words, kind, value).is_ok()
}

/// How many low bytes of the 8 a listed type's selector number takes; 0 where none is used.
/// Nothing for a type that is not listed.
pub fn selector_width(kind: u64) -> Option<usize> {
    match kind {
        OFFERED_FEATURES | DRIVER_FEATURES | STATUS => Some(0),
        COMMON_FIELD => Some(4),
        QUEUE | NOTIFY => Some(2),
        _ => None,
    }
}

/// The length of a register's value; nothing for a selector number that is not listed.
pub fn value_length(words: Words, kind: u64, selector: u64) -> Option<usize> {
    match (kind, selector) {
        (OFFERED_FEATURES | DRIVER_FEATURES, 0) => Some(8 * words as usize),
        (COMMON_FIELD, 0 | 8) => Some(4),
        (COMMON_FIELD, 16 | 22) => Some(2),
        (STATUS, 0) => Some(1),
        (QUEUE, 0..=3) => Some(32),
        (NOTIFY, 0..=3) => Some(8),
        _ => None,
    }
}

/// What a value of the right length must satisfy: 22, then 23.
pub fn check_value(words: Words, kind: u64, value: &[u8]) -> Answer<()> {
    match kind {
        OFFERED_FEATURES => refuse_if(words_of(value) != offered(words), Refusal::Mismatch),
        DRIVER_FEATURES => refuse_if(
            words_of(value)
                .iter()
                .zip(offered(words))
                .any(|(word, offered)| word & !offered != 0),
            Refusal::Mismatch,
        ),
        QUEUE => refuse_if(!good_queue(value), Refusal::Value),
        NOTIFY => refuse_if(number_at(value, 4, 4) != 0, Refusal::Value),
        _ => Ok(()), // common fields and status: any
    }
}

/// size 0..2, vector 2..4, enabled 4..6, reserved 6..8, three addresses 8..16, 16..24, 24..32.
fn good_queue(value: &[u8]) -> bool {
    const SIZES: [u64; 9] = [1, 2, 4, 8, 16, 32, 64, 128, 256];
    let (size, enabled) = (number_at(value, 0, 2), number_at(value, 4, 2));
    // Size 0 says that the queue is unavailable: it cannot be enabled.
    (SIZES.contains(&size) || (size == 0 && enabled == 0))
        && enabled <= 1
        && number_at(value, 6, 2) == 0
        && number_at(value, 8, 8).is_multiple_of(16)
        && number_at(value, 16, 8).is_multiple_of(2)
        && number_at(value, 24, 8).is_multiple_of(4)
}

/// A register's value now, if it is set. The offered features always are.
pub fn current(words: Words, registers: &Registers, kind: u64, selector: u64) -> Option<Vec<u8>> {
    if kind == OFFERED_FEATURES {
        return Some(
            offered(words)
                .iter()
                .flat_map(|word| word.to_le_bytes())
                .collect(),
        );
    }
    registers.get(&(kind, selector)).cloned()
}

/// Type and selector number are any numbers: one that is not listed is 20 or 6, never cut down.
pub fn set_register(state: &mut State, kind: u64, selector: u64, value: &[u8]) -> Answer<u64> {
    state.check_sound()?;
    let width = selector_width(kind).ok_or(Refusal::UnknownPart)?;
    refuse_if(kind == OFFERED_FEATURES, Refusal::ReadOnly)?;
    refuse_if(width == 0 && selector != 0, Refusal::Header)?;
    let length = value_length(state.words, kind, selector).ok_or(Refusal::Index)?;
    refuse_if(value.len() != length, Refusal::Value)?;
    check_value(state.words, kind, value)?;
    state.registers.insert((kind, selector), value.to_vec());
    Ok(0)
}

/// The value goes to the buffer's start and its length is the result.
pub fn read_register(state: &State, kind: u64, selector: u64, buffer: &mut [u8]) -> Answer<u64> {
    state.check_sound()?;
    let width = selector_width(kind).ok_or(Refusal::UnknownPart)?;
    refuse_if(width == 0 && selector != 0, Refusal::Header)?;
    refuse_if(
        value_length(state.words, kind, selector).is_none(),
        Refusal::Index,
    )?;
    let value = current(state.words, &state.registers, kind, selector).ok_or(Refusal::Unset)?;
    refuse_if(buffer.len() < value.len(), Refusal::NoSpace)?;
    buffer[..value.len()].copy_from_slice(&value);
    Ok(value.len() as u64)
}

#[cfg(test)]
mod tests {
    use super::*;
    use crate::bytes::put_number;

    fn refused(refusal: Refusal) -> Answer<u64> {
        Err(refusal.into())
    }

    fn fresh() -> State {
        State::fresh(0)
    }

    /// Size 4, everything else 0, with one field changed: offset, width, number.
    fn queue(offset: usize, width: usize, number: u64) -> Vec<u8> {
        let mut value = vec![0; 32];
        put_number(&mut value, 0, 2, 4);
        put_number(&mut value, offset, width, number);
        value
    }

    fn set_queue(value: &[u8]) -> Answer<u64> {
        set_register(&mut fresh(), QUEUE, 0, value)
    }

    #[test]
    fn queue_size_is_0_or_a_power_of_two_up_to_256() {
        for size in 0..=0xffff {
            let good = [0, 1, 2, 4, 8, 16, 32, 64, 128, 256].contains(&size);
            let expected = if good { Ok(0) } else { refused(Refusal::Value) };
            assert_eq!(set_queue(&queue(0, 2, size)), expected, "{size}");
        }
    }

    /// Rule 5.20: unavailable, so not enabled; the other rules hold as for any queue.
    #[test]
    fn a_queue_of_size_0_is_not_enabled() {
        let with = |offset: usize, number: u64| {
            let mut value = queue(0, 2, 0);
            put_number(&mut value, offset, 2, number);
            set_queue(&value)
        };
        assert_eq!(with(2, 0xffff), Ok(0));
        for (offset, number) in [(4, 1), (4, 0x100), (6, 1), (8, 8), (16, 1), (24, 2)] {
            assert_eq!(
                with(offset, number),
                refused(Refusal::Value),
                "{number} at {offset}"
            );
        }
    }

    #[test]
    fn queue_enabled_is_0_or_1_and_reserved_0_and_the_vector_any() {
        assert_eq!(set_queue(&queue(2, 2, 0xffff)), Ok(0));
        assert_eq!(set_queue(&queue(4, 2, 1)), Ok(0));
        assert_eq!(set_queue(&queue(4, 2, 2)), refused(Refusal::Value));
        assert_eq!(set_queue(&queue(4, 2, 0x100)), refused(Refusal::Value));
        assert_eq!(set_queue(&queue(6, 2, 1)), refused(Refusal::Value));
        assert_eq!(set_queue(&queue(6, 2, 0x100)), refused(Refusal::Value));
    }

    /// Rule 5.3: 16, 2 and 4 in that order.
    #[test]
    fn queue_addresses_are_multiples_of_16_2_and_4() {
        for (offset, multiple) in [(8, 16), (16, 2), (24, 4)] {
            let top = 0u64.wrapping_sub(multiple);
            assert_eq!(set_queue(&queue(offset, 8, multiple)), Ok(0));
            assert_eq!(set_queue(&queue(offset, 8, top)), Ok(0));
            for wrong in [multiple / 2, multiple + multiple / 2, 1, top + 1] {
                assert_eq!(
                    set_queue(&queue(offset, 8, wrong)),
                    refused(Refusal::Value),
                    "{wrong} at {offset}"
                );
            }
        }
    }

    #[test]
    fn notifys_last_four_bytes_are_reserved() {
        let mut state = fresh();
        let mut set = |value: [u8; 8]| set_register(&mut state, NOTIFY, 3, &value);
        assert_eq!(set([255, 255, 255, 255, 0, 0, 0, 0]), Ok(0));
        for i in 4..8 {
            let mut value = [0; 8];
            value[i] = 1;
            assert_eq!(set(value), refused(Refusal::Value), "byte {i}");
        }
    }

    #[test]
    fn driver_features_are_only_offered_bits() {
        let set = |features: u64| {
            let mut state = fresh();
            set_register(&mut state, DRIVER_FEATURES, 0, &features.to_le_bytes())
        };
        for features in [0, 0x1000_0000, 0x2000_0000, 0x1_0000_0000, OFFERED[0]] {
            assert_eq!(set(features), Ok(0), "{features:#x}");
        }
        for features in [1, 0x4000_0000, 0x2_0000_0000, 1 << 63, OFFERED[0] + 1] {
            assert_eq!(set(features), refused(Refusal::Mismatch), "{features:#x}");
        }
    }

    /// Rule 5.15: 20, 26, 19, 6, 22, 23.
    #[test]
    fn settings_checks_run_in_the_rules_order() {
        let cases: [(u64, u64, &[u8], Refusal); 14] = [
            (0x0ff, 9, &[], Refusal::UnknownPart),
            (0x106, 9, &[], Refusal::UnknownPart),
            (0x600, 0, &[0], Refusal::UnknownPart),
            (0x1_0103, 0, &[0], Refusal::UnknownPart),
            (0x100, 9, &[], Refusal::ReadOnly),
            (0x100, 0, &[0, 0, 0, 0x30, 1, 0, 0, 0], Refusal::ReadOnly),
            (0x101, 1, &[], Refusal::Header),
            (0x103, 1 << 40, &[0], Refusal::Header),
            (0x104, 4, &[], Refusal::Index),
            (0x105, 4, &[0; 8], Refusal::Index),
            (0x105, 256, &[0; 8], Refusal::Index),
            (0x103, 0, &[], Refusal::Value),
            (0x103, 0, &[0, 0], Refusal::Value),
            (0x101, 0, &[255; 9], Refusal::Value),
        ];
        for (kind, selector, value, refusal) in cases {
            let mut state = fresh();
            let answer = set_register(&mut state, kind, selector, value);
            assert_eq!(answer, refused(refusal), "{kind:#x} {selector}");
            assert_eq!(state, fresh());
        }
    }

    /// Rules 5.2 and 5.17: a number beyond its field is 6, never cut down.
    #[test]
    fn common_offsets_are_0_8_16_and_22() {
        let mut state = fresh();
        for (offset, length) in [(0, 4), (8, 4), (16, 2), (22, 2)] {
            for given in 0..6 {
                let answer = set_register(&mut state, COMMON_FIELD, offset, &vec![255; given]);
                let expected = if given == length {
                    Ok(0)
                } else {
                    refused(Refusal::Value)
                };
                assert_eq!(answer, expected, "{given} bytes at {offset}");
            }
        }
        for offset in [1, 4, 12, 18, 20, 21, 23, 24, 1 << 32, (1 << 32) + 8] {
            let answer = set_register(&mut state, COMMON_FIELD, offset, &[0; 2]);
            assert_eq!(answer, refused(Refusal::Index), "{offset}");
        }
        let answer = set_register(&mut state, QUEUE, 0x1_0001, &queue(0, 2, 4));
        assert_eq!(answer, refused(Refusal::Index));
    }

    /// Rule 5.16: 25 before 27; the rest of the buffer stays.
    #[test]
    fn reading_gives_the_value_its_length_and_nothing_else() {
        let mut state = fresh();
        let mut buffer = [0xa5; 10];
        let mut read = |state: &State, kind, selector, room: usize| {
            read_register(state, kind, selector, &mut buffer[..room])
        };
        assert_eq!(read(&state, 0x106, 0, 0), refused(Refusal::UnknownPart));
        assert_eq!(read(&state, 0x100, 1, 0), refused(Refusal::Header));
        assert_eq!(read(&state, 0x102, 18, 0), refused(Refusal::Index));
        assert_eq!(read(&state, 0x102, 16, 0), refused(Refusal::Unset));
        assert_eq!(read(&state, 0x103, 0, 0), refused(Refusal::NoSpace));
        assert_eq!(set_register(&mut state, 0x102, 16, &[1, 2]), Ok(0));
        assert_eq!(read(&state, 0x102, 16, 1), refused(Refusal::NoSpace));
        assert_eq!(read(&state, 0x102, 16, 2), Ok(2));
        assert_eq!(
            buffer,
            [1, 2, 0xa5, 0xa5, 0xa5, 0xa5, 0xa5, 0xa5, 0xa5, 0xa5]
        );
        assert_eq!(read_register(&state, 0x100, 0, &mut buffer), Ok(8));
        assert_eq!(buffer, [0, 0, 0, 0x30, 1, 0, 0, 0, 0xa5, 0xa5]);
    }

    /// Rules 4.2 and 5.18: registers have no effect on each other or on the running state.
    #[test]
    fn setting_status_to_0_is_no_reset_and_a_running_card_may_be_set() {
        let mut state = fresh();
        state.running = true;
        assert_eq!(set_register(&mut state, 0x102, 0, &[1, 2, 3, 4]), Ok(0));
        assert_eq!(set_register(&mut state, 0x103, 0, &[0]), Ok(0));
        assert_eq!(read_register(&state, 0x102, 0, &mut [0; 4]), Ok(4));
        assert!(state.running);
    }
}
