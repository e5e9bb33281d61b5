//! Whether a stream is what saving writes (rules 5.22 and 5.23), by trying.

use crate::parts::{HEADER, OPTIONAL};
use crate::registers::{
    check_value, current, value_length, Registers, Words, COMMON_FIELD, DRIVER_FEATURES, NOTIFY,
    OFFERED_FEATURES, QUEUE, STATUS,
};

/// What the check answers.
#[derive(Clone, Copy, Debug, PartialEq, Eq)]
pub enum SaveCheck {
    Save,
    DiffersAt(usize),
}

/// Every register in the order in which they are saved.
const REGISTERS: [(u64, u64); 15] = [
    (OFFERED_FEATURES, 0),
    (DRIVER_FEATURES, 0),
    (COMMON_FIELD, 0),
    (COMMON_FIELD, 8),
    (COMMON_FIELD, 16),
    (COMMON_FIELD, 22),
    (STATUS, 0),
    (QUEUE, 0),
    (QUEUE, 1),
    (QUEUE, 2),
    (QUEUE, 3),
    (NOTIFY, 0),
    (NOTIFY, 1),
    (NOTIFY, 2),
    (NOTIFY, 3),
];

/// How far some save agrees, and whether it is the whole stream.
#[derive(Clone, Copy, PartialEq, Eq, PartialOrd, Ord)]
struct Reached {
    length: usize,
    whole: bool,
}

/// Every choice of registers is tried, and of each value every beginning.
pub fn check_save(words: Words, stream: &[u8]) -> SaveCheck {
    let reached = try_registers(words, stream, 0, &REGISTERS);
    if reached.whole {
        SaveCheck::Save
    } else {
        SaveCheck::DiffersAt(reached.length)
    }
}

/// The farthest that saves of these registers, and no others, agree with the stream from `place` on.
fn try_registers(words: Words, stream: &[u8], place: usize, registers: &[(u64, u64)]) -> Reached {
    let Some((&(kind, selector), rest)) = registers.split_first() else {
        return Reached {
            length: place,
            whole: place == stream.len(),
        };
    };
    let set = try_part(words, stream, place, kind, selector, rest);
    if kind == OFFERED_FEATURES || kind == STATUS {
        return set;
    }
    set.max(try_registers(words, stream, place, rest))
}

/// The same where the first of the registers is set.
fn try_part(
    words: Words,
    stream: &[u8],
    place: usize,
    kind: u64,
    selector: u64,
    rest: &[(u64, u64)],
) -> Reached {
    let left = &stream[place..];
    let header = header(words, kind, selector);
    let agreeing = left.iter().zip(&header).take_while(|(a, b)| a == b).count();
    let mut reached = Reached {
        length: place + agreeing,
        whole: false,
    };
    if agreeing < HEADER {
        return reached;
    }
    let size = length(words, kind, selector);
    let value = &left[HEADER..];
    let good = |count: &usize| begins(words, kind, &value[..*count], size);
    let most = (0..=size.min(value.len())).filter(good).max().unwrap_or(0);
    reached.length += most;
    if most == size {
        reached = reached.max(try_registers(words, stream, place + HEADER + size, rest));
    }
    reached
}

fn length(words: Words, kind: u64, selector: u64) -> usize {
    value_length(words, kind, selector).expect("a register of the list")
}

/// Rules 5.1 and 5.14.
fn header(words: Words, kind: u64, selector: u64) -> Vec<u8> {
    let flags = if kind == OFFERED_FEATURES {
        OPTIONAL
    } else {
        0
    };
    let size = length(words, kind, selector) as u32;
    [
        &(kind as u16).to_le_bytes()[..],
        &[flags as u8, 0],
        &selector.to_le_bytes(),
        &size.to_le_bytes(),
    ]
    .concat()
}

/// Whether a value that setting accepts (of offered features, the one that there is) begins with these bytes. What is tried behind them:
/// zeros, what the card offers, and each with one of its bytes changed to any other.
fn begins(words: Words, kind: u64, start: &[u8], size: usize) -> bool {
    let mut offered = current(words, &Registers::new(), OFFERED_FEATURES, 0).unwrap_or_default();
    offered.resize(32, 0);
    [vec![0; 32], offered].iter().any(|filler| {
        let mut value = [start, &filler[start.len()..size]].concat();
        let accepted = |value: &[u8]| check_value(words, kind, value).is_ok();
        accepted(&value)
            || (start.len()..size).any(|at| {
                let kept = value[at];
                let found = (0..=255).any(|byte| {
                    value[at] = byte;
                    accepted(&value)
                });
                value[at] = kept;
                found
            })
    })
}

#[cfg(test)]
mod tests {
    use super::*;
    use crate::bench::State;
    use crate::parts::save_parts;
    use crate::registers::set_register;

    /// What a card saves that has these queues, by selector, and nothing else but its status.
    fn saved(words: Words, queues: &[(u64, [u8; 32])]) -> Vec<u8> {
        let mut state = State::fresh_card(words, 0, Vec::new());
        for (selector, value) in queues {
            set_register(&mut state, QUEUE, *selector, value).expect("a good queue");
        }
        let mut buffer = [0; 512];
        let length = save_parts(&state, &mut buffer).expect("a stopped device");
        buffer[..length as usize].to_vec()
    }

    #[test]
    fn saves_are_saves_of_their_own_card() {
        let queue = [0; 32];
        for words in 1..=2 {
            for queues in [&[][..], &[(1, queue)], &[(0, queue), (3, queue)]] {
                let stream = saved(words, queues);
                assert_eq!(check_save(words, &stream), SaveCheck::Save);
                assert_eq!(check_save(3 - words, &stream), SaveCheck::DiffersAt(12));
            }
        }
    }

    #[test]
    fn beginnings_are_answered_by_their_whole_length() {
        let stream = saved(1, &[(2, [0; 32])]);
        for length in 0..stream.len() {
            let expected = match length {
                41 => SaveCheck::Save,
                _ => SaveCheck::DiffersAt(length),
            };
            assert_eq!(check_save(1, &stream[..length]), expected, "{length}");
        }
    }

    #[test]
    fn a_wrong_byte_is_found_inside_its_value() {
        let value = 41 + HEADER;
        let with = |changes: &[(usize, u8)]| {
            let mut stream = saved(1, &[(2, [0; 32])]);
            for &(offset, byte) in changes {
                stream[value + offset] = byte;
            }
            check_save(1, &stream)
        };
        assert_eq!(with(&[(0, 3)]), SaveCheck::DiffersAt(value));
        assert_eq!(with(&[(1, 2)]), SaveCheck::DiffersAt(value + 1));
        assert_eq!(with(&[(1, 1), (4, 1)]), SaveCheck::Save);
        assert_eq!(with(&[(4, 1)]), SaveCheck::DiffersAt(value + 4));
        assert_eq!(with(&[(24, 6)]), SaveCheck::DiffersAt(value + 24));
    }
}
