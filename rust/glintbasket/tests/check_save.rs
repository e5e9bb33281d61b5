//! Whether a stream is what saving writes, on streams whose answers are known.

use glintbasket::{check_save, kind, Card, OwnedBench, SaveCheck, SAVED_MAX};
use SaveCheck::{DiffersAt, Save};

const FIRST: Card = Card::Features64;

fn bench() -> OwnedBench {
    OwnedBench::with_memory(vec![0; 1]).expect("a fresh start")
}

/// What a bench saves.
fn saved(bench: &OwnedBench) -> Vec<u8> {
    let mut buffer = [0; SAVED_MAX];
    let length = bench.save_parts(&mut buffer).expect("a stopped device");
    buffer[..length].to_vec()
}

/// A save that has every register.
fn longest() -> Vec<u8> {
    let mut bench = bench();
    let mut set = |kind, selector, value: &[u8]| bench.set_register(kind, selector, value).unwrap();
    set(kind::DRIVER_FEATURES, 0, &[0, 0, 0, 0x10, 1, 0, 0, 0]);
    for (selector, length) in [(0, 4), (8, 4), (16, 2), (22, 2)] {
        set(kind::COMMON_FIELD, selector, &[0xff; 4][..length]);
    }
    set(kind::DEVICE_STATUS, 0, &[0xff]);
    for selector in 0..4 {
        let mut queue = [0; 32];
        queue[1] = 1; // size 256
        queue[2..4].copy_from_slice(&[0xff; 2]);
        queue[4] = 1;
        queue[8] = 0xf0;
        set(kind::QUEUE_CONFIG, selector, &queue);
        set(kind::NOTIFY_CONFIG, selector, &[1, 2, 3, 4, 0, 0, 0, 0]);
    }
    saved(&bench)
}

/// The place of a queue's part in the longest save.
const QUEUE: usize = 24 + 24 + 20 + 20 + 18 + 18 + 17;

#[test]
fn every_save_is_one() {
    let stream = longest();
    assert_eq!(stream.len(), Card::Features64.saved_max());
    assert_eq!(check_save(FIRST, &stream), Save);
    assert_eq!(check_save(FIRST, &saved(&bench())), Save);
}

/// A beginning of a save is no save, unless it ends where a part does and has the status.
#[test]
fn a_beginning_is_answered_by_its_whole_length() {
    let stream = longest();
    let ends = [0, 1, 2, 3, 4].map(|queue| QUEUE + 48 * queue);
    let ends = [
        ends.to_vec(),
        (1..=4).map(|n| QUEUE + 192 + 24 * n).collect(),
    ]
    .concat();
    for length in 0..=stream.len() {
        let expected = if ends.contains(&length) {
            Save
        } else {
            DiffersAt(length)
        };
        assert_eq!(check_save(FIRST, &stream[..length]), expected, "{length}");
    }
}

#[test]
fn bytes_behind_a_save_differ() {
    let mut stream = longest();
    stream.resize(100_000, 0);
    assert_eq!(check_save(FIRST, &stream), DiffersAt(429));
    stream.truncate(QUEUE);
    stream.push(0x03);
    assert_eq!(check_save(FIRST, &stream), DiffersAt(QUEUE));
    // It could go on as a queue or a notify value.
    stream[QUEUE] = 0x05;
    assert_eq!(check_save(FIRST, &stream), DiffersAt(QUEUE + 1));
}

/// The place inside a queue's value, by the value's bytes that are changed.
#[test]
fn values_are_judged_byte_by_byte() {
    let changed = |changes: &[(usize, u8)]| {
        let mut stream = longest();
        for &(offset, byte) in changes {
            stream[QUEUE + 16 + offset] = byte;
        }
        match check_save(FIRST, &stream) {
            Save => None,
            DiffersAt(place) => Some(place - QUEUE - 16),
        }
    };
    assert_eq!(changed(&[(0, 3)]), Some(0)); // size 259
    assert_eq!(changed(&[(0, 4)]), Some(1)); // size 260: 4 may go on to 4
    assert_eq!(changed(&[(1, 2)]), Some(1)); // size 512
    assert_eq!(changed(&[(0, 4), (1, 0)]), None);
    assert_eq!(changed(&[(1, 0)]), Some(4)); // size 0, enabled
    assert_eq!(changed(&[(1, 0), (4, 0)]), None);
    assert_eq!(changed(&[(4, 2)]), Some(4));
    assert_eq!(changed(&[(5, 1)]), Some(5));
    assert_eq!(changed(&[(6, 1)]), Some(6));
    assert_eq!(changed(&[(7, 1)]), Some(7));
    assert_eq!(changed(&[(8, 8)]), Some(8));
    assert_eq!(changed(&[(9, 1)]), None);
    assert_eq!(changed(&[(16, 1)]), Some(16));
    assert_eq!(changed(&[(24, 2)]), Some(24));
    assert_eq!(changed(&[(31, 0xff)]), None);
}

#[test]
fn features_are_judged_byte_by_byte() {
    let mut stream = longest();
    stream[24 + 16 + 3] = 0x18; // bit 27 is not offered
    assert_eq!(check_save(FIRST, &stream), DiffersAt(24 + 16 + 3));
    stream[16 + 4] = 0; // what is offered is exact
    assert_eq!(check_save(FIRST, &stream), DiffersAt(16 + 4));
}

#[test]
fn parts_come_in_the_order_of_saving() {
    let reset = saved(&bench());
    let (features, status) = reset.split_at(24);
    assert_eq!(
        check_save(FIRST, &[status, features].concat()),
        DiffersAt(0)
    );
    // Selector 8 of the common fields behind 16: the type still may be.
    let longest = longest();
    let (eight, sixteen) = (&longest[68..88], &longest[88..106]);
    let swapped = [features, sixteen, eight, status].concat();
    assert_eq!(check_save(FIRST, &swapped), DiffersAt(24 + 18 + 4));
    // A part that loading passes over.
    let optional = [&[0, 5, 1, 0][..], &[0; 12]].concat();
    assert_eq!(
        check_save(FIRST, &[&reset[..], &optional].concat()),
        DiffersAt(41)
    );
}

#[test]
fn a_save_is_its_own_cards() {
    let second = Card::Features128;
    let first = saved(&bench());
    let other = saved(&OwnedBench::with_memory_and_card(vec![0; 1], second).unwrap());
    assert_eq!(check_save(second, &other), Save);
    assert_eq!(check_save(second, &first), DiffersAt(12));
    assert_eq!(check_save(FIRST, &other), DiffersAt(12));
    assert!(check_save(second, &other).is_save());
    // The second word offers bit 0 alone.
    let mut wrong = other;
    wrong[16 + 8] = 3;
    assert_eq!(check_save(second, &wrong), DiffersAt(16 + 8));
}
