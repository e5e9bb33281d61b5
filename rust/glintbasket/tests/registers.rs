//! Registers, streams of parts and the walker.

mod common;

use common::{bench, refused};
use glintbasket::{kind, Parts, Refusal, PART_HEADER, SAVED_MAX, TRANSFER_LIMIT};

/// What a reset device saves: offered features and status.
const RESET: [u8; 41] = [
    0x00, 0x01, 1, 0, 0, 0, 0, 0, 0, 0, 0, 0, 8, 0, 0, 0, 0, 0, 0, 0x30, 1, 0, 0, 0, //
    0x03, 0x01, 0, 0, 0, 0, 0, 0, 0, 0, 0, 0, 1, 0, 0, 0, 0,
];

/// The status part of `RESET`.
const STATUS: usize = 24;

/// A queue's value: its size, enabled, and zeros.
fn queue(size: u16) -> [u8; 32] {
    let mut value = [0; 32];
    value[..2].copy_from_slice(&size.to_le_bytes());
    value[4] = 1;
    value
}

// ---- registers

#[test]
fn set_register_is_read_back() {
    let mut bench = bench(1);
    let value = queue(256);
    assert_eq!(bench.set_register(kind::QUEUE_CONFIG, 3, &value), Ok(()));
    let mut buffer = [0xee; 40];
    assert_eq!(
        bench.read_register(kind::QUEUE_CONFIG, 3, &mut buffer),
        Ok(32)
    );
    assert_eq!(buffer[..32], value);
    assert_eq!(buffer[32..], [0xee; 8]);
}

#[test]
fn set_register_refuses() {
    let mut bench = bench(1);
    let mut set = |kind, selector, value: &[u8]| bench.set_register(kind, selector, value);
    let status = kind::DEVICE_STATUS;
    assert_eq!(set(0x106, 0, &[0]), refused(Refusal::UnknownPart, 0));
    assert_eq!(set(1 << 32, 0, &[0]), refused(Refusal::UnknownPart, 0));
    assert_eq!(
        set(kind::OFFERED_FEATURES, 0, &[0; 8]),
        refused(Refusal::ReadOnly, 0)
    );
    assert_eq!(set(status, 1, &[0]), refused(Refusal::Header, 0));
    assert_eq!(
        set(kind::NOTIFY_CONFIG, 4, &[0; 8]),
        refused(Refusal::Index, 0)
    );
    assert_eq!(set(status, 0, &[]), refused(Refusal::Value, 0));
    assert_eq!(
        set(kind::QUEUE_CONFIG, 0, &queue(3)),
        refused(Refusal::Value, 0)
    );
    assert_eq!(
        set(kind::DRIVER_FEATURES, 0, &[1, 0, 0, 0, 0, 0, 0, 0]),
        refused(Refusal::Mismatch, 0)
    );
    // Nothing of it was kept.
    let mut buffer = [0; SAVED_MAX];
    assert_eq!(bench.save_parts(&mut buffer), Ok(RESET.len()));
}

#[test]
fn read_register_refuses_and_leaves_the_buffer() {
    let bench = bench(1);
    let mut buffer = [0xee; 8];
    let mut read = |kind, selector, room: usize| {
        let answer = bench.read_register(kind, selector, &mut buffer[..room]);
        assert_eq!(buffer, [0xee; 8]);
        answer
    };
    assert_eq!(read(0x99, 0, 8), refused(Refusal::UnknownPart, 0));
    assert_eq!(read(kind::DEVICE_STATUS, 1, 8), refused(Refusal::Header, 0));
    assert_eq!(read(kind::COMMON_FIELD, 4, 8), refused(Refusal::Index, 0));
    assert_eq!(read(kind::COMMON_FIELD, 8, 8), refused(Refusal::Unset, 0));
    assert_eq!(
        read(kind::OFFERED_FEATURES, 0, 7),
        refused(Refusal::NoSpace, 0)
    );
}

#[test]
fn offered_features_are_constant() {
    let mut buffer = [0; 8];
    assert_eq!(
        bench(1).read_register(kind::OFFERED_FEATURES, 0, &mut buffer),
        Ok(8)
    );
    assert_eq!(u64::from_le_bytes(buffer), 0x1_3000_0000);
}

#[test]
fn reset_unsets_registers_and_keeps_the_device_running() {
    let mut bench = bench(1);
    bench.set_register(kind::DEVICE_STATUS, 0, &[15]).unwrap();
    bench.set_register(kind::COMMON_FIELD, 16, &[1, 2]).unwrap();
    bench.start().unwrap();
    assert_eq!(bench.reset(), Ok(()));
    assert!(bench.is_running());
    let mut status = [9];
    assert_eq!(
        bench.read_register(kind::DEVICE_STATUS, 0, &mut status),
        Ok(1)
    );
    assert_eq!(status, [0]);
    assert_eq!(
        bench.read_register(kind::COMMON_FIELD, 16, &mut [0; 2]),
        refused(Refusal::Unset, 0)
    );
}

#[test]
fn start_and_stop_set_whether_the_device_runs() {
    let mut bench = bench(1);
    for _ in 0..2 {
        assert_eq!(bench.start(), Ok(()));
        assert!(bench.is_running());
    }
    for _ in 0..2 {
        assert_eq!(bench.stop(), Ok(()));
        assert!(!bench.is_running());
    }
}

// ---- streams

#[test]
fn save_parts_of_a_reset_device() {
    let bench = bench(1);
    let mut buffer = [0xee; 50];
    assert_eq!(bench.save_parts(&mut buffer), Ok(41));
    assert_eq!(buffer[..41], RESET);
    assert_eq!(buffer[41..], [0xee; 9]);
}

#[test]
fn save_parts_refuses_and_leaves_the_buffer() {
    let mut bench = bench(1);
    let mut buffer = [0xee; 41];
    assert_eq!(
        bench.save_parts(&mut buffer[..40]),
        refused(Refusal::NoSpace, 0)
    );
    bench.start().unwrap();
    assert_eq!(bench.save_parts(&mut buffer), refused(Refusal::Running, 0));
    assert_eq!(buffer, [0xee; 41]);
}

#[test]
fn save_parts_never_writes_more_than_saved_max() {
    let mut bench = bench(1);
    bench
        .set_register(kind::DRIVER_FEATURES, 0, &[0; 8])
        .unwrap();
    for (selector, size) in [(0, 4), (8, 4), (16, 2), (22, 2)] {
        bench
            .set_register(kind::COMMON_FIELD, selector, &vec![1; size])
            .unwrap();
    }
    for index in 0..4 {
        bench
            .set_register(kind::QUEUE_CONFIG, index, &queue(8))
            .unwrap();
        bench
            .set_register(kind::NOTIFY_CONFIG, index, &[0; 8])
            .unwrap();
    }
    let mut buffer = [0; SAVED_MAX];
    assert_eq!(bench.save_parts(&mut buffer), Ok(429));

    // What was saved loads into another bench, and saves as the same.
    let mut other = common::bench(1);
    assert_eq!(other.load_parts(&buffer[..429]), Ok(()));
    let mut again = [0; SAVED_MAX];
    assert_eq!(other.save_parts(&mut again), Ok(429));
    assert_eq!(again, buffer);
}

#[test]
fn load_parts_unsets_what_the_stream_lacks() {
    let mut bench = bench(1);
    bench.set_register(kind::COMMON_FIELD, 22, &[0; 2]).unwrap();
    assert_eq!(bench.load_parts(&RESET[STATUS..]), Ok(()));
    assert_eq!(
        bench.read_register(kind::COMMON_FIELD, 22, &mut [0; 2]),
        refused(Refusal::Unset, 0)
    );
}

#[test]
fn load_parts_refuses_at_the_part_and_keeps_the_registers() {
    let mut bench = bench(1);
    bench.set_register(kind::DEVICE_STATUS, 0, &[7]).unwrap();
    let status = &RESET[STATUS..];
    let edited = |at: usize, byte: u8| {
        let mut stream = RESET;
        stream[at] = byte;
        stream
    };
    let mut load = |stream: &[u8]| bench.load_parts(stream);
    assert_eq!(load(&[]), refused(Refusal::Missing, 0));
    assert_eq!(load(&RESET[..STATUS]), refused(Refusal::Missing, 24));
    assert_eq!(load(&RESET[..40]), refused(Refusal::Truncated, 24));
    assert_eq!(
        load(&[status, status].concat()),
        refused(Refusal::Twice, 17)
    );
    assert_eq!(load(&edited(2, 2)), refused(Refusal::Header, 0));
    assert_eq!(load(&edited(16, 1)), refused(Refusal::Mismatch, 0));
    assert_eq!(load(&edited(STATUS, 6)), refused(Refusal::UnknownPart, 24));
    assert_eq!(load(&edited(STATUS, 4)), refused(Refusal::Value, 24));
    assert_eq!(
        load(&vec![0; TRANSFER_LIMIT + 1]),
        refused(Refusal::TooLong, 0)
    );
    let mut kept = [0];
    assert_eq!(
        bench.read_register(kind::DEVICE_STATUS, 0, &mut kept),
        Ok(1)
    );
    assert_eq!(kept, [7]);
    bench.start().unwrap();
    assert_eq!(bench.load_parts(&RESET), refused(Refusal::Running, 0));
}

// ---- the walker

#[test]
fn parts_hands_out_stretches_of_the_stream() {
    let parts: Vec<_> = Parts::new(&RESET).collect::<Result<_, _>>().unwrap();
    assert_eq!(parts.len(), 2);
    assert_eq!(u64::from(parts[0].kind), kind::OFFERED_FEATURES);
    assert_eq!(parts[0].flags, 1);
    assert_eq!(parts[0].selector, 0);
    assert_eq!(parts[0].next, STATUS);
    assert!(std::ptr::eq(parts[0].value, &RESET[PART_HEADER..STATUS]));
    assert_eq!(u64::from(parts[1].kind), kind::DEVICE_STATUS);
    assert_eq!(parts[1].value, [0]);
    assert_eq!(parts[1].next, RESET.len());
}

#[test]
fn parts_gives_the_selector_as_one_number() {
    let mut stream = [0; PART_HEADER];
    stream[4..12].copy_from_slice(&0x0102_0304_0506_0708u64.to_le_bytes());
    let part = Parts::new(&stream).next().unwrap().unwrap();
    assert_eq!(part.selector, 0x0102_0304_0506_0708);
    assert_eq!(part.value, []);
}

#[test]
fn parts_ends_after_a_refusal() {
    let mut parts = Parts::new(&RESET[..40]);
    assert!(parts.next().unwrap().is_ok());
    assert_eq!(parts.next(), Some(refused(Refusal::Truncated, 24)));
    assert_eq!(parts.next(), None);
}

#[test]
fn step_answers_the_same_at_the_end_and_after_a_refusal() {
    let mut at_end = Parts::at(&RESET, RESET.len());
    let mut malformed = RESET;
    malformed[3] = 1;
    let mut refusing = Parts::new(&malformed);
    for _ in 0..2 {
        assert_eq!(at_end.step(), Ok(None));
        assert_eq!(at_end.place(), RESET.len());
        assert_eq!(refusing.step(), refused(Refusal::Header, 0));
        assert_eq!(refusing.place(), 0);
    }
}

#[test]
fn step_refuses_a_place_past_the_end() {
    for place in [42, usize::MAX] {
        assert_eq!(
            Parts::at(&RESET, place).step(),
            refused(Refusal::Truncated, place as u64)
        );
    }
}

#[test]
fn step_of_an_empty_stream_is_the_end() {
    assert_eq!(Parts::new(&[]).step(), Ok(None));
}
