//! Walks of a split virtqueue: what is found, what is refused and where, and what stays.

mod common;

use common::{bench, refused, PAGE};
use glintbasket::raw::{self, Outcome};
use glintbasket::{
    kind, Bench, Buffer, Card, DeviceAddress, MemoryAddress, OwnedBench, Refusal, Rights, Walk,
    Walked, DEVICE_LIMIT, WALKED_MAX,
};

/// Where the descriptors and the ring lie, as device addresses and in memory.
const DEVICE: u64 = 0x10000;
const RING: u64 = 0x1000;
const NEXT: u16 = Buffer::NEXT;
const INDIRECT: u16 = 4;

fn queue(size: u16, enabled: u16, descriptors: u64, driver: u64) -> [u8; 32] {
    let mut value = [0; 32];
    value[..2].copy_from_slice(&size.to_le_bytes());
    value[4..6].copy_from_slice(&enabled.to_le_bytes());
    value[8..16].copy_from_slice(&descriptors.to_le_bytes());
    value[16..24].copy_from_slice(&driver.to_le_bytes());
    value
}

/// Two pages for the device to read, and a queue of this size in them.
fn with_queue(size: u16) -> OwnedBench {
    let mut bench = bench(2);
    bench
        .map(
            MemoryAddress(0),
            DeviceAddress(DEVICE),
            2 * PAGE,
            Rights::READ,
        )
        .unwrap();
    set_queue(&mut bench, 0, &queue(size, 1, DEVICE, DEVICE + RING));
    bench
}

fn set_queue(bench: &mut Bench, number: u64, value: &[u8]) {
    bench
        .set_register(kind::QUEUE_CONFIG, number, value)
        .unwrap();
}

fn put(bench: &mut Bench, address: u64, bytes: &[u8]) {
    bench.host_write(MemoryAddress(address), bytes).unwrap();
}

/// The buffer that [`describe`] gives a descriptor.
fn buffer(descriptor: u16, flags: u16) -> Buffer {
    Buffer {
        address: DeviceAddress(0x1_0000_0000_0000 + u64::from(descriptor)),
        length: 100 + u32::from(descriptor),
        flags,
    }
}

fn describe(bench: &mut Bench, descriptor: u16, flags: u16, next: u16) {
    let Buffer {
        address, length, ..
    } = buffer(descriptor, flags);
    let mut bytes = address.0.to_le_bytes().to_vec();
    bytes.extend(length.to_le_bytes());
    bytes.extend(flags.to_le_bytes());
    bytes.extend(next.to_le_bytes());
    put(bench, 16 * u64::from(descriptor), &bytes);
}

/// The ring's index, and heads from a place on. Nobody writes the ring's flags.
fn ring(bench: &mut Bench, index: u16, place: u64, heads: &[u16]) {
    put(bench, RING + 2, &index.to_le_bytes());
    for (head, at) in heads.iter().zip(place..) {
        put(bench, RING + 4 + 2 * at, &head.to_le_bytes());
    }
}

#[test]
fn heads_are_walked_in_order_each_chain_before_the_next_head() {
    let mut bench = with_queue(4);
    describe(&mut bench, 2, NEXT, 0);
    describe(&mut bench, 0, 0xfff8 | Buffer::WRITE, 9);
    describe(&mut bench, 3, 0, 0xffff);
    ring(&mut bench, 2, 0, &[2, 3]);
    let walk = bench.walk_queue(0, 0).unwrap();
    let buffers = [buffer(2, NEXT), buffer(0, 0xfffa), buffer(3, 0)];
    assert_eq!((&walk.buffers[..], walk.index), (&buffers[..], 2));
    let chains: Vec<_> = walk.chains().collect();
    assert_eq!(chains, [&buffers[..2], &buffers[2..]]);
    assert!(buffers[0].has_next() && !buffers[0].is_writable());
    assert!(!buffers[1].has_next() && buffers[1].is_writable());

    let behind = Walk {
        buffers: vec![buffers[2]],
        index: 2,
    };
    assert_eq!(bench.walk_queue(0, 1), Ok(behind));
    let none = Walk {
        buffers: vec![],
        index: 2,
    };
    assert_eq!(bench.walk_queue(0, 2), Ok(none));
    bench.start().unwrap();
    assert_eq!(bench.walk_queue(0, 0), Ok(walk), "a device that runs");
}

#[test]
fn indices_run_modulo_2_to_the_16() {
    let mut bench = with_queue(2);
    describe(&mut bench, 0, 0, 0);
    describe(&mut bench, 1, 0, 0);
    ring(&mut bench, 1, 0, &[0, 1]);
    let walk = bench.walk_queue(0, 65535).unwrap();
    assert_eq!(walk.buffers, [buffer(1, 0), buffer(0, 0)]);
    assert_eq!(walk.index, 1);
    let far = refused(Refusal::RingDistance, 0);
    for last in [65534, 2, 3, 32769] {
        assert_eq!(bench.walk_queue(0, last), far, "{last}");
    }
}

#[test]
fn a_chain_has_as_many_descriptors_as_the_queue_at_most() {
    let mut bench = with_queue(4);
    for descriptor in 0..3 {
        describe(&mut bench, descriptor, NEXT, descriptor + 1);
    }
    describe(&mut bench, 3, 0, 0);
    ring(&mut bench, 2, 0, &[3, 0]);
    assert_eq!(bench.walk_queue(0, 0).unwrap().buffers.len(), 5);

    let long = refused(Refusal::ChainLength, 1);
    describe(&mut bench, 3, NEXT, 0);
    ring(&mut bench, 1, 0, &[0]);
    assert_eq!(bench.walk_queue(0, 0), refused(Refusal::ChainLength, 0));
    describe(&mut bench, 2, 0, 0);
    describe(&mut bench, 1, NEXT, 1);
    ring(&mut bench, 2, 0, &[2, 1]);
    assert_eq!(bench.walk_queue(0, 0), long, "one that leads to itself");
    // Too long comes before a next that there is not, and indirect before both.
    describe(&mut bench, 1, NEXT, 2);
    describe(&mut bench, 2, NEXT, 3);
    describe(&mut bench, 3, NEXT, 0);
    describe(&mut bench, 0, NEXT, 4);
    ring(&mut bench, 1, 0, &[1]);
    assert_eq!(bench.walk_queue(0, 0), refused(Refusal::ChainLength, 0));
    describe(&mut bench, 0, NEXT | INDIRECT, 4);
    assert_eq!(bench.walk_queue(0, 0), refused(Refusal::Indirect, 0));
}

#[test]
fn heads_nexts_and_indirect_descriptors_are_told_by_heads_finished() {
    let mut bench = with_queue(4);
    describe(&mut bench, 0, 0, 0);
    ring(&mut bench, 3, 0, &[0, 0, 4]);
    let no_head = refused(Refusal::DescriptorIndex, 2);
    assert_eq!(bench.walk_queue(0, 0), no_head);
    assert_eq!(bench.walk_queue(0, 1), refused(Refusal::DescriptorIndex, 1));
    ring(&mut bench, 3, 2, &[1]);
    describe(&mut bench, 1, NEXT, 0xffff);
    assert_eq!(bench.walk_queue(0, 0), no_head, "a next");
    describe(&mut bench, 1, INDIRECT, 0);
    assert_eq!(bench.walk_queue(0, 0), refused(Refusal::Indirect, 2));
}

#[test]
fn a_queue_must_be_there_set_and_enabled() {
    let mut bench = with_queue(4);
    for number in [4, 5, 256, u32::MAX] {
        assert_eq!(bench.walk_queue(number, 0), refused(Refusal::Index, 0));
    }
    let not_ready = refused(Refusal::QueueNotReady, 0);
    for number in 1..4 {
        assert_eq!(bench.walk_queue(number, 0), not_ready, "not set");
    }
    ring(&mut bench, 0, 0, &[]);
    for (number, size, enabled) in [(1, 4, 0), (2, 0, 0), (3, 4, 1)] {
        set_queue(&mut bench, number, &queue(size, enabled, 0, DEVICE + RING));
    }
    assert_eq!(bench.walk_queue(1, 0), not_ready, "not enabled");
    assert_eq!(bench.walk_queue(2, 0), not_ready, "of size 0");
    assert_eq!(bench.walk_queue(3, 0).unwrap().buffers, []);
    bench.reset().unwrap();
    assert_eq!(bench.walk_queue(0, 0), not_ready, "after a reset");
}

#[test]
fn card_reads_are_refused_with_a_device_address() {
    let mut bench = with_queue(4);
    let unwritten = |at| refused(Refusal::Unwritten, DEVICE + at);
    assert_eq!(bench.walk_queue(0, 0), unwritten(RING + 2));
    put(&mut bench, RING + 2, &[1]);
    assert_eq!(bench.walk_queue(0, 0), unwritten(RING + 3));
    ring(&mut bench, 1, 0, &[]);
    assert_eq!(bench.walk_queue(0, 0), unwritten(RING + 4));
    ring(&mut bench, 1, 0, &[3]);
    describe(&mut bench, 3, 0, 0);
    assert_eq!(bench.walk_queue(0, 0).unwrap().buffers, [buffer(3, 0)]);
    // A head is read when the chain before it is finished.
    ring(&mut bench, 2, 0, &[]);
    assert_eq!(bench.walk_queue(0, 0), unwritten(RING + 6));
    describe(&mut bench, 3, INDIRECT, 0);
    assert_eq!(bench.walk_queue(0, 0), refused(Refusal::Indirect, 0));
    describe(&mut bench, 3, 0, 0);
    ring(&mut bench, 1, 0, &[]);
    bench.invalidate(MemoryAddress(63), 1).unwrap();
    assert_eq!(bench.walk_queue(0, 0), unwritten(63), "a last next");

    set_queue(
        &mut bench,
        0,
        &queue(4, 1, DEVICE + 2 * PAGE - 32, DEVICE + RING),
    );
    let unmapped = refused(Refusal::Unmapped, DEVICE + 2 * PAGE + 16);
    assert_eq!(bench.walk_queue(0, 0), unmapped);
    let ring_on = |bench: &mut OwnedBench, descriptors, driver| {
        set_queue(bench, 0, &queue(4, 1, descriptors, driver));
        bench.walk_queue(0, 0)
    };
    let (top, last) = (DEVICE_LIMIT, u64::MAX);
    let range = |place| refused(Refusal::Range, place);
    let at_top = refused(Refusal::Unmapped, top - 2);
    assert_eq!(ring_on(&mut bench, 0, top - 4), at_top);
    assert_eq!(ring_on(&mut bench, 0, top - 2), range(top));
    assert_eq!(ring_on(&mut bench, 0, last - 3), range(last - 1));
    assert_eq!(ring_on(&mut bench, 0, last - 1), range(last), "2^64");
    let driver = DEVICE + RING;
    assert_eq!(ring_on(&mut bench, last - 15, driver), range(last));
    assert_eq!(ring_on(&mut bench, top - 32, driver), range(top + 16));

    bench.unmap(DeviceAddress(DEVICE), 2 * PAGE).unwrap();
    bench
        .map(
            MemoryAddress(0),
            DeviceAddress(DEVICE),
            2 * PAGE,
            Rights::WRITE,
        )
        .unwrap();
    let no_right = refused(Refusal::NoRight, DEVICE + RING + 2);
    assert_eq!(ring_on(&mut bench, DEVICE, driver), no_right);
}

#[test]
fn numbers_are_written_for_the_buffers_found_and_for_no_refusal() {
    let mut bench = with_queue(2);
    describe(&mut bench, 0, NEXT, 1);
    describe(&mut bench, 1, Buffer::WRITE, 0);
    ring(&mut bench, 1, 0, &[0]);
    let mut numbers = [7; 8];
    let walked = Walked {
        buffers: 2,
        index: 1,
    };
    assert_eq!(bench.walk_queue_into(0, 0, &mut numbers), Ok(walked));
    let base = 0x1_0000_0000_0000;
    assert_eq!(numbers, [base, 100, 1, base + 1, 101, 2, 7, 7]);
    let found: Vec<_> = Buffer::all(&numbers[..6]).collect();
    assert_eq!(found, [buffer(0, NEXT), buffer(1, Buffer::WRITE)]);

    let mut few = [7; 5];
    let no_space = refused(Refusal::NoSpace, 0);
    assert_eq!(bench.walk_queue_into(0, 0, &mut few), no_space);
    assert_eq!(bench.walk_queue_into(0, 0, &mut []), no_space);
    assert_eq!(bench.walk_queue_into(0, 0, &mut numbers[..6]), Ok(walked));
    let none = Walked {
        buffers: 0,
        index: 1,
    };
    assert_eq!(bench.walk_queue_into(0, 1, &mut []), Ok(none));
    // It is tried last.
    describe(&mut bench, 1, NEXT, 2);
    let long = refused(Refusal::ChainLength, 0);
    assert_eq!(bench.walk_queue_into(0, 0, &mut []), long);
    assert_eq!(bench.walk_queue_into(0, 0, &mut few), long);
    assert_eq!(few, [7; 5]);
}

/// Every head leads through all descriptors.
#[test]
fn the_longest_walk_has_room() {
    let mut bench = with_queue(256);
    for descriptor in 0..255 {
        describe(&mut bench, descriptor, NEXT, descriptor + 1);
    }
    describe(&mut bench, 255, 0, 0);
    ring(&mut bench, 256, 0, &[0; 256]);
    let walk = bench.walk_queue(0, 0).unwrap();
    assert_eq!(3 * walk.buffers.len(), WALKED_MAX);
    assert_eq!(walk.chains().count(), 256);
    assert_eq!(walk.buffers[65535], buffer(255, 0));
}

#[test]
fn the_raw_call_gives_buffers_and_index_or_the_refusal_alone() {
    let mut bench = with_queue(1);
    describe(&mut bench, 0, 0, 0);
    ring(&mut bench, 9, 0, &[0]);
    let (state, records) = (*bench.state(), bench.records());
    let (memory, marks) = (bench.memory(), bench.marks());
    let walk = |marks: &[u8], queue, last| {
        let mut numbers = [7; 4];
        let walked = raw::walk_queue(&state, records, memory, marks, queue, last, &mut numbers);
        (walked, numbers)
    };
    let outcome = |refused, code, place, result| Outcome {
        refused,
        code,
        place,
        result,
    };
    let done = raw::Walked {
        outcome: outcome(false, 0, 0, 1),
        index: 9,
    };
    let numbers = [0x1_0000_0000_0000, 100, 0, 7];
    assert_eq!(walk(marks, 0, 8), (done, numbers));
    let not = |code| raw::Walked {
        outcome: outcome(true, code, 0, 0),
        index: 0,
    };
    assert_eq!(walk(marks, 0, 7), (not(29), [7; 4]));
    assert_eq!(walk(marks, 4, 8), (not(6), [7; 4]));
    assert_eq!(walk(&marks[1..], 4, 8), (not(1), [7; 4]));
}

#[test]
fn the_second_card_has_queues_too() {
    let memory = vec![0; PAGE as usize];
    let mut bench = OwnedBench::with_memory_and_card(memory, Card::Features128).unwrap();
    bench
        .map(MemoryAddress(0), DeviceAddress(0), PAGE, Rights::READ)
        .unwrap();
    set_queue(&mut bench, 3, &queue(1, 1, 0, 0x100));
    put(&mut bench, 0x102, &[1, 0, 0, 0]);
    describe(&mut bench, 0, 0, 0);
    assert_eq!(bench.walk_queue(3, 0).unwrap().buffers, [buffer(0, 0)]);
}
