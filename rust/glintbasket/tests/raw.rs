//! The raw calls: each argument arrives where it should, and each answer comes back.

use glintbasket::raw::*;
use glintbasket::{kind, Card, DeviceAddress, MemoryAddress, Rights};

const PAGE: usize = 4096;

fn fresh(records: &[Mapping], memory: &[u8], marks: &mut [u8]) -> State {
    let mut state = State::default();
    let outcome = power_on(&mut state, records, memory, marks, Card::Features64);
    assert_eq!(outcome, done(0));
    state
}

fn done(result: u64) -> Outcome {
    Outcome {
        refused: false,
        code: 0,
        place: 0,
        result,
    }
}

fn refused(code: u32, place: u64) -> Outcome {
    Outcome {
        refused: true,
        code,
        place,
        result: 0,
    }
}

/// A look-up that is refused: all else but the probes is 0.
fn not_found(code: u32, probes: u64) -> Found {
    Found {
        outcome: refused(code, 0),
        address: MemoryAddress(0),
        rights: Rights(0),
        left: 0,
        probes,
    }
}

fn map_request(memory: u64, device: u64, size: u64, rights: u32) -> [u8; 32] {
    let mut buffer = [0; 32];
    buffer[..4].copy_from_slice(&32u32.to_le_bytes());
    buffer[4..8].copy_from_slice(&rights.to_le_bytes());
    buffer[8..16].copy_from_slice(&memory.to_le_bytes());
    buffer[16..24].copy_from_slice(&device.to_le_bytes());
    buffer[24..].copy_from_slice(&size.to_le_bytes());
    buffer
}

#[test]
fn memory_and_the_table_cross() {
    let (mut memory, mut marks) = (vec![7; 2 * PAGE], vec![9; 2 * PAGE / 8]);
    let mut records = [Mapping::default(); 2];
    let mut state = fresh(&records, &memory, &mut marks);
    assert_eq!((state.memory_length, state.count), (8192, 0));
    assert_eq!(state.iommu_type, 3);
    assert!(marks.iter().all(|mark| *mark == 0));

    let mut buffer = map_request(4096, 0x10000, 4096, 3);
    let mut map = |records: &mut [Mapping]| {
        let outcome = request(&mut state, records, &memory, &marks, 0, 113, &mut buffer);
        (outcome, state.count)
    };
    assert_eq!(map(&mut []), (refused(11, 0), 0), "no records");
    assert_eq!(map(&mut records), (done(0), 1));
    assert_eq!(records[0].memory, MemoryAddress(4096));
    assert_eq!(records[0].device, DeviceAddress(0x10000));
    assert_eq!((records[0].size, records[0].rights), (4096, Rights(3)));
    assert_eq!(records[1], Mapping::default());

    let found = look_up(&state, &records, DeviceAddress(0x10004));
    let expected = Found {
        outcome: done(0),
        address: MemoryAddress(4100),
        rights: Rights(3),
        left: 4092,
        probes: 1,
    };
    assert_eq!(found, expected);
    assert_eq!(
        look_up(&state, &records, DeviceAddress(0)),
        not_found(14, 1)
    );
    assert_eq!(
        look_up(&state, &[], DeviceAddress(0x10004)),
        not_found(1, 0),
        "fewer records than are in use"
    );

    assert_eq!(
        device_write(
            &state,
            &records,
            &mut memory,
            &mut marks,
            DeviceAddress(0x10001),
            &[1, 2]
        ),
        done(0)
    );
    assert_eq!(&memory[4096..4100], [7, 1, 2, 7]);
    assert_eq!(marks[4096 / 8], 0b0110);
    let mut read = [0; 2];
    assert_eq!(
        device_read(
            &state,
            &records,
            &memory,
            &marks,
            DeviceAddress(0x10001),
            &mut read
        ),
        done(0)
    );
    assert_eq!(read, [1, 2]);
    assert_eq!(
        device_read(
            &state,
            &records,
            &memory,
            &marks,
            DeviceAddress(0x10002),
            &mut read
        ),
        refused(16, 1)
    );

    assert_eq!(
        host_write(
            &state,
            &records,
            &mut memory,
            &mut marks,
            MemoryAddress(5),
            &[3]
        ),
        done(0)
    );
    assert_eq!((memory[5], marks[0]), (3, 1 << 5));
    let mut one = [0];
    let mut load = |marks: &[u8]| {
        let address = MemoryAddress(5);
        let outcome = host_read(&state, &records, &memory, marks, address, &mut one);
        (outcome, one)
    };
    assert_eq!(load(&marks), (done(0), [3]));
    assert_eq!(
        invalidate(&state, &records, &memory, &mut marks, MemoryAddress(5), 1),
        done(0)
    );
    assert_eq!(load(&marks), (refused(16, 0), [3]));
    assert_eq!(
        host_read(
            &state,
            &records,
            &memory,
            &marks,
            MemoryAddress(8192),
            &mut []
        ),
        done(0),
        "an empty slice"
    );
}

#[test]
fn registers_and_streams_cross() {
    let (memory, mut marks) = (vec![0; PAGE], vec![0; PAGE / 8]);
    let mut state = fresh(&[], &memory, &mut marks);
    assert_eq!(set_register(&mut state, &[], 0x102, 16, &[5, 6]), done(0));
    let mut buffer = [0xa5; 80];
    assert_eq!(read_register(&state, &[], 0x102, 16, &mut buffer), done(2));
    assert_eq!(&buffer[..3], [5, 6, 0xa5]);

    assert_eq!(save_parts(&state, &[], &mut buffer), done(59));
    let part = step(&buffer[..59], 24);
    assert_eq!(
        (part.refused, part.end, part.kind, part.selector, part.next),
        (false, false, 0x102, 16, 42)
    );
    assert!(step(&buffer[..59], 59).end);
    let past = step(&buffer[..59], 60);
    assert_eq!((past.refused, past.code, past.place), (true, 18, 60));

    let saved = state;
    assert_eq!(
        request(&mut state, &mut [], &memory, &marks, 1, 111, &mut []),
        done(0)
    );
    assert_ne!(state, saved);
    assert_eq!(load_parts(&mut state, &[], &buffer[..59]), done(0));
    assert_eq!(state, saved);

    assert_eq!(start(&mut state, &[]), done(0));
    let running = state;
    assert!(running.is_running());
    assert_eq!(load_parts(&mut state, &[], &buffer[..59]), refused(17, 0));
    assert_eq!(state, running);
    assert_eq!(stop(&mut state, &[]), done(0));
    assert_eq!(state, saved);
}

#[test]
fn slots_tell_where_a_register_is_kept_and_its_size() {
    let fresh = fresh(&[], &[], &mut []);
    for (slot, (kind, selector, size)) in SLOTS.into_iter().enumerate() {
        let mut value = [0; 33];
        value[0] = (kind != kind::DRIVER_FEATURES) as u8; // that bit is not offered
        let mut state = fresh;
        let mut set = |value: &[u8]| set_register(&mut state, &[], kind, selector, value);
        assert_eq!(set(&value[..size]), done(0), "slot {slot}");
        assert_eq!(set(&value[..size + 1]), refused(22, 0), "slot {slot}");

        let mut registers = fresh.registers;
        registers.slots[slot].set = 1;
        registers.slots[slot].bytes.copy_from_slice(&value[..32]);
        assert_eq!(state.registers, registers, "slot {slot}");
    }
}
