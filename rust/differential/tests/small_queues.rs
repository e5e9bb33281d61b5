//! Every queue of one descriptor and of two, as far as a walk can tell them apart, and every byte of one that
//! nobody wrote: the emulator, its twin and the second program walk them alike.

use std::collections::BTreeSet;

use glint_differential::call::{Answer, Call, Kept, Lent, Made, Step};
use glint_differential::queues::{INDIRECT, NEXT};
use glint_differential::trio::{faithful, Size, Trio};
use glint_reference::bytes::put_number;
use glintbasket::{Card, DeviceAddress, Mapping, MemoryAddress, Rights};

const PAGE: usize = 4096;
/// Where the ring lies; the descriptors are at 0.
const RING: u64 = 2048;

fn make(trio: &mut Trio, call: Call, buffer: Vec<u8>) -> Answer {
    let step = Step::Make(Box::new(Made {
        call,
        buffer,
        lent: Lent {
            records: 1,
            memory: PAGE,
            marks: PAGE / 8,
        },
        given: None,
    }));
    let answer = trio
        .step(&step)
        .unwrap_or_else(|fault| panic!("{step}: {fault}"));
    answer.expect("a call has an answer")
}

/// One page, which device addresses from 0 on show, and queue 1 of this size.
fn trio(size: u64, card: Card) -> Trio {
    let lent = Size {
        records: 1,
        memory: PAGE,
    };
    let mut trio = Trio::new(lent, 1, faithful);
    make(&mut trio, Call::FreshStart { card }, Vec::new());
    let mapping = Mapping {
        device: DeviceAddress(0),
        memory: MemoryAddress(0),
        size: PAGE as u64,
        rights: Rights::READ,
    };
    let mut state = trio.kept().state;
    state.count = 1;
    let records = vec![mapping];
    let kept = Kept { state, records };
    assert_eq!(trio.step(&Step::Install(Box::new(kept))), Ok(None));
    let mut value = vec![0; 32];
    put_number(&mut value, 0, 2, size);
    put_number(&mut value, 4, 2, 1);
    put_number(&mut value, 16, 8, RING);
    let set = Call::SetRegister {
        kind: 0x104,
        selector: 1,
    };
    assert_eq!(make(&mut trio, set, value), Answer::Done(0));
    trio
}

fn store(trio: &mut Trio, address: u64, bytes: Vec<u8>) {
    let stored = make(trio, Call::HostStore { address }, bytes);
    assert_eq!(stored, Answer::Done(0));
}

/// The ring's index, and its heads.
fn ring(index: u64, heads: &[u64]) -> Vec<u8> {
    let mut bytes = vec![0; 2 + 2 * heads.len()];
    put_number(&mut bytes, 0, 2, index);
    for (place, head) in heads.iter().enumerate() {
        put_number(&mut bytes, 2 + 2 * place, 2, *head);
    }
    bytes
}

/// Descriptors of these flags and nexts; the other bytes tell them apart.
fn table(descriptors: &[(u64, u64)]) -> Vec<u8> {
    let mut bytes: Vec<u8> = (0..16 * descriptors.len()).map(|i| i as u8).collect();
    for (number, (flags, next)) in descriptors.iter().enumerate() {
        put_number(&mut bytes, 16 * number + 12, 2, *flags);
        put_number(&mut bytes, 16 * number + 14, 2, *next);
    }
    bytes
}

/// All lists of this length of these.
fn lists<T: Copy>(choices: &[T], length: u64) -> Vec<Vec<T>> {
    (0..length).fold(vec![Vec::new()], |lists, _| {
        let longer = |list: &Vec<T>| {
            let list = list.clone();
            choices
                .iter()
                .map(move |choice| [&list[..], &[*choice]].concat())
        };
        lists.iter().flat_map(longer).collect()
    })
}

fn walk(trio: &mut Trio, last: u64, room: u64) -> Answer {
    let last = last as u16;
    let array = vec![0x5a; 8 * room as usize];
    make(trio, Call::WalkQueue { queue: 1, last }, array)
}

#[test]
fn every_queue_of_one_descriptor_and_of_two() {
    let mut walks = 0;
    let mut answers = BTreeSet::new();
    for (size, card) in [(1, Card::Features64), (2, Card::Features128)] {
        let mut trio = trio(size, card);
        let numbers: Vec<u64> = (0..=size).collect();
        let flags = [0, NEXT, INDIRECT, NEXT | INDIRECT];
        let with_next = |flags| numbers.iter().map(move |next| (flags, *next));
        let choices: Vec<(u64, u64)> = flags.into_iter().flat_map(with_next).collect();
        for descriptors in lists(&choices, size) {
            store(&mut trio, 0, table(&descriptors));
            for heads in lists(&numbers, size) {
                for (last, distance) in lists(&numbers, 1)
                    .iter()
                    .flat_map(|d| [(0, d[0]), (0xffff, d[0])])
                    .chain([(0, size + 1), (1, 0xffff)])
                {
                    let index = (last + distance) % (1 << 16);
                    store(&mut trio, RING + 2, ring(index, &heads));
                    // Room for each chain as long as it may be, and one number less than for a buffer.
                    for room in [3 * size * size, 2] {
                        answers.insert(walk(&mut trio, last, room).refusal());
                        walks += 1;
                    }
                }
            }
        }
    }
    assert_eq!(walks, 8 * 2 * 6 * 2 + 144 * 9 * 8 * 2);
    let expected = [None, Some(27), Some(29), Some(30), Some(31), Some(32)];
    assert_eq!(answers, BTreeSet::from(expected));
}

/// Two heads of two: descriptor 1, and 0 with 1 behind it.
#[test]
fn every_byte_that_is_read_must_be_written_and_no_other() {
    let mut trio = trio(2, Card::Features64);
    store(&mut trio, 0, vec![7; PAGE]);
    store(&mut trio, 0, table(&[(NEXT, 1), (0, 9)]));
    store(&mut trio, RING + 2, ring(2, &[1, 0]));
    let found = Answer::Walked {
        buffers: 3,
        index: 2,
    };
    for address in 0..PAGE as u64 {
        let (forget, restore) = (
            Call::Forget { address, length: 1 },
            trio.shown_number(address, 1),
        );
        assert_eq!(make(&mut trio, forget, Vec::new()), Answer::Done(0));
        let is_read = address < 32 || (RING + 2..RING + 8).contains(&address);
        let expected = match is_read {
            true => Answer::Refused {
                code: 16,
                place: address,
            },
            false => found,
        };
        assert_eq!(walk(&mut trio, 0, 9), expected, "{address}");
        store(
            &mut trio,
            address,
            vec![restore.expect("a written byte") as u8],
        );
    }
    assert_eq!(walk(&mut trio, 0, 9), found);
}
