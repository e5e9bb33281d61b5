//! The limit of 2^30 bytes of memory, which no list can afford. Nothing here touches the pages of
//! so long a memory, so that none of them is ever there.

use glint_differential::call::{Answer, Call, Kept};
use glint_differential::meaning::meaning;
use glint_differential::programs::{emulate, refer};
use glintbasket::{raw, Card};
use glintbasket::{DeviceAddress, Mapping, MemoryAddress, Rights, State};

const LIMIT: usize = 1 << 30;

fn kept(length: usize) -> Kept {
    let mapping = Mapping {
        device: DeviceAddress(0),
        memory: MemoryAddress(LIMIT as u64 - 4096),
        size: 4096,
        rights: Rights(3),
    };
    let mut state = State::default();
    raw::power_on(&mut state, &[], &[], &mut [], Card::Features64);
    state.memory_length = length as u64;
    state.count = 1;
    Kept {
        state,
        records: vec![mapping],
    }
}

fn both(call: Call, length: usize, memory: &mut [u8], marks: &mut [u8]) -> Answer {
    let mut kept = kept(length);
    let mut other = meaning(&kept);
    let buffer = &mut [0; 32];
    let Kept { state, records } = &mut kept;
    let answer = emulate(&call, state, records, memory, marks, buffer);
    assert_eq!(answer, refer(&call, &mut other, 1, memory, marks, buffer));
    assert_eq!(meaning(&kept), other);
    answer
}

#[test]
fn memory_may_have_2_to_the_30_bytes_and_not_one_more() {
    let refused = Answer::Refused { code: 1, place: 0 };
    let (mut memory, mut marks) = (vec![0; LIMIT + 1], vec![0; LIMIT / 8 + 1]);
    let calls = [
        Call::Request {
            target: 0,
            number: 100,
        },
        Call::CardRead { device: 0 },
        Call::HostLoad { address: 0 },
        Call::WalkQueue { queue: 0, last: 0 },
        Call::Forget {
            address: LIMIT as u64,
            length: 0,
        },
    ];
    for call in calls {
        assert_eq!(both(call, LIMIT + 1, &mut memory, &mut marks), refused);
        let (memory, marks) = (&mut memory[..LIMIT], &mut marks[..LIMIT / 8]);
        assert_ne!(both(call, LIMIT, memory, marks), refused, "{call:?}");
    }
    let start = Call::FreshStart {
        card: Card::Features64,
    };
    assert_eq!(both(start, LIMIT, &mut memory, &mut marks), refused);
    let look_up = Call::LookUp { device: 4095 };
    let found = Answer::Found {
        address: LIMIT as u64 - 1,
        rights: 3,
        left: 1,
        probes: 1,
    };
    assert_eq!(both(look_up, LIMIT, &mut [], &mut []), found);
    assert_eq!(both(look_up, LIMIT + 1, &mut [], &mut []), refused);
}
