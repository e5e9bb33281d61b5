//! What is measured: which call, on which world.

use crate::calls::{self, Call};
use crate::world::{self, World};

pub struct Measure {
    pub call: Call,
    pub world: World,
}

/// The number of records is that of mappings held, but for a map, which needs one more.
pub fn measures() -> Vec<Measure> {
    let mut list = Vec::new();
    let mut add = |call, world| list.push(Measure { call, world });
    // The card needs a mapping; the host moves bytes without one.
    for (call, records) in [
        (calls::CARD_READ, &[1, 16, 64, 1024, 4096][..]),
        (calls::CARD_WRITE, &[1, 16, 64, 1024, 4096]),
        (calls::HOST_LOAD, &[0, 1, 16, 64, 4096]),
        (calls::HOST_STORE, &[0, 1, 16, 64, 4096]),
    ] {
        for records in records.iter().copied() {
            for size in [16, 4096, 65536] {
                add(call, World::full(records, size));
            }
        }
    }
    for records in [0, 1, 16, 64, 1024, 4096] {
        add(calls::LOOK_UP, World::full(records, 1));
    }
    for records in [1, 64, 4096] {
        for heads in [16, world::QUEUE_SIZE] {
            add(calls::WALK_QUEUE, World::full(records, 0).offering(heads));
        }
    }
    for records in [1, 64, 1024, 4096] {
        let with_room = || World::new(records, records - 1, world::PAGE);
        add(calls::MAP, with_room());
        add(calls::UNMAP, World::full(records, world::PAGE));
        add(calls::MAP_UNMAP, with_room().at_the_front());
    }
    for records in [0, 64, 4096] {
        let world = || World::full(records, 0);
        add(calls::LOAD, world().reset().saved());
        add(calls::LOAD, world().saved());
        add(calls::SAVE, world().reset().saved());
        add(calls::SAVE, world().saved());
    }
    list
}
