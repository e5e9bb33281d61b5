//! Memories from elsewhere that moves are compared with.

use std::hint::black_box;

use crate::calls::{
    repeat, Accepted, Move, Program, Repeated, CARD_READ, CARD_WRITE, HOST_LOAD, HOST_STORE,
};
use crate::world::World;

/// A memory of its own. A move says whether it was made, to the last byte.
pub trait Memory {
    /// One that holds these bytes at these addresses, which ascend.
    fn holding(parts: &[(u64, &[u8])]) -> Self;
    fn read(&self, address: u64, buffer: &mut [u8]) -> bool;
    fn write(&mut self, address: u64, bytes: &[u8]) -> bool;
}

/// What else a move is compared with.
#[derive(Clone, Copy)]
pub struct Rival {
    /// As it stands in the output.
    pub name: &'static str,
    program: fn(Move, &mut World) -> Option<Repeated>,
}

impl Rival {
    pub const fn new<M: Memory + 'static>(name: &'static str) -> Rival {
        Rival {
            name,
            program: program::<M>,
        }
    }

    /// The program that repeats a move, with a memory that holds what the world's does; nothing if
    /// it does not move what the emulator moves.
    pub fn program(&self, kind: Move, world: &mut World) -> Option<Repeated> {
        (self.program)(kind, world)
    }
}

fn program<M: Memory + 'static>(kind: Move, world: &mut World) -> Option<Repeated> {
    let mut memory = M::holding(&shown(kind, world));
    if !agrees(&mut memory, kind, world) {
        return None;
    }
    // The memory is hidden as the world is, or places in it could be looked up before the loop.
    Some(match kind {
        Move::CardRead => Box::new(repeat!(
            |w| black_box(&memory).read(w.device.0, &mut w.buffer.get_mut()[..w.size])
        )),
        Move::CardWrite => Box::new(repeat!(
            |w| black_box(&mut memory).write(w.device.0, &w.buffer.get()[..w.size])
        )),
        Move::HostLoad => Box::new(repeat!(
            |w| black_box(&memory).read(w.address.0, &mut w.buffer.get_mut()[..w.size])
        )),
        Move::HostStore => Box::new(repeat!(
            |w| black_box(&mut memory).write(w.address.0, &w.buffer.get()[..w.size])
        )),
    })
}

fn of_card(kind: Move) -> bool {
    matches!(kind, Move::CardRead | Move::CardWrite)
}

/// What a move can reach, by address: for the card each mapping, for the host all memory.
fn shown(kind: Move, world: &World) -> Vec<(u64, &[u8])> {
    let memory = world.memory.get();
    if !of_card(kind) {
        return vec![(0, memory)];
    }
    let held = world.records[..world.held].iter();
    held.map(|m| {
        (
            m.device.0,
            &memory[m.memory.0 as usize..][..m.size as usize],
        )
    })
    .collect()
}

/// Whether both read the same bytes, and again once both have stored others.
fn agrees(memory: &mut impl Memory, kind: Move, world: &mut World) -> bool {
    let (load, store, address) = if of_card(kind) {
        (CARD_READ, CARD_WRITE, world.device.0)
    } else {
        (HOST_LOAD, HOST_STORE, world.address.0)
    };
    let first = reads_alike(memory, address, load.emulator, world);
    for byte in world.buffer.get_mut() {
        *byte = !*byte;
    }
    let stored =
        (store.emulator)(world, 1) && memory.write(address, &world.buffer.get()[..world.size]);
    first && stored && reads_alike(memory, address, load.emulator, world)
}

fn reads_alike(memory: &impl Memory, address: u64, load: Program, world: &mut World) -> bool {
    let mut bytes = vec![0; world.size];
    world.buffer.get_mut().fill(0);
    load(world, 1) && memory.read(address, &mut bytes) && bytes == world.buffer.get()[..world.size]
}

#[cfg(test)]
mod tests {
    use super::*;
    use crate::measures::measures;

    /// Bytes by address. Reads are off by `SKEW`; the last `LOST` bytes of a store are lost.
    struct Listed<const SKEW: u64, const LOST: usize>(Vec<(u64, u8)>);

    impl<const SKEW: u64, const LOST: usize> Listed<SKEW, LOST> {
        fn start(&self, address: u64) -> usize {
            self.0.partition_point(|(a, _)| *a < address)
        }
    }

    impl<const SKEW: u64, const LOST: usize> Memory for Listed<SKEW, LOST> {
        fn holding(parts: &[(u64, &[u8])]) -> Self {
            let bytes = parts
                .iter()
                .flat_map(|(address, bytes)| (*address..).zip(bytes.iter().copied()));
            Listed(bytes.collect())
        }

        fn read(&self, address: u64, buffer: &mut [u8]) -> bool {
            let start = self.start(address + SKEW);
            for (byte, (_, held)) in buffer.iter_mut().zip(&self.0[start..]) {
                *byte = *held;
            }
            true
        }

        fn write(&mut self, address: u64, bytes: &[u8]) -> bool {
            let start = self.start(address);
            let kept = &bytes[..bytes.len() - LOST];
            for (byte, (_, held)) in kept.iter().zip(&mut self.0[start..]) {
                *held = *byte;
            }
            true
        }
    }

    /// Whether it is let in to every move, or kept out of every one.
    fn let_in<M: Memory + 'static>() -> Option<bool> {
        let rival = Rival::new::<M>("listed");
        // A list of what thousands of mappings show would be long, and tell no more.
        let mut answers = measures()
            .into_iter()
            .filter(|m| m.world.held <= 64)
            .filter_map(|mut m| Some(rival.program(m.call.moves?, &mut m.world).is_some()));
        let first = answers.next()?;
        answers.all(|answer| answer == first).then_some(first)
    }

    #[test]
    fn only_a_rival_that_moves_the_same_bytes_is_let_in() {
        assert_eq!(let_in::<Listed<0, 0>>(), Some(true));
        assert_eq!(let_in::<Listed<1, 0>>(), Some(false));
        assert_eq!(let_in::<Listed<0, 1>>(), Some(false));
    }
}
