//! The walk of a split virtqueue: the driver's ring, and each head's chain of descriptors.

use crate::answer::{refuse_if, Answer, Refusal};
use crate::bench::{DeviceAddress, State, DEVICE_LIMIT};
use crate::bytes::number_at;
use crate::moves::card_bytes;
use crate::registers::QUEUE;

/// Numbers for each buffer: address, length, flags.
pub const NUMBERS: usize = 3;
/// The most numbers that any walk gives: a queue has 256 descriptors at most.
pub const LONGEST: usize = NUMBERS * 256 * 256;

const LAST_QUEUE: u64 = 3;
/// Indices of a ring run modulo this.
const INDICES: u64 = 1 << 16;
/// Bytes of a descriptor.
const DESCRIPTOR: u64 = 16;

// Flags of a descriptor.
const NEXT: u64 = 1;
const INDIRECT: u64 = 4;

/// What a walk gives besides its numbers.
#[derive(Clone, Copy, Debug, PartialEq, Eq)]
pub struct Walked {
    pub buffers: u64,
    /// The ring's.
    pub index: u64,
}

/// A queue that is set and enabled.
struct Queue {
    size: u64,
    descriptors: u64,
    driver: u64,
}

impl Queue {
    /// size 0..2, enabled 4..6, descriptors 8..16, driver area 16..24.
    fn ready(state: &State, number: u64) -> Option<Queue> {
        let value = state.registers.get(&(QUEUE, number))?;
        let enabled = number_at(value, 4, 2) != 0;
        enabled.then(|| Queue {
            size: number_at(value, 0, 2),
            descriptors: number_at(value, 8, 8),
            driver: number_at(value, 16, 8),
        })
    }
}

/// A descriptor: address 0..8, length 8..12, flags 12..14, next 14..16.
struct Descriptor {
    address: u64,
    length: u64,
    flags: u64,
    next: u64,
}

/// What a walk reads from.
struct Reader<'b> {
    state: &'b State,
    memory: &'b [u8],
    marks: &'b [u8],
}

impl Reader<'_> {
    /// A card read of so many bytes, some way behind an address. Where it starts is a whole number, which
    /// need not be a device address; its refusals have device addresses as places.
    fn read(&self, address: u64, behind: u64, length: usize) -> Answer<Vec<u8>> {
        let start = u128::from(address) + u128::from(behind);
        let place = start.min(u128::from(u64::MAX)) as u64;
        refuse_if(
            start + length as u128 > DEVICE_LIMIT,
            Refusal::Range.at(place),
        )?;
        card_bytes(
            self.state,
            self.memory,
            self.marks,
            DeviceAddress(place),
            length,
        )
        .map_err(|refused| refused.refusal.at(place + refused.place))
    }

    fn ring_index(&self, queue: &Queue) -> Answer<u64> {
        Ok(number_at(&self.read(queue.driver, 2, 2)?, 0, 2))
    }

    fn head(&self, queue: &Queue, index: u64) -> Answer<u64> {
        let behind = 4 + 2 * (index % queue.size);
        Ok(number_at(&self.read(queue.driver, behind, 2)?, 0, 2))
    }

    fn descriptor(&self, queue: &Queue, number: u64) -> Answer<Descriptor> {
        let behind = DESCRIPTOR * number;
        let bytes = self.read(queue.descriptors, behind, DESCRIPTOR as usize)?;
        Ok(Descriptor {
            address: number_at(&bytes, 0, 8),
            length: number_at(&bytes, 8, 4),
            flags: number_at(&bytes, 12, 2),
            next: number_at(&bytes, 14, 2),
        })
    }

    /// The numbers of a chain's buffers; so many heads were finished before it.
    fn chain(&self, queue: &Queue, head: u64, finished: u64) -> Answer<Vec<u64>> {
        refuse_if(head >= queue.size, Refusal::DescriptorIndex.at(finished))?;
        let mut numbers = Vec::new();
        let mut number = head;
        for count in 1.. {
            let descriptor = self.descriptor(queue, number)?;
            refuse_if(
                descriptor.flags & INDIRECT != 0,
                Refusal::Indirect.at(finished),
            )?;
            numbers.extend([descriptor.address, descriptor.length, descriptor.flags]);
            if descriptor.flags & NEXT == 0 {
                break;
            }
            refuse_if(count == queue.size, Refusal::ChainLength.at(finished))?;
            refuse_if(
                descriptor.next >= queue.size,
                Refusal::DescriptorIndex.at(finished),
            )?;
            number = descriptor.next;
        }
        Ok(numbers)
    }
}

/// Walks a queue from the caller's last index, which has 16 bits, to the ring's. It does not look at whether
/// the card runs.
pub fn walk_queue(
    state: &State,
    memory: &[u8],
    marks: &[u8],
    queue: u64,
    last: u64,
    numbers: &mut [u64],
) -> Answer<Walked> {
    state.check_bench(memory, marks)?;
    refuse_if(queue > LAST_QUEUE, Refusal::Index)?;
    let queue = Queue::ready(state, queue).ok_or(Refusal::QueueNotReady)?;
    let reader = Reader {
        state,
        memory,
        marks,
    };
    let index = reader.ring_index(&queue)?;
    let distance = (index + INDICES - last) % INDICES;
    refuse_if(distance > queue.size, Refusal::RingDistance)?;
    let mut found = Vec::new();
    for finished in 0..distance {
        let head = reader.head(&queue, (last + finished) % INDICES)?;
        found.extend(reader.chain(&queue, head, finished)?);
    }
    refuse_if(found.len() > numbers.len(), Refusal::NoSpace)?;
    numbers[..found.len()].copy_from_slice(&found);
    Ok(Walked {
        buffers: (found.len() / NUMBERS) as u64,
        index,
    })
}

#[cfg(test)]
mod tests {
    use super::*;
    use crate::bench::{mark, mark_bytes, Mapping, MemoryAddress};
    use crate::bytes::put_number;

    /// Where the driver area lies, in memory and by device address alike.
    const RING: usize = 0x1000;

    struct Bench {
        state: State,
        memory: Vec<u8>,
        marks: Vec<u8>,
    }

    fn value(size: u64, enabled: u64, descriptors: u64, driver: u64) -> Vec<u8> {
        let mut value = vec![0; 32];
        put_number(&mut value, 0, 2, size);
        put_number(&mut value, 4, 2, enabled);
        put_number(&mut value, 8, 8, descriptors);
        put_number(&mut value, 16, 8, driver);
        value
    }

    /// Two pages, which device addresses from 0 on show, and queue 2 with its descriptors at 0.
    fn bench(size: u64) -> Bench {
        let mut state = State::fresh(8_192);
        state.records[0] = Mapping {
            memory: MemoryAddress(0),
            device: DeviceAddress(0),
            size: 8_192,
            rights: 1,
        };
        state.count = 1;
        let mut bench = Bench {
            state,
            memory: vec![0xa5; 8_192],
            marks: vec![0; mark_bytes(8_192)],
        };
        bench.set_queue(value(size, 1, 0, RING as u64));
        bench
    }

    impl Bench {
        fn set_queue(&mut self, value: Vec<u8>) {
            self.state.registers.insert((QUEUE, 2), value);
            assert!(self.state.sound());
        }

        fn put(&mut self, at: usize, width: usize, number: u64) {
            put_number(&mut self.memory, at, width, number);
            for place in at..at + width {
                mark(&mut self.marks, place, true);
            }
        }

        /// Its address is ten times its number, and its length its number.
        fn describe(&mut self, number: usize, flags: u64, next: u64) {
            let at = 16 * number;
            self.put(at, 8, 10 * number as u64);
            self.put(at + 8, 4, number as u64);
            self.put(at + 12, 2, flags);
            self.put(at + 14, 2, next);
        }

        /// The index, and heads from place 0 on. Nobody writes the ring's flags.
        fn ring(&mut self, index: u64, heads: &[u64]) {
            self.put(RING + 2, 2, index);
            for (place, head) in heads.iter().enumerate() {
                self.put(RING + 4 + 2 * place, 2, *head);
            }
        }

        fn walk_in(&self, last: u64, room: usize) -> Answer<(Vec<u64>, u64)> {
            let mut numbers = vec![7; room];
            let (memory, marks) = (&self.memory, &self.marks);
            match walk_queue(&self.state, memory, marks, 2, last, &mut numbers) {
                Ok(Walked { buffers, index }) => {
                    let behind = numbers.split_off(NUMBERS * buffers as usize);
                    assert!(behind.iter().all(|number| *number == 7));
                    Ok((numbers, index))
                }
                Err(refused) => {
                    assert_eq!(numbers, vec![7; room], "a refused walk writes nothing");
                    Err(refused)
                }
            }
        }

        fn walk(&self, last: u64) -> Answer<(Vec<u64>, u64)> {
            self.walk_in(last, 20)
        }
    }

    fn refused<T>(refusal: Refusal, place: u64) -> Answer<T> {
        Err(refusal.at(place))
    }

    /// Rules 4.17 to 4.19: in order, each chain before the next head; flags whole.
    #[test]
    fn heads_and_their_chains_are_walked_in_order() {
        let mut bench = bench(4);
        bench.describe(3, NEXT, 1);
        bench.describe(1, 0xfffa, 9);
        bench.describe(0, 0, 0);
        bench.ring(2, &[3, 0]);
        let all = vec![30, 3, 1, 10, 1, 0xfffa, 0, 0, 0];
        assert_eq!(bench.walk(0), Ok((all.clone(), 2)));
        assert_eq!(bench.walk(1), Ok((all[6..].to_vec(), 2)));
        assert_eq!(bench.walk(2), Ok((vec![], 2)));
        bench.state.running = true;
        assert_eq!(bench.walk(0), Ok((all, 2)));
    }

    /// Rule 4.17: a wrapping difference; as far as the size is good.
    #[test]
    fn the_distance_wraps_and_is_at_most_the_size() {
        let mut bench = bench(2);
        bench.describe(0, 0, 0);
        bench.describe(1, 0, 0);
        bench.ring(1, &[0, 1]);
        assert_eq!(bench.walk(65_535), Ok((vec![10, 1, 0, 0, 0, 0], 1)));
        for last in [65_534, 2, 32_769] {
            assert_eq!(bench.walk(last), refused(Refusal::RingDistance, 0));
        }
        bench.ring(65_535, &[0, 1]);
        assert_eq!(bench.walk(65_533), Ok((vec![10, 1, 0, 0, 0, 0], 65_535)));
        assert_eq!(bench.walk(0), refused(Refusal::RingDistance, 0));
    }

    /// Rule 4.18: as many descriptors as the size are good; 31 before 30 of the same next, 32 before both.
    #[test]
    fn chains_end_in_time() {
        let mut bench = bench(2);
        bench.describe(0, NEXT, 1);
        bench.describe(1, 0, 0);
        bench.ring(2, &[1, 0]);
        assert_eq!(bench.walk(0), Ok((vec![10, 1, 0, 0, 0, 1, 10, 1, 0], 2)));
        bench.describe(1, NEXT, 0);
        assert_eq!(bench.walk(0), refused(Refusal::ChainLength, 0));
        assert_eq!(bench.walk(1), refused(Refusal::ChainLength, 0));
        bench.describe(1, NEXT, 2);
        assert_eq!(bench.walk(1), refused(Refusal::ChainLength, 0));
        assert_eq!(bench.walk(0), refused(Refusal::DescriptorIndex, 0));
        bench.describe(1, NEXT | INDIRECT, 2);
        assert_eq!(bench.walk(1), refused(Refusal::Indirect, 0));
        bench.describe(1, INDIRECT, 2);
        assert_eq!(bench.walk(1), refused(Refusal::Indirect, 0));
    }

    /// Rule 4.18: the place counts heads, and neither descriptors nor indices.
    #[test]
    fn the_place_is_the_number_of_heads_finished() {
        let mut bench = bench(4);
        bench.describe(0, NEXT, 1);
        bench.describe(1, 0, 0);
        bench.ring(1, &[4, 0, 0, 0]);
        assert_eq!(bench.walk(0), refused(Refusal::DescriptorIndex, 0));
        assert_eq!(bench.walk(65_534), refused(Refusal::DescriptorIndex, 2));
        bench.ring(1, &[2, 0, 0, 0]);
        bench.describe(2, NEXT, 65_535);
        assert_eq!(bench.walk(65_534), refused(Refusal::DescriptorIndex, 2));
        bench.describe(2, NEXT, 2);
        assert_eq!(bench.walk(65_534), refused(Refusal::ChainLength, 2));
        bench.describe(2, INDIRECT, 2);
        assert_eq!(bench.walk(65_534), refused(Refusal::Indirect, 2));
    }

    /// Rule 4.15: 6, then 28; size 0 is never enabled.
    #[test]
    fn the_queue_is_one_of_four_set_and_enabled() {
        let mut bench = bench(4);
        bench.ring(0, &[]);
        let walk = |bench: &Bench, queue| {
            let (memory, marks) = (&bench.memory, &bench.marks);
            walk_queue(&bench.state, memory, marks, queue, 0, &mut [])
        };
        assert_eq!(walk(&bench, 4), refused(Refusal::Index, 0));
        assert_eq!(walk(&bench, 1 << 32), refused(Refusal::Index, 0));
        for unset in [0, 1, 3] {
            assert_eq!(walk(&bench, unset), refused(Refusal::QueueNotReady, 0));
        }
        let none = Walked {
            buffers: 0,
            index: 0,
        };
        assert_eq!(walk(&bench, 2), Ok(none));
        for size in [0, 4] {
            bench.set_queue(value(size, 0, 0, RING as u64));
            assert_eq!(walk(&bench, 2), refused(Refusal::QueueNotReady, 0));
        }
    }

    /// Rule 4.16: each read whole, its fault by device address; the ring's flags are not read.
    #[test]
    fn an_unwritten_byte_is_told_by_its_device_address() {
        let mut bench = bench(4);
        let unwritten = |place: usize| refused(Refusal::Unwritten, place as u64);
        assert_eq!(bench.walk(0), unwritten(RING + 2));
        bench.put(RING + 2, 1, 1);
        assert_eq!(bench.walk(0), unwritten(RING + 3));
        bench.ring(1, &[]);
        assert_eq!(bench.walk(0), unwritten(RING + 4));
        bench.ring(1, &[3]);
        assert_eq!(bench.walk(0), unwritten(48));
        bench.put(48, 8, 0);
        bench.put(56, 6, 0);
        assert_eq!(bench.walk(0), unwritten(62));
        bench.put(62, 2, 0xffff);
        assert_eq!(bench.walk(0), Ok((vec![0, 0, 0], 1)));
        // A head is read when the chain before it is finished.
        bench.ring(2, &[]);
        assert_eq!(bench.walk(0), unwritten(RING + 6));
        bench.describe(3, INDIRECT, 0);
        assert_eq!(bench.walk(0), refused(Refusal::Indirect, 0));
    }

    /// Rule 4.16: no start wraps; 9 has it as place, as far as 64 bits go.
    #[test]
    fn starts_are_whole_numbers() {
        let mut bench = bench(4);
        bench.ring(1, &[3]);
        let mut walk = |descriptors, driver| {
            bench.set_queue(value(4, 1, descriptors, driver));
            bench.walk(0)
        };
        let (top, most, ring) = (1 << 48, u64::MAX, RING as u64);
        assert_eq!(walk(0, top - 4), refused(Refusal::Unmapped, top - 2));
        assert_eq!(walk(0, top - 2), refused(Refusal::Range, top));
        assert_eq!(walk(0, most - 3), refused(Refusal::Range, most - 1));
        assert_eq!(walk(0, most - 1), refused(Refusal::Range, most));
        assert_eq!(walk(top - 64, ring), refused(Refusal::Unmapped, top - 16));
        assert_eq!(walk(top - 48, ring), refused(Refusal::Range, top));
        assert_eq!(walk(most - 63, ring), refused(Refusal::Range, most - 15));
        assert_eq!(walk(most - 47, ring), refused(Refusal::Range, most));
        assert_eq!(walk(8_192 - 48, ring), refused(Refusal::Unmapped, 8_192));
    }

    /// Rule 4.19: 27 is tried last, at 0; numbers behind the buffers stay.
    #[test]
    fn room_is_asked_for_at_the_end() {
        let mut bench = bench(2);
        bench.describe(0, NEXT, 1);
        bench.describe(1, 0, 0);
        bench.ring(1, &[0]);
        assert_eq!(bench.walk_in(0, 5), refused(Refusal::NoSpace, 0));
        assert_eq!(bench.walk_in(0, 6), Ok((vec![0, 0, 1, 10, 1, 0], 1)));
        assert_eq!(bench.walk_in(1, 0), Ok((vec![], 1)));
        bench.describe(1, INDIRECT, 0);
        assert_eq!(bench.walk_in(0, 0), refused(Refusal::Indirect, 0));
    }
}
