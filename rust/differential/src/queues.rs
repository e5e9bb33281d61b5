//! Queues in memory, and walks of them at the edges of each rule.

use std::ops::Range;

use glint_reference::bench::{DeviceAddress, DeviceRange, Mapping, PAGE};
use glint_reference::bytes::{number_at, put_number};

use crate::call::Call;
use crate::random::Random;
use crate::trio::Trio;

const TOP: u64 = 1 << 48;

pub const NEXT: u64 = 1;
pub const INDIRECT: u64 = 4;

/// What the register of a queue says.
#[derive(Clone, Copy)]
pub struct Queue {
    pub size: u64,
    pub enabled: bool,
    pub descriptors: u64,
    pub driver: u64,
}

impl Queue {
    /// That of a register's value.
    pub fn read(value: &[u8]) -> Queue {
        Queue {
            size: number_at(value, 0, 2),
            enabled: number_at(value, 4, 2) == 1,
            descriptors: number_at(value, 8, 8),
            driver: number_at(value, 16, 8),
        }
    }

    /// The register's value; what a walk does not look at is any.
    pub fn value(&self, random: &mut Random) -> Vec<u8> {
        let mut value = random.bytes(32);
        put_number(&mut value, 0, 2, self.size);
        put_number(&mut value, 4, 4, self.enabled.into());
        put_number(&mut value, 8, 8, self.descriptors);
        put_number(&mut value, 16, 8, self.driver);
        value[24] &= 0xfc;
        value
    }

    /// The ring's index, where it is shown and written. No address here wraps: it would not be shown.
    pub fn index(&self, trio: &Trio) -> Option<u64> {
        trio.shown_number(self.driver.checked_add(2)?, 2)
    }

    /// How far the ring's index is from the caller's last one.
    pub fn distance(&self, last: u16, trio: &Trio) -> Option<u64> {
        let index = self.index(trio)?;
        Some((index + (1 << 16) - u64::from(last)) % (1 << 16))
    }

    /// Where the head at an index lies.
    pub fn head_address(&self, index: u64) -> Option<u64> {
        self.driver.checked_add(4 + 2 * (index % self.size))
    }

    pub fn head(&self, index: u64, trio: &Trio) -> Option<u64> {
        trio.shown_number(self.head_address(index)?, 2)
    }

    /// Flags and next of the descriptors of a chain, as many as the queue has at most, up to one that ends it
    /// or cannot be followed.
    pub fn chain(&self, head: u64, trio: &Trio) -> Vec<(u64, u64)> {
        let mut chain = Vec::new();
        let mut number = head;
        while (chain.len() as u64) < self.size && number < self.size {
            let at = self.descriptors.checked_add(16 * number);
            let fields = at.and_then(|at| {
                trio.shown_number(at, 8)?;
                trio.shown_number(at + 8, 4)?;
                Some((
                    trio.shown_number(at + 12, 2)?,
                    trio.shown_number(at + 14, 2)?,
                ))
            });
            let Some((flags, next)) = fields else {
                break;
            };
            chain.push((flags, next));
            if flags & NEXT == 0 || flags & INDIRECT != 0 {
                break;
            }
            number = next;
        }
        chain
    }
}

/// A walk at any place: of a queue that may not be there, from any index.
pub fn any_walk(random: &mut Random) -> (Call, Vec<u8>) {
    let queue = match random.below(8) {
        0 => random.pick(&[4, 5, 0x100, 0x1_0000, u32::MAX]),
        _ => random.below(4) as u32,
    };
    let last = random.number() as u16;
    let room = random.below(10);
    let walk = Call::WalkQueue {
        queue,
        last: random.pick(&[0, 1, u16::MAX, last]),
    };
    (walk, array(random, room))
}

/// So many numbers, each of which holds something before the walk.
fn array(random: &mut Random, numbers: u64) -> Vec<u8> {
    random.bytes(8 * numbers as usize)
}

/// A part of memory that is stored, or forgotten.
pub enum Patch {
    Store { address: u64, bytes: Vec<u8> },
    Forget { address: u64, length: u64 },
}

/// A queue with its descriptors and its ring, and what its walk needs.
pub struct Scene {
    pub number: u32,
    queue: Queue,
    /// The bytes of the descriptors, and of the ring from its index on.
    table: Vec<u8>,
    ring: Vec<u8>,
    /// Device addresses of bytes that nobody wrote, and how many there are.
    unwritten: Vec<(u64, usize)>,
    last: u16,
    /// How many numbers the walk gives if nothing is wrong.
    numbers: u64,
}

impl Scene {
    /// A queue that can be walked, in two of these mappings or one, of which there is one at least.
    fn good(mappings: &[Mapping], random: &mut Random) -> Scene {
        let any = |random: &mut Random| mappings[random.below(mappings.len() as u64) as usize];
        let table_in = any(random);
        let ring_in = if random.one_in(2) {
            table_in
        } else {
            any(random)
        };
        let large = table_in.size > PAGE && ring_in.size > PAGE;
        let size: u64 = match random.below(20) {
            0..=2 => 1,
            3..=6 => 2,
            7..=15 => random.pick(&[4, 8]),
            16..=17 => 16,
            18 => random.pick(&[32, 64, 128]),
            _ if large => 256,
            _ => 128,
        };
        // Pages of the two mappings may be the same memory: table and ring lie apart in a page, but for 256 descriptors.
        let table_at = match random.below(8) {
            0 => 2048 - 16 * size.min(128),
            // Over the end of the mapping, to the next one or to none.
            1 if size > 1 => table_in.size - 16 * random.from(1, size - 1),
            _ => 0,
        };
        let ring_at = match random.below(8) {
            0 => PAGE - 4 - 2 * size,
            1 => 2048 + random.pick(&[2, 14, 30]),
            _ if size == 256 => PAGE,
            _ => 2048,
        };
        let mut scene = Scene {
            number: random.below(4) as u32,
            queue: Queue {
                size,
                enabled: true,
                descriptors: table_in.device.0 + table_at,
                driver: ring_in.device.0 + ring_at,
            },
            table: Vec::new(),
            ring: vec![0; 2 + 2 * size as usize],
            unwritten: Vec::new(),
            last: random.number() as u16,
            numbers: 0,
        };
        scene.last = random.pick(&[0, 0, 1, u16::MAX, u16::MAX - 1, scene.last]);
        scene.fill(random);
        scene
    }

    /// Chains of all descriptors in any order, and heads of as many of them as the distance asks for.
    fn fill(&mut self, random: &mut Random) {
        let size = self.queue.size;
        let mut order: Vec<u64> = (0..size).collect();
        for i in (1..order.len()).rev() {
            order.swap(i, random.below(i as u64 + 1) as usize);
        }
        let cut = random.pick(&[1, 2, 2, 3, 1000]);
        self.table = random.bytes(16 * size as usize);
        let mut chains: Vec<Vec<u64>> = vec![Vec::new()];
        for (place, number) in order.iter().enumerate() {
            let ends = place + 1 == order.len() || random.one_in(cut);
            let any = random.number() & 0xffff;
            let next = if ends { any } else { order[place + 1] };
            let flags = any & !(NEXT | INDIRECT) | u64::from(!ends);
            self.describe(*number, flags, next);
            let chain = chains.len() - 1;
            chains[chain].push(*number);
            if ends {
                chains.push(Vec::new());
            }
        }
        chains.pop();
        // Long chains again and again take their time.
        let most = if size > 16 { chains.len() as u64 } else { size };
        let distance = match random.below(6) {
            0 => 0,
            1 => most,
            _ => random.from(1, most),
        };
        random.fill(&mut self.ring);
        self.set_distance(distance);
        for i in 0..distance {
            let chain = &chains[i as usize % chains.len()];
            self.set_head(i, chain[0]);
            self.numbers += 3 * chain.len() as u64;
        }
    }

    fn describe(&mut self, number: u64, flags: u64, next: u64) {
        let at = 16 * number as usize;
        put_number(&mut self.table, at + 12, 2, flags);
        put_number(&mut self.table, at + 14, 2, next);
    }

    fn set_distance(&mut self, distance: u64) {
        let index = u64::from(self.last) + distance;
        put_number(&mut self.ring, 0, 2, index % (1 << 16));
    }

    /// The place in the ring of the head so far behind the last index.
    fn place(&self, i: u64) -> usize {
        ((u64::from(self.last) + i) % (1 << 16) % self.queue.size) as usize
    }

    fn set_head(&mut self, i: u64, head: u64) {
        let at = 2 + 2 * self.place(i);
        put_number(&mut self.ring, at, 2, head);
    }

    fn head(&self, i: u64) -> u64 {
        number_at(&self.ring, 2 + 2 * self.place(i), 2)
    }

    fn distance(&self) -> u64 {
        let index = number_at(&self.ring, 0, 2);
        (index + (1 << 16) - u64::from(self.last)) % (1 << 16)
    }

    /// One thing becomes wrong, or another edge.
    fn spoil(&mut self, random: &mut Random) {
        let size = self.queue.size;
        let any = random.below(size);
        let at = 16 * any as usize;
        let flags = number_at(&self.table, at + 12, 2);
        let next = number_at(&self.table, at + 14, 2);
        let beyond = random.pick(&[size, size, size + 1, 0x8000, 0xffff]);
        let i = random.below(self.distance().clamp(1, size));
        match random.below(16) {
            0 => self.set_distance(random.pick(&[size + 1, 0xffff, 0xfffe, 0x8000])),
            1..=2 => self.set_head(i, beyond),
            3..=4 => self.describe(any, flags | NEXT, beyond),
            5 => self.describe(any, flags | NEXT, any),
            6 => self.describe(any, flags | NEXT, random.below(size)),
            7 => self.describe(any, flags | INDIRECT, next),
            8 => self.all_in_one_chain(random),
            9 => self.nobody_writes(self.queue.driver, 2, 2),
            10 => {
                let place = self.place(i) as u64;
                self.nobody_writes(self.queue.driver, 4 + 2 * place, 1);
            }
            // The next of a descriptor that is reached first.
            11 => {
                let head = self.head(i).min(size - 1);
                self.nobody_writes(self.queue.descriptors, 16 * head + 14, 2);
            }
            12 => {
                let behind = 16 * any + random.below(16);
                self.nobody_writes(self.queue.descriptors, behind, 1);
            }
            13 => self.queue.driver = elsewhere(2, random),
            14 => self.queue.descriptors = elsewhere(16, random),
            _ => {
                self.queue.enabled = false;
                self.queue.size = random.pick(&[size, size, 0]);
            }
        }
    }

    fn nobody_writes(&mut self, address: u64, behind: u64, length: usize) {
        // Where an address wraps, no mapping holds it.
        self.unwritten.push((address.wrapping_add(behind), length));
    }

    /// One chain of all descriptors, each behind the one before it, and what stands behind the last.
    fn all_in_one_chain(&mut self, random: &mut Random) {
        let size = self.queue.size;
        for number in 0..size {
            self.describe(number, NEXT, number + 1);
        }
        let flags = random.pick(&[0, NEXT, NEXT, NEXT | INDIRECT, INDIRECT]);
        self.describe(size - 1, flags, random.pick(&[0, size - 1, size, 0xffff]));
        self.set_distance(1);
        self.set_head(0, 0);
        self.numbers = 3 * size;
    }

    /// A queue in memory: mostly one thing is wrong or nothing; sometimes several are, and the order decides.
    pub fn new(mappings: &[Mapping], random: &mut Random) -> Scene {
        let mut scene = Scene::good(mappings, random);
        for _ in 0..random.pick(&[0, 0, 0, 1, 1, 1, 1, 2, 3]) {
            if scene.queue.size > 0 {
                scene.spoil(random);
            }
        }
        scene
    }

    pub fn register(&self, random: &mut Random) -> Vec<u8> {
        self.queue.value(random)
    }

    /// What is stored and forgotten in the memory behind these mappings, in order. Nobody writes the ring's flags.
    pub fn patches(&self, mappings: &[Mapping]) -> Vec<Patch> {
        let store = |device: u64, bytes: &[u8]| -> Vec<Patch> {
            let runs = runs(mappings, device, bytes.len());
            let stored = runs.into_iter().map(|(address, offsets)| Patch::Store {
                address,
                bytes: bytes[offsets].to_vec(),
            });
            stored.collect()
        };
        let forget = |device: u64, length: usize| -> Vec<Patch> {
            let runs = runs(mappings, device, length);
            let forgotten = runs.into_iter().map(|(address, offsets)| Patch::Forget {
                address,
                length: offsets.len() as u64,
            });
            forgotten.collect()
        };
        let mut patches = forget(self.queue.driver, 2);
        patches.extend(store(self.queue.descriptors, &self.table));
        patches.extend(store(self.queue.driver.wrapping_add(2), &self.ring));
        for &(device, length) in &self.unwritten {
            patches.extend(forget(device, length));
        }
        patches
    }

    /// A walk of it, mostly from where its heads begin and into enough room.
    pub fn walk(&self, random: &mut Random) -> (Call, Vec<u8>) {
        let other = random.number() as u16;
        let last = match random.below(8) {
            0 => self.last.wrapping_add(random.pick(&[1, 2])),
            1 => self.last.wrapping_sub(1),
            2 => random.pick(&[0, other]),
            _ => self.last,
        };
        let room = match random.below(8) {
            0 => 0,
            1 => self.numbers.saturating_sub(1),
            2 => self.numbers.saturating_sub(3),
            3..=4 => self.numbers,
            5 => 3 * self.queue.size,
            _ => self.numbers + random.from(1, 7),
        };
        let queue = match random.below(12) {
            0 => random.below(5) as u32,
            _ => self.number,
        };
        (Call::WalkQueue { queue, last }, array(random, room))
    }
}

/// The memory addresses, and the offsets, of runs of device addresses that a mapping holds.
fn runs(mappings: &[Mapping], device: u64, length: usize) -> Vec<(u64, Range<usize>)> {
    let asked = DeviceRange::new(DeviceAddress(device), length as u64);
    let met = mappings.iter().filter(|m| m.shares_with(asked));
    let run = |m: &Mapping| {
        let first = asked.first.max(m.range().first);
        let end = asked.end.min(m.range().end);
        let address = m.memory.whole() + (first - m.range().first);
        let offset = |at: u128| (at - asked.first) as usize;
        (address as u64, offset(first)..offset(end))
    };
    met.map(run).collect()
}

/// An address that no mapping holds, mostly: at the edges of the device's space and of 64 bits.
fn elsewhere(multiple: u64, random: &mut Random) -> u64 {
    let any = random.number();
    let edge = random.pick(&[TOP, TOP, 0, 0, 1 << 63, any]);
    let before = random.pick(&[2, 4, 16, 32, 64]);
    edge.wrapping_sub(before) / multiple * multiple
}
