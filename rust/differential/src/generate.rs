//! Makes lists of calls: each rule is tried at its edges, mostly with all else in order.

use std::collections::VecDeque;

use glint_reference::bench::{mark_bytes, PAGE};
use glintbasket::raw::SLOTS;
use glintbasket::{
    Card, DeviceAddress, Mapping, MemoryAddress, Register, Rights, State, RECORDS_LIMIT,
};

use crate::call::{Call, Kept, Lent, Made, Step};
use crate::damage::{self, Damages};
use crate::interrupts;
use crate::queues::{self, Patch, Scene};
use crate::random::Random;
use crate::streams;
use crate::trio::{garble, Size, Trio};

const TOP: u64 = 1 << 48;
/// The longest move and stream.
const LONGEST: usize = 65_536;
/// Bytes behind the noted length that may be lent as well.
const BEYOND: usize = 64;
/// Most lists have no more records than these.
const FEW: usize = 66;
/// More records than may be lent.
const MANY: usize = RECORDS_LIMIT + 2;

pub struct Generator {
    pub random: Random,
    /// The memory's length at the list's first fresh start.
    length: usize,
    /// How many records there are to lend at first.
    records: usize,
    steps: usize,
    /// What comes next, whatever else would.
    pending: VecDeque<Step>,
    pub damages: Damages,
}

impl Generator {
    pub fn new(seed: u64) -> Generator {
        let mut random = Random::new(seed);
        let length = match random.below(40) {
            0 => random.pick(&[0, 1, 4095]),
            1..=3 => 17 * 4096,
            4..=8 => random.pick(&[4096, 4097, 8191, 8193]),
            9..=23 => 8192,
            24..=30 => 8192 + random.below(8) as usize,
            _ => random.pick(&[12288, 16384, 20480]),
        };
        // Thousands of records take their time, and long moves over them more of it.
        let (records, length) = match random.below(80) {
            0..=1 => (0, length),
            2..=3 => (1, length),
            4..=5 => (63, length),
            6..=7 => (65, length),
            8..=11 => (random.pick(&[2, 3, 16, 17]), length),
            12 => (random.pick(&[RECORDS_LIMIT - 1, MANY, MANY]), 8192),
            _ => (64, length),
        };
        Generator {
            random,
            length,
            records,
            steps: 0,
            pending: VecDeque::new(),
            damages: Damages::default(),
        }
    }

    /// How much the list needs.
    pub fn size(&self) -> Size {
        Size {
            records: self.records,
            memory: self.length + BEYOND,
        }
    }

    /// The next step, for programs that stand like this.
    pub fn next(&mut self, trio: &Trio) -> Step {
        self.steps += 1;
        if let Some(step) = self.pending.pop_front() {
            return step;
        }
        match self.steps {
            1 => {
                let card = self.card();
                return self.lend(trio, Call::FreshStart { card }, Vec::new(), self.length);
            }
            2 if self.random.below(3) > 0 => return self.install(trio),
            3 if self.random.below(2) > 0 => return self.store_all(trio),
            _ => {}
        }
        match self.random.below(1000) {
            0..=14 => self.scribble(trio),
            15..=21 => Step::PastEnd {
                seed: self.random.number(),
            },
            22..=33 => self.install(trio),
            // A list fills thousands of records by no other way.
            74..=113 if trio.records() > FEW => self.install(trio),
            // Only thousands of mappings make a search long.
            114..=153 if trio.records() > FEW => {
                let device = self.looked_up(trio);
                self.made(trio, Call::LookUp { device }, Vec::new())
            }
            // Few lists have more than may be lent.
            154..=163 if trio.records() > RECORDS_LIMIT => self.start_with_too_many(trio),
            34..=37 => self.store_all(trio),
            58..=63 => Step::Stale {
                seed: self.random.number(),
            },
            64..=73 => self.exchange(trio),
            164..=181 if !trio.state.mappings().is_empty() => self.queue(trio),
            38..=57 if trio.capacity() > LONGEST => {
                // Behind a store, so that a read finds all written.
                let (call, buffer) = self.long_move(trio);
                let step = self.made(trio, call, buffer);
                self.pending.push_back(step);
                self.store_all(trio)
            }
            _ => {
                let (call, buffer) = self.call(trio);
                self.made(trio, call, buffer)
            }
        }
    }

    /// Sets a queue up, and what it is in memory, and walks it a few times.
    fn queue(&mut self, trio: &Trio) -> Step {
        let scene = Scene::new(trio.state.mappings(), &mut self.random);
        let value = scene.register(&mut self.random);
        let set = Call::SetRegister {
            kind: 0x104,
            selector: scene.number.into(),
        };
        let noted = noted(trio);
        for patch in scene.patches(trio.state.mappings()) {
            let (call, bytes) = match patch {
                Patch::Store { address, bytes } => (Call::HostStore { address }, bytes),
                Patch::Forget { address, length } => (Call::Forget { address, length }, Vec::new()),
            };
            let step = self.lend(trio, call, bytes, noted);
            self.pending.push_back(step);
        }
        if self.random.one_in(4) {
            let step = self.lend(trio, Call::Start, Vec::new(), noted);
            self.pending.push_back(step);
        }
        for _ in 0..self.random.from(2, 5) {
            let (call, array) = scene.walk(&mut self.random);
            let step = self.made(trio, call, array);
            self.pending.push_back(step);
        }
        self.lend(trio, set, value, noted)
    }

    /// A fresh start with all else in order.
    fn start_with_too_many(&mut self, trio: &Trio) -> Step {
        let card = self.card();
        let mut lent = lent(trio, noted(trio));
        lent.records = RECORDS_LIMIT + 1;
        Step::Make(Box::new(Made {
            call: Call::FreshStart { card },
            buffer: Vec::new(),
            lent,
            given: None,
        }))
    }

    /// The call on the kept state, with all records that may be lent, memory of this length and its
    /// marks.
    fn lend(&mut self, trio: &Trio, call: Call, buffer: Vec<u8>, length: usize) -> Step {
        Step::Make(Box::new(Made {
            call,
            buffer,
            lent: lent(trio, length),
            given: None,
        }))
    }

    /// The call, mostly on the kept state with memory of the noted length and its marks.
    fn made(&mut self, trio: &Trio, call: Call, buffer: Vec<u8>) -> Step {
        let noted = noted(trio);
        let mut made = Made {
            call,
            buffer,
            lent: lent(trio, noted),
            given: None,
        };
        // A fresh start looks at little else than at lengths.
        let starts = matches!(call, Call::FreshStart { .. });
        if self.random.one_in(if starts { 2 } else { 40 }) {
            (made.lent.memory, made.lent.marks) = self.wrong_lengths(noted, trio.capacity());
        }
        if self.random.one_in(if starts { 2 } else { 20 }) {
            made.lent.records = self.fewer_records(trio);
        }
        match self.random.below(100) {
            0..=6 => {
                let (damage, kept) = damage::damaged(trio.kept(), &mut self.random);
                self.damages.count(damage);
                made.given = Some(kept);
            }
            7..=8 => made.given = Some(self.another_state(trio)),
            _ => {}
        }
        Step::Make(Box::new(made))
    }

    /// A number of records near the count, or near the limit.
    fn fewer_records(&mut self, trio: &Trio) -> usize {
        let (all, count) = (trio.records(), trio.state.count as usize);
        // Few lists have more than may be lent.
        if all > RECORDS_LIMIT && self.random.one_in(3) {
            return RECORDS_LIMIT + 1;
        }
        let near = match self.random.below(8) {
            0..=1 => count.saturating_sub(1),
            2..=3 => count,
            4 => count + 1,
            5 => RECORDS_LIMIT - 1,
            6 => self.random.below(all as u64 + 1) as usize,
            _ => all,
        };
        near.min(all)
    }

    fn wrong_lengths(&mut self, noted: usize, capacity: usize) -> (usize, usize) {
        let near = |random: &mut Random| match random.below(4) {
            0 => noted.saturating_sub(1),
            1 => (noted + 1).min(capacity),
            2 => random.below(capacity as u64 + 1) as usize,
            _ => 0,
        };
        let one = near(&mut self.random);
        let marks = match self.random.below(8) {
            0 => mark_bytes(noted),
            1 => mark_bytes(one).saturating_sub(1),
            2 => mark_bytes(one) + 1,
            3 => one,
            4 => one / 8,
            5 => one / 8 + 1,
            _ => mark_bytes(one),
        };
        (one, marks.min(mark_bytes(capacity)))
    }

    // ---- steps that are no calls

    fn scribble(&mut self, trio: &Trio) -> Step {
        let from = self.random.below(trio.capacity() as u64) as usize;
        Step::Scribble {
            from,
            length: self.random.pick(&[1, 16, 4096, 8192]),
            seed: self.random.number(),
        }
    }

    /// Another slice with the records in use: longer, shorter, or just long enough for them.
    fn exchange(&mut self, trio: &Trio) -> Step {
        let random = &mut self.random;
        let length = if trio.records() > FEW {
            random.pick(&[RECORDS_LIMIT - 1, RECORDS_LIMIT, MANY, MANY])
        } else {
            random.pick(&[0, 1, 2, 3, 17, 63, 64, 64, 64, 65, FEW])
        };
        Step::Exchange {
            length: length.max(trio.state.count as usize),
            seed: random.number(),
        }
    }

    /// A state and records that a caller might have kept: sound, with garbage where nothing is meant.
    fn install(&mut self, trio: &Trio) -> Step {
        Step::Install(Box::new(self.sound_state(trio)))
    }

    fn another_state(&mut self, trio: &Trio) -> Kept {
        if self.random.one_in(2) {
            let mut kept = self.sound_state(trio);
            kept.records.truncate(RECORDS_LIMIT);
            return kept;
        }
        let mut kept = trio.kept().clone();
        garble(&mut kept, &mut self.random);
        kept
    }

    /// As many records as there are now, of which any number is in use.
    fn sound_state(&mut self, trio: &Trio) -> Kept {
        let random = &mut self.random;
        let mut records = vec![Mapping::default(); trio.records()];
        let room = records.len().min(RECORDS_LIMIT) as u64;
        let mut state = State {
            memory_length: trio.state.noted_length.min(trio.capacity() as u64),
            running: u8::from(random.one_in(8)),
            words: random.pick(&[1, 2]),
            iommu_type: random.pick(&[1, 3]),
            lines: interrupts::sound_lines(random),
            ..State::default()
        };
        let pages = state.memory_length / PAGE;
        let count = match random.below(14) {
            _ if pages == 0 => 0,
            0..=1 => room,
            2 => room.saturating_sub(1),
            3..=5 if room > FEW as u64 => random.pick(&[room, room - 1]),
            _ if room > FEW as u64 => random.pick(&[0, 1, 2, 64, 65, 1024, room - 2]),
            _ => random
                .pick(&[0, 1, 1, 2, 2, 3, 5, 16, 17, 63, 64])
                .min(room),
        };
        let gap = random.pick(&[0, 0, 0, 1, 1, 3]) * PAGE;
        let large = pages > 16;
        let count = if large && random.one_in(2) {
            count.min(1)
        } else {
            count
        };
        let size = match count {
            1 if large => random.pick(&[16, 17]) * PAGE,
            0..=5 => random.from(1, pages.clamp(1, 3)) * PAGE,
            6..=64 => random.from(1, pages.clamp(1, 2)) * PAGE,
            _ => PAGE,
        };
        let total = count * (size + gap);
        let low = random.pick(&[0, 0, 0x10_0000, 1 << 40, TOP - total]);
        for (i, m) in records[..count as usize].iter_mut().enumerate() {
            let place = random.below(pages - size / PAGE + 1);
            *m = Mapping {
                device: DeviceAddress(low + i as u64 * (size + gap)),
                memory: MemoryAddress(if large { i as u64 % pages } else { place } * PAGE),
                size,
                rights: Rights(random.pick(&[3, 3, 3, 3, 3, 3, 1, 2])),
            };
            if m.memory.0 + m.size > state.memory_length {
                m.memory.0 = 0;
            }
        }
        state.count = count as usize;
        let all = random.one_in(4);
        for (slot, (kind, _, _)) in SLOTS.iter().enumerate() {
            if all || *kind == 0x103 || random.one_in(3) {
                let value = streams::good_value(*kind, state.value_size(slot), random);
                let mut bytes = [0; 32];
                bytes[..value.len()].copy_from_slice(&value);
                state.registers.slots[slot] = Register { set: 1, bytes };
            }
        }
        let mut kept = Kept { state, records };
        garble(&mut kept, random);
        kept
    }

    /// Makes much of memory written.
    fn store_all(&mut self, trio: &Trio) -> Step {
        let noted = noted(trio);
        let bytes = self.random.bytes(noted.min(LONGEST));
        self.lend(trio, Call::HostStore { address: 0 }, bytes, noted)
    }

    // ---- calls

    fn call(&mut self, trio: &Trio) -> (Call, Vec<u8>) {
        match self.random.below(1120) {
            0..=4 => (Call::FreshStart { card: self.card() }, Vec::new()),
            5..=309 => self.request(trio),
            310..=359 => {
                let device = self.looked_up(trio);
                (Call::LookUp { device }, Vec::new())
            }
            360..=479 => {
                let (device, length) = self.card_move(trio);
                (Call::CardRead { device }, self.garbage(length))
            }
            480..=599 => {
                let (device, length) = self.card_move(trio);
                (Call::CardWrite { device }, self.random.bytes(length))
            }
            600..=679 => {
                let (address, length) = self.host_move(trio);
                (Call::HostStore { address }, self.random.bytes(length))
            }
            680..=759 => {
                let (address, length) = self.host_move(trio);
                (Call::HostLoad { address }, self.garbage(length))
            }
            760..=789 => {
                let address = self.address(trio);
                let length = self.forget_length(trio, address);
                (Call::Forget { address, length }, Vec::new())
            }
            790..=849 => self.set_register(trio),
            850..=889 => self.read_register(trio),
            890..=939 => (
                Call::LoadParts,
                streams::stream(card_words(trio), &mut self.random),
            ),
            940..=959 => (Call::SaveParts, self.save_buffer(trio)),
            960..=974 => (Call::Stop, Vec::new()),
            975..=979 => (Call::Start, Vec::new()),
            980..=999 => self.walk(trio),
            1000..=1079 => interrupts::set_irqs(&mut self.random),
            1080..=1099 => (interrupts::show_line(&mut self.random), Vec::new()),
            _ => queues::any_walk(&mut self.random),
        }
    }

    /// What a buffer holds before a call writes to it.
    fn garbage(&mut self, length: usize) -> Vec<u8> {
        vec![self.random.byte(); length]
    }

    // ---- moves

    /// A device address at an edge of a mapping or of the device's space, or where bytes are often
    /// stored.
    fn device(&mut self, trio: &Trio) -> u64 {
        let random = &mut self.random;
        let mappings = trio.state.mappings();
        if mappings.is_empty() && !random.one_in(4) {
            return random.below(0x10_0000);
        }
        if mappings.is_empty() || random.one_in(12) {
            let edge = random.pick(&[
                0,
                TOP,
                TOP - 16,
                TOP - PAGE,
                u64::MAX,
                u64::MAX - 15,
                1 << 63,
            ]);
            return edge.wrapping_add(random.pick(&[0, 0, 1, 2, u64::MAX, 17]));
        }
        if random.one_in(40) {
            return random.below(TOP + 4);
        }
        let m = mappings[random.below(mappings.len() as u64) as usize];
        let (first, end) = (m.device.0, m.device.0.wrapping_add(m.size));
        match random.below(8) {
            0..=2 => first.wrapping_add(random.pick(&[0, 0, 1, 2, 15, 16, 64])),
            3 => end.wrapping_sub(random.pick(&[1, 2, 16, 64])),
            4 => first.wrapping_sub(random.pick(&[1, 2, 16])),
            5 => end,
            _ => {
                let page = random.below((m.size / PAGE).max(1)) * PAGE;
                first.wrapping_add(page + random.pick(&[0, 0, 1, 15, 16, 64, 4080, 4095]))
            }
        }
    }

    /// Mostly any such address; else one where a search ends as late or as early as it can: at the
    /// lowest mapping and just beside it, at the highest, at the one in the middle.
    fn looked_up(&mut self, trio: &Trio) -> u64 {
        let mappings = trio.state.mappings();
        let share = if mappings.len() > FEW { 2 } else { 4 };
        if mappings.is_empty() || !self.random.one_in(share) {
            return self.device(trio);
        }
        let (middle, last) = (mappings.len() / 2, mappings.len() - 1);
        let random = &mut self.random;
        let m = mappings[random.pick(&[0, 0, middle, last])];
        let (first, end) = (m.device.0, m.device.0.wrapping_add(m.size));
        random.pick(&[first, end.wrapping_sub(1), first.wrapping_sub(1), end])
    }

    fn card_move(&mut self, trio: &Trio) -> (u64, usize) {
        let device = self.device(trio);
        let mappings = trio.state.mappings();
        let held = mappings.iter().find(|m| m.holds(u128::from(device)));
        // How far it is to the end of the mapping, or of the space.
        let left = match held {
            Some(m) => (m.range().end - u128::from(device)) as u64,
            None => TOP.saturating_sub(device),
        };
        (device, self.length_near(left, trio))
    }

    /// A move as long as one may be, where it can be accepted.
    fn long_move(&mut self, trio: &Trio) -> (Call, Vec<u8>) {
        let first = trio.state.mappings().first().map_or(0, |m| m.device.0);
        let device = first + self.random.pick(&[0, 0, 1, 4095]);
        let address = self.random.pick(&[0, 0, 1, 4096, 4097]);
        let length = self
            .random
            .pick(&[LONGEST, LONGEST, LONGEST - 1, LONGEST + 1]);
        let call = match self.random.below(4) {
            0 => Call::CardRead { device },
            1 => Call::CardWrite { device },
            2 => Call::HostStore { address },
            _ => Call::HostLoad { address },
        };
        let byte = self.random.byte();
        let mut buffer = vec![byte; length];
        if matches!(call, Call::CardWrite { .. } | Call::HostStore { .. }) {
            self.random.fill(&mut buffer);
        }
        (call, buffer)
    }

    fn length_near(&mut self, left: u64, trio: &Trio) -> usize {
        let large = trio.capacity() > LONGEST;
        let random = &mut self.random;
        let length = match random.below(100) {
            0..=5 => 0,
            6..=50 => random.from(1, 16),
            51..=65 => random.from(1, 80),
            66..=85 if left < 3 * PAGE => left.saturating_add(random.pick(&[0, 0, 0, 1, 2, 16])),
            86..=88 if left > 0 && left < 3 * PAGE => left - 1,
            89..=91 => random.pick(&[PAGE - 1, PAGE, PAGE + 1, PAGE + 64, 2 * PAGE]),
            92 if large => random.pick(&[LONGEST as u64, LONGEST as u64 - 1, 40_000]),
            93 => random.pick(&[65_537, 65_538, 70_000]),
            94 if random.one_in(4) => LONGEST as u64,
            _ => random.from(1, 32),
        };
        length as usize
    }

    /// A memory address near the end of memory, or where bytes are often stored.
    fn address(&mut self, trio: &Trio) -> u64 {
        let noted = trio.state.noted_length;
        let random = &mut self.random;
        match random.below(20) {
            0 => noted.wrapping_add(random.pick(&[0, 0, 1, 2])),
            1..=2 => noted.saturating_sub(random.pick(&[1, 2, 7, 8, 9, 15, 16, 17, 64])),
            3 => random.pick(&[u64::MAX, u64::MAX - 15, 1 << 63, 1 << 32, TOP]),
            4 => random.below(noted + 1),
            _ => {
                let page = random.below((noted / PAGE).max(1)) * PAGE;
                page + random.pick(&[0, 0, 0, 1, 2, 3, 7, 8, 9, 15, 16, 17, 64, 4080, 4095])
            }
        }
    }

    fn host_move(&mut self, trio: &Trio) -> (u64, usize) {
        let address = self.address(trio);
        let left = trio.state.noted_length.saturating_sub(address);
        (address, self.length_near(left, trio))
    }

    fn forget_length(&mut self, trio: &Trio, address: u64) -> u64 {
        let left = trio.state.noted_length.saturating_sub(address);
        let random = &mut self.random;
        match random.below(10) {
            0 => random.pick(&[u64::MAX, 0u64.wrapping_sub(address), 1 << 63, 1 << 32]),
            1 => left,
            2 => left.wrapping_add(1),
            3 => 0,
            4 => left.wrapping_sub(1),
            _ => random.from(1, 32),
        }
    }

    // ---- requests

    fn request(&mut self, trio: &Trio) -> (Call, Vec<u8>) {
        let (target, number, size) = match self.random.below(100) {
            0..=39 => (0, 113, 32),
            40..=59 => (0, 114, 24),
            60..=62 => (0, 100, 0),
            63..=67 => (0, 101, 4),
            68..=71 => (0, 112, 16),
            72..=75 => (1, 107, 16),
            76..=82 => (1, 108, 32),
            83..=89 => (1, 109, 16),
            90..=91 => (1, 111, 0),
            92..=95 => (0, 102, 4),
            _ => {
                let target = self.random.pick(&[0, 1, 2, u32::MAX]);
                (target, self.random.from(99, 118) as u32, 32)
            }
        };
        let length = match self.random.below(20) {
            0 => self.random.below(size + 1),
            1 => size.saturating_sub(1),
            2..=5 => size + self.random.pick(&[1, 4, 8, 32]),
            _ => size,
        };
        let mut buffer = self.random.bytes(length as usize);
        let argsz = match self.random.below(20) {
            0 => self
                .random
                .pick(&[0, size.wrapping_sub(1), 1, 1 << 31, u64::MAX]),
            1 => length + 1,
            2..=5 => length,
            6..=7 => self.random.from(size.min(length), length),
            _ => size,
        };
        put(&mut buffer, 0, 4, argsz);
        match (target, number) {
            (0, 101 | 102) => {
                let other = self.random.pick(&damage::NO_TYPES);
                let iommu_type = self.random.pick(&[1, 1, 1, 3, 3, 3, other, other]);
                put(&mut buffer, 0, 4, iommu_type.into());
            }
            (0, 113) => self.map_fields(trio, &mut buffer),
            (0, 114) => self.unmap_fields(trio, &mut buffer),
            (1, 108 | 109) => {
                let last = if number == 108 { 8 } else { 3 };
                let index = match self.random.below(5) {
                    0 => self
                        .random
                        .pick(&[last + 1, 0x107, 0x1_0000, 0x0100_0000, 0xffff_ffff]),
                    1 => last,
                    _ => self.random.from(0, last),
                };
                put(&mut buffer, 8, 4, index);
            }
            _ => {}
        }
        (Call::Request { target, number }, buffer)
    }

    /// argsz, flags, memory address, device address, size.
    fn map_fields(&mut self, trio: &Trio, buffer: &mut [u8]) {
        let noted = trio.state.noted_length;
        let random = &mut self.random;
        let pages = (noted / PAGE).max(1);
        let mut size = random.from(1, pages.min(3)) * PAGE;
        let mut memory = random.below(pages) * PAGE;
        if memory.saturating_add(size) > noted && !random.one_in(8) {
            (memory, size) = (0, PAGE);
        }
        let mut flags = random.pick(&[3, 3, 3, 3, 1, 2]);
        let mut device = self.free_device(trio, size);
        let random = &mut self.random;
        // Mostly one thing is wrong or nothing; sometimes several are, and the order decides.
        for _ in 0..random.pick(&[0, 0, 0, 0, 0, 1, 1, 1, 2, 3]) {
            match random.below(10) {
                0 => flags = random.pick(&[0, 4, 5, 7, 8, 0x101, 0x8000_0003, 0xffff_ffff]),
                1 => size = 0,
                2 => size = size.wrapping_add(random.pick(&[1, u64::MAX, 2048])),
                3 => memory = memory.wrapping_add(random.pick(&[1, u64::MAX, 2048])),
                4 => device = device.wrapping_add(random.pick(&[1, u64::MAX, 2048])),
                5 => size = random.pick(&[0u64.wrapping_sub(PAGE), 1 << 63, TOP, TOP - PAGE]),
                6 => memory = random.pick(&[0u64.wrapping_sub(PAGE), noted / PAGE * PAGE, 1 << 63]),
                7 => device = random.pick(&[0u64.wrapping_sub(PAGE), TOP, TOP - PAGE, 1 << 63]),
                8 => memory = (noted / PAGE * PAGE).saturating_sub(size),
                _ => device = TOP.wrapping_sub(size).wrapping_add(random.pick(&[0, PAGE])),
            }
        }
        put(buffer, 4, 4, flags);
        put(buffer, 8, 8, memory);
        put(buffer, 16, 8, device);
        put(buffer, 24, 8, size);
    }

    /// A device address beside a mapping, in one, around one, or anywhere.
    fn free_device(&mut self, trio: &Trio, size: u64) -> u64 {
        let mappings = trio.state.mappings();
        let random = &mut self.random;
        if mappings.is_empty() || random.one_in(8) {
            return random.pick(&[0, PAGE, 0x10_0000, 1 << 40, TOP - PAGE, TOP - size]);
        }
        let m = mappings[random.below(mappings.len() as u64) as usize];
        let (first, end) = (m.device.0, m.device.0.wrapping_add(m.size));
        match random.below(8) {
            0..=2 => end,
            3 => first.wrapping_sub(size),
            4 => end.wrapping_add(PAGE),
            5 => first,
            6 => first.wrapping_sub(PAGE),
            _ => end.wrapping_sub(PAGE),
        }
    }

    /// argsz, flags, device address, size.
    fn unmap_fields(&mut self, trio: &Trio, buffer: &mut [u8]) {
        let mappings = trio.state.mappings();
        let random = &mut self.random;
        let (mut device, mut size) = (random.pick(&[0, PAGE, 1 << 40, TOP - PAGE]), PAGE);
        if !mappings.is_empty() {
            let i = random.below(mappings.len() as u64) as usize;
            let m = mappings[i];
            // To the end of the same mapping, or of one of the next ones.
            let last = mappings[(i + random.pick(&[0, 0, 0, 1, 2, 63])).min(mappings.len() - 1)];
            device = m.device.0;
            let mut end = last.range().end as u64;
            // From before the one, inside it or behind it, to before the other's end or beyond.
            if random.one_in(3) {
                let page_before = 0u64.wrapping_sub(PAGE);
                device = device.wrapping_add(random.pick(&[0, page_before, PAGE, PAGE, m.size]));
                end = end.wrapping_sub(random.pick(&[0, page_before, PAGE, PAGE, last.size]));
            }
            size = end.wrapping_sub(device);
        }
        let mut flags = 0;
        for _ in 0..random.pick(&[0, 0, 0, 0, 1, 1, 1, 2, 3]) {
            match random.below(16) {
                0 => flags = random.pick(&[1, 2, 3, 0x8000_0000, 256]),
                1 => size = 0,
                2 => size = size.wrapping_add(random.pick(&[1, u64::MAX])),
                3 => device = device.wrapping_add(random.pick(&[1, u64::MAX])),
                4..=5 => size = size.wrapping_add(PAGE),
                6..=7 => size = size.wrapping_sub(PAGE),
                11..=12 => device = device.wrapping_add(PAGE),
                13 => device = device.wrapping_sub(PAGE),
                8 => size = random.pick(&[0u64.wrapping_sub(PAGE), TOP, TOP + PAGE, 1 << 63]),
                9 => device = random.pick(&[0, 0u64.wrapping_sub(PAGE), TOP, TOP - PAGE]),
                10 if random.one_in(2) => (device, size) = (0, TOP),
                _ => {}
            }
        }
        put(buffer, 4, 4, flags);
        put(buffer, 8, 8, device);
        put(buffer, 16, 8, size);
    }

    // ---- registers and parts

    fn card(&mut self) -> Card {
        self.random.pick(&[Card::Features64, Card::Features128])
    }

    /// Mostly a register that there is; else a number beside one.
    fn register(&mut self, trio: &Trio) -> (u64, u64, usize) {
        let random = &mut self.random;
        let (mut kind, mut selector, mut length) = match random.below(16) {
            14 => (0x100, 0, 8),
            15 => random.pick(&SLOTS),
            slot => SLOTS[slot as usize],
        };
        if matches!(kind, 0x100 | 0x101) {
            let words = card_words(trio);
            length = 8 * if random.one_in(8) { 3 - words } else { words } as usize;
        }
        match random.below(12) {
            0 => {
                kind = random.pick(&[
                    0,
                    0xff,
                    0x106,
                    0x600,
                    0x1_0103,
                    0x1_0000_0103,
                    u64::MAX,
                    0x100,
                    3,
                ])
            }
            1..=2 => {
                selector = random.pick(&[
                    1,
                    2,
                    4,
                    6,
                    8,
                    12,
                    18,
                    20,
                    22,
                    23,
                    256,
                    0x1_0000,
                    0x1_0001,
                    1 << 32,
                    (1 << 32) + 8,
                    u64::MAX,
                ])
            }
            _ => {}
        }
        (kind, selector, length)
    }

    fn set_register(&mut self, trio: &Trio) -> (Call, Vec<u8>) {
        let (kind, selector, length) = self.register(trio);
        let value = streams::value(kind, length, &mut self.random);
        (Call::SetRegister { kind, selector }, value)
    }

    fn read_register(&mut self, trio: &Trio) -> (Call, Vec<u8>) {
        let (kind, selector, length) = self.register(trio);
        let room = match self.random.below(6) {
            0 => length.saturating_sub(1),
            1 => 0,
            2..=3 => length,
            _ => 40,
        };
        (Call::ReadRegister { kind, selector }, self.garbage(room))
    }

    fn save_buffer(&mut self, trio: &Trio) -> Vec<u8> {
        let values: usize = trio.state.registers.values().map(|v| 16 + v.len()).sum();
        let exact = 16 + 8 * card_words(trio) as usize + values;
        let room = match self.random.below(6) {
            0 => exact - 1,
            1..=2 => exact,
            3 => exact + 1,
            4 => self.random.below(500) as usize,
            _ => 500,
        };
        self.garbage(room)
    }

    fn walk(&mut self, trio: &Trio) -> (Call, Vec<u8>) {
        let stream = streams::stream(card_words(trio), &mut self.random);
        let length = stream.len() as u64;
        // A step's place is where a part begins, mostly.
        let mut place = 0;
        for _ in 0..self.random.below(5) {
            let left = &stream[place.min(stream.len())..];
            if left.len() < 16 {
                break;
            }
            let value = u32::from_le_bytes([left[12], left[13], left[14], left[15]]);
            place = place.saturating_add(16 + value as usize);
        }
        let place = match self.random.below(12) {
            0 => length,
            1 => length + 1,
            2 => self.random.below(length + 2),
            3 => self.random.pick(&[u64::MAX, u64::MAX - 15, 1 << 63]),
            4 => length.saturating_sub(self.random.from(1, 17)),
            _ => place as u64,
        };
        (Call::Walk { place }, stream)
    }
}

fn noted(trio: &Trio) -> usize {
    (trio.state.noted_length as usize).min(trio.capacity())
}

/// All records that may be lent, and memory of this length with its marks.
fn lent(trio: &Trio, memory: usize) -> Lent {
    Lent {
        records: trio.records().min(RECORDS_LIMIT),
        memory,
        marks: mark_bytes(memory),
    }
}

/// Puts a field where the buffer reaches.
pub fn put(buffer: &mut [u8], at: usize, width: usize, number: u64) {
    let bytes = number.to_le_bytes();
    for (i, byte) in bytes[..width].iter().enumerate() {
        if let Some(place) = buffer.get_mut(at + i) {
            *place = *byte;
        }
    }
}

#[cfg(test)]
mod tests {
    use super::*;
    use crate::meaning::meaning;
    use crate::trio::faithful;

    /// A trio on two pages after a fresh start.
    fn started() -> (Generator, Trio) {
        let mut generator = Generator::new(1);
        generator.length = 8192;
        generator.records = 65;
        let mut trio = Trio::new(generator.size(), 1, faithful);
        let step = generator.next(&trio);
        assert!(trio.step(&step).is_ok());
        (generator, trio)
    }

    #[test]
    fn states_made_to_be_sound_are_sound() {
        let (mut generator, trio) = started();
        for _ in 0..2000 {
            assert!(meaning(&generator.sound_state(&trio)).sound());
        }
    }

    #[test]
    fn every_damage_makes_a_sound_state_unsound() {
        let (mut generator, trio) = started();
        for _ in 0..5000 {
            let sound = generator.sound_state(&trio);
            let (cause, state) = damage::damaged(&sound, &mut generator.random);
            assert!(!meaning(&state).sound(), "{}", damage::CAUSES[cause]);
        }
    }

    #[test]
    fn a_seed_makes_one_list() {
        let list = |seed| {
            let mut generator = Generator::new(seed);
            let mut trio = Trio::new(generator.size(), seed, faithful);
            let mut shown = Vec::new();
            for _ in 0..100 {
                let step = generator.next(&trio);
                trio.step(&step).unwrap();
                shown.push(step.to_string());
            }
            shown
        };
        assert_eq!(list(7), list(7));
        assert_ne!(list(7), list(8));
    }
}

/// The words of the features of the card that is kept; of the first card where there is none.
fn card_words(trio: &Trio) -> u64 {
    if trio.state.words == 2 {
        2
    } else {
        1
    }
}
