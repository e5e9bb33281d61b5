//! What the measured calls are made on.

use std::hint::black_box;

use glintbasket::raw::{self, SLOTS};
use glintbasket::{
    kind, marks_len, Bench, DeviceAddress, Mapping, MemoryAddress, Rights, State, BUFFER_NUMBERS,
    RECORDS_LIMIT,
};

pub const PAGE: usize = 4096;
const PAGES: usize = 64;
/// The device address of the first mapping.
const DEVICE: u64 = 0x1_0000_0000;
const BOTH: Rights = Rights(3);
/// The descriptors of every queue.
pub const QUEUE_SIZE: usize = 256;
/// A device address above those of all mappings.
const SPARE: u64 = DEVICE + (2 * RECORDS_LIMIT * PAGE) as u64;

/// Bytes that begin on a page, so that every run of the program meets the same alignment.
pub struct Aligned {
    bytes: Vec<u8>,
    start: usize,
    length: usize,
}

impl Aligned {
    /// Every byte is written here once, so that no page is first touched while time is taken. The
    /// byte is hidden: zeros that are only asked for are one shared page until they are written.
    fn filled(length: usize, byte: u8) -> Aligned {
        let mut bytes = vec![0; length + PAGE];
        bytes.fill(black_box(byte));
        let start = bytes.as_ptr().align_offset(PAGE);
        Aligned {
            bytes,
            start,
            length,
        }
    }

    pub fn get(&self) -> &[u8] {
        &self.bytes[self.start..self.start + self.length]
    }

    pub fn get_mut(&mut self) -> &mut [u8] {
        &mut self.bytes[self.start..self.start + self.length]
    }
}

/// A state with records, memory, marks and a buffer, and the arguments of the call that is measured.
pub struct World {
    pub state: State,
    pub records: Vec<Mapping>,
    pub memory: Aligned,
    pub marks: Aligned,
    pub buffer: Aligned,
    /// How many mappings are held, and restored after a call that changes it.
    pub held: usize,
    pub device: DeviceAddress,
    pub address: MemoryAddress,
    pub size: usize,
    /// The buffers of map and of unmap.
    pub map: [u8; 32],
    pub unmap: [u8; 24],
    /// Of a walk: the queue, the caller's last index and the array.
    pub queue: u32,
    pub last: u16,
    pub numbers: Vec<u64>,
}

impl World {
    /// A world whose every record is in use.
    pub fn full(records: usize, size: usize) -> World {
        World::new(records, records, size)
    }

    /// 64 pages, all written; every register set; so many records. `held` mappings adjoin in device
    /// addresses and lie scattered in memory, each of one page, but for a single one, which shows all
    /// of it. A move of `size` bytes goes to the middle of what they show.
    pub fn new(records: usize, held: usize, size: usize) -> World {
        let mut memory = Aligned::filled(PAGES * PAGE, 0);
        for (i, byte) in memory.get_mut().iter_mut().enumerate() {
            *byte = (i % 251) as u8;
        }
        let mut marks = Aligned::filled(marks_len(PAGES * PAGE), 255);
        let mut records = vec![Mapping::default(); records];
        let mut bench = Bench::builder()
            .records(&mut records)
            .lend(memory.get_mut(), marks.get_mut())
            .expect("a fresh start");
        // A single mapping shows all memory, and each of several one page.
        let pages = if held == 1 { PAGES } else { 1 };
        hold(&mut bench, held, pages);
        set_registers(&mut bench);
        let state = *bench.state();
        marks.get_mut().fill(255);
        let shown = held * pages;
        let start = shown.saturating_sub(size.div_ceil(PAGE)) / 2;
        World {
            state,
            records,
            memory,
            marks,
            buffer: Aligned::filled(PAGES * PAGE, 0),
            held,
            device: DeviceAddress(DEVICE + (start * PAGE) as u64),
            address: MemoryAddress((PAGES / 4 * PAGE) as u64),
            size,
            map: map_request(SPARE),
            unmap: unmap_request(
                DEVICE + (held.saturating_sub(1) * PAGE) as u64,
                pages * PAGE,
            ),
            queue: 0,
            last: 0,
            numbers: Vec::new(),
        }
    }

    /// Puts a queue into the first two pages that the device sees, its descriptors and its ring, with so
    /// many heads of one descriptor each, and room for the walk. Its size is the number of heads.
    pub fn offering(mut self, heads: usize) -> World {
        let mut table = Vec::new();
        let mut ring = vec![0, 0];
        ring.extend((heads as u16).to_le_bytes());
        for i in 0..QUEUE_SIZE {
            table.extend((DEVICE + (i * PAGE) as u64).to_le_bytes());
            table.extend((PAGE as u32).to_le_bytes());
            table.extend([0; 4]);
            let head = (5 * i + 3) % QUEUE_SIZE;
            ring.extend((head as u16).to_le_bytes());
        }
        let driver = DEVICE + table.len() as u64;
        let mut queue = queue_value();
        queue[4] = 1; // enabled
        queue[8..16].copy_from_slice(&DEVICE.to_le_bytes());
        queue[16..24].copy_from_slice(&driver.to_le_bytes());
        let (memory, marks) = (self.memory.get_mut(), self.marks.get_mut());
        let mut bench = Bench::resume(self.state, &mut self.records, memory, marks);
        table.extend(ring);
        bench
            .device_write(DeviceAddress(DEVICE), &table)
            .expect("two pages that the device may write");
        bench
            .set_register(kind::QUEUE_CONFIG, self.queue.into(), &queue)
            .expect("a queue");
        self.state = *bench.state();
        self.numbers = vec![0; BUFFER_NUMBERS * heads];
        self.size = heads;
        self
    }

    /// Leaves only status set.
    pub fn reset(mut self) -> World {
        let (memory, marks) = (self.memory.get_mut(), self.marks.get_mut());
        let mut bench = Bench::resume(self.state, &mut self.records, memory, marks);
        bench.reset().expect("a reset");
        self.state = *bench.state();
        self
    }

    /// Puts the stream that saves the registers into the buffer, and notes its length.
    pub fn saved(mut self) -> World {
        let outcome = raw::save_parts(&self.state, &self.records, self.buffer.get_mut());
        assert!(!outcome.refused);
        self.size = outcome.result as usize;
        self
    }

    /// The map goes below all others, so that all of them move up.
    pub fn at_the_front(mut self) -> World {
        self.map = map_request(0);
        self.unmap = unmap_request(0, PAGE);
        self
    }
}

/// Mappings that adjoin in device addresses and lie scattered in memory.
fn hold(bench: &mut Bench, held: usize, pages: usize) {
    for i in 0..held {
        let place = if held == 1 { 0 } else { (5 * i + 3) % PAGES };
        let memory = MemoryAddress((place * PAGE) as u64);
        let device = DeviceAddress(DEVICE + (i * PAGE) as u64);
        bench
            .map(memory, device, (pages * PAGE) as u64, BOTH)
            .expect("a mapping");
    }
}

/// A queue that is not enabled.
fn queue_value() -> [u8; 32] {
    let mut value = [0; 32];
    value[..2].copy_from_slice(&(QUEUE_SIZE as u16).to_le_bytes());
    value
}

fn set_registers(bench: &mut Bench) {
    let queue = queue_value();
    for (kind, selector, size) in SLOTS {
        let value = match kind {
            kind::DRIVER_FEATURES => &[0, 0, 0, 0x30, 1, 0, 0, 0][..],
            kind::DEVICE_STATUS => &[15],
            kind::QUEUE_CONFIG => &queue,
            kind::NOTIFY_CONFIG => &[1, 0, 2, 0, 0, 0, 0, 0],
            _ => &[1, 2, 3, 4][..size],
        };
        bench
            .set_register(kind, selector, value)
            .expect("a register");
    }
}

/// A map that shows memory's first page there.
fn map_request(device: u64) -> [u8; 32] {
    let mut buffer = [0; 32];
    buffer[..4].copy_from_slice(&32u32.to_le_bytes());
    buffer[4..8].copy_from_slice(&BOTH.0.to_le_bytes());
    buffer[16..24].copy_from_slice(&device.to_le_bytes());
    buffer[24..].copy_from_slice(&(PAGE as u64).to_le_bytes());
    buffer
}

pub fn unmap_request(device: u64, size: usize) -> [u8; 24] {
    let mut buffer = [0; 24];
    buffer[..4].copy_from_slice(&24u32.to_le_bytes());
    buffer[8..16].copy_from_slice(&device.to_le_bytes());
    buffer[16..].copy_from_slice(&(size as u64).to_le_bytes());
    buffer
}
