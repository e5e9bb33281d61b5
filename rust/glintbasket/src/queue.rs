//! The split virtqueue: which buffers a driver offers its device.

use crate::address::DeviceAddress;
use crate::bench::Bench;
use crate::error::Result;
use crate::{raw, BUFFER_NUMBERS, WALKED_MAX};

/// A buffer that a driver offers: what one descriptor says.
#[derive(Clone, Copy, Debug, PartialEq, Eq, Hash)]
pub struct Buffer {
    /// Where it begins.
    pub address: DeviceAddress,
    /// How many bytes it has.
    pub length: u32,
    /// All 16 bits, as the driver wrote them.
    pub flags: u16,
}

impl Buffer {
    /// The flag of a descriptor behind which its chain goes on.
    pub const NEXT: u16 = 1;
    /// The flag of a buffer that is for the device to write.
    pub const WRITE: u16 = 2;

    /// Whether its chain goes on behind it.
    pub const fn has_next(self) -> bool {
        self.flags & Buffer::NEXT != 0
    }

    /// Whether it is for the device to write; if not, it is for the device to read.
    pub const fn is_writable(self) -> bool {
        self.flags & Buffer::WRITE != 0
    }

    /// The buffers in numbers that [`Bench::walk_queue_into`] wrote, three for each.
    pub fn all(numbers: &[u64]) -> impl Iterator<Item = Buffer> + '_ {
        numbers.chunks_exact(BUFFER_NUMBERS).map(|three| Buffer {
            address: DeviceAddress(three[0]),
            length: three[1] as u32,
            flags: three[2] as u16,
        })
    }
}

/// What [`Bench::walk_queue`] gives.
#[derive(Clone, Debug, PartialEq, Eq, Hash)]
pub struct Walk {
    /// The buffers, head by head, each chain in its order.
    pub buffers: Vec<Buffer>,
    /// The ring's index: what the next walk takes as the last one.
    pub index: u16,
}

impl Walk {
    /// The buffers of each head.
    pub fn chains(&self) -> impl Iterator<Item = &[Buffer]> {
        self.buffers.split_inclusive(|buffer| !buffer.has_next())
    }
}

/// What [`Bench::walk_queue_into`] gives.
#[derive(Clone, Copy, Debug, PartialEq, Eq, Hash)]
pub struct Walked {
    /// How many buffers were found. Three times as many of the numbers were written.
    pub buffers: usize,
    /// The ring's index: what the next walk takes as the last one.
    pub index: u16,
}

impl Bench<'_> {
    /// Walks a split virtqueue: the heads of the driver's ring, from the caller's last index up to but not including the ring's, and the
    /// chain of descriptors of each. Index, heads and descriptors are fetched by card reads, each descriptor whole; the buffers
    /// themselves are not read.
    ///
    /// Refused: `BadBench`; `Index` for a queue above 3; `QueueNotReady`; then by the first fault `RingDistance`, `DescriptorIndex`,
    /// `ChainLength` and `Indirect`, and of a card read `Range`, `Unmapped`, `NoRight` and `Unwritten`.
    ///
    /// A driver that offers a command of two buffers, and forgets the last two bytes:
    ///
    /// ```
    /// use glintbasket::{kind, Buffer, DeviceAddress, Error, MemoryAddress, OwnedBench, Refusal, Rights};
    ///
    /// fn main() -> Result<(), Error> {
    ///     let mut bench = OwnedBench::with_memory(vec![0xa5; 4096])?;
    ///     bench.map(MemoryAddress(0), DeviceAddress(0x10000), 4096, Rights::READ)?;
    ///
    ///     // Queue 0: four descriptors at 0x10000, the driver's ring at 0x10100, the device's at 0x10200.
    ///     let mut queue = [0; 32];
    ///     queue[0] = 4;
    ///     queue[4] = 1; // enabled
    ///     for (at, address) in [(8, 0x10000u64), (16, 0x10100), (24, 0x10200)] {
    ///         queue[at..at + 8].copy_from_slice(&address.to_le_bytes());
    ///     }
    ///     bench.set_register(kind::QUEUE_CONFIG, 0, &queue)?;
    ///
    ///     // Descriptor 2: 16 bytes at 0x10800, and on to descriptor 0: 512 bytes at 0x10900, for the device to write.
    ///     bench.host_write(MemoryAddress(0x20), &[0, 8, 1, 0, 0, 0, 0, 0, 16, 0, 0, 0, 1, 0, 0, 0])?;
    ///     bench.host_write(MemoryAddress(0x00), &[0, 9, 1, 0, 0, 0, 0, 0, 0, 2, 0, 0, 2, 0])?;
    ///     // The ring: index 1, and descriptor 2 as its first head.
    ///     bench.host_write(MemoryAddress(0x102), &[1, 0, 2, 0])?;
    ///
    ///     // Nobody wrote `next` of descriptor 0, at 0x1000e.
    ///     let error = bench.walk_queue(0, 0).unwrap_err();
    ///     assert_eq!((error.refusal, error.place), (Refusal::Unwritten, 0x1000e));
    ///
    ///     bench.host_write(MemoryAddress(0x0e), &[0, 0])?;
    ///     let walk = bench.walk_queue(0, 0)?;
    ///     let command = Buffer { address: DeviceAddress(0x10800), length: 16, flags: Buffer::NEXT };
    ///     let answer = Buffer { address: DeviceAddress(0x10900), length: 512, flags: Buffer::WRITE };
    ///     assert_eq!(walk.chains().collect::<Vec<_>>(), [[command, answer]]);
    ///
    ///     // Nothing is new since.
    ///     assert_eq!(bench.walk_queue(0, walk.index)?.buffers, []);
    ///     Ok(())
    /// }
    /// ```
    pub fn walk_queue(&self, queue: u32, last: u16) -> Result<Walk> {
        let mut numbers = vec![0; WALKED_MAX];
        let walked = self.walk_queue_into(queue, last, &mut numbers)?;
        let written = &numbers[..BUFFER_NUMBERS * walked.buffers];
        Ok(Walk {
            buffers: Buffer::all(written).collect(),
            index: walked.index,
        })
    }

    /// The same into numbers of the caller's: address, length and flags of each buffer, one behind the other ([`Buffer::all`] reads them).
    /// The numbers behind them stay, and all of them where the walk is refused. [`WALKED_MAX`] are enough for any walk.
    ///
    /// Refused: as [`walk_queue`](Bench::walk_queue), and at last `NoSpace` where the numbers are too few.
    pub fn walk_queue_into(&self, queue: u32, last: u16, numbers: &mut [u64]) -> Result<Walked> {
        let walked = raw::walk_queue(
            &self.state,
            &self.records,
            &self.memory,
            &self.marks,
            queue,
            last,
            numbers,
        );
        let buffers = walked.outcome.answer()?;
        Ok(Walked {
            buffers: usize::try_from(buffers).expect("as many as the numbers have room for"),
            index: walked.index,
        })
    }
}
