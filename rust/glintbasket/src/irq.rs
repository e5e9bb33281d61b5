//! Interrupt lines: which there are, what is done to them, and what one shows.

use crate::bench::{Bench, Target};
use crate::error::Result;
use crate::raw;
use crate::requests::number;

/// An interrupt index of the device, by the kernel's number.
///
/// Any number can be asked for; one above 3 is refused with [`Index`](crate::Refusal::Index).
#[derive(Clone, Copy, Debug, PartialEq, Eq, Hash)]
pub struct IrqIndex(pub u32);

impl IrqIndex {
    /// One line, which can be masked, and is masked when it fires.
    pub const INTX: IrqIndex = IrqIndex(0);
    /// Eight lines.
    pub const MSI: IrqIndex = IrqIndex(1);
    /// Sixteen lines.
    pub const MSIX: IrqIndex = IrqIndex(2);
    /// No line.
    pub const ERR: IrqIndex = IrqIndex(3);

    /// Every index, by rising number.
    pub const ALL: [IrqIndex; 4] = [IrqIndex::INTX, IrqIndex::MSI, IrqIndex::MSIX, IrqIndex::ERR];

    /// How many lines it has.
    pub const fn lines(self) -> u32 {
        match self.0 {
            0 => 1,
            1 => 8,
            2 => 16,
            _ => 0,
        }
    }
}

/// What [`Bench::set_irqs`] does to the lines that are meant. Nothing becomes of a line without an event number.
#[derive(Clone, Copy, Debug, PartialEq, Eq, Hash)]
pub enum IrqAction {
    /// The line is masked. Only for an index that is maskable.
    Mask = 8,
    /// The line is not masked any more. If it was pending, it is so no longer, and is triggered once. Only for an index that is maskable.
    Unmask = 16,
    /// A masked line becomes pending. The tally of another rises by one, and where its index is automasked, the line is masked then. With
    /// [event numbers](IrqData::Event), these are stored instead.
    Trigger = 32,
}

/// What [`Bench::set_irqs`] says of each line.
#[derive(Clone, Copy, Debug, PartialEq, Eq, Hash)]
pub enum IrqData<'d> {
    /// So many lines, and each is meant. None at all, with [`IrqAction::Trigger`], disables the index.
    None(u32),
    /// A byte for each line. Any but 0 means the line; others stay.
    Bool(&'d [u8]),
    /// An event number for each line, with [`IrqAction::Trigger`] alone: it is stored, and mask, pending event and tally are cleared. -1
    /// leaves the line without a number.
    Event(&'d [i32]),
}

impl IrqData<'_> {
    /// The flag that says which it is.
    const fn flag(self) -> u32 {
        match self {
            IrqData::None(_) => 1,
            IrqData::Bool(_) => 2,
            IrqData::Event(_) => 4,
        }
    }

    /// How many lines it is for. No index has as many as 32 bits cannot say.
    fn count(self) -> u32 {
        let length = match self {
            IrqData::None(count) => return count,
            IrqData::Bool(bytes) => bytes.len(),
            IrqData::Event(numbers) => numbers.len(),
        };
        u32::try_from(length).unwrap_or(u32::MAX)
    }

    fn bytes(self) -> Vec<u8> {
        match self {
            IrqData::None(_) => Vec::new(),
            IrqData::Bool(bytes) => bytes.to_vec(),
            IrqData::Event(numbers) => numbers.iter().flat_map(|n| n.to_le_bytes()).collect(),
        }
    }
}

/// What an interrupt line keeps: what [`Bench::show_line`] gives.
#[derive(Clone, Copy, Debug, PartialEq, Eq, Hash)]
pub struct Line {
    /// The number of the event that it raises; none where no number is assigned.
    pub event: Option<u32>,
    /// Whether it is masked.
    pub masked: bool,
    /// Whether an event came while it was masked.
    pub pending: bool,
    /// How many events it raised since its number was stored, modulo 2^32.
    pub tally: u32,
}

impl Line {
    /// A line as a fresh start and a reset leave it.
    pub const DISABLED: Line = Line {
        event: None,
        masked: false,
        pending: false,
        tally: 0,
    };
}

impl Bench<'_> {
    /// Acts on the lines of an index from `start` on, as many as the data are for.
    ///
    /// Refused: `BadBench`; `Flags` for event numbers without [`IrqAction::Trigger`]; `Index`; `Flags` for mask and unmask of an index that
    /// is not maskable; `Range` past the last line; `Empty` for no line, unless that disables the index; `Value` for an event number below
    /// -1, and then none is stored.
    ///
    /// A driver's handler, and a card that goes on meanwhile:
    ///
    /// ```
    /// use glintbasket::{Error, IrqAction, IrqData, IrqIndex, OwnedBench};
    ///
    /// fn main() -> Result<(), Error> {
    ///     let mut bench = OwnedBench::with_memory(Vec::new())?;
    ///     bench.set_irqs(IrqIndex::INTX, 0, IrqAction::Trigger, IrqData::Event(&[7]))?;
    ///
    ///     // The card fires. The line is masked then, until the handler is through.
    ///     let one = IrqData::None(1);
    ///     bench.set_irqs(IrqIndex::INTX, 0, IrqAction::Trigger, one)?;
    ///     let line = bench.show_line(IrqIndex::INTX, 0)?;
    ///     assert_eq!((line.event, line.tally, line.masked), (Some(7), 1, true));
    ///
    ///     // Two more come meanwhile: one is pending, and nothing is counted.
    ///     bench.set_irqs(IrqIndex::INTX, 0, IrqAction::Trigger, one)?;
    ///     bench.set_irqs(IrqIndex::INTX, 0, IrqAction::Trigger, one)?;
    ///     let line = bench.show_line(IrqIndex::INTX, 0)?;
    ///     assert_eq!((line.tally, line.pending), (1, true));
    ///
    ///     // The handler unmasks, and the pending one fires, which masks the line again.
    ///     bench.set_irqs(IrqIndex::INTX, 0, IrqAction::Unmask, one)?;
    ///     let line = bench.show_line(IrqIndex::INTX, 0)?;
    ///     assert_eq!((line.tally, line.pending, line.masked), (2, false, true));
    ///     Ok(())
    /// }
    /// ```
    pub fn set_irqs(
        &mut self,
        index: IrqIndex,
        start: u32,
        action: IrqAction,
        data: IrqData,
    ) -> Result<()> {
        let data_bytes = data.bytes();
        // Data that 32 bits cannot count are for more lines than there are, and refused as such.
        let argsz = u32::try_from(20 + data_bytes.len()).unwrap_or(u32::MAX);
        let flags = data.flag() | action as u32;
        let fields = [argsz, flags, index.0, start, data.count()];
        let mut buffer: Vec<u8> = fields.into_iter().flat_map(u32::to_le_bytes).collect();
        buffer.extend(data_bytes);
        self.request(Target::DEVICE, number::DEVICE_SET_IRQS, &mut buffer)?;
        Ok(())
    }

    /// Disables an index: none of its lines has an event number, is masked or pending, and all tallies are 0. So does a
    /// [`reset`](Bench::reset) with every index.
    ///
    /// Refused: `BadBench`, `Index`.
    pub fn disable_irqs(&mut self, index: IrqIndex) -> Result<()> {
        self.set_irqs(index, 0, IrqAction::Trigger, IrqData::None(0))
    }

    /// Shows a line of an index, by its number from 0 on.
    ///
    /// Refused: `BadBench`; `Index` where there is no such index, or no such line of it.
    pub fn show_line(&self, index: IrqIndex, line: u32) -> Result<Line> {
        let shown = raw::show_line(&self.state, &self.records, index.0, line);
        shown.outcome.answer()?;
        Ok(Line {
            event: u32::try_from(shown.number).ok(),
            masked: shown.masked,
            pending: shown.pending,
            tally: shown.tally,
        })
    }
}
