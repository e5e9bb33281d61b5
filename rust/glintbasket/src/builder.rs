//! Benches with other records or another card than the default.

use crate::bench::{marks_len, Bench};
use crate::card::Card;
use crate::error::Result;
use crate::lent::Lent;
use crate::raw::{Mapping, State};
use crate::{DEFAULT_RECORDS, RECORDS_LIMIT};

/// Makes a bench, where [`Bench::new`] and [`OwnedBench::with_memory`](crate::OwnedBench::with_memory) are not enough: it says how many
/// mappings the bench can hold, or lends it the records for them, and which card it plays.
///
/// ```
/// use glintbasket::{marks_len, Bench, Card, Mapping};
///
/// # fn main() -> Result<(), glintbasket::Error> {
/// // 4,096 records and the memory are the bench's own.
/// let bench = Bench::builder().record_count(4096).own(vec![0; 8192])?;
/// assert_eq!(bench.records().len(), 4096);
///
/// // All is lent, and nothing is allocated.
/// let (mut memory, mut marks) = ([0; 8192], [0; marks_len(8192)]);
/// let mut records = [Mapping::default(); 16];
/// let bench = Bench::builder()
///     .records(&mut records)
///     .card(Card::Features128)
///     .lend(&mut memory, &mut marks)?;
/// assert_eq!(bench.records().len(), 16);
/// # Ok(())
/// # }
/// ```
pub struct Builder<'m> {
    records: Records<'m>,
    card: Card,
}

enum Records<'m> {
    Count(usize),
    Lent(&'m mut [Mapping]),
}

impl Default for Builder<'_> {
    /// [`DEFAULT_RECORDS`] records of the bench's own, and the card with 64 feature bits.
    fn default() -> Self {
        Builder {
            records: Records::Count(DEFAULT_RECORDS),
            card: Card::default(),
        }
    }
}

impl<'m> Builder<'m> {
    /// So many records of the bench's own. More than [`RECORDS_LIMIT`] are refused when the bench is made.
    pub fn record_count(mut self, count: usize) -> Builder<'m> {
        self.records = Records::Count(count);
        self
    }

    /// These records. They may hold anything: none is in use at first.
    pub fn records(mut self, records: &'m mut [Mapping]) -> Builder<'m> {
        self.records = Records::Lent(records);
        self
    }

    /// This card.
    pub fn card(mut self, card: Card) -> Builder<'m> {
        self.card = card;
        self
    }

    /// A fresh start on lent memory and marks. Memory bytes stay as they are; all marks become 0, and the bits past the last one stay.
    ///
    /// Refused: `BadBench` if there are more than [`RECORDS_LIMIT`] records, the marks are not [`marks_len`] bytes, or memory exceeds
    /// 2^30.
    pub fn lend(self, memory: &'m mut [u8], marks: &'m mut [u8]) -> Result<Bench<'m>> {
        self.start(Lent::Borrowed(memory), Lent::Borrowed(marks))
    }

    /// A fresh start on memory that the bench then owns. The bytes stay as they are, and none counts as written.
    ///
    /// Refused: `BadBench` for more than [`RECORDS_LIMIT`] records or 2^30 bytes.
    pub fn own(self, memory: Vec<u8>) -> Result<Bench<'m>> {
        let marks = vec![0; marks_len(memory.len())];
        self.start(Lent::Owned(memory), Lent::Owned(marks))
    }

    fn start(self, memory: Lent<'m, u8>, marks: Lent<'m, u8>) -> Result<Bench<'m>> {
        let records = match self.records {
            // One too many is refused like any greater number, and is all that is ever allocated.
            Records::Count(count) => {
                Lent::Owned(vec![Mapping::default(); count.min(RECORDS_LIMIT + 1)])
            }
            Records::Lent(records) => Lent::Borrowed(records),
        };
        let mut bench = Bench {
            records,
            memory,
            marks,
            state: State::default(),
        };
        bench.power_on_as(self.card)?;
        Ok(bench)
    }
}
