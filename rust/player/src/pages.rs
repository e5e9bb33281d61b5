//! What a bench's memory holds, page by page, once a session is played.

use glintbasket::{Bench, Mapping, MemoryAddress, Rights, PAGE_SIZE};

/// How much of a stretch of memory was written by calls and not forgotten since.
#[derive(Clone, Copy, Debug, PartialEq, Eq)]
pub enum Written {
    Not,
    InPart,
    Wholly,
}

/// A stretch of memory: one page or several.
#[derive(Clone, Debug, PartialEq)]
pub struct Stretch {
    pub start: u64,
    pub length: u64,
    pub written_bytes: u64,
    /// Those of the bench's mappings that show a byte of it, as indices.
    pub mappings: Vec<usize>,
}

impl Stretch {
    fn of(bench: &Bench, start: u64, length: u64) -> Stretch {
        let mappings = bench.mappings().iter().enumerate();
        Stretch {
            start,
            length,
            written_bytes: written_bytes(bench, start, length),
            mappings: mappings
                .filter(|(_, mapping)| shows(mapping, start, length))
                .map(|(index, _)| index)
                .collect(),
        }
    }

    pub fn written(&self) -> Written {
        match self.written_bytes {
            0 => Written::Not,
            bytes if bytes == self.length => Written::Wholly,
            _ => Written::InPart,
        }
    }

    pub fn last(&self) -> u64 {
        self.start + self.length - 1
    }

    pub fn pages(&self) -> u64 {
        self.length.div_ceil(PAGE_SIZE)
    }

    pub fn contains(&self, address: u64) -> bool {
        self.start <= address && address <= self.last()
    }

    /// What the card may do with a byte of it, by any mapping.
    pub fn rights(&self, bench: &Bench) -> Rights {
        let rights = self.mappings.iter().map(|&i| bench.mappings()[i].rights);
        rights.fold(Rights(0), |all, rights| all | rights)
    }

    /// Whether a following stretch can be told in one line with this one. Where there are many mappings it is enough that both are
    /// mapped.
    fn is_like(&self, other: &Stretch, many: bool) -> bool {
        let settled = self.written() != Written::InPart;
        let both_mapped = !self.mappings.is_empty() && !other.mappings.is_empty();
        settled
            && self.written() == other.written()
            && (self.mappings == other.mappings || many && both_mapped)
    }
}

fn shows(mapping: &Mapping, start: u64, length: u64) -> bool {
    let first = mapping.memory.0;
    first < start + length && start < first + mapping.size
}

/// Memory as stretches of `pages` pages; the last may be shorter.
pub fn stretches<'b>(bench: &'b Bench, pages: u64) -> impl Iterator<Item = Stretch> + 'b {
    let size = bench.memory().len() as u64;
    let step = pages * PAGE_SIZE;
    (0..size.div_ceil(step)).map(move |index| {
        let start = index * step;
        Stretch::of(bench, start, step.min(size - start))
    })
}

/// More mappings than these are not told one by one.
pub const TOLD_MAX: usize = 64;

/// Memory page by page, with runs of pages alike joined. A page written in part stands by itself.
pub fn runs(bench: &Bench) -> Vec<Stretch> {
    let many = bench.mappings().len() > TOLD_MAX;
    let mut runs: Vec<Stretch> = Vec::new();
    for page in stretches(bench, 1) {
        match runs.last_mut() {
            Some(run) if run.is_like(&page, many) => {
                run.length += page.length;
                run.written_bytes += page.written_bytes;
                if run.mappings != page.mappings {
                    run.mappings = merged(&run.mappings, &page.mappings);
                }
            }
            _ => runs.push(page),
        }
    }
    runs
}

/// What is in either of two lists that rise; in one pass, since there may be thousands on each page.
fn merged(one: &[usize], other: &[usize]) -> Vec<usize> {
    let (mut one, mut other) = (one.iter().peekable(), other.iter().peekable());
    let mut all = Vec::new();
    while let Some(next) = [one.peek(), other.peek()].into_iter().flatten().min() {
        let next = **next;
        one.next_if(|&&index| index == next);
        other.next_if(|&&index| index == next);
        all.push(next);
    }
    all
}

/// `read`, `write` or `read, write`.
pub fn rights_in_words(rights: Rights) -> &'static str {
    match (
        rights.contains(Rights::READ),
        rights.contains(Rights::WRITE),
    ) {
        (true, true) => "read, write",
        (true, false) => "read",
        (false, true) => "write",
        (false, false) => "none",
    }
}

/// The first and the last of `size` addresses.
pub fn range(start: u64, size: u64) -> String {
    format!("{start:#x}..{:#x}", start + (size - 1))
}

fn is_written(bench: &Bench, address: u64) -> bool {
    bench.is_written(MemoryAddress(address))
}

/// How many bytes of a stretch are written. It starts at a page, so whole mark bytes are counted, and single marks behind them.
fn written_bytes(bench: &Bench, start: u64, length: u64) -> u64 {
    let (end, whole) = (start + length, (start + length) / 8);
    let bytes = &bench.marks()[(start / 8) as usize..whole as usize];
    let ones: u64 = bytes.iter().map(|byte| u64::from(byte.count_ones())).sum();
    ones + (whole * 8..end).filter(|at| is_written(bench, *at)).count() as u64
}

/// How many bytes stand in the row around a refused byte.
const ROW: u64 = 16;

/// The row of bytes that holds an address: where it starts, and each byte that was written.
pub fn row_around(bench: &Bench, address: u64) -> (u64, Vec<Option<u8>>) {
    let start = address - address % ROW;
    let end = (start + ROW).min(bench.memory().len() as u64);
    let bytes = (start as usize..end as usize)
        .map(|at| is_written(bench, at as u64).then(|| bench.memory()[at]))
        .collect();
    (start, bytes)
}

#[cfg(test)]
mod tests {
    use super::*;
    use glintbasket::DeviceAddress;

    /// Four pages and a half: the second is written in part, the third wholly; the second and third are mapped.
    fn with_bench(test: impl FnOnce(&Bench)) {
        let (mut memory, mut marks) = (vec![0; 0x4800], vec![0; 0x4800 / 8]);
        let mut bench = Bench::new(&mut memory, &mut marks).unwrap();
        let (low, high) = (MemoryAddress(0x1000), MemoryAddress(0x2000));
        bench.host_write(MemoryAddress(0x1ffe), &[7, 8]).unwrap();
        bench.host_write(high, &[9; 4096]).unwrap();
        bench
            .map(low, DeviceAddress(0), 0x2000, Rights::READ)
            .unwrap();
        bench
            .map(high, DeviceAddress(0x8000), 0x1000, Rights::WRITE)
            .unwrap();
        test(&bench);
    }

    #[test]
    fn pages_alike_are_one_run() {
        with_bench(|bench| {
            let runs = runs(bench);
            let told: Vec<_> = runs.iter().map(|r| (r.start, r.length)).collect();
            let expected = [
                (0, 0x1000),
                (0x1000, 0x1000),
                (0x2000, 0x1000),
                (0x3000, 0x1800),
            ];
            assert_eq!(told, expected);
            let written: Vec<_> = runs.iter().map(Stretch::written).collect();
            use Written::*;
            assert_eq!(written, [Not, InPart, Wholly, Not]);
            assert_eq!(runs[1].written_bytes, 2);
            assert_eq!(runs[3].pages(), 2);
        });
    }

    #[test]
    fn a_page_has_the_mappings_that_show_it() {
        with_bench(|bench| {
            let pages: Vec<_> = stretches(bench, 1).collect();
            let none: [usize; 0] = [];
            assert_eq!(pages[0].mappings, none);
            assert_eq!(pages[1].mappings, [0]);
            assert_eq!(pages[2].mappings, [0, 1]);
            assert_eq!(pages[3].mappings, none);
            assert_eq!(pages[2].rights(bench), Rights::READ | Rights::WRITE);
        });
    }

    /// Of more mappings than are told one by one, each of which shows a page of its own, the pages are one run.
    #[test]
    fn pages_of_many_mappings_are_one_run() {
        let count = TOLD_MAX as u64 + 1;
        let mut bench = Bench::builder()
            .record_count(count as usize)
            .own(vec![0; (count + 1) as usize * 0x1000])
            .unwrap();
        for page in 0..count {
            assert_eq!(runs(&bench).len() as u64, page + 1);
            let (memory, device) = (MemoryAddress(page << 12), DeviceAddress(page << 12));
            bench.map(memory, device, 0x1000, Rights::READ).unwrap();
        }
        let runs = runs(&bench);
        let told: Vec<_> = runs.iter().map(|r| (r.pages(), r.mappings.len())).collect();
        assert_eq!(told, [(count, count as usize), (1, 0)]);
    }

    #[test]
    fn lists_are_merged_in_order() {
        assert_eq!(merged(&[0, 2, 5], &[1, 2, 9]), [0, 1, 2, 5, 9]);
        assert_eq!(merged(&[], &[3]), [3]);
    }

    #[test]
    fn larger_stretches_cover_all_memory() {
        with_bench(|bench| {
            let told: Vec<_> = stretches(bench, 4).map(|s| (s.start, s.length)).collect();
            assert_eq!(told, [(0, 0x4000), (0x4000, 0x800)]);
        });
    }

    #[test]
    fn a_row_tells_the_written_bytes() {
        with_bench(|bench| {
            let (start, bytes) = row_around(bench, 0x1fff);
            assert_eq!(start, 0x1ff0);
            let mut expected = vec![None; 14];
            expected.extend([Some(7), Some(8)]);
            assert_eq!(bytes, expected);
        });
    }

    #[test]
    fn no_memory_has_no_runs() {
        let bench = Bench::new(&mut [], &mut []).map(|bench| runs(&bench).len());
        assert_eq!(bench, Ok(0));
    }
}
