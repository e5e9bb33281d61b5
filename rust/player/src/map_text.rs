//! The map of memory as text.

use crate::pages::{range, rights_in_words, row_around, runs, Stretch, Written, TOLD_MAX};
use crate::play::RefusedByte;
use glintbasket::{Bench, IrqIndex, Line, Mapping, PAGE_SIZE};
use std::io::{self, Write};

/// Prints pages, the container's type, mappings, interrupt lines and the last refused byte.
pub fn print(out: &mut impl Write, bench: &Bench, refused: Option<&RefusedByte>) -> io::Result<()> {
    print_pages(out, bench)?;
    writeln!(out)?;
    writeln!(out, "container: {}", container_in_words(bench))?;
    print_mappings(out, bench.mappings())?;
    print_lines(out, bench)?;
    writeln!(out)?;
    print_refused(out, bench, refused)
}

fn print_pages(out: &mut impl Write, bench: &Bench) -> io::Result<()> {
    let size = bench.memory().len() as u64;
    let pages = size.div_ceil(PAGE_SIZE);
    writeln!(
        out,
        "memory: {size} bytes, pages of {PAGE_SIZE} bytes: {pages}"
    )?;
    if pages == 0 {
        return Ok(());
    }
    row(out, ["memory", "pages", "written", "mapped by"])?;
    for run in runs(bench) {
        let addresses = range(run.start, run.length);
        let pages = run.pages().to_string();
        let mapped = numbers(&run.mappings);
        row(out, [&addresses, &pages, &written(&run), &mapped])?;
    }
    writeln!(out, "  (unwritten: never written, or forgotten since)")
}

fn row(out: &mut impl Write, [memory, pages, written, mapped]: [&str; 4]) -> io::Result<()> {
    writeln!(out, "  {memory:<24}  {pages:>6}  {written:<28}  {mapped}")
}

fn written(stretch: &Stretch) -> String {
    match stretch.written() {
        Written::Not => "unwritten".to_string(),
        Written::InPart => format!(
            "in part: {} of {} bytes",
            stretch.written_bytes, stretch.length
        ),
        Written::Wholly => "written".to_string(),
    }
}

/// Of more numbers or mappings than are told one by one, so many of the first and of the last are.
const ENDS: usize = 8;

/// Mappings by their numbers from 1, as `1, 3 to 5`, or `-` for none; of many the first and the last, and how many there are.
pub fn numbers(indices: &[usize]) -> String {
    let mut ranges: Vec<(usize, usize)> = Vec::new();
    for number in indices.iter().map(|index| index + 1) {
        match ranges.last_mut() {
            Some((_, last)) if *last + 1 == number => *last = number,
            _ => ranges.push((number, number)),
        }
    }
    if ranges.is_empty() {
        return "-".to_string();
    }
    let mut told: Vec<String> = ranges.iter().map(|&range| told(range)).collect();
    if told.len() > TOLD_MAX {
        told.splice(ENDS..told.len() - ENDS, ["..".to_string()]);
        return format!("{} ({} in all)", told.join(", "), indices.len());
    }
    told.join(", ")
}

fn told((first, last): (usize, usize)) -> String {
    match last - first {
        0 => format!("{first}"),
        1 => format!("{first}, {last}"),
        _ => format!("{first} to {last}"),
    }
}

/// The container's IOMMU type, which says what an unmap removes, and its number.
pub fn container_in_words(bench: &Bench) -> String {
    let iommu_type = bench.iommu_type().expect("a session's state is sound");
    format!("{iommu_type} ({})", iommu_type.number())
}

fn print_mappings(out: &mut impl Write, mappings: &[Mapping]) -> io::Result<()> {
    if mappings.is_empty() {
        return writeln!(out, "mappings: none");
    }
    let bytes: u128 = mappings.iter().map(|m| u128::from(m.size)).sum();
    writeln!(out, "mappings: {}, {bytes} bytes", mappings.len())?;
    for (number, text) in mapping_lines(mappings) {
        writeln!(out, "  {number:>2}  {text}")?;
    }
    Ok(())
}

/// A line for each mapping, with its number; of many for the first and the last, and for those between them one line.
pub fn mapping_lines(mappings: &[Mapping]) -> Vec<(String, String)> {
    let mut lines: Vec<_> = (1..)
        .zip(mappings)
        .map(|(number, mapping): (usize, _)| (number.to_string(), mapping_in_words(mapping)))
        .collect();
    if lines.len() > TOLD_MAX {
        let between = ENDS..lines.len() - ENDS;
        let (first, last) = (&mappings[between.start], &mappings[between.end - 1]);
        let text = format!(
            "{} more, at device {}",
            between.len(),
            range(first.device.0, last.device.0 + last.size - first.device.0)
        );
        lines.splice(between, [("..".to_string(), text)]);
    }
    lines
}

fn mapping_in_words(mapping: &Mapping) -> String {
    let device = range(mapping.device.0, mapping.size);
    let memory = range(mapping.memory.0, mapping.size);
    let rights = rights_in_words(mapping.rights);
    format!("device {device} shows memory {memory}: {rights}")
}

/// A line of text for each interrupt line that is not as a fresh start leaves it.
pub fn irq_lines(bench: &Bench) -> Vec<String> {
    let mut told = Vec::new();
    for index in IrqIndex::ALL {
        for number in 0..index.lines() {
            let line = bench.show_line(index, number);
            let line = line.expect("a session's state is sound, and the index has the line");
            if line != Line::DISABLED {
                told.push(format!(
                    "index {}, line {number}: {}",
                    index.0,
                    line_in_words(&line)
                ));
            }
        }
    }
    told
}

fn line_in_words(line: &Line) -> String {
    let number = match line.event {
        Some(number) => format!("number {number}"),
        None => "no number".to_string(),
    };
    let masked = if line.masked { ", masked" } else { "" };
    let pending = if line.pending { ", pending" } else { "" };
    format!("{number}, tally {}{masked}{pending}", line.tally)
}

fn print_lines(out: &mut impl Write, bench: &Bench) -> io::Result<()> {
    let lines = irq_lines(bench);
    if lines.is_empty() {
        return writeln!(out, "interrupt lines: none set up");
    }
    writeln!(out, "interrupt lines: {} set up", lines.len())?;
    lines.iter().try_for_each(|text| writeln!(out, "  {text}"))
}

fn print_refused(
    out: &mut impl Write,
    bench: &Bench,
    refused: Option<&RefusedByte>,
) -> io::Result<()> {
    let Some(refused) = refused else {
        return writeln!(out, "last refused byte: none");
    };
    writeln!(out, "last refused byte: {}", refused_in_words(refused))?;
    let Some(memory) = refused.memory else {
        return Ok(());
    };
    let (start, bytes) = row_around(bench, memory.0);
    write!(out, "  memory {start:#x} at the end:")?;
    for (offset, byte) in bytes.iter().enumerate() {
        let text = byte.map_or("..".to_string(), |byte| format!("{byte:02x}"));
        let here = start + offset as u64 == memory.0;
        let (open, close) = if here { ("[", "]") } else { (" ", " ") };
        write!(out, "{open}{text}{close}")?;
    }
    writeln!(out, "  (.. is unwritten)")
}

pub fn refused_in_words(refused: &RefusedByte) -> String {
    let device = refused.device.map(|d| format!("device address {d}"));
    let memory = match refused.memory {
        Some(memory) => format!("memory address {memory}"),
        None => "in no mapping".to_string(),
    };
    let place: Vec<String> = device.into_iter().chain([memory]).collect();
    let (line, error) = (refused.line, refused.error);
    format!("line {line}, {error}: {}", place.join(", "))
}

#[cfg(test)]
mod tests {
    use super::*;
    use glintbasket::{DeviceAddress, MemoryAddress, Rights};

    #[test]
    fn numbers_of_mappings_are_told_in_ranges() {
        assert_eq!(numbers(&[]), "-");
        assert_eq!(numbers(&[0]), "1");
        assert_eq!(numbers(&[0, 1]), "1, 2");
        assert_eq!(numbers(&[0, 2, 3, 4, 63]), "1, 3 to 5, 64");
    }

    #[test]
    fn many_numbers_and_mappings_are_told_by_their_ends() {
        let odd: Vec<usize> = (0..2048).map(|i| 2 * i).collect();
        assert_eq!(
            numbers(&odd),
            "1, 3, 5, 7, 9, 11, 13, 15, .., 4081, 4083, 4085, 4087, 4089, 4091, 4093, 4095 (2048 in all)"
        );
        let all: Vec<usize> = (0..4096).collect();
        assert_eq!(numbers(&all), "1 to 4096");

        let mapping = |i: u64| Mapping {
            device: DeviceAddress(i * 0x2000),
            memory: MemoryAddress(0),
            size: 0x1000,
            rights: Rights::READ,
        };
        let mappings: Vec<Mapping> = (0..4096).map(mapping).collect();
        assert_eq!(mapping_lines(&mappings[..64]).len(), 64);
        let lines = mapping_lines(&mappings);
        assert_eq!(lines.len(), 17);
        let between = (
            "..".to_string(),
            "4080 more, at device 0x10000..0x1feefff".to_string(),
        );
        assert_eq!(lines[8], between);
        let last = "device 0x1ffe000..0x1ffefff shows memory 0x0..0xfff: read";
        assert_eq!(lines[16], ("4096".to_string(), last.to_string()));
    }
}
