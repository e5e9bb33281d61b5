//! Reading a device file of the old layout, timed against a plain Rust program that judges the same.

use std::hint::black_box;

use glintbasket::device_file::{
    Content, Header, Property, DTINDEX, DTPATH, FILE_HEADER, INTERRUPT, LIMIT, MAGIC_DT, MAGIC_PCI,
    PCI_BAR_INDEX, PCI_CONFIG_SPACE, PHYS_ADDR, RECORD_HEADER, REGION,
};
use glintbasket::{raw, DeviceFileWriter};

use crate::calls::{repeat, Accepted};
use crate::timing::{best_times, Contender};
use crate::world::World;

/// Prints the ratio and the times for a file of a few records, and for the longest.
pub fn show() {
    for regions in [2, usize::MAX] {
        let mut world = world(regions);
        let mut contenders = [
            Contender {
                name: "emulator",
                program: Box::new(repeat!(|w| {
                    !raw::read_device_file(&w.buffer.get()[..w.size])
                        .outcome
                        .refused
                })),
            },
            Contender {
                name: "rust",
                program: Box::new(repeat!(|w| plain(&w.buffer.get()[..w.size]).is_ok())),
            },
        ];
        assert!(contenders.iter_mut().all(|c| (c.program)(&mut world, 1)));
        let best = best_times(&mut contenders, &mut world);
        let size = world.size;
        println!("ratio device-file/rust {size} 0 {:.2}", best[0] / best[1]);
        println!(
            "time device-file {size} 0 emulator {:.1} rust {:.1}",
            best[0], best[1]
        );
    }
}

/// A file of so many REGIONs with two sub-records each, or as many as go into one, in the buffer.
fn world(regions: usize) -> World {
    let mut world = World::full(0, 0);
    let header = Header {
        magic: MAGIC_PCI,
        version: 1,
        flags: 0,
    };
    let buffer = &mut world.buffer.get_mut()[..LIMIT];
    let mut writer = DeviceFileWriter::start(buffer, header).expect("room for a header");
    let contents = [
        Content::Region {
            flags: 0,
            offset: 0,
            length: 4096,
        },
        Content::DtPath(b"/soc"),
        Content::DtIndex {
            property: Property::Reg,
            index: 0,
        },
    ];
    let mut append = || contents.iter().try_for_each(|c| writer.append_content(c));
    let mut written = 0;
    while written < regions && append().is_ok() {
        written += 1;
    }
    world.size = writer.bytes().len();
    world
}

fn number(bytes: &[u8]) -> u32 {
    u32::from_le_bytes([bytes[0], bytes[1], bytes[2], bytes[3]])
}

/// How many records a file has, or its refusal and place.
fn plain(file: &[u8]) -> Result<u64, (u32, usize)> {
    if file.len() > LIMIT {
        return Err((13, 0));
    }
    if file.len() < FILE_HEADER {
        return Err((18, 0));
    }
    if ![MAGIC_PCI, MAGIC_DT].contains(&number(file)) {
        return Err((33, 0));
    }
    let (mut count, mut place, mut region_end) = (0, FILE_HEADER, 0);
    while place < file.len() {
        let inside = place < region_end;
        let room = if inside {
            &file[place..region_end]
        } else {
            &file[place..]
        };
        if room.len() < RECORD_HEADER {
            return Err((18, place));
        }
        let (kind, length) = (number(room), number(&room[4..]) as usize);
        let (stands_inside, exact, needed) = match kind {
            REGION => (false, false, 28),
            DTPATH => (true, false, 8),
            INTERRUPT => (false, true, 16),
            DTINDEX | PCI_BAR_INDEX => (true, true, 16),
            PCI_CONFIG_SPACE => (true, true, 12),
            PHYS_ADDR => (true, true, 20),
            _ => return Err((20, place)),
        };
        if stands_inside != inside {
            return Err((19, place));
        }
        if length > room.len() {
            return Err((18, place));
        }
        if length < needed || (exact && length > needed) {
            return Err((22, place));
        }
        if kind == DTINDEX && !(1..=4).contains(&number(&room[RECORD_HEADER..])) {
            return Err((22, place));
        }
        if kind == REGION {
            region_end = place + length;
            place += needed;
        } else {
            place += length;
        }
        count += 1;
    }
    Ok(count)
}

#[cfg(test)]
mod tests {
    use super::*;

    fn emulator(file: &[u8]) -> Result<u64, (u32, usize)> {
        let outcome = raw::read_device_file(file).outcome;
        match outcome.refused {
            true => Err((outcome.code, outcome.place as usize)),
            false => Ok(outcome.result),
        }
    }

    #[test]
    fn the_plain_program_says_what_the_emulator_says() {
        let few = world(2);
        let bytes = &few.buffer.get()[..few.size];
        assert_eq!(emulator(bytes), Ok(6));
        for length in 0..=bytes.len() {
            assert_eq!(plain(&bytes[..length]), emulator(&bytes[..length]));
        }
        for at in 0..bytes.len() {
            for byte in 0..=255 {
                let mut damaged = bytes.to_vec();
                damaged[at] = byte;
                assert_eq!(plain(&damaged), emulator(&damaged));
            }
        }
        let longest = world(usize::MAX);
        let bytes = longest.buffer.get();
        for length in [longest.size, LIMIT, LIMIT + 1] {
            assert_eq!(plain(&bytes[..length]), emulator(&bytes[..length]));
        }
        assert!(emulator(&bytes[..longest.size]).is_ok_and(|count| count > 3_000));
    }
}
