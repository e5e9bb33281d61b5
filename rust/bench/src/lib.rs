//! The benchmark: what the emulator's calls take, against `memcpy`, against plain Rust, and
//! against memories from elsewhere that a program brings along.

#![forbid(unsafe_code)]

mod calls;
mod check_save;
mod device_file;
mod measures;
mod plain;
mod rival;
mod search;
mod timing;
mod world;

pub use calls::{Call, Move, Program};
pub use measures::{measures, Measure};
pub use rival::{Memory, Rival};
pub use world::World;

use timing::Contender;

/// Measures every call; moves against these rivals too.
pub fn measure_all(rivals: &[Rival]) {
    if cfg!(debug_assertions) {
        println!("# not a release build: the ratios mean nothing");
    }
    println!("# buffers, memory and marks were cleared first: every page was written before time was taken");
    println!("# they are not cleared between calls: caches are warm, for all programs alike");
    println!(
        "# every register is set (load and save of 41 bytes: status alone); all memory is written"
    );
    println!(
        "# best of {} batches of {} us, the programs in turn; times in ns for one call",
        timing::ROUNDS,
        timing::BATCH.as_micros()
    );
    println!("# every record is in use, but for one where a map is made");
    println!("# ratio NAME SIZE RECORDS VALUE");
    for measure in measures() {
        show(measure, rivals);
    }
    check_save::show();
    device_file::show();
    search::show();
}

fn show(mut measure: Measure, rivals: &[Rival]) {
    let mut contenders = contenders(&mut measure, rivals);
    let best = timing::best_times(&mut contenders, &mut measure.world);
    let (name, size) = (measure.call.name, measure.world.size);
    let records = measure.world.records.len();
    for (other, time) in contenders.iter().zip(&best).skip(1) {
        let ratio = best[0] / time;
        println!("ratio {name}/{} {size} {records} {ratio:.2}", other.name);
    }
    print!("time {name} {size} {records}");
    for (contender, time) in contenders.iter().zip(&best) {
        print!(" {} {time:.1}", contender.name);
    }
    println!();
}

/// The emulator's program and, behind it, all that it is compared with.
fn contenders(measure: &mut Measure, rivals: &[Rival]) -> Vec<Contender> {
    let (call, world) = (&measure.call, &mut measure.world);
    // A look-up with no mapping finds none; all else is accepted.
    let accepted = (call.emulator)(world, 1);
    assert_eq!(accepted, (call.plain)(world, 1), "{}", call.name);
    assert!(accepted || (call.name == "look-up" && world.held == 0));
    let mut list = Vec::new();
    let mut add = |name, program| list.push(Contender { name, program });
    add("emulator", Box::new(call.emulator));
    add("rust", Box::new(call.plain));
    if let Some(kind) = call.moves {
        for (name, program) in kind.copies() {
            add(name, Box::new(program));
        }
        for rival in rivals {
            let program = rival.program(kind, world).unwrap_or_else(|| {
                let (rival, size, held) = (rival.name, world.size, world.held);
                panic!("{rival} moves other bytes: {} {size} {held}", call.name)
            });
            add(rival.name, program);
        }
    }
    list
}

#[cfg(test)]
mod tests {
    use super::*;
    use crate::world::{unmap_request, PAGE};
    use std::collections::BTreeSet;

    use glintbasket::raw::{self, Mapping, State, LINES};
    use glintbasket::{
        Bench, DeviceAddress, IommuType, MemoryAddress, OwnedBench, Rights, Target, DEVICE_LIMIT,
    };

    /// What a call answers and leaves, stale records too.
    #[derive(PartialEq)]
    struct Left {
        accepted: bool,
        buffer: Vec<u8>,
        memory: Vec<u8>,
        marks: Vec<u8>,
        records: Vec<Mapping>,
        state: State,
        numbers: Vec<u64>,
    }

    fn left(measure: &Measure, program: Program) -> Left {
        let given = &measure.world;
        let mut world = World::new(given.records.len(), given.held, given.size.min(65536));
        world.state = given.state;
        world.map = measure.world.map;
        world.unmap = measure.world.unmap;
        world.size = measure.world.size;
        world.numbers = measure.world.numbers.clone();
        let (stream, memory) = (given.buffer.get(), given.memory.get());
        world.buffer.get_mut().copy_from_slice(stream);
        world.memory.get_mut().copy_from_slice(memory);
        let accepted = program(&mut world, 1);
        Left {
            accepted,
            buffer: world.buffer.get().to_vec(),
            memory: world.memory.get().to_vec(),
            marks: world.marks.get().to_vec(),
            records: world.records,
            state: world.state,
            numbers: world.numbers,
        }
    }

    #[test]
    fn the_plain_program_does_what_the_emulator_does() {
        for measure in measures() {
            let emulator = left(&measure, measure.call.emulator);
            let plain = left(&measure, measure.call.plain);
            let (name, held) = (measure.call.name, measure.world.held);
            assert!(emulator == plain, "{name} {held}");
        }
    }

    /// Pages 0 and 1, page 2, and pages 4 and 5, each a mapping, in a container of a type.
    fn three_mappings(iommu_type: IommuType) -> OwnedBench {
        let mut bench = OwnedBench::with_memory(vec![0; 2 * PAGE]).unwrap();
        bench.set_iommu(iommu_type).unwrap();
        for (page, pages) in [(0, 2), (2, 1), (4, 2)] {
            let (device, size) = (DeviceAddress(page * PAGE as u64), pages * PAGE as u64);
            bench
                .map(MemoryAddress(0), device, size, Rights::READ)
                .unwrap();
        }
        bench
    }

    /// Every range of pages, of which only some are accepted.
    #[test]
    fn the_plain_unmap_removes_what_the_emulator_removes() {
        let ranges = (0..7).flat_map(|first| (first + 1..8).map(move |end| (first, end)));
        for (first, end) in ranges {
            for iommu_type in [IommuType::Type1, IommuType::Type1v2] {
                let mut bench = three_mappings(iommu_type);
                let (mut state, mut records) = (*bench.state(), bench.records().to_vec());
                let given = unmap_request((first * PAGE) as u64, (end - first) * PAGE);
                let (mut buffer, mut plain_buffer) = (given, given);
                let emulator = bench.request(Target::CONTAINER, 114, &mut buffer);
                let (memory, marks) = (bench.memory(), bench.marks());
                let plain = plain::request(
                    &mut state,
                    &mut records,
                    memory,
                    marks,
                    0,
                    114,
                    &mut plain_buffer,
                );
                let unmap = format!("{iommu_type}: pages {first} to {end}");
                assert_eq!(
                    plain.map_err(|refused| refused.code),
                    emulator.map_err(|error| error.refusal.number()),
                    "{unmap}"
                );
                assert_eq!(plain_buffer, buffer, "{unmap}");
                assert_eq!((state, &records[..]), (*bench.state(), bench.records()));
            }
        }
    }

    /// Each 16-bit field of the first descriptors and of the ring holds numbers at the edges, or nobody wrote
    /// it; arrays of several lengths.
    #[test]
    fn the_plain_walk_answers_what_the_emulator_answers() {
        let mut answers = BTreeSet::new();
        let mut walked = |world: &World, last| {
            let (state, records) = (&world.state, &world.records);
            let (memory, marks) = (world.memory.get(), world.marks.get());
            for room in [47, 48, 50] {
                let (mut one, mut other) = (vec![7; room], vec![7; room]);
                let emulator = raw::walk_queue(state, records, memory, marks, 0, last, &mut one);
                let outcome = emulator.outcome;
                let expected = match outcome.refused {
                    true => Err((outcome.code, outcome.place)),
                    false => Ok((outcome.result as usize, emulator.index)),
                };
                let plain = plain::walk_queue(state, records, memory, marks, 0, last, &mut other);
                assert_eq!(plain.map_err(|r| (r.code, r.place)), expected);
                assert_eq!(one, other);
                answers.insert(outcome.code);
            }
        };
        let mut world = World::full(1, 0).offering(16);
        let ring = PAGE;
        // Flags and next of the first head's descriptor, which is number 3, and of another; index and heads.
        for at in [
            60,
            62,
            8 * 16 + 12,
            8 * 16 + 14,
            ring + 2,
            ring + 4,
            ring + 6,
        ] {
            let before = [world.memory.get()[at], world.memory.get()[at + 1]];
            for number in [0u16, 1, 3, 4, 5, 7, 16, 17, 255, 256, 257, u16::MAX] {
                world.memory.get_mut()[at..at + 2].copy_from_slice(&number.to_le_bytes());
                for last in [0, 1, 15, 16, 17, u16::MAX] {
                    walked(&world, last);
                }
            }
            world.memory.get_mut()[at..at + 2].copy_from_slice(&before);
            world.marks.get_mut()[at / 8] = !(1 << (at % 8));
            walked(&world, 0);
            world.marks.get_mut()[at / 8] = 255;
        }
        for address in [0, 1 << 47, DEVICE_LIMIT - 16, DEVICE_LIMIT, u64::MAX - 15] {
            for at in [8, 16] {
                let value = &mut world.state.registers.slots[6].bytes;
                let before = *value;
                value[at..at + 8].copy_from_slice(&address.to_le_bytes());
                walked(&world, 0);
                world.state.registers.slots[6].bytes = before;
            }
        }
        // A descriptor that leads to itself.
        world.memory.get_mut()[60..64].copy_from_slice(&[1, 0, 3, 0]);
        walked(&world, 0);
        world.records[0].rights = Rights::WRITE;
        walked(&world, 0);
        world.state.registers.slots[6].bytes[4] = 0;
        walked(&world, 0);
        let expected = [0, 9, 14, 15, 16, 27, 28, 29, 30, 31, 32];
        assert_eq!(answers, BTreeSet::from(expected));
    }

    /// Both ask the same of each interrupt line.
    #[test]
    fn the_plain_program_refuses_the_lines_that_the_emulator_refuses() {
        let world = World::full(1, 1);
        for (place, number) in (0..LINES).flat_map(|i| [-2, -1, 0, i32::MIN].map(|n| (i, n))) {
            let mut state = world.state;
            state.lines[place].number = number;
            let device = world.records[0].device;
            let emulator = raw::look_up(&state, &world.records, device).outcome;
            let plain = plain::look_up(&state, &world.records, device);
            assert_eq!(emulator.refused, number < -1, "{number} at {place}");
            assert_eq!(plain.is_err(), emulator.refused, "{number} at {place}");
        }
    }

    /// A look-up leaves nothing, so that its answer is all there is to compare.
    #[test]
    fn the_plain_look_up_answers_what_the_emulator_answers() {
        for held in [0, 1, 2, 3, 64] {
            let mut world = World::full(held, 1);
            let (memory, marks) = (world.memory.get_mut(), world.marks.get_mut());
            let bench = Bench::resume(world.state, &mut world.records, memory, marks);
            let edges = bench.mappings().iter().flat_map(|m| {
                let (first, end) = (m.device.0, m.device.0 + m.size);
                [first - 1, first, first + 5, end - 1, end]
            });
            for device in edges.chain([0, DEVICE_LIMIT]).map(DeviceAddress) {
                let plain = plain::look_up(&world.state, bench.records(), device);
                assert_eq!(plain, bench.look_up(device), "{device:?} among {held}");
            }
        }
    }
}
