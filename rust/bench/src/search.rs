//! What the search of a look-up takes by itself: a call that asks for soundness alone is taken off.

use std::hint::black_box;
use std::iter;

use glintbasket::raw as emulator;
use glintbasket::DeviceAddress;

use crate::calls::{repeat, Accepted, LOOK_UP};
use crate::timing::{best_times, Contender};
use crate::world::World;

/// Prints the times and probes of the shortest and the longest search by the number of records, and
/// the ratio of the longest to that of a single record.
pub fn show() {
    println!("# search: what a look-up takes above a stop on the same records, which asks for soundness alone");
    let mut single = None;
    for records in [1, 64, 4096] {
        let mut world = World::full(records, 1);
        let ends = ends(&world);
        let times = times(&mut world, &ends);
        let (size, longest) = (world.size, times[times.len() - 1]);
        let ratio = longest / *single.get_or_insert(longest);
        println!("ratio search/single {size} {records} {ratio:.2}");
        for (device, time) in ends.into_iter().zip(times) {
            let probes = probes(&world, device);
            println!("time search {size} {records} emulator {time:.1} probes {probes}");
        }
    }
}

/// Where a search ends soonest and latest: in the mapping that it looks at first, and in the lowest.
/// Of a single one these are the same.
fn ends(world: &World) -> Vec<DeviceAddress> {
    let mut ends = vec![
        world.records[world.held / 2].device,
        world.records[0].device,
    ];
    ends.dedup();
    ends
}

fn probes(world: &World, device: DeviceAddress) -> u64 {
    emulator::look_up(&world.state, &world.records, device).probes
}

/// What the searches for these addresses take.
fn times(world: &mut World, devices: &[DeviceAddress]) -> Vec<f64> {
    let soundness = Contender {
        name: "stop",
        program: Box::new(repeat!(|w| {
            !emulator::stop(&mut w.state, &w.records).refused
        })),
    };
    let look_ups = devices.iter().map(|&device| Contender {
        name: LOOK_UP.name,
        program: Box::new(move |world: &mut World, count| {
            world.device = device;
            (LOOK_UP.emulator)(world, count)
        }),
    });
    let mut contenders: Vec<Contender> = iter::once(soundness).chain(look_ups).collect();
    let best = best_times(&mut contenders, world);
    best[1..].iter().map(|time| time - best[0]).collect()
}

#[cfg(test)]
mod tests {
    use super::*;

    #[test]
    fn a_search_ends_at_once_or_after_as_many_probes_as_there_can_be() {
        let expected = [(1, vec![1]), (64, vec![1, 7]), (4096, vec![1, 13])];
        for (records, expected) in expected {
            let world = World::full(records, 1);
            let ends = ends(&world).into_iter();
            let counts: Vec<u64> = ends.map(|device| probes(&world, device)).collect();
            assert_eq!(counts, expected, "{records} records");
        }
    }
}
