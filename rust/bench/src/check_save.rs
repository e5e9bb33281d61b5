//! Whether a stream is a save, timed against loading the same stream.

use std::hint::black_box;

use glintbasket::{check_save, Card};

use crate::calls::{repeat, Accepted, LOAD};
use crate::timing::{best_times, Contender};
use crate::world::World;

/// Prints the ratio and the times for the shortest and the longest save.
pub fn show() {
    for mut world in [World::full(0, 0).reset().saved(), World::full(0, 0).saved()] {
        let mut contenders = [
            Contender {
                name: "emulator",
                program: Box::new(repeat!(|w| {
                    check_save(Card::Features64, &w.buffer.get()[..w.size]).is_save()
                })),
            },
            Contender {
                name: "load",
                program: Box::new(LOAD.emulator),
            },
        ];
        assert!((contenders[0].program)(&mut world, 1));
        let best = best_times(&mut contenders, &mut world);
        let size = world.size;
        println!("ratio check-save/load {size} 0 {:.2}", best[0] / best[1]);
        println!(
            "time check-save {size} 0 emulator {:.1} load {:.1}",
            best[0], best[1]
        );
    }
}
