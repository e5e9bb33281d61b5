//! A shorter list that still shows a difference.

use crate::call::Step;
use crate::trio::{Fault, Size, Tamper, Trio};

/// The first step of a list at which the programs differ, and how.
pub fn first_difference(
    steps: &[Step],
    size: Size,
    seed: u64,
    tamper: Tamper,
) -> Option<(usize, Fault)> {
    let mut trio = Trio::new(size, seed, tamper);
    for (i, step) in steps.iter().enumerate() {
        if let Err(fault) = trio.step(step) {
            return Some((i, fault));
        }
    }
    None
}

/// Leaves out ever shorter runs of steps, for as long as any difference stays.
pub fn shorten(mut steps: Vec<Step>, size: Size, seed: u64, tamper: Tamper) -> Vec<Step> {
    let mut run = steps.len() / 2;
    while run > 0 {
        let mut from = 0;
        while from + run <= steps.len() {
            let mut fewer = steps.clone();
            fewer.drain(from..from + run);
            match first_difference(&fewer, size, seed, tamper) {
                Some((last, _)) => {
                    fewer.truncate(last + 1);
                    steps = fewer;
                }
                None => from += run,
            }
        }
        run /= 2;
    }
    steps
}
