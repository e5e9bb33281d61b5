//! The benchmark without any rival from elsewhere, and single calls for a profiler.

#![forbid(unsafe_code)]

use std::env;
use std::process::ExitCode;

use glint_bench::{measure_all, measures};

fn main() -> ExitCode {
    let arguments: Vec<String> = env::args().skip(1).collect();
    if arguments.is_empty() {
        measure_all(&[]);
        return ExitCode::SUCCESS;
    }
    match call_alone(&arguments) {
        Some(()) => ExitCode::SUCCESS,
        None => {
            eprintln!("usage: glint-bench [[--plain] --call NAME SIZE RECORDS COUNT]");
            ExitCode::from(2)
        }
    }
}

/// Makes one call over and over, for a profiler.
fn call_alone(arguments: &[String]) -> Option<()> {
    let plain = arguments.first()? == "--plain";
    let rest = &arguments[plain as usize..];
    let [option, name, size, records, count] = rest else {
        return None;
    };
    let (size, records): (usize, usize) = (size.parse().ok()?, records.parse().ok()?);
    if option != "--call" {
        return None;
    }
    let mut measure = measures().into_iter().find(|measure| {
        let world = &measure.world;
        measure.call.name == name && world.size == size && world.records.len() == records
    })?;
    let program = if plain {
        measure.call.plain
    } else {
        measure.call.emulator
    };
    program(&mut measure.world, count.parse().ok()?);
    Some(())
}
