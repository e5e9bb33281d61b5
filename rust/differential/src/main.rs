//! `glint-differential`: so many calls, or for so long, and what was covered.

use std::env;
use std::io::{self, Write};
use std::process::ExitCode;
use std::time::{Duration, Instant, SystemTime, UNIX_EPOCH};

use glint_differential::device_files::{faithful_file, run_files, FileCoverage};
use glint_differential::run::{run_list, Coverage};
use glint_differential::trio::faithful;

const USAGE: &str = "\
usage: glint-differential [--calls N | --seconds N] [--seed N]

Makes generated lists of calls on the emulator, on a twin with other garbage and on the second
program, and compares them after every call; with each list some device files.

  --calls N     at least this many calls (1200000), besides those on device files
  --seconds N   for this long, with a line of progress every five seconds
  --seed N      lists have the seeds from this one on (1; with --seconds, by the clock)

Exit status: 0 if there is no difference and, by --calls, all that must be covered was; 1 if not;
2 if the options are wrong.
";

struct Options {
    calls: u64,
    time: Option<Duration>,
    seed: Option<u64>,
}

fn main() -> ExitCode {
    match options(env::args().skip(1)) {
        Some(options) => run(&options),
        None => {
            eprint!("{USAGE}");
            ExitCode::from(2)
        }
    }
}

fn options(mut arguments: impl Iterator<Item = String>) -> Option<Options> {
    let mut options = Options {
        calls: 1_200_000,
        time: None,
        seed: None,
    };
    while let Some(option) = arguments.next() {
        let number = number(&arguments.next()?)?;
        match option.as_str() {
            "--calls" => options.calls = number,
            "--seconds" => options.time = Some(Duration::from_secs(number)),
            "--seed" => options.seed = Some(number),
            _ => return None,
        }
    }
    Some(options)
}

fn number(word: &str) -> Option<u64> {
    match word.strip_prefix("0x") {
        Some(digits) => u64::from_str_radix(digits, 16).ok(),
        None => word.parse().ok(),
    }
}

/// A run by time goes where none was before.
fn first_seed(options: &Options) -> u64 {
    let by_clock = || {
        let now = SystemTime::now().duration_since(UNIX_EPOCH);
        now.map_or(1, |time| time.as_secs() << 24)
    };
    match (options.seed, options.time) {
        (Some(seed), _) => seed,
        (None, Some(_)) => by_clock(),
        (None, None) => 1,
    }
}

fn run(options: &Options) -> ExitCode {
    let began = Instant::now();
    let mut coverage = Coverage::default();
    let mut files = FileCoverage::default();
    let mut progress = began;
    let mut seed = first_seed(options);
    println!("seeds from {seed:#x} on");
    loop {
        if let Err(difference) = run_list(seed, faithful, &mut coverage) {
            print!("{}", difference.report());
            println!("1 difference, after {} calls", coverage.calls);
            return ExitCode::from(1);
        }
        if let Err(difference) = run_files(seed, faithful_file, &mut files) {
            print!("{}", difference.report());
            println!("1 difference, after {} calls on device files", files.calls);
            return ExitCode::from(1);
        }
        seed = seed.wrapping_add(1);
        let more = match options.time {
            Some(time) => began.elapsed() < time,
            None => coverage.calls < options.calls,
        };
        if !more {
            break;
        }
        if options.time.is_some() && progress.elapsed() >= Duration::from_secs(5) {
            progress = Instant::now();
            let seconds = began.elapsed().as_secs();
            let calls = coverage.calls;
            println!("{seconds} s: {calls} calls, seeds up to {seed:#x}, no difference");
            let _ = io::stdout().flush();
        }
    }
    print!("{}", coverage.pairs.table());
    print!("{}", coverage.damages.table());
    print!("{}", coverage.events.table());
    print!("{}", files.table());
    let mut faults = coverage.pairs.faults();
    faults.extend(coverage.damages.faults());
    faults.extend(coverage.events.faults());
    faults.extend(files.faults());
    for fault in &faults {
        println!("NOT COVERED: {fault}");
    }
    let seconds = began.elapsed().as_secs_f64();
    println!(
        "{} calls, and {} on device files, in {seconds:.1} s, no difference; {} pairs, {} things not covered",
        coverage.calls,
        files.calls,
        coverage.pairs.allowed() + files.allowed(),
        faults.len()
    );
    if faults.is_empty() || options.time.is_some() {
        ExitCode::SUCCESS
    } else {
        ExitCode::from(1)
    }
}
