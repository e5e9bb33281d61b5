//! Which answers the rules (docs/RULES.md) allow each call, as data. Every pair must occur, and no
//! other may.

use std::fmt::Write;

use glintbasket::State;

use crate::call::{Answer, Call};

/// An accepted call; for the walker, a part.
const DONE: usize = 0;
/// The walker's end. Between the two stand the refusals by their numbers.
const END: usize = 34;
/// A look-up's 14 with no mapping held, so that nothing was looked at.
const NONE_HELD: usize = 35;

/// The last one stands for every other number.
const ANSWERS: usize = 37;

/// A call and its answers; after 1, in the order of its checks.
type Row = (&'static str, &'static [usize]);

#[rustfmt::skip]
pub const ROWS: [Row; 33] = [
    ("fresh start",           &[DONE, 1]),
    ("request not listed",    &[1, 2]),
    ("container 100",         &[DONE, 1]),
    ("container 101",         &[DONE, 1, 3]),
    ("102, none held",        &[DONE, 1, 3, 5]),
    ("102, mappings held",    &[1, 3, 5]),
    ("container 112",         &[DONE, 1, 3, 4]),
    ("container 113 map",     &[DONE, 1, 3, 4, 5, 8, 7, 9, 10, 11]),
    ("114 unmap, Type1",      &[DONE, 1, 3, 4, 5, 8, 7, 9]),
    ("114 unmap, Type1v2",    &[DONE, 1, 3, 4, 5, 8, 7, 9, 12]),
    ("114 unmap, no type",    &[1]),
    ("device 107",            &[DONE, 1, 3, 4]),
    ("device 108",            &[DONE, 1, 3, 4, 6]),
    ("device 109",            &[DONE, 1, 3, 4, 6]),
    ("device 110 lines",      &[DONE, 1, 3, 4, 5, 6, 9, 8, 22]),
    ("device 111 reset",      &[DONE, 1]),
    ("look-up",               &[DONE, 1, 9, 14, NONE_HELD]),
    ("show line",             &[DONE, 1, 6]),
    ("walk queue, card 64",   &[DONE, 1, 6, 28, 9, 14, 15, 16, 29, 30, 32, 31, 27]),
    ("walk queue, card 128",  &[DONE, 1, 6, 28, 9, 14, 15, 16, 29, 30, 32, 31, 27]),
    ("walk queue, no card",   &[1]),
    ("card read",             &[DONE, 1, 13, 9, 14, 15, 16]),
    ("card write",            &[DONE, 1, 13, 9, 14, 15]),
    ("host store",            &[DONE, 1, 13, 9]),
    ("host load",             &[DONE, 1, 13, 9, 16]),
    ("forget",                &[DONE, 1, 9]),
    ("set register",          &[DONE, 1, 20, 26, 19, 6, 22, 23]),
    ("read register",         &[DONE, 1, 20, 19, 6, 25, 27]),
    ("load parts",            &[DONE, 1, 17, 13, 18, 19, 20, 6, 22, 21, 23, 24]),
    ("save parts",            &[DONE, 1, 17, 27]),
    ("stop",                  &[DONE, 1]),
    ("start",                 &[DONE, 1]),
    ("walker step",           &[DONE, END, 18, 19]),
];

/// Counts each pair of a call and an answer.
pub struct Pairs {
    counts: [[u64; ANSWERS]; ROWS.len()],
}

/// The row of a call on a state: those of requests 102 and 114 and of a walk go by it.
pub fn row_of(call: &Call, state: &State) -> usize {
    let name = match *call {
        Call::FreshStart { .. } => "fresh start",
        Call::Request {
            target: 0, number, ..
        } => match number {
            100 => "container 100",
            101 => "container 101",
            102 if state.count == 0 => "102, none held",
            102 => "102, mappings held",
            112 => "container 112",
            113 => "container 113 map",
            114 => match state.iommu_type {
                1 => "114 unmap, Type1",
                3 => "114 unmap, Type1v2",
                _ => "114 unmap, no type",
            },
            _ => "request not listed",
        },
        Call::Request {
            target: 1, number, ..
        } => match number {
            107 => "device 107",
            108 => "device 108",
            109 => "device 109",
            110 => "device 110 lines",
            111 => "device 111 reset",
            _ => "request not listed",
        },
        Call::Request { .. } => "request not listed",
        Call::LookUp { .. } => "look-up",
        Call::ShowLine { .. } => "show line",
        Call::WalkQueue { .. } => match state.words {
            1 => "walk queue, card 64",
            2 => "walk queue, card 128",
            _ => "walk queue, no card",
        },
        Call::CardRead { .. } => "card read",
        Call::CardWrite { .. } => "card write",
        Call::HostStore { .. } => "host store",
        Call::HostLoad { .. } => "host load",
        Call::Forget { .. } => "forget",
        Call::SetRegister { .. } => "set register",
        Call::ReadRegister { .. } => "read register",
        Call::LoadParts => "load parts",
        Call::SaveParts => "save parts",
        Call::Stop => "stop",
        Call::Start => "start",
        Call::Walk { .. } => "walker step",
    };
    ROWS.iter().position(|row| row.0 == name).expect("a row")
}

fn shown(answer: usize) -> String {
    match answer {
        DONE => "done".to_string(),
        END => "end".to_string(),
        NONE_HELD => "14 (none held)".to_string(),
        refusal => refusal.to_string(),
    }
}

impl Default for Pairs {
    fn default() -> Pairs {
        Pairs {
            counts: [[0; ANSWERS]; ROWS.len()],
        }
    }
}

impl Pairs {
    /// Counts an answer of a [row](row_of).
    pub fn count(&mut self, row: usize, answer: &Answer) {
        let column = match *answer {
            Answer::Done(_)
            | Answer::Found { .. }
            | Answer::Line { .. }
            | Answer::Walked { .. }
            | Answer::Part { .. } => DONE,
            Answer::End => END,
            Answer::Refused { code, .. } => code as usize,
            Answer::NotFound { probes: 0, .. } => NONE_HELD,
            Answer::NotFound { .. } => 14,
        };
        self.counts[row][column.min(ANSWERS - 1)] += 1;
    }

    /// A line a call: each allowed answer and how often it came.
    pub fn table(&self) -> String {
        let mut table = String::new();
        for (row, (name, allowed)) in ROWS.iter().enumerate() {
            write!(table, "{name:<22}").unwrap();
            for answer in *allowed {
                let name = shown(*answer);
                write!(table, " {name}: {}", self.counts[row][*answer]).unwrap();
            }
            table.push('\n');
        }
        table
    }

    pub fn allowed(&self) -> usize {
        ROWS.iter().map(|row| row.1.len()).sum()
    }

    /// The pairs that are allowed and did not occur, and those that occurred and are not allowed.
    pub fn faults(&self) -> Vec<String> {
        let mut faults = Vec::new();
        for (row, (name, allowed)) in ROWS.iter().enumerate() {
            for answer in 0..ANSWERS {
                let count = self.counts[row][answer];
                let answer_name = shown(answer);
                match (allowed.contains(&answer), count) {
                    (true, 0) => faults.push(format!("{name} never gave {answer_name}")),
                    (false, 1..) => faults.push(format!("{name} gave {answer_name}")),
                    _ => {}
                }
            }
        }
        faults
    }
}
