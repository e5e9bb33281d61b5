//! Which answers the rules (docs/RULES.md, section 9) allow each call on device files, and the cases
//! that are easily got wrong. Each must occur, and no other answer may.

use std::fmt::Write;

use glintbasket::raw;

use super::{FileAnswer, FileCall};

const DONE: usize = 0;
/// A record past the last. Between the two stand the refusals by their numbers.
const END: usize = 34;
/// The last one stands for every other number.
const ANSWERS: usize = 36;

/// A call and its answers, in the order of its checks.
type Row = (&'static str, &'static [usize]);

#[rustfmt::skip]
const ROWS: [Row; 6] = [
    ("read device file",      &[DONE, 13, 18, 33, 20, 19, 22]),
    ("read device record",    &[DONE, END, 13, 18, 33, 20, 19, 22]),
    ("start device file",     &[DONE, 13, 33, 27]),
    ("append, bad lengths",   &[13, 18]),
    ("append to a bad file",  &[18, 33, 20, 19, 22]),
    ("append to a good file", &[DONE, 20, 19, 22, 27]),
];

#[rustfmt::skip]
const CASES: [&str; 46] = [
    "file of no records read",
    "file of 65,536 bytes read",
    "file of 65,537 bytes gives 13",
    "header of 11 bytes gives 18",
    "1 to 7 bytes left in the file give 18",
    "1 to 7 bytes left in a REGION give 18, with 8 or more behind it",
    "8 bytes left in a REGION are judged as a record",
    "length past the file gives 18",
    "length past the REGION, and not past the file, gives 18",
    "length whose end is past 2^32 gives 18",
    "REGION of length 28 with less left gives 18",
    "type 0 gives 20",
    "type 8 gives 20",
    "type past its low byte gives 20",
    "20 of a record whose length is past the room",
    "sub-record where no REGION stands before it gives 19",
    "sub-record where a REGION ends gives 19",
    "REGION in a REGION gives 19",
    "INTERRUPT in a REGION gives 19",
    "19 of a record whose length is past the room",
    "REGION of length 27 gives 22",
    "length of 0 gives 22",
    "length of 7 gives 22",
    "length of a type too short by 1 to 4 gives 22",
    "length of a type too long gives 22",
    "property 0 gives 22",
    "property 5 gives 22",
    "property 4 read",
    "path of no bytes read",
    "REGION without sub-records read",
    "record 2^64 - 1 is the end",
    "record behind the last is the end",
    "start into 12 bytes",
    "start into 65,536 bytes",
    "append into just enough room",
    "append with a byte too few gives 27",
    "append that makes a file of 65,536 bytes",
    "append to the last of several REGIONs",
    "append to a REGION with sub-records",
    "append that carries into the second byte of the REGION's length",
    "append of a REGION behind a REGION",
    "append of a sub-record behind an INTERRUPT gives 19",
    "append of a sub-record to no records gives 19",
    "append that is 19 and would be 22",
    "append that is 22 and would be 27",
    "append of a property that is none gives 22",
];

/// What was covered.
pub struct FileCoverage {
    pub calls: u64,
    counts: [[u64; ANSWERS]; ROWS.len()],
    cases: [u64; CASES.len()],
}

impl Default for FileCoverage {
    fn default() -> FileCoverage {
        FileCoverage {
            calls: 0,
            counts: [[0; ANSWERS]; ROWS.len()],
            cases: [0; CASES.len()],
        }
    }
}

fn shown(answer: usize) -> String {
    match answer {
        DONE => "done".to_string(),
        END => "end".to_string(),
        refusal => refusal.to_string(),
    }
}

impl FileCoverage {
    pub fn count(&mut self, call: &FileCall, given: &[u8], answer: &FileAnswer) {
        self.calls += 1;
        let outcome = answer.outcome();
        let column = match answer {
            FileAnswer::Record(record) if record.end => END,
            _ if outcome.refused => outcome.code as usize,
            _ => DONE,
        };
        self.counts[row_of(call, given)][column.min(ANSWERS - 1)] += 1;
        let holds = cases(call, given, answer);
        for (name, _) in holds.iter().filter(|(_, holds)| *holds) {
            let at = CASES.iter().position(|case| case == name);
            self.cases[at.expect("a case of the list")] += 1;
        }
    }

    /// A line a call with each allowed answer, and a line a case, with how often it came.
    pub fn table(&self) -> String {
        let mut table = String::new();
        for (row, (name, allowed)) in ROWS.iter().enumerate() {
            write!(table, "{name:<22}").unwrap();
            for answer in *allowed {
                let name = shown(*answer);
                write!(table, " {name}: {}", self.counts[row][*answer]).unwrap();
            }
            table.push('\n');
        }
        for (case, count) in CASES.iter().zip(self.cases) {
            writeln!(table, "{case}: {count}").unwrap();
        }
        table
    }

    pub fn allowed(&self) -> usize {
        ROWS.iter().map(|row| row.1.len()).sum()
    }

    /// What must occur and did not, and what occurred and may not.
    pub fn faults(&self) -> Vec<String> {
        let mut faults = Vec::new();
        for (row, (name, allowed)) in ROWS.iter().enumerate() {
            for answer in 0..ANSWERS {
                let answer_name = shown(answer);
                match (allowed.contains(&answer), self.counts[row][answer]) {
                    (true, 0) => faults.push(format!("{name} never gave {answer_name}")),
                    (false, 1..) => faults.push(format!("{name} gave {answer_name}")),
                    _ => {}
                }
            }
        }
        let missing = CASES.iter().zip(self.cases).filter(|(_, n)| *n == 0);
        faults.extend(missing.map(|(case, _)| format!("no {case}")));
        faults
    }
}

/// Appends go by whether lengths are good, and then the bytes in use.
fn row_of(call: &FileCall, given: &[u8]) -> usize {
    let name = match call {
        FileCall::Read => "read device file",
        FileCall::Record { .. } => "read device record",
        FileCall::Start { .. } => "start device file",
        FileCall::Append { used, .. } if given.len() > 65_536 || *used > given.len() => {
            "append, bad lengths"
        }
        FileCall::Append { used, .. } => {
            if raw::read_device_file(&given[..*used]).outcome.refused {
                "append to a bad file"
            } else {
                "append to a good file"
            }
        }
    };
    ROWS.iter().position(|row| row.0 == name).expect("a row")
}

type Case = (&'static str, bool);

fn cases(call: &FileCall, given: &[u8], answer: &FileAnswer) -> Vec<Case> {
    match (call, answer) {
        (FileCall::Read, FileAnswer::Read(header)) => match header.outcome.refused {
            true => refused_cases(given, header.outcome.code, header.outcome.place as usize),
            false => vec![
                ("file of no records read", header.outcome.result == 0),
                ("file of 65,536 bytes read", given.len() == 65_536),
            ],
        },
        (FileCall::Record { n }, FileAnswer::Record(record)) if !record.outcome.refused => {
            let read = !record.end;
            let content = &given[record.content_start..][..record.content_length];
            let is_bare = || number(given, record.start + 4) == 28;
            let behind = *n > 0 && !raw::read_device_record(given, *n - 1).end;
            vec![
                (
                    "property 4 read",
                    read && record.kind == 3 && content[0] == 4,
                ),
                (
                    "path of no bytes read",
                    read && record.kind == 2 && content.is_empty(),
                ),
                (
                    "REGION without sub-records read",
                    read && record.kind == 1 && is_bare(),
                ),
                ("record 2^64 - 1 is the end", record.end && *n == u64::MAX),
                ("record behind the last is the end", record.end && behind),
            ]
        }
        (FileCall::Start { .. }, FileAnswer::Written(written)) if !written.outcome.refused => {
            vec![
                ("start into 12 bytes", given.len() == 12),
                ("start into 65,536 bytes", given.len() == 65_536),
            ]
        }
        (
            FileCall::Append {
                used,
                kind,
                content,
            },
            FileAnswer::Written(written),
        ) => append_cases(given, *used, *kind, content, written.outcome.code),
        _ => Vec::new(),
    }
}

fn number(bytes: &[u8], at: usize) -> u32 {
    u32::from_le_bytes(bytes[at..at + 4].try_into().expect("four bytes"))
}

/// Outside records of what reads well before a place: start, type and length.
fn outside(bytes: &[u8], place: usize) -> Vec<(usize, u32, usize)> {
    let mut found = Vec::new();
    let mut start = 12;
    while start < place {
        let length = number(bytes, start + 4) as usize;
        found.push((start, number(bytes, start), length));
        start += length;
    }
    found
}

/// Of a file that is refused at a place.
fn refused_cases(given: &[u8], code: u32, place: usize) -> Vec<Case> {
    let size = given.len();
    if place == 0 {
        return vec![
            (
                "file of 65,537 bytes gives 13",
                code == 13 && size == 65_537,
            ),
            ("header of 11 bytes gives 18", code == 18 && size == 11),
        ];
    }
    let before = outside(given, place);
    let around = before
        .last()
        .filter(|(start, _, length)| start + length > place);
    let end = around.map_or(size, |(start, _, length)| start + length);
    let left = end - place;
    if left < 8 {
        return vec![
            (
                "1 to 7 bytes left in the file give 18",
                around.is_none() && code == 18,
            ),
            (
                "1 to 7 bytes left in a REGION give 18, with 8 or more behind it",
                around.is_some() && code == 18 && size >= end + 8,
            ),
        ];
    }
    let (kind, length) = (number(given, place), number(given, place + 4));
    let past = length as usize > left;
    let inside = around.is_some();
    let property = |is: u32| {
        let right = code == 22 && kind == 3 && length == 16;
        right && number(given, place + 8) == is
    };
    let needed = [0, 28, 8, 16, 16, 12, 16, 20];
    let fixed = |kind: u32| (3..8).contains(&kind).then(|| needed[kind as usize]);
    let wrapped = length.checked_add(place as u32).is_none();
    vec![
        (
            "8 bytes left in a REGION are judged as a record",
            inside && left == 8,
        ),
        (
            "length past the file gives 18",
            !inside && code == 18 && past,
        ),
        (
            "length past the REGION, and not past the file, gives 18",
            inside && code == 18 && past && length as usize <= size - place,
        ),
        (
            "length whose end is past 2^32 gives 18",
            code == 18 && wrapped,
        ),
        (
            "REGION of length 28 with less left gives 18",
            code == 18 && kind == 1 && length == 28,
        ),
        ("type 0 gives 20", code == 20 && kind == 0),
        ("type 8 gives 20", code == 20 && kind == 8),
        (
            "type past its low byte gives 20",
            code == 20 && (1..8).contains(&(kind & 0xff)),
        ),
        (
            "20 of a record whose length is past the room",
            code == 20 && past,
        ),
        (
            "sub-record where no REGION stands before it gives 19",
            code == 19 && !inside && before.iter().all(|(_, kind, _)| *kind != 1),
        ),
        (
            "sub-record where a REGION ends gives 19",
            code == 19 && !inside && before.last().is_some_and(|(_, kind, _)| *kind == 1),
        ),
        ("REGION in a REGION gives 19", code == 19 && kind == 1),
        ("INTERRUPT in a REGION gives 19", code == 19 && kind == 4),
        (
            "19 of a record whose length is past the room",
            code == 19 && past,
        ),
        (
            "REGION of length 27 gives 22",
            code == 22 && kind == 1 && length == 27,
        ),
        ("length of 0 gives 22", code == 22 && length == 0),
        ("length of 7 gives 22", code == 22 && length == 7),
        (
            "length of a type too short by 1 to 4 gives 22",
            code == 22 && fixed(kind).is_some_and(|needed| (needed - 4..needed).contains(&length)),
        ),
        (
            "length of a type too long gives 22",
            code == 22 && fixed(kind).is_some_and(|needed| length > needed),
        ),
        ("property 0 gives 22", property(0)),
        ("property 5 gives 22", property(5)),
    ]
}

/// Of an append with this refusal, or 0.
fn append_cases(given: &[u8], used: usize, kind: u32, content: &[u8], code: u32) -> Vec<Case> {
    let good = used <= given.len() && !raw::read_device_file(&given[..used]).outcome.refused;
    if given.len() > 65_536 || !good {
        return Vec::new();
    }
    let outside = outside(given, used);
    let last = outside.last();
    let regions = outside.iter().filter(|(_, kind, _)| *kind == 1).count();
    let behind_region = last.is_some_and(|(_, kind, _)| *kind == 1);
    let sub = matches!(kind, 2 | 3 | 5..=7);
    let sizes = [20, 0, 8, 8, 4, 8, 12];
    let wrong = (1..8).contains(&kind) && kind != 2 && content.len() != sizes[kind as usize - 1];
    let end = used + 8 + content.len();
    let grown = last.map_or(0, |(_, _, length)| length + 8 + content.len());
    let carries = last.is_some_and(|(_, _, length)| length >> 8 != grown >> 8);
    let done = code == 0;
    vec![
        ("append into just enough room", done && end == given.len()),
        (
            "append with a byte too few gives 27",
            code == 27 && end == given.len() + 1,
        ),
        (
            "append that makes a file of 65,536 bytes",
            done && end == 65_536,
        ),
        (
            "append to the last of several REGIONs",
            done && sub && regions > 1,
        ),
        (
            "append to a REGION with sub-records",
            done && sub && last.is_some_and(|(_, _, length)| *length > 28),
        ),
        (
            "append that carries into the second byte of the REGION's length",
            done && sub && carries,
        ),
        (
            "append of a REGION behind a REGION",
            done && kind == 1 && behind_region,
        ),
        (
            "append of a sub-record behind an INTERRUPT gives 19",
            code == 19 && regions > 0,
        ),
        (
            "append of a sub-record to no records gives 19",
            code == 19 && last.is_none(),
        ),
        ("append that is 19 and would be 22", code == 19 && wrong),
        (
            "append that is 22 and would be 27",
            code == 22 && end > given.len(),
        ),
        (
            "append of a property that is none gives 22",
            code == 22 && kind == 3 && !wrong,
        ),
    ]
}
