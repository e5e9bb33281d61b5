//! Every order of two actions on one line, for each kind of index and lines of many values: after each
//! of them the emulator, its twin and the second program have the same line, and show it alike.

use glint_differential::call::{Answer, Call, Kept, Lent, Made, Step};
use glint_differential::interrupts::{BOOL, EVENT, MASK, NONE, SET_IRQS, TRIGGER, UNMASK};
use glint_differential::trio::{faithful, Size, Trio};
use glintbasket::raw::Line;
use glintbasket::{Card, State};

/// Flags, count and data. What is not for an index is refused, and leaves the line.
const ACTIONS: [(u64, u32, &[u8]); 13] = [
    (NONE | TRIGGER, 1, &[]),
    (NONE | MASK, 1, &[]),
    (NONE | UNMASK, 1, &[]),
    (BOOL | TRIGGER, 1, &[2]),
    (BOOL | TRIGGER, 1, &[0]),
    (BOOL | MASK, 1, &[1]),
    (BOOL | UNMASK, 1, &[255]),
    (BOOL | UNMASK, 1, &[0]),
    (EVENT | TRIGGER, 1, &[7, 0, 0, 0]),
    (EVENT | TRIGGER, 1, &[0xff; 4]),
    (EVENT | TRIGGER, 1, &[0xfe, 0xff, 0xff, 0xff]),
    (EVENT | MASK, 1, &[7, 0, 0, 0]),
    (NONE | TRIGGER, 0, &[]),
];

/// Index, line, and the line's place among all.
const PLACES: [(u32, u32, usize); 3] = [(0, 0, 0), (1, 7, 8), (2, 3, 12)];

fn lines() -> Vec<Line> {
    let mut lines = Vec::new();
    for number in [-1, 0, i32::MAX] {
        for tally in [0, u32::MAX] {
            for masked in [0, 1, 2] {
                lines.extend([0, 1, 255].map(|pending| Line {
                    number,
                    tally,
                    masked,
                    pending,
                }));
            }
        }
    }
    lines
}

fn make(trio: &mut Trio, call: Call, buffer: Vec<u8>) -> Answer {
    let step = Step::Make(Box::new(Made {
        call,
        buffer,
        lent: Lent {
            records: 0,
            memory: 0,
            marks: 0,
        },
        given: None,
    }));
    let answer = trio
        .step(&step)
        .unwrap_or_else(|fault| panic!("{step}: {fault}"));
    answer.expect("a call has an answer")
}

fn install(trio: &mut Trio, state: State) {
    let kept = Kept {
        state,
        records: Vec::new(),
    };
    assert_eq!(trio.step(&Step::Install(Box::new(kept))), Ok(None));
}

/// The request, and what is shown of the line afterwards.
fn act(trio: &mut Trio, action: usize, (index, line, _): (u32, u32, usize)) -> Answer {
    let (flags, count, data) = ACTIONS[action];
    let argsz = 20 + data.len() as u32;
    let fields = [argsz, flags as u32, index, line, count];
    let mut buffer: Vec<u8> = fields.into_iter().flat_map(u32::to_le_bytes).collect();
    buffer.extend(data);
    make(trio, SET_IRQS, buffer);
    make(trio, Call::ShowLine { index, line }, Vec::new())
}

#[test]
fn every_order_of_two_actions_on_a_line() {
    let size = Size {
        records: 0,
        memory: 0,
    };
    let mut trio = Trio::new(size, 1, faithful);
    let card = Card::Features64;
    assert_eq!(
        make(&mut trio, Call::FreshStart { card }, Vec::new()),
        Answer::Done(0)
    );
    let fresh = trio.kept().state;
    let mut shown = 0;
    for place in PLACES {
        for line in lines() {
            for first in 0..ACTIONS.len() {
                for second in 0..ACTIONS.len() {
                    let mut state = fresh;
                    state.lines[place.2] = line;
                    install(&mut trio, state);
                    for action in [first, second] {
                        let answer = act(&mut trio, action, place);
                        assert!(matches!(answer, Answer::Line { .. }), "{answer:?}");
                        shown += 1;
                    }
                }
            }
        }
    }
    assert_eq!(shown, 3 * 54 * 13 * 13 * 2);
}
