//! Interrupt lines: what is done to them, and what they show.

mod common;

use common::{bench, refused};
use glintbasket::raw::{self, ShownLine, State, LINES};
use glintbasket::{
    kind, Bench, Card, IrqAction, IrqData, IrqIndex, Line, OwnedBench, Refusal, SAVED_MAX,
};

fn line(event: u32, masked: bool, pending: bool, tally: u32) -> Line {
    Line {
        event: Some(event),
        masked,
        pending,
        tally,
    }
}

fn store(bench: &mut OwnedBench, index: IrqIndex, start: u32, numbers: &[i32]) {
    let data = IrqData::Event(numbers);
    assert_eq!(
        bench.set_irqs(index, start, IrqAction::Trigger, data),
        Ok(())
    );
}

fn all_lines(bench: &Bench) -> Vec<Line> {
    let of_index = |index: IrqIndex| (0..index.lines()).map(move |line| (index, line));
    let lines = IrqIndex::ALL.into_iter().flat_map(of_index);
    lines
        .map(|(index, line)| bench.show_line(index, line).unwrap())
        .collect()
}

#[test]
fn an_automasked_line_notes_what_comes_while_it_is_masked() {
    let mut bench = bench(0);
    let one = IrqData::None(1);
    store(&mut bench, IrqIndex::INTX, 0, &[7]);
    let steps = [
        (IrqAction::Mask, line(7, true, false, 0)),
        (IrqAction::Trigger, line(7, true, true, 0)),
        (IrqAction::Trigger, line(7, true, true, 0)),
        (IrqAction::Unmask, line(7, true, false, 1)),
        (IrqAction::Unmask, line(7, false, false, 1)),
        (IrqAction::Trigger, line(7, true, false, 2)),
    ];
    for (action, after) in steps {
        assert_eq!(bench.set_irqs(IrqIndex::INTX, 0, action, one), Ok(()));
        assert_eq!(bench.show_line(IrqIndex::INTX, 0), Ok(after), "{action:?}");
    }
}

#[test]
fn bytes_other_than_0_mean_their_lines() {
    let mut bench = bench(0);
    store(&mut bench, IrqIndex::MSI, 4, &[1, 2, -1, 4]);
    let data = IrqData::Bool(&[2, 0, 1, 255]);
    assert_eq!(
        bench.set_irqs(IrqIndex::MSI, 4, IrqAction::Trigger, data),
        Ok(())
    );
    let mut expected = [Line::DISABLED; LINES];
    expected[5] = line(1, false, false, 1);
    expected[6] = line(2, false, false, 0);
    expected[8] = line(4, false, false, 1);
    assert_eq!(all_lines(&bench), expected);
}

#[test]
fn refusals_leave_every_line() {
    use IrqAction::{Mask, Trigger, Unmask};
    let mut bench = bench(0);
    store(&mut bench, IrqIndex::MSIX, 0, &[3; 16]);
    let before = *bench.state();
    let none = IrqData::None;
    let cases = [
        (IrqIndex(9), 99, Mask, IrqData::Event(&[1]), Refusal::Flags),
        (IrqIndex(4), 99, Mask, none(0), Refusal::Index),
        (IrqIndex::MSI, 99, Unmask, none(0), Refusal::Flags),
        (IrqIndex::MSI, 9, Trigger, none(0), Refusal::Range),
        (IrqIndex::MSIX, 1, Trigger, none(16), Refusal::Range),
        (IrqIndex::MSIX, u32::MAX, Trigger, none(2), Refusal::Range),
        (IrqIndex::MSIX, 2, Trigger, none(u32::MAX), Refusal::Range),
        (IrqIndex::ERR, 0, Trigger, none(1), Refusal::Range),
        (
            IrqIndex::MSI,
            8,
            Trigger,
            IrqData::Bool(&[]),
            Refusal::Empty,
        ),
        (IrqIndex::INTX, 0, Mask, none(0), Refusal::Empty),
        (
            IrqIndex::MSIX,
            0,
            Trigger,
            IrqData::Event(&[1, 2, -2]),
            Refusal::Value,
        ),
        (
            IrqIndex::MSIX,
            15,
            Trigger,
            IrqData::Event(&[i32::MIN]),
            Refusal::Value,
        ),
    ];
    for (index, start, action, data, refusal) in cases {
        let answer = bench.set_irqs(index, start, action, data);
        assert_eq!(answer, refused(refusal, 0), "{index:?} {data:?}");
        assert_eq!(*bench.state(), before);
    }
}

#[test]
fn an_index_is_disabled_as_a_whole() {
    let mut bench = bench(0);
    for start in [0, 3, 8] {
        store(&mut bench, IrqIndex::INTX, 0, &[9]);
        store(&mut bench, IrqIndex::MSI, 0, &[5; 8]);
        let data = IrqData::None(0);
        let answer = bench.set_irqs(IrqIndex::MSI, start, IrqAction::Trigger, data);
        assert_eq!(answer, Ok(()));
        let mut expected = [Line::DISABLED; LINES];
        expected[0] = line(9, false, false, 0);
        assert_eq!(all_lines(&bench), expected);
    }
    assert_eq!(bench.disable_irqs(IrqIndex::INTX), Ok(()));
    assert_eq!(bench.disable_irqs(IrqIndex::ERR), Ok(()));
    assert_eq!(bench.disable_irqs(IrqIndex(4)), refused(Refusal::Index, 0));
    assert_eq!(all_lines(&bench), [Line::DISABLED; LINES]);
}

#[test]
fn reset_and_a_fresh_start_disable_and_loading_does_not() {
    let mut bench = bench(0);
    store(&mut bench, IrqIndex::MSIX, 15, &[3]);
    let before = bench.state().lines;
    let mut saved = [0; SAVED_MAX];
    let length = bench.save_parts(&mut saved).unwrap();
    bench.load_parts(&saved[..length]).unwrap();
    bench.set_register(kind::DEVICE_STATUS, 0, &[0]).unwrap();
    assert_eq!(bench.state().lines, before);
    bench.reset().unwrap();
    assert_eq!(all_lines(&bench), [Line::DISABLED; LINES]);
    store(&mut bench, IrqIndex::MSIX, 15, &[3]);
    bench.power_on_as(Card::Features128).unwrap();
    assert_eq!(all_lines(&bench), [Line::DISABLED; LINES]);
}

#[test]
fn show_line_knows_the_lines_that_there_are() {
    let bench = bench(0);
    for index in IrqIndex::ALL
        .into_iter()
        .chain([IrqIndex(4), IrqIndex(u32::MAX)])
    {
        let none = refused(Refusal::Index, 0);
        for line in 0..index.lines() {
            assert_eq!(bench.show_line(index, line), Ok(Line::DISABLED));
        }
        assert_eq!(bench.show_line(index, index.lines()), none, "{index:?}");
        assert_eq!(bench.show_line(index, u32::MAX), none, "{index:?}");
    }
}

/// A state with this as its last line.
fn kept(line: raw::Line) -> State {
    let mut state = State::default();
    raw::power_on(&mut state, &[], &[], &mut [], Card::Features64);
    state.lines[LINES - 1] = line;
    state
}

#[test]
fn kept_lines_of_any_values_are_shown_by_the_meaning_of_their_bytes() {
    for number in [-1, 0, i32::MAX] {
        for (masked, pending) in [(0, 1), (1, 0), (2, 255), (1, 1)] {
            let state = kept(raw::Line {
                number,
                tally: u32::MAX,
                masked,
                pending,
            });
            let shown = raw::show_line(&state, &[], 2, 15);
            assert!(!shown.outcome.refused);
            assert_eq!((shown.number, shown.tally), (number, u32::MAX));
            assert_eq!((shown.masked, shown.pending), (masked == 1, pending == 1));
        }
    }
}

#[test]
fn a_number_below_minus_1_is_not_sound() {
    for number in [-2, i32::MIN] {
        let mut state = kept(raw::Line {
            number,
            ..raw::Line::default()
        });
        let shown = raw::show_line(&state, &[], 0, 0);
        let refused = ShownLine {
            outcome: raw::stop(&mut state, &[]),
            number: 0,
            tally: 0,
            masked: false,
            pending: false,
        };
        assert_eq!(shown, refused);
        assert_eq!(shown.outcome.code, Refusal::BadBench.number());
    }
}
