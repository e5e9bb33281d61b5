//! One call on the emulator.

use glintbasket::raw::{self, Found, Outcome, PartStep, ShownLine, Walked};
use glintbasket::{DeviceAddress, Mapping, MemoryAddress, State};

use super::on_numbers;
use crate::call::{Answer, Call};

/// A call on the emulator, which changes state and records in place.
pub fn emulate(
    call: &Call,
    state: &mut State,
    records: &mut [Mapping],
    memory: &mut [u8],
    marks: &mut [u8],
    buffer: &mut [u8],
) -> Answer {
    told(match *call {
        Call::FreshStart { card } => raw::power_on(state, records, memory, marks, card),
        Call::Request { target, number } => {
            raw::request(state, records, memory, marks, target, number, buffer)
        }
        Call::LookUp { device } => {
            return found(&raw::look_up(state, records, DeviceAddress(device)))
        }
        Call::ShowLine { index, line } => {
            return shown(&raw::show_line(state, records, index, line))
        }
        Call::WalkQueue { queue, last } => {
            return on_numbers(buffer, |numbers| {
                let walked = raw::walk_queue(state, records, memory, marks, queue, last, numbers);
                queue_walked(&walked)
            })
        }
        Call::CardRead { device } => {
            let device = DeviceAddress(device);
            raw::device_read(state, records, memory, marks, device, buffer)
        }
        Call::CardWrite { device } => {
            let device = DeviceAddress(device);
            raw::device_write(state, records, memory, marks, device, buffer)
        }
        Call::HostStore { address } => {
            let address = MemoryAddress(address);
            raw::host_write(state, records, memory, marks, address, buffer)
        }
        Call::HostLoad { address } => {
            let address = MemoryAddress(address);
            raw::host_read(state, records, memory, marks, address, buffer)
        }
        Call::Forget { address, length } => {
            let address = MemoryAddress(address);
            raw::invalidate(state, records, memory, marks, address, length)
        }
        Call::SetRegister { kind, selector } => {
            raw::set_register(state, records, kind, selector, buffer)
        }
        Call::ReadRegister { kind, selector } => {
            raw::read_register(state, records, kind, selector, buffer)
        }
        Call::LoadParts => raw::load_parts(state, records, buffer),
        Call::SaveParts => raw::save_parts(state, records, buffer),
        Call::Stop => raw::stop(state, records),
        Call::Start => raw::start(state, records),
        Call::Walk { place } => return walked(&raw::step(buffer, place as usize), place),
    })
}

/// Numbers that an answer has no use for are 0.
fn told(outcome: Outcome) -> Answer {
    let Outcome {
        refused,
        code,
        place,
        result,
    } = outcome;
    if refused {
        assert_eq!(result, 0, "{outcome:?}");
        let code = u64::from(code);
        return Answer::Refused { code, place };
    }
    assert_eq!((code, place), (0, 0), "{outcome:?}");
    Answer::Done(result)
}

fn found(found: &Found) -> Answer {
    let (address, rights) = (found.address.0, u64::from(found.rights.0));
    let (left, probes) = (found.left, found.probes);
    let answer = told(found.outcome);
    if answer == Answer::Done(0) {
        return Answer::Found {
            address,
            rights,
            left,
            probes,
        };
    }
    assert_eq!((address, rights, left), (0, 0, 0), "{found:?}");
    match answer {
        Answer::Refused { code: 14, place } => Answer::NotFound { place, probes },
        other => {
            assert_eq!(probes, 0, "{found:?}");
            other
        }
    }
}

fn shown(shown: &ShownLine) -> Answer {
    let (masked, pending) = (shown.masked, shown.pending);
    let answer = told(shown.outcome);
    if answer == Answer::Done(0) {
        return Answer::Line {
            number: shown.number.into(),
            masked,
            pending,
            tally: shown.tally.into(),
        };
    }
    assert_eq!((shown.number, shown.tally), (0, 0), "{shown:?}");
    assert!(!masked && !pending, "{shown:?}");
    answer
}

fn queue_walked(walked: &Walked) -> Answer {
    match told(walked.outcome) {
        Answer::Done(buffers) => Answer::Walked {
            buffers,
            index: walked.index.into(),
        },
        refused => {
            assert_eq!(walked.index, 0, "{walked:?}");
            refused
        }
    }
}

/// The step at a place, of which every field is judged: the second program knows kind, flags, selector and next.
fn walked(step: &PartStep, at: u64) -> Answer {
    let nothing = PartStep {
        refused: step.refused,
        end: !step.refused,
        code: step.code,
        place: step.place,
        kind: 0,
        flags: 0,
        selector: 0,
        value_start: 0,
        value_length: 0,
        next: at as usize,
    };
    if step.refused {
        assert_eq!(*step, nothing);
        let (code, place) = (u64::from(step.code), step.place);
        return Answer::Refused { code, place };
    }
    assert_eq!((step.code, step.place), (0, 0), "{step:?}");
    if step.end {
        assert_eq!(*step, nothing);
        return Answer::End;
    }
    let next = step.next as u64;
    assert_eq!(step.value_start as u64, at + 16, "{step:?}");
    assert_eq!(
        (step.value_start + step.value_length) as u64,
        next,
        "{step:?}"
    );
    Answer::Part {
        kind: u64::from(step.kind),
        flags: u64::from(step.flags),
        selector: step.selector,
        next,
    }
}
