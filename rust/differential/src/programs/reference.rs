//! One call on the second program.

use glint_reference::answer::Refused;
use glint_reference::bench::{self, DeviceAddress, MemoryAddress};
use glint_reference::moves::{self, NotFound};
use glint_reference::{lines, parts, queues, registers, requests};

use super::on_numbers;
use crate::call::{Answer, Call};

/// A call on the second program with the first `records` of the state's, which changes them and the
/// state in place.
pub fn refer(
    call: &Call,
    state: &mut bench::State,
    records: usize,
    memory: &mut [u8],
    marks: &mut [u8],
    buffer: &mut [u8],
) -> Answer {
    let not_lent = state.records.split_off(records);
    let answer = with_all_records(call, state, memory, marks, buffer);
    state.records.extend(not_lent);
    answer
}

fn with_all_records(
    call: &Call,
    state: &mut bench::State,
    memory: &mut [u8],
    marks: &mut [u8],
    buffer: &mut [u8],
) -> Answer {
    let answer = match *call {
        Call::FreshStart { card } => bench::fresh_start(state, card.words().into(), memory, marks),
        Call::Request { target, number } => {
            let (target, number) = (u64::from(target), u64::from(number));
            requests::request(state, memory, marks, target, number, buffer)
        }
        Call::LookUp { device } => return look_up(state, DeviceAddress(device)),
        Call::ShowLine { index, line } => return show_line(state, index.into(), line.into()),
        Call::WalkQueue { queue, last } => {
            return on_numbers(buffer, |numbers| {
                let (queue, last) = (u64::from(queue), u64::from(last));
                match queues::walk_queue(state, memory, marks, queue, last, numbers) {
                    Ok(walked) => Answer::Walked {
                        buffers: walked.buffers,
                        index: walked.index,
                    },
                    Err(refused) => refusal(refused),
                }
            })
        }
        Call::CardRead { device } => {
            moves::card_read(state, memory, marks, DeviceAddress(device), buffer)
        }
        Call::CardWrite { device } => {
            moves::card_write(state, memory, marks, DeviceAddress(device), buffer)
        }
        Call::HostStore { address } => {
            moves::host_store(state, memory, marks, MemoryAddress(address), buffer)
        }
        Call::HostLoad { address } => {
            moves::host_load(state, memory, marks, MemoryAddress(address), buffer)
        }
        Call::Forget { address, length } => {
            moves::forget(state, memory, marks, MemoryAddress(address), length)
        }
        Call::SetRegister { kind, selector } => {
            registers::set_register(state, kind, selector, buffer)
        }
        Call::ReadRegister { kind, selector } => {
            registers::read_register(state, kind, selector, buffer)
        }
        Call::LoadParts => parts::load_parts(state, buffer),
        Call::SaveParts => parts::save_parts(state, buffer),
        Call::Stop => bench::stop(state),
        Call::Start => bench::start(state),
        Call::Walk { place } => return walk(buffer, place),
    };
    match answer {
        Ok(result) => Answer::Done(result),
        Err(refused) => refusal(refused),
    }
}

fn refusal(refused: Refused) -> Answer {
    Answer::Refused {
        code: refused.refusal.number(),
        place: refused.place,
    }
}

fn show_line(state: &bench::State, index: u64, line: u64) -> Answer {
    match lines::show_line(state, index, line) {
        Ok(line) => Answer::Line {
            number: line.number,
            masked: line.is_masked(),
            pending: line.is_pending(),
            tally: line.tally,
        },
        Err(refused) => refusal(refused),
    }
}

fn look_up(state: &bench::State, device: DeviceAddress) -> Answer {
    match moves::look_up(state, device) {
        Ok(found) => Answer::Found {
            address: found.memory.0,
            rights: found.rights,
            left: found.left,
            probes: found.probes,
        },
        Err(NotFound { refused, probes }) => match (refusal(refused), probes) {
            (Answer::Refused { code: 14, place }, Some(probes)) => {
                Answer::NotFound { place, probes }
            }
            (other, probes) => {
                assert_eq!(probes, None, "{other:?}");
                other
            }
        },
    }
}

fn walk(stream: &[u8], place: u64) -> Answer {
    match parts::step(stream, place) {
        Err(refused) => refusal(refused),
        Ok(None) => Answer::End,
        Ok(Some(part)) => {
            // The value is the stretch of the stream from 16 bytes behind the place to the next.
            let start = place as usize + parts::HEADER;
            assert_eq!(part.value, &stream[start..part.next as usize]);
            Answer::Part {
                kind: part.kind,
                flags: part.flags,
                selector: part.selector,
                next: part.next,
            }
        }
    }
}
