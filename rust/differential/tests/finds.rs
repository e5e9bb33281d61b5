//! That a wrong emulator would be found: answers are changed on their way, and the program must
//! notice and shorten the list.

use std::ops::RangeInclusive;

use glint_differential::call::{Answer, Call};
use glint_differential::interrupts::{event_at, Fields, BOOL, EVENT, SET_IRQS, TRIGGER};
use glint_differential::run::{run_list, Coverage, Difference};
use glint_differential::trio::{faithful, Given, Left, Tamper};
use glint_reference::bytes::{number_at, put_number};
use glint_reference::lines::INDICES;
use glintbasket::raw::Line;
use glintbasket::Mapping;

const SET_IOMMU: Call = Call::Request {
    target: 0,
    number: 102,
};
const MAP: Call = Call::Request {
    target: 0,
    number: 113,
};
const UNMAP: Call = Call::Request {
    target: 0,
    number: 114,
};
const RESET: Call = Call::Request {
    target: 1,
    number: 111,
};

fn first_difference(tamper: Tamper) -> Difference {
    let mut coverage = Coverage::default();
    (1..200)
        .find_map(|seed| run_list(seed, tamper, &mut coverage).err())
        .expect("the change is found")
}

fn no_difference(tamper: Tamper) {
    let mut coverage = Coverage::default();
    for seed in 0x1000..0x1040 {
        if let Err(difference) = run_list(seed, tamper, &mut coverage) {
            panic!("{}", difference.report());
        }
    }
}

#[test]
fn the_emulator_and_the_second_program_agree() {
    no_difference(faithful);
}

#[test]
fn a_wrong_place_is_found_and_the_list_is_short() {
    let difference = first_difference(|_, answer, _| match answer {
        Answer::Refused { code: 16, place } if place > 0 => Answer::Refused {
            code: 16,
            place: place - 1,
        },
        other => other,
    });
    let short = difference.shortened();
    assert!(short.len() <= 6, "{}", difference.report());
    let report = difference.report();
    assert!(report.contains("seed 0x"), "{report}");
}

#[test]
fn a_refusal_that_comes_too_late_is_found() {
    // 7 in place of 8: the order of two checks.
    let difference = first_difference(|given, answer, _| match (given.call, answer) {
        (&MAP, Answer::Refused { code: 8, place }) => Answer::Refused { code: 7, place },
        (_, other) => other,
    });
    assert!(difference.shortened().len() <= 3, "{}", difference.report());
}

#[test]
fn a_wrong_result_is_found() {
    let difference = first_difference(|given, answer, _| match (given.call, answer) {
        (Call::SaveParts, Answer::Done(length)) => Answer::Done(length + 1),
        (_, other) => other,
    });
    assert!(difference.shortened().len() <= 3, "{}", difference.report());
}

/// As if a mapping ran on into the next one where that adjoins.
#[test]
fn bytes_left_beyond_the_mapping_are_found() {
    let difference = first_difference(|given, answer, left| match (given.call, answer) {
        (
            Call::LookUp { device },
            Answer::Found {
                address,
                rights,
                left: bytes,
                probes,
            },
        ) => {
            let end = device + bytes;
            let next = left.kept.mappings().iter().find(|m| m.device.0 == end);
            Answer::Found {
                address,
                rights,
                left: bytes + next.map_or(0, |m| m.size),
                probes,
            }
        }
        (_, other) => other,
    });
    // A fresh start or a state, two maps, and the look-up.
    assert!(difference.shortened().len() <= 4, "{}", difference.report());
}

/// As if the search stopped one place early, which shows only where nothing is found.
#[test]
fn a_wrong_count_of_a_look_up_is_found() {
    let difference = first_difference(|_, answer, _| match answer {
        Answer::NotFound { place, probes } if probes > 0 => Answer::NotFound {
            place,
            probes: probes - 1,
        },
        other => other,
    });
    assert!(difference.shortened().len() <= 3, "{}", difference.report());
}

/// Records past the count mean nothing, and still no call may change one.
#[test]
fn a_stale_record_that_is_cleared_is_found() {
    let difference = first_difference(|given, answer, left| {
        if *given.call == UNMAP && answer == Answer::Done(0) {
            if let Some(record) = left.kept.stale_mut().first_mut() {
                *record = Mapping::default();
            }
        }
        answer
    });
    assert!(difference.shortened().len() <= 3, "{}", difference.report());
}

// ---- the container's IOMMU type

/// The range, [first, end), of an unmap that a container of Type1 accepted.
fn type1_range(given: &Given, answer: Answer) -> Option<(u64, u64)> {
    let accepted = *given.call == UNMAP && answer == Answer::Done(0);
    if !accepted || given.kept.state.iommu_type != 1 {
        return None;
    }
    let (first, size) = (
        number_at(given.buffer, 8, 8),
        number_at(given.buffer, 16, 8),
    );
    Some((first, first + size))
}

/// The mappings that an unmap removed: what it was given less what it left.
fn removed(given: &Given, left: &Left) -> Vec<Mapping> {
    let (held, stay) = (given.kept.mappings(), left.kept.mappings());
    let gone = held.iter().filter(|m| !stay.contains(m));
    gone.copied().collect()
}

/// As if the unmap had removed those of which the test holds, and no other.
fn removes_instead(given: &Given, left: &mut Left, goes: impl Fn(&Mapping) -> bool) {
    *left.kept = given.kept.clone();
    let (gone, stay): (Vec<_>, Vec<_>) = given.kept.mappings().iter().partition(|m| goes(m));
    left.kept.records[..stay.len()].copy_from_slice(&stay);
    left.kept.state.count = stay.len();
    let sizes = gone.iter().map(|m: &Mapping| m.size).sum();
    put_number(left.buffer, 16, 8, sizes);
}

/// So that the tests below find what is removed, and not how this file does it.
#[test]
fn what_an_unmap_removed_may_be_removed_instead() {
    no_difference(|given, answer, left| {
        if type1_range(given, answer).is_some() {
            let begun = removed(given, left);
            removes_instead(given, left, |m| begun.contains(m));
        }
        answer
    });
}

#[test]
fn an_unmap_under_type1_of_what_lies_inside_alone_is_found() {
    let difference = first_difference(|given, answer, left| {
        if let Some((_, end)) = type1_range(given, answer) {
            let begun = removed(given, left);
            removes_instead(given, left, |m| {
                begun.contains(m) && m.device.0 + m.size <= end
            });
        }
        answer
    });
    assert!(difference.shortened().len() <= 4, "{}", difference.report());
}

#[test]
fn a_size_field_under_type1_of_the_part_inside_is_found() {
    let difference = first_difference(|given, answer, left| {
        if let Some((_, end)) = type1_range(given, answer) {
            let parts = removed(given, left);
            let sizes = parts.iter().map(|m| m.size.min(end - m.device.0)).sum();
            put_number(left.buffer, 16, 8, sizes);
        }
        answer
    });
    assert!(difference.shortened().len() <= 4, "{}", difference.report());
}

#[test]
fn a_mapping_at_the_ranges_start_that_blocks_under_type1_is_found() {
    let difference = first_difference(|given, answer, left| {
        if let Some((first, _)) = type1_range(given, answer) {
            let blocks = |m: &Mapping| m.device.0 == first;
            if given.kept.mappings().iter().any(blocks) {
                removes_instead(given, left, |_| false);
            }
        }
        answer
    });
    assert!(difference.shortened().len() <= 4, "{}", difference.report());
}

/// As if only the part of an unmap under Type1 that is not blocked went.
#[test]
fn a_blocked_unmap_under_type1_that_removes_others_is_found() {
    let difference = first_difference(|given, answer, left| {
        if let Some((first, end)) = type1_range(given, answer) {
            removes_instead(given, left, |m| (first..end).contains(&m.device.0));
        }
        answer
    });
    assert!(difference.shortened().len() <= 4, "{}", difference.report());
}

#[test]
fn an_iommu_type_that_changes_while_mappings_are_held_is_found() {
    let difference = first_difference(|given, answer, left| {
        let refused = answer == Answer::Refused { code: 5, place: 0 };
        if *given.call != SET_IOMMU || !refused || given.kept.state.count == 0 {
            return answer;
        }
        let number = number_at(given.buffer, 0, 4) as u32;
        if number != 1 && number != 3 {
            return answer;
        }
        left.kept.state.iommu_type = number;
        Answer::Done(0)
    });
    assert!(difference.shortened().len() <= 4, "{}", difference.report());
}

/// The answer is right, the state is not.
#[test]
fn an_iommu_type_that_a_reset_changes_is_found() {
    let difference = first_difference(|given, answer, left| {
        if *given.call == RESET && answer == Answer::Done(0) {
            left.kept.state.iommu_type = 3;
        }
        answer
    });
    assert!(difference.shortened().len() <= 4, "{}", difference.report());
}

// ---- interrupt lines

/// What request 110 was asked for, and where its range begins among all lines.
fn asked_lines(given: &Given) -> Option<(Fields, usize)> {
    if *given.call != SET_IRQS || given.buffer.len() < 20 {
        return None;
    }
    let fields = Fields::read(given.buffer);
    let before = INDICES.iter().take(fields.index as usize);
    let first: u64 = before.map(|(count, _)| *count).sum();
    Some((fields, (first + fields.start) as usize))
}

/// Calls `change` for each line with a number that an accepted trigger selects: with whether its index
/// is automasked, with the line as it was, and with the line that is left.
fn each_triggered(
    given: &Given,
    answer: Answer,
    left: &mut Left,
    change: fn(bool, &Line, &mut Line),
) {
    let Some((fields, first)) = asked_lines(given) else {
        return;
    };
    if answer != Answer::Done(0) || fields.action != TRIGGER || fields.kind == EVENT {
        return;
    }
    for offset in 0..fields.count as usize {
        let selected = fields.kind != BOOL || given.buffer[20 + offset] != 0;
        let was = &given.kept.state.lines[first + offset];
        if selected && was.number >= 0 {
            let line = &mut left.kept.state.lines[first + offset];
            change(fields.index == 0, was, line);
        }
    }
}

/// So that the tests below change what a trigger does, and nothing else.
#[test]
fn what_a_trigger_does_may_be_done_instead() {
    no_difference(|given, answer, left| {
        each_triggered(given, answer, left, |automasked, was, line| {
            *line = *was;
            match (was.masked, automasked) {
                (1, _) => line.pending = 1,
                (_, false) => line.tally = was.tally.wrapping_add(1),
                (_, true) => (line.tally, line.masked) = (was.tally.wrapping_add(1), 1),
            }
        });
        answer
    });
}

#[test]
fn a_trigger_of_a_masked_line_that_is_counted_is_found() {
    let difference = first_difference(|given, answer, left| {
        each_triggered(given, answer, left, |_, was, line| {
            line.tally = was.tally.wrapping_add(1);
        });
        answer
    });
    assert!(difference.shortened().len() <= 4, "{}", difference.report());
}

#[test]
fn a_trigger_that_clears_what_is_pending_is_found() {
    let difference = first_difference(|given, answer, left| {
        each_triggered(given, answer, left, |_, was, line| {
            if was.masked != 1 && was.pending == 1 {
                line.pending = 0;
            }
        });
        answer
    });
    assert!(difference.shortened().len() <= 4, "{}", difference.report());
}

#[test]
fn a_mask_set_by_a_trigger_on_every_index_is_found() {
    let difference = first_difference(|given, answer, left| {
        each_triggered(given, answer, left, |_, _, line| line.masked = 1);
        answer
    });
    assert!(difference.shortened().len() <= 4, "{}", difference.report());
}

/// As if start + count were a sum in 32 bits.
#[test]
fn a_range_of_lines_that_wraps_is_found() {
    let difference = first_difference(|given, answer, _| {
        let Some((fields, _)) = asked_lines(given) else {
            return answer;
        };
        let Some((lines, _)) = INDICES.get(fields.index as usize) else {
            return answer;
        };
        let wrapped = (fields.start + fields.count) % (1 << 32);
        match answer {
            Answer::Refused { code: 9, .. } if wrapped <= *lines => Answer::Done(0),
            other => other,
        }
    });
    assert!(difference.shortened().len() <= 3, "{}", difference.report());
}

/// As if only byte 1 selected a line.
#[test]
fn bytes_above_1_that_select_no_line_are_found() {
    let difference = first_difference(|given, answer, left| {
        if let Some((fields, first)) = asked_lines(given) {
            if fields.kind == BOOL && answer == Answer::Done(0) {
                for offset in 0..fields.count as usize {
                    if given.buffer[20 + offset] > 1 {
                        let place = first + offset;
                        left.kept.state.lines[place] = given.kept.state.lines[place];
                    }
                }
            }
        }
        answer
    });
    assert!(difference.shortened().len() <= 4, "{}", difference.report());
}

/// As if each number were stored as soon as it is judged.
#[test]
fn numbers_stored_before_a_later_one_is_refused_are_found() {
    let difference = first_difference(|given, answer, left| {
        if let (Some((_, first)), Some(22)) = (asked_lines(given), answer.refusal()) {
            let numbers = (0..).map_while(|offset| event_at(given.buffer, offset));
            for (offset, number) in numbers.take_while(|number| *number >= -1).enumerate() {
                left.kept.state.lines[first + offset] = Line {
                    number,
                    ..Line::default()
                };
            }
        }
        answer
    });
    assert!(difference.shortened().len() <= 3, "{}", difference.report());
}

/// As if an accepted call of these left the lines as they were.
fn keeps_lines(given: &Given, answer: Answer, left: &mut Left, call: fn(&Call) -> bool) -> Answer {
    if call(given.call) && answer == Answer::Done(0) {
        left.kept.state.lines = given.kept.state.lines;
    }
    answer
}

#[test]
fn lines_that_a_reset_keeps_are_found() {
    let difference = first_difference(|given, answer, left| {
        keeps_lines(given, answer, left, |call| *call == RESET)
    });
    assert!(difference.shortened().len() <= 4, "{}", difference.report());
}

#[test]
fn lines_that_a_fresh_start_keeps_are_found() {
    let difference = first_difference(|given, answer, left| {
        keeps_lines(given, answer, left, |call| {
            matches!(call, Call::FreshStart { .. })
        })
    });
    assert!(difference.shortened().len() <= 4, "{}", difference.report());
}

// ---- walks of queues

/// A walk refused with one of these numbers.
fn refused_walk(given: &Given, answer: Answer, codes: RangeInclusive<u64>) -> Option<(u64, u64)> {
    match (given.call, answer) {
        (Call::WalkQueue { .. }, Answer::Refused { code, place }) if codes.contains(&code) => {
            Some((code, place))
        }
        _ => None,
    }
}

/// A fresh start or a state, the queue's register, its descriptors and its ring, and the walk.
fn found_in_a_short_list(tamper: Tamper) {
    let difference = first_difference(tamper);
    assert!(difference.shortened().len() <= 7, "{}", difference.report());
}

#[test]
fn a_walks_place_that_is_an_offset_is_found() {
    found_in_a_short_list(
        |given, answer, _| match refused_walk(given, answer, 14..=16) {
            Some((code, place)) => Answer::Refused {
                code,
                place: place % 16,
            },
            None => answer,
        },
    );
}

#[test]
fn a_walks_place_that_is_an_index_is_found() {
    found_in_a_short_list(|given, answer, _| {
        match (given.call, refused_walk(given, answer, 30..=32)) {
            (Call::WalkQueue { last, .. }, Some((code, place))) => Answer::Refused {
                code,
                place: place + u64::from(*last),
            },
            _ => answer,
        }
    });
}

/// As if the start of a read were a sum in 64 bits.
#[test]
fn a_read_whose_start_wraps_is_found() {
    found_in_a_short_list(
        |given, answer, _| match refused_walk(given, answer, 9..=9) {
            Some((code, u64::MAX)) => Answer::Refused { code, place: 0 },
            _ => answer,
        },
    );
}

/// As if numbers were written while the walk goes on.
#[test]
fn numbers_that_a_refused_walk_writes_are_found() {
    found_in_a_short_list(|given, answer, left| {
        if refused_walk(given, answer, 30..=32).is_some_and(|(_, finished)| finished > 0) {
            left.buffer.fill(0);
        }
        answer
    });
}

#[test]
fn a_walk_that_asks_for_room_on_its_way_is_found() {
    found_in_a_short_list(
        |given, answer, _| match refused_walk(given, answer, 30..=32) {
            Some((_, finished)) if (given.buffer.len() as u64) < 24 * finished => {
                Answer::Refused { code: 27, place: 0 }
            }
            _ => answer,
        },
    );
}

/// As if the ring's index were never below the caller's.
#[test]
fn a_distance_that_does_not_wrap_is_found() {
    found_in_a_short_list(|given, answer, _| match (given.call, answer) {
        (Call::WalkQueue { last, .. }, Answer::Walked { index, .. })
            if index < u64::from(*last) =>
        {
            Answer::Refused { code: 29, place: 0 }
        }
        _ => answer,
    });
}

#[test]
fn flags_of_a_buffer_that_are_cut_are_found() {
    found_in_a_short_list(|_, answer, left| {
        if let Answer::Walked { buffers, .. } = answer {
            for three in left.buffer.chunks_mut(24).take(buffers as usize) {
                let flags = number_at(three, 16, 8);
                put_number(three, 16, 8, flags % 8);
            }
        }
        answer
    });
}

#[test]
fn numbers_behind_the_buffers_that_a_walk_clears_are_found() {
    found_in_a_short_list(|_, answer, left| {
        if let Answer::Walked { buffers, .. } = answer {
            left.buffer[24 * buffers as usize..].fill(0);
        }
        answer
    });
}

#[test]
fn a_walk_that_asks_whether_the_device_runs_is_found() {
    found_in_a_short_list(|given, answer, _| match answer {
        Answer::Walked { .. } if given.kept.state.is_running() => {
            Answer::Refused { code: 17, place: 0 }
        }
        _ => answer,
    });
}

/// As if a queue were enabled once it is set.
#[test]
fn a_walk_of_a_queue_that_is_not_enabled_is_found() {
    found_in_a_short_list(|given, answer, _| {
        let Call::WalkQueue { queue, .. } = *given.call else {
            return answer;
        };
        let registers = &given.kept.state.registers;
        match refused_walk(given, answer, 28..=28) {
            Some(_) if registers.slots[6 + queue as usize].is_set() => Answer::Walked {
                buffers: 0,
                index: 0,
            },
            _ => answer,
        }
    });
}
