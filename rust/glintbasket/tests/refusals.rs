//! The refusals' numbers and names, and the error's text.

use glintbasket::{Error, Refusal};

#[test]
fn numbers_and_names_are_the_table_s() {
    let names = [
        "BadBench",
        "NoSuchRequest",
        "Short",
        "ArgSize",
        "Flags",
        "Index",
        "Unaligned",
        "Empty",
        "Range",
        "Overlap",
        "NoRoom",
        "Cuts",
        "TooLong",
        "Unmapped",
        "NoRight",
        "Unwritten",
        "Running",
        "Truncated",
        "Header",
        "UnknownPart",
        "Twice",
        "Value",
        "Mismatch",
        "Missing",
        "Unset",
        "ReadOnly",
        "NoSpace",
        "QueueNotReady",
        "RingDistance",
        "DescriptorIndex",
        "ChainLength",
        "Indirect",
        "Magic",
    ];
    assert_eq!(Refusal::ALL.map(Refusal::name), names);
    for (number, refusal) in (1..).zip(Refusal::ALL) {
        assert_eq!(refusal.number(), number);
        assert_eq!(Refusal::from_number(number), Some(refusal));
    }
}

#[test]
fn no_other_number_is_a_refusal() {
    for number in [0, 34, u32::MAX] {
        assert_eq!(Refusal::from_number(number), None);
    }
}

#[test]
fn error_is_shown_by_number_name_and_place() {
    let error = Error {
        refusal: Refusal::Unwritten,
        place: 1,
    };
    assert_eq!(error.to_string(), "refused 16 Unwritten at 1");
    let boxed: Box<dyn std::error::Error> = Box::new(error);
    assert_eq!(boxed.to_string(), "refused 16 Unwritten at 1");
}
