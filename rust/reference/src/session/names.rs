//! Requests by name.

use crate::requests::{CONTAINER, DEVICE};

pub struct Named {
    pub target: u64,
    pub name: &'static str,
    pub number: u64,
    pub fields: &'static [Field],
    /// Whether data may follow its fields.
    pub data: bool,
}

pub struct Field {
    pub name: &'static str,
    pub offset: usize,
    pub width: usize,
}

const fn field(name: &'static str, offset: usize, width: usize) -> Field {
    Field {
        name,
        offset,
        width,
    }
}

const fn named(target: u64, name: &'static str, number: u64, fields: &'static [Field]) -> Named {
    Named {
        target,
        name,
        number,
        fields,
        data: false,
    }
}

impl Named {
    const fn with_data(self) -> Named {
        Named { data: true, ..self }
    }
}

const ARGSZ: Field = field("argsz", 0, 4);
const FLAGS: Field = field("flags", 4, 4);
const INDEX: Field = field("index", 8, 4);
const NUMBER: Field = field("number", 0, 4);

pub const REQUESTS: [Named; 11] = [
    named(CONTAINER, "api-version", 100, &[]),
    named(CONTAINER, "check-extension", 101, &[NUMBER]),
    named(CONTAINER, "set-iommu", 102, &[NUMBER]),
    named(CONTAINER, "iommu-info", 112, &[ARGSZ]),
    named(
        CONTAINER,
        "map",
        113,
        &[
            ARGSZ,
            FLAGS,
            field("memory", 8, 8),
            field("device", 16, 8),
            field("size", 24, 8),
        ],
    ),
    named(
        CONTAINER,
        "unmap",
        114,
        &[ARGSZ, FLAGS, field("device", 8, 8), field("size", 16, 8)],
    ),
    named(DEVICE, "info", 107, &[ARGSZ]),
    named(DEVICE, "region-info", 108, &[ARGSZ, INDEX]),
    named(DEVICE, "irq-info", 109, &[ARGSZ, INDEX]),
    named(
        DEVICE,
        "set-irqs",
        110,
        &[
            ARGSZ,
            FLAGS,
            INDEX,
            field("start", 12, 4),
            field("count", 16, 4),
        ],
    )
    .with_data(),
    named(DEVICE, "reset", 111, &[]),
];

pub fn request_named(target: u64, name: &str) -> Option<&'static Named> {
    REQUESTS
        .iter()
        .find(|request| request.target == target && request.name == name)
}
