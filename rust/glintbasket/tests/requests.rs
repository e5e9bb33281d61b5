//! Requests, raw and typed.

mod common;

use common::{bench, refused, PAGE};
use glintbasket::{
    number, Card, DeviceAddress, DeviceInfo, IommuInfo, IommuType, IrqInfo, Mapping, MemoryAddress,
    OwnedBench, Refusal, RegionInfo, Result, Rights, Target, DEFAULT_RECORDS, DEVICE_LIMIT,
};

fn map(bench: &mut OwnedBench, memory: u64, device: u64, size: u64) -> Result<()> {
    bench.map(
        MemoryAddress(memory),
        DeviceAddress(device),
        size,
        Rights::READ,
    )
}

// ---- raw

#[test]
fn request_writes_output_fields_alone() {
    let mut bench = bench(1);
    let mut buffer = [0xee; 40];
    buffer[0..4].copy_from_slice(&32u32.to_le_bytes());
    buffer[8..12].copy_from_slice(&7u32.to_le_bytes());
    let answer = bench.request(Target::DEVICE, number::DEVICE_GET_REGION_INFO, &mut buffer);
    assert_eq!(answer, Ok(0));
    let mut config = [0; 32];
    config[0] = 0x20;
    config[4] = 3;
    config[8] = 7;
    config[17] = 1;
    config[29] = 7;
    assert_eq!(buffer[..32], config);
    assert_eq!(buffer[32..], [0xee; 8]);
}

#[test]
fn request_refuses_by_target_length_and_argsz() {
    let mut bench = bench(1);
    let mut request = |target, number, argsz: u32, length: usize| {
        let mut buffer = [0xee; 40];
        buffer[0..4].copy_from_slice(&argsz.to_le_bytes());
        let given = buffer;
        let answer = bench.request(target, number, &mut buffer[..length]);
        assert_eq!(buffer, given);
        answer
    };
    let none = refused(Refusal::NoSuchRequest, 0);
    assert_eq!(request(Target::CONTAINER, number::DEVICE_RESET, 0, 0), none);
    assert_eq!(request(Target(2), number::GET_API_VERSION, 0, 0), none);
    let device = Target::DEVICE;
    let info = number::DEVICE_GET_INFO;
    assert_eq!(request(device, info, 16, 15), refused(Refusal::Short, 0));
    assert_eq!(request(device, info, 15, 16), refused(Refusal::ArgSize, 0));
    assert_eq!(request(device, info, 17, 16), refused(Refusal::ArgSize, 0));
}

#[test]
fn request_unmap_refuses_flags() {
    let mut bench = bench(1);
    let mut buffer = [0; 24];
    buffer[0] = 24;
    buffer[4] = 1;
    assert_eq!(
        bench.request(Target::CONTAINER, number::IOMMU_UNMAP_DMA, &mut buffer),
        refused(Refusal::Flags, 0)
    );
}

// ---- container

#[test]
fn api_version_is_0() {
    assert_eq!(bench(1).api_version(), Ok(0));
}

#[test]
fn check_extension_knows_the_two_iommu_types_alone() {
    let mut bench = bench(1);
    for iommu_type in [IommuType::Type1, IommuType::Type1v2] {
        assert_eq!(bench.check_extension(iommu_type.number()), Ok(true));
    }
    for number in NO_TYPES {
        assert_eq!(bench.check_extension(number), Ok(false), "{number:#x}");
    }
}

/// Numbers of no IOMMU type; in those with a high byte, the low one is of one.
const NO_TYPES: [u32; 8] = [0, 2, 4, 0x101, 0x103, 0x0100_0001, 0x0300_0000, 0xffff_ff03];

#[test]
fn iommu_types_have_the_kernels_numbers() {
    for (iommu_type, number) in [(IommuType::Type1, 1), (IommuType::Type1v2, 3)] {
        assert_eq!(iommu_type.number(), number);
        assert_eq!(IommuType::from_number(number), Some(iommu_type));
        assert_eq!(iommu_type.to_string(), format!("{iommu_type:?}"));
    }
    assert_eq!(NO_TYPES.map(IommuType::from_number), [None; 8]);
}

/// Request 102 with any number.
fn set_iommu(bench: &mut OwnedBench, number: u32) -> Result<u64> {
    let mut buffer = number.to_le_bytes();
    let answer = bench.request(Target::CONTAINER, number::SET_IOMMU, &mut buffer);
    assert_eq!(buffer, number.to_le_bytes());
    answer
}

#[test]
fn set_iommu_takes_either_type_and_no_other() {
    let mut bench = bench(1);
    assert_eq!(bench.iommu_type(), Some(IommuType::Type1v2));
    for iommu_type in [IommuType::Type1, IommuType::Type1, IommuType::Type1v2] {
        assert_eq!(bench.set_iommu(iommu_type), Ok(()));
        assert_eq!(bench.iommu_type(), Some(iommu_type));
        for number in NO_TYPES {
            assert_eq!(set_iommu(&mut bench, number), refused(Refusal::Flags, 0));
        }
        assert_eq!(bench.state().iommu_type, iommu_type.number());
    }
    let short = bench.request(Target::CONTAINER, number::SET_IOMMU, &mut [1, 0, 0]);
    assert_eq!(short, refused(Refusal::Short, 0));
}

#[test]
fn set_iommu_is_refused_while_a_mapping_is_held() {
    for iommu_type in [IommuType::Type1, IommuType::Type1v2] {
        let mut bench = bench(1);
        bench.set_iommu(iommu_type).unwrap();
        map(&mut bench, 0, 0, PAGE).unwrap();
        for asked in [IommuType::Type1, IommuType::Type1v2] {
            assert_eq!(bench.set_iommu(asked), refused(Refusal::Flags, 0));
        }
        assert_eq!(bench.iommu_type(), Some(iommu_type));
        bench.unmap(DeviceAddress(0), PAGE).unwrap();
        assert_eq!(bench.set_iommu(IommuType::Type1), Ok(()));
    }
}

#[test]
fn reset_keeps_the_iommu_type_and_a_fresh_start_does_not() {
    let mut bench = bench(1);
    for card in [Card::Features64, Card::Features128] {
        bench.set_iommu(IommuType::Type1).unwrap();
        bench.reset().unwrap();
        assert_eq!(bench.iommu_type(), Some(IommuType::Type1));
        bench.power_on_as(card).unwrap();
        assert_eq!(bench.iommu_type(), Some(IommuType::Type1v2));
    }
}

#[test]
fn iommu_info_gives_the_page_size() {
    let info = IommuInfo {
        flags: 1,
        page_sizes: 4096,
    };
    assert_eq!(bench(1).iommu_info(), Ok(info));
}

#[test]
fn map_keeps_mappings_by_rising_device_address() {
    let mut bench = bench(2);
    assert_eq!(map(&mut bench, 0, DEVICE_LIMIT - PAGE, PAGE), Ok(()));
    assert_eq!(map(&mut bench, PAGE, 0, PAGE), Ok(()));
    let mapping = |memory, device| Mapping {
        device: DeviceAddress(device),
        memory: MemoryAddress(memory),
        size: PAGE,
        rights: Rights::READ,
    };
    assert_eq!(
        bench.mappings(),
        [mapping(PAGE, 0), mapping(0, DEVICE_LIMIT - PAGE)]
    );
}

#[test]
fn map_refuses_and_leaves_the_table() {
    let mut bench = bench(4);
    map(&mut bench, 0, 4 * PAGE, PAGE).unwrap();
    let held = bench.mappings().to_vec();
    for rights in [0, 4, 7] {
        assert_eq!(
            bench.map(MemoryAddress(0), DeviceAddress(0), PAGE, Rights(rights)),
            refused(Refusal::Flags, 0)
        );
    }
    assert_eq!(map(&mut bench, 0, 1, 0), refused(Refusal::Empty, 0));
    assert_eq!(map(&mut bench, 0, 1, PAGE), refused(Refusal::Unaligned, 0));
    assert_eq!(map(&mut bench, 1, 0, PAGE), refused(Refusal::Unaligned, 0));
    assert_eq!(
        map(&mut bench, 0, DEVICE_LIMIT - PAGE, 2 * PAGE),
        refused(Refusal::Range, 0)
    );
    assert_eq!(
        map(&mut bench, 0, u64::MAX - 4095, PAGE),
        refused(Refusal::Range, 0)
    );
    assert_eq!(map(&mut bench, 0, 0, 5 * PAGE), refused(Refusal::Range, 0));
    // The new range encloses the old one.
    assert_eq!(
        map(&mut bench, 0, 3 * PAGE, 3 * PAGE),
        refused(Refusal::Overlap, 0)
    );
    assert_eq!(bench.mappings(), held);
}

#[test]
fn map_refuses_the_65th_and_uses_a_freed_place() {
    let mut bench = bench(1);
    for i in 0..DEFAULT_RECORDS as u64 {
        assert_eq!(map(&mut bench, 0, i * PAGE, PAGE), Ok(()));
    }
    let last = DEFAULT_RECORDS as u64 * PAGE;
    assert_eq!(map(&mut bench, 0, last, PAGE), refused(Refusal::NoRoom, 0));
    assert_eq!(bench.unmap(DeviceAddress(0), PAGE), Ok(PAGE));
    assert_eq!(map(&mut bench, 0, last, PAGE), Ok(()));
    assert_eq!(bench.mappings().len(), DEFAULT_RECORDS);
}

#[test]
fn unmap_gives_the_sum_of_the_sizes_removed() {
    let mut bench = bench(2);
    map(&mut bench, 0, 0, 2 * PAGE).unwrap();
    map(&mut bench, 0, 2 * PAGE, PAGE).unwrap();
    let mut unmap = |device, size| bench.unmap(DeviceAddress(device), size);
    assert_eq!(unmap(PAGE, 2 * PAGE), refused(Refusal::Cuts, 0));
    assert_eq!(unmap(1, 0), refused(Refusal::Empty, 0));
    assert_eq!(unmap(1, PAGE), refused(Refusal::Unaligned, 0));
    assert_eq!(unmap(DEVICE_LIMIT, PAGE), refused(Refusal::Range, 0));
    assert_eq!(unmap(0, 3 * PAGE), Ok(3 * PAGE));
    assert_eq!(unmap(0, 3 * PAGE), Ok(0));
    assert_eq!(bench.mappings(), []);
}

/// In a container of Type1: pages 0 and 1, page 2, and pages 4 and 5.
fn older_bench() -> OwnedBench {
    let mut bench = bench(2);
    bench.set_iommu(IommuType::Type1).unwrap();
    for (page, pages) in [(0, 2), (2, 1), (4, 2)] {
        map(&mut bench, 0, page * PAGE, pages * PAGE).unwrap();
    }
    bench
}

#[test]
fn unmap_under_type1_removes_what_begins_in_the_range() {
    // First page and pages of the range, pages reported, first pages of the mappings that stay.
    let cases: [(u64, u64, u64, &[u64]); 7] = [
        (0, 1, 2, &[2, 4]), // begins at the range's start, ends beyond
        (0, 3, 3, &[4]),
        (2, 1, 1, &[0, 4]),    // a mapping ends at the range's start
        (3, 1, 0, &[0, 2, 4]), // one begins at its end
        (3, 2, 2, &[0, 2]),    // begins in the range, ends beyond
        (2, 3, 3, &[0]),
        (0, 6, 5, &[]),
    ];
    for (page, pages, reported, left) in cases {
        let mut bench = older_bench();
        let removed = bench.unmap(DeviceAddress(page * PAGE), pages * PAGE);
        assert_eq!(removed, Ok(reported * PAGE), "{pages} from {page} on");
        let held: Vec<u64> = bench.mappings().iter().map(|m| m.device.0 / PAGE).collect();
        assert_eq!(held, left, "{pages} from {page} on");
    }
}

#[test]
fn unmap_under_type1_is_blocked_by_a_mapping_from_before() {
    let mut bench = older_bench();
    let before = bench.records().to_vec();
    for (page, pages) in [(1, 1), (1, 2), (1, 6), (5, 1), (5, 100)] {
        let removed = bench.unmap(DeviceAddress(page * PAGE), pages * PAGE);
        assert_eq!(removed, Ok(0), "{pages} from {page} on");
        assert_eq!((bench.mappings().len(), bench.records()), (3, &before[..]));
    }
    let past = bench.unmap(DeviceAddress(PAGE), DEVICE_LIMIT);
    assert_eq!(past, refused(Refusal::Range, 0));
}

// ---- device

#[test]
fn device_info_counts_regions_and_interrupts() {
    let info = DeviceInfo {
        flags: 3,
        regions: 9,
        irqs: 4,
    };
    assert_eq!(bench(1).device_info(), Ok(info));
}

#[test]
fn region_info_gives_each_region_and_refuses_the_next_index() {
    let mut bench = bench(1);
    for index in 0..9 {
        let (size, flags) = match index {
            0 => (0x4000, 7),
            7 => (0x100, 3),
            _ => (0, 0),
        };
        let info = RegionInfo {
            flags,
            size,
            offset: u64::from(index) << 40,
        };
        assert_eq!(bench.region_info(index), Ok(info));
    }
    assert_eq!(bench.region_info(9), refused(Refusal::Index, 0));
}

#[test]
fn irq_info_gives_each_index_and_refuses_the_next() {
    let mut bench = bench(1);
    for (index, flags, count) in [(0, 7, 1), (1, 9, 8), (2, 9, 16), (3, 0, 0)] {
        assert_eq!(bench.irq_info(index), Ok(IrqInfo { flags, count }));
    }
    assert_eq!(bench.irq_info(4), refused(Refusal::Index, 0));
}
