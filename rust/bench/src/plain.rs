//! What a Rust programmer would write for the same calls: the same checks in the same order, on
//! state and records by reference, run by run, with the standard library's searches, copies and
//! fills.

use glintbasket::raw::{REGISTERS, SLOTS};
use glintbasket::{
    DeviceAddress, IommuType, Location, LookUpError, Mapping, MemoryAddress, Register, Registers,
    Rights, State, BUFFER_NUMBERS, DEVICE_LIMIT, MEMORY_LIMIT, PAGE_SIZE, RECORDS_LIMIT,
    TRANSFER_LIMIT,
};

#[derive(Clone, Copy, Debug, PartialEq, Eq)]
pub struct Refusal {
    pub code: u32,
    pub place: u64,
}

pub type Answer<T> = Result<T, Refusal>;

fn at<T>(code: u32, place: u64) -> Answer<T> {
    Err(Refusal { code, place })
}

fn refuse<T>(code: u32) -> Answer<T> {
    at(code, 0)
}

// ---- refusal 1

fn sound(state: &State, records: &[Mapping]) -> bool {
    state.card().is_some()
        && IommuType::from_number(state.iommu_type).is_some()
        && state.lines.iter().all(|line| line.number >= -1)
        && state.memory_length <= MEMORY_LIMIT as u64
        && sound_registers(state)
        && sound_table(state, records)
}

fn sound_table(state: &State, records: &[Mapping]) -> bool {
    if records.len() > RECORDS_LIMIT {
        return false;
    }
    let Some(held) = records.get(..state.count) else {
        return false;
    };
    let length = state.memory_length;
    let mut low = 0;
    for m in held {
        if m.device.0 < low || !sound_mapping(m, length) {
            return false;
        }
        low = end_of(m);
    }
    true
}

/// Subtractions stand where sums could wrap: a size is at most the length, which is at most 2^30.
fn sound_mapping(m: &Mapping, length: u64) -> bool {
    (m.device.0 | m.memory.0 | m.size).is_multiple_of(PAGE_SIZE)
        && m.size != 0
        && m.size <= length
        && m.memory.0 <= length - m.size
        && m.device.0 <= DEVICE_LIMIT - m.size
        && (1..=3).contains(&m.rights.0)
}

/// The device address behind a mapping that is sound.
fn end_of(m: &Mapping) -> u64 {
    m.device.0 + m.size
}

const STATUS: usize = 5;

fn sound_registers(state: &State) -> bool {
    let slots = &state.registers.slots;
    slots[STATUS].is_set()
        && slots
            .iter()
            .enumerate()
            .all(|(slot, r)| !r.is_set() || good_content(state.words, slot + 1, &r.bytes).is_ok())
}

fn usable(state: &State, records: &[Mapping], memory: &[u8], marks: &[u8]) -> bool {
    memory.len().div_ceil(8) == marks.len()
        && memory.len() as u64 == state.memory_length
        && sound(state, records)
}

// ---- moves

fn check_range(device: DeviceAddress, length: usize) -> Answer<()> {
    if length > TRANSFER_LIMIT {
        return refuse(13);
    }
    if device.0 > DEVICE_LIMIT - length as u64 {
        return refuse(9);
    }
    Ok(())
}

/// The held mappings from the first one on that ends past a device address.
fn from(held: &[Mapping], device: DeviceAddress) -> &[Mapping] {
    &held[held.partition_point(|m| end_of(m) <= device.0)..]
}

/// Calls `run` with the offset, the place in memory, the length and the rights of each run.
fn runs(
    held: &[Mapping],
    device: DeviceAddress,
    length: usize,
    mut run: impl FnMut(usize, usize, usize, Rights) -> Answer<()>,
) -> Answer<()> {
    let mut offset = 0;
    let mut mappings = from(held, device).iter();
    while offset < length {
        let address = device.0 + offset as u64;
        let m = match mappings.next() {
            Some(m) if m.device.0 <= address => m,
            _ => return at(14, offset as u64),
        };
        let skip = address - m.device.0;
        let n = (m.size - skip).min((length - offset) as u64) as usize;
        run(offset, (m.memory.0 + skip) as usize, n, m.rights)?;
        offset += n;
    }
    Ok(())
}

/// The marks of `n` bytes from a place on: the first mark byte with its bits from the place on, the
/// last one with its bits before the end, and the bytes between.
fn ends(place: usize, n: usize) -> ((usize, u8), (usize, u8)) {
    let end = place + n;
    (
        (place / 8, !0 << (place % 8)),
        (end / 8, (1 << (end % 8)) - 1),
    )
}

/// Whether all are written. Whole mark bytes are judged without a way out, so that the compiler
/// vectorises them.
fn all_written(marks: &[u8], place: usize, n: usize) -> bool {
    let ((first, head), (last, tail)) = ends(place, n);
    if first == last {
        return head & tail == 0 || marks[first] & head & tail == head & tail;
    }
    let whole = marks[first + 1..last]
        .iter()
        .fold(!0, |all, byte| all & byte);
    marks[first] & head == head && whole == !0 && (tail == 0 || marks[last] & tail == tail)
}

/// The offset of the first of `n` bytes from a place on that is not written.
fn first_unwritten(marks: &[u8], place: usize, n: usize) -> Option<usize> {
    if all_written(marks, place, n) {
        return None;
    }
    (0..n).find(|i| marks[(place + i) / 8] >> ((place + i) % 8) & 1 == 0)
}

fn set_written(marks: &mut [u8], place: usize, n: usize) {
    let ((first, head), (last, tail)) = ends(place, n);
    if first == last {
        if head & tail > 0 {
            marks[first] |= head & tail;
        }
        return;
    }
    marks[first] |= head;
    marks[first + 1..last].fill(!0);
    if tail > 0 {
        marks[last] |= tail;
    }
}

#[inline(never)]
pub fn card_read(
    state: &State,
    records: &[Mapping],
    memory: &[u8],
    marks: &[u8],
    device: DeviceAddress,
    buffer: &mut [u8],
) -> Answer<u64> {
    if !usable(state, records, memory, marks) {
        return refuse(1);
    }
    check_range(device, buffer.len())?;
    let held = &records[..state.count];
    runs(held, device, buffer.len(), |offset, place, n, rights| {
        if !rights.contains(Rights::READ) {
            return at(15, offset as u64);
        }
        match first_unwritten(marks, place, n) {
            Some(i) => at(16, (offset + i) as u64),
            None => Ok(()),
        }
    })?;
    runs(held, device, buffer.len(), |offset, place, n, _| {
        buffer[offset..offset + n].copy_from_slice(&memory[place..place + n]);
        Ok(())
    })?;
    Ok(0)
}

#[inline(never)]
pub fn card_write(
    state: &State,
    records: &[Mapping],
    memory: &mut [u8],
    marks: &mut [u8],
    device: DeviceAddress,
    bytes: &[u8],
) -> Answer<u64> {
    if !usable(state, records, memory, marks) {
        return refuse(1);
    }
    check_range(device, bytes.len())?;
    let held = &records[..state.count];
    runs(held, device, bytes.len(), |offset, _, _, rights| {
        if !rights.contains(Rights::WRITE) {
            return at(15, offset as u64);
        }
        Ok(())
    })?;
    runs(held, device, bytes.len(), |offset, place, n, _| {
        memory[place..place + n].copy_from_slice(&bytes[offset..offset + n]);
        set_written(marks, place, n);
        Ok(())
    })?;
    Ok(0)
}

fn check_host(size: usize, address: MemoryAddress, length: usize) -> Answer<usize> {
    if length > TRANSFER_LIMIT {
        return refuse(13);
    }
    if address.0 > size as u64 || length > size - address.0 as usize {
        return refuse(9);
    }
    Ok(address.0 as usize)
}

#[inline(never)]
pub fn host_store(
    state: &State,
    records: &[Mapping],
    memory: &mut [u8],
    marks: &mut [u8],
    address: MemoryAddress,
    bytes: &[u8],
) -> Answer<u64> {
    if !usable(state, records, memory, marks) {
        return refuse(1);
    }
    let place = check_host(memory.len(), address, bytes.len())?;
    memory[place..place + bytes.len()].copy_from_slice(bytes);
    set_written(marks, place, bytes.len());
    Ok(0)
}

#[inline(never)]
pub fn host_load(
    state: &State,
    records: &[Mapping],
    memory: &[u8],
    marks: &[u8],
    address: MemoryAddress,
    buffer: &mut [u8],
) -> Answer<u64> {
    if !usable(state, records, memory, marks) {
        return refuse(1);
    }
    let place = check_host(memory.len(), address, buffer.len())?;
    if let Some(i) = first_unwritten(marks, place, buffer.len()) {
        return at(16, i as u64);
    }
    buffer.copy_from_slice(&memory[place..place + buffer.len()]);
    Ok(0)
}

#[inline(never)]
pub fn look_up(
    state: &State,
    records: &[Mapping],
    device: DeviceAddress,
) -> Result<Location, LookUpError> {
    let refuse = |refusal, probes| {
        let place = 0;
        Err(LookUpError {
            refusal,
            place,
            probes,
        })
    };
    if !sound(state, records) {
        return refuse(glintbasket::Refusal::BadBench, None);
    }
    if device.0 >= DEVICE_LIMIT {
        return refuse(glintbasket::Refusal::Range, None);
    }
    let (found, probes) = search(&records[..state.count], device);
    match found {
        Some(m) => Ok(Location {
            address: MemoryAddress(m.memory.0 + (device.0 - m.device.0)),
            rights: m.rights,
            left: end_of(m) - device.0,
            probes,
        }),
        None => refuse(glintbasket::Refusal::Unmapped, Some(probes)),
    }
}

/// The mapping that holds a device address, and how many were looked at. The standard library's
/// searches look at others, and do not say at how many.
fn search(held: &[Mapping], device: DeviceAddress) -> (Option<&Mapping>, u64) {
    let (mut low, mut high, mut probes) = (0, held.len(), 0);
    while low < high {
        let middle = (low + high) / 2;
        let m = &held[middle];
        probes += 1;
        if device < m.device {
            high = middle;
        } else if device.0 < end_of(m) {
            return (Some(m), probes);
        } else {
            low = middle + 1;
        }
    }
    (None, probes)
}

// ---- walks of queues

/// The slot of queue 0.
const QUEUES: usize = 6;
const NEXT: u16 = 1;
const INDIRECT: u16 = 4;

/// Bytes that the card reads some way behind an address. Faults are told by device address.
fn fetch<const N: usize>(
    held: &[Mapping],
    memory: &[u8],
    marks: &[u8],
    address: u64,
    behind: u64,
) -> Answer<[u8; N]> {
    let start = address.saturating_add(behind);
    if start > DEVICE_LIMIT - N as u64 {
        return at(9, start);
    }
    let mut bytes = [0; N];
    runs(held, DeviceAddress(start), N, |offset, place, n, rights| {
        if !rights.contains(Rights::READ) {
            return at(15, offset as u64);
        }
        if let Some(i) = first_unwritten(marks, place, n) {
            return at(16, (offset + i) as u64);
        }
        bytes[offset..offset + n].copy_from_slice(&memory[place..place + n]);
        Ok(())
    })
    .map_err(|refusal| Refusal {
        place: start + refusal.place,
        ..refusal
    })?;
    Ok(bytes)
}

/// The number of buffers and the ring's index. What is found is kept until nothing can be refused any more.
#[inline(never)]
pub fn walk_queue(
    state: &State,
    records: &[Mapping],
    memory: &[u8],
    marks: &[u8],
    queue: u32,
    last: u16,
    numbers: &mut [u64],
) -> Answer<(usize, u16)> {
    if !usable(state, records, memory, marks) {
        return refuse(1);
    }
    if queue > 3 {
        return refuse(6);
    }
    let register = &state.registers.slots[QUEUES + queue as usize];
    let value = &register.bytes;
    if !register.is_set() || u16_at(value, 4) == 0 {
        return refuse(28);
    }
    let (size, table, driver) = (u16_at(value, 0), u64_at(value, 8), u64_at(value, 16));
    let held = &records[..state.count];
    let in_ring = |behind| fetch(held, memory, marks, driver, behind).map(u16::from_le_bytes);
    let index = in_ring(2)?;
    let distance = index.wrapping_sub(last);
    if distance > size {
        return refuse(29);
    }
    let mut found = Vec::with_capacity(BUFFER_NUMBERS * usize::from(distance));
    for finished in 0..distance {
        let place = last.wrapping_add(finished) % size;
        let mut number = in_ring(4 + 2 * u64::from(place))?;
        let finished = finished.into();
        let mut count = 0;
        loop {
            if number >= size {
                return at(30, finished);
            }
            let descriptor: [u8; 16] = fetch(held, memory, marks, table, 16 * u64::from(number))?;
            let flags = u16_at(&descriptor, 12);
            if flags & INDIRECT != 0 {
                return at(32, finished);
            }
            let (address, length) = (u64_at(&descriptor, 0), u32_at(&descriptor, 8));
            found.extend([address, length.into(), flags.into()]);
            count += 1;
            if flags & NEXT == 0 {
                break;
            }
            if count == size {
                return at(31, finished);
            }
            number = u16_at(&descriptor, 14);
        }
    }
    match numbers.get_mut(..found.len()) {
        Some(room) => room.copy_from_slice(&found),
        None => return refuse(27),
    }
    Ok((found.len() / BUFFER_NUMBERS, index))
}

// ---- map and unmap, each behind the checks of a request

fn field<const N: usize>(buffer: &[u8], at: usize) -> [u8; N] {
    buffer[at..at + N].try_into().unwrap()
}

fn u16_at(buffer: &[u8], at: usize) -> u16 {
    u16::from_le_bytes(field(buffer, at))
}

fn u32_at(buffer: &[u8], at: usize) -> u32 {
    u32::from_le_bytes(field(buffer, at))
}

fn u64_at(buffer: &[u8], at: usize) -> u64 {
    u64::from_le_bytes(field(buffer, at))
}

#[inline(never)]
pub fn request(
    state: &mut State,
    records: &mut [Mapping],
    memory: &[u8],
    marks: &[u8],
    target: u32,
    number: u32,
    buffer: &mut [u8],
) -> Answer<u64> {
    if !usable(state, records, memory, marks) {
        return refuse(1);
    }
    match (target, number) {
        (0, 113) => {
            check_argsz(buffer, 32)?;
            map(state, records, buffer)
        }
        (0, 114) => {
            check_argsz(buffer, 24)?;
            unmap(state, records, buffer)
        }
        _ => refuse(2), // the others are not measured
    }
}

fn check_argsz(buffer: &[u8], size: usize) -> Answer<()> {
    if buffer.len() < size {
        return refuse(3);
    }
    let argsz = u32_at(buffer, 0) as usize;
    if argsz < size || argsz > buffer.len() {
        return refuse(4);
    }
    Ok(())
}

fn ends_within(start: u64, size: u64, limit: u64) -> bool {
    start <= limit && size <= limit - start
}

fn map(state: &mut State, records: &mut [Mapping], buffer: &[u8]) -> Answer<u64> {
    let new = Mapping {
        rights: Rights(u32_at(buffer, 4)),
        memory: MemoryAddress(u64_at(buffer, 8)),
        device: DeviceAddress(u64_at(buffer, 16)),
        size: u64_at(buffer, 24),
    };
    if !(1..=3).contains(&new.rights.0) {
        return refuse(5);
    }
    if new.size == 0 {
        return refuse(8);
    }
    if !(new.device.0 | new.memory.0 | new.size).is_multiple_of(PAGE_SIZE) {
        return refuse(7);
    }
    if !ends_within(new.device.0, new.size, DEVICE_LIMIT)
        || !ends_within(new.memory.0, new.size, state.memory_length)
    {
        return refuse(9);
    }
    let held = &records[..state.count];
    let place = held.partition_point(|m| end_of(m) <= new.device.0);
    if held.get(place).is_some_and(|m| m.device.0 < end_of(&new)) {
        return refuse(10);
    }
    if state.count == records.len() {
        return refuse(11);
    }
    records.copy_within(place..state.count, place + 1);
    records[place] = new;
    state.count += 1;
    Ok(0)
}

fn unmap(state: &mut State, records: &mut [Mapping], buffer: &mut [u8]) -> Answer<u64> {
    let (device, size) = (u64_at(buffer, 8), u64_at(buffer, 16));
    if u32_at(buffer, 4) != 0 {
        return refuse(5);
    }
    if size == 0 {
        return refuse(8);
    }
    if !(device | size).is_multiple_of(PAGE_SIZE) {
        return refuse(7);
    }
    if !ends_within(device, size, DEVICE_LIMIT) {
        return refuse(9);
    }
    let held = &records[..state.count];
    let end = device + size;
    let first = held.partition_point(|m| end_of(m) <= device);
    let past = held.partition_point(|m| m.device.0 < end);
    let met = &held[first..past];
    let cut_below = met.first().is_some_and(|m| m.device.0 < device);
    let cut_above = met.last().is_some_and(|m| end_of(m) > end);
    if state.iommu_type == IommuType::Type1.number() {
        if cut_below {
            buffer[16..24].fill(0);
            return Ok(0);
        }
    } else if cut_below || cut_above {
        return refuse(12);
    }
    let removed: u64 = met.iter().map(|m| m.size).sum();
    records.copy_within(past..state.count, first);
    state.count -= past - first;
    buffer[16..24].copy_from_slice(&removed.to_le_bytes());
    Ok(0)
}

// ---- registers and parts

/// The words of features that are offered; the first card has the first of them alone.
const OFFERED: [u64; 2] = [0x1_3000_0000, 1];
const HEADER: usize = 16;
const ROWS: usize = REGISTERS + 1;

/// Type, selector and size of each register; row 0 is offered features, row `i + 1` slot `i`. Features
/// have the size of the first card: see [`size_of`].
const TABLE: [(u16, u64, usize); ROWS] = {
    let mut table = [(0x100, 0, 8); ROWS];
    let mut slot = 0;
    while slot < REGISTERS {
        let (kind, selector, size) = SLOTS[slot];
        table[slot + 1] = (kind as u16, selector, size);
        slot += 1;
    }
    table
};

/// The size of a row's value on a card.
fn size_of(words: u8, row: usize) -> usize {
    match row {
        0 | 1 => 8 * usize::from(words),
        _ => TABLE[row].2,
    }
}

/// Whether a test holds of each word of features and what is offered there.
fn each_word(words: u8, v: &[u8], test: impl Fn(u64, u64) -> bool) -> bool {
    (0..usize::from(words)).all(|i| test(u64_at(v, 8 * i), OFFERED[i]))
}

/// What a value of the right length must satisfy. `v` may have more bytes behind it.
fn good_content(words: u8, row: usize, v: &[u8]) -> Answer<()> {
    let good = match row {
        0 if !each_word(words, v, |word, offered| word == offered) => return refuse(23),
        1 if !each_word(words, v, |word, offered| word & !offered == 0) => return refuse(23),
        7..=10 => good_queue(v),
        11..=14 => u32_at(v, 4) == 0,
        _ => true,
    };
    if good {
        Ok(())
    } else {
        refuse(22)
    }
}

fn good_queue(v: &[u8]) -> bool {
    let (size, enabled) = (u16_at(v, 0), u16_at(v, 4));
    (size.is_power_of_two() || size == 0 && enabled == 0)
        && size <= 256
        && enabled <= 1
        && u16_at(v, 6) == 0
        && u64_at(v, 8).is_multiple_of(16)
        && u64_at(v, 16).is_multiple_of(2)
        && u64_at(v, 24).is_multiple_of(4)
}

#[inline(never)]
pub fn save_parts(state: &State, records: &[Mapping], buffer: &mut [u8]) -> Answer<u64> {
    if !sound(state, records) {
        return refuse(1);
    }
    if state.is_running() {
        return refuse(17);
    }
    let slots = &state.registers.slots;
    let set = |row: usize| row == 0 || slots[row - 1].is_set();
    let length: usize = (0..ROWS)
        .filter(|row| set(*row))
        .map(|row| HEADER + size_of(state.words, row))
        .sum();
    if buffer.len() < length {
        return refuse(27);
    }
    let mut offered = [0; 16];
    offered[..8].copy_from_slice(&OFFERED[0].to_le_bytes());
    offered[8..].copy_from_slice(&OFFERED[1].to_le_bytes());
    let mut rest = &mut buffer[..length];
    for row in (0..ROWS).filter(|row| set(*row)) {
        let (kind, selector, _) = TABLE[row];
        let size = size_of(state.words, row);
        let value = if row == 0 {
            &offered[..size]
        } else {
            &slots[row - 1].bytes[..size]
        };
        let (part, behind) = rest.split_at_mut(HEADER + size);
        part[..2].copy_from_slice(&kind.to_le_bytes());
        part[2] = (row == 0) as u8;
        part[3] = 0;
        part[4..12].copy_from_slice(&selector.to_le_bytes());
        part[12..16].copy_from_slice(&(size as u32).to_le_bytes());
        part[HEADER..].copy_from_slice(value);
        rest = behind;
    }
    Ok(length as u64)
}

#[inline(never)]
pub fn load_parts(state: &mut State, records: &[Mapping], stream: &[u8]) -> Answer<u64> {
    if !sound(state, records) {
        return refuse(1);
    }
    if state.is_running() {
        return refuse(17);
    }
    if stream.len() > TRANSFER_LIMIT {
        return refuse(13);
    }
    let mut loaded = Registers::default();
    let mut offered_seen = false;
    let mut rest = stream;
    while !rest.is_empty() {
        let start = (stream.len() - rest.len()) as u64;
        let place = |refusal: Refusal| Refusal {
            place: start,
            ..refusal
        };
        let (part, behind) = next_part(rest).map_err(place)?;
        rest = behind;
        let Some(row) = row_of(&part).map_err(place)? else {
            continue;
        };
        let size = size_of(state.words, row);
        if part.value.len() != size {
            return at(22, start);
        }
        let seen = if row == 0 {
            offered_seen
        } else {
            loaded.slots[row - 1].is_set()
        };
        if seen {
            return at(21, start);
        }
        good_content(state.words, row, part.value).map_err(place)?;
        if row == 0 {
            offered_seen = true;
        } else {
            let mut bytes = [0; 32];
            bytes[..size].copy_from_slice(part.value);
            loaded.slots[row - 1] = Register { set: 1, bytes };
        }
    }
    if !loaded.slots[STATUS].is_set() {
        return at(24, stream.len() as u64);
    }
    state.registers = loaded;
    Ok(0)
}

struct Part<'a> {
    kind: u16,
    optional: bool,
    selector: u64,
    value: &'a [u8],
}

fn next_part(rest: &[u8]) -> Answer<(Part<'_>, &[u8])> {
    let Some((header, behind)) = rest.split_at_checked(HEADER) else {
        return refuse(18);
    };
    if header[2] > 1 || header[3] != 0 {
        return refuse(19);
    }
    let Some((value, behind)) = behind.split_at_checked(u32_at(header, 12) as usize) else {
        return refuse(18);
    };
    let part = Part {
        kind: u16_at(header, 0),
        optional: header[2] == 1,
        selector: u64_at(header, 4),
        value,
    };
    Ok((part, behind))
}

/// The row of a part; nothing for one that is skipped.
fn row_of(part: &Part) -> Answer<Option<usize>> {
    let limit = match part.kind {
        0x600.. => return refuse(20),
        0x102 => 1 << 32,
        0x104 | 0x105 => 1 << 16,
        0x100 | 0x101 | 0x103 => 1,
        _ if part.optional => return Ok(None),
        _ => return refuse(20),
    };
    if part.optional != (part.kind == 0x100) || part.selector >= limit {
        return refuse(19);
    }
    let row = match (part.kind, part.selector) {
        (0x100, _) => 0,
        (0x101, _) => 1,
        (0x102, 0) => 2,
        (0x102, 8) => 3,
        (0x102, 16) => 4,
        (0x102, 22) => 5,
        (0x103, _) => 6,
        (0x104, queue @ 0..=3) => 7 + queue as usize,
        (0x105, queue @ 0..=3) => 11 + queue as usize,
        _ => return refuse(6),
    };
    Ok(Some(row))
}
