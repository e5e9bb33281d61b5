//! Values of registers, and streams of parts: good ones, and ones with a few faults.

use glintbasket::raw::SLOTS;

use crate::random::Random;

/// The features that the cards offer; the first card has the first word.
const OFFERED: [u64; 2] = [0x1_3000_0000, 1];

/// A value that the register's type accepts; of features, the length says whose.
pub fn good_value(kind: u64, length: usize, random: &mut Random) -> Vec<u8> {
    let mut value = random.bytes(length);
    match kind {
        0x100 | 0x101 => {
            for (word, offered) in value.chunks_mut(8).zip(OFFERED) {
                let bits = if kind == 0x100 {
                    u64::MAX
                } else {
                    random.number()
                };
                word.copy_from_slice(&(bits & offered).to_le_bytes());
            }
        }
        0x104 => {
            // Size 0 only where the queue is not enabled.
            let available = !random.one_in(6);
            let size = u16::from(available) << random.below(9);
            let enabled = available && random.one_in(2);
            value[..2].copy_from_slice(&size.to_le_bytes());
            value[4..8].copy_from_slice(&[u8::from(enabled), 0, 0, 0]);
            value[8] &= 0xf0;
            value[16] &= 0xfe;
            value[24] &= 0xfc;
        }
        0x105 => value[4..].fill(0),
        _ => {}
    }
    value
}

/// A value for a register of this length: mostly a good one.
pub fn value(kind: u64, length: usize, random: &mut Random) -> Vec<u8> {
    let fits = matches!(
        (kind, length),
        (0x100 | 0x101 | 0x105, 8) | (0x100 | 0x101, 16) | (0x104, 32)
    );
    let mut value = if fits {
        good_value(kind, length, random)
    } else {
        random.bytes(length)
    };
    if random.one_in(4) {
        spoil_value(kind, &mut value, random);
    }
    match random.below(24) {
        0 => value.truncate(length.saturating_sub(1)),
        1 => value.push(0),
        2 => value.clear(),
        3 => value.resize(random.pick(&[1, 2, 4, 8, 32, 33]), 0),
        _ => {}
    }
    value
}

/// Breaks one rule of the type, or goes to the edge of one.
pub fn spoil_value(kind: u64, value: &mut [u8], random: &mut Random) {
    match (kind, value.len()) {
        (0x100 | 0x101, 8 | 16) => {
            let bit = random.below(8 * value.len() as u64);
            value[bit as usize / 8] ^= 1 << (bit % 8);
        }
        (0x104, 32) => match random.below(8) {
            0 => value[..2]
                .copy_from_slice(&random.pick(&[0u16, 3, 512, 257, 255, 0x8000]).to_le_bytes()),
            1 => value[4..6].copy_from_slice(&random.pick(&[2u16, 256, 0x8001]).to_le_bytes()),
            2 => value[6 + random.below(2) as usize] = random.pick(&[1, 128]),
            3 => value[8] |= random.pick(&[1, 2, 4, 8]),
            4 => value[16] |= 1,
            5 => value[24] |= random.pick(&[1, 2]),
            // On the edge: still good.
            6 => value[16] |= 2,
            _ => value[24] |= 4,
        },
        (0x105, 8) => value[4 + random.below(4) as usize] = random.pick(&[1, 128]),
        (_, 1..) => {
            let i = random.below(value.len() as u64) as usize;
            value[i] = random.byte();
        }
        _ => {}
    }
}

/// A part before it is written down. `length` may tell a lie about the value.
#[derive(Clone)]
struct Part {
    kind: u16,
    flags: u8,
    reserved: u8,
    selector: u64,
    length: u32,
    value: Vec<u8>,
}

impl Part {
    fn new(kind: u16, selector: u64, value: Vec<u8>) -> Part {
        Part {
            kind,
            flags: (kind == 0x100) as u8,
            reserved: 0,
            selector,
            length: value.len() as u32,
            value,
        }
    }

    fn write(&self, stream: &mut Vec<u8>) {
        stream.extend(self.kind.to_le_bytes());
        stream.extend([self.flags, self.reserved]);
        stream.extend(self.selector.to_le_bytes());
        stream.extend(self.length.to_le_bytes());
        stream.extend(&self.value);
    }
}

/// A stream for a card, or now and then for the other one: parts in any order, mostly with a status
/// part, and with up to three faults.
pub fn stream(words: u64, random: &mut Random) -> Vec<u8> {
    let mut parts = Vec::new();
    let words = if random.one_in(8) { 3 - words } else { words } as usize;
    if random.one_in(2) {
        parts.push(Part::new(0x100, 0, good_value(0x100, 8 * words, random)));
    }
    let often = random.pick(&[2, 3, 8]);
    for (kind, selector, length) in SLOTS {
        let length = if kind == 0x101 { 8 * words } else { length };
        if kind == 0x103 || random.one_in(often) {
            let value = good_value(kind, length, random);
            parts.push(Part::new(kind as u16, selector, value));
        }
    }
    if random.one_in(3) {
        for i in (1..parts.len()).rev() {
            parts.swap(i, random.below(i as u64 + 1) as usize);
        }
    }
    for _ in 0..random.pick(&[0, 0, 1, 1, 1, 1, 2, 3]) {
        spoil(&mut parts, random);
    }
    let mut stream = Vec::new();
    for part in &parts {
        part.write(&mut stream);
    }
    match random.below(40) {
        0..=1 => stream.truncate(random.below(stream.len() as u64 + 1) as usize),
        2 => stream.resize(stream.len() + random.from(1, 17) as usize, 0),
        3 if !stream.is_empty() => {
            let i = random.below(stream.len() as u64) as usize;
            stream[i] = random.byte();
        }
        4 if random.one_in(4) => lengthen(&mut stream, random),
        5 if random.one_in(4) => stream.clear(),
        _ => {}
    }
    stream
}

/// Adds a part that is skipped, so that the stream is about as long as a stream may be.
fn lengthen(stream: &mut Vec<u8>, random: &mut Random) {
    let length = random.pick(&[65_535, 65_536, 65_536, 65_537, 65_552]);
    let mut skipped = Part::new(0x300, 0, vec![0; length - stream.len() - 16]);
    skipped.flags = 1;
    skipped.write(stream);
}

fn spoil(parts: &mut Vec<Part>, random: &mut Random) {
    if parts.is_empty() {
        return;
    }
    let i = random.below(parts.len() as u64) as usize;
    match random.below(18) {
        0 => parts.retain(|part| part.kind != 0x103),
        1 | 2 => {
            let mut again = parts[i].clone();
            match random.below(4) {
                0 => again.value.push(0),
                1 => spoil_value(u64::from(again.kind), &mut again.value, random),
                _ => {}
            }
            again.length = again.value.len() as u32;
            let at = random.below(parts.len() as u64 + 1) as usize;
            parts.insert(at, again);
        }
        3 => parts[i].flags ^= 1,
        4 => parts[i].flags = random.pick(&[2, 3, 128, 255]),
        5 => parts[i].reserved = random.pick(&[1, 128]),
        6 => {
            let part = &mut parts[i];
            part.selector = random.pick(&[1, 3, 4, 5, 12, 18, 20, 22, 256, 0xffff]);
        }
        7 => parts[i].selector |= random.pick(&[1 << 16, 1 << 31, 1 << 32, 1 << 63]),
        8 => {
            let part = &mut parts[i];
            part.value.push(random.byte());
            part.length = part.value.len() as u32;
        }
        9 => {
            let part = &mut parts[i];
            part.value.pop();
            part.length = part.value.len() as u32;
        }
        10 => parts[i].length = random.pick(&[u32::MAX, 0xffff_fff0, 1 << 31, 70_000, 500]),
        11 => {
            let part = &mut parts[i];
            part.length = part.length.wrapping_add(random.pick(&[1, u32::MAX]));
        }
        12 => {
            let kind = random.pick(&[0, 1, 0xff, 0x106, 0x1ff, 0x200, 0x2ff, 0x300, 0x5ff]);
            insert_unlisted(parts, kind, random);
        }
        13 => {
            let kind = random.pick(&[0x600, 0x601, 0x1000, 0xffff]);
            insert_unlisted(parts, kind, random);
        }
        _ => {
            let part = &mut parts[i];
            spoil_value(u64::from(part.kind), &mut part.value, random);
        }
    }
}

fn insert_unlisted(parts: &mut Vec<Part>, kind: u16, random: &mut Random) {
    let length = random.pick(&[0, 1, 8, 40]);
    let mut part = Part::new(kind, random.number(), random.bytes(length));
    part.flags = !random.one_in(4) as u8;
    let at = random.below(parts.len() as u64 + 1) as usize;
    parts.insert(at, part.clone());
    if random.one_in(3) {
        parts.push(part);
    }
}
