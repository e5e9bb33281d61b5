//! Whether a stream is what saving writes: the proved check and the second program's, which tries, on saves, on damaged saves, on streams
//! that load and are no saves, on the other card's saves, and on saves with bytes behind them.

use glint_differential::random::Random;
use glint_differential::streams::good_value;
use glint_reference::check_save::{check_save as tried, SaveCheck as Tried};
use glintbasket::{check_save, Card, OwnedBench, SaveCheck, SAVED_MAX};

const CARDS: [Card; 2] = [Card::Features64, Card::Features128];

/// Every register that can be set, with the length of its value; features have 8 bytes for each word.
const REGISTERS: [(u64, u64, usize); 14] = [
    (0x101, 0, 8),
    (0x102, 0, 4),
    (0x102, 8, 4),
    (0x102, 16, 2),
    (0x102, 22, 2),
    (0x103, 0, 1),
    (0x104, 0, 32),
    (0x104, 1, 32),
    (0x104, 2, 32),
    (0x104, 3, 32),
    (0x105, 0, 8),
    (0x105, 1, 8),
    (0x105, 2, 8),
    (0x105, 3, 8),
];

/// What both say of a stream, which must be the same.
fn agreed(card: Card, stream: &[u8]) -> SaveCheck {
    let found = check_save(card, stream);
    let second = match tried(u64::from(card.words()), stream) {
        Tried::Save => SaveCheck::Save,
        Tried::DiffersAt(length) => SaveCheck::DiffersAt(length),
    };
    assert_eq!(found, second, "{card:?}: {stream:02x?}");
    found
}

fn bench(card: Card) -> OwnedBench {
    OwnedBench::with_memory_and_card(vec![0; 1], card).expect("a fresh start")
}

/// A save in which each register is set that `set` says, with any good value.
fn save(card: Card, random: &mut Random, set: impl Fn(&mut Random) -> bool) -> Vec<u8> {
    let mut bench = bench(card);
    for (kind, selector, length) in REGISTERS {
        let words = if kind == 0x101 { card.words() } else { 1 };
        if set(random) {
            let value = good_value(kind, length * usize::from(words), random);
            bench
                .set_register(kind, selector, &value)
                .expect("a good value");
        }
    }
    let mut buffer = [0; SAVED_MAX];
    let length = bench.save_parts(&mut buffer).expect("a stopped device");
    buffer[..length].to_vec()
}

/// Saves of both cards: the shortest, the longest, and some between.
fn saves() -> Vec<(Card, Vec<u8>)> {
    let mut random = Random::new(9);
    let mut list = Vec::new();
    for card in CARDS {
        list.push((card, save(card, &mut random, |_| false)));
        list.push((card, save(card, &mut random, |_| true)));
        for odds in 2..6 {
            list.push((card, save(card, &mut random, |r| r.one_in(odds))));
        }
    }
    list
}

/// The places where parts begin, and the end.
fn bounds(stream: &[u8]) -> Vec<usize> {
    let mut places = vec![0];
    let mut place = 0;
    while place < stream.len() {
        place += 16 + stream[place + 12] as usize;
        places.push(place);
    }
    places
}

#[test]
fn saves_are_saves_of_their_own_card() {
    for (card, stream) in saves() {
        assert_eq!(agreed(card, &stream), SaveCheck::Save);
        let other = if card == CARDS[0] { CARDS[1] } else { CARDS[0] };
        assert_eq!(agreed(other, &stream), SaveCheck::DiffersAt(12));
    }
}

#[test]
fn beginnings_of_saves() {
    for (card, stream) in saves() {
        for length in 0..stream.len() {
            match agreed(card, &stream[..length]) {
                SaveCheck::Save => assert!(bounds(&stream).contains(&length)),
                SaveCheck::DiffersAt(place) => assert_eq!(place, length),
            }
        }
    }
}

/// Each byte of each save, changed to both its neighbours, to its complement and to 0.
#[test]
fn damaged_saves() {
    let mut good = 0;
    for (card, stream) in saves() {
        for place in 0..stream.len() {
            let byte = stream[place];
            for other in [byte.wrapping_add(1), byte.wrapping_sub(1), !byte, 0] {
                let mut damaged = stream.clone();
                damaged[place] = other;
                match agreed(card, &damaged) {
                    SaveCheck::Save => good += 1,
                    SaveCheck::DiffersAt(length) => assert!(length >= place),
                }
            }
        }
    }
    assert!(good > 1000, "most bytes of values are free: {good}");
}

/// Every change of the first eight bytes of a queue's value, two bytes at a time.
#[test]
fn a_queues_size_and_flags() {
    let mut bench = bench(CARDS[0]);
    bench
        .set_register(0x104, 3, &[0; 32])
        .expect("a good queue");
    let mut buffer = [0; SAVED_MAX];
    let length = bench.save_parts(&mut buffer).expect("a stopped device");
    let value = length - 32;
    for low in 0..=255 {
        for high in [0, 1, 2, 255] {
            for enabled in [0, 1, 2, 255] {
                let mut stream = buffer[..length].to_vec();
                stream[value..value + 5].copy_from_slice(&[low, high, 7, 7, enabled]);
                agreed(CARDS[0], &stream);
            }
        }
    }
}

/// They load, so that each is a stream that a device takes, and none is a save.
#[test]
fn streams_that_load_and_are_no_saves() {
    let mut loaded = 0;
    for (card, stream) in saves() {
        let bounds = bounds(&stream);
        let parts: Vec<&[u8]> = bounds.windows(2).map(|w| &stream[w[0]..w[1]]).collect();
        let mut streams = vec![parts[1..].concat()]; // without offered features
        for at in 1..parts.len() {
            let mut swapped = parts.clone();
            swapped.swap(at - 1, at);
            streams.push(swapped.concat());
        }
        for at in 0..=parts.len() {
            // An optional part of an unlisted type, which loading passes over.
            let mut with = parts.clone();
            with.insert(
                at,
                &[0x06, 1, 1, 0, 0, 0, 0, 0, 0, 0, 0, 0, 2, 0, 0, 0, 9, 9],
            );
            streams.push(with.concat());
        }
        for stream in streams {
            assert_eq!(bench(card).load_parts(&stream), Ok(()), "{stream:02x?}");
            assert_ne!(agreed(card, &stream), SaveCheck::Save);
            loaded += 1;
        }
    }
    assert!(loaded > 100);
}

#[test]
fn saves_with_bytes_behind_them() {
    let mut random = Random::new(99);
    for (card, stream) in saves() {
        for count in [1, 2, 15, 16, 17, 48, 500] {
            let tail = random.bytes(count);
            let zeros = vec![0; count];
            let again = stream[..count.min(stream.len())].to_vec();
            for tail in [tail, zeros, again] {
                let with = [&stream[..], &tail].concat();
                match agreed(card, &with) {
                    SaveCheck::Save => panic!("{with:02x?}"),
                    SaveCheck::DiffersAt(length) => assert!(length >= stream.len()),
                }
            }
        }
        // Another save's parts behind it, from each of their bounds on.
        for (_, other) in saves() {
            for from in bounds(&other) {
                let with = [&stream[..], &other[from..]].concat();
                match agreed(card, &with) {
                    SaveCheck::Save => {}
                    SaveCheck::DiffersAt(length) => assert!(length >= stream.len()),
                }
            }
        }
    }
}

#[test]
fn any_bytes() {
    let mut random = Random::new(999);
    for _ in 0..20_000 {
        let (card, stream) = (random.pick(&CARDS), random.below(80) as usize);
        let mut stream = random.bytes(stream);
        for byte in &mut stream {
            *byte = random.pick(&[*byte, 0, 1, 2, 3, 4, 5, 8]);
        }
        agreed(card, &stream);
    }
    agreed(CARDS[0], &vec![0; 100_000]);
}
