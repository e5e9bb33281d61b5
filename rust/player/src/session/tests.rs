//! Reading: every kind of word, and faults with their lines and columns.

use super::*;
use glintbasket::device_file::Header;
use glintbasket::{DeviceAddress, MemoryAddress};

fn faults(file: &str) -> Vec<(usize, usize, String)> {
    faults_of(file.as_bytes())
}

fn faults_of(file: &[u8]) -> Vec<(usize, usize, String)> {
    match read(file) {
        Ok(session) => panic!("no fault: {session:?}"),
        Err(faults) => faults
            .into_iter()
            .map(|fault| (fault.line, fault.column, fault.message))
            .collect(),
    }
}

/// The columns of faults of a line behind a sound `memory` line.
fn columns(line: &str) -> Vec<usize> {
    let faults = faults(&format!("memory 0x1000\n{line}\n"));
    assert!(faults.iter().all(|fault| fault.0 == 2), "{faults:?}");
    faults.iter().map(|fault| fault.1).collect()
}

/// The one fault of a line, as its column and message.
fn fault(line: &str) -> (usize, String) {
    let mut faults = faults(&format!("memory 0x1000\n{line}\n"));
    assert_eq!(faults.len(), 1, "{faults:?}");
    let (_, column, message) = faults.remove(0);
    (column, message)
}

fn step(line: &str) -> Step {
    let session = read(format!("memory 0x1000\n{line}").as_bytes());
    let mut steps = session.expect(line).steps;
    assert_eq!(steps.len(), 1);
    steps.remove(0)
}

fn call(line: &str) -> Call {
    step(line).call
}

/// The bytes of a host store, of which none is stale.
fn bytes(words: &str) -> Vec<u8> {
    match call(&format!("host-store 0 {words}")) {
        Call::HostStore(_, bytes) => bytes.fill(0xee),
        other => panic!("{other:?}"),
    }
}

/// The target, number and buffer of a request, in which stale bytes are 0xee.
fn request(line: &str) -> (u64, u64, Vec<u8>) {
    match call(&format!("request {line}")) {
        Call::Request {
            target,
            number,
            buffer,
        } => (target, number, buffer.fill(0xee)),
        other => panic!("{other:?}"),
    }
}

#[test]
fn the_memory_line_gives_size_and_garbage() {
    let session = read(b"memory 0x2000").unwrap();
    assert_eq!((session.memory_size, session.garbage), (0x2000, 0xa5));
    let session = read(b"# first\n\n\tmemory 1073741824 garbage 7 # last\n").unwrap();
    assert_eq!((session.memory_size, session.garbage), (1 << 30, 7));
    assert_eq!(read(b"memory 0").unwrap().memory_size, 0);
}

#[test]
fn the_memory_line_gives_the_room_for_mappings() {
    let records = |line: &str| read(line.as_bytes()).unwrap().records;
    assert_eq!(records("memory 0"), 64);
    assert_eq!(records("memory 0 mappings 0"), 0);
    assert_eq!(records("memory 1 garbage 0 card 128 mappings 0x1000"), 4096);
    let fault = &faults("memory 0 mappings 4097")[0];
    assert_eq!(fault.2, "N: `4097` is above 4096");
}

#[test]
fn the_memory_line_has_faults() {
    let place = |file| {
        let faults = faults(file);
        assert_eq!(faults.len(), 1, "{faults:?}");
        (faults[0].0, faults[0].1)
    };
    assert_eq!(place(""), (1, 1));
    assert_eq!(place("# nothing\npower-on\nstop\n"), (1, 1));
    assert_eq!(place("power-on\nmemory 1\n"), (2, 1));
    assert_eq!(place("memory 1\nmemory 1\n"), (2, 1));
    assert_eq!(place("memory"), (1, 7));
    assert_eq!(place("memory x"), (1, 8));
    assert_eq!(place("memory 1073741825"), (1, 8));
    assert_eq!(place("memory 1 garbage"), (1, 17));
    assert_eq!(place("memory 1 garbage 256"), (1, 18));
    assert_eq!(place("memory 1 rubbish 3"), (1, 10));
    assert_eq!(place("memory 1 mappings"), (1, 18));
    assert_eq!(place("memory 1 mappings many"), (1, 19));
    assert_eq!(place("memory 1 mappings 4097"), (1, 19));
    assert_eq!(place("memory 1 mappings 1 garbage 0"), (1, 21));
    assert_eq!(place("memory 1 => ok 0"), (1, 10));
}

#[test]
fn all_faults_are_given_in_order() {
    let places: Vec<_> = faults("power-on x\nfoo\ncard-read x y\n")
        .into_iter()
        .map(|(line, column, _)| (line, column))
        .collect();
    assert_eq!(places, [(1, 1), (1, 10), (2, 1), (3, 11), (3, 13)]);
}

#[test]
fn numbers_are_decimal_or_hexadecimal() {
    let device = |word| call(&format!("look-up {word}"));
    let looked_up = |address| Call::LookUp(DeviceAddress(address));
    assert_eq!(device("010"), looked_up(10));
    assert_eq!(device("0xfF"), looked_up(255));
    assert_eq!(device("18446744073709551615"), looked_up(u64::MAX));
    assert_eq!(device("0x00000000000000000001"), looked_up(1));
    for word in [
        "0x",
        "0X1",
        "+1",
        "-1",
        "1_0",
        "1.5",
        "x",
        "18446744073709551616",
        "0x10000000000000000",
        "\"1\"",
    ] {
        assert_eq!(columns(&format!("look-up {word}")), [9], "{word}");
    }
}

#[test]
fn bytes_are_pairs_repeated_pairs_or_text() {
    assert_eq!(bytes("5a"), [0x5a]);
    assert_eq!(bytes("5a5B 5c"), [0x5a, 0x5b, 0x5c]);
    assert_eq!(bytes("01*3 02*0x2"), [1, 1, 1, 2, 2]);
    assert_eq!(bytes("01*0"), []);
    assert_eq!(bytes("-"), []);
    assert_eq!(bytes("\"\""), []);
    assert_eq!(bytes(r#""a b#\\\"\n\x0f""#), b"a b#\\\"\n\x0f");
    assert_eq!(bytes("\"\t=>\u{1}\" 00"), b"\t=>\x01\0");
    assert_eq!(bytes("\"\u{e9}\""), [0xc3, 0xa9]);
    assert_eq!(bytes("01#02"), [1]);
    assert_eq!(bytes("00*1048576").len(), 1 << 20);
}

#[test]
fn faulty_bytes_are_told_where_they_stand() {
    for (words, expected) in [
        ("5", vec![14]),
        ("5a5", vec![14]),
        ("5a zz", vec![17]),
        ("zz yy", vec![14, 17]),
        ("5a*", vec![14]),
        ("5a*x", vec![14]),
        ("5a*2*3", vec![14]),
        ("5a5b*2", vec![14]),
        ("*2", vec![14]),
        ("- 5a", vec![16]),
        ("5a -", vec![17]),
        ("?", vec![14]),
        ("?*4", vec![14]),
        ("00 ?*0", vec![17]),
        ("\"abc", vec![14]),
        (r#""a\q" zz"#, vec![16, 20]),
        (r#""a\x4""#, vec![16]),
        ("5a\"x\"", vec![16]),
        ("\"x\"5a", vec![17]),
        ("\"\u{e9}\" zz", vec![18]),
        ("00*1048577", vec![14]),
        ("00*1048576 01 02", vec![25]),
        ("00*18446744073709551615 00*18446744073709551615", vec![14]),
    ] {
        let line = format!("host-store 0 {words}");
        assert_eq!(columns(&line), expected, "{words}");
    }
}

#[test]
fn messages_help() {
    let message = |line| fault(line).1;
    assert!(message("host-store 0 5a5").contains("an odd number of"));
    assert!(message("host-store 0 0x5a").contains("without `0x`"));
    let long = format!("host-store 0 {}", "5".repeat(1_000_001));
    assert!(message(&long).len() < 200);
    let long = format!("look-up {}", "\u{e9}".repeat(1_000_000));
    assert!(message(&long).len() < 200);
}

#[test]
fn stale_bytes_stand_in_requests_alone() {
    assert_eq!(request("1 7 00 ?*2 01"), (1, 7, vec![0, 0xee, 0xee, 1]));
    let (column, message) = fault("load-parts ?*4");
    assert_eq!(column, 12);
    assert!(message.contains("only in the buffer of a request"));
}

#[test]
fn every_call_is_read() {
    let (device, memory) = (DeviceAddress(1), MemoryAddress(1));
    assert_eq!(call("power-on"), Call::PowerOn(Card::Features64));
    assert_eq!(call("look-up 1"), Call::LookUp(device));
    let walk = |queue, last, room| Call::WalkQueue { queue, last, room };
    assert_eq!(call("walk-queue 0 0xffff"), walk(0, 65535, None));
    assert_eq!(call("walk-queue 4294967296 1"), walk(1 << 32, 1, None));
    assert_eq!(call("walk-queue 3 1 room 6"), walk(3, 1, Some(6)));
    assert_eq!(call("card-read 1 2"), Call::CardRead(device, 2));
    assert!(matches!(call("card-write 1 00"), Call::CardWrite(d, _) if d == device));
    assert!(matches!(call("host-store 1 00"), Call::HostStore(m, _) if m == memory));
    assert_eq!(call("host-load 1 1048576"), Call::HostLoad(memory, 1 << 20));
    let forget = Call::Forget(memory, u64::MAX);
    assert_eq!(call("forget 1 0xffffffffffffffff"), forget);
    let set = call("set-register 0x103 2 0f");
    assert!(matches!(
        set,
        Call::SetRegister {
            kind: 0x103,
            selector: 2,
            ..
        }
    ));
    let read = Call::ReadRegister {
        kind: 0x103,
        selector: 2,
        room: 3,
    };
    assert_eq!(call("read-register 0x103 2 3"), read);
    assert!(matches!(call("load-parts -"), Call::LoadParts(_)));
    assert_eq!(call("save-parts 429"), Call::SaveParts(429));
    assert_eq!(call("stop"), Call::Stop);
    assert_eq!(call("start"), Call::Start);
    assert!(matches!(call("step 17 -"), Call::Step(17, _)));
    let checked = |line| match call(line) {
        Call::CheckSave(card, stream) => (card, stream.fill(0)),
        other => panic!("{other:?}"),
    };
    assert_eq!(checked("check-save -"), (Card::Features64, vec![]));
    assert_eq!(
        checked("check-save card 128 00 01"),
        (Card::Features128, vec![0, 1])
    );
    assert!(matches!(
        call("read-device-file 00"),
        Call::ReadDeviceFile(_)
    ));
    assert!(matches!(
        call("read-device-record 18446744073709551615 00"),
        Call::ReadDeviceRecord(u64::MAX, _)
    ));
    let start = Call::StartDeviceFile {
        room: 12,
        header: Header {
            magic: 0x7063_6900,
            version: 1,
            flags: u32::MAX,
        },
    };
    assert_eq!(call("start-device-file 12 0x70636900 1 4294967295"), start);
    let appended = |line| match call(line) {
        Call::AppendDeviceRecord {
            room: 64,
            kind: 2,
            content,
            file,
        } => (content.fill(0), file.fill(0)),
        other => panic!("{other:?}"),
    };
    assert_eq!(
        appended("append-device-record 64 2 \"to\" 00*2 to 01 02"),
        (b"to\0\0".to_vec(), vec![1, 2])
    );
    assert_eq!(
        appended("append-device-record 64 2 - to -"),
        (vec![], vec![])
    );
}

#[test]
fn words_are_missing_or_too_many() {
    assert_eq!(fault("card-read"), (10, "DEVICE is missing".to_string()));
    let missing = "SELECTOR is missing".to_string();
    assert_eq!(fault("set-register 1 # x"), (15, missing));
    assert_eq!(columns("set-register x"), [14, 15]);
    assert_eq!(columns("host-store 0"), [13]);
    assert_eq!(columns("request"), [8]);
    assert_eq!(columns("request container"), [18]);
    assert_eq!(columns("request container 100"), [22]);
    assert_eq!(columns("walk-queue"), [11]);
    assert_eq!(columns("walk-queue 0"), [13]);
    assert_eq!(columns("walk-queue 0 0 room"), [20]);
    assert_eq!(columns("walk-queue 0 65536 6"), [14, 20]);
    assert_eq!(columns("walk-queue 0 0 room 6 6"), [23]);
    assert_eq!(columns("read-device-file"), [17]);
    assert_eq!(columns("start-device-file 12 0x100000000 0"), [22, 35]);
    assert_eq!(columns("append-device-record 64"), [24]);
    assert_eq!(columns("append-device-record 64 2 00"), [29]);
    assert_eq!(columns("append-device-record 64 2 to 00"), [27]);
    assert_eq!(columns("append-device-record 64 2 00 to"), [32]);
    assert_eq!(columns("append-device-record 64 2 - 00 to 00"), [29]);
    assert_eq!(columns("append-device-record 64 2 0g to ?*1"), [27, 33]);
    assert_eq!(columns("append-device-record 64 2 00 to 00 to"), [36]);
    let (column, message) = fault("card-read 1 2 3 4");
    assert_eq!(column, 15);
    assert!(message.contains("card-read DEVICE LENGTH"));
}

#[test]
fn buffers_have_a_limit() {
    assert_eq!(columns("card-read 0 1048577"), [13]);
    assert_eq!(columns("walk-queue 0 0 room 1048577"), [21]);
    assert_eq!(columns("host-load 0 1048577"), [13]);
    assert_eq!(columns("read-register 1 0 1048577"), [19]);
    assert_eq!(columns("save-parts 1048577"), [12]);
    assert_eq!(columns("request container map room=1048577"), [28]);
}

#[test]
fn unknown_calls_are_told() {
    let (column, message) = fault("  lookup 1");
    assert_eq!(column, 3);
    assert!(message.starts_with("`lookup` is no call; calls are power-on, "));
    assert_eq!(columns("Power-on"), [1]);
    assert_eq!(columns("\"power-on\""), [1]);
}

#[test]
fn requests_by_number_take_any_target() {
    assert_eq!(request("container 100 -"), (0, 100, vec![]));
    assert_eq!(request("device 0x6b 01"), (1, 107, vec![1]));
    assert_eq!(request("0x100000000 1 -"), (1 << 32, 1, vec![]));
    assert_eq!(columns("request box 100 -"), [9]);
    assert_eq!(columns("request container 1x -"), [19]);
}

#[test]
fn named_requests_have_defaults_and_stale_bytes() {
    assert_eq!(request("container api-version"), (0, 100, vec![]));
    assert_eq!(request("device reset"), (1, 111, vec![]));
    let extension = (0, 101, vec![3, 0, 0, 0]);
    assert_eq!(request("container check-extension number=3"), extension);
    let iommu = (0, 102, vec![1, 0, 0, 0]);
    assert_eq!(request("container set-iommu number=1"), iommu);
    assert_eq!(columns("request container set-iommu argsz=4"), [29]);
    assert_eq!(columns("request device set-iommu number=1"), [16]);
    let mut info = vec![16, 0, 0, 0];
    info.extend([0xee; 12]);
    assert_eq!(request("0 iommu-info"), (0, 112, info.clone()));
    assert_eq!(request("1 info"), (1, 107, info));
    let mut irq = vec![16, 0, 0, 0, 0xee, 0xee, 0xee, 0xee, 2, 1, 0, 0];
    irq.extend([0xee; 4]);
    assert_eq!(request("device irq-info index=0x102"), (1, 109, irq));
    let (_, number, region) = request("device region-info");
    assert_eq!((number, region.len(), region[0]), (108, 32, 32));
}

#[test]
fn fields_of_map_and_unmap_come_in_any_order() {
    let (target, number, buffer) =
        request("container map size=4 device=3 memory=2 flags=1 argsz=5");
    assert_eq!((target, number), (0, 113));
    let mut expected = vec![5, 0, 0, 0, 1, 0, 0, 0];
    for field in [2u64, 3, 4] {
        expected.extend(field.to_le_bytes());
    }
    assert_eq!(buffer, expected);
    let (_, number, buffer) = request("container unmap device=0x0102 size=0xffffffffffffffff");
    let mut expected = vec![24, 0, 0, 0, 0, 0, 0, 0, 2, 1, 0, 0, 0, 0, 0, 0];
    expected.extend([0xff; 8]);
    assert_eq!((number, buffer), (114, expected));
}

#[test]
fn room_cuts_or_lengthens_a_buffer() {
    let buffer = |room: &str| request(&format!("device irq-info index=258 room={room}")).2;
    assert_eq!(buffer("0"), []);
    assert_eq!(buffer("3"), [16, 0, 0]);
    assert_eq!(buffer("9"), [16, 0, 0, 0, 0xee, 0xee, 0xee, 0xee, 2]);
    assert_eq!(buffer("20").len(), 20);
    assert_eq!(buffer("20")[12..], [0xee; 8]);
}

#[test]
fn data_stand_behind_the_fields() {
    let buffer = |words: &str| request(&format!("device set-irqs {words}")).2;
    let mut fields = vec![22, 0, 0, 0, 34, 0, 0, 0, 0, 0, 0, 0];
    fields.extend([0, 0, 0, 0, 2, 0, 0, 0, 1, 0xee]);
    assert_eq!(buffer("count=2 flags=34 data 01 ?*1"), fields);
    assert_eq!(buffer("flags=34 room=21 count=2 data 01 ?*1"), fields[..21]);
    assert_eq!(buffer("flags=34 room=3 count=2 data 01 ?*1"), fields[..3]);
    let long = buffer("room=24 argsz=7 data 01*2");
    assert_eq!((long[0], &long[20..]), (7, &[1, 1, 0xee, 0xee][..]));
    assert_eq!(buffer("data -"), buffer(""));
    assert_eq!(buffer("").len(), 20);
}

#[test]
fn faulty_data_are_told() {
    for (line, expected) in [
        ("request device info data 00", vec![21, 26]),
        ("request device set-irqs data", vec![29]),
        ("request device set-irqs data 0g", vec![30]),
        ("request device set-irqs data 00 count=1", vec![33]),
        ("request device set-irqs size=1", vec![25]),
        ("show-line 1", vec![12]),
        ("show-line 1 0 0", vec![15]),
    ] {
        assert_eq!(columns(line), expected, "{line}");
    }
}

#[test]
fn faulty_fields_are_told() {
    let line = "request container map";
    for (words, expected) in [
        ("flags=4294967296", vec![29]),
        ("size=", vec![28]),
        ("size=x flags=y", vec![28, 36]),
        ("sizes=1", vec![23]),
        ("size", vec![23]),
        ("=1", vec![23]),
        ("size=1 size=1", vec![30]),
        ("room=1 room=1", vec![30]),
        ("\"size=1\"", vec![23]),
    ] {
        assert_eq!(columns(&format!("{line} {words}")), expected, "{words}");
    }
    assert_eq!(columns("request container shrink size=1"), [19]);
    assert_eq!(columns("request device map size=1"), [16]);
    assert_eq!(columns("request 2 map size=1"), [11]);
    assert_eq!(columns("request box map size=1"), [9]);
    assert_eq!(columns("request container api-version argsz=0"), [31]);
}

#[test]
fn expectations_have_single_blanks() {
    let expected = |line| step(line).expected;
    assert_eq!(expected("stop"), None);
    let ok = Some("ok 0 : -".to_string());
    assert_eq!(expected("stop =>  ok\t0 \t: -  # why"), ok);
    assert_eq!(expected("stop => \"#x"), Some("\"".to_string()));
    assert_eq!(
        expected("host-store 0 \"=>\" => ok"),
        Some("ok".to_string())
    );
}

#[test]
fn faulty_expectations_are_told() {
    assert_eq!(columns("stop =>"), [6]);
    assert_eq!(columns("stop => # ok 0"), [6]);
    assert_eq!(columns("stop =>ok 0"), [6]);
    assert_eq!(columns("=> ok 0"), [1]);
    assert_eq!(columns("host-store 0 => ok 0"), [13]);
}

#[test]
fn control_characters_are_faults_outside_of_comments_and_texts() {
    assert_eq!(call("stop\t# \u{1}\r"), Call::Stop);
    let (column, message) = fault("stop\r");
    assert_eq!((column, message.contains("line feed")), (5, true));
    assert_eq!(columns("stop => ok\u{7f} 0"), [11]);
    assert_eq!(columns("look-up 1\u{1}2"), [10]);
    assert_eq!(columns("\u{0}\u{85}"), [1, 2]);
}

#[test]
fn bytes_that_are_not_utf8_are_told() {
    let fault = |file: &[u8]| {
        let mut faults = faults_of(file);
        assert_eq!(faults.len(), 1, "{faults:?}");
        faults.remove(0)
    };
    let message = "byte 0xff is not UTF-8".to_string();
    assert_eq!(fault(b"mem\xffory 1"), (1, 4, message.clone()));
    let file = "memory 1\nhost-store 0 \"\u{e9}".as_bytes();
    assert_eq!(fault(&[file, b"\xff\" zz"].concat()), (2, 16, message));
}

#[test]
fn a_fault_is_printed_with_line_and_column() {
    let fault = Fault {
        line: 3,
        column: 14,
        message: "no".to_string(),
    };
    assert_eq!(fault.to_string(), "3:14: no");
}

#[test]
fn requests_with_output_print_their_size() {
    let printed = [
        (0, 112, 16),
        (0, 114, 24),
        (1, 107, 16),
        (1, 108, 32),
        (1, 109, 16),
    ];
    for (target, number, size) in printed {
        assert_eq!(output_size(target, number), Some(size));
        assert_eq!(output_size(1 - target, number), None);
    }
    for (target, number) in [(0, 100), (0, 101), (0, 113), (1, 111), (2, 107)] {
        assert_eq!(output_size(target, number), None);
    }
}
