//! The program as a user meets it: what it prints, and its exit status.

use std::fs;
use std::path::PathBuf;
use std::process::Command;

struct Played {
    status: i32,
    out: String,
    err: String,
}

fn run(arguments: &[&str]) -> Played {
    let output = Command::new(env!("CARGO_BIN_EXE_glint-reference"))
        .args(arguments)
        .output()
        .expect("the program starts");
    Played {
        status: output.status.code().expect("it ends by itself"),
        out: String::from_utf8(output.stdout).expect("UTF-8"),
        err: String::from_utf8(output.stderr).expect("UTF-8"),
    }
}

/// A session file of this test's own.
fn file(name: &str, text: &str) -> String {
    let path = PathBuf::from(env!("CARGO_TARGET_TMPDIR")).join(format!("{name}.session"));
    fs::write(&path, text).expect("the file can be written");
    path.to_str().expect("UTF-8").to_string()
}

const EVERY_OUTCOME: &str = "\
memory 0x2000 garbage 0x11
request container map flags=3 size=0x1000
card-write 0 \"abc\"
card-read 1 2
card-read 1 0
card-read 1 3
host-load 0 1
look-up 0xfff
forget 0 1
host-load 0 1
set-register 0x102 16 0102
read-register 0x102 16 9
save-parts 99
request device irq-info index=2 room=18
request container 101 03000000 ff
request container unmap size=0x1000
step 0 0301 00 00 00*8 01000000 07
step 17 0301 00 00 00*8 01000000 07
step 0 ff05 01 00 ff*8 00*4
request container map flags=3 size=0x1000
set-register 0x104 1 02 00*3 01 00*11 40 00*15
host-store 66 0100 0100
host-store 16 ff*8 10000000 0200 0000
walk-queue 1 0
walk-queue 1 1
walk-queue 1 0 room 2
walk-queue 0 0
power-on
read-device-file 00007464 01000000 02000000
read-device-record 0 00007464 00*8 04000000 10000000 ff*8
read-device-record 1 00007464 00*8 04000000 10000000 ff*8
read-device-file 00*12
start-device-file 13 0x70636900 1 0
append-device-record 50 2 \"/\" to 00007464 00*8 01000000 1c000000 11*20
append-device-record 48 2 \"/\" to 00007464 00*8 01000000 1c000000 11*20
";

const EVERY_OUTCOME_PRINTED: &str = "\
2: ok 0
3: ok 0
4: ok 0 : 62 63
5: ok 0 : -
6: refused 16 Unwritten at 2
7: ok 0 : 61
8: ok 4095 rights 3 left 1 probes 1
9: ok 0
10: refused 16 Unwritten at 0
11: ok 0
12: ok 2 : 01 02
13: ok 59 : 00 01 01 00 00 00 00 00 00 00 00 00 08 00 00 00 00 00 00 30 01 00 00 00 \
02 01 00 00 10 00 00 00 00 00 00 00 02 00 00 00 01 02 \
03 01 00 00 00 00 00 00 00 00 00 00 01 00 00 00 00
14: ok 0 : 10 00 00 00 09 00 00 00 02 00 00 00 10 00 00 00
15: ok 1
16: ok 0 : 18 00 00 00 00 00 00 00 00 00 00 00 00 00 00 00 00 10 00 00 00 00 00 00
17: part 0x103 flags 0 selector 0 next 17 : 07
18: end
19: part 0x5ff flags 1 selector 18446744073709551615 next 16 : -
20: ok 0
21: ok 0
22: ok 0
23: ok 0
24: ok 1 index 1 : 18446744073709551615 length 16 flags 2
25: ok 0 index 1 : -
26: refused 27 NoSpace at 0
27: refused 28 QueueNotReady at 0
28: ok 0
29: ok 0 magic 0x64740000 version 1 flags 2
30: record 4 start 12 : ff ff ff ff ff ff ff ff
31: end
32: refused 33 Magic at 0
33: ok 0 used 12 : 00 69 63 70 01 00 00 00 00 00 00 00
34: ok 0 used 49 : 00 00 74 64 00 00 00 00 00 00 00 00 01 00 00 00 25 00 00 00 \
11 11 11 11 11 11 11 11 11 11 11 11 11 11 11 11 11 11 11 11 02 00 00 00 09 00 00 00 2f
35: refused 27 NoSpace at 0
";

#[test]
fn every_kind_of_outcome_is_printed_as_the_format_says() {
    let played = run(&["play", &file("outcomes", EVERY_OUTCOME)]);
    assert_eq!(played.out, EVERY_OUTCOME_PRINTED);
    assert_eq!((played.status, played.err.as_str()), (0, ""));
}

/// No answer depends on bytes that nobody wrote, or on stale ones.
#[test]
fn garbage_changes_nothing_that_is_printed() {
    let file = file("garbage", EVERY_OUTCOME);
    for garbage in ["0", "1", "0xff"] {
        let played = run(&["play", "--garbage", garbage, &file]);
        assert_eq!(played.out, EVERY_OUTCOME_PRINTED, "{garbage}");
        assert_eq!(played.status, 0);
    }
}

/// A stale byte in an input field shows which garbage is in force.
#[test]
fn the_option_overrides_the_files_garbage() {
    let session = "memory 0 garbage 2\nrequest container 101 ?*1 00*3\n";
    let file = file("override", session);
    assert_eq!(run(&["play", &file]).out, "2: ok 0\n");
    assert_eq!(run(&["play", "--garbage", "3", &file]).out, "2: ok 1\n");
    assert_eq!(run(&["play", &file, "--garbage", "0x03"]).out, "2: ok 1\n");
}

#[test]
fn an_expectation_that_is_not_met_is_shown_and_playing_goes_on() {
    let session =
        "memory 0\nstop => ok  1\nstart =>\tok 0\nlook-up 0 => refused 14 Unmapped at 0\n";
    let played = run(&["play", &file("expected", session)]);
    let expected = "2: ok 0\n2: expected ok 1\n3: ok 0\n\
                    4: refused 14 Unmapped at 0 probes 0\n4: expected refused 14 Unmapped at 0\n";
    assert_eq!(played.out, expected);
    assert_eq!((played.status, played.err.as_str()), (1, ""));
}

#[test]
fn a_faulty_file_is_not_played_and_all_its_faults_are_printed() {
    let file = file("faulty", "memory 0\nstop\n stopp\nlook-up zz\n");
    let played = run(&["play", &file]);
    assert_eq!((played.status, played.out.as_str()), (2, ""));
    let lines: Vec<&str> = played.err.lines().collect();
    assert_eq!(lines.len(), 2);
    assert!(lines[0].starts_with(&format!("{file}:3:2: unknown call \"stopp\"")));
    assert!(lines[1].starts_with(&format!("{file}:4:9: DEVICE must be a number")));
}

#[test]
fn a_file_that_cannot_be_read_and_a_wrong_command_line_are_status_2() {
    let missing = file("missing", "");
    fs::remove_file(&missing).expect("it was just written");
    let lines: [&[&str]; 7] = [
        &["play", &missing],
        &["play"],
        &[],
        &["plays", &missing],
        &["play", "--garbage", "256", &missing],
        &["play", "--garbage"],
        &["play", "--what", &missing],
    ];
    for arguments in lines {
        let played = run(arguments);
        assert_eq!((played.status, played.out.as_str()), (2, ""));
        assert!(played.err.starts_with("glint-reference: "), "{arguments:?}");
    }
}
