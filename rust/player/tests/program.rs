//! The program as it is run: what it prints, and its exit statuses.

use std::fs;
use std::path::{Path, PathBuf};
use std::process::{Command, Output, Stdio};

fn program() -> Command {
    Command::new(env!("CARGO_BIN_EXE_glintbasket"))
}

fn run(arguments: &[&str]) -> Output {
    program().args(arguments).output().unwrap()
}

/// A file of this name, that no other test uses.
fn path(name: &str) -> PathBuf {
    Path::new(env!("CARGO_TARGET_TMPDIR")).join(name)
}

fn file(name: &str, content: &str) -> String {
    let path = path(name);
    fs::write(&path, content).unwrap();
    path.to_str().unwrap().to_string()
}

fn sessions() -> Vec<String> {
    let directory = Path::new(env!("CARGO_MANIFEST_DIR")).join("../../sessions");
    let mut files: Vec<String> = fs::read_dir(directory)
        .unwrap()
        .map(|entry| entry.unwrap().path().to_str().unwrap().to_string())
        .filter(|path| path.ends_with(".session"))
        .collect();
    files.sort();
    assert!(!files.is_empty());
    files
}

#[track_caller]
fn assert_run(output: &Output, status: i32, out: &str, err: &str) {
    assert_eq!(String::from_utf8_lossy(&output.stderr), err);
    assert_eq!(String::from_utf8_lossy(&output.stdout), out);
    assert_eq!(output.status.code(), Some(status));
}

/// Nothing was played, and standard error says why.
#[track_caller]
fn assert_not_played(output: &Output, why: &str) {
    let err = String::from_utf8_lossy(&output.stderr);
    assert!(err.contains(why), "{err}");
    assert!(output.stdout.is_empty());
    assert_eq!(output.status.code(), Some(2));
}

#[track_caller]
fn assert_not_written(output: &Output, why: &str) {
    let err = String::from_utf8_lossy(&output.stderr);
    assert!(err.contains(why), "{err}");
    assert!(!err.contains("panicked"), "{err}");
    assert_eq!(output.status.code(), Some(3));
}

#[test]
fn every_session_plays_and_meets_its_expectations() {
    for session in sessions() {
        let output = run(&["play", &session]);
        let out = String::from_utf8_lossy(&output.stdout);
        assert_eq!(output.status.code(), Some(0), "{session}: {out}");
        assert!(!out.is_empty());
    }
}

#[test]
fn every_session_plays_alike_under_two_garbages() {
    for session in sessions() {
        let once = run(&["play", &session]);
        let twice = run(&["play", "--twice", &session]);
        let mut expected = String::from_utf8(once.stdout).unwrap();
        expected.push_str("all lines alike under garbage 0xa5 and 0x5a\n");
        assert_run(&twice, 0, &expected, "");
    }
}

const EVERY_OUTCOME: &str = "\
memory 0x2000

request container map flags=3 memory=0x1000 device=0x10000 size=0x1000
look-up 0x10010
look-up 0x11000
look-up 0x1000000000000
host-store 0x1010 \"hi\"
card-read 0x10010 2
card-read 0x10010 0
card-read 0x10010 3
card-write 0x10012 \"!\"
host-load 0x1010 3
forget 0x1010 1
set-register 0x103 0 0f
read-register 0x103 0 8
save-parts 64
start
save-parts 64
stop
load-parts -
request device info room=20
request device set-irqs flags=36 index=1 count=1 data 05000000
show-line 1 0
show-line 1 8
request device reset
power-on
step 0 0301 00 00 0000000000000000 01000000 0f
step 17 0301 00 00 0000000000000000 01000000 0f
step 18 0301 00 00 0000000000000000 01000000 0f
request 7 100 -
request container map flags=3 memory=0x1000 device=0x10000 size=0x1000
set-register 0x104 1 02 00*3 01 00*5 01 00*5 40 00 01 00*13
host-store 0x1042 0100 0100
host-store 0x1010 ff*8 10000000 0200
walk-queue 1 0
host-store 0x101e 0000
walk-queue 1 0
walk-queue 1 1
walk-queue 1 0 room 2
walk-queue 1 2
walk-queue 0 0
walk-queue 4294967296 0
read-device-file 00696370 07000000 ff*4
read-device-file 00*12
read-device-record 0 00696370 00*8 04000000 10000000 00*4 03000000
read-device-record 1 00696370 00*8 04000000 10000000 00*4 03000000
read-device-record 0 00696370 00*8 04000000 10000000 00*4 030000
start-device-file 14 0x64740000 1 2
start-device-file 11 0x64740000 1 2
append-device-record 64 1 11*20 to 00007464 00*8
append-device-record 64 5 07000000 to 00007464 00*8 01000000 1c000000 11*20
append-device-record 39 5 07000000 to 00007464 00*8 01000000 1c000000 11*20
append-device-record 64 2 - to 00007464 00*8
";

const EVERY_OUTCOME_PLAYED: &str = "\
3: ok 0
4: ok 4112 rights 3 left 4080 probes 1
5: refused 14 Unmapped at 0 probes 1
6: refused 9 Range at 0
7: ok 0
8: ok 0 : 68 69
9: ok 0 : -
10: refused 16 Unwritten at 2
11: ok 0
12: ok 0 : 68 69 21
13: ok 0
14: ok 0
15: ok 1 : 0f
16: ok 41 : 00 01 01 00 00 00 00 00 00 00 00 00 08 00 00 00 00 00 00 30 01 00 00 00 \
03 01 00 00 00 00 00 00 00 00 00 00 01 00 00 00 0f
17: ok 0
18: refused 17 Running at 0
19: ok 0
20: refused 24 Missing at 0
21: ok 0 : 10 00 00 00 03 00 00 00 09 00 00 00 04 00 00 00
22: ok 0
23: ok number 5 masked no pending no tally 0
24: refused 6 Index at 0
25: ok 0
26: ok 0
27: part 0x103 flags 0 selector 0 next 17 : 0f
28: end
29: refused 18 Truncated at 18
30: refused 2 NoSuchRequest at 0
31: ok 0
32: ok 0
33: ok 0
34: ok 0
35: refused 16 Unwritten at 65566
36: ok 0
37: ok 1 index 1 : 18446744073709551615 length 16 flags 2
38: ok 0 index 1 : -
39: refused 27 NoSpace at 0
40: refused 29 RingDistance at 0
41: refused 28 QueueNotReady at 0
42: refused 6 Index at 0
43: ok 0 magic 0x70636900 version 7 flags 4294967295
44: refused 33 Magic at 0
45: record 4 start 12 : 00 00 00 00 03 00 00 00
46: end
47: refused 18 Truncated at 12
48: ok 0 used 12 : 00 00 74 64 01 00 00 00 02 00 00 00
49: refused 27 NoSpace at 0
50: ok 0 used 40 : 00 00 74 64 00 00 00 00 00 00 00 00 01 00 00 00 1c 00 00 00 \
11 11 11 11 11 11 11 11 11 11 11 11 11 11 11 11 11 11 11 11
51: ok 0 used 52 : 00 00 74 64 00 00 00 00 00 00 00 00 01 00 00 00 28 00 00 00 \
11 11 11 11 11 11 11 11 11 11 11 11 11 11 11 11 11 11 11 11 \
05 00 00 00 0c 00 00 00 07 00 00 00
52: refused 18 Truncated at 0
53: refused 19 Header at 0
";

#[test]
fn every_call_and_outcome_is_printed() {
    let session = file("outcomes.session", EVERY_OUTCOME);
    assert_run(&run(&["play", &session]), 0, EVERY_OUTCOME_PLAYED, "");
}

#[test]
fn an_unmet_expectation_is_printed_and_playing_goes_on() {
    let session = file(
        "unmet.session",
        "memory 0\nstop  => ok  1\nstart => ok \t 0\n",
    );
    let expected = "2: ok 0\n2: expected ok 1\n3: ok 0\n";
    assert_run(&run(&["play", &session]), 1, expected, "");
}

#[test]
fn all_faults_are_told_and_nothing_is_played() {
    let session = file("faults.session", "memory 0\nstop\nlook-up x\nstop 1\n");
    let expected = format!(
        "{session}:3:9: DEVICE: `x` is no number (decimal, or hexadecimal with 0x)\n\
         {session}:4:6: the line should end here: `stop`\n"
    );
    for command in ["play", "show"] {
        assert_run(&run(&[command, &session]), 2, "", &expected);
    }
    assert_run(&run(&["play", "--twice", &session]), 2, "", &expected);
}

#[test]
fn a_line_with_too_many_bytes_is_a_fault() {
    let bytes = "5a".repeat((1 << 20) + 1);
    let session = file("long.session", &format!("memory 0\nload-parts {bytes}\n"));
    let expected = format!("{session}:2:12: BYTES of one line are at most 1048576\n");
    assert_run(&run(&["play", &session]), 2, "", &expected);
}

#[test]
fn files_that_cannot_be_read_are_told() {
    let missing = run(&["play", path("missing.session").to_str().unwrap()]);
    assert_not_played(&missing, "missing.session: No such file");
    let directory = run(&["play", env!("CARGO_TARGET_TMPDIR")]);
    assert_not_played(&directory, "is a directory, not a file");
}

#[test]
fn wrong_command_lines_are_told() {
    for (arguments, why) in [
        (&[][..], "a command is missing"),
        (&["play"], "FILE is missing"),
        (&["play", "--loud", "x"], "\"--loud\" is no flag"),
        (
            &["play", "--garbage", "256", "x"],
            "--garbage: BYTE: `256` is above 255",
        ),
        (&["show", "x", "y"], "FILE is given twice"),
    ] {
        let output = run(arguments);
        assert_not_played(&output, &format!("glintbasket: {why}\n"));
        assert_not_played(&output, "usage: glintbasket play");
    }
}

#[test]
fn help_and_version_are_printed() {
    let help = run(&["--help"]);
    let out = String::from_utf8(help.stdout).unwrap();
    for word in [
        "play",
        "show",
        "--garbage",
        "--twice",
        "--svg",
        "Exit status",
    ] {
        assert!(out.contains(word), "{word}");
    }
    assert_eq!(help.status.code(), Some(0));
    let version = format!("glintbasket {}\n", env!("CARGO_PKG_VERSION"));
    assert_run(&run(&["--version"]), 0, &version, "");
}

#[test]
fn the_manual_page_has_every_flag_and_status() {
    let page = Path::new(env!("CARGO_MANIFEST_DIR")).join("../../man/glintbasket.1");
    let page = fs::read_to_string(page).unwrap().replace("\\-", "-");
    for flag in ["--garbage", "--twice", "--svg", "--help", "--version"] {
        assert!(page.contains(flag), "{flag}");
    }
    for status in ["0", "1", "2", "3"] {
        assert!(page.contains(&format!(".TP\n.B {status}\n")), "{status}");
    }
    assert!(page.contains(&format!("glintbasket {}", env!("CARGO_PKG_VERSION"))));
}

/// Whether the extension 3 is asked for depends on a stale byte.
const LEAK: &str = "memory 0 garbage 3\nrequest container 101 ?*1 00*3\nstop\n";

#[test]
fn garbage_comes_from_the_file_or_the_command_line() {
    let session = file("garbage.session", LEAK);
    let played = run(&["play", &session]);
    assert_run(&played, 0, "2: ok 1\n3: ok 0\n", "");
    let other = run(&["play", "--garbage", "0x04", &session]);
    assert_run(&other, 0, "2: ok 0\n3: ok 0\n", "");
}

#[test]
fn twice_shows_what_differs() {
    let session = file("leak.session", LEAK);
    let expected = "\
2: ok 1
2: differs with garbage 0xfc:
2: ok 0
3: ok 0
lines differ under garbage 0x03 and 0xfc
";
    assert_run(&run(&["play", "--twice", &session]), 1, expected, "");
}

#[test]
fn twice_looks_at_expectations_too() {
    let session = file("twice-unmet.session", "memory 0\nstop => ok 1\n");
    let expected = "\
2: ok 0
2: expected ok 1
all lines alike under garbage 0xa5 and 0x5a
";
    assert_run(&run(&["play", "--twice", &session]), 1, expected, "");
}

const PICTURED: &str = "\
memory 0x4800
request container map flags=1 memory=0x1000 device=0x10000 size=0x2000
request container map flags=3 memory=0x2000 device=0x20000 size=0x1000
host-store 0x1000 \"hello\"
host-store 0x2000 00*4096
card-read 0x10000 6  => refused 16 Unwritten at 5
card-read 0x30000 0
stop => ok 1
";

const PICTURED_SHOWN: &str = "\
8: ok 0
8: expected ok 1
memory: 18432 bytes, pages of 4096 bytes: 5
  memory                     pages  written                       mapped by
  0x0..0xfff                     1  unwritten                     -
  0x1000..0x1fff                 1  in part: 5 of 4096 bytes      1
  0x2000..0x2fff                 1  written                       1, 2
  0x3000..0x47ff                 2  unwritten                     -
  (unwritten: never written, or forgotten since)

container: Type1v2 (3)
mappings: 2, 12288 bytes
   1  device 0x10000..0x11fff shows memory 0x1000..0x2fff: read
   2  device 0x20000..0x20fff shows memory 0x2000..0x2fff: read, write
interrupt lines: none set up

last refused byte: line 6, refused 16 Unwritten at 5: device address 0x10005, memory address 0x1005
  memory 0x1000 at the end: 68  65  6c  6c  6f [..] ..  ..  ..  ..  ..  ..  ..  ..  ..  ..   \
(.. is unwritten)
";

#[test]
fn show_prints_pages_mappings_and_the_refused_byte() {
    let session = file("show.session", PICTURED);
    assert_run(&run(&["show", &session]), 1, PICTURED_SHOWN, "");
}

#[test]
fn show_tells_the_type_of_an_older_container() {
    let session = file(
        "older.session",
        "memory 0\nrequest container set-iommu number=1 => ok 0\n",
    );
    let svg = path("older.svg");
    let output = run(&["show", "--svg", svg.to_str().unwrap(), &session]);
    let shown = String::from_utf8(output.stdout).unwrap();
    assert!(
        shown.contains("\ncontainer: Type1 (1)\nmappings: none\n"),
        "{shown}"
    );
    let picture = fs::read_to_string(svg).unwrap();
    assert!(picture.contains(">container: Type1 (1)</text>"));
}

#[test]
fn show_lists_the_interrupt_lines_that_are_set_up() {
    let session = file(
        "lines.session",
        "memory 0
request device set-irqs flags=36 index=0 count=1 data 07000000 => ok 0
request device set-irqs flags=36 index=2 start=14 count=2 data 00*4 05000000 => ok 0
request device set-irqs flags=33 index=0 count=1 => ok 0
request device set-irqs flags=33 index=0 count=1 => ok 0
request device set-irqs flags=34 index=2 start=14 count=2 data 00 ff => ok 0
",
    );
    let svg = path("lines.svg");
    let output = run(&["show", "--svg", svg.to_str().unwrap(), &session]);
    let shown = String::from_utf8(output.stdout).unwrap();
    let lines = [
        "index 0, line 0: number 7, tally 1, masked, pending",
        "index 2, line 14: number 0, tally 0",
        "index 2, line 15: number 5, tally 1",
    ];
    let listed = format!("interrupt lines: 3 set up\n  {}\n", lines.join("\n  "));
    assert!(shown.contains(&listed), "{shown}");
    let picture = fs::read_to_string(svg).unwrap();
    assert!(picture.contains(">Interrupt lines set up: 3</text>"));
    for line in lines {
        assert!(picture.contains(&format!(">{line}</text>")), "{line}");
    }
}

#[test]
fn show_tells_a_byte_in_no_mapping() {
    let session = file("unmapped.session", "memory 0\ncard-read 5 1\n");
    let expected = "\
memory: 0 bytes, pages of 4096 bytes: 0

container: Type1v2 (3)
mappings: none
interrupt lines: none set up

last refused byte: line 2, refused 14 Unmapped at 0: device address 0x5, in no mapping
";
    assert_run(&run(&["show", &session]), 0, expected, "");
}

#[test]
fn show_tells_the_byte_at_which_a_walk_was_refused() {
    let session = file(
        "walk.session",
        "memory 0x2000
request container map flags=1 memory=0x1000 device=0x10000 size=0x1000
set-register 0x104 0 02 00*3 01 00*5 01 00*5 40 00 01 00*13
host-store 0x1042 0100 0000
host-store 0x1000 00*14
walk-queue 0 0 => refused 16 Unwritten at 65550
walk-queue 0 9 => refused 29 RingDistance at 0
",
    );
    let output = run(&["show", &session]);
    let out = String::from_utf8(output.stdout).unwrap();
    let told = "last refused byte: line 6, refused 16 Unwritten at 65550: \
                device address 0x1000e, memory address 0x100e\n";
    assert!(out.contains(told), "{out}");
    assert_eq!(output.status.code(), Some(0));
}

/// Maps as many pages as there may be mappings, each apart from the next.
fn thousands_of_mappings() -> String {
    let mut text = "memory 0x1000000 mappings 4096\n".to_string();
    for i in 0..4096 {
        let (memory, device, flags) = (i * 7 % 4096 * 4096, i * 8192, 1 + i % 3);
        text += &format!(
            "request container map flags={flags} memory={memory} device={device} size=4096 => ok 0\n"
        );
    }
    text
}

#[test]
fn a_look_up_among_thousands_of_mappings_looks_at_13_of_them_at_most() {
    let mut text = thousands_of_mappings();
    text += "look-up 0 => ok 0 rights 1 left 4096 probes 13\n";
    text += "look-up 4096 => refused 14 Unmapped at 0 probes 13\n";
    text += "look-up 0x1000000 => ok 8388608 rights 3 left 4096 probes 1\n";
    text += "look-up 0x1ffe000 => ok 16748544 rights 1 left 4096 probes 12\n";
    text += "look-up 0x1fff000 => refused 14 Unmapped at 0 probes 12\n";
    let output = run(&["play", &file("probes.session", &text)]);
    let played = String::from_utf8(output.stdout).unwrap();
    assert!(!played.contains("expected"), "{played}");
    assert_eq!(output.status.code(), Some(0));
}

#[test]
fn show_of_thousands_of_mappings_is_short() {
    let mut text = thousands_of_mappings();
    text += "request container map flags=1 device=4096 size=4096 => refused 11 NoRoom at 0\n";
    let session = file("thousands.session", &text);
    let svg = path("thousands.svg");
    let output = run(&["show", "--svg", svg.to_str().unwrap(), &session]);
    assert_eq!(output.status.code(), Some(0));
    let shown = String::from_utf8(output.stdout).unwrap();
    assert!(shown.lines().count() < 40, "{shown}");
    let run = "  0x0..0xffffff               4096  unwritten                     1 to 4096\n";
    assert!(shown.contains(run), "{shown}");
    let between = "..  4080 more, at device 0x10000..0x1feefff";
    assert!(shown.contains(between), "{shown}");
    let picture = fs::read_to_string(svg).unwrap();
    assert!(picture.contains(between));
    assert_eq!(picture.matches("shows memory").count(), 16);
}

#[test]
fn show_tells_the_last_of_several_refused_bytes() {
    let session = file(
        "last.session",
        "memory 1\ncard-read 5 1\nhost-load 0 1\nhost-load 1 1\nstep 1 -\n",
    );
    let output = run(&["show", &session]);
    let out = String::from_utf8(output.stdout).unwrap();
    let line = "last refused byte: line 3, refused 16 Unwritten at 0: memory address 0x0\n";
    assert!(out.contains(line), "{out}");
}

/// Every element that is opened is closed, in order.
fn is_balanced(xml: &str) -> bool {
    let mut open = Vec::new();
    for tag in xml.split('<').skip(1) {
        let tag = tag.split('>').next().unwrap();
        let name = tag.split([' ', '/']).find(|part| !part.is_empty()).unwrap();
        if tag.starts_with('/') {
            if open.pop() != Some(name) {
                return false;
            }
        } else if !tag.ends_with('/') {
            open.push(name);
        }
    }
    open.is_empty()
}

#[test]
fn the_picture_has_every_page_the_mappings_and_a_legend() {
    let session = file("picture.session", PICTURED);
    let svg = path("picture.svg");
    let output = run(&["show", "--svg", svg.to_str().unwrap(), &session]);
    assert_run(&output, 1, PICTURED_SHOWN, "");
    let picture = fs::read_to_string(svg).unwrap();
    assert!(picture.starts_with("<svg xmlns=\"http://www.w3.org/2000/svg\""));
    assert!(is_balanced(&picture));
    // Five pages; their states show once in the grid and once in the legend, bytes and letters' frames besides.
    assert_eq!(picture.matches("<g><title>memory 0x").count(), 5);
    assert_eq!(picture.matches("class=\"in-part\"").count(), 1 + 1);
    assert_eq!(picture.matches("class=\"frame\"").count(), 2 + 3);
    assert_eq!(picture.matches("class=\"disc\"").count(), 1 + 1 + 1);
    for text in [
        "picture.session</text>",
        "Legend",
        "memory 0x1000..0x1fff: 5 of 4096 bytes written",
        "container: Type1v2 (3)",
        "device 0x20000..0x20fff shows memory 0x2000..0x2fff: read, write",
        "refused 16 Unwritten at 5",
    ] {
        assert!(picture.contains(text), "{text}");
    }
}

#[test]
fn the_picture_of_a_large_memory_stays_small() {
    let session = file("large.session", "memory 0x4000000\nhost-store 0 01\n");
    let svg = path("large.svg");
    let output = run(&["show", "--svg", svg.to_str().unwrap(), &session]);
    assert_eq!(output.status.code(), Some(0));
    let picture = fs::read_to_string(svg).unwrap();
    assert!(picture.contains("each cell is 32 pages"));
    assert_eq!(picture.matches("<g><title>memory 0x").count(), 512);
}

#[test]
fn a_picture_never_overwrites_its_session() {
    let session = file("own.session", "memory 0\n");
    let output = run(&["show", "--svg", &session, &session]);
    assert_not_played(&output, "own.session: is the session file itself");
    assert_eq!(fs::read_to_string(&session).unwrap(), "memory 0\n");
}

#[test]
fn a_picture_that_cannot_be_written_is_told() {
    let session = file("nowhere.session", "memory 0\n");
    let svg = path("no-such-directory/picture.svg");
    let output = run(&["show", "--svg", svg.to_str().unwrap(), &session]);
    assert_not_written(&output, "picture.svg: No such file");
}

#[test]
fn a_closed_pipe_is_told() {
    let session = file(
        "pipe.session",
        &format!("memory 0\n{}", "stop\n".repeat(5000)),
    );
    for arguments in [&["play"][..], &["play", "--twice"], &["show"], &["--help"]] {
        let mut command = program();
        command.args(arguments);
        if arguments[0] != "--help" {
            command.arg(&session);
        }
        let (reader, writer) = std::io::pipe().unwrap();
        drop(reader);
        let child = command
            .stdout(writer)
            .stderr(Stdio::piped())
            .spawn()
            .unwrap();
        let output = child.wait_with_output().unwrap();
        assert_not_written(&output, "glintbasket: standard output: Broken pipe");
    }
}

// ---- check-save

/// A file of bytes.
fn save_file(name: &str, bytes: &[u8]) -> String {
    let path = path(name);
    std::fs::write(&path, bytes).unwrap();
    path.to_str().unwrap().to_string()
}

#[test]
fn a_file_is_a_save_or_the_byte_is_told() {
    let mut bytes = vec![0, 1, 1, 0, 0, 0, 0, 0, 0, 0, 0, 0, 8, 0, 0, 0];
    bytes.extend([0, 0, 0, 0x30, 1, 0, 0, 0]);
    bytes.extend([3, 1, 0, 0, 0, 0, 0, 0, 0, 0, 0, 0, 1, 0, 0, 0, 0x0f]);
    let save = save_file("good.save", &bytes);
    assert_run(&run(&["check-save", &save]), 0, "save\n", "");
    assert_run(
        &run(&["check-save", "--card", "64", &save]),
        0,
        "save\n",
        "",
    );
    let other = "no save: byte 12 is 0x08, which no save has there: \
                 the length of offered features, in the part at 0\n";
    assert_run(&run(&["check-save", &save, "--card", "128"]), 1, other, "");
    let short = save_file("short.save", &bytes[..24]);
    let ends = "no save: it ends after 24 bytes, where every save goes on: \
                the type, in the part at 24\n";
    assert_run(&run(&["check-save", &short]), 1, ends, "");
}

#[test]
fn wrong_command_lines_of_check_save_are_told() {
    for (arguments, why) in [
        (&["check-save"][..], "FILE is missing"),
        (
            &["check-save", "--card", "65", "x"],
            "--card: a card is 64 or 128, by the number of its feature bits",
        ),
        (
            &["check-save", "--twice", "x"],
            "--garbage, --twice and --svg go with sessions",
        ),
        (
            &["play", "--card", "64", "x"],
            "--card goes with check-save",
        ),
        (
            &["show", "--card", "64", "x"],
            "--card goes with check-save",
        ),
    ] {
        assert_not_played(&run(arguments), &format!("glintbasket: {why}\n"));
    }
    let missing = run(&["check-save", path("missing.save").to_str().unwrap()]);
    assert_not_played(&missing, "missing.save: No such file");
}

// ---- device-file

/// The example that is there to learn from.
fn example() -> String {
    let path = Path::new(env!("CARGO_MANIFEST_DIR")).join("../../examples/device-file.txt");
    path.to_str().unwrap().to_string()
}

#[test]
fn the_example_is_a_device_file() {
    let expected = "\
device file (pci): version 1, flags 0x0, 8 records
12: REGION, 64 bytes: flags 0x1, offset 0x0, length 0x4000
  40: PCI_BAR_INDEX, 16 bytes: flags 0x0, index 0
  56: PHYS_ADDR, 20 bytes: flags 0x0, address 0xfe000000
76: REGION, 40 bytes: flags 0x0, offset 0x70000000000, length 0x100
  104: PCI_CONFIG_SPACE, 12 bytes: flags 0x0
116: REGION, 28 bytes: flags 0x0, offset 0x80000000000, length 0x0
144: INTERRUPT, 16 bytes: flags 0x0, handle 0
160: INTERRUPT, 16 bytes: flags 0x0, handle 1
";
    let output = run(&["device-file", "--text", &example()]);
    assert_run(&output, 0, expected, "");
}

#[test]
fn a_device_file_is_printed_or_its_fault_is_told() {
    let mut bytes = vec![0, 0, 0x74, 0x64, 1, 0, 0, 0, 3, 0, 0, 0];
    bytes.extend([4, 0, 0, 0, 16, 0, 0, 0, 0, 0, 0, 0, 9, 0, 0, 0]);
    let good = save_file("good.device", &bytes);
    let expected = "device file (dt): version 1, flags 0x3, 1 record\n\
                    12: INTERRUPT, 16 bytes: flags 0x0, handle 9\n";
    assert_run(&run(&["device-file", &good]), 0, expected, "");
    let short = save_file("short.device", &bytes[..27]);
    let expected = "no device file: refused 18 Truncated at 12: \
                    INTERRUPT has length 16, and 15 bytes are left in the file\n";
    assert_run(&run(&["device-file", &short]), 1, expected, "");
    let long = save_file("long.device", &vec![0; 65537]);
    let expected = "no device file: refused 13 TooLong at 0: \
                    it has 65537 bytes, and may have 65536\n";
    assert_run(&run(&["device-file", &long]), 1, expected, "");
    // The bytes of a text are its letters, where nobody says that it is one.
    let output = run(&["device-file", &example()]);
    assert_eq!(output.status.code(), Some(1));
    let out = String::from_utf8_lossy(&output.stdout);
    assert!(
        out.starts_with("no device file: refused 33 Magic at 0: "),
        "{out}"
    );
}

#[test]
fn faults_of_a_text_are_told() {
    let text = file("faults.txt", "00 69 # magic\n6370 0\n?*4\n");
    let expected = format!(
        "{text}:2:6: BYTES: `0` has an odd number of hexadecimal digits\n\
         {text}:3:1: stale bytes may stand only in the buffer of a request\n"
    );
    let output = run(&["device-file", "--text", &text]);
    assert_run(&output, 2, "", &expected);
}

#[test]
fn wrong_command_lines_of_device_file_are_told() {
    for (arguments, why) in [
        (&["device-file"][..], "FILE is missing"),
        (
            &["device-file", "--card", "64", "x"],
            "--card goes with check-save",
        ),
        (
            &["device-file", "--svg", "y", "x"],
            "--garbage, --twice and --svg go with sessions",
        ),
        (&["play", "--text", "x"], "--text goes with device-file"),
        (&["show", "--text", "x"], "--text goes with device-file"),
        (
            &["check-save", "--text", "x"],
            "--text goes with device-file",
        ),
    ] {
        assert_not_played(&run(arguments), &format!("glintbasket: {why}\n"));
    }
    let missing = run(&["device-file", path("missing.device").to_str().unwrap()]);
    assert_not_played(&missing, "missing.device: No such file");
}
