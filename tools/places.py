#!/usr/bin/env python3
"""Counts places of src/ that read like an older form of the language, point by point (docs/DESIGN-PASS.md says what the points are).

usage: python3 tools/places.py [-v] [FOLDER]        -v lists each place as FILE:LINE: TEXT; FOLDER is a checkout, here by default
"""
import collections
import glob
import re
import sys

ENUM = re.compile(r"^(?:pub )?enum (\w+) \{(.*?)^\}", re.M | re.S)
STRUCT = re.compile(r"^(?:pub )?struct (\w+)(?:<'a>)? \{(.*?)^\}", re.M | re.S)
FUNCTION = re.compile(r"^( *)((?:pub )?(?:extern \"C\" )?fn (\w+).*?)^\1\{\n(.*?)^\1\}", re.M | re.S)


def signature(head):
    """The parameters and the result of a function, without its clauses."""
    return re.split(r"^\s*(?:requires|ensures)\b", head, flags=re.M)[0]


def numbers_gone(text):
    """A body with its numbers, and the widths in its names, left out: twins have the same."""
    text = re.sub(r"//[^\n]*", "", text)
    text = re.sub(r"\b(?:0x[0-9a-f]+|\d+)\b", "N", text)
    return re.sub(r"\s+", " ", re.sub(r"(?<=[a-z_])(?:8|16|32|64|128)\b", "N", text)).strip()


def main():
    words = [w for w in sys.argv[1:] if w != "-v"]
    top = words[0] if words else "."
    places = collections.defaultdict(list)
    twins = collections.defaultdict(list)

    for path in sorted(glob.glob(f"{top}/crates/*/src/*.rt")):
        text = open(path, encoding="utf-8").read()
        name = path[len(top) + 1 :]

        def note(point, at, what=None):
            line = text.count("\n", 0, at) + 1
            places[point].append(f"{name}:{line}: {what or text.split(chr(10))[line - 1].strip()}")

        for m in ENUM.finditer(text):
            if re.search(r"^    (?:Refused|Fail|DiffersAt|Nowhere|End|Nothing)\b", m[2], re.M):
                note("1a own enums of the shape of Option or Result", m.start())
        for m in STRUCT.finditer(text):
            if re.search(r"^    (?:pub )?(?:verdict: Verdict|answer: Answer|held: bool|end: bool)", m[2], re.M) and "#[repr(C)]" not in text[m.start() - 60 : m.start()]:
                note("1b a verdict, an answer or a flag with a value beside it, in a struct", m.start())
        for m in re.finditer(r"\b(?:ok: bool|store: bool|twice: bool|exact: bool)", text):
            note("1c a flag that says whether the rest counts, as a parameter", m.start())
        for m in re.finditer(r"(?:Verdict|Step|Answer|Shown|Fetched|Conformance)::(?:Fail|Refused)\([^)]*\) =>", text):
            note("1d a refusal passed on by a match", m.start())
        for m in re.finditer(r"if let Verdict::Fail\(", text):
            note("1d a refusal passed on by a match", m.start())
        for m in re.finditer(r"\banswer::[A-Z_]{4,}\b(?<!TRANSFER_LIMIT)", text):
            note("1e a refusal by its number", m.start())
        for m in re.finditer(r"^(?:pub )?const ([A-Z_0-9]+): (?:u32|u64|usize) = (?:0x[0-9a-f]+|\d+);", text, re.M):
            if name == "crates/answer/src/lib.rt" and m[1] != "TRANSFER_LIMIT" or re.match(
                r"(OFFERED_FEATURES|DRIVER_FEATURES|COMMON_FIELD|DEVICE_STATUS|QUEUE_CONFIG|NOTIFY_CONFIG|REGION|DT_PATH|DT_INDEX|INTERRUPT|NONE|BOOL|EVENT|MASK|TRIGGER|TYPE1|TYPE1V2"
                r"|CONTAINER|DEVICE|GET_\w+|CHECK_EXTENSION|SET_\w+|MAP_DMA|UNMAP_DMA|RESET_DEVICE)$", m[1]):
                note("1f a number that names a kind or a refusal", m.start())
        for m in re.finditer(r"\bROWS\b(?! =)|\b0x?f{16}\b", text):
            note("1g a number that stands for none", m.start())
        for m in FUNCTION.finditer(text):
            head, body = m[2], m[4]
            twins[numbers_gone(re.sub(r"\b(?:glint_\w+|%s)\b" % re.escape(m[3]), "F", signature(head) + body))].append((name, text.count("\n", 0, m.start()) + 1, m[3]))
            if re.fullmatch(r"\s*(?:\w+\.\w+|true|false)\n", body):
                note("5a a function that only gives a field, or a constant", m.start(), m[3])
            sig = signature(head)
            if re.search(r"records: &(?:mut )?\[Mapping\],\s*count: usize", sig) or re.search(r"count: usize,\s*records: &", sig):
                note("6a a slice and how much of it counts", m.start(), m[3])
            if re.search(r"bytes: &(?:mut )?\[u8\],\s*shadow: &", sig) and "extern" not in sig:
                note("5b memory and marks as two parameters", m.start(), m[3])
            if len(re.findall(r"\b\w+: ", sig)) >= 7 and "extern" not in sig:
                note("5c seven parameters or more", m.start(), m[3])
        for m in re.finditer(r"^ +(?:while (?!let)|loop \{)", text, re.M):
            note("3 loops that count by hand, or go on by hand", m.start())
        for m in re.finditer(r"^(?:pub )?(?:const|static) [A-Z_]+: \[(?:u32|u64|usize|bool); ", text, re.M):
            note("6b columns of a table as arrays", m.start())
        for m in re.finditer(r"^fn (same_header|both|larger|numbers|location|shown|settled|written|success|refusal|event_number|device_at)\b", text, re.M):
            note("4 equality, choice or conversion written by hand", m.start())
        for m in re.finditer(r"match (?:stage|index|kind) \{", text):
            note("7 a switch on which step to run", m.start())

    for group in twins.values():
        if len(group) > 1:
            for name, line, fn in group:
                places["2 functions that differ in a name, a number or a width"].append(f"{name}:{line}: {fn}")

    for point in sorted(places):
        print(f"{len(places[point]):4} {point}")
        if "-v" in sys.argv:
            for place in places[point]:
                print(f"       {place}")


if __name__ == "__main__":
    main()
