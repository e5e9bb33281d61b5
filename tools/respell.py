#!/usr/bin/env python3
"""Respells the repository's own definitions and lemmas as the language's library spells its own.

usage: python3 tools/respell.py        at the top of the repository, once, after the toolchain's port.py and before that is committed

Words are in snake case, types and modules in camel case; a dash joins two names and no plain words. Functions of src/, exported C names and
strings keep theirs. Documents, must-fail edits and tests follow, and with them the names that port.py respelled (found by setting the
definitions of each file beside those that HEAD has of it). Names that would fall together stop it, and nothing is written.
"""
import collections
import glob
import os
import re
import subprocess
import sys

NAME = r"[^\s(){}.,;@`\"|\[\]⌜⌝!?/:=&*<>#\\$]+"
TOKEN = re.compile(NAME)
SEVERAL = re.compile(r"\s+(?:pub )?([a-z]\w*(?: [a-z]\w*)+) :\s")
DEFINED = re.compile(r"(\s*)((?:(?:abbrev|unfoldable|pub|data|record|ruleset)\s+)*)(" + NAME + r")\s*(?:\([^=]*?\)\s*|\{[^=]*?\}\s*)*:\s")

# Where the rule alone would give a name that is taken, or that says less than the old one.
CHOSEN = {"get_d_kept": "get_or-kept"} | {
    lemma: lemma.replace("-", "_") + "_lem"
    for lemma in """all_right api-version at_level bare-fits done-if first_past goes_on host-read host-write in-range in-table in_use no-row or-none or-zero
        past_end round_trip run_length same_answer same_bytes set-iommu set-irqs sound-slots""".split()
}

# Words of the library that a dash may join to one of ours.
LIBRARY = set("length append take drop set sets get_or map replicate mod div add sub mul lt le leb ltb eqb nil cons zero suc not".split())


def read(path):
    with open(path, encoding="utf-8") as f:
        return f.read()


def defined(text, several=True):
    """The names that a file of specs/ or proofs/ defines, in order: definitions, lemmas, fields, and those local to one; with `several`, also
    constructors and variables that stand side by side before one type."""
    found = []
    for line in text.split("\n"):
        m = DEFINED.match(line)
        if m and not re.match(r"\s*(--|use\b|infix|module|unfolding|let\b|in\b|λ)", line) and m[3] not in ("let", "in", "_", "λ"):
            found.append(m[3])
        elif several and (m := SEVERAL.match(line)):
            found += m[1].split()
    return found


def snake(word):
    word = word.replace("getD", "get_or")
    word = re.sub(r"([a-z0-9])([A-Z])", r"\1_\2", word)
    return word.lower() if not word[:1].isupper() else word


def main():
    files = sorted(glob.glob("crates/*/specs/**/*.antt", recursive=True) + glob.glob("crates/*/proofs/*.antt"))
    functions = set()
    for path in glob.glob("crates/*/src/*.rt"):
        functions |= set(re.findall(r"\bfn ([a-z_0-9]+)", read(path)))
    # What port.py respelled, for the files that it does not turn.
    before = {}
    for path in files:
        old = subprocess.run(["git", "show", "HEAD:" + path], capture_output=True, text=True)
        if old.returncode == 0:
            a, b = defined(old.stdout, False), defined(read(path), False)
            if len(a) == len(b):
                for x, y in zip(a, b):
                    if x != y and "_" in y.replace("◌", "") or x != y and "◌" in y:
                        before.setdefault(x.replace("_", "◌") if "◌" in y else x, y)
            else:
                print(f"not set beside HEAD: {path}: {len(a)} and {len(b)} definitions", file=sys.stderr)
    owners = collections.defaultdict(set)
    for path in files:
        for name in defined(read(path)):
            owners[name].add(path)
    names = set(owners)
    plain = {n for path in files for n in defined(read(path), False) if "-" not in n}
    words = {snake(n) for n in plain} | functions | LIBRARY

    def joined(parts):
        """A dash stays where it joins two names; plain words are joined by `_`."""
        out = parts[0]
        for i, part in enumerate(parts[1:], 1):
            left, right = "_".join(parts[:i]), "_".join(parts[i:])
            keeps = left in words and right in words and left != right
            out += ("-" if keeps else "_") + part
        return out

    renamed = {}
    for name in sorted(names):
        if name[:1].isupper() or "◌" in name or not name[:1].isalpha():
            continue
        parts = name.split("-")
        if any(p == "" or not re.fullmatch(r"[A-Za-z0-9_'₀-₉]+", p) for p in parts):
            continue
        new = CHOSEN.get(name) or joined([snake(p) for p in parts])
        if new != name:
            renamed[name] = new
    bad = False
    taken = collections.defaultdict(list)
    for name in names:
        taken[renamed.get(name, name)].append(name)
    for new, olds in sorted(taken.items()):
        if len(olds) > 1:
            together = set.intersection(*(owners[o] for o in olds))
            print(f"falls together: {new}: {', '.join(olds)}{' IN ONE FILE ' + str(together) if together else ''}", file=sys.stderr)
            bad = bad or bool(together)
    if "--show" in sys.argv:
        for a, b in sorted(renamed.items()):
            print(a, b)
        for a, b in sorted(before.items()):
            print("port:", a, b)
    if bad or "--show" in sys.argv:
        return 1 if bad else 0

    fields = {n for n in names if any(re.search(r"(?m)^\s+(pub )?" + re.escape(n) + r" :", read(p)) for p in owners[n])}
    aliases = {}

    def turn(text, also=None, in_code=False):
        def swap(m):
            word = m[0]
            if also and word in functions:
                return word
            if also and word in also:
                word = also[word]
            if "-" in word and m.start() > 0 and text[m.start() - 1] == "." and word not in fields:
                return word
            if in_code and not re.search(r"[a-z][A-Z]", word):
                return word
            return renamed.get(word, aliases.get(word, word))

        return TOKEN.sub(swap, text)

    for path in sorted(glob.glob("crates/*/src/*.rt") + glob.glob("crates/*/specs/**/*.antt", recursive=True) + glob.glob("crates/*/proofs/**/*.antt", recursive=True)):
        text = read(path)
        aliases = {b: snake(b) for a, b in re.findall(r"(\S+) as ([a-z]\w*[A-Z]\w*)", text)}
        new = turn(text, in_code=path.endswith(".rt"))
        if new != text:
            with open(path, "w", encoding="utf-8") as f:
                f.write(new)
    aliases = {}
    after = dict(before)
    tracked = subprocess.run(["git", "ls-files", "README.md", "docs", "tests", "crates/*.edit"], capture_output=True, text=True, check=True).stdout.split("\n")
    for path in tracked:
        if not path.endswith((".md", ".edit", ".patch")) or path == "docs/session-format.md" or not os.path.isfile(path):
            continue
        text = read(path)
        if path.endswith(".md"):
            # A line of a session is no name of ours.
            new = re.sub(r"`[^`\n]+`", lambda m: m[0] if m[0].startswith("`request ") else turn(m[0], after), text)
        else:
            new = turn(text, after)
        if new != text:
            with open(path, "w", encoding="utf-8") as f:
                f.write(new)
    print(f"{len(renamed)} names respelled, {len(before)} that port.py had respelled")
    return 0


if __name__ == "__main__":
    raise SystemExit(main())
