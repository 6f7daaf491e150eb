#!/usr/bin/env python3
"""Builds stand-ins of crates: their types, contracts, definitions and lemmas, and functions without bodies.

    tools/stand_ins.py LIBRARIES SOURCES CRATE..

A crate is proved over the contracts of those below it alone, so it can be proved over their stand-ins while they aren't proved themselves. SOURCES is the
top of the clone whose crates are built, lowest first; each is left in crates/NAME/out/rlib of this clone, where tools/check_over.py takes it. The libraries that
they stand on are taken from this clone, or from LIBRARIES (a clone in which `rt ci` ran). All crates between a stand-in and the one that is proved have to be built
so, too.

In a stand-in each function calls one that promises everything, so nothing of it is proved, and what is proved over it holds only once the real library is.
"""
import os
import re
import shutil
import subprocess
import sys
import time

import check_over

CHAR = re.compile(r"'(\\u\{[0-9a-fA-F]+\}|\\x..|\\.|[^\\'\n])'")
WORD = re.compile(r"[A-Za-z_]\w*")
CLAUSES = ("requires", "ensures")
BODY = "{ crate::stands_in::never(); unreachable!() }"
NEVER = '\nmod stands_in {\n    unsafe extern "C" {\n        pub safe fn never()\n            ensures { ⊥ };\n    }\n}\n'
# An attribute that names lemmas for the proof of a body.
USING = re.compile(r"#\[tactic\(auto, using\([^\]]*\]\n?")


def past_plain(text, at):
    """Where a comment, a string or a character that begins here ends; here, if none does."""
    if text.startswith("//", at):
        end = text.find("\n", at)
        return len(text) if end < 0 else end
    if text.startswith("/*", at):
        return text.index("*/", at) + 2
    if text[at] == '"':
        at += 1
        while text[at] != '"':
            at += 2 if text[at] == "\\" else 1
        return at + 1
    found = CHAR.match(text, at) if text[at] == "'" else None
    return found.end() if found else at


def past_block(text, at):
    """Where the bracket that opens here is closed."""
    depth = 0
    while True:
        to = past_plain(text, at)
        if to == at:
            to += 1
            depth += (text[at] in "{([") - (text[at] in "})]")
            if not depth:
                return to
        at = to


def past_ghost(text, at):
    """Where a ghost member or use ends."""
    while text[at] not in ";,":
        to = past_plain(text, at)
        at = to if to != at else past_block(text, at) if text[at] in "{([" else at + 1
    return at


def body_at(text, at):
    """Where a function's body stands, from behind its parameters on: its start and its end. Both are one where it has none."""
    words = []
    while True:
        to = past_plain(text, at)
        if to != at:
            at = to
            continue
        if text[at] == ";":
            return at, at
        if text[at] in "([":
            words, at = [*words, text[at]], past_block(text, at)
            continue
        if text[at] == "{":
            end = past_block(text, at)
            if not any(word in CLAUSES for word in words[-2:]):
                return at, end
            words, at = [], end
            continue
        word = WORD.match(text, at)
        if word or not text[at].isspace():
            words.append(word.group() if word else text[at])
        at = word.end() if word else at + 1


def without_bodies(text):
    """The text of a source file with another body in each function."""
    made, at, copied = [], 0, 0
    while at < len(text):
        to = past_plain(text, at)
        word = WORD.match(text, at) if to == at else None
        if not word:
            at = max(to, at + 1)
            continue
        at = word.end()
        if word.group() == "macro_rules":
            at = past_block(text, text.index("{", at))
        elif word.group() == "ghost":
            at = past_ghost(text, at)
        elif word.group() == "fn" and re.match(r"\s+\w", text[at:at + 80]):
            start, end = body_at(text, past_block(text, text.index("(", at)))
            if start < end:
                made += [text[copied:start], BODY]
                copied = end
            at = end
    return "".join([*made, text[copied:]])


def copy_file(source, target, name):
    os.makedirs(os.path.dirname(os.path.join(target, name)), exist_ok=True)
    with open(os.path.join(source, name), encoding="utf-8") as file:
        text = file.read()
    if name.startswith("src") and name.endswith(".rt"):
        text = USING.sub("", without_bodies(text)) + (NEVER if name == "src/lib.rt" else "")
    with open(os.path.join(target, name), "w", encoding="utf-8") as file:
        file.write(text)


def copy_crate(source, target):
    """Copies a crate without its functions' bodies and proofs. Those stand in folders that are named as modules are, lemmas in files beside them."""
    for part in ("src", "specs", "proofs"):
        shutil.rmtree(os.path.join(target, part), ignore_errors=True)
        for folder, below, files in os.walk(os.path.join(source, part)):
            if part == "proofs":
                below[:] = [name for name in below if name[0].isupper()]
            for name in files:
                copy_file(source, target, os.path.relpath(os.path.join(folder, name), source))


def build(crates, libraries, sources, name):
    work = os.path.join(check_over.ROOT, "crates", name, "out", "stand_in")
    copy_crate(os.path.join(sources, "crates", name), work)
    words, rattle = check_over.words_of(crates, libraries, name, [])
    words[words.index("--links") + 1] = f"{name}=never"
    place, begun = check_over.place(check_over.ROOT, name), time.time()
    shutil.rmtree(place, ignore_errors=True)
    os.makedirs(os.path.dirname(place), exist_ok=True)
    ran = subprocess.run([rattle, "build", *words, "-o", place], cwd=work, stdin=subprocess.DEVNULL, stdout=subprocess.PIPE, stderr=subprocess.STDOUT, text=True, errors="replace")
    if ran.returncode:
        print(*(line for line in ran.stdout.split("\n") if not check_over.QUIET.match(line)), sep="\n")
    print(f"{name}: stand-in, status {ran.returncode}, {time.time() - begun:.0f} s", flush=True)
    return ran.returncode


def main():
    if len(sys.argv) < 4 or sys.argv[1].startswith("-"):
        sys.exit(__doc__)
    crates = check_over.read_crates()
    libraries, sources, *names = sys.argv[1:]
    for name in names:
        if name not in crates:
            sys.exit(f"crates.txt has no {name}")
        status = build(crates, os.path.abspath(libraries), os.path.abspath(sources), name)
        if status:
            sys.exit(status)


if __name__ == "__main__":
    main()
