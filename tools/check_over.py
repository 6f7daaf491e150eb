#!/usr/bin/env python3
"""Proves crates over libraries that stand built, without proving what is below them once more.

    tools/check_over.py LIBRARIES [--library] CRATE.. [-- FLAGS OF rattle check]

LIBRARIES is the top of a clone in which `rt ci` ran (it leaves each proved library in crates/NAME/out/rlib), or this tool with
`--library`. A library that stands built in this clone goes before. With `--library` each crate is built, too, so that those above it
are proved over it; name them lowest first. What a check did is kept in out/incremental (of tests in out/incremental-test): copied there from
another clone it serves as well, and a crate whose own text didn't change is proved in some 20 seconds.

As `rt ci` does, it fails where no call can meet a function's contract, or where a pattern takes each value and one case was probably meant.

It is no verdict: `rt ci` is. Refused are libraries of LIBRARIES that stand on one that was built anew here.
"""
import os
import re
import shutil
import subprocess
import sys
import time

ROOT = os.path.dirname(os.path.dirname(os.path.abspath(__file__)))
# What the gate refuses though the check ends well.
REFUSED = re.compile(r"warning: no call of `(?![^`]*::fn::)|note: the search for empty contracts did not end|.* warning: this pattern binds a variable spelled like a constructor")
QUIET = re.compile(r"(fn|impl|struct|enum|trait) .*: proved|statements |library |by-macro|test |$")


def read_crates():
    """Each crate of crates.txt with what it names."""
    with open(os.path.join(ROOT, "crates.txt")) as file:
        rows = re.findall(r"^(\w+)[^:#\n]*:(.*)$", file.read(), re.MULTILINE)
    return {name: uses.split() for name, uses in rows}


def below(crates, name):
    """The repository's crates below one, each after those that it names."""
    found = []
    for use in filter(crates.__contains__, crates[name]):
        found += [it for it in [*below(crates, use), use] if it not in found]
    return found


def place(top, name):
    return os.path.join(top, "crates", name, "out", "rlib", f"{name}.rlib")


def find_library(crates, libraries, name):
    """Where a crate's library stands."""
    if os.path.isdir(place(ROOT, name)):
        return place(ROOT, name)
    if not os.path.isdir(place(libraries, name)):
        sys.exit(f"{name} is built nowhere")
    anew = [it for it in below(crates, name) if os.path.isdir(place(ROOT, it))]
    if anew and os.path.realpath(libraries) != os.path.realpath(ROOT):
        sys.exit(f"{name} stands on {anew[0]}, which was built here: build it here, too")
    return place(libraries, name)


def words_of(crates, libraries, name, flags):
    kit = os.path.dirname(subprocess.check_output(["rt", "doc"], text=True).split()[0])
    root = "main" if os.path.exists(os.path.join(ROOT, "crates", name, "src", "main.rt")) else "lib"
    words = ["--crate-name", name, f"src/{root}.rt", "-L", f"dependency={kit}/rlibs"]
    for use in dict.fromkeys(["std", *crates[name]]):
        where = find_library(crates, libraries, use) if use in crates else f"{kit}/rlibs/{use}.rlib"
        words += ["--extern", f"{use}={where}"]
    for use in below(crates, name):
        words += ["-L", f"dependency={os.path.dirname(find_library(crates, libraries, use))}"]
    words += ["--antt-project", f"{kit}/rattle/logic/antt-project.json", "--logic-built", f"{kit}/logic_built"]
    jobs = [] if any(it.startswith("--jobs") for it in flags) else ["--jobs", "1"]
    kept = "out/incremental-test" if "--test" in flags else "out/incremental"
    return [*words, "--links", f"{name}=", *flags, *jobs, "--empty-contracts", "--incremental", kept], f"{kit}/bin/rattle"


def check(crates, libraries, name, is_library, flags):
    """Proves one crate, prints what isn't plain, and answers the status."""
    words, rattle = words_of(crates, libraries, name, flags)
    folder, begun = os.path.join(ROOT, "crates", name), time.time()
    if is_library:
        shutil.rmtree(place(ROOT, name), ignore_errors=True)
    os.makedirs(os.path.dirname(place(ROOT, name)) if is_library else os.path.join(folder, "out"), exist_ok=True)
    verb = ["build", *words, "-o", place(ROOT, name)] if is_library else ["check", *words]
    ran = subprocess.run([rattle, *verb], cwd=folder, stdin=subprocess.DEVNULL, stdout=subprocess.PIPE, stderr=subprocess.STDOUT, text=True, errors="replace")
    lines = ran.stdout.split("\n")
    print(*(line for line in lines if not QUIET.match(line)), sep="\n")
    status = ran.returncode or int(any(map(REFUSED.match, lines)))
    print(f"{name}: status {status}, {time.time() - begun:.0f} s", flush=True)
    return status


def main():
    words, _, flags = " ".join(sys.argv[1:]).partition(" -- ")
    names = [it for it in words.split() if it != "--library"]
    if len(names) < 2 or names[0].startswith("-"):
        sys.exit(__doc__)
    crates = read_crates()
    libraries, *names = names
    for name in names:
        if name not in crates:
            sys.exit(f"crates.txt has no {name}")
        status = check(crates, os.path.abspath(libraries), name, "--library" in words.split(), flags.split())
        if status:
            sys.exit(status)


if __name__ == "__main__":
    main()
