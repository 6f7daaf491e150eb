#!/usr/bin/env python3
"""Processor seconds of each crate in a run of the gate.

    tools/gate_times.py LOG [ARGUMENTS OF rt ci]

Runs `rt ci` with its output in the file LOG and looks at its processes once a second. Prints the last line,
the wall time, and for each crate the processor seconds of its proof, of its tests with their proof, and of
its planted bugs, and the greatest resident memory of one process; and how many proofs of vsw_base the whole is, since
machines and days differ by more than two.
"""
import os
import subprocess
import sys
import time

TICK = os.sysconf("SC_CLK_TCK")
PAGE = os.sysconf("SC_PAGE_SIZE")
KINDS = ("proof", "tests", "bugs")


def processes():
    """All processes: of each its parent, start, words, folder, processor seconds and resident bytes."""
    for name in filter(str.isdigit, os.listdir("/proc")):
        try:
            with open(f"/proc/{name}/stat") as file:
                fields = file.read().rsplit(")", 1)[1].split()
            with open(f"/proc/{name}/cmdline", "rb") as file:
                words = file.read().decode(errors="replace").split("\0")
            folder = os.readlink(f"/proc/{name}/cwd")
        except (OSError, IndexError):
            continue
        seconds = (int(fields[11]) + int(fields[12])) / TICK
        yield int(name), int(fields[1]), int(fields[19]), words, folder, seconds, int(fields[21]) * PAGE


def below(root):
    """The processes below `root`."""
    found = list(processes())
    parents = {pid: parent for pid, parent, *_ in found}
    for process in found:
        at = process[0]
        while at != root and at in parents:
            at = parents[at]
        if at == root:
            yield process


def step_of(words, folder, root):
    """The crate that a process works on, and whether on its proof, its tests or its planted bugs."""
    if "--crate-name" not in words:
        return None
    crate = words[words.index("--crate-name") + 1]
    if not folder.startswith(root):
        return crate, "bugs"
    return crate, "tests" if "--test" in words else "proof"


def table(seen):
    rows, most = {}, {}
    for (crate, kind), seconds, memory in seen.values():
        rows.setdefault(crate, dict.fromkeys(KINDS, 0.0))[kind] += seconds
        most[crate] = max(most.get(crate, 0), memory)
    yield f"{'processor seconds':20}{'all':>8}" + "".join(f"{kind:>8}" for kind in KINDS) + "     MiB"
    for crate in sorted(rows, key=lambda crate: -sum(rows[crate].values())):
        row = rows[crate]
        yield (f"{crate:20}{sum(row.values()):8.0f}" + "".join(f"{row[kind]:8.0f}" for kind in KINDS)
               + f"{most[crate] >> 20:8}")
    whole, base = sum(sum(row.values()) for row in rows.values()), rows.get("vsw_base", {}).get("proof")
    yield f"{'all':20}{whole:8.0f}" + (f", {whole / base:.0f} times the proof of vsw_base" if base else "")


def main():
    if len(sys.argv) < 2:
        sys.exit(__doc__)
    begun, seen = time.time(), {}
    with open(sys.argv[1], "w") as log:
        run = subprocess.Popen(["rt", "ci"] + sys.argv[2:], stdout=log, stderr=subprocess.STDOUT)
        while run.poll() is None:
            for pid, _, start, words, folder, seconds, memory in below(run.pid):
                step = step_of(words, folder, os.getcwd())
                if step is not None:
                    _, before, most = seen.get((pid, start), (step, 0.0, 0))
                    seen[(pid, start)] = (step, max(before, seconds), max(most, memory))
            time.sleep(1)
    with open(sys.argv[1]) as log:
        print(log.read().rstrip().rsplit("\n", 1)[-1])
    print(f"wall {time.time() - begun:.0f} s")
    print("\n".join(table(seen)))
    sys.exit(run.returncode)


main()
