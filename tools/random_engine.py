#!/usr/bin/env python3
"""Runs `engine` over random rows files and captures, and judges what it puts by a plain program.

    tools/random_engine.py [RUNS] [SEED] [PROGRAM]

Rows are drawn for most of the packets of a random capture (tools/random_runs.py): they pass with edits, with encapsulations taken away and put in
front, or are dropped, and some answer no longer when their packet comes. The plain program is tools/plain_engine.py. PROGRAM is ./vsw if it isn't
given. Prints how often each answer came, and the seed of a run whose lines are wrong.
"""
import collections
import os
import subprocess
import sys
import tempfile

import plain_engine
import plain_switch
import random_runs
from packets import write_capture
from vswlib.rowsfiles import NO_END, PortRows, write_rows

ROOT = os.path.dirname(os.path.dirname(os.path.abspath(__file__)))
IGNORE = (8, 0, 0)


def changed(draw, kind, sizes):
    """An act of this kind that writes one field or both, of so many bits."""
    has = draw.choice([(1, 0), (0, 1), (1, 1)])
    fields = [draw.getrandbits(size) if is_there else 0 for size, is_there in zip(sizes, has)]
    return (kind | has[0] << 4 | has[1] << 5, *fields)


def pushed(draw):
    """An encapsulation in front."""
    return [(1 | 3 << 4 | 0x0800 << 16, draw.getrandbits(48), draw.getrandbits(48)), (2 | 3 << 4 | 17 << 16, draw.getrandbits(32), draw.getrandbits(32)),
            (3 | draw.getrandbits(24) << 16, 0, 0)]


def inner(draw, fields):
    """Acts for the innermost headers."""
    acts = [changed(draw, 5, (48, 48)) if draw.random() < 0.5 else IGNORE]
    if "src_ip" in fields:
        acts.append(changed(draw, 6, (32, 32)) if draw.random() < 0.5 else IGNORE)
    elif "src_ip6" in fields:
        kind = draw.choice([9, 10, None])
        acts.append((kind | 1 << 4 if kind == 9 else kind | 1 << 5, draw.getrandbits(64), draw.getrandbits(64)) if kind else IGNORE)
    if "src_port" in fields:
        acts.append(changed(draw, 7, (16, 16)) if draw.random() < 0.5 else IGNORE)
    return acts


def acts(draw, packet):
    """The acts of a pass."""
    gone = draw.randint(0, len(packet.encaps)) if draw.random() < 0.5 else 0
    room = 2 - (len(packet.encaps) - gone)
    come = draw.randint(0, room) if draw.random() < 0.5 else 0
    made = [(4, 0, 0)] * 3 * gone + [act for _ in range(come) for act in pushed(draw)]
    rest = [IGNORE] * 3 * (len(packet.encaps) - gone) + inner(draw, packet.fields)
    return made + rest


def row(draw, packet, way, moment):
    """A row of a packet's identity."""
    words = [*plain_engine.key_of(packet, way), *[0] * 57]
    words[17] = draw.choice([NO_END, NO_END, moment, moment + draw.randrange(2_000_000), max(moment - draw.randrange(1, 2_000_000), 0)])
    words[16] = draw.choice([0, 0, 0, 0, 1, 2, 3])
    if words[16] == 0:
        told = acts(draw, packet)
        words[18] = len(told)
        for place, act in enumerate(told):
            words[19 + 3 * place:22 + 3 * place] = act
    else:
        words[19] = sum(draw.getrandbits(16) << 16 * place for place in range(4 if words[16] == 1 else 2))
    return tuple(words)


def drawn(seed):
    """A rows file and a capture."""
    draw = random_runs.Drawing(seed)
    records, moment = [], 0
    often = [random_runs.frame(draw) for _ in range(12)]
    for _ in range(draw.choice([1, 40, 300, 700])):
        moment += draw.choice(random_runs.STEPS)
        data = draw.choice(often) if draw.random() < 0.6 else random_runs.frame(draw)
        records.append((moment, data, len(data) + (draw.random() < 0.01)))
    ports = [{"port": place + 1, "rows": {}} for place in range(len(random_runs.PORT_MACS))]
    macs = {plain_switch.mac(mac): port for mac, port in zip(random_runs.PORT_MACS, ports)}
    for record in draw.sample(records, len(records)):
        found = plain_switch.met(macs, record)
        if not isinstance(found, str) and draw.random() < 0.7:
            port, way, packet = found
            made = row(draw, packet, way, record[0])
            port["rows"].setdefault(made[:16], made)
    rows = [PortRows(port["port"], mac, draw.getrandbits(32), tuple(port["rows"].values())) for mac, port in zip(random_runs.PORT_MACS, ports)]
    return write_rows(rows), write_capture(records)


def run(program, folder, rows, trace):
    names = [os.path.join(folder, name) for name in ("rows", "trace.pcap")]
    for name, data in zip(names, (rows, trace)):
        with open(name, "wb") as file:
            file.write(data)
    ran = subprocess.run([program, "engine", *names], capture_output=True)
    return ran.returncode, ran.stdout.decode(), ran.stderr.decode()


def became(text):
    """What each line tells, in short."""
    for line in text.splitlines()[1:]:
        words = line.split()
        yield " ".join(words[2:4]) if words[2:3] == ["drop"] else words[2] if words[2:3] in (["pass"], ["none"]) else words[1]


def main(runs=100, seed=1, program=os.path.join(ROOT, "vsw")):
    counts = collections.Counter()
    with tempfile.TemporaryDirectory() as folder:
        for at in range(int(seed), int(seed) + int(runs)):
            rows, trace = drawn(at)
            status, got, complaint = run(program, folder, rows, trace)
            if (status, got, complaint) != (0, plain_engine.answers(rows, trace), ""):
                return f"seed {at}: status {status}, {complaint.strip() or 'other lines than the plain program'}"
            counts.update(became(got))
    for kind, count in sorted(counts.items()):
        print(f"{count:7} {kind}")
    return None


if __name__ == "__main__":
    sys.exit(main(*sys.argv[1:]))
