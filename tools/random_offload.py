#!/usr/bin/env python3
"""Runs `offload` over random policies, commands and captures, and judges the rows that it puts.

    tools/random_offload.py [RUNS] [SEED] [PROGRAM]

Runs are drawn as tools/random_runs.py draws them. What `offload` puts has to be a rows file (tools/vswlib/rowsjudge.py) of the policy's ports, with as many entries as the report of `forward`
tells. `engine` then answers packets of the run, and others, from it, as tools/plain_engine.py does. Each packet that it answers is put behind the run, in a round of its own: `forward` has to tell
the same fate and bytes of it, and that it changes nothing. PROGRAM is ./vsw if it isn't given. Prints how often each answer came, how many rows there were, and the seed of a run that is wrong.
"""
import collections
import json
import os
import subprocess
import sys
import tempfile

import plain_engine
import random_engine
import random_runs
from packets import read_capture, write_capture
from vswlib.rowsfiles import parse_rows
from vswlib.rowsjudge import fault_of

ROOT = os.path.dirname(os.path.dirname(os.path.abspath(__file__)))


def drawn(seed):
    """A policy, commands and a capture, and packets that come behind it. All commands come before its last packet."""
    (text, lines, trace, _), _ = random_runs.drawn(seed)
    draw, records = random_runs.Drawing(seed), read_capture(trace)
    kept = [line for line in lines.split(b"\n") if line.strip() and json.loads(line)["at"] < len(records)]
    moment = records[-1][0] + draw.choice([0, 1_000, 300_000, 3_000_000])
    frames = list(dict.fromkeys(data for _, data, _ in records)) + [random_runs.frame(draw) for _ in range(10)]
    return text, b"\n".join(kept), records, [(moment, data, len(data)) for data in frames]


def run(program, command, names):
    return subprocess.run([program, command, *names], capture_output=True, check=True).stdout


def told(report):
    """By packet the port and the fate of its line, and whether it changed nothing; by port its last count of entries."""
    packets, entries, port = {}, {}, None
    for line in report.decode().splitlines():
        words = line.split(" ", 3)
        if words[0] == "port":
            port, entries[int(words[1])] = int(words[1]), int(words[3])
        elif words[0].startswith("w"):
            packets[int(words[1])] = (port, words[3], words[2].startswith("@"))
    return packets, entries


def answered(text):
    """The packets that rows answer: the place, the port and the fate."""
    for line in text.splitlines()[1:]:
        words = line.split(" ", 2)
        if len(words) == 3 and words[2] != "none" and words[1].isdigit():
            yield int(words[0]), int(words[1]), words[2]


def wrong_rows(rows, text, entries):
    """What is wrong with a rows file by itself, None where nothing is."""
    fault = fault_of(rows)
    if fault is not None:
        return f"the rows are at fault: {fault}"
    wanted = [(port["port"], port["mac"], entries.get(port["port"], 0)) for port in json.loads(text)["ports"]]
    got = [(port.port, port.mac, port.entries) for port in parse_rows("rows", rows)]
    return None if got == wanted else f"the rows' ports are {got}, and not {wanted}"


def wrong_answers(program, folder, run_files, probes, got):
    """What is wrong with what rows answer, None where nothing is: it has to be what the layers do with the packets behind the run."""
    text, lines, records = run_files
    answers = list(answered(got))
    port = json.loads(text)["ports"][0]["port"]
    apart = {"at": len(records), "when": "before", "controller": 1, "port": port, "do": "remove_layer", "layer": 60_000}
    behind = [probes[place] for place, _, _ in answers]
    names = random_runs.keep(folder, text, lines + b"\n" + json.dumps(apart).encode() + b"\n", write_capture(records + behind))
    packets, _ = told(run(program, "forward", names))
    for at, (place, port, fate) in enumerate(answers, len(records)):
        if packets.get(at) != (port, fate, True):
            return f"packet {place}: rows answer {(port, fate)}, and the layers {packets.get(at)}"
    return None


def judged(program, folder, files):
    """What is wrong with a run, None where nothing is; its rows, and what they answer."""
    text, lines, records, probes = files
    names = random_runs.keep(folder, text, lines, write_capture(records))
    rows = run(program, "offload", names)
    why = wrong_rows(rows, text, told(run(program, "forward", names))[1])
    if why is not None:
        return why, rows, ""
    trace = write_capture(probes)
    status, got, complaint = random_engine.run(program, folder, rows, trace)
    if (status, got, complaint) != (0, plain_engine.answers(rows, trace), ""):
        return f"engine: status {status}, {complaint.strip() or 'other lines than the plain program'}", rows, got
    return wrong_answers(program, folder, (text, lines, records), probes, got), rows, got


def main(runs=100, seed=1, program=os.path.join(ROOT, "vsw")):
    counts = collections.Counter()
    with tempfile.TemporaryDirectory() as folder:
        for at in range(int(seed), int(seed) + int(runs)):
            why, rows, got = judged(program, folder, drawn(at))
            if why is not None:
                return f"seed {at}: {why}"
            counts.update(random_engine.became(got))
            counts["rows"] += sum(len(port.rows) for port in parse_rows("rows", rows))
    for kind, count in sorted(counts.items()):
        print(f"{count:7} {kind}")
    return None


if __name__ == "__main__":
    sys.exit(main(*sys.argv[1:]))
