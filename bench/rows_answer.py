#!/usr/bin/env python3
"""How many packets rows answer: rows_answer.py PROGRAM MAKE_TRACE MAKE_POLICY

Counts the calls of `Core::slow` (vsw_core) with valgrind's callgrind, so PROGRAM must keep its functions' names: the one that
`tools/build_unproved` writes does. MAKE_TRACE writes captures (-n PACKETS -f FLOWS -p PROFILE FILE), MAKE_POLICY the policy
`whole`. One worker, 100,000 packets of 10,000 flows: as they come; with a command each 1,000 packets; with timers of 240 s
over 600 s; and behind 50,000 packets of as many flows.
"""
import json
import os
import re
import struct
import subprocess
import sys
import tempfile

PACKETS, FLOWS, SINGLE = 100_000, 10_000, 50_000


def records(path):
    """The captures' records: moment in microseconds, and bytes."""
    with open(path, "rb") as file:
        data = file.read()
    at, found = 24, []
    while at < len(data):
        seconds, micros, length, _ = struct.unpack_from("<IIII", data, at)
        found.append((seconds * 1_000_000 + micros, data[at + 16:at + 16 + length]))
        at += 16 + length
    return found


def capture(path, packets):
    with open(path, "wb") as file:
        file.write(struct.pack("<IHHIIII", 0xA1B2C3D4, 2, 4, 0, 0, 262144, 1))
        for moment, data in packets:
            file.write(struct.pack("<IIII", moment // 1_000_000, moment % 1_000_000, len(data), len(data)) + data)


def commands(path, policy):
    """Another default for inbound packets of the first layer, before each thousandth packet."""
    layer = policy["ports"][0]["layers"][0]
    with open(path, "w") as file:
        for number in range(1, PACKETS // 1_000):
            line = {"at": number * 1_000, "when": "before", "controller": layer["controller"], "port": policy["ports"][0]["port"],
                    "do": "set_default", "layer": layer["layer"], "dir": "in", "default": "allow" if number % 2 else "drop"}
            file.write(json.dumps(line) + "\n")


def slow_calls(program, folder, policy, lines, trace):
    """How many packets the layers answered."""
    out = os.path.join(folder, "counts")
    subprocess.run(["valgrind", "--tool=callgrind", f"--callgrind-out-file={out}", program, "forward", policy, lines, trace],
                   stdout=subprocess.DEVNULL, stderr=subprocess.DEVNULL, check=True)
    with open(out) as file:
        text = file.read()
    names = {number for number, name in re.findall(r"^c?fn=\((\d+)\) (.*)$", text, re.M) if "owner::Core::slow" in name or name.endswith("Core::slow")}
    return sum(int(count) for number, count in re.findall(r"^cfn=\((\d+)\)[^\n]*\ncalls=(\d+)", text, re.M) if number in names)


def main(program, make_trace, make_policy):
    with tempfile.TemporaryDirectory() as folder:
        def at(name):
            return os.path.join(folder, name)
        policy = json.loads(subprocess.check_output([sys.executable, make_policy, "whole"]))
        with open(at("day"), "w") as file:
            json.dump(policy, file)
        commands(at("lines"), policy)
        for layer in policy["ports"][0]["layers"]:
            layer["idle"] = 240
        with open(at("minutes"), "w") as file:
            json.dump(policy, file)
        open(at("none"), "w").close()
        subprocess.check_call([make_trace, "-n", str(PACKETS), "-f", str(FLOWS), at("plain")])
        subprocess.check_call([make_trace, "-n", str(SINGLE), "-f", str(SINGLE), "-p", "scan", "-s", "7", at("single")])
        plain, single = records(at("plain")), records(at("single"))
        capture(at("slowly"), [(number * 6_000, data) for number, (_, data) in enumerate(plain)])
        end = single[-1][0]
        capture(at("behind"), single + [(end + 10 + moment, data) for moment, data in plain])
        alone = slow_calls(program, folder, at("day"), at("none"), at("single"))
        for name, rules, lines, trace, less in (("as they come", "day", "none", "plain", 0), ("a command each 1,000 packets", "day", "lines", "plain", 0),
                                                ("timers of 240 s over 600 s", "minutes", "none", "slowly", 0), ("behind 50,000 single flows", "day", "none", "behind", alone)):
            calls = slow_calls(program, folder, at(rules), at(lines), at(trace)) - less
            print(f"{name:30} rows answer {PACKETS - calls:6} of {PACKETS}", flush=True)


main(*sys.argv[1:])
