#!/usr/bin/env python3
"""Compares what tools/check_policy refuses with what the program does, over good policies and commands that are changed at random.

    tools/refused_files.py [RUNS] [SEED] [PROGRAM]

Each run takes the policy of an example and a command of each kind, changes a value, a member, an item or a letter of them, and
runs PROGRAM (./vsw if it isn't given) over both. Kind, path and line must be those that the program tells. Prints how often each
kind came, and the seeds of runs that differ; ends with 1 where there are such.
"""
from __future__ import annotations

import collections
import json
import os
import random
import re
import subprocess
import sys
import tempfile
from typing import Any

from vswlib.ending import Ending
from vswlib.policies import read_commands, read_policy

ROOT = os.path.dirname(os.path.dirname(os.path.abspath(__file__)))
EXAMPLES = sorted(name for name in os.listdir(os.path.join(ROOT, "examples")) if os.path.exists(os.path.join(ROOT, "examples", name, "report.txt")))
VALUES = [0, 1, 2, 7, 8, 16_384, 16_385, 65_535, 65_536, 86_401, 2**32, 2**64 - 1, 2**64, -1, 1.5, "", "1", "out", "allow", "10.0.0.1", "10.0.0.1/33", "010.0.0.1",
          "02:00:00:00:00:01", "02:00:00:00:00:0g", "dst_ip", "src_ip", "vni", True, False, None, [], {}, [1, 2], [9, 1], ["10.0.0.9", "10.0.0.1"], [1, 2, 3],
          "fd00::5", "::/129", "1:2:3:4:5:6:7::", "1::2::3", ["::1", "::2"], "dst_ip6", "put_many"]
SAID = re.compile(r"vsw: (refused (?:policy|commands) .+|limit \w+)\n")
TOLD = re.compile(r"\S+?(\.jsonl?):(?:(\d+):\d+: (\w+ \S+): .*| (limit \w+).*)", re.DOTALL)


def nodes(value: Any) -> list[tuple[Any, Any]]:
    """Each list and object within a value, with each of its places or names."""
    found = []
    items = value.items() if isinstance(value, dict) else enumerate(value) if isinstance(value, list) else ()
    for name, item in items:
        found += [(value, name), *nodes(item)]
    return found


def change(draw: random.Random, value: Any) -> None:
    """Changes one thing within a value."""
    where, name = draw.choice(nodes(value) or [([0], 0)])
    kind = draw.random()
    if kind < 0.5:
        where[name] = draw.choice(VALUES)
    elif kind < 0.65:
        del where[name]
    elif isinstance(where, list):
        where += [where[name]] * draw.choice([1, 1, 1, 17, 65])
    elif kind < 0.8:
        where[draw.choice(["other", "when", "rule"])] = where[name]
    else:
        where[draw.choice(list(where))] = where[name]


def changed_text(draw: random.Random, text: str) -> str:
    at = draw.randrange(len(text) + 1)
    return text[:at] + draw.choice(["", "", ",", "}", '"', "0", "\\", "\t", "é", "1e999"]) + text[at + draw.randint(0, 1):]


def good_commands(draw: random.Random, policy: dict[str, Any]) -> list[str]:
    """A command of each kind in any order, some of them behind empty lines."""
    rules = [rule for port in policy["ports"] for layer in port["layers"] for group in layer["groups"] for rule in group["rules"]]
    settings = {"order": 1, "default_out": "allow", "default_in": "drop", "pairs": 9, "idle": 9, "linger": 1}
    asks = [{"do": "add_layer", **settings}, {"do": "remove_layer"}, {"do": "add_group", "group": 1, "dir": "in", "when_all": rules[0]["when"]},
            {"do": "remove_group", "group": 1}, {"do": "put_rules", "group": 1, "rules": rules}, {"do": "add_rule", "group": 1, "rule": rules[-1]},
            {"do": "remove_rule", "group": 1, "rule": 1}, {"do": "set_default", "dir": "out", "default": "drop"}, {"do": "sweep", "now": 1}]
    if policy["version"] == 2:
        asks.append({"do": "put_many", "parts": [{"layer": 1, "group": 1, "rules": rules}, {"layer": 1, "group": 2, "rules": []}]})
    where = {"at": 1, "when": draw.choice(["before", "during"]), "controller": policy["controllers"][0], "port": policy["ports"][0]["port"]}
    lines = [json.dumps({**where, **ask, **({} if "parts" in ask else {"layer": draw.randint(1, 40)})}) + draw.choice(["", " ", "\r"]) for ask in asks]
    draw.shuffle(lines)
    return [line for each in lines for line in (*[""] * (draw.random() < 0.2), each)]


def drawn(seed: int) -> tuple[str, str]:
    draw = random.Random(seed)
    with open(os.path.join(ROOT, "examples", draw.choice(EXAMPLES), "policy.json"), encoding="utf-8") as file:
        policy = json.load(file)
    lines = good_commands(draw, policy)
    if draw.random() < 0.6:
        change(draw, policy)
    text = json.dumps(policy, indent=draw.choice([None, 1]), ensure_ascii=False)
    if draw.random() < 0.1:
        text = changed_text(draw, text)
    at = draw.randrange(len(lines))
    if lines[at].strip() and draw.random() < 0.8:
        command = json.loads(lines[at])
        change(draw, command)
        lines[at] = json.dumps(command) if draw.random() < 0.9 else changed_text(draw, lines[at])
    return text, "\n".join(lines)


def wanted(program: str, names: list[str]) -> str:
    """What the program says of a policy and commands, empty where it takes them."""
    ran = subprocess.run([program, "forward", *names], capture_output=True)
    found = SAID.fullmatch(ran.stderr.decode())
    return found[1] if found else ran.stderr.decode()


def told(names: list[str]) -> str:
    """What tools/check_policy says, as the program would."""
    try:
        read_commands(names[1], read_policy(names[0]))
    except Ending as why:
        found = TOLD.fullmatch(why.words)
        assert found, why.words
        line = f"{found[2]} " if found[1] == ".jsonl" else ""
        return found[4] or f"refused {'commands' if line else 'policy'} {line}{found[3]}"
    return ""


def main() -> None:
    runs, first = (int(word) for word in (sys.argv[1:3] + ["200", "1"][len(sys.argv) - 1:]))
    program = sys.argv[3] if len(sys.argv) > 3 else os.path.join(ROOT, "vsw")
    kinds: collections.Counter[str] = collections.Counter()
    wrong = []
    with tempfile.TemporaryDirectory() as folder:
        names = [os.path.join(folder, name) for name in ("policy.json", "commands.jsonl")]
        names.append(os.path.join(ROOT, "examples", "1-addresses", "trace.pcap"))
        for seed in range(first, first + runs):
            for name, text in zip(names, drawn(seed)):
                with open(name, "w", encoding="utf-8", newline="") as file:
                    file.write(text)
            said, found = wanted(program, names), told(names)
            kinds[" ".join(word for word in said.split(" ") if not word.isdigit() and not word.startswith("/")) or "good"] += 1
            if said != found:
                wrong.append(seed)
                print(f"seed {seed}: the program says {said!r}, tools/check_policy {found!r}")
    for kind, count in sorted(kinds.items()):
        print(kind, count)
    print(f"{runs - len(wrong)} of {runs} runs are alike; seeds that differ: {wrong}")
    sys.exit(1 if wrong else 0)


if __name__ == "__main__":
    main()
