#!/usr/bin/env python3
"""Checks the examples of docs/GUIDE.md, the lines that it shows, and the copies of their files that the gate runs.

    tools/check_examples.py [--copy] [--unproved]

Makes each capture anew and compares it; works each report out by the rules once more (tools/plain_switch.py); runs `./vsw`
over each example and compares what it puts, complains and ends with; judges what it puts with four workers, by `forward` and by `stream`, by the rules and by `./vsw check`; runs each command that the guide shows behind
`$`, in its order, and compares what it prints; compares the files that the crates `vsw` and `vsw_examples` run in the gate. `--copy` writes these files first. With
`--unproved` all of it is by the program without a proof.
"""
import itertools
import os
import re
import shutil
import subprocess
import sys
import tempfile

import legal
import plain_switch

ROOT = os.path.dirname(os.path.dirname(os.path.abspath(__file__)))
EXAMPLES = os.path.join(ROOT, "examples")
STEPS = {int(name.split("-")[0]): name for name in os.listdir(EXAMPLES) if name[0].isdigit()}
BAD = "8-bad-files"
DELIVERED = STEPS[14]
STREAMED = STEPS[7]
FOLDERS = [STEPS[step] for step in sorted(STEPS) if STEPS[step] != BAD]
STATUSES = {"refused": 5, "limit": 6}
PROGRAM = [os.path.join(ROOT, "vsw"), *(word for word in sys.argv[1:] if word == "--unproved")]


def read(*path):
    with open(os.path.join(EXAMPLES, *path), "rb") as file:
        return file.read()


def bad_files():
    """The policies and commands files that are refused: folder, policy, commands, what is complained."""
    for name in sorted(os.listdir(os.path.join(EXAMPLES, BAD))):
        front, kind = os.path.splitext(name)
        if kind == ".said":
            is_policy = os.path.exists(os.path.join(EXAMPLES, BAD, front + ".json"))
            files = (front + ".json", "commands.jsonl") if is_policy else ("policy.json", front + ".jsonl")
            yield BAD, *files, read(BAD, name)


def runs():
    """The runs in the gate's order: the first word, folder, policy, commands, what is put, what is complained."""
    for folder in ["first", *FOLDERS]:
        yield "forward", folder, "policy.json", "commands.jsonl", read(folder, "report.txt"), b""
    for folder, policy, commands, said in bad_files():
        yield "forward", folder, policy, commands, b"", said
    yield "deliver", DELIVERED, "policy.json", "commands.jsonl", read(DELIVERED, "delivered.txt"), b""
    yield "stream", STREAMED, "policy.json", "commands.jsonl", read(STREAMED, "report.txt"), b""


def wanted():
    """Each file of the crates, by its path, with the bytes that it should have."""
    files = {("vsw", "stdout"): read("flows", "report.txt")}
    for name in ("policy.json", "commands.jsonl", "trace.pcap"):
        files["vsw", "data", name] = read("flows", name)
    files["vsw_examples", "stdout"] = b"".join(put + said for _, _, _, _, put, said in runs())
    for _, folder, policy, commands, _, _ in runs():
        for name in (policy, commands, "trace.pcap"):
            files["vsw_examples", "data", folder, name] = read(folder, name)
    return {os.path.join(ROOT, "crates", *path): data for path, data in files.items()}


def copy():
    shutil.rmtree(os.path.join(ROOT, "crates", "vsw_examples", "data"), ignore_errors=True)
    for path, data in wanted().items():
        os.makedirs(os.path.dirname(path), exist_ok=True)
        with open(path, "wb") as file:
            file.write(data)


def compare(what, is_well):
    print(("ok      " if is_well else "DIFFERS ") + what)
    return is_well


def check_copies():
    for path, data in wanted().items():
        with open(path, "rb") as file:
            yield compare(os.path.relpath(path, ROOT), file.read() == data)


def check_captures():
    before = {folder: read(folder, "trace.pcap") for folder in [*FOLDERS, BAD, "flows"]}
    subprocess.run([os.path.join(EXAMPLES, "make_traces.py")], check=True)
    for folder in before:
        yield compare(f"capture of {folder}", read(folder, "trace.pcap") == before[folder])


def check_reports():
    for folder in ["flows", *FOLDERS]:
        report = plain_switch.report(read(folder, "policy.json"), read(folder, "trace.pcap"), read(folder, "commands.jsonl"))
        yield compare(f"report of {folder} by the rules", report.encode() == read(folder, "report.txt"))
    delivered = plain_switch.report(*(read(DELIVERED, name) for name in ("policy.json", "trace.pcap", "commands.jsonl")), local=True)
    yield compare(f"report of {DELIVERED} by the rules of `deliver`", delivered.encode() == read(DELIVERED, "delivered.txt"))


def check_guide():
    """The report's lines and the complaints that the guide shows are those of its examples."""
    with open(os.path.join(ROOT, "docs", "GUIDE.md"), encoding="utf-8") as file:
        sections = {int(section.split(".")[0]): section for section in re.split(r"\n## (?=\d)", file.read())[1:]}
    for step, folder in sorted(STEPS.items()):
        section = sections[step]
        if folder == BAD:
            shown = re.findall(r"^\| `([\w-]+)` \| `([^`]+)`", section, re.MULTILINE)
            is_well = all(read(folder, f"{name}.said") == f"vsw: {said}\n".encode() for name, said in shown)
        else:
            lines = [line for name in ("report.txt", "two-workers.txt", "delivered.txt") if os.path.exists(os.path.join(EXAMPLES, folder, name))
                     for line in read(folder, name).decode().splitlines()]
            shown = re.findall(r"^    ([wc]\d+ .+?|port \d.+?|round \d.*?)(?:  .*)?$", section, re.MULTILINE)
            is_well = all(any(line.startswith(part[:-1]) if part.endswith("…") else line == part for line in lines)
                          for part in shown)
        yield compare(f"{len(shown)} lines of the guide on {folder}", bool(shown) and is_well)


def shown_commands():
    """The commands of the guide behind `$`, each with what it is shown to print: up to the next one, or to the next line of text."""
    with open(os.path.join(ROOT, "docs", "GUIDE.md"), encoding="utf-8") as file:
        blocks = re.findall(r"^    \$ .*\n(?:(?:    .*)?\n)*", file.read(), re.MULTILINE)
    for block in blocks:
        for part in re.split(r"^    \$ ", block, flags=re.MULTILINE)[1:]:
            command, _, rest = part.partition("\n")
            yield command, re.sub("^    ", "", rest, flags=re.MULTILINE).rstrip("\n")


def check_commands():
    """Each command that the guide shows prints what is shown, in a folder where all of the repository can be reached."""
    with tempfile.TemporaryDirectory() as folder:
        for name in ("crates", "crates.txt", "examples", "out", "tools", "vsw"):
            os.symlink(os.path.join(ROOT, name), os.path.join(folder, name))
        for command, wanted_text in shown_commands():
            words = command.replace("./vsw --unproved", " ".join(PROGRAM))
            ran = subprocess.run(words, shell=True, cwd=folder, stdout=subprocess.PIPE, stderr=subprocess.STDOUT)
            yield compare(f"shown: {command}", ran.stdout.decode().rstrip("\n") == wanted_text)


def check_runs():
    # The first use builds the program, and says so.
    subprocess.run([*PROGRAM, "generate", "1", "1"], stdout=subprocess.DEVNULL)
    flows = ("forward", "flows", "policy.json", "commands.jsonl", read("flows", "report.txt"), b"")
    for word, folder, policy, commands, put, said in [flows, *runs()]:
        files = [os.path.join(EXAMPLES, folder, name) for name in (policy, commands, "trace.pcap")]
        ran = subprocess.run([*PROGRAM, word, *files], capture_output=True)
        status = STATUSES[said.split()[1].decode()] if said else 0
        is_well = (ran.stdout, ran.stderr, ran.returncode) == (put, said, status)
        yield compare(f"{word} of {folder}/{policy} with {commands}", is_well)


def ends_legal(names, workers, report):
    """Whether `./vsw check` finds that a report is legal."""
    with tempfile.NamedTemporaryFile() as file:
        file.write(report)
        file.flush()
        ran = subprocess.run([*PROGRAM, "check", f"--workers={workers}", *names, file.name], capture_output=True)
    return (ran.stdout, ran.stderr, ran.returncode) == (b"legal\n", b"", 0)


def check_checks():
    """The reports of the examples are legal by `./vsw check`, too; with a line less none of them is."""
    for folder in ["flows", *FOLDERS]:
        names = [os.path.join(EXAMPLES, folder, name) for name in ("policy.json", "commands.jsonl", "trace.pcap")]
        report = read(folder, "report.txt")
        lines = report.splitlines(keepends=True)
        less = b"".join(line for place, line in enumerate(lines) if place != 3)
        yield compare(f"check of {folder}", ends_legal(names, 1, report) and not ends_legal(names, 1, less))


def check_workers():
    """With four workers the order of calls is free: the report is legal (tools/legal.py)."""
    for word, folder in itertools.product(("forward", "stream"), ["flows", *FOLDERS]):
        names = [os.path.join(EXAMPLES, folder, name) for name in ("policy.json", "commands.jsonl", "trace.pcap")]
        ran = subprocess.run([*PROGRAM, word, "--workers=4", *names], capture_output=True)
        why = legal.fault(*(read(folder, os.path.basename(name)) for name in names), 4, ran.stdout.decode())
        yield compare(f"{word} of {folder} with four workers", ran.returncode == 0 and why is None and ends_legal(names, 4, ran.stdout))
    names = [os.path.join(EXAMPLES, DELIVERED, name) for name in ("policy.json", "commands.jsonl", "trace.pcap")]
    ran = subprocess.run([*PROGRAM, "deliver", "--workers=4", *names], capture_output=True)
    why = legal.fault(*(read(DELIVERED, os.path.basename(name)) for name in names), 4, ran.stdout.decode(), local=True)
    yield compare(f"run of {DELIVERED} by `deliver` with four workers", ran.returncode == 0 and why is None)
    files = [read("7-commands", name) for name in ("policy.json", "commands.jsonl", "trace.pcap")]
    yield compare("the run of two workers that the guide shows", legal.fault(*files, 2, read("7-commands", "two-workers.txt").decode()) is None)


def main():
    if not set(sys.argv[1:]) <= {"--copy", "--unproved"}:
        sys.exit(__doc__)
    if "--copy" in sys.argv:
        copy()
    results = [*check_copies(), *check_captures(), *check_reports(), *check_guide(), *check_runs(), *check_checks(), *check_workers(), *check_commands()]
    print(f"{sum(results)} of {len(results)} as they should be")
    sys.exit(0 if all(results) else 1)


main()
