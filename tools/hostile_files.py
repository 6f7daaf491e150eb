#!/usr/bin/env python3
"""Runs the program on bad outsides and on changed copies of the files of examples of both policy versions.

    tools/hostile_files.py [COPIES] [SEED] [PROGRAM]

A copy is changed in one of these ways: bytes set, cut out, put in, doubled or taken from another file; a policy's or a command's JSON by its
structure (a value of another type or size or from another place, a member taken away, added, named twice or moved, values nested deep); a packet's frame by its
headers (fields set to their ends, a header taken away or doubled, the packet cut), over IPv4 and IPv6. Each run, by one to four workers, has
to end within 20 seconds as the plain programs have it (tools/vswlib/outcome.py): by that status, with those words on standard error, and with
their report, or one of many workers that is legal; and by one worker to end so twice. Prints how often each status came, and the numbers of runs
that were wrong; ends with 1 where there are such, and leaves their files in /tmp. PROGRAM stands for ./vsw, which builds one.
"""
import collections
import json
import os
import random
import shutil
import struct
import subprocess
import sys
import tempfile

from vswlib.outcome import fault, outcome

ROOT = os.path.dirname(os.path.dirname(os.path.abspath(__file__)))
EXAMPLES = [os.path.join(ROOT, "examples", name) for name in (
    "7-commands", "10-ipv6", "11-roll-out", "2-two-controllers", "3-translation", "4-vxlan", "5-groups")]
NAMES = ["policy.json", "commands.jsonl", "trace.pcap"]
def run(program, files, output=subprocess.PIPE, workers=1):
    words = [program, "forward", "--workers", str(workers), *files]
    return subprocess.run(words, stdout=output, stderr=subprocess.PIPE, timeout=20)


def change_bytes(data, draw, others):
    """These bytes with one to four of them set, cut out, put in, doubled or taken from another file."""
    data = bytearray(data)
    for _ in range(draw.randint(1, 4)):
        at, size = draw.randint(0, len(data)), draw.choice([1, 2, 4, 8, 16, draw.randint(1, 300)])
        kind = draw.randrange(6)
        if kind == 0:
            data[at:at + 1] = bytes([draw.choice([0, 0xFF, 0x7F, 0x80, draw.randrange(256)])])
        elif kind == 1:
            del data[at:at + size]
        elif kind == 2:
            data[at:at] = draw.randbytes(size)
        elif kind == 3:
            data[at:at] = data[at:at + size]
        elif kind == 4:
            other = draw.choice(others)
            start = draw.randint(0, len(other))
            data[at:at + draw.choice([0, size])] = other[start:start + size]
        else:
            del data[at:]
    return bytes(data)


def places(value, path=()):
    """The paths of all values within a JSON value."""
    yield path
    inner = value.items() if isinstance(value, dict) else enumerate(value) if isinstance(value, list) else ()
    for key, item in inner:
        yield from places(item, (*path, key))


def at_path(value, path):
    for step in path:
        value = value[step]
    return value


def odd_value(draw):
    deep = 0
    for _ in range(draw.choice([1, 100, 127, 128, 5000])):
        deep = [deep]
    return draw.choice([
        None, True, False, 0, -1, 1, 2, 16, 17, 255, 256, 65535, 65536, 2**32, 2**53, 2**64, 2**64 - 1, -2**63, 1.0, 1e308, "", "0", "allow",
        "10.0.0.0/24", "10.0.0.0/33", "::/0", "::1/129", "fd00::/8", "02:00:00:00:00:01", "\x00", "é" * 50, "a" * 5000, [], {}, [[]], {"": 0}, deep,
        [0] * 1000, {str(n): n for n in range(300)},
    ])


def change_value(value, draw):
    """The JSON value with one thing in it changed by its structure."""
    path = draw.choice(list(places(value)))
    if not path:
        return odd_value(draw)
    holder = at_path(value, path[:-1])
    last, kind = path[-1], draw.randrange(8)
    if kind == 0:
        del holder[last]
    elif kind == 1 and isinstance(holder, dict):
        holder[draw.choice([last + "x", last.upper(), "", "rule", "layer", "mac", "seed"])] = holder[last]
    elif kind == 1:
        holder.insert(draw.randint(0, len(holder)), holder[last])
    elif kind == 2 and isinstance(holder[last], int):
        holder[last] += draw.choice([-1, 1, 2**16, 2**32])
    elif kind == 3 and isinstance(holder, list):
        holder.extend([holder[last]] * draw.choice([1, 16, 70, 1000]))
    elif kind < 7:
        alike = [other for other in places(value) if type(at_path(value, other)) is type(holder[last]) and other[-1:] == path[-1:]]
        holder[last] = json.loads(json.dumps(at_path(value, draw.choice(alike))))
    else:
        holder[last] = odd_value(draw)
    return value


def change_json(text, draw, _others):
    """A policy, or one line of commands, changed by its structure; now and then with a member that is named twice."""
    lines = text.split(b"\n") if text.count(b"\n{") or text.count(b"}\n{") else [text]
    at = draw.choice([n for n, line in enumerate(lines) if line.strip()])
    value = json.loads(lines[at])
    for _ in range(draw.randint(1, 3)):
        value = change_value(value, draw)
    out = json.dumps(value, ensure_ascii=draw.random() < 0.5)
    if draw.random() < 0.1:
        out = out.replace('":', '":0,"version":', 1)
    lines[at] = out.encode()
    return b"\n".join(lines)


def packets_of(trace):
    """The header of a little-endian capture, and its records as lists of the four words and the frame."""
    at, records = 24, []
    while at + 16 <= len(trace):
        words = list(struct.unpack_from("<4I", trace, at))
        records.append([words, trace[at + 16:at + 16 + words[2]]])
        at += 16 + words[2]
    return trace[:24], records


def change_frame(frame, draw, others):
    """A frame with fields set to their ends, a header less or more, cut, or behind another one's front."""
    frame, kind = bytearray(frame), draw.randrange(8)
    if kind == 0 and len(frame) > 14:
        frame[12:14] = draw.choice([b"\x08\x00", b"\x86\xdd", b"\x08\x06", b"\x81\x00", draw.randbytes(2)])
    elif kind == 1 and len(frame) > 34:
        at = draw.choice([14, 15, 16, 17, 18, 19, 20, 21, 22, 23, 24, 25])
        frame[at] = draw.choice([0, 1, 0x45, 0x4F, 0x60, 6, 17, 44, 0x20, 0x7F, 0xFF])
    elif kind == 2 and len(frame) > 60:
        at = draw.randrange(14, min(len(frame), 110))
        frame[at] = draw.choice([0, 0xFF, frame[at] ^ 1 << draw.randrange(8)])
    elif kind == 3:
        del frame[draw.randint(0, len(frame)):]
    elif kind == 4:
        frame += draw.randbytes(draw.choice([1, 7, 1500, 70000]))
    elif kind == 5:
        cut = draw.choice([14, 34, 42, 50, 54])
        frame = frame[:cut] + frame
    elif kind == 6:
        del frame[:draw.choice([14, 34, 50])]
    else:
        other = draw.choice(others)
        frame = frame[:draw.randint(0, len(frame))] + other[draw.randint(0, len(other)):]
    return bytes(frame)


def ipv6_of(frame, draw):
    """The frame's payload behind an IPv6 header, some of whose fields are odd."""
    payload = frame[34:] or b"\x00" * draw.choice([0, 4, 8, 20])
    length = min(draw.choice([len(payload)] * 6 + [0, len(payload) + 1, max(len(payload) - 1, 0), 65535]), 65535)
    following = draw.choice([6, 17, 17, 6, 58, 0, 43, 44, 59, 255])
    head = struct.pack("!IHBB", draw.choice([6 << 28] * 6 + [4 << 28, 0x6FF12345]), length, following, draw.choice([0, 1, 64, 255]))
    addresses = (draw.randbytes(32), bytes(32), b"\xff" * 32, b"\xfd" + bytes(14) + b"\x05\xfd" + bytes(14) + b"\x09")
    return frame[:12] + b"\x86\xdd" + head + draw.choice(addresses) + payload


def change_packets(trace, draw, _others):
    header, records = packets_of(trace)
    frames = [frame for _, frame in records]
    for _ in range(draw.randint(1, 6)):
        record = draw.choice(records)
        frame = ipv6_of(record[1], draw) if draw.random() < 0.3 else change_frame(record[1], draw, frames)
        words = record[0][:2] + [len(frame), len(frame)]
        if draw.random() < 0.1:
            words[draw.randrange(4)] = draw.choice([0, 1, 262144, 262145, 2**31, 2**32 - 1])
        if draw.random() < 0.3:
            records.insert(draw.randrange(len(records)), [words, frame])
        else:
            record[:] = [words, frame]
    return header + b"".join(struct.pack("<4I", *words) + frame for words, frame in records)


def ended(program, paths, workers):
    """How a run ended: status, what it put, what it complained; None where it didn't within its time."""
    try:
        made = run(program, paths, workers=workers)
    except subprocess.TimeoutExpired:
        return None
    return made.returncode, made.stdout.decode("latin-1"), made.stderr.decode("latin-1")


def wrong_end(program, paths, files, workers):
    """The status of a run over these files, and what is wrong with how it ended, if something is."""
    found = ended(program, paths, workers)
    if found is None:
        return None, "no end in 20 seconds"
    status, text, words = found
    if workers == 1 and ended(program, paths, 1) != found:
        return status, "two runs over the same files end otherwise"
    return status, fault(outcome(paths, *files), status, words, text, workers)


def bad_outsides(program):
    for example in EXAMPLES[:3]:
        files = [os.path.join(example, name) for name in NAMES]
        assert run(program, files).returncode == 0
        with open("/dev/full", "wb") as full:
            assert run(program, files, full).returncode == 4
        for place in range(3):
            for other in ["/", os.path.join(example, "missing")]:
                assert run(program, [*files[:place], other, *files[place + 1:]]).returncode == 3


def changed(draw, held, all_files):
    """Files of an example of which one is changed, and now and then another, and in which way."""
    files, ways = list(held[draw.choice(EXAMPLES)]), []
    for place in [draw.choice([0, 1, 2, 2])] + [draw.randrange(3)] * (draw.random() < 0.1):
        way = draw.choice([change_bytes, change_packets if place == 2 else change_json])
        way = way if files[place].strip() else change_bytes
        try:
            files[place] = way(files[place], draw, all_files)
        except (ValueError, IndexError):  # what was changed before is no JSON or no packets any more
            files[place] = change_bytes(files[place], draw, all_files)
        ways.append(f"{NAMES[place]} {way.__name__}")
    return files, " and ".join(sorted(ways))


def main():
    sys.setrecursionlimit(30000)  # for values that are nested deep
    copies = int(sys.argv[1]) if len(sys.argv) > 1 else 100
    seed = int(sys.argv[2]) if len(sys.argv) > 2 else 1
    program = sys.argv[3] if len(sys.argv) > 3 else os.path.join(ROOT, "vsw")
    bad_outsides(program)
    held = {example: [open(os.path.join(example, name), "rb").read() for name in NAMES] for example in EXAMPLES}
    all_files = [data for files in held.values() for data in files]
    counts, wrong = collections.Counter(), []
    with tempfile.TemporaryDirectory() as folder:
        paths = [os.path.join(folder, name) for name in NAMES]
        for number in range(copies):
            draw = random.Random(f"{seed} {number}")
            files, ways = changed(draw, held, all_files)
            for path, data in zip(paths, files):
                with open(path, "wb") as file:
                    file.write(data)
            workers = draw.choice([1, 1, 2, 4])
            status, why = wrong_end(program, paths, files, workers)
            counts[ways, status] += 1
            if why is not None:
                wrong.append(number)
                kept = shutil.copytree(folder, tempfile.mkdtemp(prefix=f"hostile-{number}-"), dirs_exist_ok=True)
                print(f"run {number}, {workers} workers, {ways}: {why}; files in {kept}", flush=True)
    for (ways, status), count in sorted(counts.items(), key=str):
        print(f"{ways}: status {status}, {count} times")
    print(f"{copies - len(wrong)} of {copies} runs are right; numbers of those that aren't: {wrong}")
    sys.exit(1 if wrong else 0)


if __name__ == "__main__":
    main()
