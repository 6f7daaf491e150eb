#!/usr/bin/env python3
"""Runs `engine` on changed rows files, and compares what it says of each with a plain reading.

    tools/changed_rows.py [COPIES] [SEED] [PROGRAM]

Files are drawn as tools/random_engine.py draws them, and changed in one of these ways: bytes set, cut out, put in, doubled or cut off; a bit or a word of a row
set; rows exchanged, doubled or left out; a number or an address of a port set to another's; a count changed. What is at fault, and where, is worked out once
more by tools/vswlib/rowsjudge.py; a file without a fault has to be answered as tools/plain_engine.py answers it. Prints how often each came; ends with 1 where
one was told otherwise, and leaves its files in /tmp. PROGRAM is ./vsw if it isn't given.
"""
import collections
import os
import random
import struct
import sys
import tempfile

import plain_engine
import random_engine
from hostile_files import change_bytes
from vswlib.rowsfiles import ROW_BYTES
from vswlib.rowsjudge import fault_of

HEAD_BYTES, PORT_BYTES = 12, 18


def ports_in(data):
    """Where each port of a rows file begins, and how many rows it has."""
    at, found = HEAD_BYTES, []
    while at + PORT_BYTES <= len(data):
        count = struct.unpack_from("<I", data, at + 14)[0]
        found.append((at, count))
        at += PORT_BYTES + ROW_BYTES * count
    return found


def rows_in(data):
    """Where each row begins."""
    return [at + PORT_BYTES + ROW_BYTES * place for at, count in ports_in(data) for place in range(count)]


def change_word(data, draw):
    """A bit or a word of a row set."""
    rows = rows_in(data)
    if not rows:
        return data
    row = draw.choice(rows)
    # The words that tell most are drawn most often.
    at = row + 8 * draw.choice([0, 0, 1, draw.randrange(16), 16, 18, 19, 19 + 3 * draw.randrange(12), draw.randrange(16, 73)])
    word = struct.unpack_from("<Q", data, at)[0]
    if draw.random() < 0.6:
        word ^= 1 << draw.choice([draw.randrange(8), draw.randrange(64)])
    else:
        word = draw.choice([0, 1, 2, 4, 5, 8, 9, 10, 18, 19, 2**64 - 1, 0x0800_0001, draw.getrandbits(64)])
    return data[:at] + struct.pack("<Q", word) + data[at + 8:]


def change_rows(data, draw):
    """Two rows exchanged, or one doubled or left out, with or without its port's count."""
    ports = [port for port in ports_in(data) if port[1]]
    if not ports:
        return data
    at, count = draw.choice(ports)
    first = at + PORT_BYTES
    rows = [data[first + ROW_BYTES * place:first + ROW_BYTES * (place + 1)] for place in range(count)]
    one, other = draw.randrange(count), draw.randrange(count)
    kind = draw.randrange(3)
    if kind == 0:
        rows[one], rows[other] = rows[other], rows[one]
    elif kind == 1:
        rows.insert(other, rows[one])
    else:
        del rows[one]
    told = struct.pack("<I", draw.choice([len(rows), len(rows), count]))
    return data[:at + 14] + told + b"".join(rows) + data[first + ROW_BYTES * count:]


def change_port(data, draw):
    """A number or an address of a port set to another's, or a count changed."""
    ports = ports_in(data)
    kind = draw.randrange(4)
    if kind == 0 or not ports:
        return data[:8] + struct.pack("<I", draw.choice([0, 1, len(ports) + 1, 16, 17, 2**32 - 1])) + data[12:]
    (one, _), (other, _) = draw.choice(ports), draw.choice(ports)
    if kind == 1:
        return data[:one] + data[other:other + 4] + data[one + 4:]
    if kind == 2:
        return data[:one + 4] + data[other + 4:other + 10] + data[one + 10:]
    return data[:one + 14] + struct.pack("<I", draw.choice([0, 1, 16_384, 16_385, 2**32 - 1])) + data[one + 18:]


def changed(data, draw, others):
    kind = draw.random()
    if kind < 0.25:
        return change_bytes(data, draw, others)
    if kind < 0.7:
        return change_word(data, draw)
    if kind < 0.85:
        return change_rows(data, draw)
    return change_port(data, draw)


def wanted(rows, trace):
    """The status, what is put, and what is complained of."""
    fault = fault_of(rows)
    if fault is None:
        return 0, plain_engine.answers(rows, trace), ""
    return 5, "", f"vsw: refused rows {fault}\n"


def main(copies=1_000, seed=1, program=os.path.join(random_engine.ROOT, "vsw")):
    draw, counts, wrong = random.Random(int(seed)), collections.Counter(), 0
    files = [random_engine.drawn(int(seed) + at) for at in range(20)]
    others = [rows for rows, _ in files]
    with tempfile.TemporaryDirectory() as folder:
        for at in range(int(copies)):
            rows, trace = draw.choice(files)
            rows = changed(rows, draw, others)
            want = wanted(rows, trace)
            if random_engine.run(program, folder, rows, trace) != want:
                wrong += 1
                with open(os.path.join(tempfile.gettempdir(), f"changed_rows_{at}"), "wb") as file:
                    file.write(rows)
                print(f"copy {at}: other than the plain reading, {want[2].strip() or 'no fault'}")
            counts[want[2].split()[3] if want[0] else "no fault"] += 1
    for kind, count in sorted(counts.items()):
        print(f"{count:7} {kind}")
    return 1 if wrong else 0


if __name__ == "__main__":
    sys.exit(main(*sys.argv[1:]))
