#!/usr/bin/env python3
"""Refuses one allocation at a time, and looks at what comes out.

    tools/failing_allocations.py [PROGRAM]        (needs a C compiler; PROGRAM stands for ./vsw, which builds one)

For n = 1, 2, .. the program's nth allocation fails, until a run meets no failure; among threads that is another one in each run. The runs are
over examples, and over two small policies: a query and its reply through three layers, and a command between two packets; `flows` runs by one worker
and by four, and by `stream`, where a run that didn't end would have left a worker waiting at its ring. Each run must end with status 9 and the words "vsw: memory"; or with 3 and "vsw: read fault", where the host had no memory to open a file;
and what it put must be the head line and whole rounds that are legal (tools/legal.py), where want of memory may be told of commands and of packets that
would make a pair. Of `offload`, over the same files, a run that ends so puts nothing, and one that ends well the rows that there are else, where it puts a row of their flows: a row that finds no room is left out, and another
may stand in its place. Exits with 1 where a run does anything else.
"""
import json
import os
import subprocess
import sys
import tempfile

import legal
import plain_switch
from packets import read_capture, write_capture
from vswlib.outcome import HEAD, commands_below
from vswlib.rowsfiles import parse_rows
from vswlib.rowsjudge import fault_of

TOP = os.path.dirname(os.path.dirname(os.path.abspath(__file__)))
EXAMPLES = [("7-commands", 1), ("10-ipv6", 1), ("11-roll-out", 1), ("flows", 1), ("flows", 4)]

# What a run tells that met the failure: of its own, or within the host's opening of a file.
TOLD = [(9, "vsw: memory\n"), (3, "vsw: read fault\n")]

# So many runs in a row that meet no failure are the end: threads don't allocate alike in each run.
QUIET = 5

# Every allocation of the process counts, from the start of main on.
SHIM = r"""
#define _GNU_SOURCE
#include <dlfcn.h>
#include <errno.h>
#include <stdlib.h>
static unsigned long seen, refused;
__attribute__((constructor)) static void read_number(void) {
    const char *text = getenv("REFUSED_ALLOCATION");
    refused = text ? strtoul(text, 0, 10) : (unsigned long)-1;
}
static int refuses(void) { return __atomic_add_fetch(&seen, 1, __ATOMIC_SEQ_CST) == refused; }
#define REAL(name) static typeof(name) *real; if (!real) real = (typeof(name) *)dlsym(RTLD_NEXT, #name)
void *malloc(size_t n) { REAL(malloc); if (refuses()) { errno = ENOMEM; return 0; } return real(n); }
void *realloc(void *p, size_t n) { REAL(realloc); if (refuses()) { errno = ENOMEM; return 0; } return real(p, n); }
void *aligned_alloc(size_t a, size_t n) { REAL(aligned_alloc); if (refuses()) { errno = ENOMEM; return 0; } return real(a, n); }
int posix_memalign(void **p, size_t a, size_t n) { REAL(posix_memalign); if (refuses()) return ENOMEM; return real(p, a, n); }
"""

# A query of 10.0.0.5:1234 to 10.0.0.9:53, and the reply to what leaves of it through the three layers.
QUERY = bytes.fromhex("02000000009902000000000108004500001e00004000401126c20a0000050a00000904d20035000a7e5c6869")
REPLY = bytes.fromhex("020000000a01020000000a02080045000050000040004011e279ac100002ac100001f53012b5003c0000080000000013890002000000000102000000009908"
                      "004500001e0000400040116ebf0a000009c000020700359c40000a2eeb6869")


def rule(number, when, action, stateful):
    return {"rule": number, "priority": 10, "when": when, "action": action, "stateful": stateful, "last": False}


def layer(controller, number, *groups):
    groups = [{"group": place, "dir": way, "when": [], "rules": [one]} for place, (way, one) in enumerate(groups, 1)]
    return {"controller": controller, "layer": number, "order": controller, "default_out": "drop", "default_in": "drop", "pairs": 100, "idle": 240,
            "linger": 10, "groups": groups}


def policy(*layers):
    port = {"port": 1, "mac": "02:00:00:00:00:01", "rows": 64, "layers": list(layers)}
    return json.dumps({"version": 1, "controllers": [1, 2, 3], "ports": [port]}).encode()


def edit(decap, change, encap):
    return {"decap": decap, "set": change, "encap": encap}


def field(name, item):
    return [{"field": name, "any": [item]}]


def capture(*frames):
    return write_capture([(1_000 * number, frame, len(frame)) for number, frame in enumerate(frames)])


def three_layers():
    """A query and its reply through layers that keep state, translate the source, and encapsulate."""
    outer = {"dst_mac": "02:00:00:00:0a:02", "src_mac": "02:00:00:00:0a:01", "src_ip": "172.16.0.1", "dst_ip": "172.16.0.2", "vni": 5001}
    hides = edit(False, {"src_ip": "192.0.2.7", "src_port": 40000}, None)
    return policy(
        layer(1, 10, ("out", rule(1, [], "allow", True))), layer(2, 20, ("out", rule(1, field("src_ip", "10.0.0.5"), hides, True))),
        layer(3, 30, ("out", rule(1, field("dst_ip", "10.0.0.0/16"), edit(False, {}, outer), False)), ("in", rule(1, field("vni", 5001), edit(True, {}, None), False))),
    ), b"", capture(QUERY, REPLY)


def one_command():
    """The query twice, and between them a command by which the second is dropped."""
    rules = [rule(5, field("dst_ip", "10.0.0.0/24"), action, False) for action in ("allow", "drop")]
    command = {"at": 1, "when": "before", "controller": 1, "port": 1, "do": "put_rules", "layer": 10, "group": 1, "rules": rules[1:]}
    return policy(layer(1, 10, ("out", rules[0]))), json.dumps(command).encode(), capture(QUERY, QUERY)


def example(name):
    files = []
    for file in ("policy.json", "commands.jsonl", "trace.pcap"):
        with open(os.path.join(TOP, "examples", name, file), "rb") as opened:
            files.append(opened.read())
    return tuple(files)


def is_front(files, workers, text):
    """Whether a text is the head line and the first rounds of a legal report, whole, or nothing."""
    text_of_policy, commands, trace = files
    records = read_capture(trace)
    firsts = [first for first, _ in plain_switch.rounds(records, plain_switch.read_commands(commands))]
    told = text.count("\nround ")
    if text in ("", HEAD) or told > len(firsts):
        return told == 0
    if told < len(firsts):
        trace, commands = write_capture(records[:firsts[told]]), commands_below(commands, firsts[told])
    why = legal.fault(text_of_policy, commands, trace, workers, text)
    return why is None or print(why)


def run(program, shim, number, words):
    environment = dict(os.environ, LD_PRELOAD=shim, REFUSED_ALLOCATION=str(number))
    made = subprocess.run([program, *words], env=environment, capture_output=True, timeout=60)
    return made.returncode, made.stdout, made.stderr.decode()


def keep(folder, files):
    """Writes a policy, commands and a capture, and gives the files' names."""
    names = [os.path.join(folder, name) for name in ("policy", "commands", "trace")]
    for name, data in zip(names, files):
        with open(name, "wb") as file:
            file.write(data)
    return names


def are_like(put, rows):
    """Whether bytes are a rows file of the same ports, with the same row of each flow that has one in both."""
    if fault_of(put) is not None:
        return False
    ports, others = list(parse_rows("put", put)), list(parse_rows("rows", rows))
    same = [(port.port, port.mac, port.entries) for port in ports] == [(port.port, port.mac, port.entries) for port in others]
    known = [{row[:16]: row for row in other.rows} for other in others]
    return same and all(rows_there.get(row[:16], row) == row for port, rows_there in zip(ports, known) for row in port.rows)


def refuse_each_of_rows(program, shim, folder, what, files):
    """The same of `offload`."""
    words = ["offload", *keep(folder, files)]
    rows, statuses, number, quiet, others = run(program, shim, 0, words)[1], {}, 0, 0, 0
    while quiet < QUIET:
        number += 1
        status, put, said = run(program, shim, number, words)
        if (status, said) not in [(0, ""), *TOLD] or not (are_like(put, rows) if status == 0 else put == b""):
            sys.exit(f"{what}, allocation {number} of rows: status {status}, {said!r}, {len(put)} bytes")
        quiet = quiet + 1 if put == rows else 0
        others += status == 0 and put != rows
        statuses[status] = statuses.get(status, 0) + 1
    statuses[0] -= QUIET
    print(f"{what}, rows: {number - QUIET} allocations, one refused at a time; runs by status: {statuses}; {others} of them put other rows", flush=True)


def refuse_each(program, shim, folder, what, files, workers, command="forward", least=0):
    """Runs until no allocation is refused, but so often at least, and gives how often each status came."""
    words = [command, "--workers", str(workers), *keep(folder, files)]
    statuses, number, quiet, wants = {}, 0, 0, 0
    while quiet < QUIET or number < least:
        number += 1
        status, put, said = run(program, shim, number, words)
        text = put.decode()
        if not is_front(files, workers, text) or (status, said) not in [(0, ""), *TOLD]:
            sys.exit(f"{what}, allocation {number}: status {status}, {said!r}, {text[:300]!r}")
        tells = any(want in text for want in legal.WANT)
        quiet = quiet + 1 if status == 0 else 0
        wants += tells
        statuses[status] = statuses.get(status, 0) + 1
        if status == 0 and tells:
            sys.exit(f"{what}, allocation {number}: status 0, and want of memory is told")
    statuses[0] -= QUIET
    print(f"{what}, {workers} workers: {number - QUIET} allocations, one refused at a time; runs by status: {statuses}; {wants} of them tell want of memory", flush=True)


def main():
    program = sys.argv[1] if len(sys.argv) > 1 else os.path.join(TOP, "crates", "vsw", "out", "vsw")
    if len(sys.argv) == 1:
        subprocess.run([os.path.join(TOP, "vsw"), "generate", "1", "1"], stdout=subprocess.DEVNULL, check=True)  # builds it
    with tempfile.TemporaryDirectory() as folder:
        source, shim = os.path.join(folder, "shim.c"), os.path.join(folder, "shim.so")
        with open(source, "w") as file:
            file.write(SHIM)
        subprocess.run(["cc", "-O1", "-shared", "-fPIC", "-o", shim, source, "-ldl"], check=True)
        for what, files, workers in [("three layers", three_layers(), 1), ("three layers", three_layers(), 4), ("one command", one_command(), 1),
                                     ("one command", one_command(), 4), *((name, example(name), workers) for name, workers in EXAMPLES)]:
            refuse_each(program, shim, folder, what, files, workers)
            if workers == 1:
                refuse_each_of_rows(program, shim, folder, what, files)
        policy, _, trace = example("flows")
        refuse_each(program, shim, folder, "flows without commands, by stream", (policy, b"", trace), 4, "stream", 700)


if __name__ == "__main__":
    main()
