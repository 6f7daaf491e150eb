#!/usr/bin/env python3
"""hostile_use.py PROGRAM [ROW..]: what strangers on the wire, and controllers, can make dear (docs/SECURITY.md has the bounds).

Each row is a run that somebody hostile brings about, beside one that is as large and ordinary: processor seconds (user and system,
the least of three runs) less those of the run without what is measured, and how many times the ordinary run's they are; or the
greatest memory of one run, less that of an empty one. Ends with 1 where a row is above its bound. Rows are named in ROWS below;
without names all are measured. Wants a C compiler, which builds bench/hostile_keys.c.
"""
import json
import os
import random
import struct
import subprocess
import sys
import tempfile

HERE = os.path.dirname(os.path.abspath(__file__))
PORT, OTHER = bytes.fromhex("020000000001"), bytes.fromhex("020000000099")
SOURCE = 0x0A000005


def checksum(data):
    total = sum(struct.unpack("!%dH" % (len(data) // 2), data))
    while total >> 16:
        total = (total & 0xFFFF) + (total >> 16)
    return 0xFFFF - total


def ipv4(dst, protocol, payload):
    head = struct.pack("!BBHHHBBHII", 0x45, 0, 20 + len(payload), 0, 0x4000, 64, protocol, 0, SOURCE, dst)
    return OTHER + PORT + b"\x08\x00" + head[:10] + struct.pack("!H", checksum(head)) + head[12:] + payload


def udp(key, size=22):
    return ipv4(key[0], 17, struct.pack("!4H", key[1], key[2], 8 + size, 0) + b"x" * size)


def tcp(key, flags):
    return ipv4(key[0], 6, struct.pack("!HHIIBBHHH", key[1], key[2], 0, 0, 0x50, flags, 1000, 0, 0))


def udp6(source, key):
    payload = struct.pack("!4H", key[1], key[2], 30, 0) + b"x" * 22
    head = struct.pack("!IHBB", 0x60000000, len(payload), 17, 64) + source.to_bytes(16, "big") + (0xFD << 120 | 9).to_bytes(16, "big")
    return OTHER + PORT + b"\x86\xdd" + head + payload


def keys(count, seed):
    """Destination, source port and destination port of so many flows, no two alike."""
    draw, seen = random.Random(seed), {}
    while len(seen) < count:
        seen[0x0B000000 + draw.randrange(1, 1 << 16), draw.randrange(1024, 65536), draw.randrange(1, 4788)] = None
    return list(seen)


RULE = {"rule": 1, "priority": 1, "when": [], "action": "allow", "stateful": True, "last": False}


def rule(number, stateful=True):
    when = [{"field": "dst_port", "any": [number]}] if number > 1 else []
    return RULE | {"rule": number, "when": when, "stateful": stateful}


class Bench:
    def __init__(self, program, folder):
        self.program, self.folder = program, folder
        self.finder = self.at("finder")
        subprocess.check_call(["cc", "-O2", "-o", self.finder, os.path.join(HERE, "hostile_keys.c")])

    def at(self, name):
        return os.path.join(self.folder, name)

    def write(self, name, data):
        with open(self.at(name), "wb") as file:
            file.write(data)
        return self.at(name)

    def trace(self, name, packets):
        """A capture of (moment in microseconds, frame)."""
        parts = [struct.pack("<IHHIIII", 0xA1B2C3D4, 2, 4, 0, 0, 262144, 1)]
        for moment, frame in packets:
            parts += [struct.pack("<IIII", moment // 1000000, moment % 1000000, len(frame), len(frame)), frame]
        return self.write(name, b"".join(parts))

    def policy(self, name, layers, pairs=65536, idle=240, rules=(RULE,), rows=16384, version=1):
        ls = [{"controller": 1, "layer": 10 + i, "order": i, "default_out": "allow", "default_in": "allow", "pairs": pairs, "idle": idle,
               "linger": 10, "groups": [{"group": 1, "dir": "out", "when": [], "rules": list(rules)}]} for i in range(layers)]
        port = {"port": 1, "mac": "02:00:00:00:00:01", "rows": rows, "layers": ls}
        return self.write(name, json.dumps({"version": version, "controllers": [1], "ports": [port]}).encode())

    def commands(self, name, count, each, what):
        lines = (json.dumps({"at": (i + 1) * each, "when": "before", "controller": 1, "port": 1} | what(i)) for i in range(count))
        return self.write(name, "".join(line + "\n" for line in lines).encode())

    def colliding(self, kind, count):
        lines = subprocess.check_output([self.finder, kind, "%x" % SOURCE, str(count)], text=True).split("\n")[:-1]
        return [tuple(map(int, line.split())) for line in lines]

    def run(self, policy, commands, trace, workers=1):
        """Processor seconds, and the greatest memory in MB."""
        code = ("import os, resource, subprocess, sys\n"
                "status = subprocess.run(sys.argv[1:], stdout=subprocess.DEVNULL).returncode\n"
                "used = resource.getrusage(resource.RUSAGE_CHILDREN)\n"
                "print(status, used.ru_utime + used.ru_stime, used.ru_maxrss / 1024)")
        words = [self.program, "forward", "--workers", str(workers), policy, commands, trace]
        status, seconds, memory = subprocess.check_output([sys.executable, "-c", code, *words], text=True).split()
        return int(status), float(seconds), float(memory)

    def seconds(self, *run):
        runs = [self.run(*run) for _ in range(3)]
        if any(status for status, _, _ in runs):
            sys.exit(f"a run ended with {runs}")
        return min(seconds for _, seconds, _ in runs)


def flip(i):
    return {"do": "set_default", "layer": 10, "dir": "in", "default": "drop" if i % 2 else "allow"}


def one_rule(i):
    return {"do": "remove_rule", "layer": 10, "group": 1, "rule": 2} if i % 2 == 0 else {"do": "add_rule", "layer": 10, "group": 1, "rule": rule(2)}


def times_of(bench, hostile, ordinary, spare=("empty", "empty"), workers=1):
    """Seconds of both runs less those of the same policy over the spare traces."""
    none = bench.write("none", b"")
    def cost(policy, commands, trace, rest):
        return bench.seconds(policy, commands or none, trace, workers) - bench.seconds(policy, none, rest, workers)
    a = cost(*hostile, spare[0]) if spare[0] != "empty" else cost(*hostile, bench.trace("empty", []))
    b = cost(*ordinary, spare[1]) if spare[1] != "empty" else cost(*ordinary, bench.trace("empty", []))
    return a, max(b, 0.01)


def repeated(bench, name, count, flows=1000, seed=1):
    held = keys(flows, seed)
    return bench.trace(name, [(i, udp(held[i % flows])) for i in range(count)])


def first(bench):
    policy = bench.policy("p", 3)
    hostile = bench.trace("h", [(i, udp(key)) for i, key in enumerate(keys(60000, 2))])
    return times_of(bench, (policy, None, hostile), (policy, None, repeated(bench, "o", 60000)))


def handshakes(bench):
    policy, key = bench.policy("p", 16), keys(1, 2)[0]
    hostile = bench.trace("h", [(i, tcp(key, (2, 16, 4)[i % 3])) for i in range(60000)])
    return times_of(bench, (policy, None, hostile), (policy, None, repeated(bench, "o", 60000)))


def reopened(bench):
    policy, held = bench.policy("p", 3), keys(10000, 2)
    opened = [(i, tcp(key, 2)) for i, key in enumerate(held)] + [(10000 + i, tcp(key, 4)) for i, key in enumerate(held)]
    again = [(20000 + i, tcp(held[i // 2 % 10000], (2, 4)[i % 2])) for i in range(60000)]
    before = bench.trace("before", opened)
    hostile = bench.trace("h", opened + again)
    return times_of(bench, (policy, None, hostile), (policy, None, repeated(bench, "o", 60000)), (before, "empty"))


def full(bench):
    policy = bench.policy("p", 3, pairs=1000)
    held = keys(61000, 3)
    before = bench.trace("before", [(i, udp(key)) for i, key in enumerate(held[:1000])])
    hostile = bench.trace("h", [(i, udp(key)) for i, key in enumerate(held)])
    return times_of(bench, (policy, None, hostile), (policy, None, repeated(bench, "o", 60000)), (before, "empty"))


def collide(bench):
    policy = bench.policy("p", 1)
    hostile = bench.trace("h", [(i, udp(key)) for i, key in enumerate(bench.colliding("pairs", 16000))])
    ordinary = bench.trace("o", [(i, udp(key)) for i, key in enumerate(keys(16000, 2))])
    return times_of(bench, (policy, None, hostile), (policy, None, ordinary))


def collide6(bench):
    policy, held = bench.policy("p", 1, version=2), keys(16000, 2)
    hostile = bench.trace("h", [(i, udp6(0x9E3779B97F4A7C15 << 64 | 5, key)) for i, key in enumerate(held)])
    ordinary = bench.trace("o", [(i, udp6(0xFD << 120 | 5, key)) for i, key in enumerate(held)])
    return times_of(bench, (policy, None, hostile), (policy, None, ordinary))


def slots(bench):
    policy, held = bench.policy("p", 3), bench.colliding("rows", 1000)
    hostile = bench.trace("h", [(i, udp(held[i % 1000])) for i in range(60000)])
    return times_of(bench, (policy, None, hostile), (policy, None, repeated(bench, "o", 60000)))


def renew(bench):
    policy, day = bench.policy("p", 3), bench.policy("q", 3, idle=86400)
    held, draw = keys(10000, 1), random.Random(3)
    before = [(i * 6000, udp(key)) for i, key in enumerate(held)]
    later = before + [(60000000 + i * 10, udp(held[draw.randrange(10000)])) for i in range(200000)]
    before, later = bench.trace("before", before), bench.trace("h", later)
    return times_of(bench, (policy, None, later), (day, None, later), (before, before))


def scan(bench):
    policy, held = bench.policy("p", 3), keys(10000, 1)
    before = [(i, udp(key)) for i, key in enumerate(keys(50000, 3))]
    after = [(i % 50000, udp(held[i % 10000])) for i in range(100000)]
    hostile = bench.trace("h", before + [(100000 + moment, frame) for moment, frame in after])
    return times_of(bench, (policy, None, hostile), (policy, None, bench.trace("o", after)), (bench.trace("before", before), "empty"))


def greatest(bench):
    policy, held = bench.policy("p", 3), keys(100, 1)
    hostile = bench.trace("h", [(i, udp(held[i % 100], 65507)) for i in range(2000)])
    return times_of(bench, (policy, None, hostile), (policy, None, repeated(bench, "o", 2000, 100)))


def commands(bench):
    policy, trace = bench.policy("p", 3), repeated(bench, "o", 100000, 10000)
    return times_of(bench, (policy, bench.commands("c", 99, 1000, flip), trace), (policy, None, trace))


def often(bench, workers=1):
    """65,536 commands are as many as there may be, and so are 1,048,576 packets: a quarter of both."""
    policy, trace = bench.policy("p", 3), repeated(bench, "o", 262144, 10000)
    return times_of(bench, (policy, bench.commands("c", 16383, 16, flip), trace), (policy, None, trace), workers=workers)


def often_by_four(bench):
    return often(bench, 4)


def rules(bench):
    policy = bench.policy("p", 1, rules=[rule(n) for n in range(1, 1001)])
    trace = repeated(bench, "o", 1001)
    return times_of(bench, (policy, bench.commands("c", 1000, 1, one_rule), trace), (policy, bench.commands("d", 1000, 1, flip), trace))


def memory_of(bench, policy, commands):
    empty = bench.trace("empty", [])
    return bench.run(policy, commands, empty)[2], bench.run(bench.policy("p", 1), bench.write("none", b""), empty)[2]


def deep_objects(size):
    """A list of at most so many bytes, of objects in objects: nothing takes more memory a byte."""
    one = '{"":' * 120 + "0" + "}" * 120
    return "[" + ",".join([one] * (size // (len(one) + 1) - 1)) + "]"


def line_memory(bench):
    line = '{"at":0,"when":"before","controller":1,"port":1,"do":"remove_layer","layer":%s}' % deep_objects(16777216)
    return memory_of(bench, bench.policy("p", 1), bench.write("c", line.encode()))


def policy_memory(bench):
    text = '{"version":1,"controllers":%s,"ports":[]}' % deep_objects(4194304)
    return memory_of(bench, bench.write("q", text.encode()), bench.write("none", b""))


# A row, what it measures, the unit, and its bound: so many times the ordinary run's seconds, or so many MB more than an empty run.
ROWS = [
    (first, "60,000 first packets, three layers", "times", 25),
    (handshakes, "SYN, ACK and RST of one flow in turn, sixteen layers", "times", 25),
    (reopened, "closed connections opened again, three layers", "times", 25),
    (full, "first packets at full layers, three layers", "times", 25),
    (collide, "first packets that collide under FoldHasher", "times", 2),
    (collide6, "IPv6 sources whose product in FoldHasher is 0", "times", 2),
    (slots, "1,000 flows for eight rows, three layers", "times", 25),
    (renew, "10,000 pairs renewed each quarter of their life", "times", 4),
    (scan, "a scan of 50,000 flows, then 10,000 flows", "times", 4),
    (greatest, "frames of 65,549 bytes", "times", 400),
    (commands, "a command each 1,000 packets", "times", 4),
    (often, "a command each 16 packets", "times", 20),
    (often_by_four, "the same by four workers", "times", 80),
    (rules, "commands on a group of 1,000 rules", "times", 400),
    (line_memory, "a commands line of 16 MiB", "MB", 3500),
    (policy_memory, "a policy of 4 MiB of nested objects", "MB", 900),
]


def main(program, *names):
    above = False
    with tempfile.TemporaryDirectory() as folder:
        bench = Bench(program, folder)
        for row, what, unit, bound in ROWS:
            if names and row.__name__ not in names:
                continue
            a, b = row(bench)
            value = a / b if unit == "times" else a - b
            above |= value > bound
            shown = f"{a:.2f} s beside {b:.2f} s: {value:.1f} times" if unit == "times" else f"{a:.0f} MB beside {b:.0f} MB: {value:.0f} MB more"
            print(f"{row.__name__:13} {shown} (bound {bound}); {what}", flush=True)
    return int(above)


if __name__ == "__main__":
    if len(sys.argv) < 2 or sys.argv[1].startswith("-"):
        sys.exit(__doc__)
    sys.exit(main(*sys.argv[1:]))
