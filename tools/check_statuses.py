#!/usr/bin/env python3
"""Brings about each status of docs/FORMATS.md, and looks at what standard error says.

    tools/check_statuses.py [--unproved]

What is complained is in no contract of the real host, which may say nothing: so it is looked at here. `./vsw` ends alike, and may say
more behind it; where nothing is built yet, it answers bad words and missing files as the program does, without a build. Exits
with 1 where a run ends or speaks otherwise. With `--unproved` the program is the one without a proof.
"""
import json, os, re, shutil, subprocess, sys, tempfile

TOP = os.path.dirname(os.path.dirname(os.path.abspath(__file__)))
FRONT = [os.path.join(TOP, "vsw"), *sys.argv[1:]]
EXAMPLE = os.path.join(TOP, "examples", "first")
POLICY, COMMANDS, TRACE = (os.path.join(EXAMPLE, name) for name in ("policy.json", "commands.jsonl", "trace.pcap"))
REPORT = os.path.join(EXAMPLE, "report.txt")
ROWS = os.path.join(EXAMPLE, "rows")
RECORDS = 1_048_576
MOST_ROWS = 160_000_000
MOST_REPORT = 268_435_456


def port(number):
    return {"port": number, "mac": f"02:00:00:00:00:{number:02x}", "rows": 8, "layers": []}


def policy(controllers, ports):
    text = json.dumps({"version": 1, "controllers": controllers, "ports": [port(n) for n in ports]})
    return text.encode()


def head():
    return bytes.fromhex("d4c3b2a1020004000000000000000000ffff000001000000")


def record(captured, original):
    return bytes(8) + captured.to_bytes(4, "little") + original.to_bytes(4, "little")


def find_program():
    """The program that `./vsw` runs, which is built first where it isn't."""
    subprocess.run([*FRONT, "generate", "1", "2"], stdout=subprocess.DEVNULL, check=True)
    said = subprocess.run([FRONT[0], "--version"], capture_output=True, check=True).stdout.decode()
    return re.search(f"^{'unproved' if FRONT[1:] else 'proved'} program: (/.*)$", said, re.MULTILINE)[1]


def copy_front(folder):
    """`./vsw` where nothing is built, and no toolchain is on the path."""
    for name in ("vsw", "crates.txt"):
        shutil.copy(os.path.join(TOP, name), folder)
    os.symlink(os.path.join(TOP, "tools"), os.path.join(folder, "tools"))
    for name in os.listdir(os.path.join(TOP, "crates")):
        os.makedirs(os.path.join(folder, "crates", name))
        if os.path.isdir(os.path.join(TOP, "crates", name, "src")):
            os.symlink(os.path.join(TOP, "crates", name, "src"), os.path.join(folder, "crates", name, "src"))
    return ["env", "PATH=/usr/bin:/bin", os.path.join(folder, "vsw"), *FRONT[1:]]


def run(front, words, output=subprocess.DEVNULL, limit=None):
    """Runs a program, with at most `limit` KiB of memory, and gives its status and what it complained."""
    words = [*front, *words]
    if limit:
        words = ["sh", "-c", f'ulimit -v {limit}; exec "$@"', "sh", *words]
    done = subprocess.run(words, stdout=output, stderr=subprocess.PIPE)
    return done.returncode, done.stderr


def bad_commands():
    """Of each: what it is, the file, the status and what is complained."""
    ask = b'{"at": 0, "when": "before", "controller": 9, "port": 1, "do": "remove_layer", "layer": 1}'
    yield "a command of nobody", ask, 5, b"vsw: refused commands 1 Unknown /controller\n"
    yield "a command without members", b"\n{}\n", 5, b"vsw: refused commands 2 Shape /\n"
    yield "commands that are no JSON", b"{", 5, b"vsw: refused commands 1 Json /\n"
    yield "many lines", b"\n" * 65_537, 6, b"vsw: limit lines\n"
    yield "large commands", b" " * 16_777_217, 6, b"vsw: limit commands\n"


def reports():
    """Of each: what it is, a report for the example's run, the status of its check and what is complained."""
    with open(REPORT, "rb") as source:
        report = source.read()
    lines = report.splitlines(keepends=True)
    yield "a report", report, 0, b""
    yield "a report with another digit", report.replace(b"6869\n", b"6868\n", 1), 8, b""
    yield "a report without its last line", b"".join(lines[:-1]), 8, b""
    yield "a report without the line loose", report.replace(b"loose\n", b"", 1), 5, b"vsw: refused report %d\n" % (lines.index(b"loose\n") + 1)
    yield "a report without its last line feed", report[:-1], 5, b"vsw: refused report %d\n" % len(lines)
    yield "no report", b"", 5, b"vsw: refused report 1\n"


def check_cases(file, folder):
    """The same as `cases`, of checks."""
    for what, data, status, complaint in reports():
        yield what, ["check", POLICY, COMMANDS, TRACE, file("report", data)], status, complaint
    yield "a report of four workers", ["check", "--workers=4", POLICY, COMMANDS, TRACE, file("none", b"")], 5, b"vsw: refused report 1\n"
    large = file("large report", b"")
    os.truncate(large, MOST_REPORT + 1)
    yield "a large report", ["check", POLICY, COMMANDS, TRACE, large], 6, b"vsw: limit report\n"
    yield "a missing report", ["check", POLICY, COMMANDS, TRACE, os.path.join(folder, "missing")], 3, b"vsw: read fault\n"
    cut = file("cut trace", head() + record(9, 9))
    yield "a check of a trace that is cut", ["check", POLICY, COMMANDS, cut, REPORT], 5, b"vsw: refused trace Cut 24\n"
    many = file("many", head() + record(0, 1) * (RECORDS + 1))
    yield "a check of many records", ["check", POLICY, COMMANDS, many, REPORT], 6, b"vsw: limit records\n"
    for words in [POLICY, COMMANDS, TRACE], [POLICY, COMMANDS, TRACE, REPORT, REPORT], ["--workers=0", POLICY, COMMANDS, TRACE, REPORT]:
        yield f"check {words}", ["check", *words], 2, b"vsw: usage\n"


def offload_cases(file, folder):
    """The same as `cases`, of rows."""
    missing = os.path.join(folder, "missing")
    yield "rows of a run", ["offload", POLICY, COMMANDS, TRACE], 0, b""
    for place in range(3):
        files = [POLICY, COMMANDS, TRACE]
        files[place] = missing
        yield f"file {place} of an offload is missing", ["offload", *files], 3, b"vsw: read fault\n"
    yield "rows of a policy that is no JSON", ["offload", file("json", b"{"), COMMANDS, TRACE], 5, b"vsw: refused policy Json /\n"
    yield "rows of commands without members", ["offload", POLICY, file("none", b"{}"), TRACE], 5, b"vsw: refused commands 1 Shape /\n"
    yield "rows of a trace that is none", ["offload", POLICY, COMMANDS, file("none", bytes(24))], 5, b"vsw: refused trace NotPcap\n"
    yield "rows of a trace that is cut", ["offload", POLICY, COMMANDS, file("cut", head() + record(9, 9))], 5, b"vsw: refused trace Cut 24\n"
    many = file("many", head() + record(0, 1) * (RECORDS + 1))
    yield "rows of many records", ["offload", POLICY, COMMANDS, many], 6, b"vsw: limit records\n"
    for words in [POLICY, COMMANDS], [POLICY, COMMANDS, TRACE, TRACE], ["--workers=1", POLICY, COMMANDS, TRACE], ["-x", COMMANDS, TRACE]:
        yield f"offload {words}", ["offload", *words], 2, b"vsw: usage\n"


def engine_cases(file, folder):
    """The same as `cases`, of a hardware's answers."""
    with open(ROWS, "rb") as source:
        rows = source.read()
    missing = os.path.join(folder, "missing")
    yield "answers", ["engine", ROWS, TRACE], 0, b""
    for name, data, complaint in [
        ("none", b"", b"NotRows"),
        ("a cut head", rows[:11], b"Cut 8"),
        ("another form", b"VSWROWS2" + rows[8:], b"NotRows"),
        ("a byte more", rows + b"\0", b"Extra %d" % len(rows)),
        ("a cut row", rows[:-1], b"Cut 30"),
    ]:
        yield f"rows with {name}", ["engine", file("rows", data), TRACE], 5, b"vsw: refused rows %s\n" % complaint
        # they are judged before the trace is opened
        yield f"rows with {name} and no trace", ["engine", file("rows", data), missing], 5, b"vsw: refused rows %s\n" % complaint
    large = file("large rows", b"")
    os.truncate(large, MOST_ROWS + 1)
    yield "large rows", ["engine", large, TRACE], 6, b"vsw: limit rows\n"
    yield "missing rows", ["engine", missing, TRACE], 3, b"vsw: read fault\n"
    yield "a missing trace of answers", ["engine", ROWS, missing], 3, b"vsw: read fault\n"
    yield "answers of a trace that is none", ["engine", ROWS, file("none", bytes(24))], 5, b"vsw: refused trace NotPcap\n"
    yield "answers of a trace that is cut", ["engine", ROWS, file("cut", head() + record(9, 9))], 5, b"vsw: refused trace Cut 24\n"
    many = file("many", head() + record(0, 1) * (RECORDS + 1))
    yield "answers of many records", ["engine", ROWS, many], 6, b"vsw: limit records\n"
    for words in [ROWS], [ROWS, TRACE, TRACE], ["--workers=2", ROWS, TRACE], ["-x", TRACE]:
        yield f"engine {words}", ["engine", *words], 2, b"vsw: usage\n"


def cases(folder):
    """Of each: what it is, the words, the status and what is complained."""
    def file(name, data):
        path = os.path.join(folder, name)
        with open(path, "wb") as out:
            out.write(data)
        return path

    def of_policy(name, data):
        return ["forward", file(name, data), COMMANDS, TRACE]

    def of_trace(name, data):
        return ["forward", POLICY, COMMANDS, file(name, data)]

    yield "a whole report", ["forward", POLICY, COMMANDS, TRACE], 0, b""
    yield "four workers", ["forward", "--workers", "4", POLICY, COMMANDS, TRACE], 0, b""
    yield "a stream", ["stream", POLICY, COMMANDS, TRACE], 0, b""
    yield "a stream to four workers", ["stream", "--workers", "4", POLICY, COMMANDS, TRACE], 0, b""
    yield "a stream that is cut", ["stream", "--workers=4", POLICY, COMMANDS, file("cut stream", head() + record(9, 9))], 5, b"vsw: refused trace Cut 24\n"
    yield "a stream of many records", ["stream", "--workers=4", POLICY, COMMANDS, file("many streamed", head() + record(0, 1) * (RECORDS + 1))], 6, b"vsw: limit records\n"
    yield "packets handed on", ["deliver", "--workers", "4", POLICY, COMMANDS, TRACE], 0, b""
    yield "a summary", ["generate", "1", "2"], 0, b""
    for words in ["01", "5"], ["1", "0"], ["1", "1048577"], ["2147483648", "1"], ["1"], ["1", "1", "1"], ["--", "1", "1"]:
        yield f"generate {words}", ["generate", *words], 2, b"vsw: usage\n"
    options = ["--workers=0"], ["--workers", "17"], ["--workers=2", "--workers=2"]
    words_of_options = [["forward", *option, POLICY, COMMANDS, TRACE] for option in options]
    odd = ["forward", "-x", COMMANDS, TRACE], ["forward", "", COMMANDS, TRACE], ["forward", b"\xff", COMMANDS, TRACE], ["forward", "--", POLICY, COMMANDS]
    for words in [], ["help"], ["forward"], *odd, *words_of_options:
        yield f"words {words}", words, 2, b"vsw: usage\n"
    for place in range(3):
        files = [POLICY, COMMANDS, TRACE]
        files[place] = os.path.join(folder, "missing")
        yield f"file {place} is missing", ["forward", *files], 3, b"vsw: read fault\n"
    yield "a policy that is no JSON", of_policy("json", b"{"), 5, b"vsw: refused policy Json /\n"
    yield "a policy without members", of_policy("shape", b"{}"), 5, b"vsw: refused policy Shape /\n"
    yield "a number twice", of_policy("twice", policy([1], [1, 1])), 5, b"vsw: refused policy Twice /ports/1/port\n"
    yield "a trace that is none", of_trace("none", bytes(24)), 5, b"vsw: refused trace NotPcap\n"
    yield "a trace that is cut", of_trace("cut", head() + record(9, 9)), 5, b"vsw: refused trace Cut 24\n"
    yield "a large policy", of_policy("large", b" " * 4_194_305), 6, b"vsw: limit policy\n"
    yield "many ports", of_policy("ports", policy([1], range(1, 18))), 6, b"vsw: limit ports\n"
    yield "many controllers", of_policy("controllers", policy(list(range(1, 10)), [1])), 6, b"vsw: limit controllers\n"
    yield "many records", of_trace("records", head() + record(0, 1) * (RECORDS + 1)), 6, b"vsw: limit records\n"
    for name, data, status, complaint in bad_commands():
        yield name, ["forward", POLICY, file(name, data), TRACE], status, complaint
    yield from check_cases(file, folder)
    yield from offload_cases(file, folder)
    yield from engine_cases(file, folder)


def main():
    if sys.argv[1:] not in ([], ["--unproved"]):
        sys.exit(__doc__)
    wrong, program = 0, [find_program()]

    def look(what, got, status, complaint, may_say_more=False):
        nonlocal wrong
        is_said = got[1].startswith(complaint) if may_say_more else got[1] == complaint
        if got[0] != status or not is_said:
            wrong += 1
            print(f"{what}: {got}, and not {(status, complaint)}")

    with tempfile.TemporaryDirectory() as folder, tempfile.TemporaryDirectory() as empty:
        fresh = copy_front(empty)
        for what, words, status, complaint in cases(folder):
            look(what, run(program, words), status, complaint)
            look(f"{what}, by ./vsw", run(FRONT, words), status, complaint, status in (2, 3))
            if status in (2, 3):
                look(f"{what}, before a build", run(fresh, words), status, complaint, True)
        large = ["forward", os.path.join(folder, "spaces"), COMMANDS, TRACE]
        with open(large[1], "wb") as out:
            out.write(b" " * 4_194_304)
        look("little memory", run(program, large, limit=4_800), 9, b"vsw: memory\n")
    with open("/dev/full", "wb") as full:
        look("a full disk for a summary", run(FRONT, ["generate", "1", "2"], full), 4, b"vsw: write fault\n")
        look("a full disk for an answer", run(FRONT, ["check", POLICY, COMMANDS, TRACE, REPORT], full), 4, b"vsw: write fault\n")
        look("a full disk for rows", run(FRONT, ["offload", POLICY, COMMANDS, TRACE], full), 4, b"vsw: write fault\n")
        look("a full disk for answers", run(FRONT, ["engine", ROWS, TRACE], full), 4, b"vsw: write fault\n")
        look("a full disk", run(FRONT, ["forward", POLICY, COMMANDS, TRACE], full), 4, b"vsw: write fault\n")
    sys.exit(1 if wrong else print("each status came, with its words") or 0)


main()
