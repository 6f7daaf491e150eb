#!/usr/bin/env python3
"""Changes reports of random runs at one place, and compares what `check` says of them with a plain program.

    tools/changed_reports.py [CHANGES] [SEED] [PROGRAM]

The runs are those of tools/random_runs.py, from SEED on; each report is changed 20 times, until there were so many changes (2,000 if it isn't said): a digit, a digit of bytes, a
line moved, left out or told twice, two lines exchanged, a count, a worker, an entry told as a read or a read as an entry, a round's cut, or a read told behind the next entry, which may be legal. The plain
program says what is legal: with one worker the one report (tools/plain_switch.py), with more what tools/legal.py finds in the order that the lines tell. `check` has to say `legal` of these, and of all
others `illegal`, or that they are no report. PROGRAM is ./vsw if it isn't given. Prints how often each was said, by the kind of change, and the changes on which the two don't agree.
"""
import collections
import os
import random
import re
import sys
import tempfile

import legal
import random_runs
from vswlib.ending import Ending

PER_RUN = 20


def lines_with(lines, pattern):
    return [place for place, line in enumerate(lines) if re.match(pattern, line)]


def other(draw, digits, old):
    return draw.choice([digit for digit in digits if digit != old])


def with_digit(draw, line, pattern, digits):
    """A line of which one digit is another, among those that a pattern finds."""
    places = [place for found in re.finditer(pattern, line) for place in range(*found.span(1))]
    place = draw.choice(places)
    return line[:place] + other(draw, digits, line[place]) + line[place + 1:]


def change_digit(draw, lines):
    place = draw.choice(lines_with(lines, r".*\d"))
    lines[place] = with_digit(draw, lines[place], r"(\d)", "0123456789")


def change_byte(draw, lines):
    place = draw.choice(lines_with(lines, r".* pass "))
    lines[place] = with_digit(draw, lines[place], r" pass \d+ (\w+)", "0123456789abcdef")


def move_line(draw, lines):
    line = lines.pop(draw.randrange(len(lines)))
    lines.insert(draw.randrange(len(lines) + 1), line)


def leave_line_out(draw, lines):
    lines.pop(draw.randrange(len(lines)))


def tell_twice(draw, lines):
    place = draw.randrange(len(lines))
    lines.insert(place, lines[place])


def exchange_lines(draw, lines):
    one, two = draw.sample(range(len(lines)), 2)
    lines[one], lines[two] = lines[two], lines[one]


def exchange_neighbours(draw, lines):
    one = draw.randrange(len(lines) - 1)
    lines[one], lines[one + 1] = lines[one + 1], lines[one]


def change_count(draw, lines):
    place = draw.choice(lines_with(lines, r"[wc]\d+ |port "))
    step = draw.choice([-1, 1])
    pattern = r"( )(\d+)$" if lines[place].startswith("port ") else r"([@+])(\d+)"
    lines[place] = re.sub(pattern, lambda found: found[1] + str(max(0, int(found[2]) + step)), lines[place], count=1)


def change_worker(draw, lines):
    place = draw.choice(lines_with(lines, r"[wc]\d+ "))
    lines[place] = re.sub(r"\d+", lambda found: str(max(0, int(found[0]) + draw.choice([-1, 1, 16]))), lines[place], count=1)


def change_sign(draw, lines):
    place = draw.choice(lines_with(lines, r"[wc]\d+ "))
    lines[place] = lines[place].translate({ord("@"): "+", ord("+"): "@"})


def change_cut(draw, lines):
    place = draw.choice(lines_with(lines, r"round "))
    lines[place] = f"round {max(0, int(lines[place].split()[1]) + draw.choice([-1, 1]))}"


def tell_later(draw, lines):
    """A read right before an entry is told right behind it."""
    pairs = [place for place in range(len(lines) - 1) if re.match(r"w\d+ \d+ @", lines[place]) and re.match(r"[wc]\d+ \d+ \+", lines[place + 1])]
    if not pairs:
        return
    place = draw.choice(pairs)
    count = int(re.search(r"@(\d+)", lines[place])[1])
    lines[place], lines[place + 1] = lines[place + 1], lines[place].replace(f"@{count}", f"@{count + 1}", 1)


KINDS = [change_digit, change_byte, move_line, leave_line_out, tell_twice, exchange_lines, exchange_neighbours, change_count, change_worker, change_sign, change_cut, tell_later]


def is_legal(files, report, wanted):
    """Whether the plain program finds a report legal."""
    if files[3] == 1:
        return report == wanted
    try:
        return legal.fault(*files, report) is None
    except Ending:
        return False


def main():
    many = int(sys.argv[1]) if len(sys.argv) > 1 else 2_000
    seed = int(sys.argv[2]) if len(sys.argv) > 2 else 1
    program = sys.argv[3] if len(sys.argv) > 3 else os.path.join(random_runs.ROOT, "vsw")
    said, done, wrong = collections.Counter(), 0, []
    with tempfile.TemporaryDirectory() as folder:
        while done < many:
            files, wanted = random_runs.drawn(seed)
            got, draw = random_runs.run(program, folder, *files), random.Random(seed)
            for number in range(min(PER_RUN, many - done)):
                lines, kind = got.splitlines(), draw.choice(KINDS)
                try:
                    kind(draw, lines)
                except IndexError:
                    continue
                report = "".join(f"{line}\n" for line in lines)
                status, put, complaint = random_runs.check(program, folder, *files, report)
                answers = {0: (b"legal\n", b""), 8: (b"illegal\n", b"")}
                is_well = (put, complaint) == answers[status] if status in answers else status == 5 and put == b"" and complaint.startswith(b"vsw: refused report ")
                if not is_well or (status == 0) != is_legal(files, report, wanted):
                    wrong.append((seed, number))
                    print(f"seed {seed}, change {number} ({kind.__name__}), {files[3]} workers: check ends with {status}, {put}, {complaint}")
                said[f"{kind.__name__}: {'legal' if status == 0 else 'illegal' if status == 8 else 'no report'}"] += 1
                done += 1
            seed += 1
    for name, count in sorted(said.items()):
        print(name, count)
    print(f"{done - len(wrong)} of {done} changes are judged alike; others (seed, change): {wrong}")
    sys.exit(1 if wrong else 0)


if __name__ == "__main__":
    main()
