"""How a run over any three files has to end, by the plain programs: what is refused, the report of one worker, and whether one of many is legal.

Apart from the switch: captures, policies and commands are read as docs/FORMATS.md says, and packets cross as docs/MODEL.md says.
"""
from __future__ import annotations

import json
import re
from typing import NamedTuple, Optional

import legal
import plain_switch

from .captures import Record, parse_capture, write_capture
from .ending import Ending
from .policies import read_commands, read_policy

HEAD = "vsw report 1\n"
REFUSED, LIMIT = 5, 6
FILE_FAULT = re.compile(r"\S+?(\.jsonl?):(?:(\d+):\d+: (\w+ \S+): .*| (limit \w+).*)", re.DOTALL)
TRACE_FAULT = re.compile(r"\S+: (?:(NotPcap|Version|LinkType)\b.*|(Cut|Huge): the record that begins at byte (\d+) .*)")


class Outcome(NamedTuple):
    """The status and the words on standard error. `runs` are the policy, the commands and the trace of the rounds that are told, None where nothing
    is put, or, where `is_head_alone`, the head line alone."""

    status: int
    words: str
    runs: Optional[tuple[bytes, bytes, bytes]] = None
    is_head_alone: bool = False


def refusal(policy: str, commands: str) -> str:
    """What is said of the files of these names, empty where both are good."""
    try:
        read_commands(commands, read_policy(policy))
    except Ending as why:
        found = FILE_FAULT.fullmatch(why.words)
        assert found, why.words
        line = f"{found[2]} " if found[1] == ".jsonl" else ""
        return found[4] or f"refused {'commands' if line else 'policy'} {line}{found[3]}"
    return ""


def records_of(trace: bytes) -> tuple[list[Record], str]:
    """The whole records of a capture, and what is said of what follows them, empty at a clean end."""
    records: list[Record] = []
    try:
        for record in parse_capture("trace.pcap", trace):
            records.append(record)
    except Ending as why:
        found = TRACE_FAULT.fullmatch(why.words)
        assert found, why.words
        return records, f"refused trace {found[1] or f'{found[2]} {found[3]}'}"
    return records, ""


def commands_below(commands: bytes, count: int) -> bytes:
    """The commands of rounds that begin at one of so many packets; the lines of the others are left empty."""
    lines = commands.split(b"\n")
    return b"\n".join(line if line.strip(b" \t\r") and json.loads(line)["at"] < count else b"" for line in lines)


def outcome(names: list[str], policy: bytes, commands: bytes, trace: bytes) -> Outcome:
    """How a run over these files ends, whose policy and commands stand under these names."""
    said = refusal(names[0], names[1])
    if said:
        return Outcome(LIMIT if said.startswith("limit") else REFUSED, f"vsw: {said}\n")
    records, said = records_of(trace)
    if not said:
        return Outcome(0, "", (policy, commands, trace))
    words = f"vsw: {said}\n"
    if not said.startswith(("refused trace Cut", "refused trace Huge")):
        return Outcome(REFUSED, words)
    if not records:
        return Outcome(REFUSED, words, None, True)
    return Outcome(REFUSED, words, (policy, commands_below(commands, len(records)), write_capture(records)))


def fault(wanted: Outcome, status: int, words: str, text: str, workers: int) -> Optional[str]:
    """What is wrong with how a run by so many workers ended, None where nothing is."""
    if (status, words) != (wanted.status, wanted.words):
        return f"status {status}, {words[-200:]!r}, and not {wanted.status}, {wanted.words!r}"
    if wanted.runs is None:
        return None if text == (HEAD if wanted.is_head_alone else "") else f"was put: {text[:200]!r}"
    policy, commands, trace = wanted.runs
    if workers > 1:
        return legal.fault(policy, commands, trace, workers, text)
    return None if text == plain_switch.report(policy, trace, commands) else "the report isn't the plain program's"
