"""Whether a report of many workers is legal: whether some order of their calls gives it. Of `deliver`, each port by itself.

Written from docs/MODEL.md and docs/FORMATS.md over the plain program's packets and commands (tools/plain_switch.py), apart from the
switch. A port's lines tell its one history: entries in order, and before each the reads at its count. So the lines are gone
through once. Each must be what the plain program gives where it stands, and change its port exactly where it is an entry. What a packet is handed on as is read
off its line at its own port: then it has one more at the other, inbound, by the same worker, in that worker's order.
"""
import copy
import json

import plain_switch
from packets import read_capture
from vswlib.ending import Ending
from vswlib.reports import CommandLine, parse_report


# Want of memory, which may be told of any command, and of any packet that would make a pair; nothing changes then, and a command that was to come before
# the packets needn't.
WANT = ("drop memory", "refused 10 Memory")


class Illegal(Exception):
    pass


def expect(got, wanted, what):
    if got != wanted:
        raise Illegal(f"{what}: {got}, and not {wanted}")


def carry(port, places, call, by):
    """What a packet or a command gets at its port as it stands, and whether it is an entry."""
    if "do" in call:
        expect(by, call["controller"], f"controller of line {call['line']}")
        return plain_switch.obey(port, places, call), True
    expect(by, call["worker"], "worker")
    return plain_switch.cross(port, call["way"], call["packet"], call["moment"])


def makes_pair(port, call):
    """Whether a packet would make a pair at its port as it stands."""
    after = copy.deepcopy(port)
    plain_switch.cross(after, call["way"], call["packet"], call["moment"])
    return any(layer["next"] > before["next"] for layer, before in zip(after["layers"], port["layers"]))


def named(call):
    """The kind of a call, its caller, what it brings, and what it was told."""
    if isinstance(call, CommandLine):
        return "c", call.controller, call.number, call.reply
    return "w", call.worker, call.packet, call.fate.text()


def go_through(port, places, lines, calls):
    """A port's lines of one round. `calls` has the packets and the commands, each of which has one line."""
    wanting = {line.number for line in lines if isinstance(line, CommandLine) and line.reply in WANT}
    before = [item for (kind, item), call in calls.items() if kind == "c" and call["when"] == "before" and item not in wanting]
    last, at = {}, None
    for number, line in enumerate(lines):
        (kind, by, item, told), is_before, where = named(line), number < len(before), f"line {line.line}"
        expect(line.count, port["count"], f"count of {where}")
        if is_before:
            expect((kind, item), ("c", before[number]), "command before the packets")
        stands = (line.count, line.is_entry, kind == "c", by)
        expect(at is None or at <= stands, True, f"order at one count, at {where}")
        expect(last.get((kind, by, is_before), -1) < item, True, f"order of its caller, at {where}")
        expect((kind, item) in calls, True, f"one line each, at {where}")
        at, last[kind, by, is_before] = stands, item
        call = calls.pop((kind, item))
        if told == "drop memory":
            expect(makes_pair(port, call), True, f"a pair to be made at {where}")
        expect((told, line.is_entry), (told, False) if told in WANT else carry(port, places, call, by), where)
        port["count"] += line.is_entry
    expect(calls, {}, "without a line")


def calls_of(ports, macs, commands, records, first, following, workers):
    """The calls of a round by port, kind and number, and its loose lines."""
    calls, loose = {port["port"]: {} for port in ports}, []
    for command in commands:
        if command["at"] == first:
            calls[command["port"]]["c", command["line"]] = command
    for place, record in enumerate(records[first:following], first):
        found = plain_switch.met(macs, record)
        if isinstance(found, str):
            loose.append(f"{place} {found}")
        else:
            port, way, packet = found
            worker = plain_switch.flow_sum(packet.fields) % workers
            calls[port["port"]]["w", place] = {"way": way, "packet": packet, "moment": record[0], "worker": worker}
    return calls, loose


def hand_on(ports, macs, calls, told):
    """Adds the calls of the packets that are handed on, by what a round tells of them at their own ports."""
    own = {number: {item: call for (kind, item), call in of_port.items() if kind == "w"} for number, of_port in calls.items()}
    for port, part in zip(ports, told.ports):
        for line in part.calls:
            call = None if isinstance(line, CommandLine) else own[port["port"]].get(line.packet)
            found = None if call is None else plain_switch.handed_on(macs, port, call["way"], line.fate.text())
            if found is not None:
                calls[found[0]["port"]]["w", line.packet] = {**call, "way": found[1], "packet": found[2]}


def go_over(policy_text, commands_text, trace, workers, text, local=False):
    """Raises Illegal where a report of these files is wrong for so many workers, which hand packets on between the ports or don't."""
    policy, records, commands = json.loads(policy_text), read_capture(trace), plain_switch.read_commands(commands_text)
    places = {controller: place for place, controller in enumerate(policy["controllers"])}
    ports = plain_switch.opened_ports(policy, places)
    macs = {plain_switch.mac(port["mac"]): port for port in ports}
    told, rounds = parse_report("report", text.encode()).rounds, list(plain_switch.rounds(records, commands))
    expect([one.first for one in told], [first for first, _ in rounds], "rounds")
    for one, (first, following) in zip(told, rounds):
        calls, loose = calls_of(ports, macs, commands, records, first, following, workers)
        expect([part.port for part in one.ports], [port["port"] for port in ports], f"ports of round {first}")
        if local:
            hand_on(ports, macs, calls, one)
        for port, part in zip(ports, one.ports):
            expect(part.before, port["count"], f"begin of port {part.port}")
            go_through(port, places, part.calls, calls[port["port"]])
            expect(part.after, port["count"], f"end of port {part.port}")
        expect(one.is_loose, True, f"line `loose` of round {first}")
        expect([f"{line.packet} {line.fate.cause}" for line in one.loose], loose, "loose lines")


def fault(*run, local=False):
    """What is wrong with the report of a policy, commands, a trace and a number of workers, None where nothing is."""
    try:
        return go_over(*run, local)
    except (Illegal, Ending) as why:
        return f"{type(why).__name__} {why}"
