"""A run once more by the plain program (tools/plain_switch.py), in the order that its report tells, layer by layer.

The plain program was written from docs/MODEL.md apart from the switch, and isn't proved. So where the report says otherwise, one of
the two is wrong: that is kept, and whoever uses this module tells it loudly. Ports don't touch each other; each is replayed by its own lines. A packet that is told at another
port than its own came there with the bytes that its own port's line shows, if it was handed on.
"""
from __future__ import annotations

import collections
import copy
import ipaddress
from dataclasses import dataclass, field
from typing import Any, Iterator, Optional, Sequence

import plain_switch

from .captures import Record
from .ending import Refused
from .frames import read_frame
from .policies import read_commands, read_policy
from .reports import Call, CommandLine, LooseLine, PacketLine, Report, layer_text, way_text

LOUD = "!!!"


@dataclass
class Step:
    """What one layer made of a packet. `how` is `rule`, `default` or `pair`; `rule` is (group, rule), also of the pair's."""

    layer: str
    how: str
    way: str
    rule: Optional[tuple[int, int]] = None
    drop: str = ""
    remarks: list[str] = field(default_factory=list)
    changes: list[str] = field(default_factory=list)

    def name(self) -> str:
        """What decided, as a report names it: `C/L/G/R`, or `C/L out`."""
        return f"{self.layer}/{self.rule[0]}/{self.rule[1]}" if self.rule else f"{self.layer} {self.way}"


@dataclass
class Traced:
    """A call of the report, with what the plain program makes of it. `stop` is why a packet that its layers let on was dropped."""

    call: Call
    way: str = ""
    steps: list[Step] = field(default_factory=list)
    stop: str = ""
    told: str = ""
    agrees: bool = True
    is_handed_on: bool = False


# A packet's way

def value_text(name: str, value: Any) -> str:
    if value is None:
        return "none"
    if name.endswith("_ip6"):
        return str(ipaddress.IPv6Address(value))
    if name.endswith("_ip"):
        return str(ipaddress.IPv4Address(value))
    return value.to_bytes(6, "big").hex(":") if name.endswith("_mac") else str(value)


def change_lines(before: tuple[list[dict[str, Any]], dict[str, Any]], after: tuple[list[dict[str, Any]], dict[str, Any]]) -> list[str]:
    """What a layer changed, from the stacks before and after it."""
    (old_encaps, old), (new_encaps, new) = before, after
    kept = min(len(old_encaps), len(new_encaps))
    while old_encaps[len(old_encaps) - kept:] != new_encaps[len(new_encaps) - kept:]:
        kept -= 1
    lines = [f"VXLAN {encap['vni']} taken away" for encap in old_encaps[:len(old_encaps) - kept]]
    lines += [f"{name} {value_text(name, old.get(name))} became {value_text(name, value)}" for name, value in new.items() if old.get(name) != value]
    lines += [f"VXLAN {encap['vni']} from {value_text('src_ip', encap['src_ip'])} to {value_text('dst_ip', encap['dst_ip'])} put in front"
              for encap in new_encaps[:len(new_encaps) - kept]]
    return lines


def begin_step(layer: dict[str, Any], way: str, packet: Any) -> Step:
    """What decides in a layer, before the packet visits it."""
    name = f"{layer['controller']}/{layer['layer']}"
    encaps, fields = packet.stack()
    pair = plain_switch.found(layer, way, plain_switch.key(encaps, fields))
    if pair is not None and plain_switch.moved(pair["state"], packet.control, way, pair["way"]) is not None:
        side = "its flow" if way == pair["way"] else "its replies"
        return Step(name, "pair", way, (pair["group"], pair["rule"]), remarks=[f"pair {pair['number']} holds {side}, state {state_text(pair['state'])}"])
    chosen = plain_switch.choose(layer, way, encaps, fields)
    step = Step(name, "rule" if chosen else "default", way, (chosen[0]["group"], chosen[1]["rule"]) if chosen else None)
    if pair is not None:
        step.remarks.append(f"a SYN: closed pair {pair['number']} is opened again, and leaves if the packet goes on")
    if chosen:
        step.remarks.append(f"priority {chosen[1]['priority']}{', last' if chosen[1]['last'] else ''}")
    return step


def state_text(state: Any) -> str:
    if isinstance(state, tuple):
        return f"half closed ({way_text(state[1])})"
    return {"Plain": "none", "Opening": "opening", "Open": "open", "Closed": "closed"}.get(state, str(state))


def want_text(layer: dict[str, Any], pair: Any, new: Any) -> str:
    if pair is not None:
        moves = "its last use moves" if "last" in new else "its last use stays"
        state = f"state {state_text(pair['state'])} becomes {state_text(new['state'])}, " if new["state"] != pair["state"] else ""
        return f"{state}{moves}"
    return f"makes pair {layer['next']}" if new is not None else ""


def visit(layer: dict[str, Any], way: str, packet: Any, moment: int) -> tuple[Step, list[Any]]:
    """One layer, told. Answers what it wants of its pairs, too."""
    encaps, fields = packet.stack()
    before, step = (copy.copy(encaps), dict(fields)), begin_step(layer, way, packet)
    drop, wants = plain_switch.visit(layer, way, packet, moment)
    step.drop = drop or ""
    step.changes = change_lines(before, packet.stack()) if drop is None else []
    step.remarks += [text for where, _, pair, new in wants for text in [want_text(where, pair, new)] if text]
    return step, wants


def carry(port: dict[str, Any], traced: Traced, packet: Any, moment: int, is_unstored: bool) -> bool:
    """Brings a packet through its port's layers. Answers whether it is an entry; `is_unstored` where memory was wanting for it."""
    wants: list[Any] = []
    for layer in port["layers"] if traced.way == "out" else reversed(port["layers"]):
        step, wanted = visit(layer, traced.way, packet, moment)
        traced.steps.append(step)
        if step.drop:
            traced.told = step.drop
            return False
        wants += wanted
    traced.stop = plain_switch.refusal(packet, traced.way, wants) or ""
    if not traced.stop and is_unstored and any(new is not None and pair is None for _, _, pair, new in wants):
        traced.stop = "drop memory"
    if traced.stop:
        traced.told = traced.stop
        return False
    for want in wants:
        plain_switch.do(*want)
    data = plain_switch.sent(packet)
    traced.told = f"pass {len(data)} {data.hex()}"
    return bool(wants)


# A run

class Replay:
    """The run of a report, replayed."""

    def __init__(self, policy: str, commands: Optional[str], report: Report, records: Sequence[Record]) -> None:
        self.policy_file = read_policy(policy)
        self.report = report
        self.records = records
        lines = read_commands(commands, self.policy_file)
        self.commands = {command["line"]: command for command in lines}
        value = copy.deepcopy(self.policy_file.value)
        self.places = {controller: place for place, controller in enumerate(value["controllers"])}
        self.ports = {port["port"]: port for port in plain_switch.opened_ports(value, self.places)}
        self.macs = {plain_switch.mac(port["mac"]): port for port in self.ports.values()}
        self.fates = {(line.port, line.packet): line.fate.text() for line in report.packet_lines()}
        self.count = 0
        self.disagreements = 0
        self.first_disagreement: Optional[tuple[Call | LooseLine, str]] = None

    def calls(self) -> Iterator[Traced]:
        """Every call of the report, in its order."""
        for one in self.report.rounds:
            for part in one.ports:
                for call in part.calls:
                    yield self.trace(call)
            for line in one.loose:
                self.look_at_loose(line)

    def until(self, packet: int) -> list[Traced]:
        """The calls of a packet that reached a port, in the order of its way: it stands last at a port to which it was handed on."""
        wanted = sum(line.packet == packet for line in self.report.packet_lines())
        found: list[Traced] = []
        for traced in self.calls():
            found += [traced] if isinstance(traced.call, PacketLine) and traced.call.packet == packet else []
            if wanted and len(found) == wanted:
                return sorted(found, key=lambda one: one.is_handed_on)
        raise Refused(f"{self.report.name} tells of no packet {packet} at a port")

    def disagree(self, call: Call | LooseLine, told: str) -> None:
        self.disagreements += 1
        self.first_disagreement = self.first_disagreement or (call, told)

    def trace(self, call: Call) -> Traced:
        self.count += 1
        port = self.ports.get(call.port)
        if port is None:
            raise Refused(f"{self.report.name}:{call.line}: port {call.port} isn't in the policy {self.policy_file.name}: are they of one run?")
        traced = self.trace_command(port, call) if isinstance(call, CommandLine) else self.trace_packet(port, call)
        if not traced.agrees:
            self.disagree(call, traced.told)
        return traced

    def trace_command(self, port: dict[str, Any], call: CommandLine) -> Traced:
        command = self.commands.get(call.number)
        if command is None or (command["port"], command["controller"]) != (call.port, call.controller):
            raise Refused(f"{self.report.name}:{call.line}: line {call.number} of the commands isn't there, or asks of another port or controller: name the run's --commands")
        if call.reply == "refused 10 Memory":
            return Traced(call, told=call.reply)
        reply = plain_switch.obey(port, self.places, copy.deepcopy(command))
        return Traced(call, told=reply, agrees=reply == call.reply and call.is_entry)

    def record(self, line: PacketLine | LooseLine) -> Record:
        if line.packet >= len(self.records):
            raise Refused(f"{self.report.name}:{line.line}: the trace has no packet {line.packet}, only {len(self.records)}: are they of one run?")
        return self.records[line.packet]

    def met(self, record: Record) -> Any:
        """Port, direction and packet of a record, or why it is loose."""
        fault = read_frame(record.data).fault
        if record.is_snapped or fault:
            return "snapped" if record.is_snapped else f"malformed {fault}"
        return plain_switch.met(self.macs, (record.moment, record.data, record.original))

    def handed_on(self, own: Any, call: PacketLine) -> Any:
        """Port, direction and packet as a packet is handed on, by what the report tells of it at its own port; None where it isn't."""
        fate = self.fates.get((own[0]["port"], call.packet), "")
        return plain_switch.handed_on(self.macs, own[0], own[1], fate)

    def trace_packet(self, port: dict[str, Any], call: PacketLine) -> Traced:
        record = self.record(call)
        own = self.met(record)
        found = own if isinstance(own, str) or own[0] is port else self.handed_on(own, call)
        if isinstance(found, str) or found is None or found[0] is not port:
            return Traced(call, told=own if isinstance(own, str) else f"at port {own[0]['port']}", agrees=False)
        traced = Traced(call, found[1], is_handed_on=found is not own)
        is_entry = carry(port, traced, found[2], record.moment, call.fate.cause == "memory")
        traced.agrees = (is_entry, traced.told) == (call.is_entry, call.fate.text())
        return traced

    def look_at_loose(self, line: LooseLine) -> None:
        found = self.met(self.record(line))
        told = found if isinstance(found, str) else f"at port {found[0]['port']}"
        if told != line.fate.cause:
            self.disagree(line, told)


# In words

def step_text(step: Step) -> str:
    if step.how == "default":
        verb = "drops it" if step.drop else "lets it on"
        return f"{layer_text(step.layer)}: no rule was chosen; its default for {way_text(step.way)} packets {verb}"
    group, rule = step.rule or (0, 0)
    if step.how == "pair":
        return f"{layer_text(step.layer)}: a pair of rule {rule} of group {group} lets it on"
    verb = "drops it" if step.drop else "lets it on"
    return f"{layer_text(step.layer)}: rule {rule} of group {group} {verb}"


def step_lines(traced: Traced) -> list[str]:
    """A packet's way in words, a line a layer."""
    lines = []
    for step in traced.steps:
        remarks = f" ({'; '.join(step.remarks)})" if step.remarks else ""
        lines.append(step_text(step) + remarks + "".join(f"; {change}" for change in step.changes))
    if not traced.steps:
        lines.append(f"by the rules it is {traced.told}" if not traced.way else "its port has no layers: it passes")
    if traced.stop:
        lines.append(f"after all layers: {traced.stop}")
    return lines


def told_line(call: Call | LooseLine) -> str:
    if isinstance(call, CommandLine):
        return f"line {call.number} of the commands: {call.reply}"
    if isinstance(call, LooseLine):
        return f"packet {call.packet}: {call.fate.cause}"
    return f"packet {call.packet}: {'entry' if call.is_entry else 'read'} {call.count}, {call.fate.text()}"


def short(text: str, most: int = 160) -> str:
    return text if len(text) <= most else text[:most] + "…"


def disagreement_lines(replay: Replay) -> list[str]:
    """The loud words where the report says otherwise than the plain program; none where it doesn't."""
    if replay.first_disagreement is None:
        return []
    call, told = replay.first_disagreement
    return [f"{LOUD} THE REPORT SAYS OTHERWISE than the rules, in {replay.disagreements} of {replay.count} calls. One of them is wrong, or the files aren't of one run.",
            f"{LOUD} first in line {call.line} of {replay.report.name}: {short(told_line(call))}",
            f"{LOUD} by the rules (not proved): {short(told)}"]


def hits(replay: Replay) -> collections.Counter[tuple[int, str, str]]:
    """How often each rule, default and pair decided, by port, by how and by name."""
    return collections.Counter((traced.call.port, step.how, step.name()) for traced in replay.calls() for step in traced.steps)
