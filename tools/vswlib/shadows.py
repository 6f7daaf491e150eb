"""What in a good policy can have no effect: rules that another one shadows, groups that never apply, ports without layers.

Each warning is certain by docs/MODEL.md; not everything that has no effect is found. A rule is shadowed where another one is
always chosen in its place.
"""
from __future__ import annotations

import ipaddress
from dataclasses import dataclass
from typing import Any, Iterator, Optional

from .policies import IP6S, IPS, MACS, NUMBERS, end_value

Ranges = list[tuple[int, int]]
IPV4_FIELDS = ("src_ip", "dst_ip", "part")
IP_FIELDS = (*IPV4_FIELDS, *IP6S, "proto", "src_port", "dst_port")


@dataclass(frozen=True)
class Remark:
    """What has no effect, by the path of it in the policy."""

    path: str
    words: str


# Conditions as sets of values

def greatest(field: str) -> int:
    if field in NUMBERS:
        return NUMBERS[field]
    return (1 << (48 if field in MACS else 128 if field in IP6S else 32)) - 1


def item_range(field: str, item: Any) -> tuple[int, int]:
    if field in IP6S or field in IPS and isinstance(item, str):
        network = ipaddress.ip_network(item, strict=False)
        return int(network.network_address), int(network.broadcast_address)
    low, high = item if isinstance(item, list) else (item, item)
    return end_value(field, low), min(end_value(field, high), greatest(field))


def joined(ranges: Ranges) -> Ranges:
    """The same values as ranges in order, none beside the next."""
    found: Ranges = []
    for low, high in sorted(one for one in ranges if one[0] <= one[1]):
        if found and low <= found[-1][1] + 1:
            found[-1] = found[-1][0], max(found[-1][1], high)
        else:
            found.append((low, high))
    return found


def both(ones: Ranges, others: Ranges) -> Ranges:
    """The values in both."""
    return joined([(max(one[0], other[0]), min(one[1], other[1])) for one in ones for other in others])


def is_within(ones: Ranges, others: Ranges) -> bool:
    return both(ones, others) == joined(ones)


def wanted(conditions: list[dict[str, Any]]) -> dict[str, Ranges]:
    """The values that each named field may have where all conditions hold."""
    found: dict[str, Ranges] = {}
    for condition in conditions:
        field = condition["field"]
        ranges = joined([item_range(field, item) for item in condition["any"]])
        found[field] = both(found[field], ranges) if field in found else ranges
    return found


@dataclass(frozen=True)
class Matches:
    """Which packets a rule matches: the values of fields, and what its action asks for (docs/MODEL.md, Match)."""

    fields: dict[str, Ranges]
    has_encap: bool
    has_room: bool
    has_ip: bool

    @staticmethod
    def of(group: dict[str, Any], rule: Optional[dict[str, Any]]) -> Matches:
        """Those of a rule in its group; of the group alone, where there is no rule."""
        conditions = group["when"] + (rule["when"] if rule else [])
        action = rule["action"] if rule and isinstance(rule["action"], dict) else {"decap": False, "encap": None}
        fields = wanted(conditions)
        has_encap = action["decap"] or any(field == "vni" or field.startswith("outer_") for field in fields)
        has_ip = bool(rule and rule["stateful"]) or any(field in fields for field in IP_FIELDS)
        return Matches(fields, has_encap, bool(action["encap"]) and not action["decap"], has_ip)

    def why_never(self) -> str:
        """Why no packet is such; empty where one may be."""
        for field, ranges in self.fields.items():
            if not ranges:
                return f"no value of `{field}` meets its conditions"
        kinds, protos = self.fields.get("kind"), self.fields.get("proto")
        ipv4 = [field for field in IPV4_FIELDS if field in self.fields]
        ipv6 = [field for field in IP6S if field in self.fields]
        ports = [field for field in ("src_port", "dst_port") if field in self.fields]
        if ipv4 and ipv6:
            return f"no packet has both `{ipv4[0]}` and `{ipv6[0]}`"
        for kind, fields in ((0x0800, ipv4), (0x86DD, ipv6)):
            if kinds is not None and fields and not both(kinds, [(kind, kind)]):
                return f"only packets of kind {kind} have `{fields[0]}`"
        if protos is not None and ports and not both(protos, [(6, 6), (17, 17)]):
            return f"only packets of protocol 6 and 17 have `{ports[0]}`"
        if ports and self.fields.get("part") == [(1, 1)]:
            return f"a fragment has no `{ports[0]}`"
        return ""

    def covers(self, other: Matches) -> bool:
        """Whether every packet of the other is one of these."""
        if self.has_encap and not other.has_encap or self.has_room and not other.has_room or self.has_ip and not other.has_ip:
            return False
        return all(field in other.fields and is_within(other.fields[field], ranges) for field, ranges in self.fields.items())


# Rules of a layer

@dataclass(frozen=True)
class Placed:
    """A rule in its layer: the turn in which its group picks it, and what it matches there."""

    path: str
    group: dict[str, Any]
    rule: dict[str, Any]
    turn: tuple[int, int]
    matches: Matches

    def name(self) -> str:
        return f"rule {self.rule['rule']} of group {self.group['group']}"


def placed_rules(layer: dict[str, Any], path: str) -> list[Placed]:
    """All rules, group by group, each group's in the order in which it picks."""
    found = []
    for place, group in enumerate(layer["groups"]):
        rules = [Placed(f"{path}/groups/{place}/rules/{at}", group, rule, (rule["priority"], at), Matches.of(group, rule))
                 for at, rule in enumerate(group["rules"])]
        found += sorted(rules, key=lambda one: one.turn)
    return found


def is_last_pick(one: Placed, rules: list[Placed]) -> bool:
    """Whether for all that a rule matches its group's pick is marked `last`."""
    return one.rule["last"] and all(other.rule["last"] for other in rules if other.group is one.group and other.turn < one.turn)


def why_shadowed(one: Placed, place: int, rules: list[Placed]) -> str:
    """Why a rule is never chosen; empty where it may be. Groups of another direction have nothing to do with it."""
    never = one.matches.why_never()
    if never:
        return f"never matches: {never}"
    for at, other in enumerate(rules):
        if at == place or other.group["dir"] != one.group["dir"] or not other.matches.covers(one.matches):
            continue
        if other.group is one.group and at < place:
            return f"is shadowed by rule {other.rule['rule']} of its group, which matches all that it does and comes first"
        if other.group is not one.group and at > place and not one.rule["last"]:
            return f"is shadowed by {other.name()}, a later group, which picks for all that it matches"
        if other.group is not one.group and at < place and is_last_pick(other, rules):
            return f"is shadowed by {other.name()}, whose group chooses at once (`last`) for all that it matches"
    return ""


def shadowed(layer: dict[str, Any], path: str) -> Iterator[tuple[Placed, str]]:
    rules = placed_rules(layer, path)
    for place, one in enumerate(rules):
        why = why_shadowed(one, place, rules)
        if why:
            yield one, why


# A policy

def layer_remarks(layer: dict[str, Any], path: str, where: str) -> Iterator[Remark]:
    for place, group in enumerate(layer["groups"]):
        here = f"{path}/groups/{place}"
        never = Matches.of(group, None).why_never()
        if never:
            yield Remark(here, f"group {group['group']} of {where} never applies: {never}")
        elif not group["rules"]:
            yield Remark(here, f"group {group['group']} of {where} has no rules: it has no pick until a command puts some")
    for one, why in shadowed(layer, path):
        yield Remark(one.path, f"{one.name()} of {where} {why}")
    for one in placed_rules(layer, path):
        if one.rule["stateful"] and layer["pairs"] == 0:
            yield Remark(one.path, f"{one.name()} of {where} is stateful, and the layer's `pairs` is 0: it drops all that it is chosen for (full)")


def remarks(policy: dict[str, Any]) -> list[Remark]:
    """All remarks, in the order of the file."""
    found = []
    for at, port in enumerate(policy["ports"]):
        if not port["layers"]:
            found.append(Remark(f"/ports/{at}", f"port {port['port']} has no layers: it passes all"))
        for place, layer in enumerate(port["layers"]):
            where = f"layer {layer['layer']} of controller {layer['controller']}, port {port['port']},"
            found += layer_remarks(layer, f"/ports/{at}/layers/{place}", where)
    return found
