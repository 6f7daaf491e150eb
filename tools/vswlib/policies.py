"""Policies and commands files: read, and judged by the first fault in the order of docs/FORMATS.md, with line and column."""
from __future__ import annotations

import re
from typing import Any, Callable, Optional

from .ending import LIMIT, Ending, Refused, read_bytes
from .jsontext import BadJson, Document, NotWhole, line_and_column

MOST_POLICY, MOST_COMMANDS, MOST_LINES = 4_194_304, 16_777_216, 65_536
MOST_CONTROLLERS, MOST_PORTS, MOST_LAYERS, MOST_GROUPS, MOST_RULES, MOST_CONDITIONS, MOST_ITEMS = 8, 16, 16, 32, 1_024, 16, 64
U16, U32, U64 = (1 << 16) - 1, (1 << 32) - 1, (1 << 64) - 1

MAC = re.compile(r"[0-9a-fA-F]{2}(:[0-9a-fA-F]{2}){5}")
BYTE = r"(?:25[0-5]|2[0-4][0-9]|1[0-9]{2}|[1-9]?[0-9])"
IP = re.compile(rf"{BYTE}(?:\.{BYTE}){{3}}")
PREFIX = re.compile(rf"{IP.pattern}(?:/(?:3[0-2]|[12]?[0-9]))?")
IP6_LETTERS = re.compile(r"[0-9a-fA-F:]+")
BITS6 = re.compile(r"12[0-8]|1[01][0-9]|[1-9]?[0-9]")

# The greatest value of each field that is a number.
NUMBERS = {"kind": U16, "proto": 255, "part": 1, "src_port": U16, "dst_port": U16, "vni": (1 << 24) - 1}
MACS = ("dst_mac", "src_mac", "outer_dst_mac", "outer_src_mac")
IPS = ("src_ip", "dst_ip", "outer_src_ip", "outer_dst_ip")
IP6S = ("src_ip6", "dst_ip6")
SETS = ("dst_mac", "src_mac", "src_ip", "dst_ip", "src_port", "dst_port")
LAYER = ("controller", "layer", "order", "default_out", "default_in", "pairs", "idle", "linger", "groups")
RULE = ("rule", "priority", "when", "action", "stateful", "last")
ENCAP = ("dst_mac", "src_mac", "src_ip", "dst_ip", "vni")
FRONT = ("at", "when", "controller", "port", "do")
VERBS = {
    "add_layer": ("layer", "order", "default_out", "default_in", "pairs", "idle", "linger"),
    "remove_layer": ("layer",),
    "add_group": ("layer", "group", "dir", "when_all"),
    "remove_group": ("layer", "group"),
    "put_rules": ("layer", "group", "rules"),
    "put_many": ("parts",),
    "add_rule": ("layer", "group", "rule"),
    "remove_rule": ("layer", "group", "rule"),
    "set_default": ("layer", "dir", "default"),
    "sweep": ("layer", "now"),
}


class Fault(Exception):
    """The first fault of a file: its kind and path as the program tells them, and in words."""

    def __init__(self, kind: str, path: str, why: str, name: Optional[str] = None) -> None:
        super().__init__(why)
        self.kind, self.path, self.why = kind, path, why
        self.name = name  # the path of a member's name, where that is at fault


def is_ip6(text: str) -> bool:
    """Eight groups of one to four digits, where `::` may stand once for one zero group or more."""
    front, double, back = text.partition("::")
    groups = [part.split(":") if part else [] for part in (front, back)]
    if not IP6_LETTERS.fullmatch(text) or "::" in back or not double and len(groups[0]) != 8:
        return False
    count = len(groups[0]) + len(groups[1])
    return all(1 <= len(group) <= 4 for part in groups for group in part) and (count == 8 if not double else count <= 7)


def is_prefix6(text: str) -> bool:
    address, slash, bits = text.partition("/")
    return is_ip6(address) and (not slash or BITS6.fullmatch(bits) is not None)


def is_mac(text: str) -> bool:
    return MAC.fullmatch(text) is not None


def is_ip(text: str) -> bool:
    return IP.fullmatch(text) is not None


def is_prefix(text: str) -> bool:
    return PREFIX.fullmatch(text) is not None


def shape(path: str, why: str) -> Fault:
    return Fault("Shape", path, why)


def told(value: Any) -> str:
    """A value, in a few letters."""
    if isinstance(value, (dict, list)):
        return "an object" if isinstance(value, dict) else "a list"
    if isinstance(value, NotWhole):
        return str(value)
    return {True: "true", False: "false", None: "null"}[value] if value is None or isinstance(value, bool) else repr(value)[:40]


# Values

def read_number(value: Any, path: str, low: int = 0, high: int = U16) -> int:
    if isinstance(value, bool) or not isinstance(value, int) or not low <= value <= high:
        raise shape(path, f"a whole number from {low} to {high} is wanted, and not {told(value)}")
    return value


def read_bool(value: Any, path: str) -> bool:
    if not isinstance(value, bool):
        raise shape(path, f"true or false is wanted, and not {told(value)}")
    return value


def read_word(value: Any, path: str, words: tuple[str, ...]) -> str:
    if not isinstance(value, str) or isinstance(value, NotWhole) or value not in words:
        raise shape(path, f"{' or '.join(repr(word) for word in words)} is wanted, and not {told(value)}")
    return value


def read_text(value: Any, path: str, is_such: Callable[[str], bool], what: str) -> str:
    if not isinstance(value, str) or isinstance(value, NotWhole) or not is_such(value):
        raise shape(path, f"{what} is wanted, and not {told(value)}")
    return value


def read_mac(value: Any, path: str) -> str:
    return read_text(value, path, is_mac, "a MAC address as 02:00:00:00:00:01")


def read_ip(value: Any, path: str) -> str:
    return read_text(value, path, is_ip, "an IPv4 address")


def read_ip6(value: Any, path: str) -> str:
    return read_text(value, path, is_ip6, "an IPv6 address")


def read_object(value: Any, path: str, names: tuple[str, ...]) -> dict[str, Any]:
    """An object all of whose names are known. That its members are there is told as each is read."""
    if not isinstance(value, dict):
        raise shape(path, f"an object is wanted, and not {told(value)}")
    for name in value:
        if name not in names:
            raise Fault("Shape", path, f"an unknown member {name!r}; known are {', '.join(names)}", f"{path}/{name}")
    return value


def member(value: dict[str, Any], path: str, name: str) -> Any:
    if name not in value:
        raise shape(path, f"no member {name!r}")
    return value[name]


def read_list(value: Any, path: str, most: Optional[int] = None) -> list[Any]:
    if not isinstance(value, list):
        raise shape(path, f"a list is wanted, and not {told(value)}")
    if most is not None and len(value) > most:
        raise Fault("Many", path, f"{len(value)} items, and at most {most} may be there")
    return value


# Conditions, actions, rules

class Rules:
    """Reads rules in a version of the format."""

    def __init__(self, version: int) -> None:
        is_second = version == 2
        self.fields = (*NUMBERS, *MACS, *IPS, *(IP6S if is_second else ()))
        self.sets = (*SETS, *(IP6S if is_second else ()))

    def conditions(self, value: Any, path: str) -> None:
        for place, item in enumerate(read_list(value, path, MOST_CONDITIONS)):
            self.condition(item, f"{path}/{place}")

    def condition(self, value: Any, path: str) -> None:
        read_object(value, path, ("field", "any"))
        field = read_word(member(value, path, "field"), f"{path}/field", self.fields)
        for place, item in enumerate(read_list(member(value, path, "any"), f"{path}/any", MOST_ITEMS)):
            self.item(field, item, f"{path}/any/{place}")

    def item(self, field: str, value: Any, path: str) -> None:
        if field in IP6S:
            read_text(value, path, is_prefix6, "an IPv6 address or prefix")
        elif isinstance(value, list):
            if len(value) != 2:
                raise shape(path, f"a range has two values, and not {len(value)}")
            for place, end in enumerate(value):
                self.end(field, end, f"{path}/{place}")
        elif field in IPS:
            read_text(value, path, is_prefix, "an IPv4 address or prefix")
        else:
            self.end(field, value, path)

    def end(self, field: str, value: Any, path: str) -> None:
        if field in NUMBERS:
            read_number(value, path, 0, U64)
        elif field in MACS:
            read_mac(value, path)
        else:
            read_ip(value, path)

    def action(self, value: Any, path: str) -> None:
        if isinstance(value, dict):
            read_object(value, path, ("decap", "set", "encap"))
            read_bool(member(value, path, "decap"), f"{path}/decap")
            self.written(member(value, path, "set"), f"{path}/set")
            encap = member(value, path, "encap")
            if encap is not None:
                self.encap(encap, f"{path}/encap")
        else:
            read_word(value, path, ("allow", "drop"))

    def written(self, value: Any, path: str) -> None:
        read_object(value, path, self.sets)
        for name in self.sets:
            if name in value:
                self.address_or_port(name, value[name], f"{path}/{name}")

    def encap(self, value: Any, path: str) -> None:
        read_object(value, path, ENCAP)
        for name in ENCAP:
            self.address_or_port(name, member(value, path, name), f"{path}/{name}")

    def address_or_port(self, name: str, value: Any, path: str) -> None:
        if name in NUMBERS:
            read_number(value, path, 0, NUMBERS[name])
        else:
            (read_mac if name in MACS else read_ip if name in IPS else read_ip6)(value, path)

    def rule(self, value: Any, path: str, taken: Optional[set[int]]) -> None:
        """A rule whose number isn't among those that are `taken`, where these count."""
        read_object(value, path, RULE)
        read_once(member(value, path, "rule"), f"{path}/rule", taken, "a rule of this group has the number already")
        read_number(member(value, path, "priority"), f"{path}/priority")
        self.conditions(member(value, path, "when"), f"{path}/when")
        self.action(member(value, path, "action"), f"{path}/action")
        read_bool(member(value, path, "stateful"), f"{path}/stateful")
        read_bool(member(value, path, "last"), f"{path}/last")
        why = bad_rule(value)
        if why:
            raise Fault("BadRule", path, why)

    def rules(self, value: Any, path: str, most: Optional[int], are_once: bool) -> None:
        taken: Optional[set[int]] = set() if are_once else None
        for place, item in enumerate(read_list(value, path, most)):
            self.rule(item, f"{path}/{place}", taken)


def read_once(value: Any, path: str, taken: Optional[set[int]], why: str) -> int:
    number = read_number(value, path)
    if taken is not None and number in taken:
        raise Fault("Twice", path, f"{why}: {number}")
    if taken is not None:
        taken.add(number)
    return number


def bad_rule(rule: dict[str, Any]) -> str:
    """Why a rule may not be so (docs/MODEL.md, what a rule may not be); empty where it may."""
    action = rule["action"]
    if rule["stateful"] and (action == "drop" or isinstance(action, dict) and (action["decap"] or action["encap"])):
        return "a stateful rule may not drop, decap or encap"
    if isinstance(action, dict) and not action["decap"] and not action["set"] and action["encap"] is None:
        return "its action has no part: neither decap nor set nor encap"
    for condition in rule["when"]:
        for item in condition["any"]:
            why = bad_range(condition["field"], item)
            if why:
                return why
    return ""


def bad_range(field: str, item: Any) -> str:
    if field in IP6S or field in IPS and isinstance(item, str):
        return ""
    low, high = item if isinstance(item, list) else (item, item)
    if field in NUMBERS and max(low, high) > NUMBERS[field]:
        return f"{max(low, high)} is above what `{field}` can have, {NUMBERS[field]}"
    if end_value(field, low) > end_value(field, high):
        return f"a range of `{field}` from {low} down to {high}"
    return ""


def end_value(field: str, value: Any) -> int:
    if field in NUMBERS:
        return int(value)
    if field in MACS:
        return int(value.replace(":", ""), 16)
    return int.from_bytes(bytes(map(int, value.split("."))), "big")


# The policy

def judge_policy(value: Any) -> None:
    """Raises the first fault of a policy."""
    read_object(value, "", ("version", "controllers", "ports"))
    version = read_number(member(value, "", "version"), "/version", 1, 2)
    controllers: set[int] = set()
    for place, item in enumerate(read_limited(member(value, "", "controllers"), "/controllers", MOST_CONTROLLERS)):
        read_once(item, f"/controllers/{place}", controllers, "the controller stands in the list already")
    ports: set[int] = set()
    macs: set[str] = set()
    for place, item in enumerate(read_limited(member(value, "", "ports"), "/ports", MOST_PORTS)):
        judge_port(Rules(version), controllers, ports, macs, item, f"/ports/{place}")


def read_limited(value: Any, path: str, most: int) -> list[Any]:
    items = read_list(value, path)
    if len(items) > most:
        raise Ending(LIMIT, f"limit {path[1:]}: {len(items)}, and at most {most} may be there")
    return items


def judge_port(rules: Rules, controllers: set[int], ports: set[int], macs: set[str], value: Any, path: str) -> None:
    read_object(value, path, ("port", "mac", "rows", "layers"))
    read_once(member(value, path, "port"), f"{path}/port", ports, "another port has the number")
    mac = read_mac(member(value, path, "mac"), f"{path}/mac").lower()
    if mac in macs:
        raise Fault("Twice", f"{path}/mac", f"another port has the address {mac}")
    macs.add(mac)
    read_number(member(value, path, "rows"), f"{path}/rows", 8, 16_384)
    layers: dict[int, set[int]] = {}
    for place, item in enumerate(read_list(member(value, path, "layers"), f"{path}/layers")):
        judge_layer(rules, controllers, layers, item, f"{path}/layers/{place}")


def judge_layer(rules: Rules, controllers: set[int], layers: dict[int, set[int]], value: Any, path: str) -> None:
    read_object(value, path, LAYER)
    own = layers.setdefault(read_known(member(value, path, "controller"), f"{path}/controller", controllers, "controller"), set())
    if len(own) == MOST_LAYERS:
        raise Fault("Many", path, f"the controller has {MOST_LAYERS} layers on this port already")
    read_once(member(value, path, "layer"), f"{path}/layer", own, "another layer of this controller and port has the number")
    judge_settings(value, path)
    groups: set[int] = set()
    for place, item in enumerate(read_list(member(value, path, "groups"), f"{path}/groups", MOST_GROUPS)):
        judge_group(rules, groups, item, f"{path}/groups/{place}")


def read_known(value: Any, path: str, known: set[int], what: str) -> int:
    number = read_number(value, path)
    if number not in known:
        raise Fault("Unknown", path, f"the policy has no {what} {number}")
    return number


def judge_settings(value: dict[str, Any], path: str) -> None:
    """What a layer and the command that adds one have alike."""
    read_number(member(value, path, "order"), f"{path}/order")
    for name in ("default_out", "default_in"):
        read_word(member(value, path, name), f"{path}/{name}", ("allow", "drop"))
    read_number(member(value, path, "pairs"), f"{path}/pairs", 0, 65_536)
    for name in ("idle", "linger"):
        read_number(member(value, path, name), f"{path}/{name}", 1, 86_400)


def judge_group(rules: Rules, groups: set[int], value: Any, path: str) -> None:
    read_object(value, path, ("group", "dir", "when", "rules"))
    read_once(member(value, path, "group"), f"{path}/group", groups, "another group of the layer has the number")
    read_word(member(value, path, "dir"), f"{path}/dir", ("out", "in"))
    rules.conditions(member(value, path, "when"), f"{path}/when")
    rules.rules(member(value, path, "rules"), f"{path}/rules", MOST_RULES, True)


# Commands

def judge_command(policy: dict[str, Any], value: Any) -> None:
    """Raises the first fault of a line of the commands file beside a good policy."""
    if not isinstance(value, dict):
        raise shape("", f"an object is wanted, and not {told(value)}")
    version, ports = policy["version"], {port["port"] for port in policy["ports"]}
    read_number(member(value, "", "at"), "/at", 0, U32)
    read_word(member(value, "", "when"), "/when", ("before", "during"))
    read_known(member(value, "", "controller"), "/controller", set(policy["controllers"]), "controller")
    read_known(member(value, "", "port"), "/port", ports, "port")
    verbs = tuple(verb for verb in VERBS if version == 2 or verb != "put_many")
    verb = read_word(member(value, "", "do"), "/do", verbs)
    read_object(value, "", (*FRONT, *VERBS[verb]))
    judge_rest(Rules(version), verb, value)


def judge_rest(rules: Rules, verb: str, value: dict[str, Any]) -> None:
    for name in VERBS[verb]:
        item, path = member(value, "", name), f"/{name}"
        if name == "dir":
            read_word(item, path, ("out", "in"))
        elif name == "default":
            read_word(item, path, ("allow", "drop"))
        elif name == "when_all":
            rules.conditions(item, path)
        elif name == "rules":
            rules.rules(item, path, None, False)
        elif name == "parts":
            judge_parts(rules, item, path)
        elif name == "now":
            read_number(item, path, 0, U64)
        elif name == "rule" and verb == "add_rule":
            rules.rule(item, path, None)
        elif name == "order":
            judge_settings(value, "")
        elif name in ("layer", "group", "rule"):
            read_number(item, path)


def judge_parts(rules: Rules, value: Any, path: str) -> None:
    for place, item in enumerate(read_list(value, path)):
        here = f"{path}/{place}"
        read_object(item, here, ("layer", "group", "rules"))
        read_number(member(item, here, "layer"), f"{here}/layer")
        read_number(member(item, here, "group"), f"{here}/group")
        rules.rules(member(item, here, "rules"), f"{here}/rules", None, False)


# Files

class PolicyFile:
    """A good policy, with the place of each of its values."""

    def __init__(self, name: str, document: Document) -> None:
        self.name = name
        self.document = document
        self.value: dict[str, Any] = document.value

    def place(self, path: str) -> str:
        """Where the value of a path stands: `policy.json:3:14`."""
        line, column = line_and_column(self.document.text, self.document.place(path))
        return f"{self.name}:{line}:{column}"


def decode(name: str, data: bytes, first_line: int = 1) -> str:
    try:
        return data.decode("utf-8")
    except UnicodeDecodeError as why:
        line, column = data.count(b"\n", 0, why.start), why.start - data.rfind(b"\n", 0, why.start)
        raise Refused(f"{name}:{first_line + line}:{column}: Json /: the bytes aren't UTF-8") from why


def refusal(name: str, document: Document, fault: Fault, first_line: int = 1) -> Refused:
    at = document.names.get(fault.name or "", document.place(fault.path))
    line, column = line_and_column(document.text, at)
    return Refused(f"{name}:{first_line + line - 1}:{column}: {fault.kind} {fault.path or '/'}: {fault.why}")


def read_document(name: str, text: str, first_line: int = 1) -> Document:
    try:
        return Document(text)
    except BadJson as why:
        line, column = line_and_column(text, why.at)
        raise Refused(f"{name}:{first_line + line - 1}:{column}: Json /: {why.why}") from why


def read_policy(name: str) -> PolicyFile:
    data = read_bytes(name)
    if len(data) > MOST_POLICY:
        raise Ending(LIMIT, f"{name}: limit policy: {len(data)} bytes, and at most {MOST_POLICY} may be there")
    document = read_document(name, decode(name, data))
    try:
        judge_policy(document.value)
    except Fault as fault:
        raise refusal(name, document, fault) from fault
    except Ending as limit:
        raise Ending(limit.status, f"{name}: {limit.words}") from limit
    return PolicyFile(name, document)


def read_commands(name: Optional[str], policy: PolicyFile) -> list[dict[str, Any]]:
    """The commands of a file in its order, each with the number of its `line`; none where no file is named."""
    data = read_bytes(name) if name else b""
    lines = data.split(b"\n")[:None if not data or data[-1:] != b"\n" else -1]
    if len(data) > MOST_COMMANDS:
        raise Ending(LIMIT, f"{name}: limit commands: {len(data)} bytes, and at most {MOST_COMMANDS} may be there")
    if len(lines) > MOST_LINES:
        raise Ending(LIMIT, f"{name}: limit lines: {len(lines)}, and at most {MOST_LINES} may be there")
    return [read_command(str(name), number, line, policy) for number, line in enumerate(lines, 1) if line.strip(b" \t\r")]


def read_command(name: str, number: int, line: bytes, policy: PolicyFile) -> dict[str, Any]:
    document = read_document(name, decode(name, line, number), number)
    try:
        judge_command(policy.value, document.value)
    except Fault as fault:
        raise refusal(name, document, fault, number) from fault
    return {**document.value, "line": number}
