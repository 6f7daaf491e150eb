"""The switch's rules once more, in plain Python, to check what the examples expect.

Written from docs/MODEL.md and docs/FORMATS.md alone, apart from the switch's code and definitions. It takes good policies
of both versions, good commands and traces, and computes right checksums anew where the switch updates them.
"""
import ipaddress
import json
import struct

from packets import IPV4, IPV6, VXLAN_PORT, mac_bytes, ones_sum, pseudo, read_capture

ROUND = 1_024
LONGEST = 65_600
SET_FIELDS = ["dst_mac", "src_mac", "src_ip", "dst_ip", "src_port", "dst_port", "src_ip6", "dst_ip6"]
MIRROR = {"src_ip": "dst_ip", "dst_ip": "src_ip", "src_port": "dst_port", "dst_port": "src_port",
          "src_mac": "dst_mac", "dst_mac": "src_mac", "src_ip6": "dst_ip6", "dst_ip6": "src_ip6"}
FAULTS = ["ShortEther", "ShortIp", "IpVersion", "IpLength", "ShortTcp", "TcpOffset", "ShortUdp", "UdpLength", "TooLong", "ShortIp6",
          "Ip6Version", "Ip6Length"]


class Malformed(Exception):
    """The first fault of bytes that are no frame."""


def expect(is_well, fault):
    if not is_well:
        raise Malformed(f"{FAULTS.index(fault) + 1} {fault}")


def mac(text):
    return int.from_bytes(mac_bytes(text), "big")


def payload_ends(data):
    """Where the IP payload of a frame begins and ends."""
    if data[12:14] == IPV4.to_bytes(2, "big"):
        return 14 + (data[14] & 15) * 4, 14 + struct.unpack(">H", data[16:18])[0]
    return 54, 54 + struct.unpack(">H", data[18:20])[0]


def ipv4_fields(data):
    expect(len(data) >= 34, "ShortIp")
    expect(data[14] >> 4 == 4, "IpVersion")
    start, end = payload_ends(data)
    expect(34 <= start <= end <= len(data), "IpLength")
    part = int(struct.unpack(">H", data[20:22])[0] & 0x3FFF != 0)
    return {"proto": data[23], "part": part, "src_ip": int.from_bytes(data[26:30], "big"), "dst_ip": int.from_bytes(data[30:34], "big")}


def ipv6_fields(data):
    expect(len(data) >= 54, "ShortIp6")
    expect(data[14] >> 4 == 6, "Ip6Version")
    expect(payload_ends(data)[1] <= len(data), "Ip6Length")
    return {"proto": data[20], "src_ip6": int.from_bytes(data[22:38], "big"), "dst_ip6": int.from_bytes(data[38:54], "big")}


def tcp_control(flags):
    syn = ("SynAck" if flags & 0x10 else "Syn") if flags & 0x02 else None
    return "Rst" if flags & 0x04 else "Fin" if flags & 0x01 else syn


class Packet:
    """A frame as its encapsulations, outermost first, and the fields of its innermost headers. Malformed where it is none."""

    def __init__(self, data):
        expect(len(data) <= LONGEST, "TooLong")
        self.encaps, self.control, self.sizes, self.whole, self.starts = [], None, [], data, [0]
        while True:
            self.sizes.append(len(data))
            fields, rest = self.headers(data)
            is_vxlan = len(self.encaps) < 2 and "src_ip" in fields and fields["proto"] == 17 and fields.get("dst_port") == VXLAN_PORT
            if not (is_vxlan and len(rest) >= 8 and rest[0] & 8):
                break
            self.encaps.append({**fields, "vni": int.from_bytes(rest[4:7], "big")})
            self.starts.append(self.starts[-1] + 14 + (data[14] & 15) * 4 + 16)
            data = rest[8:]
        self.fields, self.data, self.kept, self.pushed = fields, data, len(self.encaps), []

    def headers(self, data):
        """The fields of an Ethernet frame, with IP and ports where it has them, and its UDP payload. A fragment has no ports."""
        expect(len(data) >= 14, "ShortEther")
        fields = {"dst_mac": int.from_bytes(data[:6], "big"), "src_mac": int.from_bytes(data[6:12], "big")}
        fields["kind"] = struct.unpack(">H", data[12:14])[0]
        if fields["kind"] not in (IPV4, IPV6):
            return fields, b""
        fields.update(ipv4_fields(data) if fields["kind"] == IPV4 else ipv6_fields(data))
        start, end = payload_ends(data)
        if fields.get("part") or fields["proto"] not in (6, 17):
            return fields, b""
        payload, rest = data[start:end], b""
        if fields["proto"] == 6:
            expect(len(payload) >= 20, "ShortTcp")
            expect(20 <= (payload[12] >> 4) * 4 <= len(payload), "TcpOffset")
            self.control = tcp_control(payload[13])
        else:
            expect(len(payload) >= 8, "ShortUdp")
            length = struct.unpack(">H", payload[4:6])[0]
            expect(8 <= length <= len(payload), "UdpLength")
            rest = payload[8:length]
        fields["src_port"], fields["dst_port"] = struct.unpack(">HH", payload[:4])
        return fields, rest

    def stack(self):
        """The encapsulations and innermost fields as the layers see them."""
        return self.pushed + self.encaps[len(self.encaps) - self.kept:], self.fields


# Conditions, rules, choice

def holds(condition, encaps, fields):
    field = condition["field"]
    if field == "vni" or field.startswith("outer_"):
        value = encaps[0].get(field.removeprefix("outer_")) if encaps else None
    else:
        value = fields.get(field)
    return value is not None and any(lies(item, field, value) for item in condition["any"])


def address_of(field):
    """The class of the addresses of a field, None where it has none."""
    return ipaddress.IPv4Address if field.endswith("_ip") else ipaddress.IPv6Address if field.endswith("_ip6") else None


def number(field, value):
    if address_of(field):
        return int(address_of(field)(value))
    return mac(value) if field.endswith("_mac") else value


def lies(item, field, value):
    if isinstance(item, list):
        return number(field, item[0]) <= value <= number(field, item[1])
    if address_of(field):
        return address_of(field)(value) in ipaddress.ip_network(item, strict=False)
    return number(field, item) == value


def matches(rule, encaps, fields):
    edit = rule["action"] if isinstance(rule["action"], dict) else {"decap": False, "encap": None}
    if edit["decap"] and not encaps or edit["encap"] and not edit["decap"] and len(encaps) == 2:
        return False
    if rule["stateful"] and "proto" not in fields:
        return False
    return all(holds(condition, encaps, fields) for condition in rule["when"])


def choose(layer, way, encaps, fields):
    """The chosen (group, rule), or None."""
    chosen = None
    for group in layer["groups"]:
        if group["dir"] != way or not all(holds(condition, encaps, fields) for condition in group["when"]):
            continue
        fit = [rule for rule in group["rules"] if matches(rule, encaps, fields)]
        if fit:
            pick = min(fit, key=lambda rule: rule["priority"])
            chosen = group, pick
            if pick["last"]:
                break
    return chosen


# Pairs

def key(encaps, fields):
    """What a layer knows of a packet. An IPv4 address is no IPv6 address of the same number, and none is neither."""
    ends = [[(kind, fields[end + kind]) for kind in ("_ip", "_ip6") if end + kind in fields] for end in ("src", "dst")]
    return (tuple(encap["vni"] for encap in encaps), *ends, fields.get("proto", 0),
            fields.get("part", 0), fields.get("src_port", 0), fields.get("dst_port", 0))


def mirror(key):
    vnis, src, dst, proto, part, src_port, dst_port = key
    return vnis, dst, src, proto, part, dst_port, src_port


def opened(fields, control, way):
    """The state of a new pair."""
    if fields.get("proto") != 6 or "src_port" not in fields:
        return "Plain"
    return {"Rst": "Closed", "Fin": ("Half", way), "SynAck": "Open", "Syn": "Opening", None: "Open"}[control]


def moved(state, control, way, pair_way):
    """The state after a packet, None where it re-opens the pair."""
    if state == "Plain":
        return state
    if state == "Closed":
        return None if control == "Syn" else state
    if control == "Rst":
        return "Closed"
    if control == "Fin":
        return state if state == ("Half", way) else "Closed" if isinstance(state, tuple) else ("Half", way)
    if state == "Opening" and control == "SynAck" and way != pair_way:
        return "Open"
    return state


def found(layer, way, wanted):
    for pair in layer["held"]:
        if (way, wanted) in ((pair["way"], pair["forward"]), (other(pair["way"]), pair["reverse"])):
            return pair
    return None


def other(way):
    return {"out": "in", "in": "out"}[way]


def life(layer, state):
    return layer["linger" if state == "Closed" else "idle"] * 1_000_000


# Edits

def written(values, fields):
    return {name: value for name, value in values.items() if name in fields}


def edit(packet, action):
    """Does a rule's action to the packet."""
    if action["decap"]:
        if packet.pushed:
            packet.pushed = packet.pushed[1:]
        else:
            packet.kept -= 1
    values = {name: number(name, text) for name, text in action["set"].items()}
    packet.fields = {**packet.fields, **written(values, packet.fields)}
    if action["encap"]:
        encap = action["encap"]
        packet.pushed = [{name: number(name, value) for name, value in encap.items()}] + packet.pushed


NOTHING = {"decap": False, "set": {}, "encap": None}


def flow_sum(fields):
    total = fields["kind"] + fields.get("proto", 0) + fields.get("src_port", 0) + fields.get("dst_port", 0)
    for name, words in (("dst_mac", 3), ("src_mac", 3), ("src_ip", 2), ("dst_ip", 2), ("src_ip6", 8), ("dst_ip6", 8)):
        total += sum(fields.get(name, 0) >> 16 * place & 0xFFFF for place in range(words))
    return total


def behind_kept(packet, data):
    """The innermost frame within the encapsulations that are kept. Their UDP checksums go where it was edited."""
    first = len(packet.encaps) - packet.kept
    start, end = packet.starts[first], packet.starts[first] + packet.sizes[first]
    whole, inner = bytearray(packet.whole), packet.starts[-1]
    whole[inner:inner + len(data)] = data
    if packet.fields != Packet(packet.data).fields:
        for at in packet.starts[first + 1:]:
            whole[at - 10:at - 8] = b"\0\0"
    return bytes(whole[start:end])


def words(data):
    return struct.unpack(f">{len(data) // 2}H", data)


def renewed(value, other, was, becomes, is_udp=False):
    """A checksum over `was` and `other` that is to be over `becomes` and `other`: worked out anew where it was right, else updated for the
    words that differ (RFC 1624, equation 3)."""
    if was == becomes:
        return value
    zero = 0xFFFF if is_udp else 0
    if value == (ones_sum(was + other) or zero):
        return ones_sum(becomes + other) or zero
    total = value ^ 0xFFFF
    for old, new in zip(words(was), words(becomes)):
        total += (old ^ 0xFFFF) + new if old != new else 0
    while total >> 16:
        total = (total & 0xFFFF) + (total >> 16)
    return total ^ 0xFFFF or zero


def renew(data, at, other, was, becomes, is_udp=False):
    value = int.from_bytes(data[at:at + 2], "big")
    data[at:at + 2] = renewed(value, other, was, becomes, is_udp).to_bytes(2, "big")


def write_ip(data, fields):
    """Writes the addresses and ports of a frame, and its checksums."""
    size, kind, at = (4, "_ip", 26) if "src_ip" in fields else (16, "_ip6", 22)
    was, becomes = bytes(data[at:at + 2 * size]), b"".join(fields[end + kind].to_bytes(size, "big") for end in ("src", "dst"))
    data[at:at + 2 * size] = becomes
    start, end = payload_ends(data)
    if size == 4:
        renew(data, 24, bytes(data[14:24] + data[34:start]), was, becomes)
    if "src_port" not in fields:
        return
    proto = fields["proto"]
    was += bytes(data[start:start + 4])
    data[start:start + 4] = struct.pack(">HH", fields["src_port"], fields["dst_port"])
    becomes += bytes(data[start:start + 4])
    at = start + (16 if proto == 6 else 6)
    if proto == 17:
        end = start + struct.unpack(">H", data[start + 4:start + 6])[0]
    if proto == 6 or data[at:at + 2] != b"\0\0":
        front = pseudo(was[:size], was[size:2 * size], proto, end - start)[2 * size:]
        renew(data, at, front + bytes(data[start + 4:at] + data[at + 2:end]), was, becomes, proto == 17)


def sent(packet):
    """The outgoing bytes."""
    fields, data = packet.fields, bytearray(packet.data)
    data[:12] = fields["dst_mac"].to_bytes(6, "big") + fields["src_mac"].to_bytes(6, "big")
    if "proto" in fields:
        write_ip(data, fields)
    data = behind_kept(packet, bytes(data))
    for encap in reversed(packet.pushed):
        inner = len(data)
        port = 49_152 + flow_sum(fields) % 16_384
        front = struct.pack(">BBHHHBB", 0x45, 0, inner + 36, 0, 0x4000, 64, 17)
        ends = encap["src_ip"].to_bytes(4, "big") + encap["dst_ip"].to_bytes(4, "big")
        data = (encap["dst_mac"].to_bytes(6, "big") + encap["src_mac"].to_bytes(6, "big") + b"\x08\0" + front
                + struct.pack(">H", ones_sum(front + b"\0\0" + ends)) + ends
                + struct.pack(">4H", port, VXLAN_PORT, inner + 16, 0) + struct.pack(">II", 0x0800_0000, encap["vni"] << 8) + data)
    return data


# A packet, a run

def visit(layer, way, packet, moment):
    """What one layer makes of a packet: its drop, or None and what it wants as a list of functions that do it."""
    encaps, fields = packet.stack()
    now = key(encaps, fields)
    pair, wants, leaving = found(layer, way, now), [], None
    if pair is not None:
        state = moved(pair["state"], packet.control, way, pair["way"])
        if state is not None:
            is_late = moment > pair["last"] + life(layer, state) // 4
            if state != pair["state"] or is_late:
                wants.append((layer, None, pair, {"state": state, **({"last": moment} if is_late else {})}))
            values = pair["set"] if way == pair["way"] else pair["back"]
            packet.fields = {**fields, **written(values, fields)}
            return None, wants
        leaving = pair
    chosen = choose(layer, way, encaps, fields)
    name = f"{layer['controller']}/{layer['layer']}"
    if chosen is None:
        if layer["default_" + way] == "drop":
            return f"drop default {name} {way}", []
    else:
        group, rule = chosen
        if rule["action"] == "drop":
            return f"drop rule {name}/{group['group']}/{rule['rule']}", []
        edit(packet, rule["action"] if isinstance(rule["action"], dict) else NOTHING)
        if rule["stateful"]:
            values = {field: packet.fields[field] for field in SET_FIELDS
                      if isinstance(rule["action"], dict) and field in rule["action"]["set"] and field in fields}
            back = {MIRROR[field]: fields[field] for field in values}
            new = {"group": group["group"], "rule": rule["rule"], "way": way, "forward": now, "set": values, "reverse": mirror(key(*packet.stack())), "back": back,
                   "state": opened(fields, packet.control, way), "last": moment}
            return None, [(layer, leaving, None, new)]
    return None, [(layer, leaving, None, None)] if leaving else []


def refusal(packet, way, wants):
    """Why a packet that passed its walk is dropped after all, or None."""
    length = packet.sizes[len(packet.encaps) - packet.kept]
    if packet.pushed and length + 36 + 50 * (len(packet.pushed) - 1) > 65_535:
        return "drop long"
    for layer, leaving, pair, new in wants:
        if pair is not None or new is None:
            continue
        stay = [held for held in layer["held"] if held is not leaving]
        name = f"{layer['controller']}/{layer['layer']}"
        if len(stay) >= layer["pairs"]:
            return f"drop full {name}"
        holder = found({**layer, "held": stay}, other(way), new["reverse"])
        if holder is not None:
            return f"drop taken {name} {holder['number']}"
    return None


def do(layer, leaving, pair, new):
    if leaving is not None:
        layer["held"].remove(leaving)
    if pair is not None:
        pair.update(new)
    elif new is not None:
        layer["held"].append({**new, "number": layer["next"]})
        layer["next"] += 1


def cross(port, way, packet, moment):
    """A packet's fate, and whether it changed its port."""
    wants = []
    for layer in port["layers"] if way == "out" else reversed(port["layers"]):
        drop, wanted = visit(layer, way, packet, moment)
        if drop is not None:
            return drop, False
        wants += wanted
    drop = refusal(packet, way, wants)
    if drop is not None:
        return drop, False
    for want in wants:
        do(*want)
    data = sent(packet)
    return f"pass {len(data)} {data.hex()}", bool(wants)


# Commands

MOST = {"layers": 16, "groups": 32, "rules": 1_024, "parts": 32}
REFUSALS = ["NoLayer", "LayerExists", "NoGroup", "GroupExists", "NoRule", "RuleExists", "ManyLayers", "ManyGroups", "ManyRules", "Memory",
            "ManyParts", "PartTwice"]


def plain_item(field, item):
    """An item of a condition, so that two are equal where they are one to the switch."""
    if address_of(field) and isinstance(item, str):
        front, _, bits = item.partition("/")
        return "prefix", number(field, front), int(bits or address_of(field)(0).max_prefixlen)
    low, high = item if isinstance(item, list) else (item, item)
    return "range", number(field, low), number(field, high)


def plain_action(action):
    if isinstance(action, str):
        return action
    values, encap = action["set"], action["encap"] or {}
    return (action["decap"], {name: number(name, value) for name, value in values.items()},
            {name: number(name, value) for name, value in encap.items()})


def plain_rule(rule):
    when = [(condition["field"], [plain_item(condition["field"], item) for item in condition["any"]]) for condition in rule["when"]]
    return rule["rule"], rule["priority"], when, plain_action(rule["action"]), rule["stateful"], rule["last"]


def named(things, name, wanted):
    return next((thing for thing in things if thing[name] == wanted), None)


def refused(port, command):
    """The first refusal that applies to a command, or None."""
    if command["do"] == "put_many":
        return refused_parts(port, command)
    do, own = command["do"], [layer for layer in port["layers"] if layer["controller"] == command["controller"]]
    layer = named(own, "layer", command["layer"])
    group = named(layer["groups"], "group", command["group"]) if layer and "group" in command else None
    rules = command["rules"] if do == "put_rules" else []
    is_new = {"add_layer": layer, "add_group": group}
    wants_group = do in ("remove_group", "put_rules", "add_rule", "remove_rule")
    number_of = command["rule"]["rule"] if do == "add_rule" else command.get("rule")
    rule = named(group["rules"], "rule", number_of) if group and do in ("add_rule", "remove_rule") else None
    return first_refusal({
        "NoLayer": do != "add_layer" and layer is None,
        "LayerExists": do == "add_layer" and is_new[do] is not None,
        "NoGroup": wants_group and group is None,
        "GroupExists": do == "add_group" and is_new[do] is not None,
        "NoRule": do == "remove_rule" and rule is None,
        "RuleExists": do == "add_rule" and rule is not None or has_twice(rule["rule"] for rule in rules),
        "ManyLayers": do == "add_layer" and len(own) >= MOST["layers"],
        "ManyGroups": do == "add_group" and layer is not None and len(layer["groups"]) >= MOST["groups"],
        "ManyRules": do == "add_rule" and group is not None and len(group["rules"]) >= MOST["rules"] or len(rules) > MOST["rules"],
    })


def refused_parts(port, command):
    """The least refusal of a put_many: of all its parts, each judged as a put_rules before any is done, and of the parts themselves."""
    parts = command["parts"]
    alone = [refused(port, put_of(command, part)) for part in parts]
    has = {"ManyParts": len(parts) > MOST["parts"], "PartTwice": has_twice((part["layer"], part["group"]) for part in parts)}
    return first_refusal({name: has.get(name) or f"{place} {name}" in alone for place, name in enumerate(REFUSALS, 1)})


def put_of(command, part):
    return {**{name: command[name] for name in ("controller", "port")}, "do": "put_rules", **part}


def has_twice(things):
    things = list(things)
    return len(set(things)) < len(things)


def first_refusal(applies):
    return next((f"{place} {name}" for place, name in enumerate(REFUSALS, 1) if applies.get(name)), None)


def forget(layer, is_gone):
    """The pairs go of which this holds."""
    layer["held"] = [pair for pair in layer["held"] if not is_gone(pair)]


def obey(port, places, command):
    """Does what a controller asks, or tells why not."""
    why = refused(port, command)
    if why is not None:
        return f"refused {why}"
    do, layers = command["do"], port["layers"]
    if do == "put_many":
        for part in command["parts"]:
            obey(port, places, put_of(command, part))
        return "ok"
    layer = next((one for one in layers if (one["controller"], one["layer"]) == (command["controller"], command["layer"])), None)
    group = named(layer["groups"], "group", command["group"]) if layer and "group" in command else None
    if do == "add_layer":
        names = ("controller", "layer", "order", "default_out", "default_in", "pairs", "idle", "linger")
        layers.append({**{name: command[name] for name in names}, "groups": [], "held": [], "next": 0})
        put_in_order(layers, places)
    elif do == "remove_layer":
        layers.remove(layer)
    elif do == "add_group":
        layer["groups"].append({"group": command["group"], "dir": command["dir"], "when": command["when_all"], "rules": []})
    elif do == "remove_group":
        layer["groups"].remove(group)
        forget(layer, lambda pair: pair["group"] == command["group"])
    elif do == "put_rules":
        stay = [plain_rule(rule) for rule in command["rules"]]
        gone = {rule["rule"] for rule in group["rules"] if plain_rule(rule) not in stay}
        group["rules"] = command["rules"]
        forget(layer, lambda pair: pair["group"] == command["group"] and pair["rule"] in gone)
    elif do == "add_rule":
        group["rules"].append(command["rule"])
    elif do == "remove_rule":
        group["rules"].remove(named(group["rules"], "rule", command["rule"]))
        forget(layer, lambda pair: (pair["group"], pair["rule"]) == (command["group"], command["rule"]))
    elif do == "set_default":
        layer["default_" + command["dir"]] = command["default"]
    else:
        forget(layer, lambda pair: pair["last"] + life(layer, pair["state"]) <= command["now"])
    return "ok"


# A run

def put_in_order(layers, places):
    layers.sort(key=lambda layer: (layer["order"], places[layer["controller"]], layer["layer"]))


def opened_ports(policy, places):
    for port in policy["ports"]:
        put_in_order(port["layers"], places)
        port["count"] = 0
        for layer in port["layers"]:
            layer.update(held=[], next=0)
    return policy["ports"]


def tell(port, told, by, item, rest, is_entry):
    """Adds a line with what places it: at a count reads stand before the entry, and workers before controllers."""
    line = f"{by[0]}{by[1]} {item} {'+' if is_entry else '@'}{port['count']} {rest}"
    told[port["port"]].append(((port["count"], is_entry, by[0] == "c", by[1]), line))
    port["count"] += is_entry


def read_commands(text):
    """The commands of a file, each with the number of its line."""
    lines = enumerate(text.decode().split("\n"), 1)
    return [{**json.loads(line), "line": number} for number, line in lines if line.strip(" \t\r")]


def met(macs, record):
    """A record's port, its direction there, and its packet; or why it is loose."""
    _, data, original = record
    if len(data) < original:
        return "snapped"
    try:
        packet = Packet(data)
    except Malformed as fault:
        return f"malformed {fault}"
    outermost = (packet.encaps or [packet.fields])[0]["src_mac"]
    port = macs.get(outermost) or macs.get(packet.fields["dst_mac"])
    return "noport" if port is None else (port, "out" if outermost in macs else "in", packet)


def handed_on(macs, port, way, fate):
    """The other port for which a packet's bytes are a frame, once it passed outbound, and the packet there; or None."""
    if way != "out" or not fate.startswith("pass "):
        return None
    try:
        packet = Packet(bytes.fromhex(fate.split(" ")[2]))
    except Malformed:
        return None
    other_port = macs.get(packet.fields["dst_mac"])
    return None if other_port is None or other_port is port else (other_port, "in", packet)


def carry(macs, told, loose, place, record, workers, local=False):
    """Brings a packet to its port, or tells why it is loose; and, if packets are handed on between the ports, to the port that it is for then."""
    found = met(macs, record)
    if isinstance(found, str):
        loose.append(f"{place} {found}")
        return
    worker = flow_sum(found[2].fields) % workers
    while found is not None:
        port, way, packet = found
        fate, is_entry = cross(port, way, packet, record[0])
        tell(port, told, ("w", worker), place, fate, is_entry)
        found = handed_on(macs, port, way, fate) if local else None


def rounds(records, commands):
    """The first packet of each round, and that of the next, None behind the last."""
    cuts = sorted({0, *(command["at"] for command in commands), *range(0, len(records), ROUND)})
    return zip(cuts, [*cuts[1:], None])


def report(policy_text, trace, commands_text=b"", workers=1, local=False):
    """The report of a run over this policy, these commands and this trace, all done in one order. `local`: of `deliver`, which hands packets on between the ports."""
    policy, records, commands = json.loads(policy_text), read_capture(trace), read_commands(commands_text)
    places = {controller: place for place, controller in enumerate(policy["controllers"])}
    ports = opened_ports(policy, places)
    macs = {mac(port["mac"]): port for port in ports}
    lines = ["vsw report 1"]
    for first, following in rounds(records, commands):
        told, loose, begun = {port["port"]: [] for port in ports}, [], [port["count"] for port in ports]
        here = [command for command in commands if command["at"] == first]
        for command in sorted(here, key=lambda command: command["when"] == "during"):
            port = named(ports, "port", command["port"])
            reply = obey(port, places, command)
            tell(port, told, ("c", command["controller"]), command["line"], reply, True)
        for place, record in enumerate(records[first:following], first):
            carry(macs, told, loose, place, record, workers, local)
        lines.append(f"round {first}")
        for port, before in zip(ports, begun):
            lines += [f"port {port['port']} {before} {port['count']}", *(line for _, line in sorted(told[port["port"]], key=lambda t: t[0]))]
        lines += ["loose", *loose]
    return "".join(line + "\n" for line in lines)
