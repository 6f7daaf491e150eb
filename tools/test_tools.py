#!/usr/bin/env python3
"""Tests of the tools and of what they share (tools/vswlib), by hand; they need no program and no toolchain.

    tools/test_tools.py [-v]
"""
from __future__ import annotations

import json
import os
import struct
import subprocess
import sys
import tempfile
import unittest
import xml.etree.ElementTree as ElementTree
from typing import Any, Sequence

import legal
from vswlib import ending, policies, reports, shadows, specs
from vswlib.captures import Record, parse_capture, write_capture, write_commented
from vswlib.frames import differences, flow_text, ones_sum, read_frame
from vswlib.jsontext import BadJson, Document, NotWhole, line_and_column
from vswlib.outcome import fault, outcome
from vswlib.replay import Replay, disagreement_lines, hits

TOOLS = os.path.dirname(os.path.abspath(__file__))
EXAMPLES = os.path.join(os.path.dirname(TOOLS), "examples")
GOOD = sorted(name for name in os.listdir(EXAMPLES) if os.path.exists(os.path.join(EXAMPLES, name, "report.txt")))

# RFC 768 over RFC 791, the frame of docs/GUIDE.md's first example: 10.0.0.5:1234 to 10.0.0.9:53, 2 bytes.
QUERY = bytes.fromhex("020000000099020000000001080045000 01e00004000401126c20a0000050a00000904d20035000a7e5c6869".replace(" ", ""))
# The same over IPv6 (RFC 8200): fd00::5 to fd00::9.
QUERY6 = bytes.fromhex("02000000009902000000000186dd60000000000a1140fd000000000000000000000000000005"
                       "fd00000000000000000000000000000904d20035000a985a6869")


def example(folder: str, name: str) -> str:
    return os.path.join(EXAMPLES, folder, name)


def read_json(folder: str) -> Any:
    with open(example(folder, "policy.json"), encoding="utf-8") as file:
        return json.load(file)


def run_tool(*words: str) -> subprocess.CompletedProcess[str]:
    return subprocess.run([sys.executable, os.path.join(TOOLS, words[0]), *words[1:]], capture_output=True, text=True)


def vxlan(inner: bytes, network: int = 5001) -> bytes:
    """A frame in VXLAN, as another program than the switch would put it."""
    body = struct.pack(">4H", 60_000, 4789, len(inner) + 16, 0) + struct.pack(">II", 0x0800_0000, network << 8) + inner
    front = struct.pack(">BBHHHBB", 0x45, 0, 20 + len(body), 0, 0x4000, 64, 17)
    ends = bytes([172, 16, 0, 2, 172, 16, 0, 1])
    check = ones_sum(front + b"\0\0" + ends).to_bytes(2, "big")
    return bytes.fromhex("020000000a01020000000a020800") + front + check + ends + body


class Frames(unittest.TestCase):
    def test_headers_of_ipv4_and_ipv6(self) -> None:
        for data, names in (QUERY, "Ethernet IPv4 UDP"), (QUERY6, "Ethernet IPv6 UDP"), (vxlan(QUERY6), "Ethernet IPv4 UDP VXLAN Ethernet IPv6 UDP"):
            frame = read_frame(data)
            self.assertEqual(" ".join(header.name for header in frame.headers), names)
            self.assertEqual((frame.fault, frame.payload), (None, b"hi"))

    def test_checksums_are_right_over_both(self) -> None:
        for data in QUERY, QUERY6:
            self.assertIn("right", read_frame(data).headers[-1].field("checksum"))
            self.assertIn("wrong", read_frame(data[:-1] + b"j").headers[-1].field("checksum"))

    def test_faults_are_named(self) -> None:
        cases = [(QUERY[:13], "1 ShortEther"), (QUERY[:33], "2 ShortIp"), (QUERY[:14] + b"\x55" + QUERY[15:], "3 IpVersion"),
                 (QUERY[:-1], "4 IpLength"), (QUERY[:23] + b"\x06" + QUERY[24:], "5 ShortTcp"), (QUERY6[:53], "10 ShortIp6"),
                 (QUERY6[:14] + b"\x45" + QUERY6[15:], "11 Ip6Version"), (QUERY6[:19] + b"\x0b" + QUERY6[20:], "12 Ip6Length"),
                 (QUERY6[:-4] + QUERY6[-4:][:0] + b"\x98\x5a" + b"hi", None), (bytes(65_601), "9 TooLong")]
        for data, fault in cases:
            self.assertEqual(read_frame(data).fault, fault)

    def test_udp_over_ipv6_to_the_vxlan_port_is_plain(self) -> None:
        inner = QUERY6[:56] + struct.pack(">HHH", 4789, 10, 0) + b"hi"
        self.assertEqual(read_frame(inner).headers[-1].name, "UDP")

    def test_flows_in_words(self) -> None:
        self.assertEqual(flow_text(read_frame(QUERY)), "UDP 10.0.0.5:1234 > 10.0.0.9:53")
        self.assertEqual(flow_text(read_frame(QUERY6)), "UDP [fd00::5]:1234 > [fd00::9]:53")
        self.assertEqual(flow_text(read_frame(vxlan(QUERY))), "UDP 10.0.0.5:1234 > 10.0.0.9:53 in VXLAN 5001")

    def test_differences(self) -> None:
        self.assertEqual(differences(QUERY, QUERY), [])
        self.assertEqual(differences(vxlan(QUERY), QUERY), ["gone from the front: Ethernet, IPv4, UDP, VXLAN"])
        self.assertIn("UDP from: 1234 became 1235", differences(QUERY, QUERY[:35] + b"\xd3" + QUERY[36:]))


class Captures(unittest.TestCase):
    def test_written_is_read(self) -> None:
        records = [Record(1_700_000_000_000_001, QUERY, len(QUERY)), Record(2, b"", 9)]
        self.assertEqual(list(parse_capture("it", write_capture(records))), records)

    def test_nanoseconds_and_the_other_order(self) -> None:
        data = struct.pack(">IHHIIII", 0xA1B23C4D, 2, 4, 0, 0, 65_535, 1) + struct.pack(">4I", 1, 2_999, 1, 1) + b"x"
        self.assertEqual(list(parse_capture("it", data)), [Record(1_000_002, b"x", 1)])

    def test_refusals(self) -> None:
        good = write_capture([Record(0, QUERY, len(QUERY))])
        cases = [(b"", "NotPcap"), (b"\x0a\x0d\x0d\x0a" + bytes(30), "editcap"), (good[:4] + b"\x03" + good[5:], "Version"),
                 (good[:20] + b"\x71" + good[21:], "LinkType"), (good[:-1], "Cut"), (good[:30], "Cut"), (good[:32] + b"\xff\xff\xff\x7f" + good[36:], "Huge")]
        for data, word in cases:
            with self.assertRaisesRegex(ending.Refused, word):
                list(parse_capture("it", data))

    def test_pcapng_blocks_are_whole(self) -> None:
        data, at = write_commented([(Record(1 << 33, b"abc", 3), "a comment")]), 0
        while at < len(data):
            size = struct.unpack_from("<I", data, at + 4)[0]
            self.assertEqual((size % 4, struct.unpack_from("<I", data, at + size - 4)[0]), (0, size))
            at += size
        self.assertEqual(at, len(data))


class Reports(unittest.TestCase):
    def read(self, *lines: str) -> reports.Report:
        return reports.parse_report("it", "".join(line + "\n" for line in ("vsw report 1", *lines)).encode())

    def test_each_line_of_the_format(self) -> None:
        report = self.read("round 3", "port 9 0 2", "w0 3 @0 pass 3 0a00ff", "w0 5 +0 pass 0 ", "w1 4 @1 drop rule 1/10/2/5", "w1 4 @1 drop taken 1/10 7",
                           "c2 7 +1 ok", "c2 8 @2 refused 10 Memory", "loose", "6 snapped", "7 malformed 5 ShortTcp", "10 noport")
        self.assertEqual([line.fate.kind for line in report.packet_lines()], ["pass", "pass", "rule", "taken"])
        self.assertEqual([line.reply for line in report.command_lines()], ["ok", "refused 10 Memory"])
        self.assertEqual([line.fate.cause for line in report.loose_lines()], ["snapped", "malformed 5 ShortTcp", "noport"])

    def test_what_is_no_line_is_told_by_its_number(self) -> None:
        for bad in "w0 3 @0 pass 2 0a00ff", "w0 3 @0 pass 3 0A00FF", "w0 3 @0 drop rule 1/10/2", "w0 3 @0", "c2 7 +1 refused", "6 snapped", "port x 0 0", "":
            with self.assertRaisesRegex(ending.Refused, "it:4: "):
                self.read("round 0", "port 1 0 0", bad)
        for data, number in (b"", 1), (b"vsw report 2\n", 1), (b"vsw report 1\nround 0", 2), (b"vsw report 1\nloose\n", 2):
            with self.assertRaisesRegex(ending.Refused, f"it:{number}: "):
                reports.parse_report("it", data)


class Json(unittest.TestCase):
    def test_values_and_their_places(self) -> None:
        document = Document('{"a": [1, {"b": "x\\u00e9\\ud83d\\ude00"}],\n "c": -0, "c": 18446744073709551616}')
        self.assertEqual(document.value, {"a": [1, {"b": "xé😀"}], "c": NotWhole("18446744073709551616")})
        self.assertEqual(line_and_column(document.text, document.place("/a/1/b")), (1, 17))
        self.assertEqual(line_and_column(document.text, document.names["/c"]), (2, 11))

    def test_what_is_no_json(self) -> None:
        for text in "", "{", "[1,]", '{"a" 1}', "01", "1.", "tru", '"\t"', '"\\x"', '"\\ud800"', "1 2", "1e999", "NaN", "[" * 128 + "]" * 128, "\ufeff1":
            with self.assertRaises(BadJson, msg=text):
                Document(text)
        self.assertEqual(Document("[" * 127 + "]" * 127).text[:1], "[")


class Policies(unittest.TestCase):
    def fault(self, value: Any) -> tuple[str, str]:
        try:
            policies.judge_policy(value)
        except policies.Fault as fault:
            return fault.kind, fault.path
        return "", ""

    def test_the_bad_files_of_the_guide(self) -> None:
        folder = os.path.join(EXAMPLES, "8-bad-files")
        for name in sorted(os.listdir(folder)):
            if name.endswith(".said"):
                front = os.path.join(folder, name[:-5])
                is_policy = os.path.exists(front + ".json")
                files = [front + ".json"] if is_policy else [os.path.join(folder, "policy.json"), front + ".jsonl"]
                with open(os.path.join(folder, name), encoding="utf-8") as file:
                    words = file.read().split()
                done = run_tool("check_policy", *files)
                self.assertEqual(done.returncode, 6 if words[1] == "limit" else 5)
                self.assertIn(" ".join(words[-2:]), done.stderr)

    def test_the_second_version(self) -> None:
        value = read_json("1-addresses")
        rule = value["ports"][0]["layers"][0]["groups"][0]["rules"][0]
        rule["when"] = [{"field": "dst_ip6", "any": ["fd00::/64", "::1"]}]
        path = "/ports/0/layers/0/groups/0/rules/0/when/0"
        self.assertEqual(self.fault(value), ("Shape", path + "/field"))
        value["version"] = 2
        self.assertEqual(self.fault(value), ("", ""))
        rule["when"][0]["any"] = [["::1", "::2"]]
        self.assertEqual(self.fault(value), ("Shape", path + "/any/0"))

    def test_addresses_of_ipv6(self) -> None:
        for text in "::", "fd00::5", "1:2:3:4:5:6:7:8", "1:2:3:4:5:6:7::", "::ABCD":
            self.assertTrue(policies.is_ip6(text), text)
        for text in "", ":", "1::2::3", "1:2:3:4:5:6:7", "1:2:3:4:5:6:7:8::", "::1:2:3:4:5:6:7:8", "12345::", "::1.2.3.4", ":1::", "1:::2":
            self.assertFalse(policies.is_ip6(text), text)
        self.assertTrue(policies.is_prefix6("::/0") and policies.is_prefix6("::/128"))
        self.assertFalse(policies.is_prefix6("::/129") or policies.is_prefix6("::/01") or policies.is_prefix6("::/"))

    def test_commands_of_the_second_version(self) -> None:
        value = read_json("1-addresses")
        ask = {"at": 0, "when": "before", "controller": 1, "port": 1, "do": "put_many", "parts": [{"layer": 10, "group": 1, "rules": []}]}
        with self.assertRaises(policies.Fault) as raised:
            policies.judge_command(value, ask)
        self.assertEqual((raised.exception.kind, raised.exception.path), ("Shape", "/do"))
        policies.judge_command({**value, "version": 2}, ask)
        with self.assertRaises(policies.Fault) as raised:
            policies.judge_command({**value, "version": 2}, {**ask, "parts": [{"layer": 10, "group": 1}]})
        self.assertEqual((raised.exception.kind, raised.exception.path), ("Shape", "/parts/0"))


def made_rule(number: int, priority: int, when: Sequence[tuple[str, list[Any]]], action: Any = "allow", last: bool = False, stateful: bool = False) -> dict[str, Any]:
    conditions = [{"field": field, "any": items} for field, items in when]
    return {"rule": number, "priority": priority, "when": conditions, "action": action, "stateful": stateful, "last": last}


def made_layer(*groups: list[dict[str, Any]]) -> dict[str, Any]:
    return {"groups": [{"group": place, "dir": "out", "when": [], "rules": rules} for place, rules in enumerate(groups, 1)], "pairs": 1}


class Shadows(unittest.TestCase):
    def names(self, *groups: list[dict[str, Any]]) -> list[str]:
        return [one.name() for one, _ in shadows.shadowed(made_layer(*groups), "")]

    def test_within_a_group(self) -> None:
        wide, narrow = [("dst_ip", ["10.0.0.0/8"])], [("dst_ip", ["10.1.0.0/16", "10.2.0.9"]), ("proto", [6])]
        self.assertEqual(self.names([made_rule(1, 10, wide), made_rule(2, 20, narrow)]), ["rule 2 of group 1"])
        self.assertEqual(self.names([made_rule(1, 20, wide), made_rule(2, 10, narrow)]), [])
        self.assertEqual(self.names([made_rule(1, 10, narrow), made_rule(2, 20, wide)]), [])
        self.assertEqual(self.names([made_rule(1, 10, []), made_rule(2, 10, [])]), ["rule 2 of group 1"])

    def test_what_an_action_asks_for_counts(self) -> None:
        decap = {"decap": True, "set": {}, "encap": None}
        self.assertEqual(self.names([made_rule(1, 10, [], decap), made_rule(2, 20, [])]), [])
        self.assertEqual(self.names([made_rule(1, 10, [], decap), made_rule(2, 20, [("vni", [1])])]), ["rule 2 of group 1"])
        self.assertEqual(self.names([made_rule(1, 10, [], stateful=True), made_rule(2, 20, [])]), [])

    def test_between_groups(self) -> None:
        self.assertEqual(self.names([made_rule(1, 10, [("proto", [6])])], [made_rule(1, 10, [])]), ["rule 1 of group 1"])
        self.assertEqual(self.names([made_rule(1, 10, [("proto", [6])], last=True)], [made_rule(1, 10, [])]), [])
        self.assertEqual(self.names([made_rule(1, 10, [], last=True)], [made_rule(1, 10, [])]), ["rule 1 of group 2"])

    def test_what_never_matches(self) -> None:
        for when in [("proto", [])], [("proto", [6]), ("proto", [17])], [("proto", [1]), ("dst_port", [53])], [("kind", [2054]), ("src_ip", ["10.0.0.1"])]:
            self.assertEqual(self.names([made_rule(1, 10, when)]), ["rule 1 of group 1"], when)

    def test_the_examples_have_none(self) -> None:
        for folder in GOOD:
            found = [remark.words for remark in shadows.remarks(read_json(folder))]
            self.assertEqual(len(found), 1 if folder == "7-commands" else 0, found)


class Replays(unittest.TestCase):
    def replay(self, folder: str, change: tuple[bytes, bytes] = (b"", b""), name: str = "report.txt") -> Replay:
        with open(example(folder, name), "rb") as file:
            report = reports.parse_report("report.txt", file.read().replace(*change) if change[0] else file.read())
        with open(example(folder, "trace.pcap"), "rb") as file:
            records = list(parse_capture("it", file.read()))
        return Replay(example(folder, "policy.json"), example(folder, "commands.jsonl"), report, records)

    def test_the_examples_agree(self) -> None:
        for folder in GOOD:
            replay = self.replay(folder)
            counted = hits(replay)
            self.assertEqual(disagreement_lines(replay), [], folder)
            self.assertTrue(counted, folder)

    def test_packets_that_were_handed_on_agree(self) -> None:
        replay = self.replay("14-two-machines", name="delivered.txt")
        self.assertEqual([traced.call.port for traced in replay.until(1)], [2, 1])
        self.assertEqual([traced.call.port for traced in replay.until(4)], [1, 2])
        self.assertEqual((list(replay.calls()) and None, disagreement_lines(self.replay("14-two-machines", name="delivered.txt"))), (None, []))
        wrong = self.replay("14-two-machines", (b"w0 4 @2 drop rule 1/10/1/2", b"w0 4 @2 drop rule 1/10/1/1"), "delivered.txt")
        list(wrong.calls())
        self.assertEqual(wrong.disagreements, 1)

    def test_a_wrong_report_is_told_loudly(self) -> None:
        for folder, change in ("first", (b"drop rule 1/10/1/6", b"drop rule 1/10/1/5")), ("first", (b"6869\n", b"6868\n")), ("first", (b"4 noport", b"4 snapped")), \
                ("3-translation", (b"w0 1 @1", b"w0 1 +1")), ("7-commands", (b"1 NoLayer", b"3 NoGroup")):
            replay = self.replay(folder, change)
            list(replay.calls())
            self.assertEqual(replay.disagreements, 1, change)
            self.assertIn("!!! THE REPORT SAYS OTHERWISE", disagreement_lines(replay)[0])


class Outcomes(unittest.TestCase):
    """How a run has to end (tools/vswlib/outcome.py): the examples end so, and other ends are told."""

    def files(self, folder: str) -> tuple[list[str], list[bytes]]:
        names = [example(folder, name) for name in ("policy.json", "commands.jsonl", "trace.pcap")]
        return names, [ending.read_bytes(name) for name in names]

    def test_the_examples_end_well(self) -> None:
        for folder in GOOD:
            names, files = self.files(folder)
            report = ending.read_bytes(example(folder, "report.txt")).decode()
            wanted = outcome(names, *files)
            self.assertEqual((wanted.status, wanted.words), (0, ""))
            self.assertIsNone(fault(wanted, 0, "", report, 1), folder)
            lines = report.splitlines(keepends=True)
            for line in lines[::len(lines) // 8 + 1]:
                self.assertIsNotNone(fault(wanted, 0, "", report.replace(line, "", 1), 1), line)
            self.assertIsNotNone(fault(wanted, 9, "vsw: memory\n", report, 1))
            self.assertIsNotNone(fault(wanted, 0, "vsw: usage\n", report, 1))

    def test_traces_that_are_cut(self) -> None:
        names, files = self.files("7-commands")
        report = ending.read_bytes(example("7-commands", "report.txt")).decode()
        second = 24 + 16 + int.from_bytes(files[2][32:36], "little")
        for length, words, head in (0, "NotPcap", False), (23, "NotPcap", False), (30, "Cut 24", True), (second + 5, f"Cut {second}", False):
            wanted = outcome(names, *files[:2], files[2][:length])
            self.assertEqual((wanted.status, wanted.words, wanted.is_head_alone), (5, f"vsw: refused trace {words}\n", head))
            self.assertIsNotNone(fault(wanted, 5, wanted.words, report, 1))
        huge = files[2][:32] + b"\x01\0\x04\0" + files[2][36:]
        self.assertEqual(outcome(names, *files[:2], huge).words, "vsw: refused trace Huge 24\n")

    def test_want_of_memory_is_legal_of_commands_and_new_pairs_alone(self) -> None:
        _, (policy, commands, trace) = self.files("flows")
        report = ending.read_bytes(example("flows", "report.txt")).decode()
        self.assertIsNone(legal.fault(policy, commands, trace, 1, report))
        first, told = next((line, line.split(" ", 3)) for line in report.splitlines() if line.startswith("w") and " @" in line)
        read = report.replace(first, f"{told[0]} {told[1]} {told[2]} drop memory")
        self.assertIn("a pair to be made", legal.fault(policy, commands, trace, 1, read))


    def test_handed_on_packets_are_legal_by_the_worker_that_brought_them(self) -> None:
        _, (policy, commands, trace) = self.files("14-two-machines")
        report = ending.read_bytes(example("14-two-machines", "delivered.txt")).decode()
        self.assertIsNone(legal.fault(policy, commands, trace, 1, report, local=True))
        self.assertIn("one line each", legal.fault(policy, commands, trace, 1, report))
        for change in ("w0 4 @2 drop", "w1 4 @2 drop"), ("w0 4 @2 drop rule 1/10/1/2\n", ""):
            self.assertIsNotNone(legal.fault(policy, commands, trace, 1, report.replace(*change), local=True), change)
        alone = ending.read_bytes(example("14-two-machines", "report.txt")).decode()
        self.assertIn("without a line", legal.fault(policy, commands, trace, 1, alone, local=True))


class Tools(unittest.TestCase):
    """Each tool with bad words and bad files: a status and a sentence, no traceback."""

    def test_bad_words(self) -> None:
        for name in "explain", "report_to_pcap", "report_to_json", "summary", "compare_reports", "rule_hits", "check_policy", "draw_policy":
            for words in (), ("--no-such", "a", "b", "c"), ("a", "b", "c", "d", "e"):
                done = run_tool(name, *words)
                self.assertEqual((done.returncode, done.stdout), (2, ""), (name, words))
                self.assertNotIn("Traceback", done.stderr)
            self.assertEqual(run_tool(name, "--help").returncode, 0)

    def test_bad_files(self) -> None:
        first = {name: example("first", name) for name in ("policy.json", "report.txt", "trace.pcap")}
        ways = [("explain", "report.txt", "trace.pcap", "0"), ("report_to_pcap", "report.txt", "trace.pcap", "/dev/null"), ("report_to_json", "report.txt"),
                ("summary", "report.txt", "trace.pcap"), ("compare_reports", "report.txt", "report.txt", "trace.pcap"),
                ("rule_hits", "--policy", "policy.json", "report.txt", "trace.pcap"), ("check_policy", "policy.json"), ("draw_policy", "policy.json", "report.txt", "trace.pcap")]
        with tempfile.NamedTemporaryFile() as bad:
            bad.write(b"\xff\xfe{no file of any kind\n")
            bad.flush()
            for way in ways:
                for place in (place for place, word in enumerate(way) if word in first):
                    for path, status in (bad.name, 5), ("/no/such/file", 3), ("/", 3):
                        done = run_tool(*(path if at == place else first.get(word, word) for at, word in enumerate(way)))
                        self.assertEqual(done.returncode, status, (way, place, path, done.stderr))
                        self.assertNotIn("Traceback", done.stderr)
                        self.assertIn(path, done.stderr)

    def test_files_of_another_run(self) -> None:
        report, trace, policy = example("3-translation", "report.txt"), example("first", "trace.pcap"), example("2-two-controllers", "policy.json")
        for way in ("explain", report, trace, "9"), ("report_to_pcap", report, trace, "/dev/null"), ("summary", report, trace), ("compare_reports", report, report, trace), \
                ("rule_hits", "--policy", policy, report, trace):
            done = run_tool(*way)
            self.assertEqual((done.returncode, "Traceback" in done.stderr), (5, False), (way, done.stderr))

    def test_reports_beside_each_other(self) -> None:
        report, trace = example("7-commands", "report.txt"), example("7-commands", "trace.pcap")
        self.assertEqual(run_tool("compare_reports", report, report).returncode, 0)
        done = run_tool("compare_reports", report, example("7-commands", "two-workers.txt"), trace)
        self.assertEqual(done.returncode, 1)
        self.assertIn("now: dropped at port 1: no rule of layer 10 of controller 1 was chosen", done.stdout)

    def test_which_packets_are_written(self) -> None:
        report, trace = example("first", "report.txt"), example("first", "trace.pcap")
        for options, count in ([], 2), (["--dropped"], 5), (["--cause", "rule"], 1), (["--cause=malformed 4"], 1), (["--dropped", "--port", "1"], 2), (["--port=2"], 0):
            with tempfile.TemporaryDirectory() as folder:
                path = os.path.join(folder, "it.pcap")
                self.assertIn(f"{count} of 7 ", run_tool("report_to_pcap", *options, report, trace, path).stderr)
                with open(path, "rb") as file:
                    self.assertEqual(len(list(parse_capture("it", file.read()))), count, options)

    def test_packets_that_were_handed_on(self) -> None:
        policy, report, trace = (example("14-two-machines", name) for name in ("policy.json", "delivered.txt", "trace.pcap"))
        done = run_tool("explain", "--policy", policy, report, trace, "4")
        self.assertEqual(done.returncode, 0)
        self.assertLess(done.stdout.index("It passed port 1"), done.stdout.index("handed on to another port"))
        self.assertLess(done.stdout.index("handed on to another port"), done.stdout.index("It was dropped at port 2: rule 2 of group 1"))
        self.assertIn("--policy tells which", run_tool("explain", report, trace, "1").stdout)
        for options, count in ([], 10), (["--dropped"], 2), (["--port", "2"], 4):
            self.assertIn(f"{count} of 12 ", run_tool("report_to_pcap", *options, report, trace, os.devnull).stderr)
        done = run_tool("compare_reports", report, report)
        self.assertEqual((done.returncode, "a second line of packet 0" in done.stderr), (5, True))

    def test_sums(self) -> None:
        done = run_tool("summary", "--json", "--policy", example("7-commands", "policy.json"), example("7-commands", "report.txt"), example("7-commands", "trace.pcap"))
        summary = json.loads(done.stdout)
        self.assertEqual(summary["directions"], {"in dropped": {"packets": 1, "bytes": 87}, "in passed": {"packets": 2, "bytes": 174},
                                                 "out dropped": {"packets": 1, "bytes": 71}, "out passed": {"packets": 2, "bytes": 129}})
        self.assertEqual(summary["commands"], {"controller 1: ok": 3, "controller 2: ok": 1, "controller 2: refused 1 NoLayer": 1})

    def test_pictures_without_graphviz(self) -> None:
        done = subprocess.run([sys.executable, os.path.join(TOOLS, "draw_policy"), example("6-drops", "policy.json"), example("6-drops", "report.txt")],
                              capture_output=True, text=True, env={**os.environ, "PATH": "/no/such/folder"})
        self.assertEqual(done.returncode, 0, done.stderr)
        texts = [node.text for node in ElementTree.fromstring(done.stdout.encode()).iter() if node.tag.endswith("text")]
        self.assertIn("layer 20 of controller 2, order 2", texts)

    def test_every_line_becomes_an_object(self) -> None:
        for folder in GOOD:
            with open(example(folder, "report.txt"), encoding="ascii") as file:
                lines = len(file.readlines())
            made = [json.loads(line) for line in run_tool("report_to_json", example(folder, "report.txt")).stdout.splitlines()]
            self.assertEqual([members["line"] for members in made], list(range(1, lines + 1)), folder)


def rows_file(*rows: dict[int, int]) -> bytes:
    """The file of port 1, whose address ends in 1, with these rows: the words that aren't 0, by their places."""
    front = b"VSWROWS1" + struct.pack("<II", 1, 1) + bytes.fromhex("020000000001") + struct.pack("<II", 0, len(rows))
    return front + b"".join(struct.pack("<73Q", *(row.get(place, 0) for place in range(73))) for row in rows)


# Queries from 10.0.0.5:1234 to 10.0.0.9:53 of the table of docs/FORMATS.md, with each header left as it is.
ROW = {0: 0x0035_04D2_0800_1131, 2: 0x0200_0000_0099, 3: 0x0200_0000_0001, 8: 0x0A00_0005_0A00_0009, 17: 2**64 - 1, 18: 3, 19: 8, 22: 8, 25: 8}
# Their answers, which come to the port in VXLAN: it is popped, and the destination is written.
ANSWER = {0: 0x04D2_0035_0800_1137, 1: 5001, 2: 0x0200_0000_0A02, 3: 0x0200_0000_0A01, 4: 0x0200_0000_0001, 5: 0x0200_0000_0099,
          8: 0xAC10_0001_AC10_0002, 9: 0x0A00_0009_C000_0207, 17: 240_000_001, 18: 6, 19: 4, 22: 4, 25: 4, 28: 8, 31: 0x26, 33: 0x0A00_0005, 34: 8}
# Dropped by rule 3 of group 2 in layer 10 of controller 1, and by a default, a frame of ARP.
DROP = {**{place: word for place, word in ROW.items() if place < 18}, 0: 0x0036_04D2_0800_1131, 16: 1, 19: 1 | 10 << 16 | 2 << 32 | 3 << 48}
ARP = {0: 0x0806_0001, 2: 0xFFFF_FFFF_FFFF, 3: 0x0200_0000_0001, 16: 2, 17: 2**64 - 1, 19: 1 | 10 << 16}

# Packets of TCP to port 54, whose source and whose destination port are written.
MAPPED = {**ROW, 0: 0x0036_04D2_0800_0631, 17: 240_000_001, 22: 0x16, 23: 0xC000_0207, 25: 0x27, 27: 80}


class Rows(unittest.TestCase):
    """Rows files in words, as a tool tells them."""

    def told(self, data: bytes, *words: str) -> subprocess.CompletedProcess[str]:
        with tempfile.NamedTemporaryFile() as file:
            file.write(data)
            file.flush()
            return run_tool("rows_text", *words, file.name)

    def test_a_row_a_line(self) -> None:
        self.assertEqual(len(rows_file(ROW)), 614)
        done = self.told(rows_file(ARP, ROW, DROP, ANSWER))
        self.assertEqual(done.stdout.splitlines(), [
            "port 1 02:00:00:00:00:01: 4 rows after 0 entries",
            "port 1 out 02:00:00:00:00:01 > ff:ff:ff:ff:ff:ff ARP: drop by the default of layer 10 of controller 1 for outbound packets, without an end",
            "port 1 out 02:00:00:00:00:01 > 02:00:00:00:00:99 UDP 10.0.0.5:1234 > 10.0.0.9:53: pass, without an end",
            "port 1 out 02:00:00:00:00:01 > 02:00:00:00:00:99 UDP 10.0.0.5:1234 > 10.0.0.9:54: drop by rule 3 of group 2 in layer 10 of controller 1, without an end",
            "port 1 in vxlan 5001 172.16.0.1 > 172.16.0.2, 02:00:00:00:00:99 > 02:00:00:00:00:01 UDP 10.0.0.9:53 > 192.0.2.7:1234: pass, pop, pop, pop, "
            "set IPv4 destination 10.0.0.5, until 240.000001"])
        self.assertEqual((done.returncode, done.stderr), (0, ""))

    def test_rules(self) -> None:
        done = self.told(rows_file(ARP, ROW, MAPPED, DROP, ANSWER), "--nft", "tap{}")
        ends = "ether daddr 02:00:00:00:00:99 ether saddr 02:00:00:00:00:01 ether type 0x0800 ip saddr 10.0.0.5 ip daddr 10.0.0.9"
        self.assertEqual(done.stdout.splitlines(), [
            "table netdev vsw {",
            "    chain port_1_out {",
            '        type filter hook ingress device "tap1" priority 0;',
            '        ether daddr ff:ff:ff:ff:ff:ff ether saddr 02:00:00:00:00:01 ether type 0x0806 drop comment "drop by the default of layer 10 of controller 1 for outbound packets"',
            f'        {ends} ip protocol 17 ip frag-off & 0x3fff == 0 udp sport 1234 udp dport 53 accept comment "pass"',
            f"        {ends} ip protocol 6 ip frag-off & 0x3fff == 0 tcp sport 1234 tcp dport 54 tcp flags & (fin | syn | rst) == 0x0 "
            'ip saddr set 192.0.2.7 tcp dport set 80 accept comment "pass, until 240.000001"',
            f'        {ends} ip protocol 17 ip frag-off & 0x3fff == 0 udp sport 1234 udp dport 54 drop comment "drop by rule 3 of group 2 in layer 10 of controller 1"',
            "    }",
            "    chain port_1_in {",
            '        type filter hook egress device "tap1" priority 0;',
            "        # no rule: its packets are encapsulated: a rule sees the outermost headers alone",
            "    }",
            "}"])
        self.assertEqual((done.returncode, done.stderr), (0, ""))
        for device in "", 'tap"', "tap 1", "{}{}":
            self.assertEqual(self.told(rows_file(ROW), f"--nft={device}").returncode, 2, device)

    def test_what_is_no_rows_file(self) -> None:
        whole = rows_file(ROW)
        for data, why in (whole[:7], "not a rows file"), (whole[:613], "cut at byte 30"), (whole + b"\0", "more bytes behind the last port at byte 614"), \
                (whole[:8] + b"\x11" + whole[9:], "too many ports at byte 8"), (whole[:27] + b"\x41" + whole[28:], "too many rows at byte 26"), \
                (rows_file(ROW, ROW), "the key doesn't rise at byte 614"):
            done = self.told(data)
            self.assertEqual((done.returncode, done.stdout), (5, ""))
            self.assertIn(why, done.stderr)


class Definitions(unittest.TestCase):
    """Which definitions others name (vswlib.specs), over a repository of two crates."""

    FILES = {
        "crates.txt": "# two\nlow: byteorder\nhigh: low\n",
        "crates/low/specs/Lib.antt": "pub mod Num\n",
        "crates/low/specs/Num.antt": "use Rattle.std.specs.Prelude.{ℕ, ◌+◌, suc, zero}\n\n-- one more\nabbrev pub next : ℕ → ℕ\nnext n = n + 1\n\n"
                                     "abbrev pub idle : ℕ\nidle = next 1\n\npub data Kind : Type 0 where\n  Odd : Kind\n  -- even ones\n  Even : Kind\n\n"
                                     "module _ {A : Type 0} where\n  abbrev pub same : A → A\n  same a = a\n\n  module _ (n : ℕ) where\n    abbrev pub kept : ℕ\n    kept = next n\n",
        "crates/high/specs/Lib.antt": "pub use Rattle.low.specs.Num as Numbers\npub mod Top\n",
        "crates/high/specs/Top.antt": "use Rattle.std.specs.Prelude.{ℕ, ◌≡◌}\nuse Rattle.high.specs.Numbers.{Kind, Even, next, idle}\nuse Rattle.low.specs.declared.item.Item.TheVariants as item\n\n"
                                      "-- binds `idle`, sets a field `next`, and names neither\nabbrev pub other : ℕ → ℕ\nother idle = record { next = idle }\n\n"
                                      "pub record Is (kind : Kind) : Type 0 where\n  pub next : next 1 ≡ 2\n  pub idle : kind ≡ Even\n  pub made : item.Made idle ≡ next\n",
    }

    def repository(self, folder: str) -> specs.Repository:
        for name, text in self.FILES.items():
            os.makedirs(os.path.dirname(os.path.join(folder, name)), exist_ok=True)
            with open(os.path.join(folder, name), "w", encoding="utf-8") as file:
                file.write(text)
        return specs.Repository(folder)

    def test_what_is_reached_through_a_reexport(self) -> None:
        with tempfile.TemporaryDirectory() as folder:
            repository = self.repository(folder)
            reached, outside = specs.closure(repository, {("high.specs.Top", "Is")})
            self.assertEqual({path: sorted(found) for path, found in reached.items()}, {"high.specs.Top": ["Is"], "low.specs.Num": ["Kind", "next"]})
            self.assertEqual(specs.reading_order(repository, reached), ["low.specs.Num", "high.specs.Top"])
            self.assertIn(("low.specs.declared.item.Item.TheVariants", "Made"), outside)
            kind, following = (repository.module("low.specs.Num").definitions[name] for name in ("Kind", "next"))
            self.assertEqual((kind.lines, kind.comments, kind.above), (3, 1, False))
            self.assertEqual((following.lines, following.comments, following.above), (2, 1, True))
            self.assertEqual(list(repository.module("low.specs.Num").definitions), ["next", "idle", "Kind", "same", "kept"])

    def test_names_that_are_bound_are_none(self) -> None:
        with tempfile.TemporaryDirectory() as folder:
            uses = self.repository(folder).module("high.specs.Top").definitions["other"].uses
            self.assertEqual(uses, {("std.specs.Prelude", "ℕ")})

    def test_the_page_has_each_module_of_the_promise(self) -> None:
        page = os.path.join(os.path.dirname(TOOLS), "docs", "READING.md")
        done = run_tool("must_be_believed", "--check", page)
        self.assertEqual((done.returncode, done.stderr), (0, ""), done.stdout)
        with open(page, encoding="utf-8") as file:
            lines = file.read().splitlines()
        entries = [number for number, line in enumerate(lines) if line.startswith("- [")]
        first, last = entries[0], entries[-1]
        for changed, words in ((lines[:first] + lines[first + 1:], "is missing"), (lines[:last] + [lines[first]] + lines[last:], "stands twice"),
                               (lines[:first] + [lines[last]] + lines[first:last] + lines[last + 1:], "which doesn't stand before it"),
                               (lines + ["- [it](../crates/vsw_port/specs/Core.antt)"], "isn't under the promise")):
            with tempfile.TemporaryDirectory() as folder:
                path = os.path.join(folder, "page.md")
                with open(path, "w", encoding="utf-8") as file:
                    file.write("\n".join(changed))
                done = run_tool("must_be_believed", "--check", path)
                self.assertEqual(done.returncode, 1)
                self.assertIn(words, done.stdout)

    def test_each_name_that_a_definition_uses_is_one(self) -> None:
        repository = specs.Repository(os.path.dirname(TOOLS))
        for module in specs.all_modules(repository):
            for one in module.definitions.values():
                for name in one.uses:
                    repository.definition(name)  # refuses a name that its module lacks

    def test_each_imported_name_of_the_list_is_in_use(self) -> None:
        repository = specs.Repository(os.path.dirname(TOOLS))
        reached, _ = specs.closure(repository, {("vsw_app.specs.Exit", "Exits")})
        for path in reached:
            module = repository.module(path)
            used = set().union(*(one.uses for one in module.definitions.values()))
            self.assertEqual([word for word, name in module.imports.items() if name not in used], [], path)


if __name__ == "__main__":
    unittest.main()
