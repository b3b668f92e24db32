#!/usr/bin/env python3
"""Tries `--attributes`: the columns of `tables`, `match` and `history`, what makes two routes different, and damage.

usage: tests/attributes.py PROGRAM [DUMPS]

Rows are spelled here, of both families, two-octet and four-octet messages and RIB entries: each form of a member's text,
each wrong length, repeats, absent attributes, names in any order, lists that add up, and arguments that are refused.
DUMPS (200) drawn dumps have announcements and RIB entries of one peer with attributes that are drawn, damaged ones
too, over external and internal sessions; a model written from docs/FORMATS.md (3.9 and 5) says what `tables`, `churn`,
`history` and `faults` print of them for attributes that are drawn, by either rule on damage. The last line is `N passed, M failed`. Needs Python 3 and nothing else.
"""
import ipaddress
import os
import random
import struct
import subprocess
import sys
import tempfile

TOP = os.path.dirname(os.path.dirname(os.path.abspath(__file__)))
# Name: type, bytes of a member, whether there may be several.
ATTRIBUTES = {
    "communities": (8, 4, True), "extended": (16, 8, True), "large": (32, 12, True),
    "originator": (9, 4, False), "clusters": (10, 4, True), "otc": (35, 4, False),
}
NAMES = list(ATTRIBUTES)
HEAD = "peer|prefix|as_path|next_hop|origin|med|local_pref|atomic|aggregator"


# ---- texts

def numbers(member, *sizes):
    found, at = [], 0
    for size in sizes:
        found.append(int.from_bytes(member[at:at + size], "big"))
        at += size
    return found


def dotted(number):
    return str(ipaddress.IPv4Address(number))


def extended_text(member):
    name = {2: "rt", 3: "ro"}.get(member[1])
    if name is None or member[0] > 2:
        return "0x" + member.hex()
    who, what = numbers(member[2:], *((2, 4) if member[0] == 0 else (4, 2)))
    return f"{name}:{dotted(who) if member[0] == 1 else who}:{what}"


MEMBER_TEXT = {
    "communities": lambda m: ":".join(map(str, numbers(m, 2, 2))), "extended": extended_text,
    "large": lambda m: ":".join(map(str, numbers(m, 4, 4, 4))), "originator": lambda m: dotted(numbers(m, 4)[0]),
    "clusters": lambda m: dotted(numbers(m, 4)[0]), "otc": lambda m: str(numbers(m, 4)[0]),
}


def text_of(name, value):
    if value is None:
        return "-"
    size = ATTRIBUTES[name][1]
    return " ".join(MEMBER_TEXT[name](value[at:at + size]) for at in range(0, len(value), size))


def is_formed(name, value):
    _, size, is_list = ATTRIBUTES[name]
    return len(value) > 0 and len(value) % size == 0 if is_list else len(value) == size


# ---- records

def attribute(code, value, flags=0xC0):
    if len(value) > 255:
        return bytes([flags | 0x10, code]) + struct.pack(">H", len(value)) + value
    return bytes([flags, code, len(value)]) + value


def record(second, kind, subtype, body):
    return struct.pack(">IHHI", second, kind, subtype, len(body)) + body


def message(second, attributes, *, withdrawn=b"", keys=b"", is_wide=True, local=64999):
    body = struct.pack(">H", len(withdrawn)) + withdrawn + struct.pack(">H", len(attributes)) + attributes + keys
    update = b"\xff" * 16 + struct.pack(">HB", 19 + len(body), 2) + body
    peer = struct.pack(">II" if is_wide else ">HH", 65001, local)
    return record(second, 16, 4 if is_wide else 1, peer + struct.pack(">HH", 0, 1) + bytes([192, 0, 2, 1, 192, 0, 2, 254]) + update)


def index():
    return record(1000, 13, 1, bytes(4) + struct.pack(">HH", 0, 1) + b"\2" + bytes(4) + bytes([192, 0, 2, 1]) + struct.pack(">I", 65001))


def entry(second, attributes, prefix, subtype):
    return record(second, 13, subtype, bytes(4) + prefix + struct.pack(">HHIH", 1, 0, second, len(attributes)) + attributes)


PREFIX, PREFIX6 = b"\x08\x0a", b"\x20\x20\x01\x0d\xb8"
ROUTE = attribute(1, b"\0", 0x40) + attribute(2, b"", 0x40) + attribute(3, bytes([192, 0, 2, 1]), 0x40)
HOP6 = bytes(15) + b"\1"
REACH6 = attribute(14, b"\0\2\1\x10" + HOP6 + b"\0" + PREFIX6)


class Files:
    """Files in a folder, and the program."""

    def __init__(self, program, folder):
        self.program, self.folder, self.passed, self.failed = program, folder, 0, 0

    def run(self, words, *contents):
        names = []
        for number, content in enumerate(contents):
            names.append(os.path.join(self.folder, f"file-{number}"))
            with open(names[-1], "wb") as file:
                file.write(content)
        made = subprocess.run([self.program, *words.split(), *names], capture_output=True)
        return made.returncode, made.stdout.decode(), made.stderr.decode()

    def expect(self, what, found, wanted):
        if found == wanted:
            self.passed += 1
        else:
            self.failed += 1
            print(f"{what}: {found!r} in place of {wanted!r}")

    def lines(self, words, wanted, *contents, status=0):
        """By one worker and by several."""
        for workers in 1, 3:
            found = self.run(f"{words} --quiet --workers {workers}", *contents)
            self.expect(words, found[:2], (status, "".join(line + "\n" for line in wanted)))


# ---- rows

def carriers(attributes):
    """A file for each way in which attributes come, with the options and what the columns in front of theirs are."""
    four = "65001 192.0.2.1|10.0.0.0/8||192.0.2.1|IGP|-|-|-|-"
    six = "65001 192.0.2.1|2001:db8::/32||::1|IGP|-|-|-|-"
    path = attribute(1, b"\0", 0x40) + attribute(2, b"", 0x40)
    yield "", message(1000, ROUTE + attributes, keys=PREFIX), four
    yield "", message(1000, ROUTE + attributes, keys=PREFIX, is_wide=False), four
    yield "", index() + entry(1000, ROUTE + attributes, PREFIX, 2), four
    yield " --family ipv6", message(1000, path + attributes + REACH6), six
    yield " --family ipv6", index() + entry(1000, path + attributes + attribute(14, b"\x10" + HOP6), PREFIX6, 4), six


def values(files):
    for name, value, text in [
        ("communities", "fde8029a", "65000:666"), ("communities", "ffffff0100000000", "65535:65281 0:0"),
        ("extended", "0002fde800000001", "rt:65000:1"), ("extended", "0003ffffffffffff", "ro:65535:4294967295"),
        ("extended", "0102c00002010007", "rt:192.0.2.1:7"), ("extended", "0103ffffffff0000", "ro:255.255.255.255:0"),
        ("extended", "0202000111700009", "rt:70000:9"), ("extended", "0203ffffffffffff", "ro:4294967295:65535"),
        ("extended", "4002fde800000001", "0x4002fde800000001"), ("extended", "000bfde800000001", "0x000bfde800000001"),
        ("extended", "0302fde800000001", "0x0302fde800000001"), ("extended", "0002000000000000800600004d9b7fc0", "rt:0:0 0x800600004d9b7fc0"),
        ("large", "0000fde800000001ffffffff", "65000:1:4294967295"), ("large", 24 * "00", "0:0:0 0:0:0"),
        ("originator", "c0000201", "192.0.2.1"), ("clusters", "c0000201ffffffff", "192.0.2.1 255.255.255.255"),
        ("otc", "ffffffff", "4294967295"), ("otc", "00000000", "0"),
        ("communities", 300 * "fde80001", " ".join(["65000:1"] * 300)),
    ]:
        code = ATTRIBUTES[name][0]
        for words, file, front in carriers(attribute(code, bytes.fromhex(value))):
            files.lines(f"tables --attributes {name}{words}", [f"{front}|{text}"], file)
            files.lines(f"tables{words}", [front], file)
            others = ",".join(other for other in NAMES if other != name)
            files.lines(f"tables --attributes {others}{words}", [front + 5 * "|-"], file)


def lengths(files):
    for name, (code, size, is_list) in ATTRIBUTES.items():
        bad = [0, 1, size - 1, size + 1] + ([] if is_list else [2 * size])
        whole = attribute(code, bytes(range(1, size + 1)))
        text = text_of(name, bytes(range(1, size + 1)))
        for length in bad:
            damaged = attribute(code, bytes(length))
            for words, file, front in carriers(damaged):
                found = files.run(f"faults --attributes {name}{words}", file)
                files.expect(f"{name} of {length} bytes", (found[0], found[1].split("|")[3:]), (1, ["14", f"BadAttribute({code})\n"]))
                files.lines(f"tables --attributes {name}{words}", [], file, status=1)
                is_absent = name in ("originator", "clusters") and not file.startswith(index())  # RFC 7606, 7.9 and 7.10
                files.lines(f"tables --errors rfc7606 --attributes {name}{words}", [f"{front}|-"] * is_absent, file, status=1)
                files.lines(f"tables{words}", [front], file)
                files.lines(f"faults{words}", [], file)
            # The first counts, and others aren't checked.
            for words, file, front in carriers(whole + damaged):
                files.lines(f"tables --attributes {name}{words}", [f"{front}|{text}"], file)


def rows(files):
    several = b"".join(attribute(code, value) for code, value in [
        (35, b"\0\0\xfd\xe8"), (10, b"\x0a\0\0\1"), (9, b"\x0a\0\0\2"), (32, bytes(11) + b"\3"), (16, b"\0\2\xfd\xe8\0\0\0\1"), (8, b"\xfd\xe8\0\1")])
    texts = dict(zip(NAMES, ["65000:1", "rt:65000:1", "0:0:3", "10.0.0.2", "10.0.0.1", "65000"]))
    for words, file, front in carriers(several):
        for asked in ["all", ",".join(NAMES), ",".join(reversed(NAMES)), "otc,all", "large,large,all"]:
            files.lines(f"tables --attributes {asked}{words}", ["|".join([front, *texts.values()])], file)
        files.lines(f"tables --attributes otc --attributes=large,otc{words}", [f"{front}|0:0:3|65000"], file)
        files.lines(f"tables --header --attributes clusters,communities{words}", [HEAD + "|communities|clusters", f"{front}|65000:1|10.0.0.1"], file)
        address = "2001:db8::1" if "ipv6" in words else "10.0.0.1"
        files.lines(f"match --address {address} --attributes otc{words}", [f"{front}|65000"], file)
    one, other = (message(second, ROUTE + attribute(8, value), keys=PREFIX) for second, value in [(1000, b"\0\1\0\1"), (1001, b"\0\1\0\2")])
    gone = message(1002, b"", withdrawn=PREFIX)
    file, key = one + other + gone + gone, "65001 192.0.2.1|{}|update|10.0.0.0/8|"
    route, none = "|192.0.2.1|IGP|-|-|-|-", "-|-|-|-|-|-|-"
    front = {what: key.format(what) for what in ("new", "changed", "same", "gone", "void")}
    files.lines("history --attributes communities,otc", [
        f"1000.000000|{front['new']}{route}|1:1|-", f"1001.000000|{front['changed']}{route}|1:2|-",
        f"1002.000000|{front['gone']}{route}|1:2|-", f"1002.000000|{front['void']}{none}|-|-"], file)
    files.lines("history --same", [
        f"1000.000000|{front['new']}{route}", f"1001.000000|{front['same']}{route}", f"1002.000000|{front['gone']}{route}",
        f"1002.000000|{front['void']}{none}"], file)
    files.lines("churn --attributes communities", ["65001 192.0.2.1|1|1|0|1|1|0|0|0|1000.000000|1002.000000"], file)
    files.lines("churn", ["65001 192.0.2.1|1|0|1|1|1|0|0|0|1000.000000|1002.000000"], file)
    for report in "churn", "peers", "seen", "visibility", "origins", "faults":
        files.expect(f"{report} has no columns more", files.run(f"{report} --header --attributes all", file)[1].split("\n")[0],
                     files.run(f"{report} --header", file)[1].split("\n")[0])
    for asked in "community", "", "Communities", "communities,", ",large", "communities;large", "all,none", "8":
        wrong = next(name for name in asked.split(",") if name not in (*NAMES, "all"))
        found = subprocess.run([files.program, "tables", "--attributes", asked, os.devnull], capture_output=True)
        said = found.stderr.decode().split("\n")
        files.expect(f"--attributes {asked!r}", (found.returncode, found.stdout, said[0]),
                     (2, b"", f"error: invalid value '{asked}' for '--attributes <LIST>': '{wrong}' is no attribute"))
        files.expect(f"--attributes {asked!r} lists the names", all(name in said[1] for name in NAMES), True)
    for name in "sample.mrt", "updates.mrt":
        with open(os.path.join(TOP, "examples", name), "rb") as sample:
            file = sample.read()
        plain, whole = (files.run(f"tables{words}", file)[1].splitlines() for words in ("", " --attributes all"))
        files.expect(f"nine columns of {name}", [line.rsplit("|", 6)[0] for line in whole], plain)
        for number, column in enumerate(NAMES):
            alone = files.run(f"tables --attributes {column}", file)[1].splitlines()
            files.expect(f"{column} of {name}", [line.rsplit("|", 1)[1] for line in alone], [line.rsplit("|", 6)[1 + number] for line in whole])


# ---- drawn dumps

def drawn_value(draw, name):
    _, size, is_list = ATTRIBUTES[name]
    if draw.random() < 0.04:
        return draw.randbytes(draw.choice([0, 1, size - 1, size + 1, 2 * size + 1]))
    count = draw.choice([1, 1, 2, 3, 8, 70]) if is_list else 1
    return b"".join(draw.choice([bytes(size), b"\0\2" + draw.randbytes(size - 2), draw.randbytes(size)]) for _ in range(count))


def drawn_dump(draw, asked, is_handled):
    """Messages and entries, and what they come to: the table, the counts, the rows and the faults. By RFC 7606 an
    external peer's ORIGINATOR_ID and CLUSTER_LIST that are malformed count as absent, and else the key is withdrawn."""
    pool = [[(name, drawn_value(draw, name)) for name in draw.choices(NAMES, k=draw.randrange(5))] for _ in range(6)]
    data, table, counts, told, faults = index(), {}, {what: 0 for what in ("new", "changed", "same", "gone", "void", "refused")}, [], []

    def tell(what, by, route):
        counts[what] += 1
        told.append((second, what, by, prefix, route))

    for number in range(draw.randrange(1, 40)):
        second, prefix = 1000 + number, draw.randrange(3)
        attributes, key = draw.choice(pool), bytes([8, prefix + 10])
        at = len(data)
        if draw.random() < 0.2:
            data += message(second, b"", withdrawn=key)
            tell("gone" if prefix in table else "void", "update", table.pop(prefix, None))
            continue
        spelled = b"".join(attribute(ATTRIBUTES[name][0], value) for name, value in attributes)
        is_entry, local = draw.random() < 0.3, draw.choice([64999, 64999, 65001])
        data += entry(second, ROUTE + spelled, key, 2) if is_entry else message(second, ROUTE + spelled, keys=key, is_wide=draw.random() < 0.7, local=local)
        first = dict((name, value) for name, value in reversed(attributes) if name in asked)
        bad = [name for name, _ in attributes if name in asked and not is_formed(name, first[name])]
        if bad:
            counts["refused"] += 1
            faults.append(f"1|{at}|{'1' if is_entry else '-'}|14|BadAttribute({ATTRIBUTES[bad[0]][0]})")
            if is_entry or not is_handled:
                continue
            if local == 65001 or not set(bad) <= {"originator", "clusters"}:
                tell("gone" if prefix in table else "void", "update", table.pop(prefix, None))
                continue
        route = {name: value for name, value in first.items() if name not in bad}
        what = "new" if prefix not in table else "same" if table[prefix] == route else "changed"
        table[prefix] = route
        tell(what, "rib" if is_entry else "update", route)
    return data, table, counts, told, faults


def drawn(files, count):
    for seed in range(count):
        draw = random.Random(seed)
        asked = draw.choice([NAMES, draw.sample(NAMES, draw.randrange(1, 6)), []])
        is_handled = draw.random() < 0.4
        data, table, counts, told, faults = drawn_dump(draw, asked, is_handled)
        words = f" --attributes {','.join(asked)}" if asked else ""
        words += " --errors rfc7606" if is_handled else draw.choice(["", " --errors skip"])
        columns = [name for name in NAMES if name in asked]
        status = int(bool(faults))
        line = lambda route: "".join("|" + text_of(name, (route or {}).get(name)) for name in columns)
        fields = lambda route: ("-|-|-|-|-|-|-" if route is None else "|192.0.2.1|IGP|-|-|-|-") + line(route)
        files.lines(f"tables{words}", [f"65001 192.0.2.1|{prefix + 10}.0.0.0/8|{fields(table[prefix])}" for prefix in sorted(table)], data, status=status)
        files.lines(f"history --same{words}", [
            f"{second}.000000|65001 192.0.2.1|{what}|{by}|{prefix + 10}.0.0.0/8|{fields(route)}" for second, what, by, prefix, route in told], data, status=status)
        files.lines(f"faults{words}", faults, data, status=status)
        found = files.run(f"churn{words}", data)[1].split("|")
        files.expect(f"churn{words} of seed {seed}", found[1:6] + [found[8]], [str(counts[name]) for name in counts])


def main():
    with tempfile.TemporaryDirectory() as folder:
        files = Files(os.path.realpath(sys.argv[1]), folder)
        values(files)
        lengths(files)
        rows(files)
        drawn(files, int(sys.argv[2]) if len(sys.argv) > 2 else 200)
    print(f"{files.passed} passed, {files.failed} failed")
    sys.exit(files.failed > 0)


main()
