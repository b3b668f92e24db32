#!/usr/bin/env python3
"""Asks the program, as tests/rows.py does, of dumps that are too long to be rows: each front of a body, of a message, of
the attributes of a RIB entry and of a file, and the greatest records.

usage: tests/fronts.py PROGRAM

A front of n bytes is a record of its own, whose lengths are those of the front. What is wanted follows from
docs/FORMATS.md, section 5: by family ipv6 the own fields of an UPDATE aren't examined past their lengths. The last line is `N passed, M failed`. Needs Python 3 and nothing else.
"""
import struct
import sys
import tempfile

sys.dont_write_bytecode = True
from rows import NAMES, PLANS, Question, bytes_of, write_dumps

LONG_PLANS = [["--workers", "1"], ["--workers", "3"]]

INDEX = bytes_of("peer-index-table")

# Types and subtypes, each with a body of it. A front is refused as ShortRecord, but for a RIB record's prefix that runs
# past the body, behind five bytes of it.
BODIES = [
    ("000D0001", INDEX[12:], 44),
    ("000D0002", bytes_of("rib-record")[12:], 48),
    ("000D0008", bytes_of("rib-record-with-identifier")[12:], 40),
    ("00100005", bytes_of("established-to-idle")[12:], 24),
    ("00110000", bytes_of("000000FA two-octet-session 0006 0001"), 24),
]

# Named records: where their attributes end, and each key behind them, in what stands behind the message's header.
MESSAGES = {
    "withdrawn-and-announced": (26, [28]), "of-three-lengths": (24, [25, 27, 30]), "two-octet-path": (39, [41]),
    "with-identifier": (24, [30]), "reached": (31, []), "reached-by-ipv6-pair": (59, []),
}

# The family, type, subtype and key of a RIB record, the attributes of its entry, and where each attribute ends.
HOP = "20010DB8000000000000000000000009"
ENTRIES = [
    ("ipv4", "000D0002", "080A", "plain-attributes", [0, 4, 13, 20]),
    ("ipv6", "000D0004", "2020010DB8", f"plain-attributes 800E11 10 {HOP}", [0, 4, 13, 20, 40]),
    ("ipv6", "000D0004", "2020010DB8", f"plain-attributes 900E0015 000201 10 {HOP} 00", [0, 4, 13, 20, 45]),
]


def record(kinds, body):
    return bytes_of(f"00000003 {kinds} {len(body):08X}") + body


def question(row, words, lines, damaged, counts):
    asked = Question("fronts.py", row, words)
    asked.lines, asked.damaged, asked.counts = lines, damaged, counts
    return asked


def fronts_of_bodies():
    """Yields a dump of each kind of record: an index table, each front of the body, and the body with a byte more."""
    for kinds, body, size in BODIES:
        if len(body) != size:
            raise ValueError(f"a body of {len(body)} bytes")
        dump, lines = INDEX, []
        for count in range(size):
            fault = "9|BadPrefix" if kinds in ("000D0002", "000D0008") and count == 5 else "4|ShortRecord"
            lines.append(f"1|{len(dump)}|-|{fault}")
            dump += record(kinds, body[:count])
        lines.append(f"1|{len(dump)}|-|5|TrailingBytes")
        dump += record(kinds, body + b"\0")
        counts = {"records": size + 2, "aside": 0, "units": 0}
        yield question(f"fronts of {kinds}", "faults", lines, size + 1, counts), [dump]


def faults_of(before, records, faults, entry):
    """Returns the lines of `faults` of a dump of these records behind others, of which each has a fault or none."""
    lines, at = [], before
    for one, fault in zip(records, faults):
        if fault:
            lines.append(f"1|{at}|{entry}|{fault}")
        at += len(one)
    return lines


def message_fault(size, family, attributes_end, key_ends):
    if size < 4:
        return "11|BadLength"
    if size < attributes_end:
        return "12|BadUpdate"
    return None if family == "ipv6" or size == attributes_end or size in key_ends else "9|BadPrefix"


def fronts_of_messages():
    """Yields a dump of each message, by each family: each front of what stands behind the message's header."""
    for name, ends in MESSAGES.items():
        head, session, _, update = (bytes_of(part.strip()) for part in NAMES[name].split("|"))
        records = []
        for size in range(len(update) + 1):
            body = session + b"\xff" * 16 + struct.pack(">HB", 19 + size, 2) + update[:size]
            records.append(head[:8] + struct.pack(">I", len(body)) + body)
        for family in ("ipv4", "ipv6"):
            lines = faults_of(0, records, [message_fault(size, family, *ends) for size in range(len(records))], "-")
            counts = {"records": len(records), "units": len(records)}
            yield question(f"fronts of {name}", f"faults --family {family}", lines, len(lines), counts), [b"".join(records)]


def fronts_of_attributes():
    """Yields a dump of RIB records of one entry, for each front of its attributes."""
    for family, kinds, key, attributes, ends in ENTRIES:
        whole, records = bytes_of(attributes), []
        for size in range(len(whole) + 1):
            entry = struct.pack(">HHIH", 1, 1, 1, size) + whole[:size]
            records.append(record(kinds, bytes_of("00000000 " + key) + entry))
        faults = [None if size in ends else "13|ShortAttribute" for size in range(len(records))]
        lines, counts = faults_of(len(INDEX), records, faults, "1"), {"records": len(records) + 1, "units": len(records)}
        yield question(f"fronts of {attributes}", f"faults --family {family}", lines, len(lines), counts), [INDEX + b"".join(records)]


def fronts_of_a_file():
    """Yields each front of three records as a file. Its whole records are read, and behind them comes one fault."""
    whole = bytes_of("peer-index-table rib-record announcement")
    ends = [0, 56, 116, 193]
    if len(whole) != ends[-1]:
        raise ValueError(f"a file of {len(whole)} bytes")
    dumps, lines, counts, totals = [], [], {}, [0, 0]
    for size in range(len(whole) + 1):
        dumps.append(whole[:size])
        number, records = len(dumps), sum(end <= size for end in ends) - 1
        # The second entry of the RIB record is damaged itself.
        if records >= 2:
            lines.append(f"{number}|56|2|14|BadAttribute(1)")
        rest = size - ends[records]
        if rest:
            lines.append(f"{number}|{ends[records]}|-|" + ("1|ShortHeader" if rest < 12 else "2|ShortBody"))
        units = [0, 0, 2, 3][records]
        counts |= {f"file {number} records": records, f"file {number} unread": rest, f"file {number} units": units}
        totals = [totals[0] + records, totals[1] + units]
    counts |= {"records": totals[0], "units": totals[1]}
    yield question("fronts of a file", "faults", lines, len(lines), counts), dumps


def greatest():
    """Yields records of 65,535 entries, each of 70000 192.0.2.2, and a body of 16,777,216 bytes."""
    counts = {"records": 2, "aside": 0, "units": 65535}
    # Without attributes: each but the first announces the same route again.
    line = "70000 192.0.2.2|up|1|65535|3.000000|3.000000|1|56|1"
    yield question("65,535 entries", "peers", [line], 0, counts), [INDEX + entries("0001 00000001 0000")]
    # With an ORIGIN that is damaged, each entry is listed by its number.
    lines = [f"1|56|{number}|14|BadAttribute(1)" for number in range(1, 65536)]
    dump = INDEX + entries("0001 00000001 0004 40010103")
    yield question("65,535 damaged entries", "faults", lines, 65535, counts), [dump]
    # All but the first 20 bytes are the message, which says that it has 65,535.
    dump = bytes_of("header-of-longest-body session").ljust(12 + 16777216, b"\xFF")
    counts = {"records": 1, "aside": 0, "units": 1, "file 1 unread": 0}
    yield question("the longest body", "faults", ["1|0|-|11|BadLength"], 1, counts), [dump]


def entries(words):
    """Returns a RIB record of 10.0.0.0/8 that has this entry 65,535 times."""
    return record("000D0002", bytes_of("00000000 080A FFFF") + bytes_of(words) * 65535)


def main(program):
    passed = failed = 0
    with tempfile.TemporaryDirectory() as folder:
        # A ring of one unit would take its time for 65,535 of them.
        fronts = (fronts_of_bodies, fronts_of_messages, fronts_of_attributes, fronts_of_a_file)
        for source, plans in [*((source, PLANS) for source in fronts), (greatest, LONG_PLANS)]:
            for asked, dumps in source():
                for plan, names in zip(plans, write_dumps(dumps, f"{folder}/{passed + failed}")):
                    wrong = asked.wrong_with(program, plan, names)
                    passed, failed = passed + (not wrong), failed + bool(wrong)
                    if wrong:
                        print(f"wrong: {asked.row}, {' '.join(asked.words + plan)}: {wrong[:1000]}")
    print(f"{passed} passed, {failed} failed")
    return 1 if failed or not passed else 0


if __name__ == "__main__":
    if len(sys.argv) != 2:
        sys.exit(__doc__)
    sys.exit(main(sys.argv[1]))
