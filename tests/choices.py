#!/usr/bin/env python3
"""Compares reports under `--origin`, `--path` and `--community` with what follows from the whole `tables`.

usage: tests/choices.py PROGRAM [DUMPS]

The lines of `tables` that are wanted are those of the whole run whose route a plain matcher of this file chooses: the
positions of a path one by one, a `*` by trying each number of them. What `match`, `visibility`, `seen`, `origins` and
`peers` print is worked out from these lines, and what `history` and `churn` print from the lines of the whole `history
--same`. Where a choice asks for communities, the whole run is one by `--attributes` of their kinds. Each is asked by
one worker and by four; `tables` also as JSON and by shares of the peers, and the rows of tests/rows packed.
DUMPS (20) drawn dumps have routes of both families with paths of all four kinds of segments, empty and absent ones,
and communities of all three kinds, damaged ones too, in messages and RIB entries, withdrawals and state changes, by
either rule on damage. Each
route has a MED of its own, by which its line is known: what is matched is what was drawn, and not the text. The
other dumps are those of examples/ and python/tests/dumps, each row of tests/rows, and the files in the directory that
the variable SAMPLES names; there the routes are read from the text. Choices are drawn, mostly from the routes that a
dump has. Then paths of a hundred full segments and masks of thousands of words, where what has to match is counted by
hand; what each option refuses; and `faults`, which has none of them. The last line is `N passed, M failed`. Needs
Python 3 and nothing else.
"""
import functools
import glob
import ipaddress
import itertools
import os
import random
import re
import struct
import subprocess
import sys
import tempfile
from concurrent.futures import ThreadPoolExecutor

HERE = os.path.dirname(os.path.abspath(__file__))
TOP = os.path.dirname(HERE)
sys.path.insert(0, HERE)
sys.dont_write_bytecode = True
from rows import questions_of, write_dumps

KINDS = {"communities": (8, 4), "extended": (16, 8), "large": (32, 12)}  # type, bytes of a member; in columns' order
REPORTS = ["tables", "visibility", "seen", "origins", "peers", "history", "churn"]  # and match, which needs an address
CHANGES = ["new", "changed", "same", "gone", "void"]  # in the order of the columns of `churn`
PLANS = [["--workers", "1"], ["--workers", "4", "--ring", "2"]]
SHOWN = 40  # how many wrong answers are printed
LONGEST = 300  # positions of a path that the plain matcher is asked about


# ---- the plain matcher

class Route:
    """What is chosen by: the positions of the path, each a set of numbers (None: no AS_PATH), the origin AS or None,
    and of each kind of community the members, as their text, and as sixteen digits where that is known."""

    def __init__(self, positions, origin, members):
        self.positions, self.origin, self.members = positions, origin, members


def steps_of(mask):
    """The words of a mask."""
    return mask.replace("[=", " ").replace("=]", " ").split()


def is_in(word, position):
    if word == "?":
        return True
    first, _, last = word.partition("..")
    return any(int(first) <= number <= int(last or first) for number in position)


def path_matches(steps, positions):
    """Whether the steps match the whole path: none is left where none of the path is left."""
    if positions is None:
        return False

    @functools.cache
    def match_from(step, at):
        if step == len(steps):
            return at == len(positions)
        if steps[step] == "*":
            return any(match_from(step + 1, behind) for behind in range(at, len(positions) + 1))
        return at < len(positions) and is_in(steps[step], positions[at]) and match_from(step + 1, at + 1)

    return match_from(0, 0)


def kind_of(pattern):
    if pattern.startswith(("0x", "rt:", "ro:")):
        return "extended"
    return "large" if pattern.count(":") == 2 else "communities"


def member_matches(pattern, member):
    text, digits = member
    if pattern.startswith("0x"):
        return digits == pattern
    parts, own = pattern.split(":"), text.split(":")
    return len(parts) == len(own) and all(part in ("*", other) for part, other in zip(parts, own))


class Choice:
    """Origins (`-` is None), masks and patterns; of a kind without any all are chosen."""

    def __init__(self, origins=(), paths=(), communities=()):
        self.origins, self.paths, self.communities = origins, paths, communities
        self.kinds = [kind for kind in KINDS if kind in map(kind_of, communities)]

    def chooses(self, route):
        if self.origins and route.origin not in self.origins:
            return False
        if self.paths and not any(path_matches(steps_of(mask), route.positions) for mask in self.paths):
            return False
        return not self.communities or any(
            member_matches(pattern, member) for pattern in self.communities for member in route.members[kind_of(pattern)])

    def words(self, draw):
        """The options, in some order and in both forms."""
        given = [("--origin", "-" if origin is None else str(origin)) for origin in self.origins]
        given += [("--path", mask) for mask in self.paths] + [("--community", pattern) for pattern in self.communities]
        draw.shuffle(given)
        return [word for name, value in given for word in draw.choice([[name, value], [f"{name}={value}"]])]


# ---- a route from its line

def positions_of(path):
    """The positions of a path from its text, and its origin AS: the last number, if it has no bracket round it."""
    if path == "-":
        return None, None
    positions = []
    for one_set, sequence, number in re.findall(r"[{\[]([0-9,]+)[}\]]|\(([0-9 ]+)\)|([0-9]+)", path):
        if one_set:
            positions.append(frozenset(map(int, one_set.split(","))))
        else:
            positions += [frozenset([int(one)]) for one in (sequence or number).split(" ")]
    last = re.search(r"[0-9]+\Z", path)
    return positions, int(last[0]) if last else None


def members_of(text):
    """Those of a column. One that is printed as sixteen digits is known by them, and no other member has these."""
    return [] if text == "-" else [(one, one if one.startswith("0x") else None) for one in text.split(" ")]


class Line:
    """A line of `tables`; `kinds` are those of its last columns."""

    def __init__(self, text, kinds):
        self.text = text
        self.cells = text.split("|")
        self.peer, self.key, self.path, self.med = self.cells[0], self.cells[1], self.cells[2], self.cells[5]
        self.prefix = ipaddress.ip_network(self.key.partition("#")[0])
        self.positions, self.origin = positions_of(self.path)
        self.members = {kind: [] for kind in KINDS} | dict(zip(kinds, map(members_of, self.cells[9:])))

    def route(self):
        return Route(self.positions, self.origin, self.members)


# ---- what follows from the lines that are chosen

def order_of(prefix):
    return prefix.network_address.packed, prefix.prefixlen


def visibility_of(lines):
    peers = {}
    for line in lines:
        peers.setdefault(line.prefix, set()).add(line.peer)
    return [f"{prefix}|{len(peers[prefix])}" for prefix in sorted(peers, key=order_of)]


def seen_counts(lines):
    peers = {}
    for line in lines:
        peers.setdefault((line.prefix, line.origin), set()).add(line.peer)
    return {key: len(some) for key, some in peers.items()}


def seen_of(counts):
    """No origin stands last."""
    keys = sorted(counts, key=lambda key: (order_of(key[0]), key[1] is None, key[1] or 0))
    return [f"{prefix}|{'-' if origin is None else origin}|{counts[prefix, origin]}" for prefix, origin in keys]


def origins_of(lines):
    origins = {}
    for line in lines:
        if line.origin is not None:
            origins.setdefault(line.prefix, set()).add(line.origin)
    several = [prefix for prefix in origins if len(origins[prefix]) > 1]
    return [f"{prefix}|{' '.join(map(str, sorted(origins[prefix])))}" for prefix in sorted(several, key=order_of)]


def peers_of(lines, whole):
    """The lines of the whole `peers`, with the routes that are chosen."""
    found = []
    for text in whole:
        cells = text.split("|")
        cells[2] = str(sum(line.peer == cells[0] for line in lines))
        found.append("|".join(cells))
    return found


def events_of(texts, kinds, chooses):
    """Of the lines of a whole `history --same` those where the key's route behind the event or before it is chosen."""
    routes, found = {}, []
    for text in texts:
        time, peer, what, _, *cells = text.split("|")
        was_chosen = routes.get((peer, cells[0]), False)
        is_chosen = what in ("new", "changed", "same") and chooses(Line("|".join([peer, *cells]), kinds))
        routes[peer, cells[0]] = is_chosen
        if was_chosen or is_chosen:
            found.append((float(time), peer, what, text))
    return found


def churn_of(events, whole):
    """The lines of the whole `churn`, with the events that are chosen."""
    found = []
    for text in whole:
        peer, *cells = text.split("|")
        counts = [sum((peer, what) == event[1:3] for event in events) for what in CHANGES]
        found.append("|".join([peer, *map(str, counts), *cells[len(CHANGES):]]))
    return found


def match_of(lines, address):
    address, longest = ipaddress.ip_address(address), {}
    inside = [line for line in lines if address in line.prefix]
    for line in inside:
        longest[line.peer] = max(longest.get(line.peer, 0), line.prefix.prefixlen)
    return [line.text for line in inside if line.prefix.prefixlen == longest[line.peer]]


# ---- runs

class Checks:
    def __init__(self, program):
        self.program, self.passed, self.failed = program, 0, 0

    def run(self, words, files=()):
        """Status, lines, and standard error without the counts of `--summary`, which come behind it."""
        ran = subprocess.run([self.program, *words, "--summary", "--", *files], stdin=subprocess.DEVNULL, capture_output=True,
                             text=True, errors="replace", timeout=120)
        said, counts = [], {}
        for line in ran.stderr.splitlines():
            found = re.fullmatch(r"([a-z_]+|file \d+( [a-z ]+)?): (\S+)", line)
            if found and found[1] != "damaged":
                counts[found[1]] = found[3]
            elif not line.startswith("file "):
                said.append(line)
        return ran.returncode, ran.stdout.splitlines(), said, counts

    def judge(self, what, is_right, why=""):
        if is_right:
            self.passed += 1
        else:
            self.failed += 1
            if self.failed <= SHOWN:
                print(f"wrong: {what}: {why}"[:1500])

    def same(self, what, found, wanted):
        for number, (one, other) in enumerate(itertools.zip_longest(found, wanted), 1):
            if one != other:
                self.judge(what, False, f"line {number} is {one!r} in place of {other!r}")
                return
        self.judge(what, True)


class Dump:
    """A run's dumps with some options, and what it prints without a choice of routes. `route_of` says what the route of
    a line is."""

    def __init__(self, checks, files, words, route_of=Line.route):
        self.checks, self.files, self.words, self.route_of = checks, files, words, route_of
        self.wholes, self.parsed = {}, {}

    def whole(self, report, kinds, *form):
        """The whole run of a report by attributes of these kinds."""
        key = report, *kinds, *form
        if key not in self.wholes:
            words = ["--attributes", ",".join(kinds)] if kinds else []
            self.wholes[key] = self.checks.run([report, *self.words, *words, *form], self.files)
        return self.wholes[key]

    def lines(self, kinds=()):
        key = tuple(kinds)
        if key not in self.parsed:
            self.parsed[key] = [Line(text, kinds) for text in self.whole("tables", kinds)[1]]
        return self.parsed[key]

    def wanted(self, choice, addresses, since):
        """The lines of `tables` that are chosen, and what each report has of them."""
        lines = self.lines(choice.kinds)
        lines = [line for line, is_chosen in zip(lines, self.chosen(choice, lines)) if is_chosen]
        reports = {
            ("tables",): [line.text for line in lines], ("visibility",): visibility_of(lines),
            ("seen",): seen_of(seen_counts(lines)), ("origins",): origins_of(lines),
            ("peers",): peers_of(lines, self.whole("peers", choice.kinds)[1])}
        for address in addresses:
            reports["match", "--address", address] = match_of(lines, address)
        more = [] if since is None else ["--since", str(since)]
        events = events_of(self.whole("history", choice.kinds, "--same")[1], choice.kinds, lambda line: choice.chooses(self.route_of(line)))
        events = [event for event in events if since is None or event[0] >= since]
        reports["history", *more] = [text for _, _, what, text in events if what != "same"]
        reports["history", "--same", *more] = [text for *_, text in events]
        reports["churn", *more] = churn_of(events, self.whole("churn", choice.kinds, *more)[1])
        return lines, reports

    def chosen(self, choice, lines):
        return [choice.chooses(self.route_of(line)) for line in lines]

    def try_choice(self, choice, addresses, draw, since=None, plans=PLANS):
        words = [*choice.words(draw), *self.words]
        lines, reports = self.wanted(choice, addresses, since)
        for report, wanted in reports.items():
            status, _, said, counts = self.whole(report[0], choice.kinds, *report[1:])
            for plan in plans:
                what = f"{[*report, *words, *plan]} {' '.join(map(os.path.basename, self.files))}"
                found = self.checks.run([*report, *words, *plan], self.files)
                self.checks.same(what, found[1], wanted)
                self.checks.judge(f"{what}: status", found[0] == status, f"{found[0]} in place of {status}")
                self.checks.same(f"{what}: standard error", found[2], said)
                wanted_counts = counts | {"routes": str(len(lines))}
                keys = ["records", "units", "peers", "routes"]
                has, should = ({key: some.get(key) for key in keys} for some in (found[3], wanted_counts))
                self.checks.judge(f"{what}: counts", has == should, f"{has} in place of {should}")

    def try_forms(self, choice, draw):
        """The lines as JSON, and shares of the peers, which add up."""
        words, kinds = [*choice.words(draw), *self.words], choice.kinds
        lines = self.lines(kinds)
        chosen = self.chosen(choice, lines)
        what = f"{words} {' '.join(map(os.path.basename, self.files))}"
        objects = self.whole("tables", kinds, "--format", "json")[1]
        self.checks.same(f"{what} as JSON", self.checks.run(["tables", "--format", "json", *words], self.files)[1],
                         [text for text, is_chosen in zip(objects, chosen) if is_chosen])
        lines = [line for line, is_chosen in zip(lines, chosen) if is_chosen]
        count = draw.randrange(1, 5)
        shares = [["--peers", f"{number}/{count}"] for number in range(1, count + 1)]
        printed = [self.checks.run(["tables", *words, *share], self.files)[1] for share in shares]
        self.checks.same(f"{what}: {count} shares of tables", sorted(sum(printed, [])), sorted(line.text for line in lines))
        counts = {}
        for share in shares:
            for text in self.checks.run(["seen", *words, *share], self.files)[1]:
                prefix, origin, peers = text.split("|")
                key = ipaddress.ip_network(prefix), None if origin == "-" else int(origin)
                counts[key] = counts.get(key, 0) + int(peers)
        self.checks.same(f"{what}: {count} shares of seen", seen_of(counts), seen_of(seen_counts(lines)))


# ---- choices, drawn

def drawn_number_word(draw, numbers):
    """A word that a position with one of the numbers matches, mostly."""
    number = draw.choice(sorted(numbers))
    if draw.random() < 0.6:
        return str(number)
    lowest, highest = draw.randrange(3), draw.randrange(3)
    ends = max(0, number - draw.choice([0, 1, number])), min(2**32 - 1, number + draw.choice([0, 1, 2**32]))
    # Now and then the number is the one before the range, or behind it.
    if lowest == 0 and highest == 0 and 0 < number < 2**32 - 1:
        ends = draw.choice([(0, number - 1), (number + 1, 2**32 - 1)])
    return f"{ends[0]}..{ends[1]}"


def drawn_mask(draw, paths):
    """A mask of one of the paths, with words left out, replaced, and stars between; or of words alone."""
    path = draw.choice(paths) if paths and draw.random() < 0.85 else [{0}, {1}, {174}][: draw.randrange(4)]
    first, last = draw.choice([(0, len(path)), (0, len(path)), sorted(draw.choices(range(len(path) + 1), k=2))])
    words = []
    for position in path[first:last][:8]:
        turn = draw.random()
        words += (["*"] if turn < 0.15 else ["?"] if turn < 0.3 else ["?", "*"] if turn < 0.35 else [] if turn < 0.4
                  else [drawn_number_word(draw, position)])
    for at in 0, len(words):
        if draw.random() < 0.45:
            words.insert(at and len(words), draw.choice(["*", "*", "* *", "?"]))
    text = "".join(word + draw.choice([" ", "  ", "\t", " \t "]) for word in words).strip()
    if not text or draw.random() < 0.4:
        return draw.choice(["[= {} =]", "[={}=]", " [={} =] ", "[=\t{}=]"]).format(text)
    return draw.choice(["{}", " {}", "{}\t"]).format(text)


def drawn_pattern(draw, members):
    """A pattern of one of the members, of which parts are any; or of none."""
    if not members or draw.random() < 0.1:
        return draw.choice(["65000:*", "*:*", "*:*:*", "rt:*:*", "ro:65000:*", "0x0000000000000000", "1:2:3", "65535:666"])
    text, digits = draw.choice(members)
    if digits and (text == digits or draw.random() < 0.3):
        return digits
    role, *parts = text.split(":") if text.startswith("r") else (None, *text.split(":"))
    parts = ["*" if draw.random() < 0.3 else part for part in parts]
    return ":".join(parts if role is None else [role, *parts])


def drawn_choice(draw, routes):
    """Of one kind or several, up to three values each."""
    paths = [route.positions for route in routes if route.positions is not None and len(route.positions) <= LONGEST]
    members = [member for route in routes for some in route.members.values() for member in some]
    origins = [route.origin for route in routes] + [None, 64511]
    kinds = draw.choice([[0], [1], [1], [2], [0, 1], [1, 2], [0, 2], [0, 1, 2]])
    count = lambda kind: draw.choice([1, 1, 2, 3]) if kind in kinds else 0
    return Choice([draw.choice(origins) for _ in range(count(0))], [drawn_mask(draw, paths) for _ in range(count(1))],
                  [drawn_pattern(draw, members) for _ in range(count(2))])


# ---- dumps, drawn

def attribute(code, value, flags=0xC0):
    return bytes([flags | 0x10, code]) + struct.pack(">H", len(value)) + value


def record(second, kind, subtype, body):
    return struct.pack(">IHHI", second, kind, subtype, len(body)) + body


def path_bytes(path, is_wide=True):
    form = "I" if is_wide else "H"
    return b"".join(struct.pack(f">BB{len(numbers)}{form}", kind, len(numbers), *numbers) for kind, numbers in path)


PEERS = [(65001, "192.0.2.1"), (65001, "192.0.2.2"), (70000, "2001:db8::7"), (4200000000, "192.0.2.9")]
INTERNAL = PEERS[1]
PREFIXES = {
    1: ["0.0.0.0/0", "10.0.0.0/8", "10.64.0.0/10", "10.64.7.0/24", "192.0.2.128/25"],
    2: ["::/0", "2001:db8::/32", "2001:db8:8000::/33", "2001:db8:0:7::/64"],
}
ADDRESSES = {1: ["10.64.7.9", "192.0.2.200"], 2: ["2001:db8:0:7::1", "2001:db8:8000::"]}
HOPS = {1: ipaddress.ip_address("192.0.2.254").packed, 2: ipaddress.ip_address("2001:db8::fe").packed}
HIGH = 2**32 - 1


def prefix_bytes(text):
    prefix = ipaddress.ip_network(text)
    return bytes([prefix.prefixlen]) + prefix.network_address.packed[: (prefix.prefixlen + 7) // 8]


def session(peer, is_wide):
    asn, address = peer[0], ipaddress.ip_address(peer[1])
    asns = struct.pack(">II" if is_wide else ">HH", asn, asn if peer == INTERNAL else 64999)
    return asns + struct.pack(">HH", 1, 1 if address.version == 4 else 2) + address.packed + bytes(len(address.packed))


def message(second, peer, attributes, *, keys=b"", withdrawn=b"", subtype=4):
    """Subtypes 1 and 4 have numbers of two bytes and of four, 9 also path identifiers."""
    body = b"".join(struct.pack(">H", len(field)) + field for field in (withdrawn, attributes)) + keys
    update = b"\xff" * 16 + struct.pack(">HB", 19 + len(body), 2) + body
    return record(second, 16, subtype, session(peer, subtype != 1) + update)


def index():
    body = bytes(4) + struct.pack(">HH", 0, len(PEERS))
    for asn, text in PEERS:
        address = ipaddress.ip_address(text).packed
        body += bytes([2 | (len(address) == 16)]) + bytes(4) + address + struct.pack(">I", asn)
    return record(1000, 13, 1, body)


def extended_text(member):
    """A route target and a route origin of the three types that have an administrator and a number."""
    if member[0] > 2 or member[1] not in (2, 3):
        return "0x" + member.hex()
    at = 4 if member[0] == 0 else 6
    who, what = member[2:at], int.from_bytes(member[at:], "big")
    who = ipaddress.IPv4Address(who) if member[0] == 1 else int.from_bytes(who, "big")
    return f"{'rt' if member[1] == 2 else 'ro'}:{who}:{what}"


def member_of(kind, member):
    if kind == "extended":
        return extended_text(member), "0x" + member.hex()
    size = 2 if kind == "communities" else 4
    return ":".join(str(int.from_bytes(member[at: at + size], "big")) for at in range(0, len(member), size)), None


STANDARD = [struct.pack(">HH", *halves) for halves in [(65000, 1), (65000, 666), (65535, 666), (0, 0), (174, 1), (65535, 65535)]]
LARGE = [struct.pack(">III", *parts) for parts in [(65000, 1, 2), (65000, 1, 3), (HIGH, 0, HIGH), (0, 0, 0), (1, 65000, 666)]]
# The first three have the same text by two types; then an address, other types and other subtypes.
EXTENDED = [bytes.fromhex(digits) for digits in [
    "0002fde800000001", "02020000fde80001", "0003fde800000001", "0102c00002010007", "0002fde8ffffffff", "0202000111700009",
    "4002fde800000001", "000bfde800000001", "0302fde800000001", "0103fde800000001", "0000000000000000", "ffffffffffffffff"]]
POOLS = {"communities": STANDARD, "extended": EXTENDED, "large": LARGE}


def drawn_path(draw):
    if draw.random() < 0.1:
        return None
    numbers = draw.choice([[0, 1, 174, 3356, 65000], [174, 3356, 64496, 64497], [1, 70000, HIGH]])
    kinds = draw.choice([[], [2], [2], [2], [2, 1], [3, 2], [4, 2, 1], draw.choices([1, 2, 3, 4], k=draw.randrange(1, 5))])
    return [(kind, draw.choices(numbers, k=draw.randrange(1, 5))) for kind in kinds]


class Drawn:
    """A dump, and its routes by their MED."""

    def __init__(self, seed):
        self.draw, self.routes, self.data = random.Random(seed), {}, b""
        for number in range(self.draw.randrange(1, 40)):
            if number == 0 or self.draw.random() < 0.05:
                self.data += index()
            self.data += self.drawn_record(1000 + number, number + 1)

    def route_of(self, line):
        """What was drawn; the text of its path has to say the same, and so have the columns of communities."""
        route = self.routes[int(line.med)]
        if (line.positions, line.origin) != (route.positions, route.origin):
            raise ValueError(f"the path of {line.text}")
        for kind, members in line.members.items():
            if members and [text for text, _ in members] != [text for text, _ in route.members[kind]]:
                raise ValueError(f"the {kind} of {line.text}")
        return route

    def attributes(self, med):
        """Those of a route, by their types, and whether its numbers fit two bytes. A damaged one is damage where it's
        asked for alone."""
        draw, path, members = self.draw, drawn_path(self.draw), {}
        found = {1: bytes([draw.randrange(3)]), 4: struct.pack(">I", med)}
        for kind, (code, _) in KINDS.items():
            some = draw.choices(POOLS[kind], k=draw.choice([0, 0, 1, 1, 2, 5]))
            members[kind] = [member_of(kind, member) for member in some]
            if some:
                found[code] = b"".join(some)
            if draw.random() < 0.03:
                found[code] = bytes(draw.choice([0, 3, 13]))
        if draw.random() < 0.06:
            found[draw.choice([1, 5, 6, 7])] = bytes(5)
        positions = origin = None
        if path is not None:
            positions = [frozenset(part) for kind, numbers in path
                         for part in ([numbers] if kind in (1, 4) else [[number] for number in numbers])]
            origin = path[-1][1][-1] if path and path[-1][0] == 2 else None
        self.routes[med] = Route(positions, origin, members)
        is_narrow = path is not None and all(number < 65536 for _, numbers in path for number in numbers)
        return found, path, is_narrow

    def drawn_record(self, second, med):
        draw, peer, afi = self.draw, self.draw.choice(PEERS), self.draw.choice([1, 2])
        turn, key = draw.random(), prefix_bytes(draw.choice(PREFIXES[afi]))
        if turn < 0.06:
            return record(second, 16, 5, session(peer, True) + draw.choice([b"\0\6\0\1", b"\0\5\0\6", b"\0\6\0\6"]))
        if turn < 0.16:
            own, reach = (key, b"") if afi == 1 else (b"", attribute(15, struct.pack(">HB", 2, 1) + key))
            return message(second, peer, reach, withdrawn=own)
        found, path, is_narrow = self.attributes(med)
        is_entry, has_identifier = draw.random() < 0.4, draw.random() < 0.4
        subtype = 9 if has_identifier else draw.choice([1, 4]) if is_narrow and peer[0] < 65536 else 4
        if path is not None:
            found[2] = path_bytes(path, is_entry or subtype != 1)
        identifier = draw.choice([bytes(4), b"\0\0\0\7"]) if has_identifier else b""
        if is_entry:
            found[3 if afi == 1 else 14] = HOPS[1] if afi == 1 else b"\x10" + HOPS[2]
            spelled = self.spelled(found)
            entry = struct.pack(">HI", PEERS.index(peer), second) + identifier + struct.pack(">H", len(spelled)) + spelled
            return record(second, 13, (2 if afi == 1 else 4) + 6 * has_identifier, bytes(4) + key + b"\0\1" + entry)
        if afi == 1:
            found[3] = HOPS[1]
        else:
            found[14] = struct.pack(">HBB", 2, 1, 16) + HOPS[2] + b"\0" + identifier + key
        keys = identifier + key if afi == 1 else b""
        return message(second, peer, self.spelled(found), keys=keys, subtype=subtype)

    @staticmethod
    def spelled(found):
        return b"".join(attribute(code, value) for code, value in sorted(found.items()))


def try_drawn(checks, pool, folder, count):
    def one(seed):
        drawn, name = Drawn(seed), f"{folder}/drawn-{seed}"
        with open(name, "wb") as file:
            file.write(drawn.data)
        draw = drawn.draw
        for afi, family in (1, "ipv4"), (2, "ipv6"):
            more = draw.choice([[], [], ["--until", str(1000 + draw.randrange(40))], ["--states", "established"],
                                ["--rib", "replace"], ["--prefix", draw.choice(PREFIXES[afi]) + draw.choice(["", "+", "-"])],
                                ["--peer", "65001"]])
            more += draw.choice([[], [], ["--errors", "rfc7606"]])
            dump = Dump(checks, [name], ["--family", family, *more], drawn.route_of)
            for _ in range(3):
                choice = drawn_choice(draw, list(drawn.routes.values()))
                since = 1000 + draw.randrange(40) if draw.random() < 0.5 and "--until" not in more else None
                dump.try_choice(choice, ADDRESSES[afi], draw, since)
            dump.try_forms(choice, draw)

    return [pool.submit(one, seed) for seed in range(count)]


# ---- dumps of the repository, and of SAMPLES

def samples(folder):
    examples = [f"{TOP}/examples/{name}.mrt" for name in ("sample", "updates")]
    yield examples, 8
    others = sorted(glob.glob(f"{TOP}/python/tests/dumps/*.mrt"))
    if os.environ.get("SAMPLES"):
        others += sorted(glob.glob(f"{glob.escape(os.environ['SAMPLES'])}/*"))
    yield from (([file], 4) for file in [examples[0], *others] if os.path.isfile(file))
    had = set()
    for file in sorted(glob.glob(f"{HERE}/rows/*.rows")):
        for number, (_, dumps) in enumerate(questions_of(file)):
            if tuple(dumps) not in had:
                had.add(tuple(dumps))
                _, packed = write_dumps(dumps, f"{folder}/{os.path.basename(file)}-{number}")
                yield packed, 1


def try_samples(checks, pool, folder):
    def one(number, files, count):
        draw, is_row = random.Random(number), count == 1
        for family in "ipv4", "ipv6":
            dump = Dump(checks, files, ["--family", family])
            lines = dump.lines(list(KINDS))
            if not lines or any(len(line.positions or ()) > LONGEST for line in lines):
                continue
            for _ in range(count):
                address = str(draw.choice(lines).prefix.broadcast_address)
                choice = drawn_choice(draw, [line.route() for line in draw.sample(lines, min(len(lines), 30))])
                dump.try_choice(choice, [address], draw, plans=PLANS[number % 2:][:1] if is_row else PLANS)
            if not is_row:
                dump.try_forms(choice, draw)

    return [pool.submit(one, number, files, count) for number, (files, count) in enumerate(samples(folder))]


# ---- long paths and masks

def try_hostile(checks, folder):
    """Two-octet messages have room for a hundred full segments; what matches is counted here. `longest` are 25,500
    positions: all but the last are AS 1, of `two` that one is 2. `sets` are a hundred positions of 1 to 255."""
    ones, some = [1] * 255, list(range(1, 256))
    paths = {
        "10.0.0.0/16": [(2, ones)] * 100, "10.1.0.0/16": [(2, ones)] * 99 + [(2, ones[1:] + [2])],
        "10.2.0.0/16": [(1, some)] * 100, "10.3.0.0/16": [(3, ones)] * 100, "10.4.0.0/16": [(4, some)] * 100,
        "10.5.0.0/16": [], "10.6.0.0/16": None}
    one, two, sets, confederation, confederation_sets, empty, absent = paths
    sequences, all_sets = [one, two, confederation], [sets, confederation_sets]
    data = b""
    for prefix, path in paths.items():
        value = [] if path is None else [attribute(2, path_bytes(path, False))]
        attributes = b"".join([attribute(1, b"\0"), *value, attribute(3, HOPS[1])])
        data += message(1000, PEERS[0], attributes, keys=prefix_bytes(prefix), subtype=1)
    name = f"{folder}/hostile"
    with open(name, "wb") as file:
        file.write(data)
    for masks, wanted in [
        (["* ? " * 25500], sequences), (["* ? " * 25501], []), (["? * " * 101], sequences), (["* ? " * 100], sequences + all_sets),
        (["? " * 25500], sequences), (["? " * 25499], []), (["? " * 100], all_sets), (["*\t" * 50000], [*sequences, *all_sets, empty]),
        (["* " + "1 " * 2000 + "2"], [two]), (["* " + "1 " * 2000 + "2 *"], [two]), (["* " + "1 " * 2000 + "2 * 1"], []),
        (["* 1 * 2 " * 50], all_sets), (["* 2 " * 100], all_sets), (["* 2 " * 101], []), (["* 2 *"], [two, *all_sets]),
        (["1..255 " * 100], all_sets), (["1..1 " * 25500], [one, confederation]), (["255 " * 99 + "0..1"], all_sets),
        (["256..4294967295 *", "0 *", "* 256"], []), (["1 " * 25499 + "2", "[==]"], [two, empty]),
        (["* 3 ?"] * 200 + ["* 1"], [one, *all_sets, confederation]), ([f"* {number} ?" for number in range(300, 600)] + ["*"], [*sequences, *all_sets, empty]),
    ]:
        words = [f"--path={mask}" for mask in masks]
        for plan in PLANS:
            status, lines, _, _ = checks.run(["visibility", *words, *plan], [name])
            checks.same(f"{len(masks)} masks as {masks[0][:20]!r}", [status, *lines], [0, *(f"{prefix}|1" for prefix in sorted(wanted))])
    for words, wanted in [(["--origin", "1"], [one]), (["--origin", "2"], [two]), (["--origin", "-"], [*all_sets, confederation, empty, absent]),
                          (["--origin", "-", "--path", "*"], [*all_sets, confederation, empty]), (["--origin", "3"], [])]:
        lines = checks.run(["visibility", *words], [name])[1]
        checks.same(f"hostile paths by {words}", lines, [f"{prefix}|1" for prefix in sorted(wanted)])


# ---- refusals

REFUSED = {
    "--origin": ["", "4294967296", "AS64496", "01", "+1", "1..2", "1,2", " 1", "*", "?", "none", "--", "0x1"],
    "--path": ["", " ", "\t", "[=", "=]", "[= 1", "1 =]", "[=]", "2..1", "1..", "..1", "1...2", "1..2..3", "4294967296", "1..4294967296",
               "+1", "01", "**", "??", "1,2", "AS1", "1 =] 2", "[= [= 1 =] =]", "1\n2", "{1}", "(1)", "1 - 2", "_1_", "^1$", "-"],
    "--community": ["", "1", ":", "1:", ":1", "65536:1", "1:65536", "1:2:4294967296", "4294967296:1:2", "1:2:3:4", "01:1", "1:01", "65000:?",
                    "*", "rt", "rt:", "rt:1", "rt:1:", "rt:65536:65536", "rt:1:4294967296", "rt:4294967296:1", "rt:192.0.2.1:65536", "rt:192.0.2:1",
                    "rt:256.0.2.1:1", "rt:1:2:3", "RT:1:2", "soo:1:2", "0x", "0x0002fde80000001", "0x0002fde8000000011", "0x0002FDE800000001",
                    "0X0002fde800000001", "0002fde800000001", "no-export", "1:2 3:4", " 1:2", "1:-1", "1:2:", "(1,2)", "192.0.2.1:1"],
}


def try_words(checks):
    files = [f"{TOP}/examples/sample.mrt"]
    commands = [*([report] for report in REPORTS), ["match", "--address", "17.150.214.7"]]
    for (option, texts), command in itertools.product(REFUSED.items(), commands):
        for text in texts:
            status, lines, said, _ = checks.run([*command, f"{option}={text}"], files)
            shape = re.escape(f"error: invalid value '{text}' for '{option} <") + "[A-Z]+>': ."
            checks.judge(f"{command} {option}={text!r}", (status, lines) == (2, []) and re.match(shape, "\n".join(said)),
                         f"status {status}, {said[:1]}")
        status, lines, said, _ = checks.run([*command, *files, option])
        checks.judge(f"{command} {option} without a value", (status, lines) == (2, []), f"status {status}, {said[:1]}")
        is_listed = re.search(rf"^ +{option}\b", subprocess.run([checks.program, command[0], "--help"], capture_output=True, text=True).stdout, re.M)
        checks.judge(f"{command[0]} --help has {option}", is_listed)
    for option, value in ("--origin", "1"), ("--path", "*"), ("--community", "1:1"):
        status, lines, said, _ = checks.run(["faults", option, value], files)
        checks.judge(f"faults {option}", (status, lines) == (2, []) and said and option in said[0], f"status {status}, {said[:1]}")
    # A choice that chooses all is that of the whole, and of the attribute that it asks for each route has one.
    for command in commands:
        whole = checks.run(command, files)
        for words in [["--origin", "-", *(f"--origin={line.origin}" for line in map(lambda text: Line(text, []), checks.run(["tables"], files)[1])
                                          if line.origin is not None)], ["--path", "*"], ["--path", "[= * =]", "--path", "* ? *"]]:
            checks.same(f"{command} {words[:2]}", checks.run([*command, *words], files)[1], whole[1])


def main(program, count=20):
    checks = Checks(program)
    with tempfile.TemporaryDirectory() as folder, ThreadPoolExecutor(os.cpu_count()) as pool:
        runs = try_drawn(checks, pool, folder, count) + try_samples(checks, pool, folder)
        runs += [pool.submit(try_words, checks), pool.submit(try_hostile, checks, folder)]
        for run in runs:
            run.result()
    print(f"{checks.passed} passed, {checks.failed} failed")
    return 1 if checks.failed or not checks.passed else 0


if __name__ == "__main__":
    if len(sys.argv) < 2:
        sys.exit(__doc__)
    sys.exit(main(os.path.abspath(sys.argv[1]), *map(int, sys.argv[2:])))
