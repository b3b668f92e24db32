#!/usr/bin/env python3
"""Compares `--format json` with the lines that follow from the text of the same run, byte for byte, in all reports.

usage: tests/json.py PROGRAM [DUMPS]

The lines that are wanted are made here of `--addresses short`, by docs/USAGE.md: keys and their order, null for `-`,
the origin AS of a path. Dumps are those of examples/ and python/tests/dumps, each row of tests/rows, DUMPS (12) drawn
ones of each family, every third by --errors rfc7606, and the files in the directory that the variable SAMPLES names.
Each is asked by either family, with all attributes and with none, with `--same` and `--since`, by one worker and by
several with a short ring; those of the repository also packed. Status and standard error have to be those of the text.
Each line is also read by Python's `json`, which has to find the keys of its report, once each and in order, with values
of their types. The lines of tests/rows/json.rows, worked out by hand, have to be those that are made here, too. Then
what `--format` refuses, that `text` is the default, and what has no effect on JSON. The last line is `N passed, M
failed`. Needs Python 3 and nothing else.
"""
import os
import sys

HERE = os.path.dirname(os.path.realpath(__file__))
sys.path[:] = [path for path in sys.path if os.path.realpath(path or ".") != HERE]
import json  # Python's: this file has its name

import glob
import gzip
import itertools
import random
import re
import struct
import subprocess
import tempfile
from concurrent.futures import ThreadPoolExecutor

sys.path.insert(0, HERE)
sys.dont_write_bytecode = True
from rows import PLANS, questions_of, write_dumps

TOP = os.path.dirname(HERE)
ATTRIBUTES = ["communities", "extended", "large", "originator", "clusters", "otc"]
SHOWN = 40  # how many wrong answers are printed


# ---- a line of text as a line of JSON

def matching(pattern, text):
    if not re.fullmatch(pattern, text):
        raise ValueError(f"{text!r} isn't {pattern}")
    return text


def of_number(text):
    return "null" if text == "-" else matching("0|[1-9][0-9]*", text)


def of_time(text):
    return "null" if text == "-" else matching(r"(0|[1-9][0-9]*)\.[0-9]{6}", text)


def of_text(text):
    """None of the texts has a character that JSON would write otherwise."""
    return "null" if text == "-" else '"' + matching(r'[ !#-\[\]-~]*', text) + '"'


def of_list(text):
    return "null" if text == "-" else "[" + ",".join(map(of_text, text.split(" "))) + "]"


def column(key, value_of):
    return lambda text: [(key, value_of(text))]


def pair(number, address):
    def of(text):
        asn, _, ip = ("-", " ", "-") if text == "-" else text.partition(" ")
        return [(number, of_number(asn)), (address, of_text(matching("-|[0-9a-f.:]+", ip)))]
    return of


def of_key(text):
    prefix, _, identifier = text.partition("#")
    return [("prefix", of_text(prefix)), ("path_id", of_number(identifier or "-"))]


def of_path(text):
    """The origin AS is the last number of the last segment, if that is an AS_SEQUENCE: all others have brackets."""
    last = re.search(r"[0-9]+\Z", text)
    return [("as_path", of_text(text)), ("origin_asns", f"[{last[0] if last else ''}]")]


PEER = [pair("peer_asn", "peer_ip")]
PREFIX, PEERS = column("prefix", of_text), column("peers", of_number)
ROUTE = [
    of_path, column("next_hop", of_text), column("origin", of_text), column("med", of_number),
    column("local_pref", of_number), column("atomic", lambda text: {"atomic": "true", "-": "false"}[text]),
    pair("aggr_asn", "aggr_ip"),
]
COUNTS = ["new", "changed", "same", "gone", "void", "resets", "idle", "refused"]
PLACE = [column(key, of_number) for key in ("file", "offset", "entry")]
TIMES = [column(key, of_time) for key in ("first", "last")]
COLUMNS = {
    "tables": [*PEER, of_key, *ROUTE],
    "match": [*PEER, of_key, *ROUTE],
    "history": [column("timestamp", of_time), *PEER, column("what", of_text), column("by", of_text), of_key, *ROUTE],
    "visibility": [PREFIX, PEERS],
    "origins": [PREFIX, column("origin_asns", lambda text: "[" + ",".join(map(of_number, text.split(" "))) + "]")],
    "seen": [PREFIX, column("origin_asn", of_number), PEERS],
    "churn": [*PEER, *(column(key, of_number) for key in COUNTS), *TIMES],
    "peers": [*PEER, column("state", of_text), column("routes", of_number), column("units", of_number), *TIMES, *PLACE],
    "faults": [*PLACE, column("number", of_number), column("fault", of_text)],
}
OF_ATTRIBUTE = {"originator": of_text, "otc": of_number}


def json_line(report, asked, line):
    """A line of the report as JSON. `asked` are the further attributes that have columns."""
    further = [column(name, OF_ATTRIBUTE.get(name, of_list)) for name in asked]
    cells, columns = line.split("|"), COLUMNS[report] + further
    if len(cells) != len(columns):
        raise ValueError(f"{len(cells)} columns in place of {len(columns)}: {line}")
    pairs = [found for of, cell in zip(columns, cells) for found in of(cell)]
    if report == "history" and cells[2] == "void":  # there is no route that could have ATOMIC_AGGREGATE
        pairs = [(key, "null" if key == "atomic" else value) for key, value in pairs]
    return "{" + ",".join(f'"{key}":{value}' for key, value in pairs) + "}"


def json_text(report, asked, text):
    return "".join(json_line(report, asked, line) + "\n" for line in text.split("\n")[:-1])


# ---- what a reader finds: the keys of each report, and of each key the types that its value may have

ROUTE_KEYS = "prefix path_id as_path origin_asns next_hop origin med local_pref atomic aggr_asn aggr_ip".split()
KEYS = {
    "tables": ["peer_asn", "peer_ip", *ROUTE_KEYS],
    "match": ["peer_asn", "peer_ip", *ROUTE_KEYS],
    "history": ["timestamp", "peer_asn", "peer_ip", "what", "by", *ROUTE_KEYS],
    "visibility": ["prefix", "peers"],
    "origins": ["prefix", "origin_asns"],
    "seen": ["prefix", "origin_asn", "peers"],
    "churn": "peer_asn peer_ip new changed same gone void resets idle refused first last".split(),
    "peers": "peer_asn peer_ip state routes units first last file offset entry".split(),
    "faults": ["file", "offset", "entry", "number", "fault"],
}
NONE = type(None)
TYPES = {key: (int,) for key in ("peer_asn", "peers", "routes", "units", "file", "offset", "number", *COUNTS)}
TYPES |= {key: (int, NONE) for key in ("path_id", "med", "local_pref", "aggr_asn", "origin_asn", "entry", "otc")}
TYPES |= {key: (str,) for key in ("peer_ip", "prefix", "state", "what", "by", "fault")}
TYPES |= {key: (str, NONE) for key in ("as_path", "next_hop", "origin", "aggr_ip", "originator")}
TYPES |= {key: (float, NONE) for key in ("first", "last")} | {"timestamp": (float,), "atomic": (bool, NONE)}
TYPES |= {key: (list, NONE) for key in ("communities", "extended", "large", "clusters")} | {"origin_asns": (list,)}
WORDS = {"state": {"up", "down"}, "origin": {"IGP", "EGP", "INCOMPLETE", None}, "by": {"rib", "update", "state"}}


def refused_constant(text):
    raise ValueError(f"{text} is no JSON")


def wrong_in_line(report, asked, line):
    """What a reader finds wrong with a line, or nothing."""
    try:
        pairs = json.loads(line, object_pairs_hook=list, parse_constant=refused_constant)
    except ValueError as error:
        return str(error)
    if not line.startswith("{") or [key for key, _ in pairs] != KEYS[report] + asked:
        return "other keys, or in another order"
    for key, value in pairs:
        if type(value) not in TYPES[key] or (key in WORDS and value not in WORDS[key]):
            return f"{key} is {value!r}"
        members = int if key == "origin_asns" else str
        if type(value) is list and any(type(member) is not members for member in value):
            return f"{key} is {value!r}"
        if type(value) is list and not value and key != "origin_asns":
            return f"{key} is empty"
    return None


# ---- runs

def asked_of(words):
    """The further attributes that have columns in the report that the words ask for, in the order of the columns."""
    named = set()
    if words[0] not in ("tables", "match", "history"):
        return []
    for word, following in zip(words, [*words[1:], ""]):
        option, _, value = word.partition("=")
        if option == "--attributes":
            named.update((value or following).split(","))
        elif option == "--community":  # it asks for the attribute of its kind
            pattern = value or following
            named.add("extended" if pattern.startswith(("0x", "rt:", "ro:")) else
                      "large" if pattern.count(":") == 2 else "communities")
    return [name for name in ATTRIBUTES if named & {name, "all"}]


def first_difference(found, wanted):
    for number, (one, other) in enumerate(itertools.zip_longest(found.split("\n"), wanted.split("\n")), 1):
        if one != other:
            return f"line {number}: {one!r} in place of {other!r}"
    return "nothing"


class Checks:
    def __init__(self, program):
        self.program, self.passed, self.failed = program, 0, 0

    def run(self, words, given=b""):
        """Status, standard output and standard error. Times and numbers that each run has anew are left out."""
        ran = subprocess.run([self.program, *words], input=given, capture_output=True, timeout=60)
        said = re.sub(r"^(seconds|peak_kib|rounds): .*\n", "", ran.stderr.decode(errors="replace"), flags=re.M)
        return ran.returncode, ran.stdout.decode(errors="replace"), said

    def judge(self, what, wrong):
        if wrong:
            self.failed += 1
            if self.failed <= SHOWN:
                print(f"wrong: {what}: {wrong}")
        else:
            self.passed += 1

    def same(self, what, found, wanted):
        """That a run is as it should be: its status, what it prints and what it says."""
        for name, one, other in zip(("status", "printed", "said"), found, wanted):
            if one != other:
                why = first_difference(one, other) if isinstance(one, str) else f"{one} in place of {other}"
                self.judge(what, f"{name}: {why}")
                return
        self.judge(what, None)

    def json_of(self, words, files, given=b""):
        """The run that is wanted, from that of the text: status, lines, and what is said on standard error."""
        report, asked = words[0], asked_of(words)
        status, text, said = self.run([*words, "--addresses", "short", "--workers", "1", "--", *files], given)
        return status, json_text(report, asked, text) if status in (0, 1) else "", said

    def compare(self, words, files, plans=PLANS, packed=(), by_hand=None):
        """Text and JSON of one question by each of some plans, and of packed files by the last one."""
        what = " ".join(words) + " " + " ".join(map(os.path.basename, files))
        try:
            wanted = self.json_of(words, files)
        except ValueError as error:
            self.judge(what, f"text: {error}")
            return
        if by_hand is not None:
            wrong = first_difference(wanted[1], by_hand) if wanted[1] != by_hand else None
            self.judge(f"{what}: made of the text", wrong)
        runs = [(plan, files) for plan in plans] + ([(plans[-1], packed)] if packed else [])
        for plan, names in runs:
            found = self.run([*words, "--format", "json", *plan, "--", *names])
            said = found[2]
            for one, other in zip(names, files):  # what is said names the file
                said = said.replace(one, other)
            how = f"{what} by {' '.join(plan)}" + (", packed" if names is packed else "")
            self.same(how, (*found[:2], said), wanted)
            wrong = (wrong_in_line(words[0], asked_of(words), line) for line in found[1].split("\n")[:-1])
            self.judge(f"{how}, as Python reads it", next(filter(None, wrong), None))


# ---- dumps

def questions(families=("ipv4", "ipv6"), addresses=(("17.150.214.7",), ("2001:db8::9",)), since="1795331160"):
    """The words of each question that is asked of a dump."""
    for family, looked_up in zip(families, addresses):
        for attributes in [], ["--attributes", "all"]:
            behind = ["--family", family, *attributes]
            for report in KEYS:
                for address in looked_up if report == "match" else [None]:
                    yield [report, *(["--address", address] if address else []), *behind]
            for words in ["--same"], ["--since", since], ["--since", since, "--same"]:
                yield ["history", *words, *behind]
            yield ["churn", "--since", since, *behind]
            yield ["churn", "--since", str(2**33), *behind]  # no peer has a time


def pack(files, folder):
    names = []
    for file in files:
        with open(file, "rb") as dump:
            names.append(f"{folder}/{os.path.basename(file)}.gz")
            with open(names[-1], "wb") as out:
                out.write(gzip.compress(dump.read()))
    return names


def samples():
    """Lists of files: the dumps of the repository, and those of SAMPLES."""
    examples = [f"{TOP}/examples/{name}.mrt" for name in ("sample", "updates")]
    yield from ([file] for file in examples)
    yield examples
    others = glob.glob(f"{TOP}/python/tests/dumps/*.mrt")
    if os.environ.get("SAMPLES"):
        others += glob.glob(f"{glob.escape(os.environ['SAMPLES'])}/*")
    yield from ([file] for file in sorted(others) if os.path.isfile(file))


FLAGS = ["--header", "--summary", "--progress"]
WITH_VALUES = ["--format", "--addresses", "--workers", "--ring"]


def bare(words):
    """The words of a question without what says how lines are written, and by how many workers."""
    found, words = [], list(words)
    while words:
        word = words.pop(0)
        if word in WITH_VALUES:
            del words[:1]
        elif word not in FLAGS and word.partition("=")[0] not in WITH_VALUES:
            found.append(word)
    return found


# ---- drawn dumps: one peer's announcements, entries, withdrawals and state changes

def attribute(code, value):
    return bytes([0x50, code]) + struct.pack(">H", len(value)) + value


def record(time, subtype, body):
    """A record of BGP4MP_ET, with microseconds."""
    return struct.pack(">IHHII", time // 10**6, 17, subtype, 4 + len(body), time % 10**6) + body


# Interface, family and addresses of a peer, of IPv4 and of IPv6.
SESSIONS = [bytes.fromhex("00000001c0000201c0000202"), bytes.fromhex("0000000220010db8" + 22 * "0" + "02" + 32 * "0")]


def drawn_path(draw):
    numbers = [0, 1, 174, 65000, 2**32 - 1]
    kinds = draw.choices([1, 2, 2, 3, 4], k=draw.randrange(4))
    segments = [(kind, draw.choices(numbers, k=draw.randrange(1, 4))) for kind in kinds]
    return b"".join(struct.pack(f">BB{len(members)}I", kind, len(members), *members) for kind, members in segments)


def drawn_attributes(draw, afi, keys):
    """Each is there or isn't. Some keys are reached by attribute 14, whose next hop may be a pair."""
    hop6 = bytes.fromhex(draw.choice([30 * "0" + "01", "20010db80000000000010000000000ff", "20010db8" + 24 * "0"]))
    hop = draw.choice([bytes([192, 0, 2, 9]), hop6, hop6 + bytes.fromhex("fe80" + 26 * "0" + "09")])
    kind = draw.choice([b"\0\2", b"\1\3", b"\2\2", b"\3\0"])
    drawn = {
        1: bytes([draw.randrange(3)]), 2: drawn_path(draw), 3: bytes([192, 0, 2, 1]), 4: draw.randbytes(4), 5: bytes(4),
        6: b"", 7: draw.randbytes(4) + bytes([10, 0, 0, 7]), 8: draw.randbytes(4 * draw.randrange(1, 4)),
        9: draw.randbytes(4), 10: draw.randbytes(4 * draw.randrange(1, 3)), 16: kind + draw.randbytes(6),
        32: draw.randbytes(12 * draw.randrange(1, 3)), 35: draw.randbytes(4)}
    there = {code: value for code, value in drawn.items() if draw.random() < 0.7}
    if keys:
        there[14] = struct.pack(">HBB", afi, 1, len(hop)) + hop + b"\0" + keys
    return b"".join(attribute(code, value) for code, value in sorted(there.items()))


def drawn_dump(draw, family):
    afi, bits = (1, 32) if family == "ipv4" else (2, 128)
    data = []
    for number in range(draw.randrange(1, 30)):
        time = 1_600_000_000_000_000 + number * draw.choice([0, 1, 999_999, 1_000_000])
        asn = draw.choice([1, 4_200_000_000])
        head = struct.pack(">II", asn, draw.choice([65001, 65001, asn])) + draw.choice(SESSIONS)
        if draw.random() < 0.05:
            data.append(record(time, 5, head + draw.choice([b"\0\6\0\1", b"\0\1\0\6"])))
            continue
        is_add_path = draw.random() < 0.5
        length = draw.choice([0, 8, bits])
        key = bytes([length]) + draw.choice([b"\x20", b"\x0a"]) * (length // 8)
        key = draw.choice([bytes(4), b"\0\0\0\7", b"\xff" * 4]) + key if is_add_path else key
        is_withdrawn, is_own = draw.random() < 0.2, family == "ipv4" and draw.random() < 0.5
        attributes = b"" if is_withdrawn else drawn_attributes(draw, afi, b"" if is_own else key)
        if draw.random() < 0.1:
            attributes += attribute(draw.choice([1, 5, 6, 7]), b"\7")  # damaged where it is the first of its type
        if is_withdrawn and not is_own:
            attributes += attribute(15, struct.pack(">HB", afi, 1) + key)
        withdrawn = key if is_own and is_withdrawn else b""
        announced = key if is_own and not is_withdrawn else b""
        body = b"".join(struct.pack(">H", len(field)) + field for field in (withdrawn, attributes)) + announced
        message = b"\xff" * 16 + struct.pack(">HB", 19 + len(body), 2) + body
        data.append(record(time, 9 if is_add_path else 4, head + message))
    return b"".join(data)


# ---- what is tried

def try_samples(checks, pool, folder):
    for number, files in enumerate(samples()):
        os.mkdir(f"{folder}/packed-{number}")
        packed = pack(files, f"{folder}/packed-{number}")
        for words in questions():
            pool.submit_(checks.compare, words, files, PLANS, packed)


def try_drawn(checks, pool, folder, count):
    looked_up = [["32.32.32.32", "10.10.10.10"], ["2020:2020:2020:2020:2020:2020:2020:2020", "::1"]]
    for seed in range(2 * count):
        place = seed % 2
        family = ("ipv4", "ipv6")[place]
        name = f"{folder}/drawn-{seed}"
        with open(name, "wb") as file:
            file.write(drawn_dump(random.Random(seed), family))
        errors = ["--errors", "rfc7606"] * (seed // 2 % 3 == 1)
        for words in questions([family], [looked_up[place]], "1600000003"):
            pool.submit_(checks.compare, [*words, *errors], [name])


def try_rows(checks, pool, folder):
    """Each question of a row that is about a report and isn't refused; of json.rows also what stands there by hand."""
    for file in sorted(glob.glob(f"{HERE}/rows/*.rows")):
        for number, (question, dumps) in enumerate(questions_of(file)):
            if question.words[0] not in KEYS or question.refused is not None:
                continue
            words = bare(question.words)
            names, _ = write_dumps(dumps, f"{folder}/{os.path.basename(file)}-{number}")
            formats = [word for word in question.words if re.fullmatch("(--format=)?(json|text)", word)]
            is_json = bool(formats) and formats[-1].endswith("json")
            by_hand = "".join(line + "\n" for line in question.lines) if is_json else None
            pool.submit_(checks.compare, words, names, PLANS if is_json else PLANS[number % 2:][:1], (), by_hand)


def try_words(checks):
    """Refusals, the default, the last of several, and options that have no effect."""
    files = [f"{TOP}/examples/{name}.mrt" for name in ("sample", "updates")]
    for report in KEYS:
        of4, of6 = ([report, *([option, address] if report == "match" else [])] for option, address in
                    [("--address", "17.150.214.7"), ("--address", "::1")])
        for word in "xml", "JSON", "Text", "", "json,text", "jsonl", "text ", "csv":
            for form in ["--format", word], [f"--format={word}"]:
                status, printed, said = checks.run([*of4, *form, *files])
                line = said.split("\n")[0]
                shape = rf"error: invalid value '{re.escape(word)}' for '--format <[A-Z]+>': .*\btext\b.*\bjson\b"
                is_refused = (status, printed) == (2, "") and re.match(shape, line)
                checks.judge(f"{report} {form}", None if is_refused else f"status {status}: {line}")
        status, printed, said = checks.run([*of4, *files, "--format"])
        is_refused = (status, printed) == (2, "") and "--format" in said.split("\n")[0]
        checks.judge(f"{report} --format without a value", None if is_refused else f"status {status}: {said}")
        is_listed = re.search(r"^ +--format\b", checks.run([report, "--help"])[1], re.M)
        checks.judge(f"{report} --help has the option", None if is_listed else "no line")
        for words in of4, [*of6, "--family", "ipv6"]:
            for more in [], ["--header"], ["--addresses", "short"]:
                default = checks.run([*words, *more, *files])
                for form in ["--format", "text"], ["--format=text"], ["--format", "json", "--format", "text"]:
                    checks.same(" ".join([*words, *more, *form]), checks.run([*words, *more, *form, *files]), default)
        wanted = checks.json_of(of4, files)
        for more in (["--header"], ["--addresses", "full"], ["--addresses=short"], ["--header", "--addresses", "full"],
                     ["--format", "text", "--format=json"], ["--quiet", "--header"]):
            words, said = [*of4, "--format", "json", *more], wanted[2]
            if "--quiet" in more:
                said = re.sub(r"^  note: .*\n", "", said, flags=re.M)
            checks.same(" ".join(words), checks.run([*words, *files]), (*wanted[:2], said))
        with open(files[0], "rb") as sample:
            given = sample.read()
        found, want = checks.run([*of4, "--format=json", "-"], given), checks.json_of(of4, ["-"], given)
        checks.same(f"{report} of standard input", found, want)
        checks.same(f"{report} of nothing", checks.run([*of4, "--format=json", os.devnull])[:2], (0, ""))


class Pool(ThreadPoolExecutor):
    """Runs side by side; what one raises is raised by `wait`."""

    def __enter__(self):
        self.runs = []
        return super().__enter__()

    def submit_(self, *words):
        self.runs.append(self.submit(*words))

    def wait(self):
        for run in self.runs:
            run.result()


def main(program, count=12):
    checks = Checks(program)
    with tempfile.TemporaryDirectory() as folder, Pool(os.cpu_count()) as pool:
        try_samples(checks, pool, folder)
        try_drawn(checks, pool, folder, count)
        try_rows(checks, pool, folder)
        pool.submit_(try_words, checks)
        pool.wait()
    if checks.failed > SHOWN:
        print(f"and {checks.failed - SHOWN} more")
    print(f"{checks.passed} passed, {checks.failed} failed")
    return 1 if checks.failed or not checks.passed else 0


if __name__ == "__main__":
    if len(sys.argv) < 2:
        sys.exit(__doc__)
    sys.exit(main(os.path.realpath(sys.argv[1]), *map(int, sys.argv[2:3])))
