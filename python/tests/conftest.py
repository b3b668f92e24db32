"""What the tests share: the program's text, frames as that text, and dumps."""

import bz2
import gzip
import lzma
import os
import pathlib
import shutil
import struct
import subprocess
import sys

import pandas
import pytest

PYTHON = pathlib.Path(__file__).resolve().parent.parent
TOP = PYTHON.parent
sys.path[:0] = [str(PYTHON), str(PYTHON / "tests")]

import bgp_replay
import drawn_incident

ADDRESS = "174.56.0.1"  # the drawn dumps have 174.56.0.0/16
FIRST = 1717200000  # the second of the drawn RIB dumps
PACK = {"gz": gzip.compress, "bz2": bz2.compress, "xz": lambda text: lzma.compress(text, preset=0),
        "zst": lambda text: subprocess.run(["zstd", "-q"], input=text, capture_output=True, check=True).stdout}


def said(report, files, *options):
    """What the program itself prints, and its status."""
    words = [bgp_replay.program(), report, *options, "--", *map(str, files)]
    run = subprocess.run(words, capture_output=True, timeout=120)
    return run.stdout.decode(), run.returncode


def text_of(report, files, *options):
    return said(report, files, *([f"--address={ADDRESS}"] if report == "match" else []), *options)[0]


def frame_of(report, files, **options):
    words = {"address": ADDRESS} if report == "match" else {}
    return getattr(bgp_replay, report)(files, **{"damaged": "ignore"} | words | options)


def _cell(value):
    return "-" if value is pandas.NA or value is None or value != value else str(value)


def _pair(first, second):
    return "-" if _cell(first) == "-" else f"{first} {second}"


def _time(value):
    return f"{value.value // 10**9}.{value.value // 1000 % 10**6:06}"


def lines(frame, files=()):
    """A frame as the program's lines; `files` are those of the run, whose numbers `faults` has."""
    out, names = [], list(frame.columns)
    for row in frame.to_dict("records"):
        cells = []
        for name in names:
            if name in ("peer_asn", "aggr_asn"):
                cells.append(_pair(row[name], row[name.replace("asn", "ip")]))
            elif name == "prefix":
                cells.append(row[name] + (f"#{row['path_id']}" if row.get("path_id") else ""))
            elif name == "atomic":
                cells.append("atomic" if row[name] else "-")
            elif name == "origin_asns":
                cells.append(" ".join(map(str, row[name])))
            elif name in ("first", "last", "timestamp"):
                cells.append(_time(row[name]))
            elif name == "file":
                cells.append(str([str(file) for file in files].index(row[name]) + 1))
            elif name not in ("collector", "path_id", "peer_ip", "aggr_ip"):
                cells.append(_cell(row[name]))
        out.append("|".join(cells) + "\n")
    return "".join(out)


def records(dump):
    """The records of a dump, as bytes that may be changed."""
    at = 0
    while at < len(dump):
        length = 12 + int.from_bytes(dump[at + 8 : at + 12], "big")
        yield bytearray(dump[at : at + length])
        at += length


def of_collector(dump, number):
    """A drawn dump with other peers: the last but one octet of each peer's address is the collector's number."""
    out = bytearray()
    for record in records(dump):
        kind, subtype = struct.unpack(">HH", record[4:8])
        if (kind, subtype) == (13, 1):
            at = 20
            while at < len(record):
                is_six = record[at] & 1
                at += 5 + (16 if is_six else 4)
                record[at - 2] = number
                at += 4
        elif kind == 17:
            at = 16 + (4 if subtype in (0, 1) else 8) + 2
            at += 2 + (16 if record[at + 1] == 2 else 4)
            record[at - 2] = number
        out += record
    return bytes(out)


def damaged(dump):
    """A dump whose second last record's message has no marker: fault 10."""
    parts = list(records(dump))
    place = parts[-2].index(b"\xff" * 16)
    parts[-2][place] = 0
    return b"".join(parts)


@pytest.fixture(scope="session")
def gen_mrt(tmp_path_factory):
    """`bench/gen_mrt.c`, as a function that gives a dump."""
    if not shutil.which("cc"):
        pytest.skip("cc isn't installed")
    program = tmp_path_factory.mktemp("gen") / "gen_mrt"
    subprocess.run(["cc", "-O2", "-o", program, TOP / "bench/gen_mrt.c", "-lm"], check=True)
    return lambda *words: subprocess.run([program, *map(str, words)], capture_output=True, check=True).stdout


@pytest.fixture(scope="session")
def drawn(gen_mrt, tmp_path_factory):
    """Three collectors with peers of their own: name -> [RIB dump, updates]. The second has two damaged messages."""
    folder, found = tmp_path_factory.mktemp("drawn"), {}
    for number in range(3):
        rib, updates = gen_mrt("rib", 120, 9, 7), gen_mrt("updates", 5000, 120, 9, 7 + number)
        updates = of_collector(updates, number)
        files = found[f"rrc{number:02}"] = [folder / f"{number}.rib.mrt", folder / f"{number}.updates.mrt"]
        files[0].write_bytes(of_collector(rib, number))
        files[1].write_bytes(2 * damaged(updates) if number == 1 else updates)
    return found


@pytest.fixture(scope="session")
def incident_files(tmp_path_factory):
    """The drawn incident's RIB dump and updates."""
    folder, files = tmp_path_factory.mktemp("incident"), []
    for name, dump in zip(("rib.mrt", "updates.mrt"), drawn_incident.incident()):
        (folder / name).write_bytes(dump)
        files.append(folder / name)
    return files


@pytest.fixture(scope="session")
def sample():
    return [str(TOP / "examples/sample.mrt"), str(TOP / "examples/updates.mrt")]


@pytest.fixture(scope="session")
def table_dump():
    return str(TOP / "examples/table_dump.mrt")


@pytest.fixture(scope="session")
def openbgpd(tmp_path_factory):
    """An UPDATE of 64502 198.51.100.102, and the end of its session as OpenBGPD writes it, with itself as the peer."""
    file = tmp_path_factory.mktemp("openbgpd") / "dump"
    file.write_bytes(bytes.fromhex(
        "00000001 0010 0004 00000041 0000FBF6 0000FBF0 0000 0001 C6336466 C0000204" + "FF" * 16 +
        "002D 02 0000 0014 40010100 4002060201 0000FBF6 400304 C6336466 080A"
        "00000002 0011 0000 00000018 00000000 FBF0 FBF6 0000 0001 C0000204 C6336466 0006 0001"))
    return str(file)


@pytest.fixture(scope="session")
def malformed(tmp_path_factory):
    """Announcements of 10.0.0.0/8, which 65000 makes: well; with an AGGREGATOR of one byte; with ORIGIN 3."""
    file = tmp_path_factory.mktemp("malformed") / "dump"
    head = "0000FDE8 0000FDE9 0000 0001 C0000201 C0000202" + "FF" * 16
    path = "4002060201 0000FDE8 400304 C0000201"
    file.write_bytes(bytes.fromhex(
        f"00000001 0010 0004 00000041 {head} 002D 02 0000 0014 40010100 {path} 080A"
        f"00000002 0010 0004 00000045 {head} 0031 02 0000 0018 40010100 {path} C0070100 080A"
        f"00000003 0010 0004 00000041 {head} 002D 02 0000 0014 40010103 {path} 080A"))
    return str(file)


@pytest.fixture
def stand_in(tmp_path, monkeypatch):
    """Takes a shell script's place for the program, which the script finds in $REAL."""

    def write(script):
        path = tmp_path / "stand-in"
        path.write_text(f"#!/bin/sh\nREAL='{real}'\n{script}\n")
        path.chmod(0o755)
        monkeypatch.setenv("BGP_REPLAY", str(path))

    real = bgp_replay.program()
    return write


def pack(path, kind, to):
    """A packed copy of a file."""
    if kind == "zst" and not shutil.which("zstd"):
        pytest.skip("zstd isn't installed")
    out = to / f"{path.name}.{kind}"
    out.write_bytes(PACK[kind](path.read_bytes()))
    return out


def cut(packed):
    """A file that ends early."""
    packed.write_bytes(packed.read_bytes()[:-9])
    return packed
