"""`Replay.json` gives what the program's JSON says, with the values of the text and of the frames."""

import json
import os
import pathlib
import struct
import warnings

import pandas
import pytest
from conftest import ADDRESS, cut, frame_of, pack, said, text_of
from test_frames import REPORTS, message

import bgp_replay

ROUTE = ["prefix", "path_id", "as_path", "origin_asns", "next_hop", "origin", "med", "local_pref", "atomic", "aggr_asn",
         "aggr_ip"]
COUNTS = ["new", "changed", "same", "gone", "void", "resets", "idle", "refused"]
KEYS = {
    "tables": ["peer_asn", "peer_ip", *ROUTE], "match": ["peer_asn", "peer_ip", *ROUTE],
    "history": ["timestamp", "peer_asn", "peer_ip", "what", "by", *ROUTE], "visibility": ["prefix", "peers"],
    "seen": ["prefix", "origin_asn", "peers"], "origins": ["prefix", "origin_asns"],
    "churn": ["peer_asn", "peer_ip", *COUNTS, "first", "last"], "faults": ["file", "offset", "entry", "number", "fault"],
    "peers": ["peer_asn", "peer_ip", "state", "routes", "units", "first", "last", "file", "offset", "entry"],
}


@pytest.fixture(autouse=True)
def _has_json():
    if not bgp_replay.has("tables", "format"):
        pytest.skip("the program has no tables --format")


def replay_of(report, files, **options):
    words = {"address": ADDRESS} if report == "match" else {}
    return bgp_replay.Replay(report, files, **{"damaged": "ignore", "quiet": True} | words | options)


def rows_of(report, files, **options):
    return list(replay_of(report, files, **options).json())


def plain(value):
    """A value of a frame as JSON has it."""
    if isinstance(value, list):
        return value
    if value is None or value is pandas.NA or value is pandas.NaT or value != value:
        return None
    if isinstance(value, pandas.Timestamp):
        return round(value.value / 1e9, 6)
    return value.item() if hasattr(value, "item") else value


@pytest.mark.parametrize("report", REPORTS)
def test_dicts_are_the_programs_lines(report, drawn, sample):
    for files in (*drawn.values(), sample, [os.devnull]):
        printed = text_of(report, files, "--format=json", "--quiet")
        assert rows_of(report, files) == [json.loads(line) for line in printed.splitlines()]
        assert printed or report in ("faults", "match") or files == [os.devnull]


@pytest.mark.parametrize("report", REPORTS)
def test_keys_and_values_are_those_of_frames(report, drawn, sample):
    for files in (drawn["rrc01"], sample):
        rows = rows_of(report, files)
        frame = frame_of(report, files, addresses="short", quiet=True)
        assert [list(row) for row in rows] == [KEYS[report]] * len(frame)
        for row, found in zip(rows, frame.to_dict("records")):
            if "path_id" in row:
                assert row["path_id"] == (found.pop("path_id") or None)
                row.pop("path_id")
            if report in ("tables", "match", "history"):
                row.pop("origin_asns")
            if row.get("what") == "void":
                assert row.pop("atomic") is None and found.pop("atomic") is False
            if "file" in row:
                assert str(files[row.pop("file") - 1]) == str(found.pop("file"))
            assert row == {name: plain(value) for name, value in found.items()}


def test_an_origin_is_the_last_number_of_a_sequence(drawn):
    files = drawn["rrc00"]
    rows = rows_of("tables", files)
    counts = {}  # the peers of each prefix and origin AS
    for row in rows:
        assert len(row["origin_asns"]) < 2
        key = row["prefix"], *(row["origin_asns"] or [None])
        counts.setdefault(key, set()).add((row["peer_asn"], row["peer_ip"]))
    assert {(row["prefix"], row["origin_asn"]): row["peers"] for row in rows_of("seen", files)} == {
        key: len(peers) for key, peers in counts.items()}
    assert {row["prefix"]: row["origin_asns"] for row in rows_of("origins", files)} == {
        prefix: several for prefix in {of for of, _ in counts}
        if len(several := sorted(asn for of, asn in counts if of == prefix and asn is not None)) > 1}


@pytest.mark.parametrize("report", REPORTS)
def test_options_are_the_programs(report, drawn):
    for options, words in [
        ({"share": (2, 3), "workers": 2, "ring": 64}, ["--peers=2/3"]), ({"prefixes": ["0.0.0.0/1+"]}, ["--prefix=0.0.0.0/1+"]),
        ({"attributes": ["otc", "large"], "addresses": "full"}, ["--attributes=otc,large"]), ({"family": "ipv6"}, ["--family=ipv6"]),
    ]:
        if report == "match" and "family" in options:
            options |= {"address": "::1"}
            printed = said("match", drawn["rrc00"], "--address=::1", "--format=json", *words)[0]
        else:
            printed = text_of(report, drawn["rrc00"], "--format=json", *words)
        assert rows_of(report, drawn["rrc00"], **options) == [json.loads(line) for line in printed.splitlines()]


def test_rows_by_hand(tmp_path):
    """A route without attributes, one with an empty path, and a pair of next hops; an event without a route."""
    hop = bytes.fromhex("20010db8" + 11 * "00" + "09" + "fe80" + 13 * "00" + "09")
    reach = b"\x80\x0e" + bytes([5 + 32 + 2]) + b"\0\1\1\x20" + hop + b"\0\x08\x03"
    large = b"\xc0\x20\x18" + struct.pack(">6I", 1, 2, 3, 4, 5, 4294967295) + b"\xc0\x23\x04\0\0\0\x07"
    (tmp_path / "a").write_bytes(message(1, b"") + message(2, b"\x40\x02\x00\x40\x06\x00" + large) + message(3, reach))
    peer = {"peer_asn": 65000, "peer_ip": "10.0.0.1"}
    none = dict.fromkeys(ROUTE[1:]) | {"origin_asns": [], "atomic": False, "large": None, "otc": None}
    assert rows_of("tables", tmp_path / "a", attributes=["large", "otc"]) == [
        peer | {"prefix": "1.0.0.0/8"} | none,
        peer | {"prefix": "2.0.0.0/8"} | none | {"as_path": "", "atomic": True, "large": ["1:2:3", "4:5:4294967295"], "otc": 7},
        peer | {"prefix": "3.0.0.0/8"} | none | {"next_hop": "2001:db8::9 fe80::9"}]
    withdrawal = bytearray(message(1, b""))
    withdrawal[-6:] = b"\0\2\x08\1\0\0"  # what was announced is withdrawn, and was never there
    (tmp_path / "b").write_bytes(withdrawal)
    event = {"timestamp": 1.0, **peer, "what": "void", "by": "update", "prefix": "1.0.0.0/8"}
    assert rows_of("history", tmp_path / "b") == [event | dict.fromkeys(ROUTE[1:]) | {"origin_asns": []}]


@pytest.mark.parametrize("seconds, micros", [(0, 1), (1_600_000_000, 1), (2**32 - 1, 999_999), (2**32 - 1, 2**32 - 1)])
def test_times_are_right_to_the_microsecond(seconds, micros, tmp_path):
    """As floats, up to the last second of 32 bits and microseconds that carry."""
    announced = message(1, b"")
    record = struct.pack(">IHHII", seconds, 17, 4, len(announced) - 8, micros) + announced[12:]
    (tmp_path / "a").write_bytes(record)
    [row] = rows_of("churn", tmp_path / "a")
    [event] = rows_of("history", tmp_path / "a")
    wanted = f"{seconds + micros // 10**6}.{micros % 10**6:06}"
    assert [f"{time:.6f}" for time in (row["first"], row["last"], event["timestamp"])] == 3 * [wanted]


def test_what_goes_wrong_is_as_with_frames(sample, tmp_path):
    with pytest.raises(bgp_replay.OpenError, match="^open failed: file 1\n"):
        rows_of("tables", "nofile")
    with pytest.raises(bgp_replay.UsageError, match="neither ipv4 nor ipv6"):
        rows_of("tables", sample, family="ipv5")
    with pytest.raises(bgp_replay.DamagedError) as error:
        rows_of("churn", sample, damaged="raise")
    assert error.value.counts == {sample[1]: 1}
    with pytest.raises(TypeError, match="no option 'format'"):
        replay_of("tables", sample, format="json")
    with pytest.warns(Warning) as warned:
        rows_of("tables", sample, damaged="warn", quiet=False)
    assert {warning.category for warning in warned} == {bgp_replay.DamagedWarning, bgp_replay.NoteWarning}
    with warnings.catch_warnings():
        warnings.simplefilter("error")
        replay = replay_of("tables", sample)
        assert len(list(replay.json())) == replay.summary.routes == 74


def test_packed_files(sample, tmp_path):
    wanted = rows_of("tables", sample[0])
    for kind in "gz", "bz2", "xz":
        packed = pack(pathlib.Path(sample[0]), kind, tmp_path)
        assert rows_of("tables", packed) == wanted
        if kind == "xz":
            with pytest.raises(bgp_replay.UnpackError):
                rows_of("tables", cut(packed))


def test_leaving_early_ends_the_program(drawn):
    replay = replay_of("history", drawn["rrc00"] * 20)
    run = replay.json()
    assert next(run)["what"] == "new"
    run.close()
    assert replay.child.poll() is not None and replay.summary is None


def test_a_line_that_is_cut_off(stand_in, sample):
    stand_in('"$REAL" "$@" | head -c 1000')
    with pytest.raises(ValueError, match="cut off"):
        rows_of("tables", sample[0])
    stand_in('"$REAL" "$@" | head -c 1000; echo "write failed" >&2; exit 3')
    with pytest.raises(bgp_replay.ReplayError, match="write failed"):
        rows_of("tables", sample[0])


def test_a_program_without_json(stand_in, sample):
    stand_in('case "$*" in *--format*) echo "error: unexpected argument \'--format\' found" >&2; exit 2;; esac; "$REAL" "$@"')
    with pytest.raises(bgp_replay.UsageError, match="--format"):
        rows_of("tables", sample[0])
    assert len(frame_of("tables", sample[0])) == 83
