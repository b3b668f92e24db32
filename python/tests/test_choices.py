"""`origins`, `paths` and `communities` are the program's options, and give what the whole frames have of such routes."""

import re
import struct

import numpy
import pandas
import pytest
from conftest import ADDRESS, frame_of, lines, text_of
from test_frames import message

import bgp_replay
from bgp_replay.reports import words_of

REPORTS = ["tables", "match", "visibility", "seen", "origins", "peers", "history", "churn"]
COLUMNS = ["peer_asn", "peer_ip", "prefix", "path_id", "as_path"]


@pytest.fixture(autouse=True)
def _has_choices():
    if not bgp_replay.has("tables", "origin"):
        pytest.skip("the program has no tables --origin")


def origin_of(path):
    """The last number of a path that ends in a sequence, else None."""
    last = None if path is pandas.NA or path != path else re.search(r"[0-9]+\Z", path)
    return int(last[0]) if last else None


def rows_of(frame):
    return frame[COLUMNS].astype(object).where(frame[COLUMNS].notna(), None).values.tolist()


@pytest.mark.parametrize("options, words", [
    ({"origins": 64496}, ["--origin=64496"]), ({"origins": [64496, None, 4294967295]}, ["--origin=64496", "--origin=-", "--origin=4294967295"]),
    ({"origins": [None]}, ["--origin=-"]), ({"origins": "-"}, ["--origin=-"]), ({"origins": None, "paths": None, "communities": None}, []),
    ({"origins": pandas.array([1, None], "UInt32")}, ["--origin=1", "--origin=-"]), ({"origins": numpy.array([1, 2], "uint32")}, ["--origin=1", "--origin=2"]),
    ({"paths": "* 174 3356 *"}, ["--path=* 174 3356 *"]), ({"paths": ["64496 *", "[= =]"]}, ["--path=64496 *", "--path=[= =]"]),
    ({"communities": "65535:666"}, ["--community=65535:666"]), ({"communities": ["rt:*:1", "1:2:3"]}, ["--community=rt:*:1", "--community=1:2:3"]),
])
def test_arguments_are_the_programs_options(options, words):
    assert words_of(options) == words


@pytest.mark.parametrize("report", REPORTS)
def test_frames_are_the_text(report, drawn, sample):
    for files in (drawn["rrc00"], sample):
        some = [asn for asn in map(origin_of, bgp_replay.tables(files, damaged="ignore")["as_path"]) if asn is not None]
        for options, words in [
            ({"origins": [some[0], some[-1], None]}, [f"--origin={some[0]}", f"--origin={some[-1]}", "--origin=-"]),
            ({"paths": [f"* {some[0]}", "? ?"]}, [f"--path=* {some[0]}", "--path=? ?"]),
            ({"communities": "*:*", "paths": "* ? *"}, ["--community=*:*", "--path=* ? *"]),
        ]:
            assert lines(frame_of(report, files, **options), files) == text_of(report, files, *words)


def test_origins_are_those_of_whole_frames(drawn, sample):
    """None in a list is the routes without an origin AS, and so is what a frame of `seen` has there."""
    for files in (drawn["rrc00"], sample):
        whole = frame_of("tables", files)
        found = [origin_of(path) for path in whole["as_path"]]
        for asked in [found[0]], [*{*found[-9:]}], [None], [found[0], None]:
            wanted = rows_of(whole[[origin in asked for origin in found]])
            assert rows_of(frame_of("tables", files, origins=asked)) == wanted
        seen = frame_of("seen", files)
        some = seen["origin_asn"].unique()
        assert lines(frame_of("seen", files, origins=some)) == lines(seen)
        assert frame_of("peers", files, origins=[None])["routes"].sum() == found.count(None)
        one = frame_of("seen", files, origins=some[0])
        assert lines(one) == lines(seen[seen["origin_asn"] == some[0]])


def test_rows_by_hand(tmp_path):
    """A route without AS_PATH, one of an empty path, one that ends in a set, and one with a blackhole community."""
    def path(*segments):
        value = b"".join(struct.pack(f">BB{len(numbers)}I", kind, len(numbers), *numbers) for kind, *numbers in segments)
        return bytes([0x40, 2, len(value)]) + value

    blackhole = b"\xc0\x08\x08" + struct.pack(">4H", 65000, 1, 65535, 666)
    file = tmp_path / "a"
    file.write_bytes(message(1, b"") + message(2, path()) + message(3, path((2, 174, 3356), (1, 64496, 64497)))
                     + message(4, path((2, 174, 64496)) + blackhole))
    for options, wanted in [
        ({"origins": [None]}, "1 2 3"), ({"origins": 64496}, "4"), ({"origins": [64496, None]}, "1 2 3 4"), ({"paths": "*"}, "2 3 4"),
        ({"paths": "[= =]"}, "2"), ({"paths": "* 64496"}, "3 4"), ({"paths": "174 3356 64497"}, "3"), ({"paths": ["? ?", "[==]"]}, "2 4"),
        ({"communities": "65535:666"}, "4"), ({"communities": ["65000:*", "65000:1:2"]}, "4"), ({"communities": "65535:666", "origins": [None]}, ""),
        ({"paths": "174 *", "origins": [None]}, "3"),
    ]:
        prefixes = [f"{octet}.0.0.0/8" for octet in wanted.split()]
        assert bgp_replay.tables(file, **options)["prefix"].tolist() == prefixes
        assert bgp_replay.visibility(file, **options)["prefix"].tolist() == prefixes
        assert [row["prefix"] for row in bgp_replay.Replay("tables", file, **options).json()] == prefixes
        assert bgp_replay.peers(file, **options)[["routes", "units"]].values.tolist() == [[len(prefixes), 4]]
    assert bgp_replay.tables(file, communities="*:666")["communities"].tolist() == ["65000:1 65535:666"]
    [row] = bgp_replay.Replay("tables", file, communities=["*:666", "rt:*:*"]).json()
    assert (row["communities"], row["extended"]) == (["65000:1", "65535:666"], None)
    assert bgp_replay.match(file, "4.0.0.1", origins=[64496])["as_path"].tolist() == ["174 64496"]
    assert len(bgp_replay.match(file, "4.0.0.1", origins=[None])) == 0


def test_events_are_those_of_whole_frames(sample):
    """A line is there where the route behind the event or before it is chosen, and `churn` counts the lines."""
    whole = frame_of("history", sample, same=True)
    for asked in [4200001457], [374813, None], [395573]:
        routes, chosen = {}, []
        for row in whole.itertuples():
            key = row.peer_asn, row.peer_ip, row.prefix, row.path_id
            is_chosen = row.what in ("new", "changed", "same") and origin_of(row.as_path) in asked
            chosen.append(is_chosen or routes.get(key, False))
            routes[key] = is_chosen
        found = frame_of("history", sample, same=True, origins=asked)
        assert 0 < len(found) < len(whole) and lines(found) == lines(whole[chosen])
        counts = frame_of("churn", sample, origins=asked)[["new", "changed", "same", "gone", "void"]].sum()
        assert {what: count for what, count in counts.items() if count} == found["what"].astype(object)[found["what"] != "lost"].value_counts().to_dict()


def test_what_is_refused(sample):
    for options, words in [({"origins": "AS1"}, "'AS1' for '--origin"), ({"origins": [1, 2**32]}, f"'{2**32}' for '--origin"),
                           ({"paths": ["*", "2..1"]}, "'2..1' for '--path"), ({"communities": "1"}, "'1' for '--community")]:
        with pytest.raises(bgp_replay.UsageError, match=words):
            bgp_replay.tables(sample, **options)
    for options in {"origins": 1}, {"paths": "*"}, {"communities": "1:1"}:
        with pytest.raises(bgp_replay.UsageError, match="--(origin|path|community)"):
            bgp_replay.faults(sample, **options)


@pytest.mark.parametrize("shares", [1, 3])
def test_collectors(shares, drawn):
    """As one run over all files, whatever the shares."""
    collectors = pytest.importorskip("bgp_replay.collectors")
    everything = sum(drawn.values(), [])
    some = [asn for asn in map(origin_of, bgp_replay.tables(everything, damaged="ignore")["as_path"]) if asn is not None]
    asked = [*{*some[:30], *some[-30:]}]
    for options in {"origins": asked}, {"paths": [f"* {asn} *" for asn in asked]}, {"origins": [*asked, None], "communities": "*:*"}:
        many = collectors.Collectors(drawn, shares=shares, **options)
        for report in "visibility", "seen", "origins", "match", "peers":
            found = many.match(ADDRESS) if report == "match" else getattr(many, report)()
            whole = frame_of(report, everything, **options)
            if report == "peers":  # whose places are those of each collector's files
                found, whole = (frame[["peer_asn", "peer_ip", "routes", "units"]] for frame in (found, whole))
            assert lines(found, everything) == lines(whole, everything)
