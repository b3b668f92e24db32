"""`history` of recorded sessions, beside a plain model on what bgpdump prints of them, and rows worked out by hand."""

import ipaddress

import pandas
import pytest
from conftest import FIRST, TOP, frame_of, lines, text_of

import bgp_replay

SESSIONS = ["gobgp", "openbgpd"]


def session(name):
    return TOP / f"python/tests/dumps/{name}.mrt"


def read(name):
    """The lines of bgpdump: micros, announces, peer, prefix, path identifier, and the route's attributes with communities last."""
    for line in session(name).with_suffix(".txt").read_text().splitlines():
        kind, time, what, address, asn, prefix, *rest = line.split("|")
        seconds, _, micros = time.partition(".")
        identifier = int(rest.pop(0)) if kind.endswith("_AP") else 0
        peer = int(asn), ipaddress.ip_address(address).exploded
        yield int(seconds) * 10**6 + int(micros or 0), what == "A", peer, prefix, identifier, rest[:5] + rest[6:8] + rest[5:6]


def model(name, field=0, has_communities=False):
    """What happened, by docs/FORMATS.md: what, and a field of the route after it, or of a withdrawn one: its path, or another."""
    told, tables = list(read(name)), {}
    announced = {(micros, peer, prefix, number) for micros, is_new, peer, prefix, number, _ in told if is_new}
    for micros, is_new, peer, prefix, number, route in told:
        route = route if has_communities else route[:-1]
        key, before = (peer, prefix, number), tables.get((peer, prefix, number))
        if is_new:
            what, tables[key] = "new" if before is None else "same" if before == route else "changed", route
        elif name == "openbgpd" and (micros, peer, prefix, number) in announced:
            continue  # of one message, whose microsecond no other has: it's not withdrawn
        else:
            what, route = ("void", [None] * 8) if before is None else ("gone", tables.pop(key))
        yield micros, *peer, what, prefix, number, route[field]


def rows(frame, field="as_path"):
    columns = ["peer_asn", "peer_ip", "what", "prefix", "path_id", field]
    texts = frame[columns].astype(object).where(frame[columns].notna(), None)
    return [(time.value // 1000, *row) for time, row in zip(frame["timestamp"], texts.itertuples(index=False, name=None))]


@pytest.mark.parametrize("name", SESSIONS)
def test_sessions(name):
    wanted = list(model(name))
    assert {row[3] for row in wanted} == {"new", "changed", "same", "gone", "void"}
    found = bgp_replay.history(session(name), same=True)
    assert rows(found) == wanted
    assert set(found["by"]) == {"update"}
    assert rows(bgp_replay.history(session(name))) == [row for row in wanted if row[3] != "same"]


@pytest.mark.parametrize("name", SESSIONS)
def test_communities(name):
    """Those that bgpdump prints, and `changed` where they alone are other ones."""
    wanted = [(*row[:-1], row[-1] or None) for row in model(name, field=-1, has_communities=True)]
    for attributes in "communities", ["otc", "communities"], "all":
        found = bgp_replay.history(session(name), same=True, attributes=attributes)
        assert rows(found, "communities") == wanted
        assert found["communities"].notna().any()
    assert found["large"].isna().all() and str(found["otc"].dtype) == "UInt32"


@pytest.mark.parametrize("name", SESSIONS)
def test_since_and_until(name):
    """A moment in the middle: what was before it is replayed, and not listed."""
    wanted = list(model(name))
    seconds = sorted({row[0] // 10**6 for row in wanted})
    second = seconds[len(seconds) // 2]
    moment = pandas.Timestamp(second, unit="s", tz="UTC")
    late, early = ([row for row in wanted if (row[0] // 10**6 >= second) == is_late] for is_late in (True, False))
    assert early and late
    for since in (moment, moment.to_pydatetime(), second, moment.isoformat()):
        assert rows(bgp_replay.history(session(name), since=since, same=True)) == late
    assert rows(bgp_replay.history(session(name), until=second - 1, same=True)) == early


@pytest.mark.parametrize("name", SESSIONS)
def test_prefixes_and_peers(name):
    wanted = list(model(name))
    prefix, peer = wanted[0][4], (wanted[-1][1], wanted[-1][2])
    for prefixes, chosen in [(prefix, [prefix]), (["203.113.0.0/24", "198.51.0.0/24"], ["203.113.0.0/24", "198.51.0.0/24"])]:
        found = rows(bgp_replay.history(session(name), prefixes=prefixes, same=True))
        assert found == [row for row in wanted if row[4] in chosen] and found
    found = rows(bgp_replay.history(session(name), peers=[peer], same=True))
    assert found == [row for row in wanted if row[1:3] == peer] and 0 < len(found) < len(wanted)


def test_rows_by_hand(sample):
    """examples/README.md: what happened to three prefixes after the RIB dump, and what a session's end took."""
    found = frame_of("history", sample, prefixes="203.0.113.0/24")
    assert found[["peer_asn", "what", "by", "as_path"]].values.tolist() == [[65003, "new", "update", "65003 64496"]]
    assert found["timestamp"].tolist() == [pandas.Timestamp("2026-11-22 07:07:00.25", tz="UTC")]
    found = frame_of("history", sample, since="2026-11-22 07:05:00Z", until="2026-11-22 07:06:59Z")
    assert found[["peer_asn", "what", "by", "prefix"]].values.tolist() == [
        [200104, "changed", "update", "17.150.214.0/24"], [65101, "gone", "update", "189.139.172.0/24"]]
    lost = frame_of("history", sample, since="2026-11-22 07:08:00Z", until="2026-11-22 07:13:00Z")
    assert set(zip(lost["peer_asn"], lost["what"], lost["by"])) == {(65107, "lost", "state")}
    before = frame_of("tables", sample, peers=[65107], until="2026-11-22 07:11:00Z")
    assert lost["prefix"].tolist() == before["prefix"].tolist() and len(lost) > 1
    rib = frame_of("history", sample[0])
    assert set(zip(rib["what"], rib["by"])) == {("new", "rib")} and len(rib) == 83


@pytest.mark.parametrize("since", [None, FIRST, FIRST + 1])
def test_drawn(since, drawn):
    """A frame is the text, and the last row of a key says what its table has."""
    files = drawn["rrc01"]
    words = {} if since is None else {"since": since}
    found = frame_of("history", files, **words)
    assert lines(found) == text_of("history", files, *[f"--since={since}"] * bool(words))
    if since is None:
        last = found.drop_duplicates(["peer_asn", "peer_ip", "prefix", "path_id"], keep="last")
        last = last[last["what"].isin(["new", "changed"])]
        keys = ["peer_asn", "peer_ip", "prefix", "path_id", "as_path", "next_hop"]
        tables = frame_of("tables", files)
        assert sorted(map(str, last[keys].values.tolist())) == sorted(map(str, tables[keys].values.tolist()))
    elif since > FIRST:
        assert found["timestamp"].min() >= pandas.Timestamp(since, unit="s", tz="UTC") and len(found)
