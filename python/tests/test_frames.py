"""Frames hold what the program prints, with real types; rows worked out by hand from examples/README.md."""

import os
import subprocess
import sys
from datetime import date, datetime, timedelta, timezone

import pandas
import pytest
from conftest import FIRST, PYTHON, frame_of, lines, said, text_of

import bgp_replay

REPORTS = ["tables", "visibility", "seen", "origins", "churn", "match", "faults", "history", "peers"]
UTC = timezone.utc


@pytest.mark.parametrize("report", REPORTS)
def test_a_frame_is_the_text(report, drawn, sample):
    for files in (*drawn.values(), sum(drawn.values(), []), sample, sample[1:]):
        assert lines(frame_of(report, files), files) == text_of(report, files)


@pytest.mark.parametrize("report", REPORTS)
def test_options_are_the_programs(report, drawn):
    files, peer = drawn["rrc00"], next(bgp_replay.churn(drawn["rrc00"]).itertuples())
    moment = datetime.fromtimestamp(FIRST, UTC)
    prefixes = ["0.0.0.0/1+", "193.0.0.0/8-"]
    for options, words in [
        ({"until": moment}, [f"--until={FIRST}"]),
        ({"peers": [(peer.peer_asn, peer.peer_ip), 64513]}, [f"--peer={peer.peer_asn},{peer.peer_ip}", "--peer=64513"]),
        ({"share": (2, 3), "workers": 2, "ring": 64}, ["--peers=2/3"]),
        ({"prefixes": prefixes}, [f"--prefix={prefix}" for prefix in prefixes]),
    ]:
        if "prefixes" in options and not bgp_replay.has(report, "prefix"):
            with pytest.raises(bgp_replay.UsageError, match="--prefix"):
                frame_of(report, files, **options)
            continue
        expected = text_of(report, files, *words)
        assert expected != text_of(report, files) or report == "faults"
        assert lines(frame_of(report, files, **options), files) == expected


@pytest.mark.parametrize("report, options, words", [
    ("history", {"same": True}, ["--same"]), ("history", {"since": "after"}, [f"--since={FIRST + 1}"]),
    ("churn", {"since": "after"}, [f"--since={FIRST + 1}"]), ("tables", {"family": "ipv6"}, ["--family=ipv6"]),
], ids=["history same", "history since", "churn since", "tables family"])
def test_options_of_some_reports(report, options, words, drawn):
    if not bgp_replay.has(report, *options):
        with pytest.raises(bgp_replay.UsageError, match=words[0].partition("=")[0]):
            frame_of(report, drawn["rrc00"], **options)
        pytest.skip(f"the program has no {report} --{' '.join(options)}")
    if "since" in options:
        options = {"since": datetime.fromtimestamp(FIRST, UTC) + timedelta(seconds=1)}
    expected = text_of(report, drawn["rrc00"], *words)
    assert lines(frame_of(report, drawn["rrc00"], **options)) == expected != text_of(report, drawn["rrc00"])


def test_state_changes_by_either_rule(sample):
    """65107 announces a route behind the end of its session."""
    for states, counts in (None, [9, 1, 1]), ("recorded", [9, 1, 1]), ("established", [10, 1, 0]):
        found = frame_of("churn", sample, states=states)
        assert found[found["peer_asn"] == 65107][["new", "resets", "idle"]].values.tolist() == [counts]


def test_rib_dumps_by_either_rule(sample):
    """The RIB dump doesn't have 203.0.113.0/24, which 65003 announces behind it."""
    files, prefix = [*sample, sample[0]], "203.0.113.0/24"
    for rib, peers in (None, [1]), ("add", [1]), ("replace", []):
        assert frame_of("visibility", files, prefixes=prefix, rib=rib)["peers"].tolist() == peers
    found = frame_of("history", files, prefixes=prefix, rib="replace")
    assert found[["what", "by"]].values.tolist() == [["new", "update"], ["lost", "rib"]]
    with pytest.raises(bgp_replay.UsageError, match="neither add nor replace"):
        frame_of("tables", files, rib="other")


def test_table_dumps_by_either_rule(table_dump):
    """examples/README.md: three entries, of which the first has AS numbers of four bytes in AS4_PATH."""
    for rule in None, "aside":
        with pytest.warns(bgp_replay.NoteWarning, match="those of TABLE_DUMP, which aren't read: 3, .*--table-dump read"):
            assert frame_of("tables", table_dump, table_dumps=rule).empty
    found = frame_of("tables", table_dump, table_dumps="read")
    assert found[["peer_asn", "prefix", "as_path"]].values.tolist() == [
        [65003, "198.51.100.0/24", "65003 200104 196618"], [65003, "203.0.113.0/24", "65003 64500 64496"],
        [65101, "203.0.113.0/24", "65101 64496"]]
    for report, rows in ("visibility", 2), ("seen", 2), ("churn", 2), ("peers", 2), ("history", 3), ("faults", 0):
        assert len(frame_of(report, table_dump, table_dumps="read")) == rows
    found = frame_of("match", table_dump, address="203.0.113.9", table_dumps="read")
    assert found["as_path"].tolist() == ["65003 64500 64496", "65101 64496"]
    with pytest.raises(bgp_replay.UsageError, match="neither aside nor read"):
        frame_of("tables", table_dump, table_dumps="other")


def test_damage_by_either_rule(malformed):
    """RFC 7606: the AGGREGATOR counts as absent, and ORIGIN 3 withdraws. The faults are listed by either rule."""
    for errors, counts, happened in [(None, [1, 0, 0, 2], ["new"]), ("skip", [1, 0, 0, 2], ["new"]),
                                     ("rfc7606", [1, 1, 1, 2], ["new", "same", "gone"])]:
        found = frame_of("churn", malformed, errors=errors)
        assert found[["new", "same", "gone", "refused"]].values.tolist() == [counts]
        assert frame_of("history", malformed, errors=errors, same=True)["what"].tolist() == happened
        assert frame_of("faults", malformed, errors=errors)["fault"].tolist() == ["BadAttribute(7)", "BadAttribute(1)"]
        assert len(frame_of("tables", malformed, errors=errors)) == (errors != "rfc7606")
    with pytest.warns(bgp_replay.DamagedWarning):
        frame_of("tables", malformed, errors="rfc7606", damaged="warn")
    with pytest.raises(bgp_replay.UsageError, match="neither skip nor rfc7606"):
        frame_of("tables", malformed, errors="other")


def test_state_changes_of_the_local_end(openbgpd):
    """docs/FORMATS.md, rule 19: by local the neighbour's session ended, and its route is gone."""
    itself, neighbour = [64496, "down", 0, 1], [64502, "up", 1, 1]
    for options, found in [({}, [neighbour, itself]), ({"state_peers": "recorded"}, [neighbour, itself]),
                           ({"state_peers": "by-as"}, [neighbour, itself]),
                           ({"state_peers": "local"}, [[64502, "down", 0, 2]]),
                           ({"written_by": "openbgpd"}, [[64502, "down", 0, 2]]),
                           ({"written_by": "openbgpd", "state_peers": "recorded"}, [neighbour, itself]),
                           ({"written_by": "bird", "state_peers": "local"}, [[64502, "down", 0, 2]])]:
        frame = frame_of("peers", openbgpd, **options)
        assert frame[["peer_asn", "state", "routes", "units"]].values.tolist() == found
    assert frame_of("tables", openbgpd, written_by="openbgpd").empty
    assert frame_of("history", openbgpd, written_by="openbgpd")["what"].tolist() == ["new", "lost"]
    with pytest.raises(bgp_replay.UsageError, match="neither recorded, local nor by-as"):
        frame_of("tables", openbgpd, state_peers="other")
    with pytest.raises(bgp_replay.UsageError, match="no daemon whose dumps are known by this name"):
        frame_of("tables", openbgpd, written_by="other")


def test_a_long_list_of_prefixes(sample):
    """131,072 prefixes are more than a command line takes."""
    prefixes = [f"17.{second}.{third}.0/24" for second in range(256) for third in range(256)] * 2
    assert frame_of("visibility", sample, prefixes=prefixes)["prefix"].tolist() == ["17.150.214.0/24"]
    with pytest.raises(bgp_replay.UsageError, match="invalid line 131073 '17.0.0.1/24'"):
        bgp_replay.visibility(sample, prefixes=[*prefixes, "17.0.0.1/24"])
    for text in ("#", "", "17.0.0.0/8\n"):  # which a file may have in a line, and an option may not
        with pytest.raises(bgp_replay.UsageError, match="--prefix <PREFIX>"):
            bgp_replay.visibility(sample, prefixes=[*prefixes[:2000], text])


def test_a_moment_in_all_its_forms(sample):
    moment = datetime(2026, 11, 22, 7, 5)
    forms = [moment, moment.replace(tzinfo=UTC), pandas.Timestamp(moment), pandas.Timestamp(moment, tz="UTC"),
             moment.replace(tzinfo=timezone(timedelta(hours=2))) + timedelta(hours=2), 1795331100,
             "2026-11-22T07:05:00Z", moment + timedelta(microseconds=900_000)]
    for form in forms:  # the announcement of 07:05:00 counts, the withdrawal of 07:06:00 doesn't
        assert frame_of("churn", sample, until=form)[["changed", "gone"]].sum().tolist() == [1, 0]
    assert len(frame_of("tables", sample, until=date(2026, 11, 22))) == 0
    assert len(frame_of("tables", sample, until=0)) == 0


def test_rows_by_hand(sample):
    """examples/README.md: what the eleven records after the RIB dump say."""
    churn = frame_of("churn", sample).set_index(["peer_asn", "peer_ip"])
    counts = churn[["changed", "gone", "resets", "idle", "refused"]].astype(int)
    assert counts.loc[(200104, "192.0.2.104")].tolist() == [1, 1, 0, 0, 0]
    assert counts.loc[(65101, "192.0.2.105")].tolist() == [0, 1, 0, 0, 0]
    assert counts.loc[(64502, "192.0.2.102")].tolist() == [0, 0, 0, 0, 1]
    assert counts.loc[(65107, "192.0.2.5")].tolist() == [0, 0, 1, 1, 0]
    assert churn["first"].unique().tolist() == [pandas.Timestamp("2026-11-22 07:01:16", tz="UTC")]
    assert churn["last"][65003, "192.0.2.3"] == pandas.Timestamp("2026-11-22 07:07:00.25", tz="UTC")
    faults = frame_of("faults", sample)
    assert faults.astype(object).where(faults.notna(), None).values.tolist() == [[sample[1], 288, None, 14, "BadAttribute(1)"]]
    seen = frame_of("visibility", sample).set_index("prefix")["peers"]
    assert seen["203.0.113.0/24"] == 1 and "192.0.2.0/24" not in seen.index
    found = bgp_replay.match(sample, "203.0.113.9", peers=[(65003, "192.0.2.3")], damaged="ignore").iloc[0]
    assert found.drop(["med", "local_pref", "aggr_asn", "aggr_ip"]).tolist() == [
        65003, "192.0.2.3", "203.0.113.0/24", 0, "65003 64496", "192.0.2.3", "IGP", False]
    assert found[["med", "local_pref", "aggr_asn", "aggr_ip"]].isna().all()


def message(octet, attributes):
    """An UPDATE of AS 65000, 10.0.0.1, in a BGP4MP record: it announces octet.0.0.0/8."""
    body = b"\0\0" + len(attributes).to_bytes(2, "big") + attributes + bytes([8, octet])
    body = b"\0\0\xfd\xe8\0\0\xfb\xf0\0\0\0\x01\x0a\0\0\x01\xc0\0\2\1" + b"\xff" * 16 + bytes([0, 19 + len(body), 2]) + body
    return b"\0\0\0\1\0\x10\0\4" + len(body).to_bytes(4, "big") + body


def test_an_absent_path_is_not_an_empty_one(tmp_path):
    (tmp_path / "a").write_bytes(message(1, b"\x40\x02\x00") + message(2, b"") + message(3, b"\x80\x04\x04\xff\xff\xff\xff"))
    frame = bgp_replay.tables(tmp_path / "a")
    assert frame["as_path"][0] == "" and frame["as_path"].isna().tolist() == [False, True, True]
    assert frame["med"].isna().tolist() == [True, True, False] and frame["med"][2] == 2**32 - 1
    assert frame["prefix"].tolist() == ["1.0.0.0/8", "2.0.0.0/8", "3.0.0.0/8"] and set(frame["peer_asn"]) == {65000}
    seen = bgp_replay.seen(tmp_path / "a")
    assert seen["origin_asn"].isna().all() and seen["peers"].tolist() == [1, 1, 1]


@pytest.mark.parametrize("micros, nanoseconds", [
    (0, 4294967295_000000_000), (1, 4294967295_000001_000), (999_999, 4294967295_999999_000),
    (2**32 - 1, 4294971589_967295_000),  # they carry
])
def test_the_latest_times(micros, nanoseconds, tmp_path):
    """Of the last second of 32 bits, in a record of BGP4MP_ET."""
    plain = message(1, b"")
    record = b"\xff" * 4 + b"\0\x11\0\4" + (len(plain) - 8).to_bytes(4, "big") + micros.to_bytes(4, "big") + plain[12:]
    (tmp_path / "a").write_bytes(record)
    for report, name in (("churn", "first"), ("churn", "last"), ("peers", "first"), ("history", "timestamp")):
        assert frame_of(report, tmp_path / "a")[name].tolist() == [pandas.Timestamp(nanoseconds, tz="UTC")]


def test_types(drawn):
    types = {name: str(dtype) for name, dtype in frame_of("tables", drawn["rrc00"]).dtypes.items()}
    assert types == {
        "peer_asn": "uint32", "peer_ip": "category", "prefix": "category", "path_id": "uint32", "as_path": "category",
        "next_hop": "category", "origin": "category", "med": "UInt32", "local_pref": "UInt32", "atomic": "bool",
        "aggr_asn": "UInt32", "aggr_ip": "category"}
    for report in REPORTS:
        full, empty = frame_of(report, drawn["rrc01"]), frame_of(report, os.devnull)
        assert len(full) and not len(empty), report
        assert [str(dtype) for dtype in full.dtypes] == [str(dtype) for dtype in empty.dtypes], report
    assert str(frame_of("churn", drawn["rrc00"])["first"].dtype) == "datetime64[ns, UTC]"
    assert {"origin_asn": "UInt32", "peers": "uint32"}.items() <= dict(frame_of("seen", os.devnull).dtypes.astype(str)).items()


def test_pieces_are_the_whole(drawn):
    whole = frame_of("tables", drawn["rrc00"])
    run = bgp_replay.Replay("tables", drawn["rrc00"], rows=100)
    parts = list(run)
    assert [len(part) for part in parts] == [100] * (len(whole) // 100) + [len(whole) % 100] * (len(whole) % 100 > 0)
    assert "".join(map(lines, parts)) == lines(whole) == lines(bgp_replay.Replay("tables", drawn["rrc00"], rows=100).frame())
    assert run.summary.routes == len(whole)


@pytest.fixture(scope="module")
def large(gen_mrt, tmp_path_factory):
    """A RIB dump of some 228,000 routes: 18 MB of `tables`."""
    path = tmp_path_factory.mktemp("large") / "rib"
    path.write_bytes(gen_mrt("rib", 12_000, 20, 7))
    return path


def test_leaving_early_ends_the_program(large):
    replay = bgp_replay.Replay("tables", large, rows=10)
    run = iter(replay)
    assert len(next(run)) == 10
    assert replay.child.poll() is None  # it has more than a pipe takes
    run.close()
    assert replay.child.poll() is not None and replay.summary is None


def test_memory_is_bounded(large):
    """Pieces of 10,000 lines take some MB of 18 MB of text, and no more after the third."""
    routes = bgp_replay.summary(large).routes
    script = """if True:
        import resource, sys, bgp_replay
        most = lambda: resource.getrusage(resource.RUSAGE_SELF).ru_maxrss
        rows = 0
        for number, part in enumerate(bgp_replay.Replay("tables", sys.argv[1], rows=10_000)):
            rows += len(part)
            if number == 3: before = most()
        print(rows, most() - before)
    """
    run = subprocess.run([sys.executable, "-c", script, large], capture_output=True, text=True, check=True,
                         env=os.environ | {"PYTHONPATH": str(PYTHON)})
    rows, kib = map(int, run.stdout.split())
    assert rows == routes > 200_000 and kib < 6_000


@pytest.mark.parametrize("name", ["--header", "-", "a b", "a\nfile 1 damaged: 7", "a|b", "'\"\\", "ü", "a: b", " "])
def test_names(name, tmp_path, monkeypatch, sample):
    monkeypatch.chdir(tmp_path)
    with open(name, "wb") as file, open(sample[1], "rb") as updates:
        file.write(updates.read())
    with pytest.warns(bgp_replay.DamagedWarning) as warned:
        assert len(bgp_replay.tables(name)) == 2
    assert warned[0].message.counts == {name: 1}
    assert bgp_replay.faults([sample[0], name])["file"].tolist() == [name]
    assert [file.name for file in bgp_replay.summary([name, sample[1]]).files] == [name, sample[1]]


def test_a_file_that_is_given_again(sample):
    assert bgp_replay.faults([sample[1]] * 2)["file"].tolist() == [sample[1], f"{sample[1]} (2)"]


def test_summary(sample):
    """Sizes and times are those of examples/README.md."""
    found = bgp_replay.summary(sample)
    assert (found.damaged, found.bytes, found.records, found.peers) == (1, 5551 + 787, 19 + 11, 9)
    second = found.files[1]
    assert (second.bytes, second.records, second.aside, second.damaged, second.refused) == (787, 11, 1, 1, 0)
    assert second.aside_kinds == {"BGP4MP BGP4MP_MESSAGE_AS4_LOCAL": 1}
    frame = found.frame()
    assert frame["last"][1] == pandas.Timestamp("2026-11-22 07:13:41", tz="UTC") and frame["units"].sum() == found.units
    assert bgp_replay.summary(os.devnull).frame()["first"].isna().all()


def test_what_the_program_does_not_have(sample):
    with pytest.raises(bgp_replay.UsageError, match="unrecognized subcommand 'rows'"):
        bgp_replay.Replay("rows", sample).frame()
    with pytest.raises(bgp_replay.UsageError, match="--same"):
        frame_of("tables", sample, same=True)
    with pytest.raises(TypeError, match="no option 'untill'"):
        bgp_replay.tables(sample, untill=1)


def test_peers_by_hand(sample):
    """examples/README.md: where each peer's first message of the updates begins."""
    rows = frame_of("peers", sample).set_index("peer_asn")
    assert rows.loc[65107, ["state", "routes"]].tolist() == ["down", 0]
    assert rows.loc[65003, ["state", "routes"]].tolist() == ["up", 6]
    assert rows["file"].unique().tolist() == [sample[0]] and rows["entry"].notna().all()
    updates = frame_of("peers", sample[1])
    assert updates[["peer_asn", "peer_ip", "state", "routes", "units", "offset"]].values.tolist() == [
        [200104, "192.0.2.104", "up", 1, 3, 0], [65101, "192.0.2.105", "up", 0, 1, 91], [65003, "192.0.2.3", "up", 1, 1, 150],
        [64502, "192.0.2.102", "up", 0, 1, 288], [65107, "192.0.2.5", "down", 0, 2, 372],
        [196618, "192.0.2.4", "up", 0, 2, 579]]
    assert updates["entry"].isna().all() and updates["last"][4] == pandas.Timestamp("2026-11-22 07:13:00", tz="UTC")


def test_addresses_in_either_form(sample):
    assert lines(frame_of("tables", sample, addresses="full"), sample) == text_of("tables", sample)
    short = text_of("tables", sample, "--addresses=short")
    assert lines(frame_of("tables", sample, addresses="short"), sample) == short
    with pytest.raises(bgp_replay.UsageError, match="neither full nor short"):
        frame_of("tables", sample, addresses="long")
