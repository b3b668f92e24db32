"""What happened to prefixes: who saw which origin, and where addresses went by longest match."""

import bgp_replay
import pandas
from bgp_replay import longest, plots
from bgp_replay.incident import Incident
from bgp_replay.page_data import data
from page_samples import history_frame


def test_counts_are_those_of_seen(incident_files):
    """At the start, at the end and between, beside the program's own `seen`."""
    for until in ("2026-05-14T12:00:00Z", "2026-05-14T12:22:30Z", "2026-05-14T12:50:00Z", "2026-05-14T14:00:00Z"):
        incident = Incident(bgp_replay.history(incident_files, prefixes="192.0.2.0/24+", until=until), until=until)
        seen = bgp_replay.seen(incident_files, prefixes="192.0.2.0/24+", until=until)
        told = {(row.prefix, f"AS{row.origin_asn}"): row.peers for row in seen.itertuples()}
        assert {(sight.prefix, sight.origin): sight.end for sight in incident.sights if sight.end} == told


def test_since_is_the_state_then(incident_files):
    """With `since` the page begins with the tables of that moment, and lists what came from then on."""
    history = bgp_replay.history(incident_files, prefixes="192.0.2.0/24+")
    whole, late = Incident(history), Incident(history, since="2026-05-14T12:25:00Z")
    assert late.start == pandas.Timestamp("2026-05-14T12:25:00Z") and late.end == whole.end
    assert len(late.events) == (whole.events["timestamp"] >= late.start).sum() > 100
    seen = bgp_replay.seen(incident_files, prefixes="192.0.2.0/24", until="2026-05-14T12:24:59Z")
    found = {sight.origin: sight.start for sight in late.held["192.0.2.0/24"].sights if sight.start}
    assert found == {f"AS{row.origin_asn}": row.peers for row in seen.itertuples()}
    begin = data(late, {}, {})["begin"]
    assert len(begin) == sum(found.values()) and all(prefix == 0 for _, prefix, _, _ in begin)


def test_order_of_the_dumps():
    """A time that goes back doesn't change the order in which the program replayed."""
    rows = [(5, "new", "rib", 1, "a", "10.0.0.0/8", 0, "1 2"), (3, "changed", "update", 1, "a", "10.0.0.0/8", 0, "1 3"),
            (9, "changed", "update", 1, "a", "10.0.0.0/8", 0, "1 4"), (8, "changed", "update", 1, "a", "10.0.0.0/8", 0, "1 5")]
    incident = Incident(history_frame(*rows))
    assert [(sight.origin, sight.start, sight.end) for sight in incident.sights] == [
        ("AS2", 1, 0), ("AS3", 0, 0), ("AS5", 0, 1)]
    events = data(incident, {}, {})["events"]
    assert events["steps"] == [0, 6000000, 0] and events["offsets"] == [0, 0, -1000000]


def test_peaks_and_what_was_withdrawn_before():
    """Two peers have the origin one after the other, never both; one withdraws before `since`, and has nothing then."""
    rows = [(0, "new", "rib", 1, "a", "10.0.0.0/8", 0, "1 2"), (2, "gone", "update", 1, "a", "10.0.0.0/8", 0, "1 2"),
            (3, "new", "update", 2, "b", "10.0.0.0/8", 0, "2 2"), (5, "lost", "state", 2, "b", "10.0.0.0/8", 0, "2 2"),
            (6, "new", "update", 2, "b", "10.0.0.0/8", 7, "2 2"), (6, "new", "update", 1, "a", "10.0.0.0/8", 0, "1 2"),
            (9, "gone", "update", 2, "b", "10.0.0.0/8", 7, "2 2")]
    [sight] = Incident(history_frame(*rows)).sights
    second = pandas.Timestamp("2026-05-14T12:00:06Z")
    assert (sight.start, sight.most, sight.when, sight.end, sight.gone) == (1, 2, second, 1, None)
    [sight] = Incident(history_frame(*rows[:4])).sights
    assert (sight.start, sight.most, sight.end, sight.gone) == (1, 1, 0, pandas.Timestamp("2026-05-14T12:00:05Z"))
    assert sight.when == pandas.Timestamp("2026-05-14T12:00:00Z")
    late = Incident(history_frame(*rows), since="2026-05-14T12:00:04Z")
    told = data(late, {}, {})
    [[*key, route]] = told["begin"]
    assert key == [1, 0, 0] and told["routes"][route] == ["2 2", 0, 0] and late.held["10.0.0.0/8"].start == {(2, "b")}
    assert late.held["10.0.0.0/8"].lost == [(2, "b")]


def test_more_specifics_of_an_origin():
    """An origin that has the prefix at the start isn't new of its half; another is, and so is one of a larger prefix."""
    rows = [(0, "new", "rib", 1, "a", "10.0.0.0/9", 0, "1 2"), (1, "new", "update", 1, "a", "10.0.0.0/10", 0, "1 2"),
            (2, "changed", "update", 1, "a", "10.0.0.0/10", 0, "1 3"), (3, "new", "update", 1, "a", "10.0.0.0/8", 0, "1 2")]
    incident = Incident(history_frame(*rows))
    assert {(sight.prefix, sight.origin): sight.is_new for sight in incident.sights} == {
        ("10.0.0.0/9", "AS2"): False, ("10.0.0.0/10", "AS2"): False, ("10.0.0.0/10", "AS3"): True, ("10.0.0.0/8", "AS2"): True}
    assert incident.origins == {"AS2": False, "AS3": True}
    assert [incident.is_inside(prefix) for prefix in incident.appeared()] == [False, True]


def test_parts():
    """Of some prefixes, which addresses have the same longest matches."""
    for prefixes, wanted in [
        (["10.0.0.0/24"], [("10.0.0.0/24", ["10.0.0.0/24"])]),
        (["10.0.0.0/24", "10.0.0.0/25"], [("10.0.0.0/25", ["10.0.0.0/25", "10.0.0.0/24"]), ("10.0.0.128/25", ["10.0.0.0/24"])]),
        (["10.0.0.0/24", "10.0.0.0/25", "10.0.0.128/25"],
         [("10.0.0.0/25", ["10.0.0.0/25", "10.0.0.0/24"]), ("10.0.0.128/25", ["10.0.0.128/25", "10.0.0.0/24"])]),
        (["10.0.0.0/8", "10.0.0.64/26", "10.0.0.0/24"],
         [("10.0.0.0/26 and 10.0.0.128/25", ["10.0.0.0/24", "10.0.0.0/8"]),
          ("10.0.0.64/26", ["10.0.0.64/26", "10.0.0.0/24", "10.0.0.0/8"]), ("rest of 10.0.0.0/8", ["10.0.0.0/8"])]),
        (["::/0", "::/1", "10.0.0.0/8", "0.0.0.0/0"],
         [("rest of 0.0.0.0/0", ["0.0.0.0/0"]), ("10.0.0.0/8", ["10.0.0.0/8", "0.0.0.0/0"]), ("::/1", ["::/1", "::/0"]),
          ("8000::/1", ["::/0"])]),
    ]:
        assert [(part.name, list(part.chain)) for part in longest.parts(prefixes)] == wanted


def test_longest_match_by_hand():
    """A half that another AS announces takes its addresses, the other half stays, and it falls back when it's withdrawn."""
    rows = [(0, "new", "rib", 1, "a", "10.0.0.0/24", 0, "1 2"), (3, "new", "update", 1, "a", "10.0.0.0/25", 0, "1 3"),
            (5, "gone", "update", 1, "a", "10.0.0.0/24", 0, "1 2"), (7, "new", "update", 1, "a", "10.0.0.0/24", 0, "1 2"),
            (9, "gone", "update", 1, "a", "10.0.0.0/25", 0, "1 3")]
    incident = Incident(history_frame(*rows))
    seconds = [(sight.prefix, sight.origin, sight.is_new, sight.start, sight.end, [
        None if time is None else (time - incident.start).total_seconds() for time in (sight.when, sight.gone)])
        for sight in incident.gets]
    assert seconds == [("10.0.0.0/25", "AS2", False, 1, 1, [0, None]), ("10.0.0.0/25", "AS3", True, 0, 0, [3, 9]),
                       ("10.0.0.128/25", "AS2", False, 1, 1, [0, None])]
    first = incident.start
    found = longest.rows(plots.spans(history_frame(*rows), first + pandas.Timedelta(10, "s")), incident.who)
    spans = [span[2:5] for span in longest.spans(found, incident.parts)]
    assert [(origins, (since - first).seconds, (until - first).seconds) for origins, since, until in spans] == [
        ("AS2", 0, 3), ("AS3", 3, 9), ("AS2", 9, 10), ("AS2", 0, 5), ("AS2", 7, 10)]
    assert Incident(history_frame(*rows[:1])).gets == []  # nothing is nested
    # The half comes from the owner, goes, and comes from another one: it ends with the latter, though the whole stands.
    rows = [(0, "new", "rib", 1, "a", "10.0.0.0/24", 0, "1 2"), (0, "new", "rib", 1, "a", "10.0.0.0/25", 0, "1 2"),
            (3, "gone", "update", 1, "a", "10.0.0.0/25", 0, "1 2"), (7, "new", "update", 1, "a", "10.0.0.0/25", 0, "1 3")]
    found = {(sight.prefix, sight.origin): sight.end for sight in Incident(history_frame(*rows)).gets}
    assert found == {("10.0.0.0/25", "AS2"): 0, ("10.0.0.0/25", "AS3"): 1, ("10.0.0.128/25", "AS2"): 1}


def test_longest_match_is_that_of_the_program(incident_files):
    """Of each half at some moments, how many peers send it to each origin, beside `match`."""
    for until in ("2026-05-14T12:22:30Z", "2026-05-14T12:31:20Z", "2026-05-14T12:50:00Z", "2026-05-14T13:06:10Z"):
        incident = Incident(bgp_replay.history(incident_files, prefixes="192.0.2.0/24+", until=until), until=until)
        found = {(sight.prefix, sight.origin): sight.end for sight in incident.gets if sight.end}
        for part, address in (("192.0.2.0/25", "192.0.2.1"), ("192.0.2.128/25", "192.0.2.129")):
            routes = bgp_replay.match(incident_files, address, until=until)
            origins = ("AS" + routes["as_path"].astype(str).str.split().str[-1]).value_counts().to_dict()
            told = {origin: n for (of, origin), n in found.items() if of == part}
            assert not incident.gets or told == origins


def test_what_comes_first():
    """The prefix that was asked for, then what changed at most peers; parts are those of nested prefixes alone."""
    rows = [(0, "new", "rib", 1, "a", prefix, 0, "1 2") for prefix in ("0.0.0.0/0", "10.0.0.0/8", "10.0.0.0/24", "11.0.0.0/8", "::/0")]
    rows += [(1, "changed", "update", 1, "a", "11.0.0.0/8", 0, "1 3"), (2, "new", "update", 2, "b", "12.0.0.0/8", 0, "2 4"),
             (3, "new", "update", 1, "a", "13.0.0.0/8", 0, "1 4"), (3, "new", "update", 2, "b", "13.0.0.0/8", 0, "2 4")]
    incident = Incident(history_frame(*rows), asked=["9.0.0.0/8", "10.0.0.0/24-", "10.0.0.0/24+"])
    assert incident.main == "10.0.0.0/24" and data(incident, {}, {})["main"] == incident.prefixes.index("10.0.0.0/24")
    assert incident.there() == ["10.0.0.0/24", "11.0.0.0/8", "0.0.0.0/0", "10.0.0.0/8", "::/0"]
    assert incident.appeared() == ["13.0.0.0/8", "12.0.0.0/8"]
    assert Incident(history_frame(*rows)).main == "0.0.0.0/0"
    assert [part.name for part in incident.parts] == [
        "rest of 0.0.0.0/0", "10.0.0.0/24", "rest of 10.0.0.0/8", "11.0.0.0/8", "12.0.0.0/8", "13.0.0.0/8"]
    assert Incident(history_frame(rows[3], rows[4])).parts == []


def test_of_how_many_peers():
    """Those that have a route of any prefix count, beside those that had one of these; the others are told apart."""
    rows = [(0, "new", "rib", 1, "a", "10.0.0.0/8", 0, "1 2"), (1, "lost", "state", 1, "a", "10.0.0.0/8", 0, "1 2")]
    everyone = pandas.DataFrame({"peer_asn": [1, 2, 3, 3], "peer_ip": list("abcd"), "routes": [0, 5, 0, 7]})
    incident = Incident(history_frame(*rows), everyone=everyone)
    assert incident.never == [(2, "b"), (3, "d")] and incident.without == 1 and incident.total == 3
    alone = Incident(history_frame(*rows))
    assert alone.never is None and alone.total == 1


def test_columns_of_a_route():
    """What a history has of a route beside its path: each set of values once, and nothing where nothing is said."""
    rows = [(0, "new", "rib", 1, "a", "10.0.0.0/8", 0, "1 2"), (1, "changed", "update", 1, "a", "10.0.0.0/8", 0, "1 2"),
            (2, "void", "update", 2, "b", "10.0.0.0/8", 0, None), (3, "changed", "update", 1, "a", "10.0.0.0/8", 0, None),
            (4, "changed", "update", 1, "a", "10.0.0.0/8", 0, "1 2")]
    frame = history_frame(*rows).assign(med=pandas.array([None, 5, None, 5, 5], "UInt32"), atomic=[False, False, False, True, False],
                                        communities=pandas.Categorical(["1:2", None, None, "1:2 3:4", None]), local_pref=None)
    told = data(Incident(frame), {1: "One", 7: "Seven"}, {("10.0.0.0/8", "AS2"): "valid"})
    assert told["columns"] == ["med", "atomic", "communities"] and told["names"] == {1: "One"}
    assert [told["routes"][number] if number >= 0 else None for number in [told["begin"][0][3], *told["events"]["routes"]]] == [
        ["1 2", 0, 0], ["1 2", 0, 1], None, [None, 1, 2], ["1 2", 0, 1]]
    assert told["attributes"] == [((2, "1:2"),), ((0, "5"),), ((0, "5"), (1, True), (2, "1:2 3:4"))]
    assert told["origins"] == [["AS2", False], ["no AS", True]] and told["validity"] == [[0, 0, "valid"]]
