"""`page`: what the summary says, by hand; what the scripts get; hostile texts; the command."""

import html
import os
import re
import stat
import subprocess
import sys
import time

import bgp_replay
import pandas
import pytest

pytest.importorskip("jinja2", reason="python3-jinja2 isn't installed")
from bgp_replay import incident as incidents
from bgp_replay.collectors import Collectors
from bgp_replay.incident import Incident, moment
from bgp_replay.pages import Source, count, hash_of, length, page_of, several, wanted
from conftest import PYTHON
from page_samples import EVIL, PREFIX, data_of, history_frame, hostile_page, page_text, words_of


def test_summary_by_hand(sample):
    """examples/README.md: 07:05 another origin, 07:12 a session ends, 07:13:10 to :41 a more-specific of AS 64511."""
    words = words_of(page_text(sample, PREFIX))
    for told in [
            "2026-11-22 07:01:16 to 07:13:41 UTC", "1 damaged record or message skipped",
            "7 → 6 of 9 peers with a route of 17.150.214.0/24", "1 new origin AS64511: at most 2 peers at one time (17.150.214.128/25)",
            "1 new prefix 17.150.214.128/25", "1 peer lost 17.150.214.0/24 and has", "6 events in 12 min 25 s, at 7 peers",
            "17.150.214.0/24 : 7 peers have it at the start, 6 at the end.",
            "1 peer sees other origins later than at the start, the first at 07:05:00 : AS200104 192.0.2.104.",
            "1 peer that had it has no route at the end: AS65107 192.0.2.5.",
            "17.150.214.128/25 , a more-specific, appears at 07:13:10 with origin AS64511 (at most 2 peers, 07:13:12 ); "
            "2 peers had it, and it is gone at 07:13:41 .",
            "First event at 07:05:00 (changed 17.150.214.0/24, AS200104 192.0.2.104), last one at 07:13:41 (gone "
            "17.150.214.128/25, AS196618 192.0.2.4).",
            "By longest match, the addresses of 17.150.214.128/25 go to AS64511 from 07:13:10 on, from at most 2 peers at one time "
            "( 07:13:12 ), and from none after 07:13:41 .",
            "2 other peers have routes, and never had these prefixes: AS64502 192.0.2.102 and AS64506 2001:db8:99::106.",
            "17.150.214.0/25 AS4200001457 5 6 5 the start –", "17.150.214.128/25 AS64511 new 0 2 0 07:13:10 07:13:41",
            "17.150.214.0/24 AS4200001457 5 6 5 the start –", "17.150.214.0/24 AS374813 3 3 2 the start –",
            "17.150.214.0/24 AS35220 3 3 3 the start –", "17.150.214.128/25 AS64511 new 0 2 0 07:13:10 07:13:41"]:
        assert told in words, told


def test_data(sample):
    """What the scripts get: the routes of the start, and each event with its time in microseconds."""
    data = data_of(page_text(sample, PREFIX))
    assert data["start"] == 1795330876000000 and data["length"] == 745000000
    assert data["prefixes"] == ["17.150.214.0/24", "17.150.214.128/25"] and len(data["begin"]) == 15
    events = data["events"]
    assert [sum(events["steps"][: i + 1]) // 10**6 for i in range(6)] == [224, 644, 714, 716, 744, 745] and not any(events["offsets"])
    assert [events["whatNames"][what] for what in events["what"]] == ["changed", "lost", "new", "new", "gone", "gone"]
    assert [events["byNames"][by] for by in events["by"]] == ["update", "state", *["update"] * 4]
    assert [data["peers"][peer][0] for peer in events["peers"]] == [200104, 65107, 200104, 196618, 200104, 196618]
    assert data["parts"] == [["17.150.214.0/25", [0]], ["17.150.214.128/25", [1, 0]]] and data["total"] == 9
    text, origin, attributes = data["routes"][events["routes"][2]]
    shown = {data["columns"][at]: value for at, value in data["attributes"][attributes]}
    assert shown == {"next_hop": "192.0.2.104", "origin": "IGP"}
    assert text == "200104 174 64511" and data["origins"][origin] == ["AS64511", True]
    assert dict(map(tuple, data["origins"])) == {"AS4200001457": False, "AS374813": False, "AS35220": False, "AS64511": True}


def test_without_a_rib_dump():
    rows = [(0, "new", "update", 1, "a", "10.0.0.0/8", 0, "1 2"), (7, "new", "update", 2, "b", "10.0.0.0/9", 0, "2 {3,4}")]
    incident = Incident(history_frame(*rows))
    assert incident.is_blank and incident.origins == {"AS2": False, "no AS": True}
    assert "Nothing is there at the start" in page_of(history_frame(*rows))
    with pytest.raises(ValueError, match="no route of 10.0.0.0/8 and its more-specifics is in these files"):
        page_of(history_frame(), source=Source(["10.0.0.0/8+"]))
    with pytest.raises(ValueError, match="the time ends before it begins"):
        Incident(history_frame(*rows), since="2026-05-14T12:00:05Z", until="2026-05-14T12:00:04Z")
    with pytest.raises(ValueError, match="no route of these prefixes is there by 2026-05-14 11:00:00 UTC"):
        page_of(history_frame(*rows), since="2026-05-14T10:00:00Z", until="2026-05-14T11:00:00Z")
    assert not len(Incident(history_frame(*rows), since="2026-05-14T13:00:00Z", until="2026-05-14T14:00:00Z").events)


def test_files_in_another_order(sample):
    """Updates alone, and a RIB dump behind them, whose time goes back: what comes first is taken for what was there."""
    words = words_of(page_text(sample[1], PREFIX))
    assert "Nothing is there at the start" in words and "2026-11-22 07:05:00 to 07:13:41 UTC" in words
    words = words_of(page_text([sample[1], sample[0]], PREFIX, quiet=True))
    assert "Nothing is there at the start" in words and "AS35220 new 0 3 3 07:13:41" in words
    words = words_of(page_text(sample[0], PREFIX))
    assert "Nothing happened to these prefixes in this time." in words and "0 events in 0 s, at 7 peers" in words


def test_other_days():
    """Times of another day than that of the start have their day."""
    words = words_of(page_of(history_frame((0, "new", "rib", 1, "a", "10.0.0.0/8", 0, "1 2"), (3 * 86400, "changed", "update", 1, "a", "10.0.0.0/8", 0, "1 3"))))
    assert "2026-05-14 12:00:00 to 2026-05-17 12:00:00 UTC" in words and "AS3 comes as a new origin at 2026-05-17 12:00:00" in words


def test_two_collectors():
    """A peer of each collector is a peer of its own, and each collector has its RIB dump."""
    one = history_frame((0, "new", "rib", 1, "a", "10.0.0.0/8", 0, "1 2"), (9, "gone", "update", 1, "a", "10.0.0.0/8", 0, "1 2"))
    both = pandas.concat([one.assign(collector=name) for name in ("x", "y")], ignore_index=True)
    incident = Incident(both[["collector", *one.columns]])
    assert incident.peers == [("x", 1, "a"), ("y", 1, "a")] and incident.sights[0].start == 2 and len(incident.events) == 2
    assert "x AS1 a" in words_of(page_of(both))


def test_collectors(sample):
    """A frame of `Collectors`: each collector's peers count."""
    history = Collectors({"a": sample, "b": sample}, prefixes=PREFIX).history()
    words = words_of(page_of(history, source=Source([PREFIX])))
    assert "17.150.214.0/24 : 14 peers have it at the start, 12 at the end." in words
    assert "a AS65107 192.0.2.5 and b AS65107 192.0.2.5." in words.replace("2001:0db8", "2001:db8")


def test_too_much(monkeypatch, incident_files):
    monkeypatch.setattr(incidents, "MOST_EVENTS", 100)
    with pytest.raises(ValueError, match="more than 100 events, too many for a page: choose fewer prefixes, or a shorter time"):
        bgp_replay.page(incident_files, "192.0.2.0/24+")
    monkeypatch.setattr(incidents, "MOST_EVENTS", 10_000)
    monkeypatch.setattr(incidents, "MOST_PREFIXES", 2)
    text = bgp_replay.page(incident_files, ["192.0.2.0/24", "192.0.2.0/24+"])
    assert "1 prefix with fewer events isn't on this page." in words_of(text)
    assert data_of(text)["prefixes"] == ["192.0.2.0/24", "192.0.2.0/25"]


def test_texts_and_times():
    assert several(["a"]) == "a" and several(["a", "b"]) == "a and b" and several([]) == "nothing"
    assert several(list("abcde"), 3) == "a, b and 3 others"
    assert count(1, "peer") == "1 peer" and count(2000, "peer") == "2,000 peers" and count(2, "is", "are") == "2 are"
    assert [wanted(prefix) for prefix in ("::/0", "::/0+", "::/0-")] == ["::/0", "::/0 and its more-specifics", "::/0 and what contains it"]
    assert length(pandas.Timedelta(3725, "s")) == "1 h 2 min" and length(pandas.Timedelta(86401, "s")) == "1 d 1 s"
    for value in (1778760000, "1778760000", "2026-05-14T12:00:00Z", "2026-05-14 14:00:00+02:00", "2026-05-14T12:00"):
        assert moment(value) == pandas.Timestamp("2026-05-14T12:00:00Z")


def test_hostile_texts():
    text = hostile_page()
    assert text.count("<script") == 2 and text.count("</script>") == 2 and "<img" not in text and "49" not in words_of(text)[:200]
    assert data_of(text)["peers"] == [[EVIL, 1, EVIL]] and EVIL in html.unescape(re.search("<h1>(.*?)</h1>", text)[1])


def test_nothing_is_fetched(sample):
    """One file: no address in it, and a policy that lets these scripts run and no others."""
    text = page_text(sample, PREFIX)
    assert set(re.findall(r"https?://[^\"' ]+", text)) == {"http://www.w3.org/2000/svg"}  # a name, which nobody fetches
    assert not re.search(r"""\b(src|srcset|@import|url)\b\s*[=(]\s*["']?(?!#)""", re.sub(r"(?s)<script.*?</script>", "", text))
    policy = re.search(r'Content-Security-Policy" content="(.*?)"', text)[1]
    script = re.search(r"<script>(.*?)</script>", text, re.DOTALL)[1]
    assert policy.startswith("default-src 'none'") and f"script-src '{hash_of(script)}'" in html.unescape(policy)
    assert not re.search(r"innerHTML|outerHTML|insertAdjacentHTML|document\.write|\beval\b|new Function", script)


def run(*words):
    command = [sys.executable, "-m", "bgp_replay", "page", *map(str, words)]
    return subprocess.run(command, capture_output=True, text=True, cwd=PYTHON, timeout=300)


def test_command(sample, tmp_path):
    out = tmp_path / "incident.html"
    told = run("--prefix", PREFIX, "--title", "A <b> title", "--since", "2026-11-22T07:04:00Z", "--until", "2026-11-22T07:12:30Z",
               *sample, "-o", out)
    text = out.read_text()
    assert told.returncode == 1 and "damaged: 1" in told.stderr and "<h1>A &lt;b&gt; title</h1>" in text
    assert "2026-11-22 07:04:00 to 07:12:30 UTC" in words_of(text) and len(data_of(text)["events"]["steps"]) == 2
    assert run("--prefix", PREFIX, sample[0], "-o", out).returncode == 0  # nothing of it is damaged
    first, second = (run("--prefix", PREFIX, *sample, "-o", "-").stdout for _ in range(2))
    assert first == second and first.startswith("<!DOCTYPE html>") and first.rstrip().endswith("</html>")
    told = run("--prefix", "203.0.113.0/24", *sample, "-o", out)
    assert "  note: units that changed nothing" in told.stderr


def test_a_page_that_fails_leaves_the_old_one(sample, tmp_path):
    out, none, other = tmp_path / "incident.html", tmp_path / "none.mrt", tmp_path / "other"
    out.write_text("the old page")
    other.write_text("no VRPs")
    for words, status, said in [
        (["--prefix", "300.0.0.0/8", *sample], 2, "300.0.0.0/8"), (["--prefix", "9.9.9.0/24", *sample], 2, "no route of 9.9.9.0/24"),
        (["--prefix", PREFIX, "--family", "ipv5", *sample], 2, "ipv5"), (["--prefix", PREFIX, none], 3, "open failed"),
        (["--prefix", PREFIX, "--vrps", other, *sample], 2, f"{other}: the first line doesn't name ASN"),
        (["--prefix", PREFIX, "--names", other, *sample], 2, f"{other}: line 1 isn't an AS number"),
        (["--prefix", PREFIX, "--names", none, *sample], 3, "none.mrt"),
        (["--prefix", PREFIX, "--since", "2026-11-23", "--until", "2026-11-22", *sample], 2, "no route of"),
    ]:
        told = run(*words, "-o", out)
        assert (told.returncode, "Traceback" in told.stderr) == (status, False) and said in told.stderr, told.stderr
    assert out.read_text() == "the old page" and sorted(path.name for path in tmp_path.iterdir()) == ["incident.html", "other"]
    assert run("--prefix", PREFIX, sample[0], "-o", tmp_path / "no/folder.html").returncode == 3


def test_what_is_written_to(sample, tmp_path):
    """A link's file is replaced, and what isn't an ordinary file is written to."""
    (tmp_path / "link").symlink_to(tmp_path / "file")
    assert run("--prefix", PREFIX, sample[0], "-o", tmp_path / "link").returncode == 0
    assert (tmp_path / "link").is_symlink() and (tmp_path / "file").read_text().startswith("<!DOCTYPE html>")
    os.mkfifo(tmp_path / "pipe")
    with subprocess.Popen(["cat", tmp_path / "pipe"], stdout=subprocess.PIPE) as reader:
        assert run("--prefix", PREFIX, sample[0], "-o", tmp_path / "pipe").returncode == 0
        assert reader.stdout.read().startswith(b"<!DOCTYPE html>")
    assert stat.S_ISFIFO(os.stat(tmp_path / "pipe").st_mode)


def test_of_how_many_is_left_out(sample, tmp_path):
    """In one run, and of files that can be read once only; elsewhere they are told."""
    words = words_of(page_text(sample, PREFIX, one_run=True))
    assert "7 → 6 peers with a route of 17.150.214.0/24" in words and "other peers have routes" not in words
    os.mkfifo(tmp_path / "pipe")
    with subprocess.Popen(["sh", "-c", f"cat {sample[0]} > {tmp_path}/pipe"]):
        words = words_of(page_text([tmp_path / "pipe", sample[1]], PREFIX))
    assert "7 → 6 peers with a route of 17.150.214.0/24" in words


def test_a_run_that_fails_ends_the_other(stand_in, sample, tmp_path):
    """The program is ended that would tell of how many peers, which here goes on for ten minutes."""
    stand_in(f'if [ "$1" = peers ] && [ "$2" != --help ]; then echo $$ > {tmp_path}/number; exec sleep 600; fi; exec "$REAL" "$@"')
    for prefix, kind, words in [("300.0.0.0/8", bgp_replay.UsageError, "300.0.0.0/8"), ("9.9.9.0/24", ValueError, "name other prefixes")]:
        begun = time.monotonic()
        with pytest.raises(kind, match=words):
            bgp_replay.page(sample, prefix)
        assert time.monotonic() - begun < 500
    assert not os.path.exists(f"/proc/{(tmp_path / 'number').read_text().strip()}")


def test_names_and_vrps(sample, tmp_path):
    """They stand in the summary where they are known; of an origin that isn't one AS nothing is said."""
    (tmp_path / "vrps.csv").write_text("ASN,IP Prefix,Max Length,Trust Anchor\nAS35220,17.150.214.0/24,24,test\n")
    words = words_of(page_text(sample, PREFIX, names={64511: "Example & Co"}, vrps=tmp_path / "vrps.csv"))
    for told in ["17.150.214.0/24 AS35220 valid 3 3 3 the start", "17.150.214.0/24 AS374813 invalid 3 3 2 the start",
                 "17.150.214.128/25 AS64511 new Example & Co invalid 0 2 0 07:13:10", "with origin AS64511 (Example & Co) , invalid by these VRPs,",
                 "the 1 VRP of vrps.csv, which needn't be those of that time."]:
        assert told in words, told
    text = page_of(history_frame((0, "new", "rib", 1, "a", "10.0.0.0/8", 0, "1 {2,3}")), vrps=tmp_path / "vrps.csv")
    assert data_of(text)["validity"] == [] and "10.0.0.0/8 no AS – 1 1 1 the start" in words_of(text)
    assert "VRP" not in words_of(page_text(sample, PREFIX))


def test_page_of_collectors(sample):
    """Each collector's peers count, all of them; one that can't be replayed is named."""
    many = Collectors({"a": sample, "b": sample, "c": ["nofile"]}, errors="leave")
    words = words_of(many.page(PREFIX, title="Two"))
    for told in ["14 → 12 of 18 peers with a route of 17.150.214.0/24", "2 damaged records and messages skipped",
                 "a AS65107 192.0.2.5 and b AS65107 192.0.2.5.", "4 other peers have routes, and never had these prefixes: a AS64502 192.0.2.102",
                 "1 collector couldn't be replayed, and isn't here: c."]:
        assert told in words, told
    assert list(many.failed) == ["c"]
