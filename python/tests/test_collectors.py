"""Reports of collectors that share no peer, merged, are those of one run over all their files, line by line."""

import os
import signal
import subprocess
import sys
import threading
import time

import pandas
import pytest
from conftest import ADDRESS, FIRST, PYTHON, cut, frame_of, lines, pack, text_of

import bgp_replay
from bgp_replay.collectors import Collectors, by_place

try:
    import distributed
except ImportError:
    distributed = None
pytestmark = pytest.mark.skipif(distributed is None, reason="python3-distributed isn't installed")

REPORTS = ["tables", "visibility", "seen", "origins", "churn", "match", "faults", "history", "peers"]
SUMS = ["visibility", "seen", "origins"]


def merged(report, many):
    if report == "tables":
        return many.tables().compute()
    return many.match(ADDRESS) if report == "match" else getattr(many, report)()


def all_of(files):
    return sum(files.values(), [])


def check(report, files, **options):
    frame = merged(report, Collectors(files, **options))
    assert lines(frame, all_of(files)) == text_of(report, all_of(files))
    if report not in SUMS:
        named = {"rrc01"} if report == "faults" else set(files)
        assert frame.columns[0] == "collector" and set(frame["collector"]) == named


@pytest.fixture(scope="module")
def cluster():
    """Two processes, started by distributed."""
    options = dict(n_workers=2, threads_per_worker=1, processes=True, dashboard_address="127.0.0.1:0")
    with distributed.LocalCluster(**options) as local, distributed.Client(local) as client:
        yield client


@pytest.fixture(scope="module")
def machines(tmp_path_factory):
    """`dask scheduler` and two `dask worker`, as on three machines, over loopback."""
    folder = tmp_path_factory.mktemp("machines")
    contact = folder / "scheduler.json"

    def start(module, *words):
        command = [sys.executable, "-m", f"distributed.cli.{module}", "--scheduler-file", str(contact), *words]
        with open(folder / "log", "ab") as log:
            path = {"PYTHONPATH": str(PYTHON)}
            return subprocess.Popen(command, stdout=log, stderr=log, cwd=folder, env=os.environ | path)

    started = [start("dask_scheduler", "--host", "127.0.0.1", "--port", "0", "--no-dashboard")]
    while not contact.exists():
        assert started[0].poll() is None, (folder / "log").read_text()
        time.sleep(0.05)
    worker = ["--nthreads", "1", "--no-dashboard", "--no-nanny", "--local-directory", str(folder)]
    started += [start("dask_worker", *worker) for _ in range(2)]
    try:
        with distributed.Client(scheduler_file=str(contact), timeout=120) as client:
            client.wait_for_workers(2)
            yield client
    finally:
        for process in started:
            process.kill()
            process.wait()


@pytest.mark.parametrize("report", REPORTS)
def test_on_threads(report, drawn):
    check(report, drawn)


@pytest.mark.parametrize("report", REPORTS)
def test_on_two_processes(report, drawn, cluster):
    check(report, drawn, client=cluster)


@pytest.mark.parametrize("report", REPORTS)
def test_on_machines(report, drawn, machines):
    check(report, drawn, client=machines)


@pytest.mark.parametrize("shares", [1, 2, 5])
@pytest.mark.parametrize("report", REPORTS)
def test_shares_are_one_run(report, shares, drawn, sample):
    """In the order of one run."""
    for files in (drawn["rrc01"], sample, sample[1:]):
        words = {"address": ADDRESS} if report == "match" else {}
        frame = Collectors({"one": files}, shares=shares).report(report, **words)
        assert lines(frame, files) == text_of(report, files)


@pytest.mark.parametrize("shares", [1, 2, 5])
def test_partitions_are_shares(shares, drawn):
    """Each peer's routes are in one of them, as they are in one run."""
    files = drawn["rrc01"]
    frame = Collectors({"one": files}, shares=shares).tables()
    parts = [part.compute() for part in frame.partitions]
    assert len(parts) == shares and sum(map(len, parts)) == len(text_of("tables", files).splitlines())
    for number, part in enumerate(parts, 1):
        assert lines(part) == text_of("tables", files, f"--peers={number}/{shares}")


@pytest.mark.parametrize("report", [name for name in REPORTS if name != "tables"])
def test_shares_on_machines(report, drawn, machines):
    check(report, drawn, client=machines, shares=2)


def test_rib_dumps_in_shares(drawn):
    """A dump that replaces what came before it does so in each share."""
    files = drawn["rrc01"] * 2
    for report in ("churn", "visibility", "tables"):
        frame = Collectors({"one": files}, shares=3, rib="replace").report(report)
        assert lines(frame, files) == text_of(report, files, "--rib=replace")
    assert text_of("churn", files, "--rib=replace") != text_of("churn", files)


def test_options_of_shares(drawn):
    """Those of a report that `peers` doesn't have are left out where its places are asked for."""
    files, prefix = drawn["rrc00"], "174.0.0.0/8+"
    for report, options, words in [
        ("match", {"prefixes": prefix}, [f"--prefix={prefix}"]), ("churn", {"until": FIRST}, [f"--until={FIRST}"]),
        ("tables", {"peers": [64500, 64513, 64526]}, ["--peer=64500", "--peer=64513", "--peer=64526"]),
        ("churn", {"since": FIRST + 1}, [f"--since={FIRST + 1}"]),
    ]:
        if "since" in options and not bgp_replay.has("churn", "since"):
            continue
        address = {"address": ADDRESS} if report == "match" else {}
        frame = Collectors({"one": files}, shares=3, **options).report(report, **address)
        wanted = text_of(report, files, *words)
        assert lines(frame, files) == wanted != text_of(report, files)


def peers_frame(rows):
    frame = pandas.DataFrame(rows, columns=["peer_asn", "peer_ip", "file", "offset", "entry"])
    return frame.assign(file=pandas.Categorical(frame["file"], ["rib", "updates"]), entry=frame["entry"].astype("UInt32"))


def test_by_place():
    """By file, offset and entry, each as a number; a message has no entry."""
    frame = pandas.DataFrame({"peer_asn": [5, 5, 3, 4, 1, 2], "peer_ip": list("aabaaa"), "row": range(6)})
    places = [peers_frame([(5, "a", "updates", 20, None), (3, "b", "rib", 100, 2), (4, "a", "updates", 3, None)]),
              peers_frame([(1, "a", "rib", 100, 10), (2, "a", "rib", 20, 11)])]
    assert by_place(frame, places)["row"].tolist() == [5, 2, 4, 3, 0, 1]


def test_a_peer_of_two_collectors_has_two_tables(drawn):
    twice = Collectors({"a": drawn["rrc00"], "b": drawn["rrc00"]})
    assert (twice.visibility()["peers"] == 2 * frame_of("visibility", drawn["rrc00"])["peers"]).all()
    assert len(twice.churn()) == 2 * len(frame_of("churn", drawn["rrc00"]))


def test_origins_that_no_collector_has_twice(tmp_path, gen_mrt):
    """A prefix with one origin here and another one there is in no report `origins`, and in the merged one."""
    from test_frames import message

    files = {}
    for name, asn in (("a", 64500), ("b", 64501)):
        (tmp_path / name).write_bytes(message(1, b"\x40\x02\x06\x02\x01" + asn.to_bytes(4, "big")))
        files[name] = [tmp_path / name]
        assert not len(frame_of("origins", files[name]))
    found = Collectors(files).origins()
    assert found["prefix"].tolist() == ["1.0.0.0/8"] and found["origin_asns"].tolist() == [[64500, 64501]]


def test_a_missing_file(drawn, cluster):
    files = drawn | {"rrc09": [*drawn["rrc00"], "nofile"]}
    for options in ({}, {"client": cluster}, {"shares": 2}):
        with pytest.raises(bgp_replay.OpenError, match="^rrc09: open failed: file 3\n  nofile: No such file"):
            Collectors(files, **options).visibility()
        left = Collectors(files, errors="leave", **options)
        assert left.visibility().equals(Collectors(drawn).visibility())
        assert list(left.failed) == ["rrc09"] and "nofile" in str(left.failed["rrc09"])
        assert list(left.summaries) == list(drawn)
    with pytest.raises(bgp_replay.OpenError, match="^rrc09"):
        Collectors(files, client=cluster).tables().compute()
    with pytest.raises(bgp_replay.OpenError, match="^x: open failed"):
        Collectors({"x": ["nofile"]}, errors="leave").churn()


@pytest.mark.parametrize("kind", ["gz", "bz2", "xz", "zst"])
def test_a_truncated_packed_file(kind, drawn, cluster, tmp_path):
    """By whoever unpacks it."""
    packed = cut(pack(drawn["rrc00"][1], kind, tmp_path))
    files = drawn | {"rrc09": [drawn["rrc00"][0], packed]}
    words = rf"^rrc09: unpacking failed(: file 2)?\n  {packed}: "
    for options in ({}, {"client": cluster, "shares": 2}):
        with pytest.raises(bgp_replay.UnpackError, match=words):
            Collectors(files, **options).seen()
        left = Collectors(files, errors="leave", **options)
        assert left.seen().equals(Collectors(drawn).seen()) and list(left.failed) == ["rrc09"]
        assert isinstance(left.failed["rrc09"], bgp_replay.UnpackError)
        assert left.churn()["collector"].tolist() == Collectors(drawn).churn()["collector"].tolist()
    with pytest.raises(bgp_replay.UnpackError, match=words):
        Collectors(files, client=cluster).tables().compute()


@pytest.mark.parametrize("kind", ["gz", "bz2", "xz"])
def test_a_damaged_packed_file(kind, drawn, tmp_path):
    """A file of the first bytes of a packed one, and others."""
    (tmp_path / "bad").write_bytes(pack(drawn["rrc00"][1], kind, tmp_path).read_bytes()[:10] + b"damage" * 10)
    left = Collectors(drawn | {"rrc09": tmp_path / "bad"}, errors="leave")
    assert left.seen().equals(Collectors(drawn).seen()) and list(left.failed) == ["rrc09"]
    assert str(left.failed["rrc09"]).startswith("rrc09: ") and f"{tmp_path}/bad: " in str(left.failed["rrc09"])


def test_names_of_files(drawn, cluster, tmp_path, monkeypatch):
    """Workers get them as they are."""
    monkeypatch.chdir(tmp_path)
    names = ["a b", "--summary", "a\nfile 1 damaged: 7"]
    files = {}
    for name, [rib, updates] in zip(names, drawn.values()):
        (tmp_path / name).write_bytes(rib.read_bytes() + updates.read_bytes())
        files[name] = [f"{tmp_path}/{name}"]
    for report in ("churn", "faults", "peers"):
        frame = merged(report, Collectors(files, client=cluster))
        assert lines(frame, all_of(files)) == text_of(report, all_of(files))
    here = Collectors({name: name for name in names})
    assert lines(here.churn()) == text_of("churn", all_of(files))
    counts = {name: [summary.damaged for summary in all] for name, all in here.summaries.items()}
    assert counts == dict(zip(names, [[0], [2], [0]]))


def test_damage_is_counted(drawn):
    many = Collectors(drawn, shares=1)
    many.churn()
    assert {name: [summary.damaged for summary in all] for name, all in many.summaries.items()} == {
        "rrc00": [0], "rrc01": [2], "rrc02": [0]}
    with pytest.raises(bgp_replay.DamagedError, match="^rrc01: damaged: 2"):
        Collectors(drawn, damaged="raise").churn()
    left = Collectors(drawn, damaged="raise", errors="leave")
    assert set(left.churn()["collector"]) == {"rrc00", "rrc02"}
    assert left.failed["rrc01"].counts == {str(drawn["rrc01"][1]): 2}


def test_progress(drawn, cluster):
    for client, shares in ((None, 1), (cluster, 2)):
        seen = []

        def progress(done, total):
            for task in done:
                seen.append(total)
                yield task

        Collectors(drawn, client=client, progress=progress, shares=shares).visibility()
        assert seen == [3 * shares] * 3 * shares


def test_a_worker_that_dies(drawn, tmp_path, stand_in):
    """The program sleeps in the middle of a replay, its worker is killed, and the other worker runs the task again."""
    flag = tmp_path / "begun"
    stand_in(f'''case "$*" in *2.rib*)
        [ -e {flag} ] || {{ echo $PPID $$ > {flag}.tmp; mv {flag}.tmp {flag}; exec sleep 60; }};;
        esac
        exec "$REAL" "$@"''')
    options = dict(n_workers=2, threads_per_worker=1, processes=True, dashboard_address="127.0.0.1:0")
    with distributed.LocalCluster(**options) as local, distributed.Client(local) as client:

        def kill():
            while not flag.exists():
                time.sleep(0.02)
            for process in map(int, flag.read_text().split()):
                os.kill(process, signal.SIGKILL)

        killer = threading.Thread(target=kill)
        killer.start()
        found = Collectors(drawn, client=client).churn()
        killer.join()
    assert lines(found) == text_of("churn", all_of(drawn))


def test_the_rule_on_damage(malformed, cluster):
    """`errors` is another thing here. Of the two peers of this name each has a collector of its own."""
    files = {"a": [malformed], "b": [malformed]}
    for rule, peers, gone in (None, [2], [0, 0]), ("skip", [2], [0, 0]), ("rfc7606", [], [1, 1]):
        for options in {}, {"client": cluster, "errors": "leave"}, {"shares": 2}:
            many = Collectors(files, error_rule=rule, quiet=True, **options)
            assert many.visibility()["peers"].tolist() == peers
            assert many.churn()["gone"].tolist() == gone and many.churn()["refused"].tolist() == [2, 2]
            assert len(many.tables().compute()) == sum(peers)
    with pytest.raises(bgp_replay.UsageError, match="neither skip nor rfc7606"):
        Collectors(files, error_rule="other").churn()
    with pytest.raises(ValueError, match="error_rule"):
        Collectors(files, errors="rfc7606")


def test_what_is_refused(drawn):
    with pytest.raises(ValueError, match="'raise' and 'leave'"):
        Collectors(drawn, errors="no")
    with pytest.raises(ValueError, match="no collector"):
        Collectors({}).churn()
    with pytest.raises(bgp_replay.UsageError, match="^rrc00: "):
        Collectors(drawn, until=-1).churn()
