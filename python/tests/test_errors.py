"""What goes wrong is an exception with the program's words, and nothing of the report is returned."""

import lzma
import pathlib
import pickle
import warnings

import pytest
from conftest import cut, frame_of, lines, pack, text_of

import bgp_replay
from bgp_replay import run


def test_a_missing_file(sample):
    with pytest.raises(bgp_replay.OpenError, match=r"^open failed: file 2\n  nofile: No such file or directory$") as error:
        bgp_replay.tables([sample[0], "nofile"])
    assert isinstance(error.value, OSError) and error.value.status == 3


def test_what_the_program_refuses(sample):
    with pytest.raises(bgp_replay.UsageError, match="^bad address: 10.0.0$"):
        bgp_replay.match(sample, "10.0.0")
    with pytest.raises(ValueError, match="65"):
        bgp_replay.tables(sample, workers=65)
    for options in ({"share": (3, 2)}, {"peers": [(65003, "192.0.2")]}, {"prefixes": "192.0.2.1/24"}, {"until": -1}):
        with pytest.raises(bgp_replay.UsageError) as error:
            bgp_replay.tables(sample, **options)
        assert error.value.status == 2 and error.value.words
    with pytest.raises(bgp_replay.UsageError):
        bgp_replay.tables([])


def test_damage(sample):
    with pytest.warns(bgp_replay.DamagedWarning, match=r"^damaged: 1\n  .*updates.mrt: 1$") as warned:
        frame = bgp_replay.visibility(sample)
    assert warned[0].filename == __file__ and warned[0].message.counts == {sample[1]: 1}
    assert lines(frame) == text_of("visibility", sample)
    with pytest.raises(bgp_replay.DamagedError, match="damaged: 1") as error:
        bgp_replay.visibility(sample, damaged="raise")
    assert error.value.counts == {sample[1]: 1}
    with warnings.catch_warnings():
        warnings.simplefilter("error")
        bgp_replay.visibility(sample, damaged="ignore", quiet=True)
        bgp_replay.visibility(sample[0])
    with pytest.raises(ValueError, match="'warn', 'raise' and 'ignore'"):
        bgp_replay.visibility(sample, damaged="no")


def test_notes(sample, tmp_path):
    """Those of docs/USAGE.md, each a warning at the caller's line; a file that is unpacked here has its own name."""
    turned = [sample[1], sample[0]]
    wanted = ["units that changed nothing, since their peer wasn't up: 10, of 65107 192.0.2.5 (10); --states established takes them",
              f"files whose first record is older than that of the file named before: {sample[0]}"]
    with pytest.warns(bgp_replay.NoteWarning) as warned:
        bgp_replay.peers(turned, peers=[65107])
    assert [str(one.message) for one in warned] == wanted and {one.filename for one in warned} == {__file__}
    run = bgp_replay.Replay("peers", turned, peers=[65107])
    with pytest.warns(bgp_replay.NoteWarning):
        run.frame()
    assert run.notes == wanted
    with warnings.catch_warnings():
        warnings.simplefilter("error")
        bgp_replay.peers(turned, peers=[65107], quiet=True)
    (tmp_path / "plain").write_bytes(pathlib.Path(sample[0]).read_bytes())
    run = bgp_replay.Replay("peers", cut(pack(tmp_path / "plain", "gz", tmp_path)))
    with pytest.warns(bgp_replay.DamagedWarning):
        run.frame()
    assert len(run.cut) == 1 and run.cut[0] in run.said and run.cut[0] not in run.notes
    with open(sample[0], "rb") as file:
        (tmp_path / "rib.xz").write_bytes(lzma.compress(file.read()))
    with pytest.warns(bgp_replay.NoteWarning, match=f"file named before: {tmp_path}/rib.xz$"):
        bgp_replay.peers([sample[1], tmp_path / "rib.xz"], peers=[65107])


def test_notes_of_collectors(sample):
    """Each once, with the collector's name, whatever the number of shares."""
    collectors = pytest.importorskip("bgp_replay.collectors")
    turned = [sample[1], sample[0]]
    wanted = {f"{name}: files whose first record is older than that of the file named before: {sample[0]}" for name in "ab"}
    for shares in (1, 3):
        with pytest.warns(bgp_replay.NoteWarning) as warned:
            collectors.Collectors({"a": turned, "b": turned}, shares=shares, prefixes="203.0.113.0/24").churn()
        told = [str(one.message) for one in warned if "older" in str(one.message)]
        assert set(told) == wanted and len(told) == 2 and {one.filename for one in warned} == {__file__}
    with pytest.raises(TypeError, match="there is no option 'community'"):
        bgp_replay.tables(sample, community="65000:1")
    with pytest.raises(bgp_replay.UsageError, match="'community' is no attribute"):
        bgp_replay.tables(sample, attributes="community")


@pytest.mark.parametrize("size, status", [(30, 1), (5000, 1)])
def test_a_truncated_file(size, status, sample, tmp_path):
    """What stands before the end is replayed, with a warning."""
    with open(sample[0], "rb") as file:
        (tmp_path / "cut").write_bytes(file.read(size))
    with pytest.warns(bgp_replay.DamagedWarning, match="^damaged: 1\n  .*cut: 1$"):
        frame = bgp_replay.tables(tmp_path / "cut")
    assert lines(frame) == text_of("tables", [tmp_path / "cut"])
    assert bgp_replay.faults(tmp_path / "cut")["fault"].tolist() == ["ShortBody"]


HEAD = "printf 'prefix|peers\\n10.0.0.0/8|1\\n10.0.0.0/9|"


@pytest.mark.parametrize("end, words, status", [
    ("'; echo 'no memory' >&2; exit 3", "no memory", 3),
    ("1\\n'; echo 'read failed: file 1' >&2; exit 3", "read failed: file 1", 3),
    ("1\\n'; kill -9 $$", "bgp_replay was ended by signal 9", -9),
    ("1\\n10.'; exit 3", "bgp_replay ended with status 3", 3),
])
def test_a_program_that_fails_while_it_writes(end, words, status, stand_in, sample):
    stand_in(HEAD + end)
    for rows in (1, 100):
        with pytest.raises(bgp_replay.ReplayError) as error:
            bgp_replay.Replay("visibility", sample, rows=rows).frame()
        assert (str(error.value), error.value.status) == (words, status)
    parts = []
    with pytest.raises(bgp_replay.ReplayError):
        parts += bgp_replay.Replay("visibility", sample)
    assert parts == []


def test_a_text_that_is_no_report(stand_in, sample):
    stand_in(HEAD + "many\\n'")
    with pytest.raises(ValueError):
        bgp_replay.visibility(sample)


def test_no_program(monkeypatch, sample):
    monkeypatch.delenv("BGP_REPLAY", raising=False)
    monkeypatch.setenv("PATH", "/nowhere")
    with pytest.raises(FileNotFoundError, match="isn't on the PATH"):
        bgp_replay.tables(sample)


@pytest.mark.parametrize("error", [
    bgp_replay.ReplayError("a", 3, "rrc00"), bgp_replay.OpenError("b\n  c", 3), bgp_replay.UsageError("d", 2),
    bgp_replay.UnpackError("e"), bgp_replay.DamagedError("f", counts={"x": 2}), bgp_replay.GapError([1], ["g"]),
    bgp_replay.DamagedWarning("h", {"y": 3}), bgp_replay.NoteWarning("i"),
], ids=lambda error: type(error).__name__)
def test_errors_can_be_pickled(error):
    error.collector = "rrc01"
    again = pickle.loads(pickle.dumps(error))
    assert type(again) is type(error) and str(again) == str(error)
    for name in ("words", "status", "counts", "moments", "names"):
        assert getattr(again, name, None) == getattr(error, name, None)
    assert str(again).startswith("rrc01: ") == isinstance(error, bgp_replay.ReplayError)


def test_what_the_program_has():
    assert bgp_replay.has("tables") and bgp_replay.has("tables", "until") and not bgp_replay.has("tables", "unti")
    assert not bgp_replay.has("nothing") and not bgp_replay.has("nothing", "until") and not run.reads("xz")
