import pandas
import pytest
from conftest import frame_of

from bgp_replay import plots
from bgp_replay.collectors import Collectors

try:
    import matplotlib
except ImportError:
    matplotlib = None
else:
    matplotlib.use("Agg")
needs_matplotlib = pytest.mark.skipif(matplotlib is None, reason="python3-matplotlib isn't installed")
PREFIX = "17.150.214.0/24"


def time(text):
    return pandas.Timestamp(f"2026-11-22T{text}Z")


def seen_at(spans, moment):
    """How many peers have which origin AS then."""
    there = spans[(spans["since"] <= moment) & (moment < spans["until"])]
    return there["origins"].str.split(" (?=AS)").explode().value_counts().to_dict()


def test_spans(sample):
    """examples/README.md: 200104 announces the prefix with another origin at 07:05, and the session of 65107 ends at 07:12."""
    history = frame_of("history", sample, prefixes=PREFIX)
    spans = plots.spans(history, "2026-11-22T07:20:00Z").set_index("peer_asn")
    assert spans.loc[200104, ["origins", "since", "until"]].values.tolist() == [
        ["AS374813", time("07:01:16"), time("07:05:00")], ["AS4200001457", time("07:05:00"), time("07:20:00")]]
    assert spans.loc[65107, ["origins", "since", "until"]].tolist() == ["AS4200001457", time("07:01:16"), time("07:12:00")]
    assert spans.loc[200104, "stands"].tolist() == [False, True] and not spans.loc[65107, "stands"]  # the others stand
    assert spans["stands"].sum() == len(spans) - 2 == 6
    # those of docs/USAGE.md at these moments
    assert seen_at(spans, time("07:04:00")) == {"AS35220": 3, "AS374813": 3, "AS4200001457": 5}
    assert seen_at(spans, time("07:06:00")) == {"AS35220": 3, "AS374813": 2, "AS4200001457": 6}
    assert plots.spans(history, time("07:04:00"))["until"].unique().tolist() == [time("07:04:00")]
    both = plots.spans(Collectors({"a": sample, "b": sample}, prefixes=PREFIX).history())
    assert len(both) == 2 * len(plots.spans(history)) and both.columns[1] == "collector"


PATHS = [  # second, what, path identifier, path
    (0, "new", 0, "1 2"), (1, "changed", 0, "1 {2,3}"), (2, "changed", 0, ""), (3, "same", 0, ""), (4, "new", 7, "1 (5 6) 9"),
    (5, "void", 8, None), (6, "gone", 0, ""), (7, "lost", 7, "1 (5 6) 9"), (8, "new", 0, None), (9, "changed", 0, "1 [2,3]"),
    (10, "changed", 0, "1 4")]


def test_spans_by_paths():
    """Sets, confederations, absent and empty paths have no origin AS; of two paths both count; nothing is no row."""
    rows = [(time("07:00:00") + pandas.Timedelta(seconds=second), what, 1, "a", "10.0.0.0/8", number, path)
            for second, what, number, path in PATHS]
    history = pandas.DataFrame(rows, columns=["timestamp", "what", "peer_asn", "peer_ip", "prefix", "path_id", "as_path"])
    found = plots.spans(history, time("07:00:12"))
    seconds = found[["since", "until"]].apply(lambda times: (times - time("07:00:00")).dt.total_seconds().astype(int))
    assert list(zip(found["origins"], seconds["since"], seconds["until"])) == [
        ("AS2", 0, 1), ("no AS", 1, 4), ("AS9", 4, 7), ("no AS", 8, 10), ("AS4", 10, 12)]
    assert found["stands"].tolist() == [False] * 4 + [True]
    last = plots.spans(history).iloc[-1]  # it stands from the last row on, though for no time
    assert (last["origins"], last["since"], last["stands"]) == ("AS4", last["until"], True)
    assert not len(plots.spans(history.iloc[:0]))


@needs_matplotlib
def test_who_sees_which_origin(sample, tmp_path):
    history = frame_of("history", sample, prefixes=PREFIX)
    axes = plots.origins(history, until="2026-11-22T07:20:00Z")
    lines = {str(one.get_label()): len(one.get_segments()) for one in axes.collections}
    assert lines["AS374813"] == 1 and lines["AS4200001457"] == 4  # 200104 before, and after with three others
    names = [label.get_text() for label in axes.get_yticklabels()]
    assert len(names) == 7 and "65107  192.0.2.5" in names and axes.get_title(loc="left") == PREFIX
    axes.figure.savefig(tmp_path / "picture.png")
    assert (tmp_path / "picture.png").stat().st_size > 5000
    both = frame_of("history", sample, prefixes=[PREFIX, "203.0.113.0/24"])
    with pytest.raises(ValueError, match="which prefix\\? there are 2"):
        plots.origins(both)
    assert len(plots.origins(both, "203.0.113.0/24", until="2026-11-22T07:20:00Z").collections) == 1


@needs_matplotlib
def test_visibility_from_history(sample):
    """At 07:01:16, 07:05, 07:07, 07:12: seven peers have it until the session of 65107 ends; one has the other prefix."""
    axes = plots.visibility(frame_of("history", sample, prefixes=[PREFIX, "203.0.113.0/24"]))
    first, second = axes.lines
    assert (first.get_label(), second.get_label()) == (PREFIX, "203.0.113.0/24")
    assert list(first.get_ydata()) == [7, 7, 7, 6] and list(second.get_ydata()) == [0, 0, 1, 1]


@needs_matplotlib
def test_pictures(sample, tmp_path):
    churn = plots.churn(frame_of("churn", sample))
    assert [text.get_text() for text in churn.texts] == [" 1 resets"]
    moments = ["2026-11-22T07:04:00Z", "2026-11-22T07:06:00Z", "2026-11-22T08:00:00Z"]
    for report, names in [("visibility", ["17.150.214.0/24"]), ("seen", ["AS4200001457", "AS374813", "AS35220"])]:
        frames = {moment: frame_of(report, sample, until=moment, prefixes=PREFIX) for moment in moments}
        axes = plots.visibility(frames)
        assert sorted(line.get_label().rpartition(" ")[2] for line in axes.lines) == sorted(names)
        assert max(axes.lines[0].get_ydata()) == {"visibility": 7, "seen": 6}[report]
        axes.figure.savefig(tmp_path / "picture.png")
        assert (tmp_path / "picture.png").stat().st_size > 5000
    churn.figure.savefig(tmp_path / "picture.png")
