"""Files of a period, on mirrors whose names are those of RouteViews and RIPE RIS."""

from datetime import datetime, timedelta, timezone

import pytest

import bgp_replay

DAY = datetime(2026, 11, 22, tzinfo=timezone.utc)


def mirror(folder, rib, every, updates, step, kind):
    """A day of RIB dumps each `every` hours, and of updates each `step` minutes."""
    for name, minutes in [(f"{rib}.", 60 * every), (f"{updates}.", step)]:
        for minute in range(0, 1440, minutes):
            (folder / f"{name}{DAY + timedelta(minutes=minute):%Y%m%d.%H%M}.{kind}").touch()
    (folder / "index.html").touch()
    return folder


@pytest.fixture
def routeviews(tmp_path):
    for name in ("RIBS", "UPDATES"):
        (tmp_path / "2026.11" / name).mkdir(parents=True)
    mirror(tmp_path / "2026.11", "rib", 2, "updates", 15, "bz2")
    for path in list((tmp_path / "2026.11").glob("*.bz2")):
        path.rename(path.parent / ("RIBS" if path.name.startswith("rib") else "UPDATES") / path.name)
    return tmp_path


def names(files):
    return [file.rpartition("/")[2].replace("20261122.", "") for file in files]


def test_routeviews(routeviews):
    files = bgp_replay.series(routeviews, DAY.replace(hour=7, minute=10), datetime(2026, 11, 22, 7, 40))
    assert names(files) == ["rib.0600.bz2"] + [f"updates.{time}.bz2" for time in "0600 0615 0630 0645 0700 0715 0730".split()]
    in_tokyo = datetime(2026, 11, 22, 16, 10, tzinfo=timezone(timedelta(hours=9)))
    assert names(bgp_replay.series(routeviews, in_tokyo, in_tokyo)) == names(files)[:6]


def test_ris(tmp_path):
    files = bgp_replay.series(mirror(tmp_path, "bview", 8, "updates", 5, "gz"), DAY.replace(hour=8), DAY.replace(hour=8, minute=7))
    assert names(files) == ["bview.0800.gz", "updates.0800.gz", "updates.0805.gz"]


def test_gaps_are_named_before_anything_runs(routeviews):
    for time in ("0645", "0700"):
        (routeviews / f"2026.11/UPDATES/updates.20261122.{time}.bz2").unlink()
    period = DAY.replace(hour=7), DAY.replace(hour=8)
    message = "^2 files of updates are missing: updates.20261122.0645, updates.20261122.0700$"
    with pytest.raises(bgp_replay.GapError, match=message) as error:
        bgp_replay.series(routeviews, *period)
    assert error.value.moments == [DAY.replace(hour=6, minute=45), DAY.replace(hour=7)]
    assert isinstance(error.value, FileNotFoundError)
    assert len(bgp_replay.series(routeviews, *period, gaps="leave")) == 8


def test_gaps_at_the_ends(routeviews):
    for time in ("0600", "0800"):
        (routeviews / f"2026.11/UPDATES/updates.20261122.{time}.bz2").unlink()
    with pytest.raises(bgp_replay.GapError) as error:
        bgp_replay.series(routeviews, DAY.replace(hour=7), DAY.replace(hour=8))
    assert error.value.names == ["updates.20261122.0600", "updates.20261122.0800"]


def test_no_updates_at_all(tmp_path):
    (tmp_path / "bview.20261122.0000.gz").touch()
    with pytest.raises(bgp_replay.GapError) as error:
        bgp_replay.series(tmp_path, DAY, DAY.replace(minute=10))
    assert error.value.names == [f"updates.20261122.{time}" for time in ("0000", "0005", "0010")]


def test_no_rib(routeviews):
    with pytest.raises(FileNotFoundError, match="no RIB dump at or before 2026-11-21"):
        bgp_replay.series(routeviews, DAY - timedelta(days=1), DAY)


def test_two_collectors_in_one_folder(routeviews):
    (routeviews / "other").mkdir()
    (routeviews / "other/updates.20261122.0600.bz2").touch()
    with pytest.raises(ValueError, match="two collectors in one folder"):
        bgp_replay.series(routeviews, DAY.replace(hour=7), DAY.replace(hour=8))
