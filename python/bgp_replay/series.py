"""Which files of a mirror make a period, by the names that RouteViews and RIPE RIS give them."""

import collections
import pathlib
import re
from datetime import datetime, timedelta, timezone

_NAME = re.compile(r"(rib|bview|updates)\.(\d{8}\.\d{4})(\.(?:gz|bz2|xz|zst))?")
_STEP = {"rib": timedelta(minutes=15), "bview": timedelta(minutes=5)}  # of the updates that go with such RIB dumps


class GapError(FileNotFoundError):
    """Files of updates are missing: `moments` says when they begin, in UTC, `names` how they would be called."""

    def __init__(self, moments, names):
        shown = ", ".join(names[:5]) + (", .." if len(names) > 5 else "")
        FileNotFoundError.__init__(self, f"{len(names)} files of updates are missing: {shown}")
        self.moments, self.names = moments, names

    def __reduce__(self):
        return type(self), (self.moments, self.names)


def _found(folder):
    """The files below a folder by kind and moment; if one is there packed and plain, the plain one."""
    found = {"rib": {}, "bview": {}, "updates": {}}
    for path in sorted(pathlib.Path(folder).rglob("*.*")):
        name = _NAME.fullmatch(path.name)
        if name is None:
            continue
        moment = datetime.strptime(name[2], "%Y%m%d.%H%M").replace(tzinfo=timezone.utc)
        other = found[name[1]].setdefault(moment, path)
        if other.parent != path.parent:
            raise ValueError(f"two collectors in one folder? {other} and {path}")
    return found


def _expected(moments, start, until, step):
    """When the files of updates begin that reach from `start` to `until`: at whole steps from one that is there."""
    at = min((moment for moment in moments if moment > start - step), default=start)
    at -= (at - start + step) // step * step
    expected = []
    while at <= until:
        if at + step > start:
            expected.append(at)
        at += step
    return expected


def series(folder, since, until, *, gaps="raise"):
    """The names of a collector's files for a period: the last RIB dump at or before `since`, then updates to `until`.

    `folder` is searched with its folders, as 2026.11/RIBS and 2026.11/UPDATES of RouteViews or 2026.11 of RIPE RIS are;
    it has one collector. Times without a zone are in UTC. Which files of updates there should be is told by the step
    that most of them keep. GapError: some aren't there; with gaps="leave" they are left out. FileNotFoundError: there
    is no RIB dump. ValueError: files of one kind and moment in two folders.
    """
    since, until = (time.replace(tzinfo=timezone.utc) if time.tzinfo is None else time for time in (since, until))
    found = _found(folder)
    ribs = [(moment, kind) for kind in ("rib", "bview") for moment in found[kind] if moment <= since]
    if not ribs:
        raise FileNotFoundError(f"{folder}: no RIB dump at or before {since:%Y-%m-%d %H:%M} UTC")
    start, kind = max(ribs)
    updates, moments = found["updates"], sorted(found["updates"])
    steps = collections.Counter(later - earlier for earlier, later in zip(moments, moments[1:]))
    step = steps.most_common(1)[0][0] if steps else _STEP[kind]
    expected = _expected(moments, start, until, step)
    missing = [moment for moment in expected if moment not in updates]
    if missing and gaps == "raise":
        raise GapError(missing, [f"updates.{moment:%Y%m%d.%H%M}" for moment in missing])
    wanted = [moment for moment in moments if start - step < moment <= until]
    return [str(found[kind][start]), *(str(updates[moment]) for moment in wanted)]
