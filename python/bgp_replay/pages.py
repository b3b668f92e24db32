"""One HTML page of an incident: what happened to some prefixes at each peer, to look at in a browser, offline.

`page` makes it of an archive's files, `page_of` of a frame of `history`, of one collector or several. The summary is
worked out here and stands in the page as text; the rest is data, which the scripts of `page_parts` draw. Nothing in the
page is fetched, and its policy (CSP) lets no script run but these.
"""

import base64
import concurrent.futures
import dataclasses
import hashlib
import os
import pathlib
import time

import pandas

from . import frames
from .incident import NO_AS, Incident, check_count, moment
from .page_data import data
from .registries import Vrps, names_of
from .run import Replay, of_peers

PARTS = pathlib.Path(__file__).with_name("page_parts")
SCRIPTS = ["model.js", "charts.js", "graph.js", "events.js", "main.js"]


@dataclasses.dataclass
class Source:
    """Where a history comes from. `asked` are prefixes as they were asked for, `files` those of a Summary, or names.

    `damaged` is how much was skipped, `everyone` a frame of `peers` of all prefixes, `failed` names collectors that are
    missing.
    """

    asked: list = dataclasses.field(default_factory=list)
    files: list = dataclasses.field(default_factory=list)
    damaged: int = 0
    everyone: pandas.DataFrame | None = None
    failed: list = dataclasses.field(default_factory=list)

    def ends(self):
        """When the files begin and end, as far as they say so."""
        found = [(file.first, file.last) for file in self.files if getattr(file, "first", None) is not None]
        times = [pandas.Timestamp(second, unit="s", tz="UTC") for second in map(int, sum(found, ()))]
        return (min(times), max(times)) if times else (None, None)


class _Everyone(Replay):
    """A run of `peers` beside that of `history`, which tells damage and notes."""

    def _tell_damage(self):
        pass

    def _tell_notes(self):
        pass


def page(files, prefixes, *, since=None, until=None, title=None, names=None, vrps=None, one_run=False, **options):
    """The page of what happened to some prefixes, as the text of an HTML file.

    `files` begin with a RIB dump; `prefixes` as `192.0.2.0/24+`, one or several. The page shows the time from `since`
    (default: the RIB dump) to `until` (default: the end of the files); what was before `since` is replayed. `title` is
    any text. `names` are those of ASes, a dict by number, or a file with an AS number, a blank and a name in each line.
    `vrps` is a file of VRPs as rpki-client and Routinator write it (CSV), by which origins are valid, invalid or not
    found (RFC 6811). Of how many peers those are that have the prefixes is told by `peers`, in a second run beside the
    first, which has whole tables in memory; `one_run` leaves it out, as do files that can be read once only. Options
    are those of `history`. ValueError: there is nothing to show, or more than 100,000 events.
    """
    asked, until = listed(prefixes), None if until is None else moment(until)
    options = {"addresses": "short"} | options
    run = Replay("history", files, prefixes=asked, until=until, **options)
    words = of_peers(options) | {"until": until, "damaged": "ignore"}
    everyone = None if one_run or not all(map(os.path.isfile, run.files)) else _Everyone("peers", run.files, **words)
    with concurrent.futures.ThreadPoolExecutor(1) as pool:
        task = everyone and pool.submit(everyone.frame)
        try:
            history = _whole(run, since)
            _check(history, asked)
        except BaseException:
            _end(everyone, task)
            raise
        source = Source(asked, run.summary.files, run.summary.damaged, task and task.result())
    return page_of(history, since=since, until=until, title=title, names=names, vrps=vrps, source=source)


def _end(run, task):
    """Ends a run in a thread, whether its program has begun or not."""
    while task and not task.done():
        if run.child:
            run.child.kill()
        time.sleep(0.01)


def listed(prefixes):
    """One prefix or several as a list of texts."""
    return [str(prefix) for prefix in (prefixes if isinstance(prefixes, (list, tuple, set, frozenset)) else [prefixes])]


def _whole(run, since):
    """The frame of a run of history, if its events aren't too many."""
    pieces, count, start = [], 0, None if since is None else moment(since)
    for piece in run:
        is_event = (piece["by"] != "rib") & (True if start is None else piece["timestamp"] >= start)
        count += is_event.sum()
        check_count(count)
        pieces.append(piece)
    return frames.joined(pieces)


def _check(history, asked):
    if not len(history):
        raise ValueError(f"no route of {several(map(wanted, asked))} is in these files: name other prefixes "
                         "(192.0.2.0/24+ has its more-specifics, 192.0.2.0/24- what contains it) or another family")


def page_of(history, *, since=None, until=None, title=None, names=None, vrps=None, source=None):
    """The page of a frame of `history`, from the RIB dump on, as `plots.spans` takes it; see `page`, and `Source`."""
    import jinja2
    from . import __version__

    source = source or Source()
    _check(history, source.asked)
    begun, ended = source.ends()
    incident = Incident(history, since, ended if until is None else until, begun, source.asked, source.everyone)
    names, known = names_of(names), vrps and Vrps(vrps, incident.prefixes)
    validity = {(sight.prefix, sight.origin): known.validity(sight.prefix, sight.origin)
                for sight in incident.sights if known and sight.origin != NO_AS}
    safe = jinja2.utils.markupsafe.Markup  # of the package's own files, and of nothing else
    style = (PARTS / "page.css").read_text()
    script = "(() => {\n\"use strict\";\n" + "".join((PARTS / name).read_text() for name in SCRIPTS) + "})();\n"
    made = jinja2.Environment(autoescape=True, loader=jinja2.FileSystemLoader(PARTS), trim_blocks=True,
                              lstrip_blocks=True, undefined=jinja2.StrictUndefined)
    made.filters |= {
        "count": count, "several": several, "wanted": wanted, "name_of": incident.name,
        "clock": lambda at: f"{at:%H:%M:%S}" if at.date() == incident.start.date() else f"{at:%F %T}",
        "named": lambda origin: names.get(int(origin[2:])) if origin != NO_AS else None}
    return made.get_template("page.html").render(
        title=title or f"What happened to {several(map(wanted, source.asked or incident.prefixes), 3)}",
        incident=incident, data=data(incident, names, validity), validity=validity, vrps=known, source=source,
        files=[pathlib.PurePath(getattr(file, "name", file)).name for file in source.files],
        sizes=[getattr(file, "bytes", None) for file in source.files], version=__version__,
        length=length(incident.end - incident.start), style=safe(style), script=safe(script),
        style_hash=hash_of(style), script_hash=hash_of(script))


def hash_of(text):
    """As a Content-Security-Policy names what may stand in the page."""
    return "sha256-" + base64.b64encode(hashlib.sha256(text.encode()).digest()).decode()


def count(number, one, more=None):
    """`1 peer`, `2,000 peers`."""
    return f"{number:,} {one if number == 1 else more or one + 's'}"


def several(texts, most=8):
    """`a, b and c`; of many the first ones, and how many others."""
    texts = list(map(str, texts))
    if len(texts) > most:
        texts = [*texts[: most - 1], f"{len(texts) - most + 1:,} others"]
    return texts[0] if len(texts) == 1 else ", ".join(texts[:-1]) + " and " + texts[-1] if texts else "nothing"


def wanted(prefix):
    """A prefix as it was asked for, in words."""
    words = {"+": " and its more-specifics", "-": " and what contains it"}
    return prefix[:-1] + words[prefix[-1]] if prefix[-1:] in words else prefix


def length(span):
    """How long it is, in its two largest units."""
    seconds = int(span.total_seconds())
    units = [(seconds // 86400, "d"), (seconds // 3600 % 24, "h"), (seconds // 60 % 60, "min"), (seconds % 60, "s")]
    return " ".join([f"{number} {unit}" for number, unit in units if number][:2]) or "0 s"
