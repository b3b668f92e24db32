"""What happened to some prefixes between two moments: what was there, the events, and who saw which origin."""

import collections
import dataclasses
import ipaddress
import re

import numpy
import pandas

from . import longest
from .plots import _ORIGIN, spans
from .reports import _moment

MOST_EVENTS = 100_000
MOST_PREFIXES = 200
MICRO = pandas.Timedelta(microseconds=1)
NO_AS = "no AS"
_CHANGES = ["new", "changed", "gone", "lost"]
_NARROWER = "choose fewer prefixes, or a shorter time (since, until)"


def moment(value):
    """A moment in UTC, of what the options `since` and `until` take; a text without an offset is in UTC."""
    text = _moment(value)
    return pandas.Timestamp(int(text), unit="s", tz="UTC") if text.isdigit() else pandas.to_datetime(text, utc=True)


def check_count(events):
    """ValueError: these are more events than a page has."""
    if events > MOST_EVENTS:
        raise ValueError(f"there are more than {MOST_EVENTS:,} events, too many for a page: {_NARROWER}")


@dataclasses.dataclass
class Sight:
    """Who sees one origin of a prefix. `first` and `peer`: when and where it's first seen; `gone`: None if it stays."""

    prefix: str
    origin: str
    start: int = 0
    most: int = 0
    when: pandas.Timestamp = None
    end: int = 0
    first: pandas.Timestamp = None
    peer: tuple = None
    gone: pandas.Timestamp = None
    is_new: bool = False
    peers: set = dataclasses.field(default_factory=set)
    steps: collections.Counter = dataclasses.field(default_factory=collections.Counter)

    def add(self, span, is_start):
        """Counts a peer's time with this origin."""
        if self.first is None or span.since < self.first:
            self.first, self.peer = span.since, span.peer
        self.start, self.end = self.start + is_start, self.end + span.stands
        self.peers.add(span.peer)
        self.steps[span.since] += 1
        self.steps[span.until] -= 1

    def measure(self, begin):
        """Works out when most peers have it, at the beginning of the page's time or later, and when it's gone."""
        count, times = 0, sorted(self.steps)
        for time in times:
            count += self.steps[time]
            if count > self.most:
                self.most, self.when = count, max(time, begin)
        self.gone = None if self.end else times[-1]


@dataclasses.dataclass
class Held:
    """Of a prefix the peers that have it at the start, at the end and ever, and what its origins are.

    `turned` has the peers that have it at the start and see other origins later, by the moment.
    """

    start: set = dataclasses.field(default_factory=set)
    end: set = dataclasses.field(default_factory=set)
    ever: set = dataclasses.field(default_factory=set)
    turned: dict = dataclasses.field(default_factory=dict)
    sights: list = dataclasses.field(default_factory=list)

    @property
    def lost(self):
        return sorted(self.start - self.end)

    @property
    def came(self):
        """New origins, those that most peers see first."""
        return sorted((sight for sight in self.sights if self.start and sight.is_new), key=lambda sight: -sight.most)

    @property
    def gone(self):
        """When the last peer loses it, or None."""
        return None if self.end else max(sight.gone for sight in self.sights)


class Incident:
    """A frame of history from `start` to `end`: what is there at the start, the events, and who saw which origin.

    The events are those behind the RIB dump that the frame begins with, and not before `since`. They keep the order of
    the dumps, in which the program replays them: a time that is before the one above it counts as that one. `everyone`
    is a frame of `peers`: those that have any route, beside those of the history, are those that could have seen it.
    """

    def __init__(self, history, since=None, until=None, begun=None, asked=(), everyone=None):
        self.who = [*(["collector"] if "collector" in history else []), "peer_asn", "peer_ip"]
        frame, leads = self._ordered(history.reset_index(drop=True))
        begun = [frame["timestamp"].min(), *([] if begun is None else [begun])]
        self.start = min(begun) if since is None else moment(since)
        self.end = max(frame["at"].max(), self.start) if until is None else moment(until)
        if self.end < self.start:
            raise ValueError("the time ends before it begins")
        is_in = leads | (frame["at"] < self.end + pandas.Timedelta(seconds=1)).to_numpy()
        frame, leads = frame[is_in], leads[is_in]
        if not len(frame):
            raise ValueError(f"no route of these prefixes is there by {self.end:%Y-%m-%d %H:%M:%S} UTC, the page's end")
        self.end = max(self.end, frame["at"].max())
        # An event at the very start comes after what was there, and what is there after one at the very end lasts.
        self.before_start, self.after_end = self.start - MICRO, self.end + MICRO
        is_before = leads | (frame["at"] < self.start).to_numpy()
        frame = frame.assign(timestamp=frame["at"].clip(lower=self.start).mask(is_before, self.before_start))
        frame, is_before = self._chosen(frame, is_before, asked)
        self.before, self.events = frame[is_before], frame[~is_before]
        self.changes = self.events[self.events["what"].isin(_CHANGES)]
        check_count(len(self.events))
        self.prefixes = sorted(map(str, frame["prefix"].unique()), key=longest.place)
        self.main = next((name for name in _bare(asked) if name in self.prefixes), self.prefixes[0])
        self.peers = _peers(frame, self.who)
        self._count(everyone)
        self._look(longest.rows(spans(frame, self.after_end), self.who))

    def _ordered(self, frame):
        """The rows in order, with their time in it as `at`; and which of them are of the RIB dump at the beginning."""
        groups = frame["collector"].astype(str) if "collector" in frame else pandas.Series("", frame.index)
        leads = (frame["by"] == "rib").groupby(groups).cummin()
        nanos = frame["timestamp"].astype("datetime64[ns, UTC]").astype("int64").mask(leads, 0).groupby(groups).cummax()
        at = pandas.to_datetime(nanos, utc=True).mask(leads, frame["timestamp"])
        frame = frame.assign(recorded=frame["timestamp"], at=at)
        frame = pandas.concat([frame[leads], frame[~leads].sort_values("at", kind="stable")], ignore_index=True)
        return frame, numpy.arange(len(frame)) < leads.sum()

    def _chosen(self, frame, is_before, asked):
        """Of too many prefixes those that were asked for, and those with the most events."""
        sizes = frame.assign(event=~is_before).groupby(frame["prefix"].astype(str))["event"].sum()
        self.left_out = max(0, len(sizes) - MOST_PREFIXES)
        if not self.left_out:
            return frame, is_before
        sizes[[name for name in _bare(asked) if name in sizes]] += len(frame)
        is_in = frame["prefix"].isin(sizes.nlargest(MOST_PREFIXES).index).to_numpy()
        return frame[is_in], is_before[is_in]

    def _count(self, everyone):
        """Which peers could have seen the prefixes: None, if only those that did are known."""
        self.never = self.without = None
        if everyone is not None:
            others = set(_peers(everyone, self.who)) - set(self.peers)
            self.never = sorted(others & set(_peers(everyone[everyone["routes"] > 0], self.who)))
            self.without = len(others) - len(self.never)

    @property
    def total(self):
        """How many peers could have seen the prefixes, as far as is known."""
        return len(self.peers) + len(self.never or [])

    def _look(self, found):
        """Who has each prefix and sees each of its origins, and where its addresses go by longest match."""
        self._hold(found)
        sights = self._sights(found)
        # Where nothing is there at the start, what comes first is taken for what was there.
        self.is_blank = not any(sight.start for sight in sights)
        self._judge(sights)
        for sight in sights:
            self.held[sight.prefix].sights.append(sight)
        parts = longest.parts(self.prefixes)
        nested = {prefix for part in parts if len(part.chain) > 1 for prefix in part.chain}
        self.parts = [part for part in parts if part.chain[0] in nested]
        order = {part.name: number for number, part in enumerate(self.parts)}
        self.gets = sorted(self._sights(longest.spans(found, self.parts)), key=lambda sight: order[sight.prefix])
        for sight in self.gets:
            sight.is_new = self.origins[sight.origin]

    def _hold(self, found):
        """Who has each prefix at the start, at the end and ever."""
        self.held, first_of = {prefix: Held() for prefix in self.prefixes}, {}
        for span in found:
            held = self.held[span.prefix]
            held.ever.add(span.peer)
            if span.since == self.before_start:
                held.start.add(span.peer)
                first_of[span.prefix, span.peer] = span.origins
            elif first_of.get((span.prefix, span.peer), span.origins) != span.origins:
                held.turned[span.peer] = min(span.since, held.turned.get(span.peer, span.since))
            if span.stands:
                held.end.add(span.peer)

    def _sights(self, found):
        """Who sees each origin: by the moment in which it's first seen, then by peers."""
        sights = {}
        for span in found:
            for origin in re.split(r"(?<=\d) ", span.origins):
                sight = sights.setdefault((span.prefix, origin), Sight(span.prefix, origin))
                sight.add(span, span.since == self.before_start)
        for sight in sights.values():
            sight.measure(self.start)
        return sorted(sights.values(), key=lambda sight: (sight.first, -sight.most))

    def _judge(self, sights):
        """Which origins are new: none of the start is, nor one of a more-specific of what it has at the start."""
        first = min((sight.first for sight in sights), default=self.start)
        known, self.origins = collections.defaultdict(list), {}
        for sight in sights:
            if sight.start:
                known[sight.origin].append(ipaddress.ip_network(sight.prefix))
        for sight in sights:
            is_known = longest.is_in(sight.prefix, known[sight.origin])
            sight.is_new = sight.first > first if self.is_blank else not is_known
            self.origins[sight.origin] = self.origins.get(sight.origin, True) and sight.is_new

    @property
    def sights(self):
        return [sight for prefix in self.prefixes for sight in self.held[prefix].sights]

    def there(self):
        """The prefixes that some peer has at the start: the main one, then those whose new origins most peers see."""
        def rank(prefix):
            return prefix != self.main, -max((sight.most for sight in self.held[prefix].came), default=0)

        return sorted((prefix for prefix in self.prefixes if self.held[prefix].start), key=rank)

    def appeared(self):
        """The prefixes that no peer has at the start and some has later: those that most have first."""
        some = (prefix for prefix in self.prefixes if self.held[prefix].ever and not self.held[prefix].start)
        return sorted(some, key=lambda prefix: -len(self.held[prefix].ever))

    def is_inside(self, prefix):
        """Whether it is more specific than a prefix that is there at the start."""
        return longest.is_in(prefix, map(ipaddress.ip_network, self.there()))

    def name(self, peer):
        """A peer as a text: AS and address, and the collector where there are several."""
        *collector, asn, address = peer
        return " ".join(map(str, [*collector, f"AS{asn}", address]))

    def who_of(self, row):
        return self.name(tuple(row[name] for name in self.who))


def _bare(asked):
    """The prefixes that were asked for, without what tells more-specifics and what contains them."""
    return [prefix.rstrip("+-") for prefix in asked]


def _peers(frame, who):
    """The peers of a frame, in order."""
    rows = frame[who].drop_duplicates()
    return sorted((*map(str, some), int(asn), str(address)) for *some, asn, address in rows.itertuples(index=False))


def origin_of(path):
    """The origin AS of a path's text, as `plots.spans` has it."""
    found = _ORIGIN.fullmatch(path) if isinstance(path, str) else None
    return f"AS{int(found[1])}" if found else NO_AS
