"""Reports of many collectors, on the machines of a Dask cluster or on threads of this one.

Each collector is replayed by itself, so a peer is known by collector, AS and address: a router that feeds two
collectors has two tables. `visibility` and `seen` add up by key, `origins` follows from `seen`, the others come one
after the other with a column `collector`. Where no two collectors have a peer in common, the merged report is the one
of a run over all files.
"""

import concurrent.futures
import dataclasses
import os
import socket
import warnings

import numpy
import pandas

from . import frames, run
from .errors import NoteWarning, ReplayError, UnpackError
from .reports import REPORTS, names_of

AT_ONCE = 8  # parts that are merged by one task


@dataclasses.dataclass
class Part:
    """Of some collectors: a report (None: of none), its peers' places, the summaries, notes, and what failed."""

    frame: object = None
    places: object = None
    summaries: dict = dataclasses.field(default_factory=dict)
    notes: dict = dataclasses.field(default_factory=dict)
    failed: dict = dataclasses.field(default_factory=dict)


@dataclasses.dataclass
class _Ask:
    """What a task is to replay."""

    report: str
    options: dict
    errors: str
    shares: int

    def of_share(self, number):
        return self.options | ({"share": (number, self.shares)} if self.shares > 1 else {})

    def run(self):
        """The report that is run: `origins` has no sums, so it follows from `seen`."""
        return "seen" if self.report == "origins" else self.report


class _Replay(run.Replay):
    """A run that fails where a packed file ends early, whoever unpacks it, and leaves its notes to the caller."""

    def _tell_damage(self):
        if self.cut:
            raise UnpackError("\n  ".join(["unpacking failed", *self.cut]), 1)
        super()._tell_damage()

    def _tell_notes(self):
        pass


def _replayed(ask, name, files, number, is_placed=True):
    """One share of one collector: a Part, or the error with the collector's name. `is_placed` asks for `places` too."""
    options = ask.of_share(number)
    try:
        replay = _Replay(ask.run(), files, **options)
        frame, places = replay.frame(), None
        if is_placed and ask.shares > 1 and REPORTS[ask.report].is_by_peer:
            places = frame if ask.report == "peers" else _Replay("peers", files, **run.of_peers(options)).frame()
    except ReplayError as error:
        error.collector = name
        if ask.errors == "raise":
            raise
        return Part(failed={name: error})
    frame = _counts(frame) if REPORTS[ask.run()].merge == "sum" else frame
    return Part(frame, places, {name: [replay.summary]}, {name: replay.notes})


def _counts(frame):
    """A frame whose keys are plain, so that equal ones are quickly found: -1 is no origin."""
    frame = frame.assign(prefix=frame["prefix"].astype(object), peers=frame["peers"].astype("int64"))
    if "origin_asn" in frame:
        frame["origin_asn"] = frame["origin_asn"].astype("Int64").fillna(-1).astype("int64")
    return frame


def _summed(parts):
    whole = pandas.concat(parts, ignore_index=True)
    keys = [name for name in whole.columns if name != "peers"]
    return whole.groupby(keys, sort=False, as_index=False)["peers"].sum()


def _places_of(places):
    """The order of one run's peers: by the place of their first unit, a record or message before its entries."""
    places = frames.joined(places)
    order = pandas.DataFrame({"file": places["file"].cat.codes, "offset": places["offset"],
                              "entry": places["entry"].astype("Int64").fillna(0)})
    ranks = numpy.empty(len(order), "int64")
    ranks[order.sort_values(["file", "offset", "entry"]).index] = numpy.arange(len(order))
    return dict(zip(zip(places["peer_asn"], places["peer_ip"]), ranks))


def by_place(frame, places):
    """The rows of a frame by the places of their peers, which are frames of the report `peers`."""
    if not len(frame):
        return frame
    rank = _places_of(places)
    codes = frame.groupby(["peer_asn", "peer_ip"], sort=False, observed=True).ngroup().to_numpy()
    numbers, firsts = numpy.unique(codes, return_index=True)
    peers = frame.iloc[firsts]
    ranks = numpy.empty(len(numbers), "int64")
    ranks[numbers] = [rank[peer] for peer in zip(peers["peer_asn"], peers["peer_ip"])]
    return frame.iloc[numpy.argsort(ranks[codes], kind="stable")].reset_index(drop=True)


def _one_list(frame):
    """The lines of shares' `faults` as one list: each has the damaged records, and its own peers' damaged units."""
    order = frame.assign(at=frame["file"].cat.codes, which=frame["entry"].astype("Int64").fillna(0))
    order = order.drop_duplicates().sort_values(["at", "offset", "which"], ignore_index=True)
    return order.drop(columns=["at", "which"])


def _together(ask, name, *shares):
    """The shares of one collector as one Part; with `errors="leave"` it fails as a whole."""
    failed = {name: error for part in shares for error in part.failed.values()}
    if failed:
        return Part(failed=failed)
    merge, parts = REPORTS[ask.run()].merge, [part.frame for part in shares]
    told = _lists(part.summaries for part in shares), _lists(part.notes for part in shares)
    if merge == "sum":
        return Part(_summed(parts) if len(parts) > 1 else parts[0], None, *told)
    frame = frames.joined(parts)
    if len(parts) > 1 and merge == "list":
        frame = _one_list(frame)
    elif len(parts) > 1:  # only reports by peer are divided
        frame = by_place(frame, [part.places for part in shares])
    return Part(_named(frame, [name], 0), None, *told)


def _named(frame, names, at):
    collector = pandas.Categorical.from_codes(numpy.full(len(frame), at, "int32"), names)
    return frame.assign(collector=collector)[["collector", *frame.columns]]


def _lists(parts):
    """Lists by name, of several such dicts."""
    whole = {}
    for part in parts:
        for name, some in part.items():
            whole[name] = whole.get(name, []) + some
    return whole


def _merged(ask, *parts):
    """Several collectors' Parts as one."""
    values = [part.frame for part in parts if part.frame is not None]
    merge = _summed if REPORTS[ask.run()].merge == "sum" else frames.joined
    failed = {name: error for part in parts for name, error in part.failed.items()}
    told = _lists(part.summaries for part in parts), _lists(part.notes for part in parts)
    return Part(merge(values) if values else None, None, *told, failed)


def _in_order(counts):
    """Counts as the program's report has them: by address, length and origin AS, no origin last."""

    def key(prefix):
        address, _, length = prefix.partition("/")
        return socket.inet_pton(socket.AF_INET6 if ":" in address else socket.AF_INET, address) + bytes([int(length)])

    codes, texts = pandas.factorize(counts["prefix"])
    ranks = numpy.argsort(numpy.argsort(numpy.array([key(text) for text in texts], "S17")))
    order = {"rank": ranks[codes]}
    if "origin_asn" in counts:
        order["origin"] = counts["origin_asn"].where(counts["origin_asn"] >= 0, 1 << 32).to_numpy()
    counts = counts.iloc[pandas.DataFrame(order).sort_values(list(order)).index].reset_index(drop=True)
    counts = counts.assign(prefix=frames.in_runs(counts["prefix"]), peers=counts["peers"].astype("uint32"))
    if "origin_asn" in counts:
        asn = counts["origin_asn"].astype("Int64")
        counts["origin_asn"] = asn.mask(asn < 0).astype("UInt32")
    return counts


def _origins(counts):
    """The prefixes with two origin ASes or more, of what `seen` counts."""
    counts = _in_order(counts[counts["origin_asn"] >= 0])
    counts = counts[counts.duplicated("prefix", keep=False)]
    prefixes = counts["prefix"].astype(object)
    lists = counts.groupby(prefixes, sort=False)["origin_asn"].agg(lambda asns: [int(asn) for asn in asns])
    columns = {"prefix": pandas.Categorical(lists.index), "origin_asns": pandas.Series(list(lists), dtype=object)}
    return pandas.DataFrame(columns)


def _partition(ask, names, name, files, number):
    part = _replayed(ask, name, files, number, is_placed=False)
    _tell(part.notes)
    return _named(part.frame, names, names.index(name))


def _tell(notes):
    """Warns of notes by collector, of each once, however many of its shares have it."""
    for name, some in notes.items():
        for note in dict.fromkeys(some):
            warnings.warn(NoteWarning(f"{name}: {note}"), stacklevel=run.level())


class Collectors:
    """Dumps of several collectors, by name: `Collectors({"rrc00": [rib, updates, ..], ..})`.

    Each collector is a task, or `shares` tasks, each of which replays one share of its peers: tables that don't fit one
    machine's memory are divided so, at the price that each share reads all files. Tasks run on `client`, a
    distributed.Client, where a task whose worker dies is run again by another one; without a client, on threads. Files
    are named as the workers see them, and each worker has the program of the same version.

    `errors` says what a collector does that can't be replayed: "raise" ends the report with its error, which has its
    name; "leave" leaves it out. After a report, `failed` has the errors of those by name, and `summaries` lists by name
    the Summary of each share. Damaged records are counted there and are no error, but with damaged="raise"; a packed
    file that ends early is one. `progress` is called with the tasks that are done, one after the other, and `total=`,
    and gives them on, as tqdm does. Options are those of the reports, but that `error_rule` is what they call `errors`.

    Where a collector has several shares, `churn` and `match` have the order of one run by the report `peers`, which is
    run too. `history` isn't divided: nothing in its lines tells that order.
    """

    def __init__(self, files, *, client=None, errors="raise", error_rule=None, shares=1, retries=0, progress=None,
                 **options):
        if errors not in ("raise", "leave"):
            raise ValueError("errors is one of 'raise' and 'leave', and error_rule what is done about damaged messages")
        self.files = {str(name): names_of(some) for name, some in dict(files).items()}
        self.client, self.errors, self.shares = client, errors, shares
        self.retries, self.progress = retries, progress
        self.options = {"workers": 1, "damaged": "ignore", "errors": error_rule} | options
        self.failed, self.summaries = {}, {}

    def _ask(self, report, options):
        return _Ask(report, self.options | options, self.errors, self.shares if REPORTS[report].is_divided else 1)

    def _watch(self, done, total):
        for _ in self.progress(done, total=total) if self.progress else ():
            pass

    def _here(self, ask):
        """All tasks on threads of this process."""
        with concurrent.futures.ThreadPoolExecutor(os.cpu_count()) as pool:
            tasks = [[pool.submit(_replayed, ask, name, files, number) for number in range(1, ask.shares + 1)]
                     for name, files in self.files.items()]
            try:
                self._watch(concurrent.futures.as_completed(sum(tasks, [])), sum(map(len, tasks)))
                return _merged(ask, *(_together(ask, name, *(task.result() for task in shares))
                                      for name, shares in zip(self.files, tasks)))
            except BaseException:
                pool.shutdown(wait=False, cancel_futures=True)
                raise

    def _there(self, ask):
        """All tasks on the client's cluster, and merges of a few parts each as tasks too."""
        from distributed import as_completed

        def submit(*words):
            return self.client.submit(*words, pure=False, retries=self.retries)

        tasks = [[submit(_replayed, ask, name, files, number) for number in range(1, ask.shares + 1)]
                 for name, files in self.files.items()]
        parts = [submit(_together, ask, name, *shares) for name, shares in zip(self.files, tasks)]
        while len(parts) > 1:
            parts = [submit(_merged, ask, *parts[at : at + AT_ONCE]) for at in range(0, len(parts), AT_ONCE)]
        if self.progress:
            self._watch(as_completed(sum(tasks, [])), sum(map(len, tasks)))
        return parts[0].result()

    def report(self, name, **options):
        """The report of this name of all collectors, and what it left in `failed` and `summaries`."""
        ask = self._ask(name, options)
        if not self.files:
            raise ValueError("there is no collector")
        whole = self._here(ask) if self.client is None else self._there(ask)
        self.failed, self.summaries = whole.failed, whole.summaries
        _tell(whole.notes)
        if whole.frame is None:
            raise next(iter(self.failed.values()))
        if REPORTS[ask.run()].merge != "sum":
            return whole.frame
        return _origins(whole.frame) if name == "origins" else _in_order(whole.frame)

    def visibility(self):
        """How many peers have each prefix, over all collectors: as of one run."""
        return self.report("visibility")

    def seen(self):
        """How many peers have each prefix by origin AS, over all collectors: as of one run."""
        return self.report("seen")

    def origins(self):
        """The prefixes with two origin ASes or more, over all collectors: as of one run."""
        return self.report("origins")

    def churn(self):
        """What each peer did; the first column is the collector."""
        return self.report("churn")

    def match(self, address):
        """Each peer's routes of the longest prefix that contains the address; the first column is the collector."""
        return self.report("match", address=address)

    def faults(self):
        """The damaged records and messages; the first column is the collector."""
        return self.report("faults")

    def history(self):
        """What happened to chosen prefixes (`prefixes=`); the first column is the collector."""
        return self.report("history")

    def page(self, prefixes, *, since=None, until=None, title=None, names=None, vrps=None, one_run=False):
        """One HTML page of what happened to some prefixes, as its text; see `bgp_replay.page`."""
        from .pages import Source, listed, page_of
        from .incident import moment

        asked, until = listed(prefixes), None if until is None else moment(until)
        everyone = None if one_run else self.report("peers", until=until, prefixes=None, addresses="short", quiet=True)
        history = self.report("history", prefixes=asked, until=until, addresses="short")
        summaries = [one for some in self.summaries.values() for one in some]
        source = Source(asked, [file for one in summaries for file in one.files], sum(one.damaged for one in summaries),
                        everyone, list(self.failed))
        return page_of(history, since=since, until=until, title=title, names=names, vrps=vrps, source=source)

    def peers(self):
        """The peers, and the place of each one's first unit; the first column is the collector."""
        return self.report("peers")

    def tables(self):
        """Every route of every peer as a Dask frame, with a partition for each share of each collector, in this order.

        A partition is made by a worker when it is asked for. Whatever `errors` says, one that fails raises its error.
        """
        import dask
        import dask.dataframe
        from dask.dataframe.utils import clear_known_categories

        ask, names = dataclasses.replace(self._ask("tables", {}), errors="raise"), list(self.files)
        empty = [ask, names, names[0], [os.devnull], 1]
        meta = self.client.submit(_partition, *empty, pure=False).result() if self.client else _partition(*empty)
        open_ended = [name for name in meta if meta[name].dtype == "category" and name not in ("collector", "origin")]
        parts = [dask.delayed(_partition, pure=False)(ask, names, name, files, number)
                 for name, files in self.files.items() for number in range(1, ask.shares + 1)]
        return dask.dataframe.from_delayed(parts, clear_known_categories(meta, cols=open_ended), verify_meta=False)
