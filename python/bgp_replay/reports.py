"""The one table of reports and options: what the program has next joins as a row.

What a program lacks is refused by itself: a call of it is a UsageError with the program's words.
"""

import dataclasses
import os
from datetime import date, datetime, timezone

import numpy
import pandas


@dataclasses.dataclass(frozen=True)
class Report:
    """How a report's frames of several runs are put together.

    `merge` is how: "rows" one after the other, "sum" by key with `peers` added up, "list" each row once, by place.
    `is_by_peer` says that its rows come by peer, in the order of the peers' first units, so that the shares of a
    collector can be put in the order of one run; `is_divided` that it is run by shares at all.
    """

    merge: str
    is_by_peer: bool = False
    is_divided: bool = True


REPORTS = {
    "tables": Report("rows", is_by_peer=True),
    "visibility": Report("sum"),
    "seen": Report("sum"),
    "origins": Report("seen"),
    "churn": Report("rows", is_by_peer=True),
    "match": Report("rows", is_by_peer=True),
    "faults": Report("list"),
    "history": Report("rows", is_divided=False),  # by unit, whose place its lines don't have
    "peers": Report("rows", is_by_peer=True),
}


def _moment(value):
    """A moment as the program takes it: a time without a zone is in UTC, and the whole second counts."""
    if hasattr(value, "to_pydatetime"):
        value = value.to_pydatetime(warn=False)
    if isinstance(value, datetime):
        if value.tzinfo is None:
            value = value.replace(tzinfo=timezone.utc)
        return str(int(value.timestamp() // 1))
    return value.isoformat() if isinstance(value, date) else str(value)


def _peer(value):
    if isinstance(value, tuple):
        asn, address = value
        return f"{asn},{address}"
    return str(value)


def _origin(value):
    """An origin AS; None, and what a frame has in its place, is that of the routes without one."""
    return "-" if value is None or value is pandas.NA else str(value)


def _share(value):
    number, count = value
    return f"{number}/{count}"


def _one(text_of):
    return lambda name, value: [f"--{name}={text_of(value)}"]


def _each(text_of):
    """One option for each value of a list; a value alone is a list of one."""

    def words(name, value):
        is_list = isinstance(value, (list, set, frozenset)) or (hasattr(value, "tolist") and numpy.ndim(value) > 0)
        values = value if is_list else [value]
        return [f"--{name}={text_of(one)}" for one in values]

    return words


def _flag(name, value):
    return [f"--{name}"] if value else []


# Argument: the program's option, and the words for a value.
OPTIONS = {
    "until": ("until", _one(_moment)),
    "since": ("since", _one(_moment)),
    "prefixes": ("prefix", _each(str)),
    "peers": ("peer", _each(_peer)),
    "origins": ("origin", _each(_origin)),
    "paths": ("path", _each(str)),
    "communities": ("community", _each(str)),
    "share": ("peers", _one(_share)),
    "address": ("address", _one(str)),
    "family": ("family", _one(str)),
    "addresses": ("addresses", _one(str)),
    "attributes": ("attributes", _each(str)),
    "same": ("same", _flag),
    "states": ("states", _one(str)),
    "state_peers": ("state-peers", _one(str)),
    "rib": ("rib", _one(str)),
    "written_by": ("written-by", _one(str)),
    "table_dumps": ("table-dump", _one(str)),
    "errors": ("errors", _one(str)),
    "quiet": ("quiet", _flag),
    "workers": ("workers", _one(str)),
    "ring": ("ring", _one(str)),
}


def words_of(options):
    """The program's options for these arguments; None is as if not given. TypeError: there is no such argument."""
    words = []
    for name, value in options.items():
        if name not in OPTIONS:
            raise TypeError(f"there is no option {name!r}: they are {', '.join(OPTIONS)}")
        option, words_for = OPTIONS[name]
        if value is not None:
            words += words_for(option, value)
    return words


def names_of(files):
    """A list of names, of one name or several."""
    return [os.fspath(file) for file in ([files] if isinstance(files, (str, os.PathLike)) else files)]
