"""The program's lines as frames with real types.

pandas' C parser reads the text, in pieces, so text and frame are never in memory side by side. Texts that repeat
(peers, prefixes, paths, next hops) become categories: a code a row, and each text once. What has two values in one
column of the program, as `65003 192.0.2.3`, is taken apart once for each category.
"""

import typing

import numpy
import pandas
from pandas.api.types import union_categoricals

ROWS = 500_000


class Kind(typing.NamedTuple):
    """A column of the program: the type that the parser gives it, and the frame's columns that are made of it."""

    dtype: object
    columns: typing.Callable


def _recoded(column, values):
    """Of a column, what its categories are given as; a row without a category has none."""
    codes = column.cat.codes.to_numpy()
    if isinstance(values, pandas.Categorical):
        return pandas.Categorical.from_codes(numpy.append(values.codes, -1)[codes], dtype=values.dtype)
    return values.take(codes, allow_fill=True)


def _cut(texts, mark):
    parts = [text.partition(mark) for text in texts]
    return [part[0] for part in parts], [part[2] for part in parts]


def _numbers(texts):
    return pandas.array(numpy.array(texts, dtype="int64"), dtype="UInt32")


def _peer(_name, column, _files):
    numbers, addresses = _cut(column.cat.categories, " ")
    asn = _recoded(column, _numbers(numbers)).astype("uint32")
    return {"peer_asn": asn, "peer_ip": _recoded(column, pandas.Categorical(addresses))}


def _aggregator(_name, column, _files):
    numbers, addresses = _cut(column.cat.categories, " ")
    return {"aggr_asn": _recoded(column, _numbers(numbers)), "aggr_ip": _recoded(column, pandas.Categorical(addresses))}


def _key(_name, column, _files):
    texts = column.cat.categories
    if not any("#" in text for text in texts):
        return {"prefix": column, "path_id": numpy.zeros(len(column), "uint32")}
    names, ids = _cut(texts, "#")
    ids = _recoded(column, _numbers([number or 0 for number in ids])).astype("uint32")
    return {"prefix": _recoded(column, pandas.Categorical(names)), "path_id": ids}


def _time(name, column, _files):
    """Seconds and microseconds, as `1795330876.250000`: the nearest double is off by less than half a microsecond."""
    fractions, seconds = numpy.modf(column.to_numpy())
    micros = seconds.astype("int64") * 1_000_000 + numpy.rint(fractions * 1e6).astype("int64")
    return {"timestamp" if name == "time" else name: pandas.to_datetime(micros, unit="us", utc=True)}


def _asns(_name, column, _files):
    lists = [[int(asn) for asn in text.split()] for text in column.cat.categories]
    return {"origin_asns": pandas.Series([list(lists[code]) for code in column.cat.codes], dtype=object)}


def _file(_name, column, files):
    """The names of files by number; a file that is given again has its number behind its name."""
    first = {}
    names = [name if first.setdefault(name, i) == i else f"{name} ({i + 1})" for i, name in enumerate(files)]
    return {"file": pandas.Categorical.from_codes(column.to_numpy("int64") - 1, names)}


def _as_it_is(name, column, _files):
    return {name: column}


def in_runs(texts):
    """Categories of texts of which equal ones are neighbours, in this order: nothing is searched or sorted."""
    texts = numpy.asarray(texts, dtype=object)
    begins = numpy.ones(len(texts), bool)
    begins[1:] = texts[1:] != texts[:-1]
    return pandas.Categorical.from_codes(numpy.cumsum(begins) - 1, texts[begins])


TEXT = Kind("category", _as_it_is)
TEXT_IN_RUNS = Kind(object, lambda name, column, _files: {name: in_runs(column)})
COUNT = Kind("uint64", _as_it_is)
NUMBER = Kind("UInt32", _as_it_is)
FAULT_NUMBER = Kind("uint8", _as_it_is)
TIME = Kind("float64", _time)
FILE = Kind("uint32", _file)
PEER = Kind("category", _peer)
PEERS = Kind("uint32", _as_it_is)
ROUTE_KEY = Kind("category", _key)
ASN = Kind("UInt32", lambda _name, column, _files: {"origin_asn": column})
ASNS = Kind("category", _asns)
ORIGIN = Kind(pandas.CategoricalDtype(["IGP", "EGP", "INCOMPLETE"]), _as_it_is)
ATOMIC = Kind("category", lambda name, column, _files: {name: column.notna().to_numpy()})
AGGREGATOR = Kind("category", _aggregator)

# By report, and by the program's name of the column.
# columns: made by tools/options.py
KINDS = {
    "tables": {
        "peer": PEER, "prefix": ROUTE_KEY, "as_path": TEXT, "next_hop": TEXT, "origin": ORIGIN, "med": NUMBER,
        "local_pref": NUMBER, "atomic": ATOMIC, "aggregator": AGGREGATOR, "communities": TEXT, "extended": TEXT,
        "large": TEXT, "originator": TEXT, "clusters": TEXT, "otc": NUMBER,
    },
    "match": {
        "peer": PEER, "prefix": ROUTE_KEY, "as_path": TEXT, "next_hop": TEXT, "origin": ORIGIN, "med": NUMBER,
        "local_pref": NUMBER, "atomic": ATOMIC, "aggregator": AGGREGATOR, "communities": TEXT, "extended": TEXT,
        "large": TEXT, "originator": TEXT, "clusters": TEXT, "otc": NUMBER,
    },
    "history": {
        "time": TIME, "peer": PEER, "what": TEXT, "by": TEXT, "prefix": ROUTE_KEY, "as_path": TEXT, "next_hop": TEXT,
        "origin": ORIGIN, "med": NUMBER, "local_pref": NUMBER, "atomic": ATOMIC, "aggregator": AGGREGATOR,
        "communities": TEXT, "extended": TEXT, "large": TEXT, "originator": TEXT, "clusters": TEXT, "otc": NUMBER,
    },
    "visibility": {
        "prefix": TEXT_IN_RUNS, "peers": PEERS,
    },
    "origins": {
        "prefix": TEXT_IN_RUNS, "origins": ASNS,
    },
    "seen": {
        "prefix": TEXT_IN_RUNS, "origin": ASN, "peers": PEERS,
    },
    "churn": {
        "peer": PEER, "new": COUNT, "changed": COUNT, "same": COUNT, "gone": COUNT, "void": COUNT, "resets": COUNT,
        "idle": COUNT, "refused": COUNT, "first": TIME, "last": TIME,
    },
    "peers": {
        "peer": PEER, "state": TEXT, "routes": COUNT, "units": COUNT, "first": TIME, "last": TIME, "file": FILE,
        "offset": COUNT, "entry": NUMBER,
    },
    "faults": {
        "file": FILE, "offset": COUNT, "entry": NUMBER, "number": FAULT_NUMBER, "fault": TEXT,
    },
}
# end of columns
_KINDS_BY_NAME = {name: kind for kinds in reversed(KINDS.values()) for name, kind in kinds.items()}


def kinds_of(report):
    """The kinds of a report's columns; of one that isn't in the table, by name alone. A column that has none is text."""
    return KINDS.get(report, _KINDS_BY_NAME)


def pieces(kinds, stream, rows=ROWS):
    """Frames of successive lines, as the program wrote them below its header, with its own names of columns.

    `kinds` are those of the report's columns. The first frame comes even if there is no line, unless there is no header.
    """
    names = stream.readline().decode().rstrip("\n").split("|")
    if names == [""]:
        return
    dtypes = {name: kinds.get(name, TEXT).dtype for name in names}
    options = dict(sep="|", header=None, names=names, dtype=dtypes, na_values=["-"], keep_default_na=False, quoting=3,
                   skip_blank_lines=False, engine="c", chunksize=rows, low_memory=False, float_precision="round_trip")
    count = 0
    try:
        with pandas.read_csv(stream, **options) as reader:
            for count, piece in enumerate(reader, 1):
                yield piece.reset_index(drop=True)
    except pandas.errors.EmptyDataError:
        pass
    if not count:
        yield pandas.DataFrame({name: pandas.Series(dtype=dtype) for name, dtype in dtypes.items()})


def joined(frames):
    """Frames one after the other, with the union of their categories."""
    if len(frames) == 1:
        return frames[0]
    columns = {}
    for name in frames[0].columns:
        parts = [frame[name] for frame in frames]
        if parts[0].dtype == "category" and not all(part.dtype == parts[0].dtype for part in parts):
            columns[name] = union_categoricals(parts)
        else:
            columns[name] = pandas.concat(parts, ignore_index=True)
    return pandas.DataFrame(columns)


def shaped(kinds, frame, files):
    """A frame as users get it: numbers, categories, times and lists in place of texts that have to be taken apart."""
    columns = {}
    for name in frame.columns:
        columns |= kinds.get(name, TEXT).columns(name, frame[name], files)
    return pandas.DataFrame(columns)
