"""What the scripts of a page draw, as numbers and short lists for JSON. Times are microseconds from the start."""

import re

import numpy
import pandas

from .incident import MICRO, origin_of

# Columns that a history has beside attributes of the route, and the path, which stands by itself. All others are shown.
_OF_EVENT = {"timestamp", "what", "by", "collector", "peer_asn", "peer_ip", "prefix", "path_id", "as_path"}
_OF_EVENT |= {"recorded", "at"}  # what an Incident adds


class _Routes:
    """Routes by number: path, origin, attributes. Those alone have a number that are asked for, in order."""

    def __init__(self, frame, origins):
        self.origins = {origin: number for number, origin in enumerate(origins)}
        self.rows, self.attributes, self._numbers = [], {}, {}
        shown = [name for name in frame if name not in _OF_EVENT]
        says = {name: frame[name] if frame[name].dtype == bool else frame[name].notna() for name in shown}
        self.columns = [name for name in shown if says[name].any()]
        codes = [pandas.factorize(frame[name])[0] for name in ["as_path", *self.columns]]
        _, firsts, self.codes = numpy.unique(numpy.array(codes), axis=1, return_index=True, return_inverse=True)
        self.codes = numpy.where(frame["what"] == "void", -1, self.codes.reshape(-1))
        self._paths, *self._values = (frame[name].iloc[firsts].tolist() for name in ["as_path", *self.columns])

    def number(self, code):
        """-1: there is no route. A route without the attribute AS_PATH has a path too, the missing one."""
        if code < 0:
            return -1
        if code not in self._numbers:
            self._numbers[code] = len(self.rows)
            path, origin = self._paths[code], origin_of(self._paths[code])
            values = enumerate(_shown(some[code]) for some in self._values)
            values = tuple((at, value) for at, value in values if value is not None)
            self.rows.append([path if isinstance(path, str) else None,
                              self.origins.setdefault(origin, len(self.origins)),
                              self.attributes.setdefault(values, len(self.attributes))])
        return self._numbers[code]


def _shown(value):
    """A value as JSON takes it: a text, or True; None is nothing to show."""
    if isinstance(value, (bool, numpy.bool_)):
        return True if value else None
    return None if value is None or pandas.isna(value) else str(value)


def data(incident, names, validity):
    """The page's data. `names` are those of ASes by number, `validity` that of prefix and origin, where it's known."""
    frame = pandas.concat([incident.before, incident.events])
    routes, count = _Routes(frame, incident.origins), len(incident.before)
    peers = {peer: number for number, peer in enumerate(incident.peers)}
    prefixes = {prefix: number for number, prefix in enumerate(incident.prefixes)}
    whos = frame[incident.who].itertuples(index=False)
    keys = [[peers[(*map(str, some), int(asn), str(address))] for *some, asn, address in whos],
            [prefixes[prefix] for prefix in frame["prefix"].astype(str)], frame["path_id"].astype("int64").tolist()]
    begin = {}
    for *key, code, what in zip(*(column[:count] for column in keys), routes.codes, incident.before["what"]):
        if what in ("gone", "lost"):
            begin.pop(tuple(key), None)
        elif what != "void":
            begin[tuple(key)] = code
    begin = [[*key, routes.number(code)] for key, code in begin.items()]
    numbers = list(map(routes.number, routes.codes[count:].tolist()))
    told = _events(incident) | dict(zip(("peers", "prefixes", "ids"), (column[count:] for column in keys)))
    origins = [[origin, incident.origins.get(origin, True)] for origin in routes.origins]
    standing = [[prefixes[prefix], routes.origins[origin], state] for (prefix, origin), state in validity.items()
                if prefix in prefixes and origin in routes.origins]
    asns = {asn for *_, asn, _ in incident.peers}
    asns |= {int(asn) for path, *_ in routes.rows for asn in re.findall(r"\d+", path or "")}
    return {"start": incident.start.value // 1000, "length": (incident.end - incident.start) // MICRO,
            "total": incident.total, "prefixes": incident.prefixes, "main": prefixes[incident.main],
            "peers": incident.peers,
            "parts": [[part.name, [prefixes[prefix] for prefix in part.chain]] for part in incident.parts],
            "columns": routes.columns, "attributes": list(routes.attributes), "origins": origins, "routes": routes.rows,
            "validity": standing, "names": {asn: name for asn, name in names.items() if asn in asns},
            "begin": begin, "events": told | {"routes": numbers}}


def _events(incident):
    """What happened and by what, and when: steps from one event to the next, and how far from there it was recorded."""
    events = incident.events
    at, recorded = (((events[name] - incident.start) // MICRO).to_numpy() for name in ("timestamp", "recorded"))
    told = {"steps": numpy.diff(at, prepend=0).tolist(), "offsets": (recorded - at).tolist()}
    for kind in ("what", "by"):
        names = sorted(set(map(str, events[kind])))
        told |= {f"{kind}Names": names, kind: [names.index(name) for name in events[kind]]}
    return told
