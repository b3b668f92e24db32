"""Where addresses go: by longest match, each peer sends those of a prefix by its most specific route of them."""

import bisect
import collections
import ipaddress
import itertools
import typing


class Span(typing.NamedTuple):
    """From when to when a peer had which origins of a prefix, as a row of `plots.spans`."""

    prefix: str
    peer: tuple
    origins: str
    since: object
    until: object
    stands: bool


class Part(typing.NamedTuple):
    """Addresses for which the same prefixes count: those of a prefix that are in none of its more-specifics.

    `chain` is that prefix and those that contain it, the most specific first. `name` has the one or two prefixes that
    these addresses are, or says of which prefix they are the rest.
    """

    name: str
    chain: tuple


def place(prefix):
    """Where a prefix stands among others: those that contain it come first."""
    net = ipaddress.ip_network(prefix)
    return net.version, int(net.network_address), net.prefixlen


def is_in(prefix, nets):
    """Whether one of some networks contains the prefix, or is it."""
    net = ipaddress.ip_network(prefix)
    return any(net.version == other.version and net.subnet_of(other) for other in nets)


def rows(frame, who):
    """The rows of a frame of `plots.spans`; peers are known by the columns `who`."""
    names = frame[who].itertuples(index=False)
    peers = [(*map(str, some), int(asn), str(address)) for *some, asn, address in names]
    others = (frame[name] for name in ("origins", "since", "until", "stands"))
    return list(map(Span, frame["prefix"].astype(str), peers, *others))


def parts(prefixes):
    """The parts of some prefixes in order of their addresses; a prefix that its more-specifics fill has none."""
    nets, above, found = [ipaddress.ip_network(prefix) for prefix in sorted(prefixes, key=place)], [], []
    inner, chains = collections.defaultdict(list), {}
    for net in nets:
        while above and not is_in(net, above[-1:]):
            above.pop()
        if above:
            inner[above[-1]].append(net)
        above.append(net)
        chains[net] = tuple(map(str, reversed(above)))
    for net in nets:
        gaps = _gaps(net, inner[net])
        if gaps:
            found.append((net.version, gaps[0], Part(_name(net, gaps), chains[net])))
    return [part for *_, part in sorted(found)]


def _gaps(net, inner):
    """The first and last addresses of what is left of a network without some in it, which are in order and disjoint."""
    at, found = int(net.network_address), []
    for other in inner:
        if at < int(other.network_address):
            found.append((at, int(other.network_address) - 1))
        at = int(other.broadcast_address) + 1
    return [*found, (at, int(net.broadcast_address))] if at <= int(net.broadcast_address) else found


def _name(net, gaps):
    address = type(net.network_address)
    pieces = [str(piece) for first, last in gaps[:3]
              for piece in ipaddress.summarize_address_range(address(first), address(last))]
    return " and ".join(pieces) if len(pieces) <= 2 else f"rest of {net}"


def spans(found, parts):
    """What origins each peer's longest match of a part had, and from when to when, of the spans of its prefixes."""
    by_peer = collections.defaultdict(lambda: collections.defaultdict(list))
    for span in found:
        by_peer[span.prefix][span.peer].append(span)
    for part in parts:
        tracks = [by_peer[prefix] for prefix in part.chain]
        for peer in dict.fromkeys(peer for track in tracks for peer in track):
            yield from _longest(part.name, peer, [track[peer] for track in tracks if peer in track])


def _longest(name, peer, tracks):
    """One peer's: of each moment that of the first track which has one then. Tracks are in order of time."""
    times = sorted({time for track in tracks for span in track for time in (span.since, span.until)})
    last = None
    for since, until in itertools.pairwise(times):
        now = next(filter(None, (_at(track, since) for track in tracks)), None)
        if last and now and last.until == since and last.origins == now.origins:
            last = last._replace(until=until, stands=now.stands and now.until == until)
            continue
        if last:
            yield last
        last = now and Span(name, peer, now.origins, since, until, now.stands and now.until == until)
    if last:
        yield last


def _at(track, time):
    """The span of a track that has a moment, or None."""
    number = bisect.bisect_right(track, time, key=lambda span: span.since) - 1
    return track[number] if number >= 0 and time < track[number].until else None
