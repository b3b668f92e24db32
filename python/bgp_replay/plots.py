"""Pictures, by matplotlib: who saw which origin AS of a prefix over time, what each peer did, and visibility over time.

`spans` has the numbers behind the first one, and needs no matplotlib.
"""

import re

_ORIGIN = re.compile(r"(?:.* )?(\d+)")  # a path that ends in a set or a confederation has none (RFC 6811, 2)
COUNTS = {"new": "tab:green", "changed": "tab:blue", "same": "lightgrey", "gone": "tab:red", "void": "mistyrose"}


def churn(frame, axes=None, most=20):
    """Bars of what each peer announced and withdrew, the busiest `most` of `churn()`, of one collector or several.

    Returns the axes: those given, or those of a new figure. The number of resets stands behind a peer's bar.
    """
    from matplotlib import pyplot, ticker

    frame = frame.assign(total=frame[list(COUNTS)].sum(axis=1)).nlargest(most, "total").iloc[::-1]
    axes = axes or pyplot.figure(figsize=(9, 1.3 + 0.28 * len(frame)), layout="constrained").add_subplot()
    names = frame["peer_asn"].astype(str) + "  " + frame["peer_ip"].astype(str)
    if "collector" in frame:
        names = frame["collector"].astype(str) + "  " + names
    ends = 0
    for count, color in COUNTS.items():
        values = frame[count].to_numpy("float64")
        axes.barh(names, values, left=ends, color=color, label=count)
        ends = ends + values
    for name, end, resets in zip(names, ends, frame["resets"]):
        if resets:
            axes.annotate(f" {resets} resets", (end, name), va="center", fontsize="small")
    axes.xaxis.set_major_formatter(ticker.EngFormatter())
    axes.set_xlabel("announcements and withdrawals")
    axes.margins(x=0.12)
    axes.legend(ncols=len(COUNTS), loc="lower right", bbox_to_anchor=(1, 1), frameon=False)
    return axes


def _origins(routes):
    """What a peer's routes of a prefix, by path identifier, have as origin ASes: `AS64500`, several, or `no AS`."""
    found = [_ORIGIN.fullmatch(path) for path in routes.values() if isinstance(path, str)]
    asns = {int(match[1]) for match in found if match}
    return " ".join(f"AS{asn}" for asn in sorted(asns)) or "no AS"


def spans(history, until=None):
    """From when to when each peer had which origin ASes of each prefix, of a frame of `history`.

    A row has the columns prefix, collector (where `history` has it), peer_asn, peer_ip, origins (a text: those of all
    the peer's paths), since, until and stands. A peer without a route has no row for this time. What is there at the
    end stands, and lasts to `until`, a time in UTC, or else to the last row of `history`; what ended, ended at `until`.
    Take `history` from the RIB dump on, without `since`: what was there before its first row isn't known.
    """
    import pandas

    who = ["prefix", *(["collector"] if "collector" in history else []), "peer_asn", "peer_ip"]
    end = pandas.to_datetime(until, utc=True) if until is not None else history["timestamp"].max()
    rows, routes, begun = [], {}, {}

    def close(key, moment, stands=False):
        origins, since = begun.pop(key, (None, None))
        if origins is not None and (stands or since < moment):
            rows.append([*key, origins, since, moment, stands])

    for row in history.itertuples():
        if row.timestamp > end or row.what in ("void", "same"):
            continue
        key = tuple(getattr(row, name) for name in who)
        own = routes.setdefault(key, {})
        if row.what in ("gone", "lost"):
            own.pop(row.path_id, None)
        else:
            own[row.path_id] = row.as_path
        origins = _origins(own) if own else None
        if begun.get(key, (None,))[0] != origins:
            close(key, row.timestamp)
            if origins is not None:
                begun[key] = (origins, row.timestamp)
    for key in list(begun):
        close(key, end, stands=True)
    return pandas.DataFrame(rows, columns=[*who, "origins", "since", "until", "stands"]).astype({"stands": bool})


def origins(history, prefix=None, axes=None, until=None):
    """Who saw which origin AS of a prefix over time: a line for each peer, which has the colour of the origin.

    `history` is the frame of `history(files, prefixes=..)`, of one collector or several, as `spans` takes it; where it
    has several prefixes, `prefix` names one. Where a peer's line is broken, it had no route. Returns the axes, as
    `churn`.
    """
    from matplotlib import dates, pyplot

    prefixes = list(dict.fromkeys(history["prefix"]))
    if prefix is None and len(prefixes) != 1:
        raise ValueError(f"which prefix? there are {len(prefixes)}")
    prefix = prefixes[0] if prefix is None else prefix
    found = spans(history[history["prefix"] == prefix], history["timestamp"].max() if until is None else until)
    names = found["peer_asn"].astype(str) + "  " + found["peer_ip"].astype(str)
    if "collector" in found:
        names = found["collector"].astype(str) + "  " + names
    places = {name: -number for number, name in enumerate(dict.fromkeys(names))}
    axes = axes or pyplot.figure(figsize=(9, 1.3 + 0.24 * len(places)), layout="constrained").add_subplot()
    for number, (label, rows) in enumerate(found.groupby("origins", sort=False)):
        rows = rows.assign(place=names[rows.index].map(places))
        axes.hlines(rows["place"], rows["since"], rows["until"], colors=f"C{number % 10}", linewidth=6, label=label)
    axes.set_yticks(list(places.values()), list(places))
    axes.set_ylim(-len(places), 1)
    axes.xaxis_date()
    axes.xaxis.set_major_formatter(dates.ConciseDateFormatter(axes.xaxis.get_major_locator()))
    axes.set_title(prefix, loc="left")
    if len(found):
        axes.legend(loc="upper left", bbox_to_anchor=(1, 1), frameon=False)
    return axes


def _by_moment(history):
    """By moment and prefix, how many peers have a route, from a frame of `history`: a column for each prefix."""
    import pandas

    found = spans(history)
    ends = found[~found["stands"]]
    steps = [found.assign(time=found["since"], step=1), ends.assign(time=ends["until"], step=-1)]
    steps = pandas.concat(steps).pivot_table(index="time", columns="prefix", values="step", aggfunc="sum", fill_value=0)
    return steps.sort_index().cumsum()


def visibility(frames, axes=None, most=10):
    """Steps of how many peers have each prefix over time, the `most` that most peers have at some moment.

    `frames` is a frame of `history(files, prefixes=..)`, as `spans` takes it. Or it has by moment (a time in UTC) the
    frame of `visibility()`, or of `seen()`: then each origin has a line of its own. Moments and prefixes are few:
    `visibility(files, until=moment, prefixes=..)`. Returns the axes, as `churn`.
    """
    from matplotlib import dates, pyplot

    counts = _counts(frames) if isinstance(frames, dict) else _by_moment(frames)
    counts = counts[counts.max().nlargest(most).index]
    axes = axes or pyplot.figure(figsize=(9, 3.2), layout="constrained").add_subplot()
    for name in counts:
        axes.step(counts.index, counts[name], where="post", label=name)
    axes.xaxis.set_major_formatter(dates.ConciseDateFormatter(axes.xaxis.get_major_locator()))
    axes.set_ylabel("peers with a route")
    axes.set_ylim(bottom=0)
    axes.legend(loc="upper left", bbox_to_anchor=(1, 1), frameon=False)
    return axes


def _counts(frames):
    """By moment, the numbers of `frames`: a column for each prefix, or prefix and origin."""
    import pandas

    rows = {}
    for moment, frame in frames.items():
        names = frame["prefix"].astype(str)
        if "origin_asn" in frame:
            names = names + " by " + ("AS" + frame["origin_asn"].astype("string")).fillna("no AS")
        rows[pandas.to_datetime(moment, utc=True)] = dict(zip(names, frame["peers"].astype("int64")))
    return pandas.DataFrame.from_dict(rows, orient="index").fillna(0).sort_index()
