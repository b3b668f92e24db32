"""bgp_replay: MRT dumps of BGP route collectors, replayed into one table for each peer, as pandas frames.

    import bgp_replay
    routes = bgp_replay.tables(["rib.20261122.0700.bz2", "updates.20261122.0700.bz2"])
    routes.groupby("peer_asn").size()

`tables`, `visibility`, `seen`, `origins`, `churn`, `match`, `faults`, `history` and `peers` are the program's reports,
`Replay` one of them in pieces or as dicts, `summary` its counts. Files are one name or several, plain or packed (gzip,
bzip2, xz, zstd). Options: until and since (a datetime, UTC without a zone; a date; seconds since 1970 UTC; the
program's text), prefixes (one or several, as `192.0.2.0/24+`), peers (a list of AS or (AS, address)), share (I, N),
origins (one AS or several, None for routes without one), paths (masks, as `* 174 3356 *`), communities (as
`65535:666`), workers, and others of `reports.OPTIONS`. `bgp_replay.collectors` has reports of many collectors,
`bgp_replay.plots` pictures, and `page` makes one HTML page of what happened to some prefixes, as `python3 -m bgp_replay
page` does.
"""

from .errors import DamagedError, DamagedWarning, NoteWarning, OpenError, ReplayError, UnpackError, UsageError
from .pages import page, page_of
from .run import (Replay, churn, faults, has, history, match, origins, peers, program, seen, summary, tables,
                  visibility)
from .series import GapError, series
from .summary import FileSummary, Summary

__version__ = "0.3.0"
