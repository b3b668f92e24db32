"""Runs of the program: its text goes through a pipe into frames, its errors become exceptions."""

import bz2
import functools
import gzip
import json
import os
import re
import shutil
import signal
import subprocess
import sys
import tempfile
import warnings

from . import frames
from .errors import DamagedError, DamagedWarning, NoteWarning, UnpackError, error_of
from .reports import OPTIONS, names_of, words_of
from .summary import read_summary
from .unpacking import MAGIC, Unpacking, packing

_AS_WORDS = 1000  # options: Linux refuses a command line of 2 MiB, or of a quarter of the stack's limit
_CUT = re.compile(r": (gzip|bzip2) data, offset \d+: ")
_NOTE = "note: "
_NOTHING_PACKED = {"gzip": gzip.compress(b"", mtime=0), "bzip2": bz2.compress(b"")}


def program():
    """The program's name: the variable BGP_REPLAY, else `bgp_replay` on the PATH. FileNotFoundError: there is none."""
    found = os.environ.get("BGP_REPLAY") or shutil.which("bgp_replay")
    if not found:
        raise FileNotFoundError("bgp_replay isn't on the PATH, and the variable BGP_REPLAY isn't set")
    return found


def _asked(name, *words, given=b""):
    return subprocess.run([name, *words], input=given, capture_output=True)


def _once_for_each_program(ask):
    """`ask(program, ..)` is asked once for each program, until that is another file."""
    kept = functools.lru_cache(maxsize=64)(lambda name, _state, *words: ask(name, *words))

    @functools.wraps(ask)
    def asked(*words):
        name = program()
        state = os.stat(name)
        return kept(name, (state.st_mtime_ns, state.st_size, state.st_ino), *words)

    return asked


@_once_for_each_program
def has(name, report, option=None):
    """Whether the program has a report, and for it an option, by what its help says: `has("tables", "family")`."""
    words = _asked(name, "--help").stdout.decode()
    commands = re.findall(r"^  ([a-z_]+)", words.partition("\nCommands:\n")[2].partition("\n\n")[0], re.MULTILINE)
    if report not in commands or option is None:
        return report in commands
    words = _asked(name, report, "--help").stdout.decode()
    return re.search(rf"^ {{2,6}}(-., )?--{option}\b", words, re.MULTILINE) is not None


@_once_for_each_program
def reads(name, kind):
    """Whether the program reads files of this packing by itself: it takes an empty one for an empty dump."""
    empty = _NOTHING_PACKED.get(kind)
    return empty is not None and _asked(name, "faults", "-", given=empty).returncode == 0


class Replay:
    """One run of the program. Its frames come by iterating, at most `rows` rows each, or as one by `frame()`.

    A report is whole once the iteration has come to its end: what is wrong is raised there, and the last frame is held
    back until then. Afterwards `summary` has the counts, and `said` what else the program said, of which `notes` has
    the notes: each is a NoteWarning, unless `quiet` is chosen. `damaged` says what damage is: "warn" warns with
    DamagedWarning, "raise" raises DamagedError, "ignore" does neither; a packed file that ends early, which `cut` then
    has and no report lists, is warned of in any case. `unpackers` is the number of threads that unpack files which the
    program doesn't read by itself. Options are those of the reports.

    `json()` gives the lines as dicts in place of frames, with the keys of docs/USAGE.md.
    """

    def __init__(self, report, files, *, rows=frames.ROWS, damaged="warn", unpackers=None, **options):
        if damaged not in ("warn", "raise", "ignore"):
            raise ValueError("damaged is one of 'warn', 'raise' and 'ignore'")
        self.report, self.files, self.rows = report, names_of(files), rows
        self.damaged, self.unpackers, self.options = damaged, unpackers, words_of(options)
        self.kinds = frames.kinds_of(report)
        self.summary = self.said = self.notes = self.cut = self.unpacking = self.child = None

    def _words(self, listed):
        """The options as words; a long list of prefixes goes into a file, which the program reads as standard input."""
        prefixes = [word.partition("=")[2] for word in self.options if word.startswith("--prefix=")]
        if len(prefixes) < _AS_WORDS or not all(re.fullmatch(r"[0-9./+-]+", prefix) for prefix in prefixes):
            return self.options
        listed.write("".join(f"{prefix}\n" for prefix in prefixes).encode())
        listed.seek(0)
        return [*(word for word in self.options if not word.startswith("--prefix=")), "--prefixes=-"]

    def _pieces(self):
        """The frames with the program's own columns; the last one once the program has ended well."""
        return self._read(["--header"], lambda stream: frames.pieces(self.kinds, stream, self.rows))

    def _read(self, form, pieces):
        """What `pieces` makes of the lines of a run with the options of `form`; its last piece once the program has
        ended well."""
        command = [program(), self.report, *form, "--summary"]
        kinds = {kind for kind in set(map(packing, self.files)) - {None} if not reads(kind)}
        names = ["./-" if name == "-" else name for name in self.files]
        self.unpacking = Unpacking(names, kinds, self.unpackers)
        last = None
        with tempfile.TemporaryFile() as said, tempfile.TemporaryFile() as listed:
            child = None
            try:
                child = self.child = subprocess.Popen(
                    [*command, *self._words(listed), "--", *self.unpacking.names], stdin=listed, stdout=subprocess.PIPE,
                    stderr=said, pass_fds=self.unpacking.fds, bufsize=0)
                self.unpacking.start(child.kill)
                try:
                    for piece in pieces(child.stdout):
                        if last is not None:
                            yield last
                        last = piece
                except (ValueError, OverflowError):  # a line that is cut off, if the program says why
                    while child.stdout.read(1 << 20):
                        pass
                    if child.wait() in (0, 1):
                        raise
                status = child.wait()
            finally:
                if child is not None:
                    child.kill()
                    child.stdout.close()
                    child.wait()
                self.unpacking.stop()
            said.seek(0)
            self._judge(status, said.read().decode(errors="replace"))
        if last is not None:
            yield last

    def _judge(self, status, said):
        """Raises what the run's end means, or keeps its summary."""
        summary, others = read_summary(said, self.files)
        if self.unpacking.errors and status in (0, 1, -signal.SIGKILL):
            number, cause = self.unpacking.errors[0]
            raise UnpackError(f"unpacking failed: file {number}\n  {self.files[number - 1]}: {cause}")
        for name, path in zip(self.unpacking.names, self.files):
            if name.startswith("/dev/fd/"):
                others = re.sub(rf"{name}(?!\d)", lambda _: path, others)
        if status not in (0, 1):
            raise error_of(status, others)
        self.summary, self.said = summary, [line.strip() for line in others.split("\n") if line.strip()]
        self.notes = [line.removeprefix(_NOTE) for line in self.said if line.startswith(_NOTE)]
        self.cut = [line for line in self.said if _CUT.search(line)]
        if status == 1:
            self._tell_damage()
        self._tell_notes()

    def _tell_notes(self):
        for note in self.notes:
            warnings.warn(NoteWarning(note), stacklevel=level())

    def _tell_damage(self):
        counts = {}
        for file in self.summary.files:
            if file.faults:
                counts[file.name] = counts.get(file.name, 0) + file.faults
        by_file = [f"{name}: {count}" for name, count in counts.items()]
        others = [line for line in self.said if not line.startswith(_NOTE)]
        words = "\n  ".join([f"damaged: {self.summary.damaged}", *by_file, *others])
        if self.damaged == "raise":
            raise DamagedError(words, counts=counts)
        if self.damaged == "warn" or self.cut:
            warnings.warn(DamagedWarning(words, counts), stacklevel=level())

    def __iter__(self):
        for piece in self._pieces():
            yield frames.shaped(self.kinds, piece, self.files)

    def frame(self):
        """The whole report."""
        return frames.shaped(self.kinds, frames.joined(list(self._pieces())), self.files)

    def json(self):
        """The lines of the report as dicts, one after the other: what `--format json` prints.

        Values are Python's own: None where the report has none, lists, and times in seconds as floats, which are right
        to the microsecond. `file` is a number, and addresses are short. The last ones come once the program has ended
        well, and what is raised and warned of is that of frames.
        """
        for lines in self._read(["--format", "json"], _batches):
            yield from map(json.loads, lines)


def _batches(stream):
    """Lists of successive lines, of some mebibytes at most. ValueError: the last line is cut off."""
    waiting = bytearray()
    while chunk := stream.read(1 << 20):
        waiting += chunk
        if len(waiting) >= 1 << 20:
            *lines, waiting = waiting.split(b"\n")
            yield lines
    *lines, rest = waiting.split(b"\n")
    if rest:
        raise ValueError(f"a line is cut off: {rest[:80]!r}")
    yield lines


def level():
    """How far up the caller is that isn't of this package, for a warning."""
    level, at = 1, sys._getframe(1)
    while at.f_back and at.f_globals.get("__name__", "").startswith(__package__ + "."):
        level, at = level + 1, at.f_back
    return level


def of_peers(options):
    """Those of a report's options that `peers` has too: the others don't choose units."""
    return {name: value for name, value in options.items() if name not in OPTIONS or has("peers", OPTIONS[name][0])}


def summary(files, **options):
    """What the program says of the files it read (`--summary`), as a Summary, by a run of `churn`."""
    replay = Replay("churn", files, damaged=options.pop("damaged", "ignore"), **options)
    for _ in replay._pieces():
        pass
    return replay.summary


def _report(name, doc, **defaults):
    def run(files, **options):
        return Replay(name, files, **(defaults | options)).frame()

    run.__name__ = run.__qualname__ = name
    run.__doc__ = doc
    return run


_ROUTE = """peer_asn uint32, peer_ip, prefix, path_id uint32 (0: none), as_path (empty, and missing, are two things),
    next_hop, origin (IGP, EGP, INCOMPLETE), med and local_pref UInt32, atomic bool, aggr_asn UInt32, aggr_ip."""

tables = _report("tables", f"Every route of every peer: {_ROUTE}")
visibility = _report("visibility", "How many peers have each prefix: prefix, peers uint32.")
seen = _report("seen", "How many peers have each prefix by origin AS: prefix, origin_asn UInt32 (NA: none), peers.")
origins = _report("origins", "The prefixes with two origin ASes or more: prefix, origin_asns, lists of numbers.")
churn = _report("churn", """What each peer did: peer_asn uint32, peer_ip, the counts new, changed, same, gone, void,
    resets, idle, refused as uint64, first and last as datetime64 in UTC.""")
faults = _report("faults", """The damaged records and messages: file (its name), offset in bytes uint64, entry UInt32
    (NA: a record or message), number uint8, fault.""", damaged="ignore")
history = _report("history", f"What happened to chosen prefixes: timestamp, what, by, and {_ROUTE}")
peers = _report("peers", """The peers: peer_asn uint32, peer_ip, state, routes and units uint64, first and last as
    datetime64 in UTC, and the place of its first unit: file, offset uint64, entry UInt32.""")


def match(files, address, **options):
    """For each peer the routes of the longest prefix that contains the address, with the columns of `tables`."""
    return Replay("match", files, address=address, **options).frame()
