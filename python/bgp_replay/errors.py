"""What can go wrong, in the program's own words. All of these can be pickled: a worker's error reaches its caller."""


class ReplayError(Exception):
    """The program ended without a report: status 3, or a signal. Nothing of the report is returned.

    `words` is what the program said, `status` its exit status (negative: the signal that ended it; None: it didn't
    run), `collector` the collector that was replayed, where there are several.
    """

    def __init__(self, words, status=None, collector=None):
        Exception.__init__(self, words)  # OSError would take the arguments for a number and a text
        self.words, self.status, self.collector = words, status, collector

    def __str__(self):
        return self.words if self.collector is None else f"{self.collector}: {self.words}"

    def __reduce__(self):
        return type(self), (self.words, self.status, self.collector)


class UsageError(ReplayError, ValueError):
    """Status 2: the program refuses a command, an option or a value."""


class OpenError(ReplayError, OSError):
    """Status 3, `open failed: file N`: a file can't be opened; files are counted from 1."""

    __str__, __reduce__ = ReplayError.__str__, ReplayError.__reduce__


class UnpackError(ReplayError, OSError):
    """A compressed file, unpacked here for the program, is damaged or cut short."""

    __str__, __reduce__ = ReplayError.__str__, ReplayError.__reduce__


class DamagedError(ReplayError):
    """Status 1 with damaged="raise": records or messages were skipped. `counts` has their number by file name."""

    def __init__(self, words, status=1, collector=None, counts=None):
        super().__init__(words, status, collector)
        self.counts = counts or {}

    def __reduce__(self):
        return type(self), (self.words, self.status, self.collector, self.counts)


class DamagedWarning(UserWarning):
    """Status 1: the report is returned, without the damaged records and messages; `counts` has their number by file."""

    def __init__(self, words, counts=None):
        super().__init__(words, counts)
        self.words, self.counts = words, counts or {}

    def __str__(self):
        return self.words


class NoteWarning(UserWarning):
    """A note of the program: the report is returned, and the dumps are likely not what was meant, as it says."""


def error_of(status, words):
    """The exception for an exit status other than 0 and 1, from what the program said."""
    words = words.strip("\n")
    if status < 0:
        return ReplayError("\n".join(filter(None, [f"bgp_replay was ended by signal {-status}", words])), status)
    if status == 2:
        return UsageError(words, status)
    if words.startswith("open failed"):
        return OpenError(words, status)
    return ReplayError(words or f"bgp_replay ended with status {status}", status)
