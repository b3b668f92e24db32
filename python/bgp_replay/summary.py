"""`--summary` as an object."""

import dataclasses
import re

import pandas


@dataclasses.dataclass
class FileSummary:
    """What was read of one file: sizes in bytes, times in seconds since 1970 UTC. None: not known, or there is none."""

    name: str = ""
    bytes: int = 0
    unread: int | None = None
    records: int | None = None
    aside: int | None = None
    aside_kinds: dict = dataclasses.field(default_factory=dict)
    first: int | None = None
    last: int | None = None
    units: int | None = None
    refused: int | None = None
    damaged: int | None = None
    packed: str | None = None
    packed_bytes: int | None = None

    @property
    def faults(self):
        """Its lines in `faults`: refused records and damaged units."""
        return (self.refused or 0) + (self.damaged or 0)


@dataclasses.dataclass
class Summary:
    """What was read in a run: `seconds` of wall time, `peak_kib` of memory; the others are those of docs/USAGE.md."""

    files: list = dataclasses.field(default_factory=list)
    bytes: int = 0
    records: int | None = None
    units: int | None = None
    aside: int | None = None
    damaged: int = 0
    peers: int | None = None
    routes: int | None = None
    rounds: int | None = None
    workers: int | None = None
    seconds: float | None = None
    peak_kib: int | None = None

    def frame(self):
        """A row for each file, without the kinds of records aside; times are datetime64 in UTC."""
        names = [field.name for field in dataclasses.fields(FileSummary) if field.name != "aside_kinds"]
        frame = pandas.DataFrame([[getattr(file, name) for name in names] for file in self.files], columns=names)
        for name in names:
            if name in ("first", "last"):
                seconds = pandas.to_numeric(frame[name])
                frame[name] = pandas.to_datetime(seconds, unit="s", utc=True)
            elif name not in ("name", "packed"):
                frame[name] = frame[name].astype("UInt64")
        return frame


def _value(text):
    if text == "-":
        return None
    return float(text) if re.fullmatch(r"\d+\.\d+", text) else int(text) if text.isdigit() else text


def read_summary(text, names):
    """Reads what the program said: the summary, and the other lines as text. Files are called as in `names`."""
    summary, others = Summary([FileSummary(name) for name in names]), []
    for line in text.rstrip("\n").split("\n"):
        key, _, value = line.partition(": ")
        of_file = re.fullmatch(r"file (\d+)(?: (.+))?", key)
        if of_file and value and int(of_file[1]) <= len(names):
            file, name = summary.files[int(of_file[1]) - 1], (of_file[2] or "name").replace(" ", "_")
            if name.startswith("aside_"):
                file.aside_kinds[of_file[2][6:]] = int(value)
            elif name != "name" and hasattr(file, name):
                setattr(file, name, _value(value))
        elif key in Summary.__dataclass_fields__ and value:
            if key != "files":
                setattr(summary, key, _value(value))
        else:
            others.append(line)
    return summary, "\n".join(others)
