"""`python3 -m bgp_replay page`: one HTML page of an incident, of an archive's files."""

import argparse
import os
import sys
import tempfile
import warnings

from . import __version__
from .errors import DamagedWarning, NoteWarning, OpenError, ReplayError, UsageError
from .pages import page


def _words():
    words = argparse.ArgumentParser(prog="python3 -m bgp_replay", description=__doc__)
    words.add_argument("--version", action="version", version=__version__)
    one = words.add_subparsers(dest="command", required=True).add_parser(
        "page", help="one HTML page of an incident, to be opened offline in any browser",
        description="Writes one HTML page of what happened to prefixes at each peer: who saw which origin AS when, "
                    "where their addresses went, the AS graph at each moment, and the events. The files are a RIB dump "
                    "and the updates after it.")
    one.add_argument("--prefix", action="append", required=True, dest="prefixes", metavar="PREFIX",
                     help="192.0.2.0/24 is that prefix, 192.0.2.0/24+ also its more specifics, 192.0.2.0/24- also what "
                          "contains it; may be given again")
    one.add_argument("--since", metavar="TIME", help="where the page's time begins (default: the RIB dump)")
    one.add_argument("--until", metavar="TIME", help="where it ends (default: the end of the files)")
    one.add_argument("--title", help="any text; by default the prefixes")
    one.add_argument("--names", metavar="FILE", help="names of ASes: an AS number, a blank and a name in each line")
    one.add_argument("--vrps", metavar="FILE", help="VRPs as rpki-client and Routinator write them (CSV), by which "
                                                    "origins are valid, invalid or not found (RFC 6811)")
    one.add_argument("--one-run", action="store_true",
                     help="leave out the second run, beside the first, that tells of how many peers: it takes memory "
                          "for whole tables")
    for name in ("family", "rib", "states"):
        one.add_argument(f"--{name}", help="as of the program (bgp_replay history --help)")
    for name in ("state-peers", "written-by", "errors"):
        one.add_argument(f"--{name}", help="the same")
    one.add_argument("--table-dump", dest="table_dumps", metavar="TABLE_DUMP", help="the same")
    one.add_argument("-o", "--output", required=True, metavar="FILE", help="the page; - is standard output")
    one.add_argument("files", nargs="+", metavar="DUMP", help="MRT dumps, plain or packed, in order of time")
    return words


def _write(name, text):
    """Writes the file whole, or leaves what was there; what isn't an ordinary file is written to."""
    if name == "-":
        sys.stdout.buffer.write(text.encode())
        sys.stdout.buffer.flush()
        return
    name = os.path.realpath(name)
    if os.path.exists(name) and not os.path.isfile(name):
        with open(name, "wb") as file:
            file.write(text.encode())
        return
    with tempfile.NamedTemporaryFile(dir=os.path.dirname(name), prefix=".page.", delete=False) as file:
        try:
            file.write(text.encode())
            file.flush()
            os.chmod(file.name, 0o666 & ~_umask())
            os.replace(file.name, name)
        except BaseException:
            os.unlink(file.name)
            raise


def _umask():
    mask = os.umask(0)
    os.umask(mask)
    return mask


def main(words=None):
    """Ends as the program does: 0 well, 1 damage was skipped, 2 a wrong option or nothing to show, 3 no page."""
    options = vars(_words().parse_args(words))
    output, files = options.pop("output"), options.pop("files")
    options.pop("command")
    with warnings.catch_warnings(record=True) as said:
        warnings.simplefilter("ignore")
        for kind in (DamagedWarning, NoteWarning):
            warnings.simplefilter("always", kind)
        try:
            _write(output, page(files, **options))
        except UsageError as error:
            return _failed(error, 2)
        except (ReplayError, OpenError, OSError, ImportError) as error:
            return _failed(error, 3)
        except ValueError as error:
            return _failed(error, 2)
    told = [warning.message for warning in said]
    for message in told:
        print(message if isinstance(message, DamagedWarning) else f"  note: {message}", file=sys.stderr)
    return 1 if any(isinstance(message, DamagedWarning) for message in told) else 0


def _failed(error, status):
    print(error, file=sys.stderr)
    return status


if __name__ == "__main__":
    sys.exit(main())
