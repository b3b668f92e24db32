#!/usr/bin/env python3
"""Copies a built program and records in the copy which commit and which toolchain it comes from.

usage: tools/stamp.py [--not-proved | --text TEXT] BUILT TO

The program holds one region of 128 bytes: `@build:`, a text padded with blanks, and `@`. `bgp_replay --version` prints
that text as its second line. The region must be in BUILT exactly once and as it was compiled; its text is replaced by
the commit and the line of `rt version`, by the commit and `(not proved)`, or by TEXT. Nothing else changes. The last
line on standard error says why nothing was copied; the status is then 1.
"""
import os
import re
import subprocess
import sys

TOP = os.path.dirname(os.path.dirname(os.path.realpath(__file__)))
WIDTH = 128
MARK, END = b"@build:", b"@"
ROOM = WIDTH - len(MARK) - len(END)
COMPILED = "not recorded, built without make"


class Refused(Exception):
    """The program can't be stamped, for the reason that it holds."""


def output(*words):
    """Returns what a command prints, without the blanks round it, or None if it fails or isn't installed."""
    how = {"stdin": subprocess.DEVNULL, "stdout": subprocess.PIPE, "stderr": subprocess.DEVNULL}
    try:
        ran = subprocess.run(words, cwd=TOP, **how)
    except OSError:
        return None
    return None if ran.returncode else ran.stdout.decode(errors="replace").strip()


def commit():
    """Returns the commit that is checked out, and whether the crates differ from it."""
    # A checkout of another project may surround an unpacked tarball.
    is_ours = output("git", "rev-parse", "--show-prefix") == ""
    at = output("git", "rev-parse", "--short=12", "HEAD") if is_ours else None
    if not at:
        return "commit not recorded"
    changed = output("git", "status", "--porcelain", "--", "crates", "crates.txt")
    return f"commit {at}, changed" if changed else f"commit {at}"


def text_of(is_proved):
    """Returns the text to record."""
    if not is_proved:
        return f"{commit()}; (not proved)"
    toolchain = output("rt", "version")
    if not toolchain:
        raise Refused("rt version prints nothing: the toolchain isn't on PATH")
    return f"{commit()}; proved with {toolchain}"


def stamped(program, text):
    """Returns the program's bytes with the text in the place of the one that it was compiled with."""
    if not re.fullmatch(r"[ -?A-~]+", text):
        raise Refused(f"the text has to be one line of ASCII without @: {text}")
    if len(text) > ROOM:
        raise Refused(f"the text has {len(text)} bytes, and there is room for {ROOM}: {text}")
    found = program.count(MARK)
    if found != 1:
        raise Refused(f"{MARK.decode()} is in the program {found} times, and not once")
    start = program.index(MARK)
    if program[start : start + WIDTH] != MARK + COMPILED.ljust(ROOM).encode() + END:
        raise Refused(f"{MARK.decode()} isn't followed by the text that is compiled: the program was stamped before")
    return program[:start] + MARK + text.ljust(ROOM).encode() + END + program[start + WIDTH :]


def stamp(built, to, text):
    """Writes the stamped copy, and replaces what was at `to` once it is whole."""
    with open(built, "rb") as file:
        program = stamped(file.read(), text)
    with open(f"{to}.new", "wb") as file:
        file.write(program)
    os.chmod(f"{to}.new", 0o755)
    os.replace(f"{to}.new", to)


def main(words):
    text, is_proved = None, True
    if words[:1] == ["--not-proved"]:
        words, is_proved = words[1:], False
    elif words[:1] == ["--text"] and len(words) > 1:
        text, words = words[1], words[2:]
    if len(words) != 2 or words[0].startswith("-"):
        print(__doc__.split("\n")[2], file=sys.stderr)
        return 2
    try:
        stamp(*words, text_of(is_proved) if text is None else text)
    except (Refused, OSError) as error:
        print(f"tools/stamp.py: {words[0]}: {error}", file=sys.stderr)
        return 1
    return 0


if __name__ == "__main__":
    sys.exit(main(sys.argv[1:]))
