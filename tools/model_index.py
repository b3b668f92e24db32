#!/usr/bin/env python3
"""Writes docs/DEFINITIONS.md, the index of the definitions, from the comments of crates/*/specs/*.antt.

With --check it writes nothing and exits with 1 if the page isn't the one that it would write.
"""

import argparse
import re
import sys
import textwrap
from pathlib import Path

ROOT = Path(__file__).resolve().parent.parent
PAGE = ROOT / "docs" / "DEFINITIONS.md"
WIDTH = 120

INTRODUCTION = """\
# The definitions

The definitions of each crate in `crates/CRATE/specs`, by file, each with the comment that stands above it; where there
is none, with its type. [MODEL.md](MODEL.md) explains those that the headline rests on. Which of them a promise names is
in the contracts of the crate's public functions. `tools/model_index.py` writes this page; after a change of a
definition or of its comment, run it again.
"""

DEFINITION = re.compile(r"\s*(?:(?:abbrev|unfoldable|opaque) pub|pub (?:record|data))\s+(?P<name>\S+)(?P<rest>.*)")
HEADING = re.compile(r"\s*-- ---- (?P<text>.*)")
COMMENT = re.compile(r"\s*--\s?(?P<text>.*)")
MODULE = re.compile(r"pub mod (?P<name>\S+)")


class Failure(Exception):
    """Why the index can't be made."""


def crates():
    """The crates with definitions, in the order of crates.txt: those below first."""
    listed = [line.split(":")[0].split()[0] for line in (ROOT / "crates.txt").read_text().splitlines() if line.strip()]
    with_specs = {path.parent.name for path in ROOT.glob("crates/*/specs")}
    missing = with_specs - set(listed)
    if missing:
        raise Failure("crates.txt doesn't name " + ", ".join(sorted(missing)))
    return [crate for crate in listed if crate in with_specs]


def files(crate):
    """The files of a crate's definitions, in the order in which its Lib.antt names them."""
    folder = ROOT / "crates" / crate / "specs"
    named = MODULE.findall((folder / "Lib.antt").read_text())
    present = {path.stem for path in folder.glob("*.antt")} - {"Lib"}
    if set(named) != present:
        raise Failure(f"crates/{crate}/specs/Lib.antt and the files beside it differ")
    return [folder / f"{name}.antt" for name in named]


def type_of(lines, at, rest):
    """The type of a definition that has no comment, as it is written from its name on."""
    parts = [rest]
    indent = len(lines[at]) - len(lines[at].lstrip())
    for line in lines[at + 1 :]:
        if not line.strip() or len(line) - len(line.lstrip()) <= indent or re.search(r"\bwhere\s*$", parts[-1]):
            break
        parts.append(line)
    text = " ".join(" ".join(parts).split())
    return re.sub(r"^: |\s*(: Type 0)?\s*where$", "", text)


def entries(lines):
    """The items of a file behind its head comment: ("heading", text) or ("definition", name, comment, type)."""
    comment = []
    for at, line in enumerate(lines):
        heading = HEADING.fullmatch(line)
        definition = DEFINITION.fullmatch(line)
        if heading:
            yield "heading", heading["text"]
            comment = []
        elif COMMENT.fullmatch(line):
            comment.append(COMMENT.fullmatch(line)["text"])
        else:
            if definition:
                yield "definition", definition["name"], " ".join(comment), type_of(lines, at, definition["rest"])
            comment = []


def wrapped(text, first="", later=""):
    return textwrap.fill(
        text, WIDTH, initial_indent=first, subsequent_indent=later, break_long_words=False, break_on_hyphens=False
    )


def section(path):
    """The part of the page for one file."""
    lines = path.read_text().splitlines()
    head = 0
    while head < len(lines) and COMMENT.fullmatch(lines[head]):
        head += 1
    if head == 0:
        raise Failure(f"{path.relative_to(ROOT)} has no comment in its first line")
    purpose = " ".join(COMMENT.fullmatch(line)["text"] for line in lines[:head])
    parts = [f"### {path.name}", "", wrapped(purpose), ""]
    for kind, text, *others in entries(lines[head:]):
        if kind == "heading":
            if parts[-1]:
                parts.append("")
            parts += [wrapped(f"*{text}*"), ""]
            continue
        comment, type_text = others
        said = comment or (f"`{type_text}`" if type_text else "")
        parts.append(wrapped(f"`{text}`: {said}" if said else f"`{text}`", "- ", "  "))
    while not parts[-1]:
        parts.pop()
    return parts


def page():
    parts = [INTRODUCTION]
    for crate in crates():
        parts += [f"## {crate}", ""]
        for path in files(crate):
            parts += section(path) + [""]
    return "\n".join(parts).rstrip("\n") + "\n"


def main():
    parser = argparse.ArgumentParser(description=__doc__, formatter_class=argparse.RawDescriptionHelpFormatter)
    parser.add_argument("--check", action="store_true", help="compare with docs/DEFINITIONS.md and write nothing")
    options = parser.parse_args()
    try:
        text = page()
    except (Failure, OSError) as failure:
        print(f"tools/model_index.py: {failure}", file=sys.stderr)
        return 1
    if not options.check:
        PAGE.write_text(text)
        return 0
    if not PAGE.is_file() or PAGE.read_text() != text:
        print("docs/DEFINITIONS.md isn't that of the definitions: run tools/model_index.py", file=sys.stderr)
        return 1
    return 0


if __name__ == "__main__":
    sys.exit(main())
