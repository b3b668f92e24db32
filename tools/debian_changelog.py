#!/usr/bin/env python3
"""Prints the Debian changelog of the package, made from CHANGELOG.md.

usage: tools/debian_changelog.py CHANGELOG.md PACKAGE MAINTAINER SECONDS

A heading `## VERSION` or `## VERSION - YYYY-MM-DD` begins a version, newest first. The newest one is dated by its
heading, or else by SECONDS, as SOURCE_DATE_EPOCH. An older one whose heading has no date is left out, since each entry
of a Debian changelog has one: the newest entry then ends with a line that names CHANGELOG.md. Any other heading is refused.
"""
import datetime
import re
import sys
import textwrap

HEADING = re.compile(r"## (\d[\w.+~]*)(?: - (\d{4}-\d\d-\d\d))?$")
SECTION = re.compile(r"### (.*)|\*\*(.*)\*\*$")
ITEM = re.compile(r"( *)- (.*)")
DAYS = "Mon Tue Wed Thu Fri Sat Sun".split()
MONTHS = "Jan Feb Mar Apr May Jun Jul Aug Sep Oct Nov Dec".split()


def versions_of(text):
    """Returns each version, its date if it has one, and the lines of its changes."""
    versions = []
    for line in text.split("\n"):
        heading = HEADING.match(line)
        if heading:
            versions.append((heading[1], heading[2], []))
        elif line.startswith("## "):
            sys.exit(f"tools/debian_changelog.py: a heading with no version, or with no date behind ` - `: {line}")
        elif versions:
            versions[-1][2].append(line)
    return versions


def wrapped(text, mark, indent):
    """Returns the lines of a change, no wider than 80 columns."""
    first = " " * indent + mark
    how = {"break_on_hyphens": False, "break_long_words": False}
    return textwrap.wrap(text, 80, initial_indent=first, subsequent_indent=" " * len(first), **how)


def entries(lines):
    """Returns the changes in Debian's form: headings in brackets, and items behind `*`, or behind `-` below others."""
    found, text, form = [], "", None
    for line in [*lines, ""]:
        section, item = SECTION.match(line), ITEM.match(line)
        if not line.strip() or section or item:
            found += wrapped(text, *form) if text else []
            text, form = "", None
        if section:
            found += [*[""] * bool(found), f"  [ {section[1] or section[2]} ]"]
        elif item:
            depth = len(item[1]) // 2
            text, form = item[2], ("- " if depth else "* ", 2 + 2 * depth)
        elif line.strip():
            text, form = f"{text} {line.strip()}".strip(), form or ("* ", 2)
    return found


def main(file, package, maintainer, seconds):
    with open(file, encoding="utf-8") as it:
        versions = versions_of(it.read())
    if not versions:
        sys.exit(f"tools/debian_changelog.py: {file} has no heading `## VERSION`")
    dated = [versions[0], *[it for it in versions[1:] if it[1]]]
    for number, (version, date, lines) in enumerate(dated):
        midnight = datetime.datetime.fromisoformat(f"{date}T00:00:00+00:00") if date else None
        at = midnight or datetime.datetime.fromtimestamp(int(seconds), datetime.timezone.utc)
        changes = entries(lines)
        if number == 0 and len(dated) < len(versions):
            changes += ["", "  [ Earlier versions ]", "  * See CHANGELOG.md."]
        print(f"{package} ({version}) unstable; urgency=medium\n")
        print(*changes, "", sep="\n")
        # The form of RFC 5322, whose names are English whatever the locale is.
        when = f"{DAYS[at.weekday()]}, {at.day:02} {MONTHS[at.month - 1]} {at.year} {at:%H:%M:%S} +0000"
        print(f" -- {maintainer}  {when}\n")


if __name__ == "__main__":
    if len(sys.argv) != 5:
        sys.exit(__doc__.split("\n")[2])
    main(*sys.argv[1:])
