#!/usr/bin/env python3
"""Runs rows: dumps that are spelled in text, and what the program prints of them.

usage: tests/rows.py PROGRAM [FILE.rows ..]      without a file those of tests/rows

A file of rows has lines of these forms; an empty line and one that begins with `#` say nothing.
  row NAME            begins a row
  file WORDS          adds a dump: names of records and fields of crates/fixtures, hexadecimal digits, and digits that
                      are repeated, as 00*65492
  ? WORDS             asks the program with these words, and the row's dumps behind them
  > LINE              is a line of what it prints; all of them, in order
  damaged N           how many faults the run lists, and so its status; 0 where nothing is said
  refused TEXT        the run prints nothing, ends with status 2, and its first line on standard error has this text
  counts KEY N, ..    numbers of --summary by their keys, as `counts records 2, file 1 units 1`
Each question is asked twice: of plain dumps by one worker, and of dumps that gzip packed by several with a short ring.
The answer has to be the same. The last line is `N passed, M failed`. Needs Python 3 and nothing else.
"""
import glob
import gzip
import os
import re
import shlex
import subprocess
import sys
import tempfile
from concurrent.futures import ThreadPoolExecutor

TOP = os.path.dirname(os.path.dirname(os.path.abspath(__file__)))
PLANS = [["--workers", "1"], ["--workers", "3", "--ring", "1"]]


def names():
    """Returns what the words of a dump stand for."""
    found = {}
    for file in ("records", "damaged", "fields"):
        with open(f"{TOP}/crates/fixtures/src/{file}.rt", encoding="utf-8") as text:
            found |= re.findall(r'"([a-z0-9-]+)"\s*=>\s*"([^"]*)"', text.read())
    return found


NAMES = names()


def bytes_of(words):
    digits = ""
    while words:
        word, _, words = words.partition(" ")
        if word in NAMES:
            words = f"{NAMES[word]} {words}"
        elif found := re.fullmatch(r"((?:[0-9A-Fa-f]{2})*)(?:\*([0-9]+))?", word):
            digits += found[1] * int(found[2] or 1)
        elif word != "|":
            raise ValueError(f"neither a name nor whole bytes: {word}")
    return bytes.fromhex(digits)


def number_of(said, key):
    found = re.search(rf"^{re.escape(key)}: (\d+)$", said, re.M)
    return int(found[1]) if found else None


class Question:
    def __init__(self, place, row, words):
        self.place, self.row, self.words = place, row, shlex.split(words)
        self.lines, self.damaged, self.refused, self.counts = [], 0, None, {}

    def wrong_with(self, program, plan, files):
        """Returns what is wrong with an answer, or nothing."""
        words = [program, *self.words, *plan, "--summary", *files]
        try:
            ran = subprocess.run(words, stdin=subprocess.DEVNULL, capture_output=True, text=True, errors="replace", timeout=60)
        except subprocess.TimeoutExpired:
            return "no answer within 60 seconds"
        first = ran.stderr.partition("\n")[0]
        if self.refused is not None:
            return None if ran.returncode == 2 and not ran.stdout and self.refused in first else f"status {ran.returncode}: {first}"
        if ran.returncode != (1 if self.damaged else 0):
            return f"status {ran.returncode}: {first}"
        printed = ran.stdout.splitlines()
        if printed != self.lines:
            return "printed\n" + ran.stdout
        for key, wanted in {"damaged": self.damaged, **self.counts}.items():
            if number_of(ran.stderr, key) != wanted:
                return f"{key}: {number_of(ran.stderr, key)} in place of {wanted}"
        return None


def questions_of(file):
    """Yields the questions of a file of rows, each with the dumps of its row."""
    row, dumps, question = None, [], None
    with open(file, encoding="utf-8") as lines:
        for number, line in enumerate(lines, 1):
            kind, _, rest = line.rstrip("\n").partition(" ")
            if kind in ("row", "?") and question:
                yield question, dumps
                question = None
            if kind == "row":
                row, dumps = rest, []
            elif kind == "file":
                dumps.append(bytes_of(rest))
            elif kind == "?":
                question = Question(f"{os.path.basename(file)}:{number}", row, rest)
            elif kind == ">":
                question.lines.append(rest)
            elif kind == "damaged":
                question.damaged = int(rest)
            elif kind == "refused":
                question.refused = rest
            elif kind == "counts":
                question.counts |= {key: int(count) for key, _, count in (it.rpartition(" ") for it in rest.split(", "))}
            elif kind and not kind.startswith("#"):
                raise ValueError(f"{file}:{number}: a line that says nothing: {line}")
    if question:
        yield question, dumps


def write_dumps(dumps, folder):
    """Writes the dumps of a row, plain and packed, and returns the names of both."""
    plain, packed = [], []
    os.mkdir(folder)
    for number, dump in enumerate(dumps):
        for names, ending, data in ((plain, "", dump), (packed, ".gz", gzip.compress(dump))):
            names.append(f"{folder}/{number}{ending}")
            with open(names[-1], "wb") as out:
                out.write(data)
    return plain, packed


def main(program, *files):
    with tempfile.TemporaryDirectory() as folder, ThreadPoolExecutor(os.cpu_count()) as pool:
        tries = []
        for question, dumps in (it for file in files or sorted(glob.glob(f"{TOP}/tests/rows/*.rows")) for it in questions_of(file)):
            for plan, names in zip(PLANS, write_dumps(dumps, f"{folder}/{len(tries)}")):
                tries.append((question, plan, pool.submit(question.wrong_with, program, plan, names)))
        wrong = [f"{it.place}, {it.row}, by {' '.join(plan)}: {run.result()}" for it, plan, run in tries if run.result()]
    for line in wrong:
        print("wrong:", line)
    print(f"{len(tries) - len(wrong)} passed, {len(wrong)} failed")
    return 1 if wrong or not tries else 0


if __name__ == "__main__":
    if len(sys.argv) < 2:
        sys.exit(__doc__)
    sys.exit(main(os.path.abspath(sys.argv[1]), *sys.argv[2:]))
