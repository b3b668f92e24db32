#!/usr/bin/env python3
"""Builds the program and records in it which commit and which toolchain it comes from.

usage: tools/build.py proved   bin/bgp_replay: proves each crate below the program, lowest first, and then the program
       tools/build.py quick    bin/quick/bgp_replay: the toolchain's trial build, with no proof and with its checks

Both need the toolchain, whose command is rt. What it prints goes to bin/build.log or bin/quick/build.log, and the part
on a crate that fails also to standard output. The status is 0 where the program was built, 2 where there is no
toolchain, and else 1, or what the toolchain's command ended with.
"""
import os
import re
import select
import shutil
import signal
import subprocess
import sys
import time

sys.dont_write_bytecode = True
import stamp

TOP = stamp.TOP
PROGRAM = "bgp_replay"
# The last line of README.md says the same.
TOOLCHAIN = "rattle-kit, logic dac8208d650f15bf"
MISSING = f"""the toolchain isn't installed: no rt on PATH ({TOOLCHAIN}), which proves and compiles the program
what needs no toolchain: the Debian package and the tarball of a release, and make scripts BINARY=PROGRAM"""
# Lines on what is well, which say nothing of a failure.
WELL = re.compile(r"(enum|struct|impl|trait|fn) .*: proved$|so far: |checked .* of |logic /|statements |crate |rt: chose ")
# How many lines on a failure go to the terminal.
SHOWN = 60


def order(file, top):
    """Returns the crates below the crate `top`, and that one, each after those that it uses."""
    uses, found = {}, []
    with open(file, encoding="utf-8") as lines:
        for line in lines:
            name, colon, used = line.partition("#")[0].partition(":")
            if colon:
                uses[name.split()[0]] = used.split()

    def add(name):
        if name in uses and name not in found:
            for it in uses[name]:
                add(it)
            found.append(name)

    add(top)
    return found


def passed_since(start):
    seconds = int(time.monotonic() - start)
    return f"{seconds // 60}:{seconds % 60:02}"


def lines_of(child, pause):
    """Yields the lines that a command prints, and None whenever it printed none for that many seconds."""
    held, out = b"", child.stdout.fileno()
    while True:
        if pause and not select.select([out], [], [], pause)[0]:
            yield None
            continue
        more = os.read(out, 65536)
        held += more
        *whole, held = held.split(b"\n")
        if not more and held:
            whole.append(held)
        for line in whole:
            yield line.decode(errors="replace")
        if not more:
            return


class Toolchain:
    """Runs the toolchain's commands and reports what they do, a line for each crate."""

    def __init__(self, log):
        os.makedirs(os.path.dirname(log), exist_ok=True)
        self.name = os.path.relpath(log, TOP)
        self.log = open(log, "w", encoding="utf-8")
        self.is_terminal = sys.stdout.isatty()

    def show(self, line):
        """Prints the line of a crate, over the one that said how far it was."""
        print(f"\r\x1b[K{line}" if self.is_terminal else line, flush=True)

    def show_for_now(self, line):
        if self.is_terminal:
            print(f"\r\x1b[K{line}", end="", flush=True)

    def run(self, label, words, folder):
        """Runs a command in a folder, and returns its status, its lines and how many functions it proved, if it did."""
        start, state, lines, proved = time.monotonic(), "", [], None
        print(f"== {label}: {' '.join(words)}", file=self.log, flush=True)
        how = {"stdin": subprocess.DEVNULL, "stdout": subprocess.PIPE, "stderr": subprocess.STDOUT}
        child = subprocess.Popen(words, cwd=folder, **how)
        try:
            self.show_for_now(label)
            for line in lines_of(child, 1 if self.is_terminal else None):
                if line is not None:
                    print(line, file=self.log, flush=True)
                    lines.append(line)
                    far = re.match(r"(?:so far: |checked .*, )(\d+ of \d+)", line)
                    state = f"{far[1]} functions, " if far else state
                    ended = re.match(r"logic=proved functions=(\d+)", line)
                    proved = int(ended[1]) if ended else proved
                    if line.startswith("rt: waiting for "):
                        self.show(f"{label}: waits for another run of the toolchain in the same crate")
                self.show_for_now(f"{label}: {state}{passed_since(start)}")
            status = child.wait()
        finally:
            if child.poll() is None:
                child.terminate()
                child.wait()
        return status if status >= 0 else 128 - status, lines, proved

    def explain(self, lines):
        """Prints the lines on a failure."""
        told = [it for it in lines if it and not WELL.match(it)]
        if len(told) > SHOWN:
            print(f"  .. {len(told) - SHOWN} lines more in {self.name}")
        print(*[f"  {it}" for it in told[-SHOWN:]], sep="\n")
        print(f"  (all that the toolchain said: {self.name})", flush=True)


def record(built, to, is_proved):
    """Copies the built program, stamped, and returns the status: the copy itself has to print what was recorded."""
    text = stamp.text_of(is_proved)
    stamp.stamp(built, f"{to}.stamped", text)
    printed = subprocess.run([f"{to}.stamped", "--version"], stdin=subprocess.DEVNULL, stdout=subprocess.PIPE).stdout
    if printed.decode(errors="replace").split("\n")[1:2] != [text]:
        os.remove(f"{to}.stamped")
        raise stamp.Refused(f"the second line of --version isn't what was recorded: {text}")
    os.replace(f"{to}.stamped", to)
    print(f"{os.path.relpath(to, TOP)}: {text}")


def build_proved():
    toolchain = Toolchain(f"{TOP}/bin/build.log")
    crates = order(f"{TOP}/crates.txt", PROGRAM)
    for number, crate in enumerate(crates, 1):
        label, start = f"[{number}/{len(crates)}] {crate}", time.monotonic()
        # Running the program is how rt links it.
        words = ["rt", "run", "--", "--version"] if crate == PROGRAM else ["rt", "lib"]
        status, lines, proved = toolchain.run(label, words, f"{TOP}/crates/{crate}")
        if status:
            what = "not proved" if status == 1 else f"failed, status {status}"
            toolchain.show(f"{label}: {what} ({passed_since(start)})")
            toolchain.explain(lines)
            return status
        what = f"proved {proved} function{'' if proved == 1 else 's'} ({passed_since(start)})"
        toolchain.show(f"{label}: {'unchanged' if proved is None else what}")
    record(f"{TOP}/crates/{PROGRAM}/out/{PROGRAM}", f"{TOP}/bin/{PROGRAM}", True)
    return 0


def build_quick():
    folder, label, start = f"{TOP}/bin/quick", f"{PROGRAM}, without proofs", time.monotonic()
    toolchain, built = Toolchain(f"{folder}/build.log"), f"{folder}/{PROGRAM}.built"
    try:
        words = [sys.executable, f"{TOP}/tools/trial.py", f"{TOP}/crates/{PROGRAM}", built]
        status, lines, _ = toolchain.run(label, words, TOP)
        toolchain.show(f"{label}: {f'failed, status {status}' if status else 'compiled'} ({passed_since(start)})")
        if status:
            toolchain.explain(lines)
            return status
        record(built, f"{folder}/{PROGRAM}", False)
    finally:
        if os.path.exists(built):
            os.remove(built)
    return 0


def main(words):
    builds = {"proved": build_proved, "quick": build_quick}
    if len(words) != 1 or words[0] not in builds:
        print("\n".join(__doc__.split("\n")[2:4]), file=sys.stderr)
        return 2
    if not shutil.which("rt"):
        print(MISSING, file=sys.stderr)
        return 2
    signal.signal(signal.SIGTERM, lambda number, _: sys.exit(128 + number))
    try:
        return builds[words[0]]()
    except stamp.Refused as error:
        print(f"tools/build.py: {error}", file=sys.stderr)
        return 1
    except KeyboardInterrupt:
        print()
        return 130


if __name__ == "__main__":
    sys.exit(main(sys.argv[1:]))
