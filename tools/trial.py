#!/usr/bin/env python3
"""Compiles a program by the toolchain's trial build, with no proof and with its checks, and keeps the executable.

usage: tools/trial.py FOLDER TO

`rt try` makes such an executable, runs it and removes it. This script runs the same code of the toolchain over a linker
that also copies what it links to TO. The program is run with `--version`, and once with a single step of the
toolchain's interpreter. What both print goes to standard output and standard error. The status is that of `rt try`: 0
where the program was compiled and ended well.
"""
import os
import shlex
import shutil
import sys
import tempfile

sys.dont_write_bytecode = True


def link_all(source, to):
    """Makes a directory of links to what another one holds."""
    os.mkdir(to)
    for name in os.listdir(source):
        os.symlink(f"{source}/{name}", f"{to}/{name}")


def copy_of(kit, room, to):
    """Makes a toolchain of links, whose linker copies the program that it links."""
    link_all(kit, room)
    os.remove(f"{room}/toolchain")
    link_all(f"{kit}/toolchain", f"{room}/toolchain")
    os.remove(f"{room}/toolchain/bin")
    link_all(f"{kit}/toolchain/bin", f"{room}/toolchain/bin")
    linker = f"{room}/toolchain/bin/ld.lld"
    os.remove(linker)
    with open(linker, "w", encoding="utf-8") as file:
        file.write(
            f"""#!/bin/sh
{shlex.quote(kit)}/toolchain/bin/ld.lld "$@" || exit
while [ $# -gt 1 ]; do
  if [ "$1" = -o ]; then cp "$2" {shlex.quote(to)}; exit; fi
  shift
done
"""
        )
    os.chmod(linker, 0o755)


def main(words):
    if len(words) != 2:
        print(__doc__.split("\n")[2], file=sys.stderr)
        return 2
    folder, to = map(os.path.abspath, words)
    rt = shutil.which("rt")
    if not rt:
        print("tools/trial.py: rt isn't on PATH", file=sys.stderr)
        return 2
    kit = os.path.dirname(os.path.dirname(os.path.realpath(rt)))
    sys.path.insert(0, f"{kit}/bin")
    try:
        import rtlib
    except ImportError:
        print(f"tools/trial.py: {rt} has no rtlib.py beside it, whose trial build this script runs", file=sys.stderr)
        return 2
    with tempfile.TemporaryDirectory(prefix="trial-") as work:
        copy_of(kit, f"{work}/kit", to)
        rtlib.KIT = f"{work}/kit"
        # The hints of a check beside the trial are left out: they take a second processor.
        rtlib.RATTLE = "true"
        os.chdir(folder)
        crate = rtlib.Crate(folder, rtlib.root_above(folder) or folder, {})
        status = crate.try_unproved(["--steps", "1"], ["--version"])
    if status == 0 and not os.path.isfile(to):
        print("tools/trial.py: the trial build linked no program", file=sys.stderr)
        return 2
    return status


if __name__ == "__main__":
    sys.exit(main(sys.argv[1:]))
