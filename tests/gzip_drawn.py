#!/usr/bin/env python3
"""Tries files that zlib packs, whole and damaged, beside what zlib itself reads of them.

    tests/gzip_drawn.py PROGRAM [FILES] [FIRST]     draws FIRST (1) to FIRST + FILES - 1 (2000 files)

Each draw takes records whose bodies are parts of the sample dumps or drawn bytes, packs them in one to three members with
a level, a window, a strategy and flushes that are drawn, and leaves the file whole, cuts it, or changes a bit or a byte
of it. The program reads it by `faults`, and so it does what zlib gives of it:

- whole files have the report, the status and the first line of what they unpack to;
- where zlib finds the data cut short, or bytes behind a member that begin none, the program reads what is before, and
  says so;
- where zlib refuses the data, so does the program, with status 3, if it comes so far: a record that is too long, as
  changed data may have, ends a file.

Needs python3 alone. A draw that fails is printed with its number. The last line is `N passed, M failed`.
"""
import concurrent.futures
import os
import random
import subprocess
import sys
import tempfile
import zlib

TOP = os.path.dirname(os.path.dirname(os.path.abspath(__file__)))


def sample():
    return b"".join(open(os.path.join(TOP, "examples", name), "rb").read() for name in ("sample.mrt", "updates.mrt"))


def drawn_text(draw, dump):
    kind = draw.random()
    if kind < 0.6:  # a part of a dump
        start = draw.randrange(len(dump))
        return dump[start:start + draw.randrange(1, 4000)] if draw.random() < 0.5 else dump[:draw.randrange(len(dump))]
    if kind < 0.8:
        return bytes(draw.choice(b"\0\1\x0d\xff") for _ in range(draw.randrange(3000)))
    if kind < 0.9:
        return draw.randbytes(draw.randrange(70000))
    return draw.randbytes(draw.randrange(1, 9)) * draw.randrange(1, 20000)


def records(draw, dump):
    """Records of a type that is set aside, or those of the dumps themselves."""
    if draw.random() < 0.2:
        return dump[:draw.randrange(len(dump))]
    bodies = [drawn_text(draw, dump) for _ in range(draw.randrange(1, 4))]
    return b"".join(bytes(4) + b"\xff\xff\0\0" + len(body).to_bytes(4, "big") + body for body in bodies)


def packed(draw, text):
    """One member: flushes between its parts, and fields of the header that are drawn."""
    strategy = draw.choice([zlib.Z_DEFAULT_STRATEGY, zlib.Z_FIXED, zlib.Z_HUFFMAN_ONLY, zlib.Z_RLE, zlib.Z_FILTERED])
    packer = zlib.compressobj(draw.randrange(10), zlib.DEFLATED, -draw.randrange(9, 16), draw.randrange(1, 10), strategy)
    data, at = b"", 0
    while at < len(text):
        size = draw.randrange(1, len(text) - at + 1)
        data += packer.compress(text[at:at + size])
        at += size
        if draw.random() < 0.3:
            data += packer.flush(draw.choice([zlib.Z_SYNC_FLUSH, zlib.Z_FULL_FLUSH]))
    data += packer.flush()
    flags, fields = 0, b""
    if draw.random() < 0.2:
        flags |= 4
        extra = draw.randbytes(draw.randrange(40))
        fields += len(extra).to_bytes(2, "little") + extra
    for bit in 8, 16:
        if draw.random() < 0.2:
            flags |= bit
            fields += bytes(draw.randrange(1, 256) for _ in range(draw.randrange(20))) + b"\0"
    head = b"\x1f\x8b\x08" + bytes([flags]) + draw.randbytes(6) + fields
    if draw.random() < 0.2:
        head = head[:3] + bytes([flags | 2]) + head[4:]
        head += (zlib.crc32(head) & 0xFFFF).to_bytes(2, "little")
    return head + data + zlib.crc32(text).to_bytes(4, "little") + (len(text) % 2**32).to_bytes(4, "little")


def read(data):
    """What zlib gives of the members of a file, and how it ends: "whole", "cut", "others" or "refused"."""
    text = b""
    while data:
        if len(data) >= 2 and data[:2] != b"\x1f\x8b" or data[:1] != b"\x1f":
            return text, "whole" if not data.strip(b"\0") else "others"
        reader = zlib.decompressobj(31)
        try:
            for at in range(0, len(data), 64):
                text += reader.decompress(data[at:at + 64])
                if reader.eof:
                    break
        except zlib.error:
            return text, "refused"
        if not reader.eof:
            return text, "cut"
        data = reader.unused_data + data[at + 64:]
    return text, "whole"


def run(program, path):
    made = subprocess.run([program, "faults", "--quiet", "--workers", "1", path], capture_output=True)
    return made.returncode, made.stdout, made.stderr.decode(errors="replace")


def tried(program, number, dump):
    draw = random.Random(number)
    data = b"".join(packed(draw, records(draw, dump)) for _ in range(draw.choice([1, 1, 1, 2, 3])))
    change = draw.choice(["none", "cut", "bit", "byte", "zeros", "tail"])
    if change == "cut":
        data = data[:draw.randrange(18, len(data) + 1)]
    elif change in ("bit", "byte"):
        at = draw.randrange(10, len(data))
        data = data[:at] + bytes([data[at] ^ (1 << draw.randrange(8) if change == "bit" else draw.randrange(1, 256))]) + data[at + 1:]
    elif change == "zeros":
        data += bytes(draw.randrange(600))
    elif change == "tail":
        data += draw.randbytes(draw.randrange(1, 9))
    text, end = read(data)
    with tempfile.TemporaryDirectory() as folder:
        paths = [os.path.join(folder, name) for name in ("packed", "plain")]
        for path, content in zip(paths, (data, text)):
            with open(path, "wb") as file:
                file.write(content)
        status, lines, said = run(program, paths[0])
        plain_status, plain_lines, plain_said = run(program, paths[1])
    if b"BodyTooLong" in plain_lines:
        return "" if (status, lines) == (1, plain_lines) else f"{change}: {end}, status {status} behind a long record: {said!r}"
    if end == "refused":
        is_refused = status == 3 and "gzip data" in said and not lines
        return "" if is_refused or b"BodyTooLong" in lines else f"{change}: refused by zlib, status {status}: {said!r}"
    if lines != plain_lines:
        return f"{change}: {end}, another report"
    if end == "whole":
        return "" if (status, said) == (plain_status, plain_said) else f"{change}: whole, status {status}: {said!r}"
    return "" if status == 1 and "gzip data" in said else f"{change}: {end}, status {status}: {said!r}"


def main():
    program = os.path.realpath(sys.argv[1])
    count, first = (int(word) for word in (sys.argv[2:] + ["2000", "1"][len(sys.argv) - 2:])[:2])
    dump, failed = sample(), 0
    with concurrent.futures.ThreadPoolExecutor(os.cpu_count()) as pool:
        numbers = range(first, first + count)
        for number, why in zip(numbers, pool.map(lambda number: tried(program, number, dump), numbers)):
            if why:
                failed += 1
                print(f"draw {number}: {why}")
    print(f"{count - failed} passed, {failed} failed")
    sys.exit(failed > 0 or count == 0)


main()
