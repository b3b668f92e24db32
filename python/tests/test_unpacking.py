"""Packed files: whether the program or this package unpacks them, they are replayed as what they hold."""

import os
import resource
import subprocess
import sys

import pytest
from conftest import FIRST, PACK, PYTHON, cut, frame_of, lines, pack, text_of

import bgp_replay
from bgp_replay import run, unpacking

KIND = {"gz": "gzip", "bz2": "bzip2", "xz": "xz", "zst": "zstd"}
OWN = ["gz", "bz2"]  # which the program unpacks


@pytest.mark.parametrize("kind", PACK)
def test_packed_files(kind, drawn, tmp_path):
    files = drawn["rrc01"]
    packed = [pack(path, kind, tmp_path) for path in files]
    for some in (packed, [files[0], packed[1]], [packed[0], files[1]]):
        assert lines(frame_of("churn", some)) == text_of("churn", files)
    assert lines(frame_of("faults", packed), packed) == text_of("faults", files)
    found = bgp_replay.summary(packed)
    assert [file.name for file in found.files] == list(map(str, packed)) and found.damaged == 2
    for file, name, plain in zip(found.files, packed, files):
        assert file.bytes == plain.stat().st_size
        assert (file.packed, file.packed_bytes) == ((KIND[kind], name.stat().st_size) if kind in OWN else (None, None))


@pytest.mark.parametrize("kind", PACK)
def test_several_streams_in_one_file(kind, drawn, tmp_path):
    text = drawn["rrc00"][0].read_bytes()
    (tmp_path / "a").write_bytes(PACK[kind](text[:1000]) + PACK[kind](text[1000:]))
    assert lines(frame_of("churn", tmp_path / "a")) == text_of("churn", [drawn["rrc00"][0]])


def broken(packed):
    """Four wrong bytes: of gzip the checksum of what was unpacked, else in the middle."""
    content = packed.read_bytes()
    at = len(content) - 8 if packed.suffix == ".gz" else len(content) // 2
    packed.write_bytes(content[:at] + b"XXXX" + content[at + 4 :])
    return packed


@pytest.mark.parametrize("harm", [cut, broken])
@pytest.mark.parametrize("kind", sorted(set(PACK) - set(OWN)))
def test_damaged_packing(kind, harm, drawn, tmp_path):
    """What was unpacked may well be whole records: a report on them must not pass for one on the file."""
    packed = harm(pack(drawn["rrc00"][1], kind, tmp_path))
    files = [drawn["rrc00"][0], packed.rename(tmp_path / f"-.{kind}")]
    with pytest.raises(bgp_replay.UnpackError, match=rf"^unpacking failed: file 2\n  .*\.{kind}: ."):
        bgp_replay.visibility(files, damaged="ignore")


@pytest.mark.parametrize("kind, harm, words", [
    ("gz", cut, "the data ends early"), ("bz2", cut, "the data ends early"),
    ("bz2", broken, "a block's checksum disagrees|a block can't be unpacked"),
])
def test_damage_that_ends_a_packed_file(kind, harm, words, drawn, tmp_path):
    """The program goes on to the next file. No report lists that, so it's said even where damage is to be ignored."""
    packed = harm(pack(drawn["rrc00"][1], kind, tmp_path))
    files = [drawn["rrc00"][0], packed, drawn["rrc02"][1]]
    said = rf"{packed}: {KIND[kind]} data, offset \d+: ({words})"
    for damaged in ("warn", "ignore"):
        with pytest.warns(bgp_replay.DamagedWarning, match=said) as warned:
            frame = frame_of("churn", files, damaged=damaged)
        damage = [one for one in warned if one.category is bgp_replay.DamagedWarning]  # beside it a note may be told
        assert len(damage) == 1 and all(one.filename.endswith("conftest.py") for one in warned)
    assert lines(frame) == text_of("churn", files) and " 198.51.2.8|" in lines(frame)  # a peer of the third file
    with pytest.raises(bgp_replay.DamagedError, match=said):
        frame_of("churn", files, damaged="raise")
    replay = bgp_replay.Replay("churn", files)
    with pytest.warns(bgp_replay.DamagedWarning):
        assert len(replay.frame()) == len(frame)
    assert len(replay.cut) == 1 and replay.summary.files[1].packed == KIND[kind]


def test_gzip_whose_checksum_disagrees(drawn, tmp_path):
    """Bytes were replayed before they could be checked: there is no report."""
    packed = broken(pack(drawn["rrc00"][1], "gz", tmp_path))
    with pytest.raises(bgp_replay.ReplayError, match=rf"^read failed: file 2\n  {packed}: gzip data, offset \d+: ") as error:
        bgp_replay.visibility([drawn["rrc00"][0], packed], damaged="ignore")
    assert error.value.status == 3


@pytest.mark.parametrize("kind", PACK)
def test_who_unpacks(kind, drawn, tmp_path):
    """What the program reads itself is given to it by name, the rest by a pipe."""
    packed = [pack(path, kind, tmp_path) for path in drawn["rrc00"]]
    assert run.reads(KIND[kind]) == (kind in OWN)
    replay = bgp_replay.Replay("churn", packed)
    replay.frame()
    assert replay.child.args[-2:] == replay.unpacking.names
    assert [name.startswith("/dev/fd/") for name in replay.unpacking.names] == 2 * [kind not in OWN]


BIG = (unpacking.AHEAD + 4) * unpacking.CHUNK  # bytes: more than a thread holds


@pytest.mark.parametrize("count", [1, 7])
def test_files_that_are_left_unread(count, drawn, tmp_path):
    """A record of 4 GB, fault 3, ends a file: nobody reads what is unpacked of it, and the files after it are read."""
    header = FIRST.to_bytes(4, "big") + b"\0\x63\0\1\xff\xff\xff\xff"
    bad, good = tmp_path / "bad", drawn["rrc00"][1]
    bad.write_bytes(header + bytes(BIG))
    packed = [pack(bad, "xz", tmp_path)] * count + [pack(good, "xz", tmp_path)] * 2
    replay = bgp_replay.Replay("churn", packed, damaged="ignore", unpackers=2)
    assert lines(replay.frame()) == text_of("churn", [good] * 2)
    assert replay.summary.damaged == count


def test_memory_is_bounded(stand_in, tmp_path):
    """A slow program: each of the two threads holds AHEAD chunks and one in its hand, and a pipe."""
    path = tmp_path / "big"
    path.write_bytes(bytes(BIG))
    packed = [pack(path, "xz", tmp_path)] * 3
    stand_in('while [ "$1" != -- ]; do shift; done; shift; sleep 2; cat "$@" | wc -c >&2; exit 3')
    replay = bgp_replay.Replay("churn", packed, unpackers=2)
    with pytest.raises(bgp_replay.ReplayError, match=str(3 * BIG)):
        replay.frame()
    assert unpacking.CHUNK < replay.unpacking.peak <= 2 * (unpacking.AHEAD + 1) * unpacking.CHUNK


MANY = """if True:
    import resource, sys, warnings
    soft, hard = map(int, sys.argv[2:4])
    resource.setrlimit(resource.RLIMIT_NOFILE, (soft, hard))
    sys.path.insert(0, sys.argv[1])
    import bgp_replay
    files = [line for line in sys.stdin.read().split("\\n") if line]
    print(len(files), bgp_replay.summary(files).records)
"""


def many(names, soft, hard):
    words = [sys.executable, "-c", MANY, str(PYTHON), str(soft), str(hard)]
    return subprocess.run(words, input="\n".join(map(str, names)), capture_output=True, text=True, timeout=120)


def test_three_thousand_files(sample, tmp_path):
    """Under a limit of 512 open files, but for those that Python unpacks, which need a hard limit of 3 for each."""
    names = [tmp_path / f"{number:04}" for number in range(3000)]
    for name in names:
        name.symlink_to(tmp_path / "file")
    for kind in ("plain", *OWN, "xz"):
        with open(sample[1], "rb") as file:
            (tmp_path / "file").write_bytes(PACK.get(kind, bytes)(file.read()))
        if kind != "xz":
            done = many(names, 512, 512)
            assert done.stdout.split() == ["3000", "33000"], done.stderr
    hard = resource.getrlimit(resource.RLIMIT_NOFILE)[1]
    if hard == resource.RLIM_INFINITY or hard >= 9300:
        done = many(names, 512, hard)
        assert done.stdout.split() == ["3000", "33000"], done.stderr
    done = many(names, 512, 4000)
    assert done.stdout == "" and "OpenError: open failed: file " in done.stderr and "Too many open files" in done.stderr


def test_nothing_stays_open(drawn, tmp_path):
    packed = [pack(drawn["rrc00"][0], "xz", tmp_path), pack(drawn["rrc00"][1], "bz2", tmp_path)]
    frame_of("churn", packed)
    before = os.listdir("/proc/self/fd")
    for _ in range(3):
        frame_of("churn", packed)
        with pytest.raises(bgp_replay.OpenError, match="^open failed: file 3\n  nofile: No such"):
            frame_of("churn", [*packed, "nofile"])
        next(iter(bgp_replay.Replay("churn", packed, rows=1)))
    assert len(os.listdir("/proc/self/fd")) == len(before)
