"""The examples of docs/PYTHON.md, on the dumps of examples/, packed and named as RouteViews names them."""

import bz2
import doctest

from conftest import TOP


def test_examples(sample, tmp_path, monkeypatch):
    for folder, kind, source in (("RIBS", "rib", sample[0]), ("UPDATES", "updates", sample[1])):
        (tmp_path / "mirror" / folder).mkdir(parents=True)
        with open(source, "rb") as file:
            (tmp_path / f"mirror/{folder}/{kind}.20261122.0700.bz2").write_bytes(bz2.compress(file.read()))
    monkeypatch.chdir(tmp_path)
    flags = doctest.NORMALIZE_WHITESPACE | doctest.REPORT_NDIFF
    found = doctest.testfile(str(TOP / "docs/PYTHON.md"), module_relative=False, optionflags=flags)
    assert found.attempted > 15 and not found.failed
