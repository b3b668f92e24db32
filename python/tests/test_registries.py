"""Names of ASes, and the validity of origins by RFC 6811, of files as rpki-client and Routinator write them."""

import pytest
from bgp_replay.registries import Vrps, names_of

RPKI_CLIENT = """ASN,IP Prefix,Max Length,Trust Anchor,Expires
AS64500,192.0.2.0/24,24,ripe,1795400000
AS64501,192.0.2.0/23,24,ripe,1795400000
AS0,198.51.100.0/24,24,apnic,1795400000
AS64502,2001:db8::/32,48,arin,1795400000
"""
ROUTINATOR = """ASN,IP Prefix,Max Length,Trust Anchor
AS64500,192.0.2.0/24,24,ripe
"""
EXTENDED = """URI,ASN,IP Prefix,Max Length,Not Before,Not After
rsync://rpki.example/repo/a.roa,AS64502,2001:0DB8:0::/32,48,2026-11-01T00:00:00Z,2026-12-01T00:00:00Z
"""
PREFIXES = ["192.0.2.0/24", "192.0.2.0/25", "192.0.3.0/24", "198.51.100.0/24", "203.0.113.0/24", "2001:db8::/32", "2001:db8:1::/48",
            "2001:db8:1::/49", "0.0.0.0/0"]


def vrps(text, tmp_path, prefixes=PREFIXES):
    (tmp_path / "vrps.csv").write_text(text)
    return Vrps(tmp_path / "vrps.csv", prefixes)


def test_validity(tmp_path):
    """RFC 6811 (2): valid where one covers, has the AS, and allows the length; invalid where one covers; else not found."""
    known = vrps(RPKI_CLIENT, tmp_path)
    assert known.count == 4 and known.name == "vrps.csv"
    for prefix, origin, wanted in [
        ("192.0.2.0/24", "AS64500", "valid"), ("192.0.2.0/24", "AS64501", "valid"), ("192.0.2.0/24", "AS64666", "invalid"),
        ("192.0.2.0/25", "AS64500", "invalid"), ("192.0.2.0/25", "AS64501", "invalid"), ("192.0.3.0/24", "AS64501", "valid"),
        ("192.0.3.0/24", "AS64500", "invalid"), ("198.51.100.0/24", "AS64500", "invalid"), ("198.51.100.0/24", "AS0", "invalid"),
        ("203.0.113.0/24", "AS64500", "not found"), ("2001:db8::/32", "AS64502", "valid"), ("2001:db8:1::/48", "AS64502", "valid"),
        ("2001:db8:1::/49", "AS64502", "invalid"), ("2001:db8::/32", "AS64500", "invalid"), ("0.0.0.0/0", "AS64501", "not found"),
    ]:
        assert known.validity(prefix, origin) == wanted, (prefix, origin)


def test_other_forms(tmp_path):
    assert vrps(ROUTINATOR, tmp_path).validity("192.0.2.0/24", "AS64500") == "valid"
    assert vrps(EXTENDED, tmp_path).validity("2001:db8:1::/48", "AS64502") == "valid"
    assert vrps(ROUTINATOR.replace("\n", "\r\n"), tmp_path).validity("192.0.2.0/24", "AS64501") == "invalid"


@pytest.mark.parametrize("text, words", [
    ("", "first line"), ("a,b,c\n", "first line"), (ROUTINATOR + "AS1,192.0.2.0,24,x\n", "line 3 "), (ROUTINATOR + "AS1\n", "line 3 "),
    (ROUTINATOR + "ASx,192.0.2.0/24,24,x\n", "line 3 "), (ROUTINATOR + "AS1,192.0.2/24,24,x\n", "line 3 "),
    (ROUTINATOR + "AS1,192.0.2.0/24,,x\n", "line 3 "),
])
def test_what_is_no_vrp(text, words, tmp_path):
    with pytest.raises(ValueError, match=words):
        vrps(text, tmp_path)
    with pytest.raises(FileNotFoundError):
        Vrps(tmp_path / "none", PREFIXES)


def test_names(tmp_path):
    (tmp_path / "names").write_text("# a comment\n64500 Example Networks, ZZ\nAS64501\tOther  \n\n")
    assert names_of(tmp_path / "names") == {64500: "Example Networks, ZZ", 64501: "Other"}
    assert names_of({"64500": "a", 64501: 7}) == {64500: "a", 64501: "7"} and names_of(None) == {}
    (tmp_path / "names").write_text("64500 Example\nExample 64501\n")
    with pytest.raises(ValueError, match="line 2 isn't an AS number, a blank and a name"):
        names_of(tmp_path / "names")
