"""Pages and frames of `history` that tests share, and what stands in a page."""

import html
import json
import re

import bgp_replay
import pandas

PREFIX = "17.150.214.0/24+"
EVIL = "</script><script>alert(1)</script><img src=x onerror=alert(2)>'\"&\u2028{{7*7}}"


def page_text(*words, **options):
    return bgp_replay.page(*words, **{"damaged": "ignore"} | options)


def data_of(text):
    return json.loads(re.search(r'<script type="application/json" id="data">(.*?)</script>', text, re.DOTALL)[1])


def words_of(text):
    """What stands in the page as text, without its tags."""
    body = re.sub(r"<(script|style)\b.*?</\1>", "", text, flags=re.DOTALL)
    return " ".join(html.unescape(re.sub(r"<[^>]*>", " ", body)).split())


def history_frame(*rows):
    """Rows by hand; `timestamp` counts seconds from noon."""
    columns = ["timestamp", "what", "by", "peer_asn", "peer_ip", "prefix", "path_id", "as_path"]
    found = pandas.DataFrame(rows, columns=columns)
    return found.assign(timestamp=pandas.Timestamp("2026-05-14T12:00:00Z") + pandas.to_timedelta(found["timestamp"], unit="s"))


def hostile_page():
    """A page whose every text is hostile: title, asked prefixes, files, peers, collectors, paths, names, attributes."""
    from bgp_replay.pages import Source

    one = history_frame((0, "new", "rib", 1, EVIL, "10.0.0.0/8", 0, f"1 {EVIL}"), (9, "changed", EVIL, 1, EVIL, "10.0.0.0/8", 0, f"{EVIL} 7"))
    return bgp_replay.page_of(one.assign(collector=EVIL, communities=EVIL), title=EVIL, names={1: EVIL, 7: EVIL},
                              source=Source([EVIL], [EVIL], damaged=1, failed=[EVIL]))
