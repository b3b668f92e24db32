"""The page in a headless chromium: Debian's chromium, chromium-driver and python3-selenium, skipped where they aren't."""

import json
import pathlib
import re
import time

import bgp_replay
import pandas
import pytest

pytest.importorskip("jinja2", reason="python3-jinja2 isn't installed")
webdriver = pytest.importorskip("selenium.webdriver", reason="python3-selenium isn't installed")
from bgp_replay.pages import page_of
from page_samples import EVIL, PREFIX, history_frame, hostile_page, page_text
from selenium.common.exceptions import WebDriverException
from selenium.webdriver.chrome.service import Service
from selenium.webdriver.common.action_chains import ActionChains
from selenium.webdriver.common.by import By
from selenium.webdriver.common.keys import Keys

ACCESSIBLE = (pathlib.Path(__file__).parent / "accessible.js").read_text()
PATIENCE = 300  # seconds, of a machine on which much else runs


def until(true):
    """Waits for something that the browser does by and by."""
    end = time.monotonic() + PATIENCE
    while not true():
        assert time.monotonic() < end
        time.sleep(0.05)


@pytest.fixture(scope="module")
def browser():
    options = webdriver.ChromeOptions()
    for word in ("--headless", "--no-sandbox", "--disable-gpu", "--disable-dev-shm-usage", "--window-size=1400,1000",
                 "--hide-scrollbars"):
        options.add_argument(word)
    options.set_capability("goog:loggingPrefs", {"browser": "ALL"})
    try:
        driver = webdriver.Chrome(service=Service("/usr/bin/chromedriver"), options=options)
    except (WebDriverException, OSError) as error:
        pytest.skip(f"chromium and chromium-driver aren't installed: {str(error).splitlines()[0]}")
    driver.set_script_timeout(PATIENCE)
    driver.set_page_load_timeout(PATIENCE)
    yield driver
    driver.quit()


class Shown:
    """A page in the browser. After each step nothing may have been logged: no error, and nothing that the policy refused."""

    def __init__(self, driver, text, path):
        path.write_text(text)
        self.driver, self.path = driver, path
        self.open()

    def open(self, place=""):
        self.driver.get("about:blank")
        self.driver.get(f"file://{self.path}{place}")
        self.settle()

    def settle(self):
        self.js("return new Promise((done) => requestAnimationFrame(() => requestAnimationFrame(() => setTimeout(done, 0))))")
        assert self.driver.get_log("browser") == []

    def js(self, script):
        return self.driver.execute_script(script)

    def moment(self):
        return self.js("return Number(document.getElementById('slider').value)")

    def text(self, name):
        return self.js(f"return document.getElementById('{name}').textContent")

    def set(self, name, value, event="input"):
        self.js(f"const node = document.getElementById('{name}'); node.{'checked' if isinstance(value, bool) else 'value'} = "
                f"{json.dumps(value)}; node.dispatchEvent(new Event('{event}', {{bubbles: true}}))")
        self.settle()

    def click(self, name):
        self.js(f"document.getElementById('{name}').click()")
        self.settle()

    def press(self, *keys):

        ActionChains(self.driver).send_keys(*keys).perform()
        self.settle()

    def rows(self):
        return self.js("return [...document.querySelectorAll('#eventRows tr[data-place]')].map((row) => [...row.cells].map((cell) => "
                       "cell.textContent.trim()))")

    def legend(self):
        return dict(text.rsplit(" ", 1) for text in self.js("return [...document.querySelectorAll('#legend .chip')].map((chip) => "
                                                            "chip.textContent)"))

    def edges(self):
        return set(self.js("return [...document.querySelectorAll('#graph .edge title')].map((title) => title.textContent)"))


@pytest.fixture(scope="module")
def sample_page(sample):
    return page_text(sample, PREFIX)


@pytest.fixture(scope="module")
def incident_page(incident_files):
    return bgp_replay.page(incident_files, "192.0.2.0/24+")


@pytest.fixture
def small(browser, sample_page, tmp_path):
    return Shown(browser, sample_page, tmp_path / "small.html")


def test_slider_moves_all_panels(small):
    """What is there at three moments, as docs/USAGE.md has it, of nine peers, and where the cursors stand."""
    assert small.text("rowsNote") == "2 other peers of 9 never had 17.150.214.0/24."
    for second, wanted, path in [
            (0, {"AS4200001457": "5", "AS374813": "3", "AS35220": "3", "no route": "2"}, "AS200104 → AS12956"),
            (300, {"AS4200001457": "6", "AS374813": "2", "AS35220": "3", "no route": "2"}, "AS200104 → AS174"),
            (700, {"AS4200001457": "5", "AS374813": "2", "AS35220": "3", "no route": "3"}, "AS200104 → AS174")]:
        small.set("slider", second * 1_000_000)
        assert small.legend() == wanted
        assert any(edge.startswith(path) for edge in small.edges())
        assert any(edge.startswith("AS65107") for edge in small.edges()) == (second < 644)
        left = small.js("const line = document.querySelector('#rows .cursor').getBoundingClientRect(), strip = document"
                        ".getElementById('strip').getBoundingClientRect(); return (line.left + 1 - strip.left) / strip.width")
        assert abs(left - second / 745) < 0.003
        assert small.js("return document.querySelectorAll('.cursor:not([hidden])').length") == 5
    small.set("slider", 644_000_000)
    assert small.text("moment") == "07:12:00" and small.js("return document.querySelector('#eventRows .at').cells[1].textContent") \
        == "lost by session"
    assert {edge for edge in small.edges() if edge.endswith(", new")} == {"AS200104 → AS174: 1 peer to AS4200001457, new"}


def test_keys_and_buttons(small):

    small.press(Keys.ARROW_RIGHT)
    assert small.text("moment") == "07:12:00"
    small.press(Keys.ARROW_RIGHT, "]")
    assert small.text("moment") == "07:13:10" and small.legend() == {"AS64511": "1", "no route": "8"}
    small.press(Keys.ARROW_LEFT, Keys.ARROW_LEFT, Keys.ARROW_LEFT)
    assert small.text("moment") == "07:01:16" and small.text("place") == "the start"
    small.click("after")
    small.press("+", "+")
    assert not small.js("return document.getElementById('whole').disabled")
    small.press("0")
    assert small.js("return document.getElementById('whole').disabled")
    small.press("/")
    small.press("lost", " ", "65107", Keys.ESCAPE)
    assert small.text("shown") == "1 of 6 events" and small.js("return document.activeElement.id") != "filter"


def test_play(small):
    """The moment moves by itself, until it's told to stay, and from the end it begins anew."""
    small.set("slider", 745e6)
    assert small.moment() == 745e6
    small.click("play")
    pressed = "return document.getElementById('play').getAttribute('aria-pressed')"
    until(lambda: 0 < small.moment() < 745e6 or small.js(pressed) == "false")  # or it has come to the end already
    if small.js(pressed) == "true":
        small.click("play")
    first = small.moment()
    assert small.js(pressed) == "false" and first > 0
    time.sleep(0.3)
    assert small.moment() == first


def test_filters(small):
    assert len(small.rows()) == 6 and small.rows()[0][:4] == ["07:05:00", "announced, changed", "17.150.214.0/24", "AS200104 192.0.2.104"]
    small.set("filter", "withdrawn 196618")
    assert [row[0] for row in small.rows()] == ["07:13:41"] and small.text("shown") == "1 of 6 events"
    small.set("filter", "")
    small.set("what", "new")
    assert [row[0] for row in small.rows()] == ["07:13:10", "07:13:12"]
    small.set("what", "")
    small.set("ofPrefix", "0")
    assert [row[0] for row in small.rows()] == ["07:05:00", "07:12:00"]
    small.set("ofPrefix", "")
    small.set("filter", "nothing has this")
    assert small.rows() == [] and small.text("shown") == "0 of 6 events"
    small.set("filter", "")
    small.js("document.querySelector('#eventRows tr[data-place=\"3\"]').click()")
    small.settle()
    assert small.text("moment") == "07:13:12"


def test_saved_events(small, tmp_path):
    """The rows that the filter lets through, as a file that pandas reads."""
    small.driver.execute_cdp_cmd("Page.setDownloadBehavior", {"behavior": "allow", "downloadPath": str(tmp_path / "saved")})
    small.set("filter", "64511 new")
    small.click("save")
    until(lambda: (tmp_path / "saved/events.csv").exists())
    found = pandas.read_csv(tmp_path / "saved/events.csv", parse_dates=["time"])
    assert found["time"].astype(str).tolist() == ["2026-11-22 07:13:10+00:00", "2026-11-22 07:13:12+00:00"]
    assert found.columns[8:].tolist() == ["next_hop", "origin", "local_pref"]
    assert found.iloc[:, 1:8].values.tolist() == [
        [200104, "192.0.2.104", "new", "update", "17.150.214.128/25", 0, "200104 174 64511"],
        [196618, "192.0.2.4", "new", "update", "17.150.214.128/25", 0, "196618 174 64511"]]


def test_links_and_address(small):
    """The times of the summary are links to the moment, and the address has the moment and the prefix."""
    small.js("[...document.querySelectorAll('#summary a')].find((link) => link.textContent === '07:13:12').click()")
    small.settle()
    assert small.text("moment") == "07:13:12" and small.legend() == {"AS64511": "2", "no route": "7"}
    until(lambda: small.js("return location.hash") == "#t=2026-11-22T07:13:12Z&p=17.150.214.128/25")
    small.open("#t=2026-11-22T07:12:00.5Z&p=17.150.214.0/24")
    assert (small.text("moment"), small.text("micros")) == ("07:12:00", ".5" + "0" * 5)
    for place in ("#t=2026-99-99T00:00:00Z", "#t=<script>&p=<img>", "#t=2020-01-01T00:00:00Z", "#%"):
        small.open(place)
        assert small.text("moment") in ("07:05:00", "07:01:16")


def test_panels_by_pointer(small):
    """A click chooses the moment, dragging zooms, a double click shows all; a peer stands out in the graph."""

    plot = small.driver.find_element(By.CSS_SELECTOR, "#steps .track svg")
    small.js("document.getElementById('steps').scrollIntoView({block: 'center'})")
    wide = plot.size["width"]
    ActionChains(small.driver).move_to_element_with_offset(plot, int(wide * 0.4), 0).click().perform()
    small.settle()
    assert small.text("moment").startswith("07:12:") and not small.js("return document.getElementById('tip').hidden")
    ActionChains(small.driver).move_to_element_with_offset(plot, 0, 0).click_and_hold().move_by_offset(int(wide * 0.4), 0).release().perform()
    small.settle()
    low, high = small.js("const slider = document.getElementById('slider'); return [Number(slider.min), Number(slider.max)]")
    assert abs(low / 745e6 - 0.5) < 0.02 and abs(high / 745e6 - 0.9) < 0.02
    ActionChains(small.driver).move_to_element(small.driver.find_element(By.CSS_SELECTOR, "#steps .track svg")).double_click().perform()
    small.settle()
    assert small.js("return document.getElementById('whole').disabled")
    small.js("document.querySelector('#rows button[data-peer]').click()")
    small.settle()
    assert small.text("peerName") == "AS200104 192.0.2.104" and small.js("return document.querySelectorAll('#graph .edge.chosen').length") == 3
    small.click("peerEvents")
    assert small.text("shown") == "3 of 6 events"


def test_many_peers(browser, incident_page, incident_files, tmp_path):
    """300 peers and 5,000 events: rows by pattern, a table of which some rows are in the document, and not slow."""
    shown = Shown(browser, incident_page, tmp_path / "large.html")
    groups = shown.js("return [...document.querySelectorAll('#rows .group b')].map((node) => node.textContent)")
    assert sum(int(re.search(r"\d+", text)[0]) for text in groups) == 286 and len(groups) < 12
    assert 0 < len(shown.rows()) < 60 and shown.js("return document.querySelectorAll('*').length") < 6000
    shown.js("document.querySelector('#rows .group').click()")
    assert shown.js("return document.querySelectorAll('#rows .row.peer').length") == int(re.search(r"\d+", groups[0])[0])
    shown.set("grouped", False)
    assert shown.js("return document.querySelectorAll('#rows .row.peer').length") == 286
    shown.set("slider", 1350e6)  # 12:22:30
    found = shown.legend()
    seen = bgp_replay.seen(incident_files, prefixes="192.0.2.0/24", until="2026-05-14T12:22:29Z")
    assert {f"AS{row.origin_asn}": str(row.peers) for row in seen.itertuples()} == {name: n for name, n in found.items() if name != "no route"}
    shown.js("document.getElementById('events').scrollTop = 1e6")
    shown.settle()
    assert shown.rows()[-1][0] == shown.js("return document.querySelector('#eventRows').lastChild.cells[0].textContent.trim()")


WIDE = "10.0.0.0/8"
ODD = {
    "a RIB dump alone": [(0, "new", "rib", 1, "a", WIDE, 0, "1 2")],
    "empty and missing paths": [(0, "new", "rib", 1, "a", WIDE, 0, ""), (1, "changed", "update", 1, "a", WIDE, 0, None),
                                (2, "void", "update", 2, "b", WIDE, 0, None), (3, "same", "update", 1, "a", WIDE, 0, "")],
    "sets, confederations, loops": [(0, "new", "rib", 1, "a", WIDE, 0, "(65001 65002) 3 {4,5}"), (1, "new", "rib", 2, "b", WIDE, 0, "2 3 2 3 6 6"),
                                    (2, "changed", "update", 1, "a", WIDE, 0, "1 [7,8] 6"), (3, "new", "update", 3, "c", WIDE, 9, "3")],
    "IPv6": [(0, "new", "rib", 1, "2001:db8::1", "2001:db8::/32", 0, "1 2"), (9, "new", "update", 1, "2001:db8::1", "2001:db8:1::/48", 0, "1 3")],
    "days": [(0, "new", "rib", 1, "a", WIDE, 0, "1 2"), (9 * 86400, "changed", "update", 1, "a", WIDE, 0, "1 3"),
             (400 * 86400, "gone", "update", 1, "a", WIDE, 0, "1 3")],
    "all in one microsecond": [(0, "new", "update", 1, "a", WIDE, 0, "1 2"), (0, "changed", "update", 1, "a", WIDE, 0, "1 3")],
    "many origins": [(number, "new" if number == 0 else "changed", "update", 1, "a", WIDE, 0, f"1 {number + 2}") for number in range(40)],
    "many paths of a peer": [(number // 9, "new", "update", 1, "a", WIDE, number + 1, f"1 {number % 5 + 2}") for number in range(40)],
}


@pytest.mark.parametrize("name", ODD)
def test_odd_pages(browser, tmp_path, name):
    """What is rare is drawn without an error, whatever the reader does."""

    shown = Shown(browser, page_of(history_frame(*ODD[name])), tmp_path / "odd.html")
    for keys in ([Keys.ARROW_RIGHT] * 3, ["+"] * 9, [Keys.ARROW_RIGHT, Keys.ARROW_LEFT], ["-", "0", "]", "["], [Keys.ESCAPE]):
        shown.press(*keys)
    shown.set("grouped", not shown.js("return document.getElementById('grouped').checked"))
    shown.set("compare", "event")
    shown.js("document.getElementById('edgesTable').open = true; document.querySelector('#rows button').click()")
    shown.set("slider", shown.js("return Number(document.getElementById('slider').max)"))
    assert "NaN" not in shown.js("return document.querySelector('main').innerHTML") and "undefined" not in shown.js("return document.querySelector('main').innerText")
    assert shown.text("shown").startswith(f"{sum(row[2] != 'rib' for row in ODD[name])} of ")


def test_schemes_and_sizes(browser, incident_page, tmp_path):
    """Dark as the reader's system says; nothing is wider than a narrow window; printing draws for paper and back."""
    browser.execute_cdp_cmd("Emulation.setEmulatedMedia", {"features": [{"name": "prefers-color-scheme", "value": "dark"}]})
    shown = Shown(browser, incident_page, tmp_path / "sizes.html")
    assert shown.js("return getComputedStyle(document.body).backgroundColor") == "rgb(18, 21, 26)"
    shown.click("scheme")
    assert shown.js("return getComputedStyle(document.body).backgroundColor") == "rgb(245, 246, 248)"
    try:
        for wide in (1800, 1000, 640, 400):
            browser.execute_cdp_cmd("Emulation.setDeviceMetricsOverride",
                                    {"width": wide, "height": 900, "deviceScaleFactor": 1, "mobile": False})
            until(lambda: shown.js("const right = (node) => node.getBoundingClientRect().right; return Math.abs(right(document"
                                   ".querySelector('#steps .track svg')) - right(document.querySelector('#strip svg'))) < 2 && "
                                   "document.getElementById('strip').clientWidth === document.querySelector('#strip svg').clientWidth"))
            assert shown.js("return document.documentElement.scrollWidth") <= wide
        shown.js("dispatchEvent(new Event('beforeprint'))")
        assert shown.js("return document.querySelector('#steps .track svg').getAttribute('width')") == "760"
        assert "of 4,943 events" in shown.text("cut") or "of " in shown.text("cut")
        shown.js("dispatchEvent(new Event('afterprint'))")
        assert shown.js("return document.querySelector('#steps .track svg').getAttribute('width')") != "760"
    finally:
        browser.execute_cdp_cmd("Emulation.clearDeviceMetricsOverride", {})
        browser.execute_cdp_cmd("Emulation.setEmulatedMedia", {"features": []})


def test_hostile_texts_in_the_browser(browser, tmp_path):
    """No script of a text runs, no element of it is made, and the page shows it as it is."""
    shown = Shown(browser, hostile_page(), tmp_path / "hostile.html")
    shown.set("slider", 9e6)
    shown.click("after")
    shown.js("document.querySelector('#rows button').click(); document.getElementById('edgesTable').open = true")
    shown.settle()
    assert shown.js("return document.querySelectorAll('img, script:not([id]) ~ script').length") == 0
    assert shown.js("return document.title") == " ".join(EVIL.split()) or EVIL[:8] in shown.js("return document.title")
    assert EVIL in shown.js("return document.querySelector('#rows button').textContent")
    assert any("onerror" in cell for row in shown.rows() for cell in row)
    shown.driver.execute_script("const node = document.createElement('script'); node.textContent = 'window.ran = 1'; document.body.append(node)")
    assert shown.js("return window.ran === undefined")  # the policy refuses it
    assert "Content Security Policy" in str(shown.driver.get_log("browser"))


def other_scheme(browser, name):
    browser.execute_cdp_cmd("Emulation.setEmulatedMedia", {"features": [{"name": "prefers-color-scheme", "value": name}]})


@pytest.fixture(scope="module")
def judged_page(incident_files, tmp_path_factory):
    """A page with all that a page may have: names, VRPs, communities and blackholes."""
    vrps = tmp_path_factory.mktemp("vrps") / "vrps.csv"
    history = bgp_replay.history(incident_files, prefixes="192.0.2.0/24+", addresses="short")
    is_odd = history["peer_asn"].mod(2) == 1
    history["communities"] = pandas.Categorical(is_odd.map({True: "64500:1", False: "64500:1 65535:666"}))
    vrps.write_text("ASN,IP Prefix,Max Length,Trust Anchor\nAS64500,192.0.2.0/24,24,test\n")
    return page_of(history, names={64500: "Example Networks", 64666: "Other, ZZ"}, vrps=vrps)


@pytest.fixture
def judged(browser, judged_page, tmp_path):
    return Shown(browser, judged_page, tmp_path / "judged.html")


@pytest.mark.parametrize("scheme", ["light", "dark"])
def test_accessible(browser, judged, scheme):
    """In both schemes, with all that can be opened open."""
    try:
        other_scheme(browser, scheme)
        judged.open("#t=2026-05-14T12:50:00Z&p=192.0.2.0/25")
        assert judged.js("return document.documentElement.dataset.scheme") == scheme
        assert judged.js(ACCESSIBLE) == []
        judged.js("document.querySelectorAll('details').forEach((node) => (node.open = true)); "
                  "document.querySelector('#rows .group').click()")
        judged.settle()
        judged.js("document.querySelector('#rows button[data-peer]').click()")
        judged.settle()
        assert judged.js(ACCESSIBLE) == []
        judged.set("compare", "event")
        judged.js("[...document.querySelectorAll('#summary a')].filter((link) => link.hash.endsWith('.128/25')).sort((a, b) => "
                  "(a.hash < b.hash ? -1 : 1)).pop().click()")  # the last withdrawal
        judged.settle()
        assert judged.js("return document.querySelectorAll('#graph .faint').length") > 0
        assert judged.js(ACCESSIBLE) == []
    finally:
        browser.execute_cdp_cmd("Emulation.setEmulatedMedia", {"features": []})


def test_order_of_focus(small):
    """Tab goes through all controls in the order in which they stand, each can be seen, and has a frame then."""
    small.js("window.places = []; const nodes = [...document.querySelectorAll('*')]; document.addEventListener('focusin', (event) => "
             "{ const box = event.target.getBoundingClientRect(); window.places.push([nodes.indexOf(event.target), "
             "getComputedStyle(event.target).outlineStyle, box.width * box.height > 0]); })")
    wanted = small.js("return [...document.querySelectorAll('a[href], button, select, input, summary, [tabindex]')].filter((node) => "
                      "!node.disabled && node.checkVisibility({checkVisibilityCSS: true})).length")
    small.press(*[Keys.TAB] * wanted)
    places = small.js("return window.places")
    numbers = [number for number, _, _ in places]
    assert len(places) == wanted > 30 and numbers == sorted(set(numbers)) and numbers[0] >= 0
    assert all(outline == "solid" and is_seen for _, outline, is_seen in places)


def test_parts_by_longest_match(browser, incident_page, incident_files, tmp_path):
    """Where each half goes, as `match` has it of an address in each, and in the window under the pointer."""
    shown = Shown(browser, incident_page, tmp_path / "parts.html")
    assert shown.js("return [...document.querySelectorAll('#parts .label b')].map((node) => node.textContent)") == [
        "192.0.2.0/25", "192.0.2.128/25"]
    shown.js("document.getElementById('parts').scrollIntoView({block: 'center'})")
    plot = shown.driver.find_elements(By.CSS_SELECTOR, "#parts .track svg")[1]
    for second, until in [(1680, "12:28:00"), (2100, "12:35:00")]:  # without and with the halves; nothing changes about then
        routes = bgp_replay.match(incident_files, "192.0.2.129", until=f"2026-05-14T{until}Z")
        wanted = ("AS" + routes["as_path"].astype(str).str.split().str[-1]).value_counts().to_dict()
        place = second / 5689 - 0.5  # the whole is 12:00:00 to 13:34:49
        ActionChains(browser).move_to_element_with_offset(plot, round(plot.rect["width"] * place), 0).perform()
        shown.settle()
        told = shown.js("return [...document.querySelectorAll('#tip .chip')].map((chip) => chip.textContent)")
        told = {text.split()[0]: int(text.split()[2]) for text in told}
        assert told == wanted and len(told) == 2
    shown.js("document.querySelectorAll('#parts button')[1].click()")
    shown.settle()
    assert shown.js("return document.querySelector('#rowsTitle').textContent").endswith("192.0.2.128/25")


def test_names_validity_and_attributes(judged):
    """They stand in the legend, in the events and in the graph, and the filter finds them."""
    judged.open("#t=2026-05-14T12:50:00Z&p=192.0.2.0/25")
    legend = judged.js("return [...document.querySelectorAll('#stepsLegend .chip')].map((chip) => chip.textContent)")
    assert sorted(re.sub(r" \d+ ", " ", text) for text in legend if "any" not in text) == [
        "AS64500 invalid Example Networks", "AS64666 invalid Other, ZZ"]
    judged.set("filter", "invalid other blackhole new")
    rows = judged.rows()
    assert rows and all(row[1] == "announced, new" and row[6].startswith("blackhole") and "64500:1 65535:666" in row[6]
                        and row[4].startswith("AS64666") and row[4].endswith("invalid") for row in rows)
    judged.set("filter", "valid 64501:1")
    assert judged.rows() == []
    assert any(title.startswith("AS64500 Example Networks") for title in
               judged.js("return [...document.querySelectorAll('#graph title')].map((title) => title.textContent)"))


def test_zoom_of_the_graph(small):
    """By keys where the graph has the focus, by buttons, by dragging and by the wheel; the whole is the end of it."""
    def part():
        return list(map(float, small.js("return document.querySelector('#graph svg').getAttribute('viewBox')").split()))

    whole, moment = part(), small.text("moment")
    small.js("document.getElementById('graph').focus()")
    small.press("+", "+")
    assert part()[2] == pytest.approx(whole[2] / 2.25, abs=0.2) and part()[0] > 0
    small.press(*[Keys.ARROW_LEFT] * 9, *[Keys.ARROW_UP] * 9)
    assert part()[:2] == [0, 0] and small.text("moment") == moment
    small.press(Keys.ARROW_RIGHT)
    right = part()[0]
    assert right > 0
    graph = small.driver.find_element(By.ID, "graph")
    small.js("document.getElementById('graph').scrollIntoView({block: 'center'})")
    ActionChains(small.driver).move_to_element(graph).click_and_hold().move_by_offset(-40, 0).release().perform()
    small.settle()
    assert part()[0] > right
    small.set("slider", 300e6)
    assert part()[0] > right  # the part stays when the moment moves
    small.press("0")
    assert part() == whole and small.js("return document.getElementById('graphWhole').disabled")
    small.js("const box = document.querySelector('#graph svg').getBoundingClientRect(); document.getElementById('graph').dispatchEvent(new "
             "WheelEvent('wheel', {deltaY: -250, ctrlKey: true, clientX: box.right, clientY: box.top, bubbles: true, cancelable: true}))")
    assert part()[2] == pytest.approx(whole[2] / 2.718, abs=0.5) and part()[0] + part()[2] == pytest.approx(whole[2], abs=0.3)
    small.click("graphWider")
    small.click("graphWhole")
    small.click("graphCloser")
    assert part()[2] == pytest.approx(whole[2] / 1.5, abs=0.2)
    small.press("]")
    assert small.js("return document.getElementById('graphWhole').disabled")


def test_two_fingers_in_the_graph(small):
    """Two pointers that go apart zoom."""
    small.js("""const graph = document.getElementById('graph'); graph.setPointerCapture = () => {};
      const box = graph.querySelector('svg').getBoundingClientRect();
      const say = (name, id, x) => graph.dispatchEvent(new PointerEvent(name, {pointerId: id, button: name === 'pointerdown' ? 0 : -1,
        clientX: box.left + x * box.width, clientY: box.top + box.height / 2, bubbles: true}));
      say('pointerdown', 11, 0.4); say('pointerdown', 12, 0.6); say('pointermove', 12, 0.8); say('pointerup', 11, 0.4); say('pointerup', 12, 0.8);""")
    size = small.js("const svg = document.querySelector('#graph svg'); return Number(svg.getAttribute('viewBox').split(' ')[2]) / "
                    "Number(svg.getAttribute('width'))")
    assert size == pytest.approx(0.5, abs=0.02)


def test_events_by_keys(small):
    """Up and down go through the events where the table has the focus."""
    small.js("document.getElementById('events').focus()")
    small.press(Keys.ARROW_DOWN)
    assert small.text("moment") == "07:12:00"
    small.press(Keys.ARROW_DOWN, Keys.ARROW_UP, Keys.ARROW_UP)
    assert small.text("moment") == "07:05:00"
