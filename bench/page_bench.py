"""What bench/page.sh measures: the page of drawn incidents, in Python and in a browser."""

import pathlib
import resource
import statistics
import sys
import tempfile
import time

import drawn_incident

STEPS = 40
# Milliseconds from a change of the moment to the picture: the slider's event, one frame, and its layout.
SLIDE = """
const done = arguments[arguments.length - 1], slider = document.getElementById("slider"), times = [];
const low = Number(slider.min), high = Number(slider.max);
const step = (left) => {
  if (!left) return done(times);
  slider.value = low + ((high - low) * left) / %d;
  const begun = performance.now();
  slider.dispatchEvent(new Event("input"));
  requestAnimationFrame(() => setTimeout(() => {
    document.body.getBoundingClientRect();
    times.push(performance.now() - begun);
    step(left - 1);
  }, 0));
};
step(%d);
""" % (STEPS, STEPS)
FILTER = """
const box = document.getElementById("filter"), begun = performance.now();
box.value = "64666 withdrawn";
box.dispatchEvent(new Event("input"));
document.body.getBoundingClientRect();
return performance.now() - begun;
"""


def used(who):
    spent = resource.getrusage(who)
    return spent.ru_utime + spent.ru_stime


def opened():
    """A browser, or None."""
    try:
        from selenium import webdriver
        from selenium.webdriver.chrome.service import Service

        options = webdriver.ChromeOptions()
        for word in ("--headless", "--no-sandbox", "--disable-gpu", "--disable-dev-shm-usage", "--window-size=1400,1000"):
            options.add_argument(word)
        return webdriver.Chrome(service=Service("/usr/bin/chromedriver"), options=options)
    except Exception as error:  # selenium isn't there, or has no browser
        print(f"not tried: a browser: {str(error).splitlines()[0]}")
        return None


def measure(browser, folder, peers, events):
    import bgp_replay

    files = [folder / name for name in ("rib.mrt", "updates.mrt")]
    for file, dump in zip(files, drawn_incident.incident(peers, events)):
        file.write_bytes(dump)
    own, child, wall = used(resource.RUSAGE_SELF), used(resource.RUSAGE_CHILDREN), time.perf_counter()
    text = bgp_replay.page(files, "192.0.2.0/24+", workers=1)
    wall = time.perf_counter() - wall
    own, child = used(resource.RUSAGE_SELF) - own, used(resource.RUSAGE_CHILDREN) - child
    print(f"{peers} peers, {events} events: {len(text.encode()) / 1e3:.0f} kB, Python {own:.2f} s, the program {child:.2f} s "
          f"(processor; wall {wall:.2f} s)")
    if browser:
        page = folder / "page.html"
        page.write_text(text)
        begun = time.perf_counter()
        browser.get(f"file://{page}")
        browser.execute_script("return document.body.getBoundingClientRect().height")
        loaded = time.perf_counter() - begun
        steps = browser.execute_async_script(SLIDE)
        print(f"  chromium: loaded in {loaded:.2f} s, a step of the slider {statistics.median(steps):.0f} ms (at most "
              f"{max(steps):.0f}), a filter {browser.execute_script(FILTER):.0f} ms")


def main():
    sizes = list(map(int, sys.argv[1:]))
    browser = opened()
    if browser:
        browser.set_script_timeout(600)
    import bgp_replay  # so that no size has the time of imports, of pandas above all
    import jinja2

    with tempfile.TemporaryDirectory() as folder:
        for peers, events in zip(sizes[::2], sizes[1::2]):
            measure(browser, pathlib.Path(folder), peers, events)
    if browser:
        browser.quit()


if __name__ == "__main__":
    main()
