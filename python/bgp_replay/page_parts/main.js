// What the reader does: the moment, the part of the time that is in view, the prefix, the peer, keys and print.
const queued = {};

function later(name, what) {
  if (queued[name]) return;
  queued[name] = requestAnimationFrame(() => {
    queued[name] = 0;
    what();
  });
}

// The moment moves: all panels go with it.
function moveTo(t, keeps) {
  S.t = clamp(Math.round(t), 0, D.length);
  if (!keeps && (S.t < S.view[0] || S.t > S.view[1])) {
    const half = (S.view[1] - S.view[0]) / 2;
    const middle = clamp(S.t, half, Math.max(half, D.length - half));
    S.view = [middle - half, middle + half];
    later("draw", draw);
  }
  later("moment", drawMoment);
}

// How many peers see each origin of the chosen prefix at the moment, those of most peers first; `isLong` adds its name,
// and whether it's valid.
function legend(isLong) {
  const found = [...S.counts].filter(([key]) => key !== "any").map(([key, steps]) => [key, countAt(steps, S.t)]);
  found.sort((a, b) => b[1] - a[1] || a[0] - b[0]);
  const words = (key, n) => [ORIGINS[key].name, n, ...(isLong ? [validityOf(S.prefix, key), ORIGINS[key].as] : [])];
  return found.slice(0, 8).map(([key, n]) => chip(key, words(key, n).filter((word) => word !== "").join(" ")));
}

function drawMoment() {
  const slider = $("slider");
  [slider.min, slider.max, slider.value] = [S.view[0], S.view[1], S.t];
  const place = lastAt(EVENT_TIMES, S.t) + 1;
  const [all, any] = [EVENTS.length.toLocaleString("en"), countAt(S.counts.get("any"), S.t)];
  slider.setAttribute("aria-valuetext", `${clockOf(S.t)} UTC, event ${place} of ${all}`);
  $("moment").textContent = clockOf(S.t, 0);
  $("micros").textContent = clockOf(S.t, 6).slice(8).replace(".000000", "");
  $("day").textContent = dayOf(S.t);
  $("place").textContent = place ? `event ${place.toLocaleString("en")} of ${all}` : "the start";
  const mark = (name, text) => html("span", {class: `chip ${name}`}, html("i"), text);
  $("legend").replaceChildren(...legend(), mark("gap", `no route ${D.total - any}`));
  $("stepsLegend").replaceChildren(...legend(true), mark("anyOrigin", `any ${any} of ${D.total}`));
  placeCursors();
  drawGraph();
  markEvent();
  scrollToMoment();
  drawEvents();
  tellAddress();
}

// The address gets the moment and the prefix once the moment stays: browsers refuse many changes of it.
let telling = 0;
function tellAddress() {
  clearTimeout(telling);
  telling = setTimeout(() => {
    const hash = `#t=${dayOf(S.t)}T${clockOf(S.t)}Z&p=${D.prefixes[S.prefix]}`;
    try {
      if (location.hash !== hash) history.replaceState(null, "", hash);
    } catch (error) {
      // a page within another one may have no address of its own
    }
  }, 250);
}

function draw() {
  S.width = width();
  document.documentElement.classList.toggle("one", D.prefixes.length < 2);
  document.documentElement.classList.toggle("flat", !IS_NESTED);
  S.counts = allCounts(S.prefix);
  document.querySelectorAll(".prefixName").forEach((node) => (node.textContent = D.prefixes[S.prefix]));
  $("prefix").value = String(S.prefix);
  drawStrip();
  if (D.prefixes.length > 1) drawPrefixes();
  drawRows();
  drawSteps();
  const isWhole = S.view[0] <= 0 && S.view[1] >= D.length;
  $("whole").disabled = isWhole;
  if ($("inView").checked || $("ofPrefix").value === "chosen") filterEvents();
  drawMoment();
}

// `id` names the panel that has the focus: it is drawn anew.
function choosePrefix(prefix, id) {
  const place = id ? [...$(id).querySelectorAll("button")].indexOf(document.activeElement) : -1;
  S.prefix = clamp(prefix, 0, D.prefixes.length - 1);
  S.open.clear();
  draw();
  if (place >= 0) $(id).querySelectorAll("button")[place].focus({preventScroll: true});
}

function choosePeer(peer) {
  S.peer = peer;
  $("ofPeer").hidden = peer === null;
  $("peerName").textContent = peer === null ? "" : PEERS[peer].name;
  for (const button of document.querySelectorAll("#rows button[data-peer]")) {
    const is = Number(button.dataset.peer) === peer;
    button.setAttribute("aria-pressed", String(is));
    button.parentNode.classList.toggle("chosen", is);
  }
  drawGraph();
}

// The next moment or the one before at which there is an event that the filter lets through; before all is the start.
function step(by) {
  const times = T.times;
  const next = by > 0 ? lastAt(times, S.t) + 1 : lastAt(times, S.t - 1);
  if (next < 0) moveTo(0);
  else if (next < times.length) moveTo(times[next]);
}

function zoom(from, to) {
  const least = Math.min(1e6, Math.max(1, D.length));
  let [a, b] = [Math.min(from, to), Math.max(from, to)];
  if (b - a < least) [a, b] = [(a + b - least) / 2, (a + b + least) / 2];
  const length = Math.min(b - a, Math.max(D.length, 1));
  a = clamp(a, 0, Math.max(D.length, 1) - length);
  S.view = [a, a + length];
  S.t = clamp(S.t, Math.ceil(S.view[0]), Math.floor(S.view[1]));
  later("draw", draw);
}

function zoomBy(factor) {
  const half = ((S.view[1] - S.view[0]) * factor) / 2;
  zoom(S.t - half, S.t + half);
}

let playing = 0;
function play() {
  const stop = () => {
    cancelAnimationFrame(playing);
    playing = 0;
    $("play").setAttribute("aria-pressed", "false");
    $("play").textContent = "▶ Play";
  };
  if (playing) return stop();
  if (S.t >= S.view[1] - 1 || S.t >= D.length) moveTo(S.view[0], true);
  let last = performance.now();
  const end = Math.min(S.view[1], D.length);
  const frame = (now) => {
    const t = S.t + ((now - last) / 25000) * (S.view[1] - S.view[0]);
    last = now;
    moveTo(Math.min(t, end), true);
    if (S.t >= end) return stop();
    playing = requestAnimationFrame(frame);
  };
  $("play").setAttribute("aria-pressed", "true");
  $("play").textContent = "❚❚ Pause";
  playing = requestAnimationFrame(frame);
}

// A click on a panel over time chooses the moment, and dragging chooses the part that is in view.
function watchPanel(panel) {
  let begun = null;
  const xIn = (event) => clamp(event.clientX - $("strip").getBoundingClientRect().left, 0, width());
  const mark = html("div", {class: "marking", hidden: true});
  panel.addEventListener("pointerdown", (event) => {
    const isLeft = event.clientX < $("strip").getBoundingClientRect().left;
    if (event.button || isLeft || event.target.closest("button, .label")) return;
    begun = {x: xIn(event), drags: false};
    panel.setPointerCapture(event.pointerId);
  });
  panel.addEventListener("pointermove", (event) => {
    tell(event);
    if (!begun) return;
    const x = xIn(event);
    if (Math.abs(x - begun.x) > 5) begun.drags = true;
    if (!begun.drags) return;
    panel.append(mark);
    mark.hidden = false;
    mark.style.left = `calc(var(--label) + ${Math.min(x, begun.x)}px)`;
    mark.style.width = `${Math.abs(x - begun.x)}px`;
  });
  panel.addEventListener("pointerup", (event) => {
    if (!begun) return;
    const w = width();
    if (begun.drags) zoom(tOf(begun.x, w), tOf(xIn(event), w));
    else {
      const row = event.target.closest("[data-prefix]");
      if (row && Number(row.dataset.prefix) !== S.prefix) choosePrefix(Number(row.dataset.prefix));
      moveTo(clamp(tOf(xIn(event), w), Math.ceil(S.view[0]), Math.floor(S.view[1])), true);
    }
    begun = null;
    mark.hidden = true;
  });
  panel.addEventListener("pointercancel", () => {
    begun = null;
    mark.hidden = true;
  });
  panel.addEventListener("pointerleave", () => ($("tip").hidden = true));
  panel.addEventListener("dblclick", () => zoom(0, D.length));
}

// The counts that a panel draws: of peers whose origins changed alike, of a part by longest match, or of a prefix.
function countsUnder(plot, prefix) {
  const {group, part} = plot.dataset;
  if (part !== undefined) return partShares(Number(part));
  return group ? once(`counts ${prefix} ${group}`, () => countsOfPeers(prefix, having(prefix).filter((peer) =>
    patternOf(prefix, peer).key === group))) : allCounts(prefix);
}

// What is under the pointer: the time, and of a peer's row its paths then.
function tell(event) {
  const tip = $("tip");
  const x = event.clientX - $("strip").getBoundingClientRect().left;
  const plot = document.elementFromPoint(event.clientX, event.clientY)?.closest("svg");
  if (x < 0 || x > width() || !plot) {
    tip.hidden = true;
    return;
  }
  const t = clamp(tOf(x, width()), 0, D.length);
  const lines = [html("b", {}, `${clockOf(t, 0)} UTC`)];
  if (plot.dataset.peer) {
    const {name, asn} = PEERS[plot.dataset.peer];
    const routes = routesAt(S.prefix, Number(plot.dataset.peer), t).slice(0, 6).map((route) => ROUTES[route]);
    lines.push(html("div", {}, `${name} ${asnName(asn)}`));
    lines.push(...routes.map((route) => html("div", {}, chip(route.origin), ` ${route.shown}`)));
    if (!routes.length) lines.push(html("div", {}, "no route"));
  } else {
    const prefix = plot.dataset.prefix ? Number(plot.dataset.prefix) : S.prefix;
    for (const [key, steps] of countsUnder(plot, prefix)) {
      const n = Math.round(countAt(steps, t) * 10) / 10;
      const {name, as} = ORIGINS[key] || {};
      if (name && n) lines.push(html("div", {}, chip(key, `${name} at ${plural(n, "peer")}`), ` ${as}`));
    }
  }
  tip.replaceChildren(...lines);
  tip.hidden = false;
  tip.style.left = `${Math.min(event.clientX + 14, document.documentElement.clientWidth - tip.offsetWidth - 8)}px`;
  const isLow = event.clientY + 18 + tip.offsetHeight > innerHeight;
  tip.style.top = `${isLow ? event.clientY - tip.offsetHeight - 10 : event.clientY + 18}px`;
}

const KEYS = {
  ArrowRight: () => step(1),
  ArrowLeft: () => step(-1),
  Home: () => moveTo(0),
  End: () => moveTo(D.length),
  PageDown: () => moveTo(S.t + (S.view[1] - S.view[0]) / 20),
  PageUp: () => moveTo(S.t - (S.view[1] - S.view[0]) / 20),
  " ": play,
  "+": () => zoomBy(0.5),
  "-": () => zoomBy(2),
  0: () => zoom(0, D.length),
  "[": () => choosePrefix(S.prefix - 1),
  "]": () => choosePrefix(S.prefix + 1),
  "/": () => $("filter").focus(),
  Escape: () => choosePeer(null),
};
const EVENT_KEYS = {ArrowDown: () => step(1), ArrowUp: () => step(-1)};

// The keys of what has the focus go before those of the page.
function keyFor(event) {
  const {id} = event.target;
  const ofGraph = id === "graph" && (G.scale > 1 || !event.key.startsWith("Arrow"));
  return (ofGraph && GRAPH_KEYS[event.key]) || (id === "events" && EVENT_KEYS[event.key]) || KEYS[event.key];
}

function press(event) {
  const at = event.target;
  const act = keyFor(event);
  if (event.ctrlKey || event.metaKey || event.altKey || !act) return;
  if (at.matches("input:not([type=range]):not([type=checkbox]), select, textarea")) {
    if (event.key === "Escape") at.blur();
    return;
  }
  if (event.key === " " && at.matches("button, summary, a, input")) return;
  if (at.id !== "slider" && /^(Page|Home|End)/.test(event.key)) return; // the page scrolls
  event.preventDefault();
  act();
}

// `#t=2026-05-14T12:31:00.5Z&p=192.0.2.0/25`: what links in the summary, and those that readers keep, say.
function readHash() {
  const words = new URLSearchParams(location.hash.slice(1));
  const found = /^(\d{4}-\d\d-\d\dT\d\d:\d\d:\d\d)(\.\d{1,6})?Z$/.exec(words.get("t") || "");
  const prefix = D.prefixes.indexOf(words.get("p"));
  if (prefix >= 0) S.prefix = prefix;
  const second = found ? Date.parse(`${found[1]}Z`) : NaN;
  if (Number.isNaN(second)) return false;
  S.t = clamp(second * 1000 - D.start + Math.round(Number(found[2] || 0) * 1e6), 0, D.length);
  if (S.t < S.view[0] || S.t > S.view[1]) S.view = [0, Math.max(D.length, 1)];
  return true;
}

function scheme(to) {
  document.documentElement.dataset.scheme = to;
  $("scheme").textContent = to === "dark" ? "Light" : "Dark";
}

function whenPrinting() {
  let before = "light";
  addEventListener("beforeprint", () => {
    before = document.documentElement.dataset.scheme;
    scheme("light");
    document.documentElement.classList.add("printing");
    draw();
  });
  addEventListener("afterprint", () => {
    document.documentElement.classList.remove("printing");
    scheme(before);
    draw();
  });
}

// Where the page begins, if its address doesn't say: when most peers see a new origin, or else the middle change.
function worthALook() {
  let best = {n: 0, t: 0};
  for (const [key, steps] of allCounts(S.prefix)) {
    if (key === "any" || !ORIGINS[key].isNew) continue;
    steps.n.forEach((n, i) => (best = n > best.n ? {n, t: steps.t[i]} : best));
  }
  const turns = EVENTS.filter((event) => event.turns && event.prefix === S.prefix);
  return best.n ? best.t : turns.length ? turns[Math.floor((turns.length - 1) / 2)].t : 0;
}

const on = (id, name, what) => $(id).addEventListener(name, what);

function watchBar() {
  on("slider", "input", () => moveTo(Number($("slider").value), true));
  on("prefix", "change", () => choosePrefix(Number($("prefix").value)));
  on("before", "click", () => step(-1));
  on("after", "click", () => step(1));
  on("play", "click", play);
  on("closer", "click", () => zoomBy(0.5));
  on("wider", "click", () => zoomBy(2));
  on("whole", "click", () => zoom(0, D.length));
  on("scheme", "click", () => scheme(document.documentElement.dataset.scheme === "dark" ? "light" : "dark"));
}

function watchChoices() {
  const choose = (id, what) => on(id, "input", () => {
    what($(id));
    drawRows();
  });
  choose("grouped", (box) => (S.grouped = box.checked));
  choose("sort", (list) => (S.sort = list.value));
  for (const id of ["compare", "gone"]) on(id, "input", drawGraph);
  on("least", "input", () => {
    S.least = Math.max(0, Math.floor(Number($("least").value)) || 0);
    drawGraph();
  });
  on("edgesTable", "toggle", drawGraph);
  on("graphCloser", "click", () => zoomGraph(1.5));
  on("graphWider", "click", () => zoomGraph(1 / 1.5));
  on("graphWhole", "click", () => zoomGraph(0));
  on("noPeer", "click", () => choosePeer(null));
  on("peerEvents", "click", () => {
    $("filter").value = PEERS[S.peer].name;
    filterEvents();
    $("filter").scrollIntoView({block: "center"});
  });
  for (const id of ["filter", "what", "ofPrefix", "turns", "inView"]) on(id, "input", filterEvents);
  on("save", "click", saveEvents);
  on("events", "scroll", () => later("events", drawEvents));
  on("eventRows", "click", (event) => {
    const chosen = event.target.closest("tr[data-place]");
    if (chosen) moveTo(EVENTS[T.rows[chosen.dataset.place]].t);
  });
}

function begin() {
  const dark = matchMedia("(prefers-color-scheme: dark)");
  scheme(dark.matches ? "dark" : "light");
  dark.addEventListener("change", () => scheme(dark.matches ? "dark" : "light"));
  const prefixes = () => D.prefixes.map((name, i) => html("option", {value: i}, name));
  for (const id of ["prefix", "ofPrefix"]) $(id).append(...prefixes());
  $("what").append(...D.events.whatNames.map((what) => html("option", {value: what}, WHAT[what] || what)));
  watchBar();
  watchChoices();
  document.querySelectorAll(".plots").forEach(watchPanel);
  watchGraph();
  document.addEventListener("keydown", press);
  new ResizeObserver(() => {
    if (width() !== S.width) later("draw", draw);
  }).observe($("strip"));
  addEventListener("hashchange", () => readHash() && draw());
  whenPrinting();
  if (!readHash()) S.t = worthALook();
  document.documentElement.classList.remove("plain");
  draw();
  filterEvents();
}

begin();
