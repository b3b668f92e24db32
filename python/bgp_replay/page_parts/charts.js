// The panels over time: the strip above the slider, a row for each prefix and each part by longest match, steps, and a
// row for each peer or pattern.
const S = {
  t: 0, view: [0, Math.max(D.length, 1)], prefix: D.main, peer: null, grouped: null, sort: "change", open: new Set(),
  counts: null, least: 0, width: 0,
};
const $ = (id) => document.getElementById(id);
const SVG = "http://www.w3.org/2000/svg";

function fill(node, attributes, children) {
  for (const [name, value] of Object.entries(attributes || {})) {
    if (name.startsWith("on")) node.addEventListener(name.slice(2), value);
    else if (value !== null && value !== undefined) node.setAttribute(name, value);
  }
  node.append(...children.filter((child) => child !== null && child !== undefined));
  return node;
}
const html = (tag, attributes, ...children) => fill(document.createElement(tag), attributes, children);
const svg = (tag, attributes, ...children) => fill(document.createElementNS(SVG, tag), attributes, children);

const clamp = (value, low, high) => Math.min(high, Math.max(low, value));
const PAPER = 960; // CSS pixels: A4 and Letter, landscape
const isPrinting = () => document.documentElement.classList.contains("printing");
const width = () => (isPrinting() ? PAPER - 200 : $("strip").clientWidth || 800);
const xOf = (t, w) => ((t - S.view[0]) / (S.view[1] - S.view[0])) * w;
const tOf = (x, w) => Math.round(S.view[0] + (x / w) * (S.view[1] - S.view[0]));
const round = (x) => Math.round(x * 10) / 10;

const titleOf = ({name, as}) => (as ? `${name}: ${as}` : null);
const chip = (origin, text) => html("span", {class: `chip ${ORIGINS[origin].color}`, title: titleOf(ORIGINS[origin])},
  html("i"), text === undefined ? ORIGINS[origin].name : text);
const chips = (origins) => (origins.length ? origins.map((origin) => chip(origin)) : [html("span", {class: "chip gap"},
  html("i"), "no route")]);

const SECOND = 1e6;
const STEPS = [
  0.001, 0.01, 0.1, 0.2, 0.5, 1, 2, 5, 10, 15, 30, 60, 120, 300, 600, 900, 1800, 3600, 7200, 10800, 21600, 43200,
  86400, 172800, 604800, 1209600, 2592000, 7776000, 31536000,
].map((seconds) => seconds * SECOND);

// Whole times of the view in UTC, and what is written there: [t, text].
function ticks(w) {
  const [from, to] = S.view;
  const most = Math.max(2, Math.floor(w / 95));
  const step = STEPS.find((one) => (to - from) / one <= most) || STEPS[STEPS.length - 1];
  const found = [];
  let day = "";
  for (let at = Math.ceil((D.start + from) / step) * step; at <= D.start + to; at += step) {
    const t = at - D.start;
    let text = step < SECOND ? clockOf(t, step < 1e5 ? 3 : 1) : clockOf(t, 0);
    if (step >= 60 * SECOND) text = text.slice(0, 5);
    if (step >= 86400 * SECOND) text = "";
    if (dayOf(t) !== day) text = `${dateOf(t).getUTCDate()} ${MONTHS[dateOf(t).getUTCMonth()]} ${text}`.trim();
    day = dayOf(t);
    found.push([t, text]);
  }
  return found;
}

function grid(w, h) {
  return svg("g", {class: "grid"}, ...ticks(w).map(([t]) => svg("path", {d: `M${round(xOf(t, w))} 0v${h}`})));
}

function axis(w) {
  const shown = svg("svg", {class: "axis", width: w, height: 18, "aria-hidden": "true"});
  let end = -Infinity; // of the last text
  for (const [t, text] of ticks(w)) {
    const x = xOf(t, w);
    const half = text.length * 3.3;
    if (Math.max(x - half, 0) < end) continue;
    end = Math.max(x, half) + half + 6;
    const anchor = x < half ? "start" : x > w - half ? "end" : "middle";
    shown.append(svg("text", {x: round(x), y: 13, "text-anchor": anchor}, text));
  }
  return shown;
}

// How many events there are in each three pixels; those in which a peer's origins change stand out.
function drawStrip() {
  const w = width();
  const h = 34;
  const bins = Math.max(1, Math.floor(w / 3));
  const all = new Array(bins).fill(0);
  const turns = new Array(bins).fill(0);
  for (const event of EVENTS) {
    const bin = Math.floor((xOf(event.t, w) / w) * bins);
    if (bin < 0 || bin > bins || (bin === bins && event.t > S.view[1])) continue;
    const at = Math.min(bin, bins - 1);
    all[at]++;
    if (event.turns) turns[at]++;
  }
  const highest = Math.max(1, ...all);
  const bar = (counts) => counts.map((n, i) => {
    const y = n ? Math.max(2, Math.sqrt(n / highest) * (h - 2)) : 0;
    return n ? `M${round((i * w) / bins)} ${h}v${round(-y)}h${round(w / bins - 0.6)}v${round(y)}z` : "";
  }).join("");
  const words = `${plural(EVENTS.length, "event")} over time`;
  const shown = svg("svg", {width: w, height: h, role: "img", "aria-label": words}, grid(w, h),
    svg("path", {class: "events", d: bar(all)}), svg("path", {class: "turns", d: bar(turns)}));
  $("strip").replaceChildren(shown, axis(w), html("div", {class: "cursor"}));
}

// Areas of counts upon one another, of at most `total`, as a path for each origin. Steps within half a pixel are one.
function areas(counts, total, w, h) {
  const keys = [...counts.keys()].filter((key) => key !== "any").sort((a, b) => a - b);
  const times = [...new Set(keys.flatMap((key) => counts.get(key).t))].sort((a, b) => a - b);
  const points = [];
  for (const t of times) {
    if (t > S.view[1]) break;
    const x = Math.max(0, round(xOf(t, w)));
    const ns = keys.map((key) => countAt(counts.get(key), t));
    const last = points[points.length - 1];
    if (last && x - last.x < 0.5) last.ns = ns;
    else points.push({x, ns});
  }
  const found = svg("g");
  keys.forEach((key, k) => {
    const sum = (point, upTo) => point.ns.slice(0, upTo).reduce((a, b) => a + b, 0);
    const edge = (point, upTo) => round(h - (Math.min(total, sum(point, upTo)) / total) * h);
    let d = "";
    points.forEach((point, i) => {
      const end = i + 1 < points.length ? points[i + 1].x : round(xOf(D.length, w));
      const top = edge(point, k + 1);
      const bottom = edge(point, k);
      if (point.ns[k] > 1e-6) d += `M${point.x} ${bottom}V${top}H${Math.max(end, point.x + 1)}V${bottom}z`;
    });
    found.append(...painted(key, d));
  });
  return found;
}

// A path in the colour of an origin, and hatched if the origin is a new one.
function painted(origin, d) {
  if (!d) return [];
  const {color, isNew} = ORIGINS[origin];
  const hatch = isNew ? [svg("path", {class: "hatch", d})] : [];
  return [svg("path", {class: `area ${color}`, d}), ...hatch];
}

const row = (label, plot, is, kind) => html("div", {class: `row ${kind || ""} ${is ? "chosen" : ""}`}, label,
  html("div", {class: "track"}, plot));

// Rows of stacked areas, each with a button that chooses a prefix for the panels below.
function drawShares(id, rows) {
  const w = width();
  const h = rows.length > 12 ? 20 : 30;
  const mostOf = (counts) => Math.round(Math.max(...counts.get("any").n));
  const highest = Math.max(1, ...rows.map(({counts}) => mostOf(counts)));
  const drawn = rows.map(({name, prefix, counts, part}) => {
    const is = part === undefined && prefix === S.prefix;
    const words = `at most ${plural(mostOf(counts), "peer")}`;
    const attributes = {class: "label", title: name, onclick: () => choosePrefix(prefix, id)};
    if (part === undefined) attributes["aria-pressed"] = is;
    const label = html("button", attributes, html("b", {}, name), html("small", {}, words));
    const plot = svg("svg", {width: w, height: h, "data-prefix": prefix, "data-part": part, role: "img",
      "aria-label": `${name}: ${words}`}, grid(w, h), areas(counts, highest, w, h));
    return row(label, plot, is);
  });
  $(id).classList.toggle("tight", h < 30);
  $(id).replaceChildren(...drawn, html("div", {class: "cursor"}));
}

// How many peers have each prefix, by origin; and where each part of them goes by longest match.
function drawPrefixes() {
  drawShares("prefixes", D.prefixes.map((name, prefix) => ({name, prefix, counts: allShares(prefix)})));
  if (!IS_NESTED) return;
  drawShares("parts", D.parts.map(([name, [prefix]], part) => ({name, prefix, counts: partShares(part), part})));
}

const LEVELS = [1, 2, 3, 4, 5, 10, 20, 25, 50, 100, 200, 250, 500, 1000, 2500, 5000];

// Steps of how many peers see each origin of the chosen prefix.
function drawSteps() {
  const w = width();
  const h = 170;
  const counts = S.counts;
  const most = Math.max(1, ...[...counts.values()].map((steps) => Math.max(...steps.n)));
  const nice = LEVELS.find((step) => most / step <= 5) || 10000;
  const top = Math.ceil((most * 1.04) / nice) * nice;
  const yOf = (n) => h - 4 - (n / top) * (h - 22);
  const shown = svg("svg", {width: w, height: h, role: "img",
    "aria-label": `How many peers see each origin of ${D.prefixes[S.prefix]} over time`}, grid(w, h));
  const levels = svg("g", {class: "levels", "aria-hidden": "true"});
  for (let n = 0; n <= top; n += nice) {
    shown.append(svg("path", {class: "level", d: `M0 ${round(yOf(n))}h${w}`}));
    levels.append(svg("text", {x: 3, y: round(yOf(n)) - 3}, n ? String(n) : ""));
  }
  for (const [key, steps] of counts) {
    const from = Math.max(0, lastAt(steps.t, S.view[0]));
    let d = `M0 ${round(yOf(steps.n[from]))}`;
    for (let i = from + 1; i < steps.t.length && steps.t[i] <= S.view[1]; i++) {
      d += `H${round(xOf(steps.t[i], w))}V${round(yOf(steps.n[i]))}`;
    }
    const end = Math.min(w, xOf(D.length, w));
    shown.append(svg("path", {class: `step ${key === "any" ? "any" : ORIGINS[key].color}`, d: `${d}H${round(end)}`}));
  }
  shown.append(levels);
  $("steps").replaceChildren(row(html("div", {class: "label"}, html("span", {id: "stepsLegend"})), shown),
    row(html("div", {class: "label"}), axis(w)), html("div", {class: "cursor"}));
}

// What a peer's origins were one after the other; of many changes the first and the last, and how many there were.
function patternOf(prefix, peer) {
  const spans = spansOf(prefix, peer);
  const states = spans.map((span) => span.origins);
  if (spans[0].from > BEFORE) states.unshift([]);
  const change = spans[0].from > BEFORE ? spans[0].from : spans.length > 1 ? spans[1].from : Infinity;
  const many = states.length > 6;
  const shown = many ? [states[0], null, states[states.length - 1]] : states;
  const key = shown.map((state) => (state ? state.join("+") || "-" : "*")).join(">");
  return {key, shown, change, last: spans[spans.length - 1].from, peer};
}

const namesOf = (origins) => origins.map((origin) => ORIGINS[origin].name).join(" and ") || "no route";
const patternWords = (shown) => shown.map((state) => (state ? namesOf(state) : "many changes")).join(", then ");

function patternLabel(shown) {
  const parts = shown.map((state) => (state ? html("span", {}, ...chips(state)) : html("span", {}, "many changes")));
  const then = () => html("span", {class: "then"}, "→ ");
  const whole = parts.map((part, i) => html("span", {class: "part"}, i ? then() : null, part));
  return html("span", {class: "pattern"}, ...whole);
}

function peerRow(prefix, pattern, w) {
  const h = 13;
  const {peer} = pattern;
  const track = TRACKS[prefix][peer];
  const byOrigin = new Map();
  for (const {from, to, origins} of spansOf(prefix, peer)) {
    if (to < S.view[0] || from > S.view[1]) continue;
    const x = Math.max(0, round(xOf(from, w)));
    const end = Math.max(x + 1, Math.min(w, round(xOf(to, w))));
    origins.forEach((origin, i) => {
      const band = h / origins.length;
      const d = `M${x} ${round(i * band)}H${end}v${round(band)}H${x}z`;
      byOrigin.set(origin, (byOrigin.get(origin) || "") + d);
    });
  }
  const notches = track.t.filter((t, i) => i && t >= S.view[0] && t <= S.view[1] && track.routes[i].length)
    .map((t) => `M${round(xOf(t, w))} 0v${h}`);
  const words = `${PEERS[peer].name}: ${patternWords(pattern.shown)}`;
  const plot = svg("svg", {width: w, height: h, "data-peer": peer, role: "img", "aria-label": words});
  for (const [origin, d] of byOrigin) plot.append(...painted(origin, d));
  plot.append(svg("path", {class: "notch", d: [...new Set(notches)].join("")}));
  const is = peer === S.peer;
  const choose = () => choosePeer(peer === S.peer ? null : peer);
  const {name} = PEERS[peer];
  const attributes = {class: "label", title: name, "aria-pressed": is, "data-peer": peer, onclick: choose};
  const label = html("button", attributes, name);
  return row(label, plot, is, "peer");
}

function groupRow(prefix, group, w) {
  const total = group.peers.length;
  const h = Math.min(90, 22 + 5 * Math.sqrt(total));
  const isOpen = S.open.has(group.key);
  const toggle = () => {
    if (!S.open.delete(group.key)) S.open.add(group.key);
    drawRows();
    document.querySelector(`[data-group="${group.key}"]`).focus();
  };
  const attributes = {class: "label group", "aria-expanded": isOpen, "data-group": group.key, onclick: toggle};
  const label = html("button", attributes,
    html("b", {}, `${isOpen ? "▾" : "▸"} ${plural(total, "peer")}`), patternLabel(group.shown));
  const words = `${plural(total, "peer")}: ${patternWords(group.shown)}`;
  const picture = {width: w, height: h, "data-group": group.key, role: "img", "aria-label": words};
  const plot = svg("svg", picture, grid(w, h),
    areas(countsOfPeers(prefix, group.peers.map((one) => one.peer), true), total, w, h));
  const rows = [row(label, plot, false, "grouped")];
  return isOpen ? [...rows, ...group.peers.map((one) => peerRow(prefix, one, w))] : rows;
}

const byText = (a, b) => (a < b ? -1 : a > b ? 1 : 0);
const SORTS = {
  change: (a, b) => a.change - b.change || byText(a.key, b.key) || PEERS[a.peer].asn - PEERS[b.peer].asn,
  last: (a, b) => a.last - b.last || SORTS.change(a, b),
  number: (a, b) => PEERS[a.peer].asn - PEERS[b.peer].asn || a.peer - b.peer,
};

// Who sees which origin of the chosen prefix: a row for each peer, or for all peers whose origins changed alike.
function drawRows() {
  const w = width();
  const {prefix} = S;
  const patterns = having(prefix).map((peer) => patternOf(prefix, peer)).sort(SORTS[S.sort]);
  const grouped = S.grouped === null ? patterns.length > 40 : S.grouped;
  let rows;
  if (grouped) {
    const groups = new Map();
    for (const pattern of patterns) {
      const {key, shown, change} = pattern;
      if (!groups.has(key)) groups.set(key, {key, shown, stays: change === Infinity, peers: []});
      groups.get(key).peers.push(pattern);
    }
    const order = [...groups.values()].sort((a, b) => a.stays - b.stays || b.peers.length - a.peers.length);
    rows = order.flatMap((group) => groupRow(prefix, group, w));
  } else rows = patterns.map((pattern) => peerRow(prefix, pattern, w));
  const without = D.total - patterns.length;
  const others = `${plural(without, "other peer")} of ${D.total.toLocaleString("en")} never had ${D.prefixes[prefix]}.`;
  $("rowsNote").textContent = without ? others : "";
  $("grouped").checked = grouped;
  $("rows").replaceChildren(...rows, html("div", {class: "cursor"}));
  placeCursors();
}

function placeCursors() {
  const x = xOf(S.t, width());
  const isIn = x >= -1 && x <= width() + 1;
  for (const cursor of document.querySelectorAll(".cursor")) {
    cursor.style.left = `calc(var(--label) + ${round(x)}px)`;
    cursor.hidden = !isIn;
  }
}
