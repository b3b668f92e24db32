// The table of events: what the filter lets through, of which only the rows in sight are in the document.
const ROW = 25;
const PRINTED = 150;
const WHAT = {new: "announced, new", changed: "announced, changed", same: "announced again", gone: "withdrawn",
  void: "withdrawn, had none", lost: "lost"};
const BY = {state: "session", rib: "RIB dump"};
const T = {rows: EVENTS.map((_, i) => i), times: EVENT_TIMES, texts: null, first: -1, at: -1};

const LABELS = {
  next_hop: "next hop", origin: "", med: "MED", local_pref: "LOCAL_PREF", atomic: "atomic aggregate",
  aggr_asn: "aggregator", aggr_ip: "",
};

// A route's attributes beside its path, as texts.
function othersOf(route) {
  const labelOf = (name) => (name in LABELS ? LABELS[name] : name);
  const textOf = ([name, value]) => `${labelOf(name)} ${value === true ? "" : value}`.trim();
  return Object.entries(route.others).map(textOf);
}

function textsOf() {
  T.texts = T.texts || EVENTS.map((event) => {
    const route = ROUTES[event.route];
    const {name, as} = route ? ORIGINS[route.origin] : {};
    const own = route ? [route.text, name, as, validityOf(event.prefix, route.origin), ...othersOf(route),
      route.isBlackhole ? "blackhole" : ""] : [];
    const {asn, name: peer} = PEERS[event.peer];
    const {what, by} = event;
    return [clockOf(event.recorded), WHAT[what], what, by, D.prefixes[event.prefix], peer, asnName(asn), ...own]
      .join(" ").toLowerCase();
  });
  return T.texts;
}

function filterEvents() {
  const words = $("filter").value.toLowerCase().split(/\s+/).filter((word) => word);
  const [what, prefix] = [$("what").value, $("ofPrefix").value];
  const [turns, inView] = [$("turns").checked, $("inView").checked];
  const texts = words.length ? textsOf() : null;
  T.rows = [];
  EVENTS.forEach((event, i) => {
    if (what && event.what !== what) return;
    if (prefix && event.prefix !== (prefix === "chosen" ? S.prefix : Number(prefix))) return;
    if (turns && !event.turns) return;
    if (inView && (event.t < S.view[0] || event.t > S.view[1])) return;
    if (texts && !words.every((word) => texts[i].includes(word))) return;
    T.rows.push(i);
  });
  T.times = T.rows.map((i) => EVENTS[i].t);
  $("shown").textContent = `${T.rows.length.toLocaleString("en")} of ${plural(EVENTS.length, "event")}`;
  T.first = -1;
  markEvent();
  drawEvents();
  scrollToMoment();
  drawEvents();
}

// Where the moment is in the rows: the last one that isn't after it.
function markEvent() {
  T.at = lastAt(T.times, S.t);
}

function eventRow(place) {
  const event = EVENTS[T.rows[place]];
  const is = place === T.at;
  const isGone = event.what === "gone" || event.what === "lost";
  const route = event.route < 0 ? null : ROUTES[event.route];
  const cell = (name, ...children) => html("td", {class: name}, ...children);
  const small = (is, text) => (is ? html("small", {}, ` ${text}`) : null);
  const turn = event.turns ? html("b", {class: "turn", title: "the peer's origins changed"}, "•") : null;
  const names = `${is ? "at" : ""} ${event.t > S.t ? "later" : ""}`;
  const day = dayOf(event.recorded);
  const attributes = {class: names, "data-place": place, "aria-rowindex": place + 2};
  if (is) attributes["aria-current"] = "time";
  return html("tr", attributes, cell("time", clockOf(event.recorded), small(day !== dayOf(0), day)),
    cell("what", html("span", {class: `dot ${event.what}`}), WHAT[event.what] || event.what,
      small(event.by !== "update", `by ${BY[event.by] || event.by}`)),
    cell("prefix", D.prefixes[event.prefix], small(event.id, `#${event.id}`)),
    html("td", {class: "peer", title: asnName(PEERS[event.peer].asn) || null}, PEERS[event.peer].name),
    cell("origin", route && !isGone ? chip(route.origin) : null, turn,
      small(route && !isGone, validityOf(event.prefix, route?.origin))),
    cell(`path ${isGone ? "was" : ""}`, route ? route.shown : "", small(isGone && route, "before")),
    cell("others", route?.isBlackhole ? html("em", {}, "blackhole") : null, route && ` ${othersOf(route).join(", ")}`));
}

function drawEvents() {
  const box = $("events");
  const most = Math.ceil((box.clientHeight || 400) / ROW) + 12;
  let first = Math.max(0, Math.min(T.rows.length - most, Math.floor(box.scrollTop / ROW) - 6));
  let end = Math.min(T.rows.length, first + most);
  if (isPrinting()) [first, end] = [0, Math.min(T.rows.length, PRINTED)];
  const key = `${first} ${end} ${T.at} ${S.t} ${T.rows.length}`;
  if (key === T.first) return;
  T.first = key;
  const rows = [];
  for (let place = first; place < end; place++) rows.push(eventRow(place));
  const space = (n) => (n && !isPrinting() ? html("tr", {class: "space", "aria-hidden": "true"},
    html("td", {colspan: 7, height: n * ROW})) : null);
  const all = [space(first), ...rows, space(T.rows.length - end)];
  $("eventRows").replaceChildren(...all.filter((one) => one));
  const cut = `The first ${end} of ${T.rows.length.toLocaleString("en")} events that the filter lets through.`;
  $("cut").textContent = isPrinting() && T.rows.length > end ? cut : "";
  $("eventTable").setAttribute("aria-rowcount", T.rows.length + 1);
}

// Brings the row at the moment into sight, without moving the page.
function scrollToMoment() {
  const box = $("events");
  const y = Math.max(0, T.at) * ROW;
  const isIn = y >= box.scrollTop && y <= box.scrollTop + box.clientHeight - 3 * ROW;
  if (!isIn) box.scrollTop = Math.max(0, y - box.clientHeight / 2);
}

// The rows that the filter lets through as a file, with the columns of the program's history.
function saveEvents() {
  const quoted = (text) => (/[",\n]/.test(text) ? `"${text.replace(/"/g, '""')}"` : text);
  const lines = T.rows.map((i) => {
    const event = EVENTS[i];
    const time = `${dayOf(event.recorded)}T${clockOf(event.recorded)}Z`;
    const {asn, address, collector} = PEERS[event.peer];
    const {text, others} = ROUTES[event.route] || {text: "", others: {}};
    const own = [D.prefixes[event.prefix], event.id, text, ...D.columns.map((name) => others[name] ?? "")];
    const cells = [...collector, time, asn, address, event.what, event.by, ...own];
    return cells.map(String).map(quoted).join(",");
  });
  const names = ["time", "peer_asn", "peer_ip", "what", "by", "prefix", "path_id", "as_path", ...D.columns];
  if (PEERS[0].collector.length) names.unshift("collector");
  const text = [names.join(","), ...lines].join("\n") + "\n";
  const link = html("a", {href: URL.createObjectURL(new Blob([text], {type: "text/csv"})), download: "events.csv"});
  link.click();
  setTimeout(() => URL.revokeObjectURL(link.href), 1000);
}
