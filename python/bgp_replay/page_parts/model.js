// What the page knows: peers, prefixes, routes, events, and who had which routes when. Times are microseconds from the
// start, D.start.
const D = JSON.parse(document.getElementById("data").textContent);
const BEFORE = -1; // when what is there at the start began: events at the very start come after it
const BLACKHOLE = "65535:666"; // RFC 7999
const asnName = (asn) => D.names[asn] || "";
const PEERS = D.peers.map((peer) => {
  const [asn, address] = peer.slice(-2);
  return {asn, address, collector: peer.slice(0, -2), name: [...peer.slice(0, -2), `AS${asn}`, address].join(" ")};
});

// A route's attributes beside its path: {next_hop: "192.0.2.1", atomic: true, ..}.
const ATTRIBUTES = D.attributes.map((pairs) => Object.fromEntries(pairs.map(([at, value]) => [D.columns[at], value])));
const ROUTES = D.routes.map(([text, origin, attributes]) => {
  const shown = text || (text === "" ? "(empty)" : "(none)"); // a path without ASes, a route without a path
  const others = ATTRIBUTES[attributes];
  const isBlackhole = String(others.communities || "").split(" ").includes(BLACKHOLE);
  return {text: text || "", shown, origin, others, isBlackhole, hops: null};
});
const ORIGINS = D.origins.map(([name, isNew]) => ({name, isNew, color: "", as: asnName(name.slice(2))}));
const VALIDITY = new Map(D.validity.map(([prefix, origin, state]) => [`${prefix} ${origin}`, state]));
const validityOf = (prefix, origin) => VALIDITY.get(`${prefix} ${origin}`) || "";
const IS_NESTED = D.parts.length > 0;
const EVENTS = [];
const TRACKS = D.prefixes.map(() => PEERS.map(() => null)); // by prefix and peer: {t: [..], routes: [[..], ..]}

// Origins that some peer has at the start have cool colours, those that come later warm ones.
(() => {
  const next = {cool: 0, warm: 0};
  for (const origin of ORIGINS) {
    const kind = origin.isNew ? "warm" : "cool";
    origin.color = origin.name === "no AS" ? "none" : next[kind] < 4 ? kind + next[kind]++ : "other";
  }
})();

// Puts a route into what a peer holds of a prefix, or takes it away, and tells whether the peer's origins change by it.
function put(held, prefix, peer, id, route, t) {
  const key = prefix * PEERS.length + peer;
  if (!held.has(key)) held.set(key, new Map());
  const own = held.get(key);
  if (route === null) own.delete(id);
  else own.set(id, route);
  const track = (TRACKS[prefix][peer] = TRACKS[prefix][peer] || {t: [], routes: []});
  const routes = [...own.values()];
  const last = track.t.length - 1;
  const before = last < 0 ? [] : originsOf(track.routes[last]);
  if (last >= 0 && track.t[last] === t) track.routes[last] = routes;
  else {
    track.t.push(t);
    track.routes.push(routes);
  }
  return before.join() !== originsOf(routes).join();
}

// The origins of some routes, each once, in order.
function originsOf(routes) {
  if (routes.length === 1) return [ROUTES[routes[0]].origin];
  return [...new Set(routes.map((route) => ROUTES[route].origin))].sort((a, b) => a - b);
}

(() => {
  const held = new Map();
  for (const [peer, prefix, id, route] of D.begin) put(held, prefix, peer, id, route, BEFORE);
  const {steps, offsets, what, whatNames, by, byNames, peers, prefixes, ids, routes} = D.events;
  let t = 0;
  for (let i = 0; i < steps.length; i++) {
    t += steps[i];
    const event = {
      t, recorded: t + offsets[i], what: whatNames[what[i]], by: byNames[by[i]], peer: peers[i], prefix: prefixes[i],
      id: ids[i], route: routes[i], turns: false,
    };
    if (event.what !== "void" && event.what !== "same") {
      const route = event.what === "gone" || event.what === "lost" ? null : event.route;
      event.turns = put(held, event.prefix, event.peer, event.id, route, t);
    }
    EVENTS.push(event);
  }
})();

// The last place of a sorted list whose value is at most t, or -1.
function lastAt(times, t) {
  let low = 0;
  let high = times.length;
  while (low < high) {
    const middle = (low + high) >> 1;
    if (times[middle] <= t) low = middle + 1;
    else high = middle;
  }
  return low - 1;
}

const EVENT_TIMES = EVENTS.map((event) => event.t);

// The routes that a peer has of a prefix at a moment.
function routesAt(prefix, peer, t) {
  const track = TRACKS[prefix][peer];
  const place = track ? lastAt(track.t, t) : -1;
  return place < 0 ? [] : track.routes[place];
}

// Lists times with origins one after the other, neighbours with the same origins as one: {from, to, origins}.
function addSpan(spans, from, origins) {
  const last = spans[spans.length - 1];
  if (last && last.origins.join() === origins.join()) return;
  if (last) last.to = from;
  spans.push({from, to: D.length, origins});
}

// What origins a peer had of a prefix, one after the other.
function spansOf(prefix, peer) {
  const track = TRACKS[prefix][peer];
  if (!track) return [];
  if (!track.spans) {
    track.spans = [];
    track.t.forEach((from, i) => addSpan(track.spans, from, originsOf(track.routes[i])));
  }
  return track.spans;
}

// What origins the longest match of a part had: of each moment those of the first prefix of its chain with a route.
function longestSpansOf(chain, peer) {
  if (chain.length === 1) return spansOf(chain[0], peer);
  const tracks = chain.map((prefix) => spansOf(prefix, peer)).filter((spans) => spans.length);
  const times = [...new Set(tracks.flatMap((spans) => spans.map((span) => span.from)))].sort((a, b) => a - b);
  const starts = tracks.map((spans) => spans.map((span) => span.from));
  const found = [];
  for (const t of times) {
    const now = tracks.map((spans, i) => spans[lastAt(starts[i], t)]).find((span) => span && span.origins.length);
    addSpan(found, t, now ? now.origins : []);
  }
  return found;
}

// Of lists of spans, one a peer, how many peers have each origin over time: by origin {t: [..], n: [..]}, and `any`
// alike. With `shares` a peer with several origins counts a part for each, so that they add up to the peers.
function countsOf(lists, shares) {
  const changes = [];
  for (const spans of lists) {
    let before = [];
    for (const span of spans) {
      changes.push([span.from, before, span.origins]);
      before = span.origins;
    }
  }
  changes.sort((a, b) => a[0] - b[0]);
  const counts = new Map();
  const add = (key, t, step) => {
    if (!counts.has(key)) counts.set(key, {t: [BEFORE], n: [0]});
    const {t: times, n} = counts.get(key);
    const last = times.length - 1;
    if (times[last] === t) n[last] += step;
    else {
      times.push(t);
      n.push(n[last] + step);
    }
  };
  add("any", BEFORE, 0);
  for (const [t, before, after] of changes) {
    before.forEach((origin) => add(origin, t, shares ? -1 / before.length : -1));
    after.forEach((origin) => add(origin, t, shares ? 1 / after.length : 1));
    if (!before.length !== !after.length) add("any", t, after.length ? 1 : -1);
  }
  return counts;
}

const countAt = (steps, t) => (steps ? steps.n[lastAt(steps.t, t)] : 0);

// What is worked out once, by name.
const kept = new Map();
const once = (name, make) => (kept.has(name) ? kept : kept.set(name, make())).get(name);
const having = (prefix) => once(`having ${prefix}`, () => [...PEERS.keys()].filter((peer) => TRACKS[prefix][peer]));
const countsOfPeers = (prefix, peers, shares) => countsOf(peers.map((peer) => spansOf(prefix, peer)), shares);
const allCounts = (prefix) => once(`counts ${prefix}`, () => countsOfPeers(prefix, having(prefix)));
const allShares = (prefix) => once(`shares ${prefix}`, () => countsOfPeers(prefix, having(prefix), true));
const partShares = (part) => once(`part ${part}`, () => {
  const chain = D.parts[part][1];
  const peers = [...new Set(chain.flatMap(having))];
  return countsOf(peers.map((peer) => longestSpansOf(chain, peer)), true);
});

// The ASes of a peer's path, from the peer's own to the origin: prepending counts once, confederations not at all.
function hopsOf(peer, route) {
  const known = ROUTES[route];
  known.hops = known.hops || (known.text.match(/\([^)]*\)|\[[^\]]*\]|\{[^}]*\}|[^\s]+/g) || [])
    .filter((word) => !/^[([]/.test(word)).map((word) => (word[0] === "{" ? word.replace(/\s/g, "") : `AS${word}`));
  const own = `AS${PEERS[peer].asn}`;
  return [own, ...known.hops].filter((word, i, all) => i === 0 || word !== all[i - 1]);
}

const plural = (n, one) => `${n.toLocaleString("en")} ${one}${n === 1 ? "" : "s"}`;
const two = (n) => String(n).padStart(2, "0");
const MONTHS = ["Jan", "Feb", "Mar", "Apr", "May", "Jun", "Jul", "Aug", "Sep", "Oct", "Nov", "Dec"];
const dateOf = (t) => new Date(Math.floor((D.start + t) / 1000));
const dayOf = (t) => `${dateOf(t).getUTCFullYear()}-${two(dateOf(t).getUTCMonth() + 1)}-${two(dateOf(t).getUTCDate())}`;

// A time of the day in UTC, with as many decimals as asked for, or as it has.
function clockOf(t, decimals = -1) {
  const date = dateOf(t);
  const text = `${two(date.getUTCHours())}:${two(date.getUTCMinutes())}:${two(date.getUTCSeconds())}`;
  const micros = String((((D.start + Math.round(t)) % 1e6) + 1e6) % 1e6).padStart(6, "0");
  if (decimals < 0) return Number(micros) ? `${text}.${micros.replace(/0+$/, "")}` : text;
  return decimals ? `${text}.${micros.slice(0, decimals)}` : text;
}
