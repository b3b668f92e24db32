// The AS graph of the paths that peers have of the chosen prefix at the chosen moment. Places are worked out once, over
// all paths of the whole time, so that an AS stays where it is when the moment moves: origins on the right, and each AS
// as far to the left as it is away from them.
const NODE = {width: 94, height: 19, gap: 23, widest: 84};
const MOST_LEAVES = 24;
const MOST_COLUMNS = 8;
const MOST_EDGES = 110; // beyond that, those that the fewest peers ever used are left out, unless the reader wants them

// All paths of a prefix: which ASes are within a path, and whether the peers at their ends are drawn as counts.
function innerOf(prefix) {
  return once(`inner ${prefix}`, () => {
    const inner = new Set();
    const firsts = new Set();
    const paths = new Map(); // "hops" -> {hops, peers}
    for (const peer of having(prefix)) {
      for (const route of new Set(TRACKS[prefix][peer].routes.flat())) {
        const hops = hopsOf(peer, route);
        const key = hops.join(" ");
        firsts.add(hops[0]);
        hops.slice(1).forEach((hop) => inner.add(hop));
        if (!paths.has(key)) paths.set(key, {hops, peers: new Set()});
        paths.get(key).peers.add(peer);
      }
    }
    const leaves = [...firsts].filter((first) => !inner.has(first));
    return {inner, paths: [...paths.values()], folded: leaves.length > MOST_LEAVES};
  });
}

// The hops that are drawn: where many peers are, one that is in no other's path is a count at its neighbour.
function drawn(prefix, hops) {
  const {inner, folded} = innerOf(prefix);
  return folded && hops.length > 1 && !inner.has(hops[0]) ? hops.slice(1) : hops;
}

// All nodes and edges of a prefix's paths: how far a node is from the origins, and which peers ever used an edge.
function unionOf(prefix) {
  const nodes = new Map();
  const edges = new Map();
  for (const {hops, peers} of innerOf(prefix).paths) {
    const shown = drawn(prefix, hops);
    shown.forEach((hop, i) => {
      if (!nodes.has(hop)) nodes.set(hop, {name: hop, weight: 0, sum: 0, links: [], after: [], place: 0});
      const node = nodes.get(hop);
      node.weight += peers.size;
      node.sum += peers.size * (shown.length - 1 - i);
      if (!i) return;
      const key = `${shown[i - 1]} ${hop}`;
      if (!edges.has(key)) edges.set(key, {from: shown[i - 1], to: hop, peers: new Set()});
      peers.forEach((peer) => edges.get(key).peers.add(peer));
    });
  }
  return {nodes, edges};
}

// How many peers have to have used an edge for it to be drawn, if the reader says nothing.
function leastOf(prefix) {
  return once(`least ${prefix}`, () => {
    const sizes = [...unionOf(prefix).edges.values()].map((edge) => edge.peers.size).sort((a, b) => b - a);
    return sizes.length > MOST_EDGES ? sizes[MOST_EDGES] + 1 : 1;
  });
}

function layoutOf(prefix, least) {
  return once(`layout ${prefix} ${least}`, () => {
    const {nodes, edges} = unionOf(prefix);
    const shown = new Set();
    for (const [key, edge] of edges) {
      if (edge.peers.size < least) continue;
      shown.add(key);
      const [from, to] = [nodes.get(edge.from), nodes.get(edge.to)];
      from.links.push([to, edge.peers.size]);
      from.after.push(to);
      to.links.push([from, edge.peers.size]);
    }
    const placed = [...nodes.values()].filter((node) => node.links.length || nodes.size === 1 || edges.size === 0);
    const byName = new Map(placed.map((node) => [node.name, node]));
    return {nodes: byName, shown, hidden: edges.size - shown.size, ...place(placed)};
  });
}

// The column of each node: one more than that of the ASes behind it which are nearer to the origins in the mean, so
// that nearly all edges go to the right; of many nodes, or where this takes many columns, the mean distance itself.
function columnsOf(nodes) {
  const mean = (node) => node.sum / node.weight;
  const ranks = new Map();
  const inOrder = [...nodes].sort((a, b) => mean(a) - mean(b) || (a.name < b.name ? -1 : 1));
  for (const node of inOrder) {
    const behind = node.after.filter((other) => mean(other) < mean(node) && ranks.has(other));
    ranks.set(node, Math.max(mean(node) > 0 ? 1 : 0, ...behind.map((other) => ranks.get(other) + 1)));
  }
  const isDeep = nodes.length > 30 || Math.max(...ranks.values()) >= MOST_COLUMNS;
  const columns = [];
  for (const node of inOrder) {
    const rank = isDeep ? Math.round(mean(node)) : ranks.get(node);
    (columns[rank] = columns[rank] || []).push(node);
  }
  return columns.filter((column) => column);
}

// Places in a column near the neighbours' (as d3-sankey relaxes them).
function place(nodes) {
  if (!nodes.length) return {ranks: 0, top: 0, bottom: 0};
  const filled = columnsOf(nodes);
  const highest = Math.max(...filled.map((column) => column.length)) * NODE.gap;
  const gapOf = (column) => Math.min(NODE.widest, Math.max(NODE.gap, (0.8 * highest) / column.length));
  const gaps = new Map(filled.map((column) => [column, gapOf(column)]));
  filled.forEach((column, rank) => column.forEach((node, i) => {
    node.rank = rank;
    node.place = (i - (column.length - 1) / 2) * gaps.get(column);
  }));
  const mean = (node) => {
    const weight = node.links.reduce((sum, [, n]) => sum + Math.sqrt(n), 0);
    return weight ? node.links.reduce((sum, [other, n]) => sum + other.place * Math.sqrt(n), 0) / weight : node.place;
  };
  for (let round = 0; round < 60; round++) {
    const order = round % 2 ? filled : [...filled].reverse();
    for (const column of order) {
      for (const node of column) node.wanted = mean(node);
      column.sort((a, b) => a.wanted - b.wanted || (a.name < b.name ? -1 : 1));
      spread(column, gaps.get(column));
    }
  }
  const places = nodes.map((node) => node.place);
  return {ranks: filled.length, top: Math.min(...places), bottom: Math.max(...places)};
}

// Puts the nodes of a column as near to where they want to be as their order and the gap let them.
function spread(column, gap) {
  const blocks = [];
  for (const node of column) {
    let block = {nodes: [node], sum: node.wanted, at: node.wanted};
    const touches = (last) => last && last.at + last.nodes.length * gap > block.at;
    while (touches(blocks[blocks.length - 1])) {
      const last = blocks.pop();
      const sum = last.sum + block.sum - block.nodes.length * last.nodes.length * gap;
      block = {nodes: [...last.nodes, ...block.nodes], sum, at: sum / (last.nodes.length + block.nodes.length)};
    }
    blocks.push(block);
  }
  for (const {nodes, at} of blocks) nodes.forEach((node, i) => (node.place = at + i * gap));
}

// What is there at a moment: edges with how many peers use them for which origin, and the peers at each node.
function flowsAt(prefix, t) {
  const edges = new Map();
  const ends = new Map();
  const add = (map, key, origin, peer) => {
    if (!map.has(key)) map.set(key, new Map());
    const own = map.get(key);
    if (!own.has(origin)) own.set(origin, new Set());
    own.get(origin).add(peer);
  };
  for (const peer of having(prefix)) {
    for (const route of routesAt(prefix, peer, t)) {
      const {origin} = ROUTES[route];
      const hops = drawn(prefix, hopsOf(peer, route));
      add(ends, hops[0], origin, peer);
      for (let i = 1; i < hops.length; i++) add(edges, `${hops[i - 1]} ${hops[i]}`, origin, peer);
    }
  }
  return {edges, ends};
}

// The edges that aren't new: those of any prefix at the start, or those of this one before the last event.
function knownEdges() {
  if ($("compare").value === "start") {
    return once(`known ${S.prefix}`, () => new Set(D.prefixes.flatMap((_, prefix) => {
      const known = [];
      for (const peer of having(prefix)) {
        for (const route of routesAt(prefix, peer, BEFORE)) {
          const hops = drawn(S.prefix, hopsOf(peer, route));
          for (let i = 1; i < hops.length; i++) known.push(`${hops[i - 1]} ${hops[i]}`);
        }
      }
      return known;
    })));
  }
  const last = lastAt(EVENT_TIMES, S.t);
  return new Set(flowsAt(S.prefix, last < 0 ? BEFORE : EVENT_TIMES[last] - 1).edges.keys());
}

function goneEdges(now) {
  const last = $("compare").value === "start" ? -1 : lastAt(EVENT_TIMES, S.t);
  const before = last < 0 ? BEFORE : EVENT_TIMES[last] - 1;
  return $("gone").checked ? [...flowsAt(S.prefix, before).edges.keys()].filter((key) => !now.edges.has(key)) : [];
}

function curve(from, to, shift) {
  const [x, y, down] = [from.x + NODE.width / 2, from.y + shift, to.y + shift];
  const isOn = to.x - NODE.width / 2 > x; // else it goes to the same column or backwards, in a bow on the right
  const end = to.x + (isOn ? -NODE.width / 2 : NODE.width / 2);
  const bow = isOn ? Math.max(18, (end - x) / 2) : from.rank === to.rank ? 46 : 70;
  const numbers = [x, y, x + bow, y, isOn ? end - bow : end + bow, down, end, down].map(round);
  return `M${numbers.slice(0, 2).join(" ")}C${numbers.slice(2).join(" ")}`;
}

const thick = (n) => 1.2 + 0.95 * Math.sqrt(n);
const of = (key) => key.split(" ");

function edgeShapes(layout, now, known, at) {
  const shapes = [];
  for (const [key, own] of now.edges) {
    if (!layout.shown.has(key)) continue;
    const [from, to] = of(key).map(at);
    const parts = [...own].sort((a, b) => a[0] - b[0]);
    let shift = -parts.reduce((sum, [, peers]) => sum + thick(peers.size), 0) / 2;
    for (const [origin, peers] of parts) {
      const w = thick(peers.size);
      const isNew = !known.has(key);
      const d = curve(from, to, shift + w / 2);
      shift += w;
      const isChosen = S.peer !== null && peers.has(S.peer);
      const name = `edge ${ORIGINS[origin].color}${isNew ? " new" : ""}${isChosen ? " chosen" : ""}`;
      const line = svg("path", {class: "line", d, "stroke-width": round(w)});
      const dashes = isNew ? svg("path", {class: "dashes", d, "stroke-width": round(Math.max(1, w * 0.45))}) : null;
      const told = `${plural(peers.size, "peer")} to ${ORIGINS[origin].name}`;
      const words = `${of(key).join(" → ")}: ${told}${isNew ? ", new" : ""}`;
      shapes.push({n: peers.size, isChosen, shape: svg("g", {class: name}, line, dashes, svg("title", {}, words))});
    }
  }
  return shapes.sort((a, b) => a.isChosen - b.isChosen || b.n - a.n).map((one) => one.shape);
}

// A node: its name, in the colour of the origin that it is, and left of it how many peers are there, by origin.
function nodeShape(node, at, now, origin) {
  const {x, y} = at(node.name);
  const ends = now.ends.get(node.name);
  const n = ends ? new Set([...ends.values()].flatMap((peers) => [...peers])).size : 0;
  const isOrigin = origin !== undefined;
  const names = isOrigin ? `node origin ${ORIGINS[origin].color}` : "node";
  const shape = svg("g", {class: names, transform: `translate(${round(x)} ${round(y)})`});
  if (n) shape.append(...endShapes(ends, n));
  const {width: w, height: h} = NODE;
  const box = {x: -w / 2, y: -h / 2, width: w, height: h, rx: isOrigin ? 3 : h / 2};
  shape.append(svg("rect", {class: "pill", ...box}));
  if (isOrigin && ORIGINS[origin].isNew) shape.append(svg("rect", {class: "hatch", ...box}));
  const name = node.name.length > 14 ? `${node.name.slice(0, 13)}…` : node.name;
  const as = asnName(node.name.slice(2));
  const words = `${node.name}${as ? ` ${as}` : ""}${n ? `: ${plural(n, "peer")} at this AS or right behind it` : ""}`;
  shape.append(svg("text", {x: 0, y: 4, "text-anchor": "middle"}, name), svg("title", {}, words));
  return shape;
}

function endShapes(ends, n) {
  const left = -NODE.width / 2 - 36;
  const parts = [...ends].sort((a, b) => b[1].size - a[1].size);
  const sum = parts.reduce((all, [, peers]) => all + peers.size, 0);
  let done = 0;
  const bars = parts.map(([origin, peers]) => {
    const x = left + (30 * done) / sum;
    done += peers.size;
    const w = round((30 * peers.size) / sum);
    return svg("rect", {class: `area ${ORIGINS[origin].color}`, x: round(x), y: 5, width: w, height: 3});
  });
  return [svg("rect", {class: "ends", x: left, y: -8, width: 30, height: 16, rx: 3}), ...bars,
    svg("path", {class: "stub", d: `M${left + 30} 0h6`}),
    svg("text", {class: "count", x: left + 15, y: 2.5, "text-anchor": "middle"}, String(n))];
}

// Which ASes are origins at the moment: name -> origin.
function originNodes() {
  const found = new Map();
  for (const peer of having(S.prefix)) {
    for (const route of routesAt(S.prefix, peer, S.t)) {
      const {origin} = ROUTES[route];
      if (hopsOf(peer, route).pop() === ORIGINS[origin].name) found.set(ORIGINS[origin].name, origin);
    }
  }
  return found;
}

// Where the nodes of a layout are in a picture of width w.
function placesIn(layout, w) {
  const left = NODE.width / 2 + 42;
  const column = Math.min(380, (w - left - NODE.width / 2 - 8) / Math.max(1, layout.ranks - 1));
  const spare = (w - left - NODE.width / 2 - 8 - column * (layout.ranks - 1)) / 2;
  return (name) => {
    const {rank, place: y} = layout.nodes.get(name);
    return {x: left + spare + (layout.ranks - 1 - rank) * column, y: y - layout.top + NODE.height / 2 + 10, rank};
  };
}

function widthOf(prefix) {
  return once(`width ${prefix}`, () => {
    const longest = Math.max(7, ...[...unionOf(prefix).nodes.keys()].map((name) => name.length));
    return 20 + 6.9 * Math.min(14, longest);
  });
}

// The part of the picture that is seen: the whole at scale 1.
const G = {prefix: -1, scale: 1, x: 0, y: 0, w: 1, h: 1};

function showPart() {
  G.x = clamp(G.x, 0, G.w - G.w / G.scale);
  G.y = clamp(G.y, 0, G.h - G.h / G.scale);
  const box = [G.x, G.y, G.w / G.scale, G.h / G.scale].map(round).join(" ");
  $("graph").querySelector("svg").setAttribute("viewBox", isPrinting() ? `0 0 ${G.w} ${G.h}` : box);
  $("graph").classList.toggle("part", G.scale > 1);
  $("graphWhole").disabled = $("graphWider").disabled = G.scale === 1;
}

// Zooms; the point that is these shares of the picture from its left and its top stays where it is.
function zoomGraph(factor, fromLeft = 0.5, fromTop = 0.5) {
  const scale = clamp(G.scale * factor, 1, 16);
  G.x += (G.w / G.scale - G.w / scale) * fromLeft;
  G.y += (G.h / G.scale - G.h / scale) * fromTop;
  G.scale = scale;
  showPart();
}

// Moves the part by shares of what is seen.
function panGraph(right, down) {
  G.x += (right * G.w) / G.scale;
  G.y += (down * G.h) / G.scale;
  showPart();
}

const GRAPH_KEYS = {
  "+": () => zoomGraph(1.5), "-": () => zoomGraph(1 / 1.5), 0: () => zoomGraph(0), ArrowLeft: () => panGraph(-0.2, 0),
  ArrowRight: () => panGraph(0.2, 0), ArrowUp: () => panGraph(0, -0.2), ArrowDown: () => panGraph(0, 0.2),
};

// Dragging moves the part that is seen, two fingers or Ctrl and the wheel zoom at their place.
function watchGraph() {
  const graph = $("graph");
  const held = new Map(); // pointers that are down: where they were last
  const inPicture = (x, y) => {
    const box = graph.querySelector("svg").getBoundingClientRect();
    return [(x - box.left) / box.width, (y - box.top) / box.height];
  };
  graph.addEventListener("wheel", (event) => {
    if (!event.ctrlKey) return;
    event.preventDefault();
    zoomGraph(Math.exp(-event.deltaY / 250), ...inPicture(event.clientX, event.clientY));
  }, {passive: false});
  graph.addEventListener("pointerdown", (event) => {
    if (event.button) return;
    held.set(event.pointerId, inPicture(event.clientX, event.clientY));
    graph.setPointerCapture(event.pointerId);
  });
  graph.addEventListener("pointermove", (event) => {
    const before = held.get(event.pointerId);
    if (!before) return;
    const now = inPicture(event.clientX, event.clientY);
    const [other] = [...held].filter(([id]) => id !== event.pointerId).map(([, place]) => place);
    const away = (place) => Math.hypot(place[0] - other[0], place[1] - other[1]);
    if (other) zoomGraph(away(now) / Math.max(0.001, away(before)), ...other);
    else panGraph(before[0] - now[0], before[1] - now[1]);
    held.set(event.pointerId, now);
  });
  const release = (event) => held.delete(event.pointerId);
  for (const name of ["pointerup", "pointercancel"]) graph.addEventListener(name, release);
}

function drawGraph() {
  if (G.prefix !== S.prefix) [G.prefix, G.scale] = [S.prefix, 1];
  NODE.width = widthOf(S.prefix);
  const least = S.least || leastOf(S.prefix);
  if (document.activeElement !== $("least")) $("least").value = least;
  const layout = layoutOf(S.prefix, least);
  const now = flowsAt(S.prefix, S.t);
  const known = knownEdges();
  const narrowest = Math.max(620, layout.ranks * (NODE.width + 40) + 50);
  const w = isPrinting() ? PAPER : Math.max(narrowest, $("graph").clientWidth || 800);
  const h = layout.bottom - layout.top + NODE.height + 24;
  const at = placesIn(layout, w);
  const gone = goneEdges(now).filter((key) => layout.shown.has(key));
  const origins = originNodes();
  const shown = new Set([...now.edges.keys()].filter((key) => layout.shown.has(key)).flatMap(of));
  for (const name of now.ends.keys()) if (layout.nodes.has(name)) shown.add(name);
  const faint = new Set(gone.flatMap(of).filter((name) => !shown.has(name)));
  const fresh = [...now.edges.keys()].filter((key) => !known.has(key)).length;
  const few = `; ${plural(layout.hidden, "edge")} of fewer than ${plural(least, "peer")} left out`;
  const ases = `${shown.size} ${shown.size === 1 ? "AS" : "ASes"}`;
  const edges = `${plural(now.edges.size, "edge")}, ${fresh} new, ${gone.length} gone`;
  const words = `${ases}, ${edges}${layout.hidden ? few : ""}`;
  [G.w, G.h] = [w, h];
  $("graph").replaceChildren(svg("svg", {width: w, height: h, role: "img",
    "aria-label": `The AS graph of ${D.prefixes[S.prefix]}: ${words}`},
  ...gone.map((key) => svg("path", {class: "gone", d: curve(...of(key).map(at), 0)})),
  ...edgeShapes(layout, now, known, at),
  ...[...faint].map((name) => svg("g", {class: "faint"}, nodeShape(layout.nodes.get(name), at, now))),
  ...[...shown].map((name) => nodeShape(layout.nodes.get(name), at, now, origins.get(name)))));
  showPart();
  $("graphWords").textContent = `${D.prefixes[S.prefix]} at ${clockOf(S.t)} UTC: ${shown.size ? words : "no routes"}.`;
  const own = S.peer === null ? [] : routesAt(S.prefix, S.peer, S.t).map((route) => ROUTES[route].shown);
  $("peerPath").textContent = own.length ? own.slice(0, 3).join(", ") : "no route";
  if ($("edgesTable").open) drawEdges(now, known, gone);
}

// The same as a table, for those who read it rather than look at it.
function drawEdges(now, known, gone) {
  const rows = [...now.edges].flatMap(([key, own]) => [...own].map(([origin, peers]) => [key, origin, peers.size]));
  rows.sort((a, b) => b[2] - a[2]);
  const cells = (tag, ...values) => html("tr", {}, ...values.map((value) => html(tag,
    tag === "th" ? {scope: "col"} : {}, value)));
  const named = (key) => of(key).map((name) => `${name} ${asnName(name.slice(2))}`.trim());
  const there = ([key, origin, n]) => cells("td", ...named(key), String(n), chip(origin), known.has(key) ? "" : "new");
  const body = [...rows.map(there), ...gone.map((key) => cells("td", ...named(key), "0", "", "gone"))];
  $("edges").replaceChildren(html("table", {}, html("thead", {}, cells("th", "From", "To", "Peers", "Origin", "Since")),
    html("tbody", {}, ...body)));
}
