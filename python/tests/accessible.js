// What axe-core would find that a script can tell, as a list of texts: names of controls, references, tables, headings,
// order of focus, and contrast of text (WCAG 2.1, 1.4.3), in the scheme that is shown.
const found = [];
const all = (words) => [...document.querySelectorAll(words)];
const isShown = (node) => node.checkVisibility({checkVisibilityCSS: true}) && node.getClientRects().length > 0;
const told = (node) => `${node.tagName.toLowerCase()}#${node.id}.${node.getAttribute("class")} "${node.textContent.trim().slice(0, 30)}"`;
const wrong = (words, node) => found.push(`${words}: ${told(node)}`);

const ids = all("[id]").map((node) => node.id);
ids.forEach((id, i) => ids.indexOf(id) !== i && found.push(`an id stands twice: ${id}`));
for (const name of ["aria-labelledby", "aria-describedby", "aria-controls", "for"]) {
  for (const node of all(`[${name}]`)) {
    for (const id of node.getAttribute(name).split(/\s+/)) if (!ids.includes(id)) wrong(`${name} names nothing`, node);
  }
}

const nameOf = (node) => [node.getAttribute("aria-label"), ...[...(node.labels || [])].map((label) => label.textContent),
  node.matches("input, select") ? "" : node.textContent, node.title].join("").trim();
for (const node of all("button, select, input, summary, a[href], [tabindex]")) {
  if (isShown(node) && !nameOf(node)) wrong("no name", node);
  if (Number(node.getAttribute("tabindex")) > 0) wrong("an order of its own", node);
  if (node.closest("[aria-hidden=true]")) wrong("hidden, and can have the focus", node);
}
for (const node of all("[aria-pressed], [aria-expanded]")) {
  for (const name of ["aria-pressed", "aria-expanded"]) {
    if (![null, "true", "false"].includes(node.getAttribute(name))) wrong(`${name} is neither true nor false`, node);
  }
}
for (const node of all("svg")) {
  const isNamed = node.getAttribute("role") === "img" && node.getAttribute("aria-label");
  if (isShown(node) && !isNamed && !node.closest("[aria-hidden=true]")) wrong("a picture without a name", node);
}
for (const node of all("thead th")) {
  if (!node.scope) wrong("a head without scope", node);
  if (isShown(node) && !node.textContent.trim()) wrong("a head without a text", node);
}
for (const node of all(".scrolls")) {
  const scrolls = node.scrollWidth > node.clientWidth + 1 || node.scrollHeight > node.clientHeight + 1;
  if (isShown(node) && scrolls && node.tabIndex < 0 && !node.querySelector("a, button")) wrong("scrolls, and no key gets there", node);
}
const levels = all("h1, h2, h3").map((node) => Number(node.tagName[1]));
levels.forEach((level, i) => level > (i ? levels[i - 1] : 0) + 1 && found.push(`a heading of level ${level} behind one of ${levels[i - 1]}`));
if (!document.documentElement.lang || !document.title || all("main").length !== 1 || all("h1").length !== 1) found.push("lang, title, main, h1");

// Contrast: the colour of a text, and what it lies on. Other layers than backgrounds are those of the graph's nodes.
const parsed = (text) => (/^rgba?\((.*)\)$/.exec(text) || [0, ""])[1].split(/[ ,/]+/).map(Number);
const over = ([r, g, b, a = 1], under) => [r, g, b].map((value, i) => value * a + under[i] * (1 - a));
const light = (rgb) => {
  const [r, g, b] = rgb.map((value) => value / 255).map((c) => (c <= 0.04045 ? c / 12.92 : ((c + 0.055) / 1.055) ** 2.4));
  return 0.2126 * r + 0.7152 * g + 0.0722 * b;
};
const ratio = (one, other) => {
  const [low, high] = [light(one), light(other)].sort((a, b) => a - b);
  return (high + 0.05) / (low + 0.05);
};
function underOf(node) {
  if (!node) return [255, 255, 255];
  const style = getComputedStyle(node);
  const own = parsed(style.backgroundColor);
  return own.length === 4 && own[3] === 0 ? underOf(node.parentElement) : over(own, own.length === 4 ? underOf(node.parentElement) : [0, 0, 0]);
}
function svgUnder(node) {
  const style = getComputedStyle(node);
  if (style.paintOrder.startsWith("stroke") && style.stroke !== "none") return parsed(style.stroke);
  const box = node.classList.contains("count") ? node.parentElement.querySelector(".ends") : node.parentElement.querySelector(".pill");
  return box ? parsed(getComputedStyle(box).fill) : underOf(node.closest("svg").parentElement);
}
const opacityOf = (node) => (node ? Number(getComputedStyle(node).opacity) * opacityOf(node.parentElement) : 1);
for (const node of all("body *")) {
  const hasText = [...node.childNodes].some((child) => child.nodeType === 3 && child.data.trim());
  if (!hasText || !isShown(node) || node.closest("title, script, style, option, :disabled, [hidden]")) continue;
  const style = getComputedStyle(node);
  const isSvg = node instanceof SVGElement;
  const under = isSvg ? svgUnder(node) : underOf(node);
  const [r, g, b] = parsed(isSvg ? style.fill : style.color);
  const size = parseFloat(style.fontSize);
  const least = size >= 24 || (size >= 18.66 && Number(style.fontWeight) >= 700) ? 3 : 4.5;
  const now = ratio(over([r, g, b, opacityOf(node)], under), under);
  if (!(now >= least)) wrong(`contrast ${now.toFixed(2)} below ${least}`, node);
}
return found;
