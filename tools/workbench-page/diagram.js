// The diagram: which boxes there are, where they stand, and which of them are in sight.
import { at, draw } from "./dom.js";
import { boxElement, content } from "./boxes.js";
import { layered } from "./layered.js";
import { tell } from "./server.js";
import { emit, on, store } from "./store.js";

const NEAR = 0.42, FAR = 0.16, LEAST = 0.02, MOST = 3, MOST_FOR_GRAPHVIZ = 400, MOST_DOWNWARDS = 24, MANY = 40;

// `sideways` is null where the number of types decides.
export const shown = { variables: true, empty: true, foldUnasked: false, sideways: null, folded: new Set(),
  unfolded: new Set(), hidden: new Set() };
export const view = { x: 0, y: 0, k: 1 };
export const laid = { boxes: new Map(), edges: [], places: new Map(), sideways: false, tops: new Set(),
  ready: Promise.resolve() };

const elements = new Map(), drawn = {};
let asked = false, turn = 0, fitted = false;

const isShown = (node) => (shown.empty || !node.is_empty) && !shown.hidden.has(node.origin ?? "");

// The lines between what is shown: each type and the nearest ones above it.
function edgesShown(model) {
  const nearest = new Map();
  const over = (n) => {
    if (nearest.has(n)) return nearest.get(n);
    const found = new Set();
    for (const m of model.nodes.get(n).above) if (isShown(model.nodes.get(m))) found.add(m);
      else for (const k of over(m)) found.add(k);
    const list = [...found];
    const kept = list.filter((m) => !list.some((k) => k !== m && model.isBelow(k, m)));
    nearest.set(n, kept);
    return kept;
  };
  return [...model.nodes.values()].filter(isShown).flatMap((node) => over(node.number).map((m) => [node.number, m]));
}

// Lays the boxes out anew; the one that is looked at stays where it is on the screen.
export function relay() {
  const mine = ++turn, model = store.model;
  const boxes = new Map([...model.nodes.values()].filter(isShown).map((node) => [node.number, content(node, shown)]));
  const edges = edgesShown(model), sideways = shown.sideways ?? boxes.size > MOST_DOWNWARDS;
  laid.ready = placesOf(boxes, edges, sideways).then((places) => {
    if (mine !== turn) return;
    const anchor = sideways === laid.sideways && [store.focus, ...store.selected,
      ...boxes.keys()].find((n) => laid.places.has(n) && places.has(n));
    if (fitted && anchor !== undefined && anchor !== false) {
      const [a, b] = laid.places.get(anchor), [c, d] = places.get(anchor);
      view.x += (a - c) * view.k;
      view.y += (b - d) * view.k;
    }
    const turned = sideways !== laid.sideways;
    Object.assign(laid, { boxes, edges, places, sideways, tops: topsOf(edges) });
    for (const it of elements.values()) it.element.remove();
    elements.clear();
    if (!fitted || turned) fit();
    fitted = true;
    redraw();
    emit("laid");
  });
  at("counts").textContent = boxes.size === model.nodes.size ? `${boxes.size} types`
    : `${boxes.size} of ${model.nodes.size} types`;
  return laid.ready;
}

// The types without one above that very many stand below: lines to them are faint.
function topsOf(edges) {
  const count = new Map(), lower = new Set(edges.map(([a]) => a));
  for (const [, b] of edges) count.set(b, (count.get(b) || 0) + 1);
  return new Set([...count].filter(([n, k]) => k > MANY && !lower.has(n)).map(([n]) => n));
}

async function placesOf(boxes, edges, sideways) {
  const sizes = new Map([...boxes].map(([n, box]) => [n, [box.width, box.height]]));
  if (boxes.size && boxes.size <= MOST_FOR_GRAPHVIZ) {
    try {
      const { positions } = await tell("layout", { nodes: [...sizes].map(([n, [w, h]]) => [n, w, h]), edges,
        sideways });
      if (positions) return new Map(Object.entries(positions).map(([n, place]) => [Number(n), place]));
    } catch (fault) {
      // The page's own layout serves as well.
    }
  }
  const size = at("diagram").getBoundingClientRect();
  return layered(sizes, edges, sideways, size.width / Math.max(1, size.height));
}

export function redraw() {
  if (asked) return;
  asked = true;
  requestAnimationFrame(() => { asked = false; paint(); });
}

function paint() {
  const size = at("diagram").getBoundingClientRect();
  const level = view.k >= NEAR ? 2 : view.k >= FAR ? 1 : 0;
  const margin = 80 / view.k;
  const left = -view.x / view.k - margin, top = -view.y / view.k - margin;
  const right = left + size.width / view.k + 2 * margin, bottom = top + size.height / view.k + 2 * margin;
  at("world").setAttribute("transform", `translate(${view.x} ${view.y}) scale(${view.k})`);
  for (const [n, box] of laid.boxes) {
    const [x, y] = laid.places.get(n);
    const seen = x + box.width / 2 > left && x - box.width / 2 < right && y + box.height / 2 > top
      && y - box.height / 2 < bottom;
    place(n, box, x, y, seen, level);
  }
  paintEdges({ left, top, right, bottom });
  emit("painted");
}

function place(n, box, x, y, seen, level) {
  const known = elements.get(n);
  if (known && (!seen || known.level !== level)) {
    known.element.remove();
    elements.delete(n);
  }
  if (!seen || elements.has(n)) return;
  const element = boxElement(box, level);
  element.setAttribute("transform", `translate(${(x - box.width / 2).toFixed(1)} ${(y - box.height / 2).toFixed(1)})`);
  elements.set(n, { element, level });
  at("boxes").append(element);
  mark(n, element);
}

function curve(a, b) {
  const low = laid.boxes.get(a), high = laid.boxes.get(b);
  const [x1, y1] = laid.places.get(a), [x2, y2] = laid.places.get(b);
  if (laid.sideways) {
    const from = x1 - low.width / 2, to = x2 + high.width / 2 + 9, bend = Math.max(20, Math.abs(from - to) / 2);
    return [`M${from} ${y1}C${from - bend} ${y1} ${to + bend} ${y2} ${to} ${y2}`, `M${to - 9} ${y2}l9 -6v12z`];
  }
  const from = y1 - low.height / 2, to = y2 + high.height / 2 + 9, bend = Math.max(20, Math.abs(from - to) / 2);
  return [`M${x1} ${from}C${x1} ${from - bend} ${x2} ${to + bend} ${x2} ${to}`, `M${x2} ${to - 9}l6 9h-12z`];
}

// The lines in sight and a window's width around it; they are drawn anew where what is seen comes to its edge.
function paintEdges(seen) {
  const known = drawn.places === laid.places && drawn.selected === store.selected && drawn.k / view.k < 2
    && view.k / drawn.k < 2;
  if (known && seen.left >= drawn.left && seen.top >= drawn.top && seen.right <= drawn.right
    && seen.bottom <= drawn.bottom) return;
  const width = seen.right - seen.left, height = seen.bottom - seen.top;
  const left = seen.left - width, top = seen.top - height, right = seen.right + width, bottom = seen.bottom + height;
  Object.assign(drawn, { places: laid.places, selected: store.selected, k: view.k, left, top, right, bottom });
  const plain = ["", ""], lit = ["", ""], faint = ["", ""];
  for (const [a, b] of laid.edges) {
    const [x1, y1] = laid.places.get(a), [x2, y2] = laid.places.get(b);
    if (Math.max(x1, x2) < left || Math.min(x1, x2) > right || Math.max(y1, y2) < top
      || Math.min(y1, y2) > bottom) continue;
    const into = store.selected.has(a) || store.selected.has(b) ? lit : laid.tops.has(b) ? faint : plain;
    const [line, head] = curve(a, b);
    into[0] += line;
    into[1] += head;
  }
  at("edges").replaceChildren(
    draw("path", { class: "edge faint", d: faint[0] }), draw("path", { class: "edge", d: plain[0] }),
      draw("path", { class: "arrow", d: plain[1] }),
    draw("path", { class: "edge lit", d: lit[0] }), draw("path", { class: "arrow lit", d: lit[1] }),
  );
}

// Marks a box as selected, focused, or named by a refusal.
function mark(n, element) {
  const where = store.refusal?.where;
  element.classList.toggle("selected", store.selected.has(n));
  element.classList.toggle("focused", store.focus === n);
  element.classList.toggle("refused", Boolean(where?.nodes.includes(n)));
  element.setAttribute("aria-selected", store.selected.has(n));
  for (const line of element.querySelectorAll(".line")) {
    const columns = (line.dataset.columns || "").split(" ");
    const named = where && ((where.column !== null && columns.includes(String(where.column)))
      || line.dataset.rows === String(where.row));
    line.classList.toggle("refused", Boolean(named));
  }
}

export function marks() {
  for (const [n, it] of elements) mark(n, it.element);
  at("diagram").setAttribute("aria-activedescendant", elements.has(store.focus) ? "n" + store.focus : "");
  redraw();
}

export function zoom(factor, x, y) {
  const size = at("diagram").getBoundingClientRect();
  const px = x ?? size.width / 2, py = y ?? size.height / 2;
  const k = Math.min(MOST, Math.max(LEAST, view.k * factor));
  view.x = px - ((px - view.x) * k) / view.k;
  view.y = py - ((py - view.y) * k) / view.k;
  view.k = k;
  redraw();
}

export function bounds() {
  let left = Infinity, top = Infinity, right = -Infinity, bottom = -Infinity;
  for (const [n, box] of laid.boxes) {
    const [x, y] = laid.places.get(n);
    left = Math.min(left, x - box.width / 2);
    right = Math.max(right, x + box.width / 2);
    top = Math.min(top, y - box.height / 2);
    bottom = Math.max(bottom, y + box.height / 2);
  }
  return { left, top, right, bottom };
}

export function fit() {
  if (!laid.boxes.size) return;
  const size = at("diagram").getBoundingClientRect(), all = bounds();
  const k = Math.min((size.width - 40) / (all.right - all.left), (size.height - 40) / (all.bottom - all.top), 1.2);
  view.k = Math.max(LEAST, k);
  view.x = size.width / 2 - ((all.left + all.right) / 2) * view.k;
  view.y = size.height / 2 - ((all.top + all.bottom) / 2) * view.k;
  redraw();
}

// Where a box stands on the screen, within the diagram.
export function onScreen(n) {
  const box = laid.boxes.get(n), place = laid.places.get(n);
  if (!box || !place) return null;
  const width = box.width * view.k, height = box.height * view.k;
  return { x: place[0] * view.k + view.x - width / 2, y: place[1] * view.k + view.y - height / 2, width, height };
}

// Brings a box into sight, near enough to be read.
export function reveal(n) {
  const node = store.model.nodes.get(n);
  if (!node) return;
  if (!isShown(node)) {
    shown.hidden.delete(node.origin ?? "");
    if (node.is_empty) { shown.empty = true; at("show-empty").checked = true; }
    emit("filters");
    relay().then(() => reveal(n));
    return;
  }
  const size = at("diagram").getBoundingClientRect();
  if (view.k < NEAR) view.k = 0.9;
  const now = onScreen(n);
  if (!now) return;
  const inside = now.x >= 0 && now.y >= 0 && now.x + now.width <= size.width && now.y + now.height <= size.height;
  if (!inside) {
    view.x += size.width / 2 - (now.x + now.width / 2);
    view.y += size.height / 2 - (now.y + now.height / 2);
  }
  redraw();
}

on("state", () => relay());
on("selection", marks);
on("refusal", marks);
on("reveal", (n) => laid.ready.then(() => reveal(n)));
