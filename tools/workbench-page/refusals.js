// A refused edit, told at the types that it names, with what would mend it.
import { at, button, make, say } from "./dom.js";
import { apply } from "./actions.js";
import { onScreen, redraw, reveal, view } from "./diagram.js";
import { emit, on, select, setRefusal, store } from "./store.js";

const MARGIN = 12;

function chips(refusal) {
  const { nodes, row, column } = refusal.where;
  const found = [...new Set(nodes)].filter((n) => store.model.nodes.has(n)).map((n) =>
    button(store.model.name(n), () => select([n], true), { class: "chip" }));
  if (row !== null) {
    const it = store.program.rows[row];
    found.push(button(`${it.label}, line ${it.line}`, () => emit("show-item", "r" + row), { class: "chip" }));
  }
  if (column !== null) {
    const it = store.program.columns[column];
    found.push(button(`${it.holder}.${it.name}, line ${it.line}`, () => emit("show-item", "c" + column),
      { class: "chip" }));
  }
  return found;
}

function mendsOf(refusal) {
  if (refusal.mends === null) return [make("p", { class: "quiet" }, "Trying what would mend it ..")];
  if (!refusal.mends.length) return [make("p", { class: "quiet" },
    "Nothing near this edit is accepted: look at the types that are named here.")];
  const list = refusal.mends.map((it) => make("li", {}, button(it.title, () => apply(it.edits, it.title),
    { class: "mend", title: it.edits.join("; ") })));
  return [make("p", {}, "This would be accepted:"), make("ul", {}, list)];
}

function show() {
  const refusal = store.refusal, box = at("refusal");
  box.hidden = !refusal;
  if (!refusal) return;
  box.replaceChildren(
    make("div", { class: "row" }, make("strong", {}, "Refused: " + refusal.title),
      button("\u00d7", close, { "aria-label": "Close", class: "close" })),
    make("p", {}, refusal.text),
    make("p", { class: "chips" }, chips(refusal)),
    ...mendsOf(refusal),
    make("p", { class: "quiet mono" }, `${refusal.edit}: ${refusal.rule}`),
  );
  stand();
}

export function close() {
  setRefusal(null);
  at("diagram").focus();
}

// Where it stands beside a box without covering it: to the right, to the left, below or above.
function placeBeside(near, own, size) {
  const places = [
    { x: near.x + near.width + MARGIN, y: near.y },
    { x: near.x - own.width - MARGIN, y: near.y },
    { x: near.x, y: near.y + near.height + MARGIN },
    { x: near.x, y: near.y - own.height - MARGIN },
  ].map(({ x, y }, k) => k < 2 ? { x, y: within(y, own.height, size.height) }
    : { x: within(x, own.width, size.width), y });
  return places.find(({ x, y }) => x >= MARGIN && y >= MARGIN && x + own.width <= size.width - MARGIN && y
    + own.height <= size.height - MARGIN);
}

const within = (from, length, most) => Math.max(MARGIN, Math.min(from, most - length - MARGIN));

// Beside the first type that is named; else in the corner.
function stand() {
  const refusal = store.refusal, box = at("refusal");
  if (!refusal) return;
  const size = at("canvas").getBoundingClientRect(), own = box.getBoundingClientRect();
  const near = refusal.where.nodes.map(onScreen).find((it) => it && it.x + it.width > 0 && it.y + it.height > 0
    && it.x < size.width && it.y < size.height);
  const place = (near && placeBeside(near, own, size)) || { x: size.width - own.width - MARGIN, y: MARGIN };
  box.style.left = Math.max(MARGIN, place.x) + "px";
  box.style.top = Math.max(MARGIN, place.y) + "px";
}

// Moves the picture where the words would cover the type that they are about.
function makeRoom(n) {
  const near = onScreen(n), size = at("canvas").getBoundingClientRect(), own = at("refusal").getBoundingClientRect();
  if (!near || placeBeside(near, own, size)) return;
  view.x += 2 * MARGIN - near.x;
  view.y += Math.min(0, size.height / 3 - near.y);
  redraw();
}

let last = null;
on("refusal", () => {
  const fresh = store.refusal && store.refusal !== last;
  last = store.refusal;
  show();
  if (!fresh) return;
  say("refused: " + store.refusal.text);
  const first = store.refusal.where.nodes.find((n) => store.model.nodes.has(n));
  if (first === undefined) return;
  reveal(first);
  makeRoom(first);
});
on("painted", stand);
