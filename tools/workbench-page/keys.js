// The keys: for each thing that the mouse does.
import { at, button, make, say } from "./dom.js";
import { drop, merge, mergeBetween, undo } from "./actions.js";
import { fit, laid, relay, reveal, shown, zoom } from "./diagram.js";
import { closeMenu, nameInPlace, stop } from "./pointer.js";
import { close as closeRefusal } from "./refusals.js";
import { emit, select, store, toggle } from "./store.js";

const KEYS = [
  ["arrow keys", "from one type to the next: to what it stands below, to what stands below it, and to those beside it"],
  ["Space", "select the type, or let it go"],
  ["Enter", "select this one alone, and go to the side, where all that can be done with it stands"],
  ["F2", "another name for the type"],
  ["M", "merge the selected types; with Shift, with what lies between them"],
  ["U", "put the type under another, which is asked for at the side"],
  ["Delete", "drop the selected empty types"],
  ["F", "fold the type to its name, or unfold it"],
  ["A, C", "select what the selected ones alone need; what they have in common"],
  ["Ctrl+Z, Ctrl+Y", "undo, redo"],
  ["+, -, 0", "closer, farther, the whole picture"],
  ["/", "find a type, a member or a variable"],
  ["Escape", "close what is open, or let the selection go"],
  ["Tab", "to the next part of the page; in Source, arrow keys go along what is marked there"],
  ["?", "this"],
];

// The nearest box to this side of the focused one.
function neighbour(key) {
  const now = laid.places.get(store.focus);
  if (!now) return [...laid.boxes.keys()][0];
  const near = (list) => list.filter((n) => laid.places.has(n) && n !== store.focus)
    .sort((a, b) => distance(now, laid.places.get(a), key) - distance(now, laid.places.get(b), key))[0];
  const [upwards, downwards] = laid.sideways ? ["ArrowLeft", "ArrowRight"] : ["ArrowUp", "ArrowDown"];
  if (key === upwards || key === downwards) {
    const linked = laid.edges.flatMap(([a, b]) => key === upwards ? (a === store.focus ? [b] : []) : b === store.focus
      ? [a] : []);
    if (linked.length) return near(linked);
  }
  const side = { ArrowLeft: (p) => p[0] < now[0] - 1, ArrowRight: (p) => p[0] > now[0] + 1,
    ArrowUp: (p) => p[1] < now[1] - 1, ArrowDown: (p) => p[1] > now[1] + 1 }[key];
  return near([...laid.places.keys()].filter((n) => side(laid.places.get(n))));
}

function distance(a, b, key) {
  const across = key === "ArrowLeft" || key === "ArrowRight";
  return Math.abs(a[0] - b[0]) * (across ? 1 : 2) + Math.abs(a[1] - b[1]) * (across ? 3 : 1);
}

function goTo(n) {
  if (n === undefined) return;
  store.focus = n;
  emit("selection");
  reveal(n);
  const node = store.model.nodes.get(n);
  say(store.model.sentence(node) + (store.selected.has(n) ? ", selected" : ""));
}

export function fold(n) {
  const node = store.model.nodes.get(n);
  const folded = shown.folded.has(n) || (shown.foldUnasked && !node.rows.length && !shown.unfolded.has(n));
  shown.folded.delete(n);
  shown.unfolded.delete(n);
  if (folded) shown.unfolded.add(n); else shown.folded.add(n);
  relay();
}

const chosen = () => store.selected.size ? [...store.selected] : store.focus === null ? [] : [store.focus];

const IN_DIAGRAM = {
  " ": () => store.focus !== null && toggle(store.focus),
  Enter: () => { if (store.focus !== null) { select([store.focus]); emit("to-side"); } },
  F2: () => store.focus !== null && nameInPlace(store.focus),
  m: () => merge(chosen()),
  M: () => mergeBetween(chosen()),
  u: () => { if (chosen().length) { select(chosen().slice(0, 1)); emit("ask-under"); } },
  Delete: () => chosen().length && drop(chosen()),
  f: () => store.focus !== null && fold(store.focus),
  a: () => chosen().length && select(store.model.alone(chosen()), true),
  c: () => chosen().length && select(store.model.common(chosen()), true),
  "+": () => zoom(1.25),
  "=": () => zoom(1.25),
  "-": () => zoom(0.8),
  0: () => fit(),
};

function inDiagram(event) {
  if (event.ctrlKey || event.metaKey || event.altKey) return;
  if (event.key.startsWith("Arrow")) goTo(neighbour(event.key));
  else if (IN_DIAGRAM[event.key]) IN_DIAGRAM[event.key]();
  else return;
  event.preventDefault();
}

function anywhere(event) {
  const typing = event.target.closest("input, textarea, select, dialog");
  const control = event.ctrlKey || event.metaKey;
  if (control && !typing && event.key.toLowerCase() === "z") undo(event.shiftKey ? -1 : 1);
  else if (control && !typing && event.key.toLowerCase() === "y") undo(-1);
  else if (event.key === "/" && !typing) at("find").focus();
  else if (event.key === "?" && !typing) help();
  else if (event.key === "Escape") escape();
  else return;
  event.preventDefault();
}

function escape() {
  stop();
  if (!at("menu").hidden) closeMenu();
  else if (store.refusal) closeRefusal();
  else if (document.activeElement === at("diagram")) select([]);
}

export function help() {
  const rows = KEYS.map(([key, what]) => make("tr", {}, make("th", { scope: "row" }, key), make("td", {}, what)));
  at("help").replaceChildren(
    make("h2", { id: "help-title" }, "Keys"),
    make("table", {}, make("tbody", {}, rows)),
    make("p", {},
      "By the mouse: drag a type onto another, drag a member onto a type, double-click a name, drag the ground to "
      + "move the picture, turn the wheel to come closer; with Shift a click adds to the selection, and a frame on "
      + "the ground selects what is in it."),
    button("Close", () => at("help").close(), { autofocus: true }),
  );
  at("help").showModal();
}

export function listenToKeys() {
  at("diagram").addEventListener("keydown", inDiagram);
  document.addEventListener("keydown", anywhere);
  at("keys").addEventListener("click", help);
}
