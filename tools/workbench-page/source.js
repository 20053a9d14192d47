// The source, where members, variables and creations are marked with the types at which they stand.
import { at, make, short } from "./dom.js";
import { emit, on, select, store } from "./store.js";

const CHUNK = 100;
let spots = [], current = -1;

const nodesOf = (items) => [...new Set(items.map((item) => {
  const number = Number(item.slice(1));
  return item[0] === "c" ? store.model.nodeOfColumn.get(number) : store.model.nodeOfRow.get(number);
}).filter((n) => n !== undefined))];

function labelOf(items) {
  return items.map((item) => {
    const number = Number(item.slice(1));
    const n = nodesOf([item])[0];
    const label = item[0] === "c" ? store.program.columns[number].label : store.program.rows[number].label;
    return `${short(label, 80)}: ${n === undefined ? "nothing needs it" : short(store.model.name(n), 60)}`;
  }).join("\n");
}

function lineOf(pieces, number) {
  const line = make("div", { class: "source-line", id: "line" + number });
  line.append(make("span", { class: "number", "aria-hidden": "true" }, String(number)));
  for (const [text, items] of pieces) {
    if (!items) { line.append(text); continue; }
    const spot = make("span", { class: "spot", role: "button", tabindex: "-1", "data-items": items.join(" ") }, text);
    spots.push(spot);
    line.append(spot);
  }
  return line;
}

function build() {
  const view = at("view-source");
  spots = [];
  current = -1;
  const listing = make("div", { class: "source mono", tabindex: "0",
    "aria-label": "The source. Arrow keys go along what is marked, Enter selects its type" });
  const lines = store.program.source;
  for (let k = 0; k < lines.length; k += CHUNK) {
    const chunk = make("div", { class: "chunk" }, lines.slice(k, k
      + CHUNK).map((pieces, j) => lineOf(pieces, k + j + 1)));
    chunk.style.containIntrinsicSize = `auto ${Math.min(CHUNK, lines.length - k) * 18}px`;
    listing.append(chunk);
  }
  listing.addEventListener("click", (event) => pressed(event.target.closest(".spot")));
  listing.addEventListener("keydown", keys);
  view.replaceChildren(listing);
}

function pressed(spot) {
  if (!spot) return;
  current = spots.indexOf(spot);
  const nodes = nodesOf(spot.dataset.items.split(" "));
  if (nodes.length) select(nodes, true);
  else emit("notice", { text: "Nothing needs this member, so it stands at no type and is not written", kind: "hint" });
  here(spot);
}

function here(spot) {
  for (const it of document.querySelectorAll(".spot.here")) it.classList.remove("here");
  spot.classList.add("here");
}

function keys(event) {
  const step = { ArrowDown: 1, ArrowRight: 1, ArrowUp: -1, ArrowLeft: -1 }[event.key];
  if (step && spots.length) {
    current = (current + step + spots.length) % spots.length;
    here(spots[current]);
    spots[current].scrollIntoView({ block: "nearest" });
    spots[current].focus();
  } else if ((event.key === "Enter" || event.key === " ") && spots[current]) {
    pressed(spots[current]);
  } else {
    return;
  }
  event.preventDefault();
  event.stopPropagation();
}

// What each mark says and its colour, after each state.
function markAll() {
  for (const spot of spots) {
    const items = spot.dataset.items.split(" "), nodes = nodesOf(items);
    const hue = nodes.length ? store.model.hue(store.model.nodes.get(nodes[0])) : null;
    spot.classList.toggle("dead", !nodes.length);
    spot.style.setProperty("--hue", hue ?? 0);
    spot.classList.toggle("grey", hue === null);
    spot.title = labelOf(items);
    spot.setAttribute("aria-label", spot.textContent.slice(0, 80) + ", " + spot.title);
  }
}

function light() {
  let first = null;
  const where = store.refusal?.where;
  const named = new Set(where ? [where.row !== null && "r" + where.row, where.column !== null && "c"
    + where.column].filter((it) => it) : []);
  for (const spot of spots) {
    const items = spot.dataset.items.split(" ");
    const lit = nodesOf(items).some((n) => store.selected.has(n));
    spot.classList.toggle("lit", lit);
    spot.classList.toggle("refused", items.some((item) => named.has(item)));
    if (lit && !first) first = spot;
  }
  const listing = at("view-source").firstChild;
  const seen = spots.some((spot) => spot.classList.contains("lit") && isSeen(spot, listing));
  if (first && !seen && !listing.contains(document.activeElement)) first.scrollIntoView({ block: "center" });
}

function isSeen(spot, listing) {
  const a = spot.getBoundingClientRect(), b = listing.getBoundingClientRect();
  return a.top >= b.top && a.bottom <= b.bottom;
}

function showItem(item) {
  const spot = spots.find((it) => it.dataset.items.split(" ").includes(item));
  if (!spot) return;
  emit("tab", "source");
  here(spot);
  current = spots.indexOf(spot);
  spot.scrollIntoView({ block: "center" });
}

on("program", build);
on("state", markAll);
on("selection", light);
on("refusal", light);
on("show-item", showItem);
