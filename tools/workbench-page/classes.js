// The old classes and the new types side by side.
import { at, make, short } from "./dom.js";
import { withBrackets } from "./model.js";
import { emit, on, select, store } from "./store.js";

const MOST_OPEN = 200;
let due = true;

function oldMembers(it) {
  const found = new Map();
  for (const c of it.columns) {
    const column = store.program.columns[c];
    const key = (column.kind === "field" ? "" : "m ") + column.name;
    const member = found.get(key) || { text: column.kind === "field" ? column.name : withBrackets(column.name), columns: [] };
    member.columns.push(c);
    found.set(key, member);
  }
  return [...found.values()];
}

function where(columns) {
  const nodes = [...new Set(columns.map((c) => store.model.nodeOfColumn.get(c)).filter((n) => n !== undefined))];
  return { nodes, text: nodes.length ? nodes.map((n) => short(store.model.name(n), 24)).join(", ")
    : "nothing needs it" };
}

function oldCard(it) {
  const hue = store.model.hues.get(it.name);
  const entries = oldMembers(it).map((member) => {
    const { nodes, text } = where(member.columns);
    const entry = make("li", { class: nodes.length ? "" : "dead" },
      make("span", { class: "mono" }, short(member.text, 40)), " ",
      make("button", { class: "link", type: "button" }, "\u2192 " + text));
    entry.lastChild.addEventListener("click", () => nodes.length ? select(nodes, true)
      : emit("show-item", "c" + member.columns[0]));
    return entry;
  });
  const head = make("button", { type: "button", class: "card-head" }, "class ", make("b", {}, short(it.name, 50)),
    it.parent ? " extends " + short(it.parent, 40) : "");
  head.addEventListener("click", () => select(store.model.ofClass(it.name), true));
  return make("article", { class: "card", hue, "data-class": it.name }, head, make("ul", { class: "plain" }, entries));
}

function newCard(node) {
  const hue = store.model.hue(node);
  const head = make("button", { type: "button", class: "card-head" }, node.kind + " ",
    make("b", {}, short(node.name, 50)),
    node.above.length ? " below " + short(node.above.map((n) => store.model.name(n)).join(", "), 60) : "");
  head.addEventListener("click", () => select([node.number], true));
  const members = store.model.members(node).map((it) => make("li", { class: "mono" }, short(it.text, 40)));
  const made = node.rows.filter((r) => store.model.isCreation(r)).map((r) =>
    make("li", { class: "mono creation" }, short(store.program.rows[r].label, 40)));
  return make("article", { class: "card" + (hue === null ? " grey" : ""), hue: hue ?? 0, "data-node": node.number },
    head, make("ul", { class: "plain" }, members, made));
}

function build() {
  due = true;
  if (at("view-classes").hidden) return;
  due = false;
  const nodes = [...store.model.nodes.values()], order = store.program.classes.map((it) => it.name);
  nodes.sort((a, b) => order.indexOf(a.origin) - order.indexOf(b.origin) || a.number - b.number);
  at("view-classes").replaceChildren(make("div", { class: "two" },
    make("section", { "aria-label": "Old classes" }, make("h3", {}, `Before: ${order.length} classes`),
      store.program.classes.map(oldCard)),
    make("section", { "aria-label": "New types" }, make("h3", {}, `Now: ${nodes.length} types`),
      nodes.slice(0, MOST_OPEN * 10).map(newCard))));
  light();
}

function light() {
  if (at("view-classes").hidden) return;
  const origins = new Set([...store.selected].map((n) => store.model.nodes.get(n).origin));
  for (const card of document.querySelectorAll("#view-classes .card")) {
    const lit = card.dataset.class ? origins.has(card.dataset.class) : store.selected.has(Number(card.dataset.node));
    card.classList.toggle("lit", lit);
  }
  document.querySelector("#view-classes .card.lit[data-node]")?.scrollIntoView({ block: "nearest" });
}

on("state", build);
on("selection", light);
on("tab-shown", (name) => { if (name === "classes" && due) build(); });
