// The side: what is selected, and all that can be done with it.
import { at, button, make, short } from "./dom.js";
import * as actions from "./actions.js";
import { fold } from "./keys.js";
import { emit, on, select, store } from "./store.js";

const MOST_SHOWN = 60;

const typeLink = (n) => button(store.model.name(n), () => select([n], true), { class: "link" });
const lineLink = (item, line) => line ? button("line " + line, () => emit("show-item", item), { class: "link" }) : null;

function links(title, numbers) {
  if (!numbers.length) return null;
  const shown = numbers.slice(0, MOST_SHOWN).flatMap((n, k) => [k ? ", " : "", typeLink(n)]);
  return make("p", {}, make("b", {}, title + " "), shown, numbers.length > MOST_SHOWN
    ? ` and ${numbers.length - MOST_SHOWN} more` : "");
}

// A field with a list of all types, and what is done with the one that is named in it.
function typeField(label, what, id) {
  const field = make("input", { list: "all-types", placeholder: "a type", id, autocomplete: "off",
    "aria-label": label });
  const go = () => {
    const found = /\(n(\d+)\)$/.exec(field.value) || /^n(\d+)$/.exec(field.value);
    const named = [...store.model.nodes.values()].find((node) => node.name === field.value.trim());
    const number = found ? Number(found[1]) : named?.number;
    if (number === undefined || !store.model.nodes.has(number)) actions.notice(`There is no type ${short(field.value)}`,
      "hint");
    else what(number);
  };
  field.addEventListener("keydown", (event) => { if (event.key === "Enter") go(); });
  return make("span", { class: "pair" }, field, button(label, go));
}

function nameField(label, value, what, id) {
  const field = make("input", { value, "aria-label": label, id, spellcheck: "false" });
  field.addEventListener("keydown", (event) => { if (event.key === "Enter") what(field.value); });
  return make("span", { class: "pair" }, field, button(label, () => what(field.value)));
}

function memberEntry(member) {
  const entry = make("li", { "data-columns": member.columns.join(" ") });
  const users = Math.max(...member.columns.map((c) => store.program.columns[c].users));
  const open = make("details", {}, make("summary", {}, make("span", { class: "mono" }, short(member.text, 60)), " ",
    make("span", { class: "quiet" }, `${member.kind} of ${short(member.holder, 30)}, needed by ${users}`)));
  open.addEventListener("toggle", () => {
    if (!open.open || open.children.length > 1) return;
    const more = make("div", { class: "more" }, lineLink("c" + member.columns[0], member.line));
    if (member.kind !== "mark") more.append(nameField("Name", store.model.columnName(member.columns[0]),
      (name) => actions.nameMember(member.columns[0], name)));
    more.append(typeField("Move to", (n) => actions.move(member.columns, n)));
    if (member.columns.length > 1) {
      const parts = member.columns.map((c) => typeField(`Move ${store.program.columns[c].kind} to`,
        (n) => actions.move([c], n)));
      more.append(make("details", {}, make("summary", {}, "apart"), parts));
    }
    open.append(more);
  });
  entry.append(open);
  return entry;
}

function rowEntry(r) {
  const row = store.program.rows[r];
  return make("li", {}, make("span", { class: "mono" }, short(row.label, 60)), " ", lineLink("r" + r, row.line),
    make("span", { class: "quiet" }, ` needs ${row.needs.length}`));
}

function list(title, entries) {
  if (!entries.length) return null;
  return [make("h3", {}, `${title} (${entries.length})`), make("ul", { class: "plain" }, entries.slice(0, 400))];
}

function selections(numbers) {
  const model = store.model, origins = [...new Set(numbers.map((n) => model.nodes.get(n).origin))].filter((it) => it);
  const choose = (text, what, title) => button(text, () => select(what(), true), { title });
  return make("fieldset", {}, make("legend", {}, "Select"),
    choose("what it alone needs", () => model.alone(numbers),
      "The types at or above that no other creation stands below"),
    choose("all above", () => [...new Set(numbers.flatMap((n) => [...model.above(n)]))]),
    choose("all below", () => [...new Set(numbers.flatMap((n) => model.below(n)))]),
    numbers.length > 1 && choose("what they have in common", () => model.common(numbers),
      "The types that all of them stand below, of their classes"),
    numbers.length > 1 && choose("what lies between", () => model.between(numbers)),
    origins.slice(0, 3).map((name) => choose("all of " + short(name, 24), () => model.ofClass(name))));
}

function one(node) {
  const model = store.model, n = node.number;
  const members = model.members(node), empty = node.is_empty;
  const rows = [...node.rows].sort((a, b) => model.isCreation(b) - model.isCreation(a) || a - b);
  return [
    make("h2", { title: node.name }, short(node.name, 60), " ", make("span", { class: "quiet" }, `${node.kind} n${n}`)),
    make("p", {}, node.origin ? `from the class ${short(node.origin, 60)}` : "from no one class", empty ? ", empty"
      : ""),
    links("below", node.above), links("above", node.below),
    make("div", { class: "actions" },
      nameField("Name", node.name, (name) => actions.nameType(n, name), "name-type"),
      typeField("Put under", (m) => actions.under(n, m), "put-under"),
      typeField("Merge with", (m) => actions.merge([n, m]), "merge-with"),
      button("Drop", () => actions.drop([n]), { disabled: !empty, title: empty ? ""
        : "Only an empty type can be dropped" }),
      button("Fold or unfold", () => fold(n))),
    selections([n]),
    list("Members", members.map(memberEntry)),
    list("Variables and creations", rows.map(rowEntry)),
  ];
}

function several(numbers) {
  const model = store.model, field = make("input", { id: "merge-name", placeholder: model.name(Math.min(...numbers)),
    "aria-label": "Name of the merged type", spellcheck: "false" });
  const between = model.between(numbers).length - numbers.length;
  const go = () => actions.merge(numbers, field.value);
  field.addEventListener("keydown", (event) => { if (event.key === "Enter") go(); });
  const empty = numbers.every((n) => model.nodes.get(n).is_empty);
  return [
    make("h2", {}, `${numbers.length} types`),
    make("div", { class: "actions" },
      make("label", {}, "Name ", field),
      button("Merge", go, { id: "merge", class: "main" }),
      button(between ? `Merge with the ${between} between` : "Nothing lies between",
        () => actions.mergeBetween(numbers, field.value), { id: "merge-between", disabled: !between }),
      button("Drop them", () => actions.drop(numbers), { disabled: !empty, title: empty ? ""
        : "Only empty types can be dropped" })),
    selections(numbers),
    links("They are", numbers),
    list("Members", numbers.flatMap((n) => model.members(model.nodes.get(n))).map((it) =>
      make("li", { class: "mono" }, short(it.text, 60)))),
  ];
}

function none() {
  const { model, program, state } = store, nodes = [...model.nodes.values()];
  const empty = nodes.filter((node) => node.is_empty).length,
    dead = program.columns.filter((_, c) => !model.nodeOfColumn.has(c));
  return [
    make("h2", {}, "Nothing is selected"),
    make("p", {},
      `${nodes.length} types of ${program.classes.length} classes, ${empty} of them empty; `
      + `${program.rows.length} variables and creations, `
      + `${program.columns.length} columns; ${state.steps.length} steps.`),
    make("p", {},
      "Press a type to select it, with Shift one more; drag it onto another to put it under that or to merge the "
      + "two; drag a member "
      + "onto a type to move it; double-click a name to change it. The keys are listed behind ", make("kbd", {}, "?"),
        "."),
    make("div", { class: "actions" }, button("Drop the empty types", actions.dropEmpty,
      { id: "drop-empty", disabled: !empty })),
    list("Members that nothing needs", dead.map((it) => make("li", { class: "mono" }, short(it.label, 60), " ",
      lineLink("c" + program.columns.indexOf(it), it.line)))),
  ];
}

function show() {
  const numbers = [...store.selected];
  const parts = numbers.length === 1 ? one(store.model.nodes.get(numbers[0])) : numbers.length ? several(numbers)
    : none();
  at("side").replaceChildren(...parts.flat().filter((it) => it));
}

// The names of all types, for the fields that ask for one.
function listTypes() {
  document.getElementById("all-types")?.remove();
  const options = [...store.model.nodes.values()].map((node) =>
    make("option", { value: `${short(node.name, 80)} (n${node.number})` }));
  document.body.append(make("datalist", { id: "all-types" }, options));
}

on("state", listTypes);
on("selection", show);
on("to-side", () => at("side").focus());
on("ask-under", () => at("put-under")?.focus());
