// The mouse in the diagram: select, pan, zoom, drag types and members, and names in place.
import { at, button } from "./dom.js";
import { change, merge, mergeBetween, move, nameMember, nameType, under } from "./actions.js";
import { laid, onScreen, redraw, view, zoom } from "./diagram.js";
import { emit, select, store, toggle } from "./store.js";

const MOVED = 5, WHEEL = 1.0015;
let drag = null;

const numberOf = (element) => Number(element.id.slice(1));

function belowPointer(event) {
  const hit = document.elementFromPoint(event.clientX, event.clientY);
  return hit && hit.closest ? hit.closest("#boxes .node") : null;
}

function begin(event) {
  if (event.button !== 0) return;
  closeMenu();
  const node = event.target.closest(".node"), line = event.target.closest(".member");
  drag = { x: event.clientX, y: event.clientY, moved: false, node: node && numberOf(node), more: event.shiftKey
    || event.ctrlKey || event.metaKey };
  if (line) drag.columns = line.dataset.columns.split(" ").map(Number);
  drag.item = event.target.closest(".line")?.dataset.item;
  drag.kind = node ? (line ? "member" : "node") : event.shiftKey ? "band" : "pan";
  drag.view = { ...view };
  at("diagram").setPointerCapture(event.pointerId);
}

function goOn(event) {
  if (!drag) return;
  const dx = event.clientX - drag.x, dy = event.clientY - drag.y;
  if (!drag.moved && Math.hypot(dx, dy) < MOVED) return;
  drag.moved = true;
  if (drag.kind === "pan") {
    view.x = drag.view.x + dx;
    view.y = drag.view.y + dy;
    redraw();
  } else if (drag.kind === "band") {
    band(event);
  } else {
    ghost(event);
  }
}

function band(event) {
  const size = at("diagram").getBoundingClientRect(), rect = at("band");
  const x = Math.min(drag.x, event.clientX) - size.left, y = Math.min(drag.y, event.clientY) - size.top;
  const width = Math.abs(event.clientX - drag.x), height = Math.abs(event.clientY - drag.y);
  for (const [name, value] of Object.entries({ x, y, width, height })) rect.setAttribute(name, value);
  rect.removeAttribute("hidden");
  drag.band = { x, y, width, height };
}

function ghost(event) {
  const it = at("ghost");
  it.hidden = false;
  it.textContent = drag.kind === "member" ? store.model.columnName(drag.columns[0])
    : draggedTypes().map((n) => store.model.name(n)).slice(0, 3).join(", ");
  it.style.left = event.clientX + 14 + "px";
  it.style.top = event.clientY + 10 + "px";
  const target = belowPointer(event);
  for (const other of document.querySelectorAll("#boxes .target")) {
    if (other !== target) other.classList.remove("target");
  }
  if (target && numberOf(target) !== drag.node) target.classList.add("target");
}

function draggedTypes() {
  return store.selected.has(drag.node) ? [...store.selected] : [drag.node];
}

function end(event) {
  const done = drag;
  if (!done) return;
  const target = belowPointer(event), number = target && numberOf(target);
  const dragged = done.kind === "node" ? draggedTypes() : [];
  stop();
  if (!done.moved) return click(done);
  if (done.kind === "band") return takeBand(done.band);
  if (number === null || number === undefined || number === done.node) return;
  if (done.kind === "member") move(done.columns, number);
  else if (done.kind === "node") dropMenu(event, dragged, number);
}

export function stop() {
  drag = null;
  at("ghost").hidden = true;
  at("band").setAttribute("hidden", "");
  for (const other of document.querySelectorAll("#boxes .target")) other.classList.remove("target");
}

function click(done) {
  if (done.kind === "pan") { if (!done.more) select([]); return; }
  if (done.kind === "band") return;
  if (done.more) toggle(done.node);
  else { store.focus = done.node; select([done.node]); }
  const item = done.item || (done.columns && "c" + done.columns[0]);
  if (item) emit("show-item", item);
}

function takeBand(area) {
  if (!area) return;
  const found = [...laid.boxes.keys()].filter((n) => {
    const it = onScreen(n);
    return it.x < area.x + area.width && it.x + it.width > area.x && it.y < area.y + area.height && it.y
      + it.height > area.y;
  });
  select([...store.selected, ...found]);
}

// What may be done with types that were dropped on another.
function dropMenu(event, dragged, target) {
  const lower = dragged.filter((n) => n !== target), all = [...lower, target], name = (n) => store.model.name(n);
  const what = lower.length === 1 ? name(lower[0]) : lower.length + " types";
  const underAll = () => lower.length === 1 ? under(lower[0], target)
    : change([lower.map((n) => `under n${n} n${target}`)], `put ${what} under ${name(target)}`, lower);
  openMenu(event.clientX, event.clientY, [
    [`Put ${what} under ${name(target)}`, underAll],
    [`Merge ${what} with ${name(target)}`, () => merge(all)],
    ["Merge, with what lies between", () => mergeBetween(all)],
    ["Nothing", () => {}],
  ]);
}

export function openMenu(x, y, choices) {
  const menu = at("menu");
  menu.replaceChildren(...choices.map(([text, what]) => button(text, () => { closeMenu(); what(); },
    { role: "menuitem" })));
  menu.hidden = false;
  menu.style.left = Math.min(x, innerWidth - menu.offsetWidth - 8) + "px";
  menu.style.top = Math.min(y, innerHeight - menu.offsetHeight - 8) + "px";
  menu.firstChild.focus();
}

export function closeMenu() {
  const menu = at("menu");
  if (menu.hidden) return;
  menu.hidden = true;
  at("diagram").focus();
}

function menuKeys(event) {
  const items = [...at("menu").children], now = items.indexOf(document.activeElement);
  const step = { ArrowDown: 1, ArrowUp: -1 }[event.key];
  if (step) items[(now + step + items.length) % items.length].focus();
  else if (event.key === "Escape" || event.key === "Tab") closeMenu();
  else return;
  event.preventDefault();
  event.stopPropagation();
}

// A field for a name, over what is named.
export function nameInPlace(number, columns = null) {
  const element = document.getElementById("n" + number);
  const onIt = columns && element ? element.querySelector(`.member[data-columns="${columns.join(" ")}"] rect`) : element
    && element.querySelector(".head, .box");
  if (!onIt) return;
  const place = onIt.getBoundingClientRect(), size = at("canvas").getBoundingClientRect();
  const field = document.createElement("input");
  field.className = "in-place";
  field.value = columns ? store.model.columnName(columns[0]) : store.model.name(number);
  field.setAttribute("aria-label", "New name");
  field.style.left = place.left - size.left + "px";
  field.style.top = place.top - size.top + "px";
  field.style.width = Math.max(150, place.width) + "px";
  let open = true;
  const finish = (take) => {
    if (!open) return;
    open = false;
    const wanted = field.value;
    field.remove();
    at("diagram").focus();
    if (take) columns ? nameMember(columns[0], wanted) : nameType(number, wanted);
  };
  field.addEventListener("keydown", (event) => {
    event.stopPropagation();
    if (event.key === "Enter" || event.key === "Escape") finish(event.key === "Enter");
  });
  field.addEventListener("blur", () => finish(false));
  at("canvas").append(field);
  field.focus();
  field.select();
}

function doubled(event) {
  const hit = document.elementFromPoint(event.clientX, event.clientY), node = hit?.closest("#boxes .node");
  if (!node) return;
  const line = hit.closest(".member");
  if (line && line.classList.contains("mark")) return;
  nameInPlace(numberOf(node), line ? line.dataset.columns.split(" ").map(Number) : null);
}

export function listenToPointer() {
  const diagram = at("diagram");
  diagram.addEventListener("pointerdown", begin);
  diagram.addEventListener("pointermove", goOn);
  diagram.addEventListener("pointerup", end);
  diagram.addEventListener("pointercancel", stop);
  diagram.addEventListener("dblclick", doubled);
  diagram.addEventListener("wheel", (event) => {
    event.preventDefault();
    const size = diagram.getBoundingClientRect();
    zoom(WHEEL ** -event.deltaY, event.clientX - size.left, event.clientY - size.top);
  }, { passive: false });
  at("menu").addEventListener("keydown", menuKeys);
  document.addEventListener("pointerdown", (event) => { if (!event.target.closest("#menu")) at("menu").hidden = true;
    });
}
