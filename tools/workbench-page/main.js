// The page: it asks for the program and the script's state, and puts its parts together.
import { at, button, make, short } from "./dom.js";
import * as actions from "./actions.js";
import { fit, laid, redraw, relay, shown, zoom } from "./diagram.js";
import "./classes.js";
import "./inspector.js";
import "./refusals.js";
import "./script.js";
import "./source.js";
import "./texts.js";
import { listenToKeys } from "./keys.js";
import { listenToPointer } from "./pointer.js";
import { ask } from "./server.js";
import { emit, on, select, setState, store } from "./store.js";

const TABS = ["source", "classes", "java", "runs", "script", "tree", "proposals"];
const FOUND = 40, NOTICE_MS = 12000;

export function showTab(name) {
  for (const it of TABS) {
    const chosen = it === name;
    at("tab-" + it).setAttribute("aria-selected", chosen);
    at("tab-" + it).tabIndex = chosen ? 0 : -1;
    at("view-" + it).hidden = !chosen;
  }
  emit("tab-shown", name);
}

function tabKeys(event) {
  const seen = TABS.filter((it) => !at("tab-" + it).hidden),
    now = seen.findIndex((it) => at("tab-" + it) === document.activeElement);
  const step = { ArrowRight: 1, ArrowLeft: -1 }[event.key];
  if (!step || now < 0) return;
  const next = seen[(now + step + seen.length) % seen.length];
  showTab(next);
  at("tab-" + next).focus();
  event.preventDefault();
}

function legend() {
  const entries = store.program.classes.filter((it) => store.model.ofClass(it.name).length
    || shown.hidden.has(it.name)).map((it) => {
    const entry = button(short(it.name, 24), () => {
      if (!shown.hidden.delete(it.name)) shown.hidden.add(it.name);
      legend();
      relay();
    }, { class: "swatch", hue: store.model.hues.get(it.name), "aria-pressed": !shown.hidden.has(it.name),
      title: it.name.slice(0, 200) });
    return entry;
  });
  at("legend").replaceChildren(...entries);
}

function notices() {
  const { state } = store, parts = [];
  if (state.changed) {
    parts.push(make("p", {}, "The script was changed by another program. ",
      button("Take what the file has", () => actions.post("reread"), { id: "reread" }), " ",
      button("Write mine over it", () => actions.post("keep"))));
  }
  if (state.stale) parts.push(make("p", {},
    "The program's file has another text now; what is shown is the text before. ", button("Read it again", readAgain)));
  if (state.refused.length) parts.push(make("p", {}, `${state.refused.length} edits of the script are refused. `,
    button("Show them", () => showTab("script"))));
  for (const old of at("notices").querySelectorAll(".lasting")) old.remove();
  for (const part of parts) part.className = "lasting";
  at("notices").prepend(...parts);
}

function passingNotice({ text, kind }) {
  const note = make("p", { class: kind, role: kind === "fault" ? "alert" : "status" }, text);
  note.append(button("\u00d7", () => note.remove(), { "aria-label": "Close", class: "close" }));
  at("notices").append(note);
  setTimeout(() => note.remove(), NOTICE_MS);
}

async function readAgain() {
  await actions.post("reread");
  store.program = await ask("program");
  emit("program");
  setState(await ask("state"));
}

function restate() {
  const { state } = store;
  at("undo").disabled = !state.steps.length;
  at("redo").disabled = !state.undone.length;
  at("undo").title = state.steps.length ? `Undo: ${short(state.steps[state.steps.length - 1].title, 80)} (Ctrl+Z)`
    : "Nothing to undo";
  at("redo").title = state.undone.length ? `Redo: ${short(state.undone[0].title, 80)} (Ctrl+Y)` : "Nothing to redo";
  at("kept").textContent = state.saved ? "kept in " + state.script.split("/").pop() : "not changed";
  at("kept").title = state.script;
  legend();
  notices();
}

// What a word finds: types by their names, and by what stands at them.
function found(word) {
  const wanted = word.toLowerCase(), hits = [];
  for (const node of store.model.nodes.values()) {
    const texts = [node.name, ...store.model.members(node).map((it) => it.text),
      ...node.rows.map((r) => store.program.rows[r].label)];
    const k = texts.findIndex((it) => it.toLowerCase().includes(wanted));
    if (k >= 0 || "n" + node.number === wanted) hits.push({ node, text: k > 0 ? texts[k] : "", rank: k === 0 ? 0 : 1 });
  }
  return hits.sort((a, b) => a.rank - b.rank || a.node.number - b.node.number).slice(0, FOUND);
}

function search() {
  const field = at("find"), list = at("found");
  const close = () => { list.hidden = true; field.setAttribute("aria-expanded", "false");
    field.removeAttribute("aria-activedescendant"); };
  const take = (entry) => { select([Number(entry.dataset.node)], true); close(); };
  const point = (entry) => {
    for (const it of list.children) it.setAttribute("aria-selected", it === entry);
    field.setAttribute("aria-activedescendant", entry.id);
    entry.scrollIntoView({ block: "nearest" });
  };
  field.addEventListener("input", () => {
    const hits = field.value.trim() ? found(field.value.trim()) : [];
    list.replaceChildren(...hits.map(({ node, text }, k) =>
      make("li", { role: "option", id: "hit" + k, "data-node": node.number, "aria-selected": "false" },
      make("b", {}, short(node.name, 40)), text ? " " + short(text, 40) : "",
        make("span", { class: "quiet" }, ` n${node.number}`))));
    list.hidden = !hits.length;
    field.setAttribute("aria-expanded", String(hits.length > 0));
    if (hits.length) point(list.firstChild);
  });
  field.addEventListener("keydown", (event) => {
    const items = [...list.children], now = items.findIndex((it) => it.getAttribute("aria-selected") === "true");
    if (event.key === "ArrowDown" && items.length) point(items[(now + 1) % items.length]);
    else if (event.key === "ArrowUp" && items.length) point(items[(now - 1 + items.length) % items.length]);
    else if (event.key === "Enter" && items[now] && !list.hidden) { take(items[now]); at("diagram").focus(); }
    else if (event.key === "Escape") { close(); at("diagram").focus(); }
    else return;
    event.preventDefault();
  });
  list.addEventListener("pointerdown", (event) => { const entry = event.target.closest("li");
    if (entry) { event.preventDefault(); take(entry); } });
  field.addEventListener("blur", close);
}

function theme() {
  const root = document.documentElement;
  let kept = null;
  try { kept = localStorage.getItem("kaba-theme"); } catch (error) { /* no storage: the browser's own choice */ }
  if (kept) root.dataset.theme = kept;
  at("theme").addEventListener("click", () => {
    const dark = root.dataset.theme ? root.dataset.theme === "dark"
      : matchMedia("(prefers-color-scheme: dark)").matches;
    root.dataset.theme = dark ? "light" : "dark";
    try { localStorage.setItem("kaba-theme", root.dataset.theme); } catch (error) { /* it lasts as long as the page */ }
  });
}

function toolbar() {
  at("undo").addEventListener("click", () => actions.undo(1));
  at("redo").addEventListener("click", () => actions.undo(-1));
  at("fit").addEventListener("click", fit);
  at("closer").addEventListener("click", () => zoom(1.25));
  at("farther").addEventListener("click", () => zoom(0.8));
  for (const [id, key] of [["show-variables", "variables"], ["show-empty", "empty"], ["fold-unasked", "foldUnasked"]]) {
    at(id).addEventListener("change", () => { shown[key] = at(id).checked; shown.unfolded.clear(); relay(); });
  }
  at("wider").addEventListener("click", () => {
    const wide = document.querySelector("main").classList.toggle("wide");
    at("wider").setAttribute("aria-pressed", String(wide));
    redraw();
  });
  at("sideways").addEventListener("change", () => { shown.sideways = at("sideways").checked; relay(); });
  on("laid", () => { at("sideways").checked = laid.sideways; });
  for (const it of TABS) at("tab-" + it).addEventListener("click", () => showTab(it));
  document.querySelector("[role=tablist]").addEventListener("keydown", tabKeys);
  addEventListener("resize", redraw);
  addEventListener("focus", () => actions.refresh());
}

async function begin() {
  toolbar();
  theme();
  search();
  listenToKeys();
  listenToPointer();
  on("state", restate);
  on("restate", restate);
  on("filters", legend);
  on("notice", passingNotice);
  on("tab", showTab);
  showTab("source");
  store.program = await ask("program");
  document.title = `${store.program.name} - Kaba workbench`;
  at("file").textContent = store.program.name;
  at("file").title = store.program.file;
  emit("program");
  setState(await ask("state"));
}

begin().catch((fault) => passingNotice({ text: fault.message, kind: "fault" }));
