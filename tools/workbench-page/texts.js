// The new Java beside the old, and runs of both.
import { at, button, make } from "./dom.js";
import { tell } from "./server.js";
import { on, store } from "./store.js";

const CHUNK = 100;
let due = true, form = null, turn = 0;

const NAMES = { patched: "as a change of your text", written: "as it is written anew" };

const forms = () => store.program.tools.patch ? ["patched", "written"] : ["written"];
const chosenForm = () => forms().includes(form) ? form : forms()[0];

// A changed line, the part that differs marked.
function parted(text, other, kind) {
  if (kind !== "changed" || !text || !other) return [text];
  let front = 0, back = 0;
  const most = Math.min(text.length, other.length);
  while (front < most && text[front] === other[front]) front++;
  while (back < most - front && text[text.length - 1 - back] === other[other.length - 1 - back]) back++;
  if ((front + back) * 3 < most) return [text];
  return [text.slice(0, front), make("mark", {}, text.slice(front, text.length - back)),
    text.slice(text.length - back)];
}

function diffRow([kind, i, left, j, right]) {
  const row = make("tr", { class: kind });
  row.append(make("td", { class: "number" }, i ? String(i) : ""),
    make("td", { class: "code left" }, parted(left, right, kind)),
    make("td", { class: "number" }, j ? String(j) : ""), make("td", { class: "code right" },
      parted(right, left, kind)));
  return row;
}

function formField() {
  const field = make("select", { "aria-label": "Which text", id: "java-form" },
    forms().map((it) => make("option", { value: it, selected: it === chosenForm() }, NAMES[it])));
  field.addEventListener("change", () => { form = field.value; showJava(); });
  return field;
}

function nextChange(table, step) {
  const rows = [...table.querySelectorAll("tr")];
  const begins = rows.filter((row, k) => !row.classList.contains("same")
    && (k === 0 || rows[k - 1].classList.contains("same")));
  if (!begins.length) return;
  const now = begins.findIndex((row) => row.classList.contains("here"));
  const next = begins[(now + step + begins.length) % begins.length] || begins[0];
  for (const row of begins) row.classList.toggle("here", row === next);
  next.scrollIntoView({ block: "center" });
}

async function showJava() {
  due = true;
  const view = at("view-java");
  if (view.hidden) return;
  due = false;
  const mine = ++turn;
  view.replaceChildren(make("p", { class: "quiet" }, "Writing the program .."));
  try {
    const answer = await tell("java", { form: chosenForm() });
    if (mine !== turn || answer.superseded) return;
    const bodies = [];
    for (let k = 0; k < answer.rows.length; k += CHUNK) bodies.push(make("tbody", {},
      answer.rows.slice(k, k + CHUNK).map(diffRow)));
    const table = make("table", { class: "diff mono", id: "diff" },
      make("caption", { class: "unseen" }, "The old text on the left, the new one on the right"),
      make("colgroup", {}, make("col", { class: "count" }), make("col"), make("col", { class: "count" }), make("col")),
        bodies);
    const file = answer.form + ".java";
    view.replaceChildren(
      make("div", { class: "bar" }, make("label", {}, "The new text ", formField()),
        button("Next difference", () => nextChange(table, 1)),
        button("The one before", () => nextChange(table, -1)),
          make("a", { href: "get/" + file, download: "", class: "button", id: "get-java" }, "Download"),
        answer.form === "patched" ? make("a", { href: "get/patched.diff", download: "", class: "button" }, "As a diff")
          : null,
        make("span", { class: "quiet" }, `${answer.changed} of ${answer.rows.length} lines differ`)),
      answer.said ? make("p", { class: "quiet note" }, answer.said) : "",
      make("div", { class: "scroll", tabindex: "0", "aria-label": "Old and new text beside each other" }, table));
  } catch (fault) {
    if (mine === turn) view.replaceChildren(make("div", { class: "bar" },
      make("label", {}, "The new text ", formField())), make("p", { class: "fault" }, fault.message));
  }
}

// The words of a line, as a shell has them: spaces part them, quotes keep them together.
export function wordsIn(line) {
  const found = [];
  let word = null, quote = null;
  for (const c of line) {
    if (quote) { if (c === quote) quote = null; else word += c; }
    else if (c === "'" || c === '"') { quote = c; word ??= ""; }
    else if (/\s/.test(c)) { if (word !== null) found.push(word); word = null; }
    else word = (word ?? "") + c;
  }
  return word === null ? found : [...found, word];
}

const HOW = { 0: "it came to its end", 10: "it ended in a fault", 11: "the bound on steps stopped it",
  "-1": "it was stopped" };

function runShown(title, run) {
  return make("section", {}, make("h3", {}, title), make("p", { class: "quiet" }, HOW[run.status]
    || `status ${run.status}`, run.error ? `: ${run.error}` : ""),
    make("pre", { class: "mono output", tabindex: "0" }, run.output));
}

function buildRuns() {
  const given = make("input", { id: "run-words", placeholder: "none", spellcheck: "false" });
  const steps = make("input", { id: "run-steps", type: "number", min: "0", max: "1000000000", value: "1000000" });
  const answer = make("div", { id: "run-answer", "aria-live": "polite" });
  const go = async () => {
    answer.replaceChildren(make("p", { class: "quiet" }, "Running both .."));
    try {
      const both = await tell("run", { words: wordsIn(given.value), steps: Number(steps.value), form: chosenForm() });
      if (both.superseded) throw new Error("The script changed in the meantime: run both again.");
      answer.replaceChildren(make("p", { class: both.same ? "good" : "fault" }, both.same
        ? "Both print the same, and end alike." : "They differ."),
        make("div", { class: "two" }, runShown("The old program", both.old), runShown("The new program", both.new)));
    } catch (fault) {
      answer.replaceChildren(make("p", { class: "fault" }, fault.message));
    }
  };
  for (const field of [given, steps]) field.addEventListener("keydown",
    (event) => { if (event.key === "Enter") go(); });
  at("view-runs").replaceChildren(
    make("div", { class: "bar" }, make("label", {}, "Words of main ", given),
      make("label", {}, "Steps at most ", steps), button("Run both", go, { id: "run-both", class: "main" })),
    answer);
}

on("program", buildRuns);
on("state", showJava);
on("tab-shown", (name) => { if (name === "java" && due) showJava(); });
