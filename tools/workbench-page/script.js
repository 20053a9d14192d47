// The script's steps, the tree of classes, plans and proposals.
import { at, button, make, say, short } from "./dom.js";
import * as actions from "./actions.js";
import { ask, tell } from "./server.js";
import { emit, on, select, setRefusal, store } from "./store.js";

let treeTurn = 0;

function stepEntry(step, k, undone) {
  const { steps } = store.state;
  const go = undone ? () => actions.undo(-(k + 1)) : () => actions.undo(steps.length - k - 1);
  const text = undone ? "Redo up to here" : "Back to here";
  const last = !undone && k === steps.length - 1;
  const lines = step.lines.filter((line) => !/^# \d+ edits:/.test(line)), grouped = lines.length < step.lines.length;
  const shown = make("pre", { class: "mono" }, lines.map((line) => short(line, 200)).join("\n"));
  return make("li", { class: undone ? "undone" : "" },
    make("div", { class: "row" }, grouped ? make("span", {}, short(step.title, 90)) : shown, last ? null
      : button(text, go, { class: "link" })), grouped ? shown : null);
}

function refusedPart() {
  const { refused } = store.state;
  if (!refused.length) return [];
  const entries = refused.map((it) => make("li", {}, make("b", {}, `line ${it.line}, ${short(it.edit, 80)}: `), it.text,
    make("span", { class: "quiet" }, ` ${it.rule}`)));
  return [make("p", { class: "fault" }, `${refused.length} edits of this script are refused, and change nothing:`),
    make("ul", {}, entries),
    button("Take them out of the script", actions.clean, { id: "clean" })];
}

function showScript() {
  const { state } = store;
  at("view-script").replaceChildren(
    make("div", { class: "bar" }, button("Undo", () => actions.undo(1), { disabled: !state.steps.length }),
      button("Redo", () => actions.undo(-1), { disabled: !state.undone.length }),
      button("To the beginning", () => actions.undo(state.steps.length), { disabled: !state.steps.length }),
      make("a", { href: "get/script.edits", download: "", class: "button", id: "get-script" }, "Download the script")),
    make("p", { class: "quiet" }, `It is kept in ${state.script}${state.saved ? "" : ", from the first edit on"}.`),
    ...refusedPart(),
    make("ol", { class: "steps", id: "steps" }, state.steps.map((step, k) => stepEntry(step, k, false))),
    state.undone.length ? make("h3", {}, "Undone") : "",
    make("ol", { class: "steps" }, state.undone.map((step, k) => stepEntry(step, k, true))));
}

const named = (text) => text.replace(/\bn(\d+)\b/g, (word, n) => store.model.nodes.has(Number(n))
  ? `${short(store.model.name(Number(n)), 40)} (${word})` : word);

function treeShown(tree) {
  const parts = [];
  if (tree.found && !tree.steps.length) parts.push(make("p", { class: "good" },
    "The classes form a tree as they are: each extends one."));
  if (tree.found && tree.steps.length) parts.push(make("p", { class: "good" },
    `A tree is found by ${tree.steps.length} steps more, which the program makes when it writes the Java:`));
  if (!tree.found) parts.push(conflictShown(tree));
  if (tree.steps.length) {
    const entries = tree.steps.map((step) => make("li", {}, make("span", {}, named(step.edit)),
      make("span", { class: "quiet" },
        ` since ${named("n" + step.conflict[0])} stands below both ${named("n" + step.conflict[1])} `
        + `and ${named("n" + step.conflict[2])}`)));
    parts.push(make("ol", { class: "steps" }, entries),
      button("Make these steps edits of the script", () => actions.apply(tree.steps.map((it) => it.edit),
        "the steps to the tree"), { id: "take-steps" }));
  }
  return parts;
}

function conflictShown({ conflict }) {
  const [low, x, y] = conflict.between;
  const show = () => {
    const rule = conflict.obligation, where = { nodes: conflict.between, row: conflict.row, column: conflict.column };
    const text = `${named("n" + low)} stands below both ${named("n" + x)} and ${named("n" + y)}, `
      + "and a class extends one class. Each way to order the two is refused.";
    setRefusal({ title: "no tree of classes", text, where, rule, edit: "tree", mends: [] });
    select(conflict.between.filter((n) => store.model.nodes.has(n)), true);
  };
  return make("div", {}, make("p", { class: "fault" }, "No tree is found, so no program is written. ",
    `${named("n" + low)} stands below both ${named("n" + x)} and `
    + `${named("n" + y)}; neither can stand below the other, nor be one with it: `
    + `the last way that was tried breaks ${conflict.obligation}.`),
  button("Show it in the picture", show));
}

async function showTree() {
  const mine = ++treeTurn, badge = at("tree");
  badge.className = "badge";
  badge.textContent = "tree: ..";
  at("view-tree").replaceChildren(make("p", { class: "quiet" }, "Looking for a tree .."));
  try {
    const tree = await ask("tree");
    if (mine !== treeTurn || tree.superseded) return;
    badge.textContent = tree.found ? (tree.steps.length ? `tree: by ${tree.steps.length} steps` : "tree: found")
      : "tree: none";
    badge.className = "badge " + (tree.found ? "good" : "bad");
    at("view-tree").replaceChildren(...treeShown(tree));
  } catch (fault) {
    if (mine !== treeTurn) return;
    badge.textContent = "tree: not known";
    at("view-tree").replaceChildren(make("p", { class: "fault" }, fault.message));
  }
}

function buildProposals() {
  const { tools, classes } = store.program, tab = at("tab-proposals");
  tab.hidden = !tools.plan;
  if (!tools.plan) return;
  const text = make("textarea", { id: "plan-text", class: "mono", rows: "18", spellcheck: "false",
    "aria-label": "The plan" });
  const fault = make("p", { class: "fault", role: "alert", id: "plan-fault" });
  const boxes = classes.filter((it) => it.columns.length).map((it) =>
    make("label", {}, make("input", { type: "checkbox", value: it.name }), " " + short(it.name, 40)));
  const said = make("p", { class: "quiet", role: "status", id: "plan-said" });
  const guarded = (what) => async () => { fault.textContent = said.textContent = "";
    try { await what(); } catch (wrong) { fault.textContent = wrong.message; } };
  const propose = guarded(async () => {
    const picked = boxes.map((it) => it.querySelector("input")).filter((it) => it.checked).map((it) => it.value);
    say("proposing");
    text.value = (await tell("propose", { classes: picked })).plan;
  });
  const apply = guarded(async () => {
    const { edits } = await tell("plan", { plan: text.value });
    if (store.state.steps.length) await actions.undo(store.state.steps.length);
    await actions.apply(edits, "the plan");
  });
  const shown = guarded(async () => {
    const plan = await tell("plan-of", {});
    text.value = plan.plan;
    said.textContent = plan.said;
  });
  at("view-proposals").replaceChildren(
    tools.propose ? make("fieldset", {}, make("legend", {},
      "Propose to part (none: those whose objects leave most unused)"), boxes,
      button("Propose", propose, { id: "propose", class: "main" })) : "",
    make("p", { class: "quiet" },
      "A plan speaks of the program as it was at first. When it is applied, the steps until then are undone."),
    text,
    make("div", { class: "bar" }, button("Apply the plan", apply, { id: "apply-plan", class: "main" }),
      button("The plan of what is shown", shown, { id: "plan-of" }),
      make("a", { href: "get/plan", download: "", class: "button" }, "Download that plan")),
    fault, said);
}

on("program", buildProposals);
on("state", showScript);
on("state", showTree);
at("tree").addEventListener("click", () => emit("tab", "tree"));
