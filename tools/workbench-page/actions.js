// What is done to the hierarchy: each is some edits, tried by the program before they are made.
import { say } from "./dom.js";
import { ask, tell } from "./server.js";
import { emit, select, setRefusal, setState, store } from "./store.js";

let busy = Promise.resolve();

export function notice(text, kind = "fault") {
  emit("notice", { text, kind });
}

// One question after the other; what goes wrong is told.
function inTurn(what) {
  busy = busy.then(what).catch((fault) => {
    if (fault.state) setState(fault.state);
    notice(fault.message);
    emit("restate");
  });
  return busy;
}

// Makes the first list of edits that is accepted; `then` are the types to select after it.
export function change(choices, title, then = []) {
  return inTurn(async () => {
    document.body.classList.add("busy");
    try {
      const answer = await tell("edit", { choices, title, revision: store.state.revision });
      if (answer.accepted) {
        setState(answer.state);
        if (then.length) select(then);
        say("done: " + title);
        if (answer.warning) notice(answer.warning, "warning");
        emit("made", title);
      } else {
        refuse(answer.refusal, choices[0], title);
      }
    } finally {
      document.body.classList.remove("busy");
    }
  });
}

function refuse(refusal, edits, title) {
  const told = { ...refusal, edits, title, mends: null };
  setRefusal(told);
  tell("mends", { edits, title, revision: store.state.revision }).then(
    ({ mends }) => { if (store.refusal === told) { told.mends = mends; emit("refusal"); } },
    () => { if (store.refusal === told) { told.mends = []; emit("refusal"); } },
  );
}

export function undo(count = 1) {
  const steps = count > 0 ? store.state.steps : store.state.undone;
  if (steps.length < Math.abs(count)) return busy;
  return inTurn(async () => {
    const answer = await tell("undo", { count, revision: store.state.revision });
    setState(answer.state);
    say(count > 0 ? "undone" : "done again");
  });
}

export const refresh = () => inTurn(async () => {
  const state = await ask("state");
  if (state.revision !== store.state.revision || state.changed !== store.state.changed
    || state.stale !== store.state.stale) setState(state);
});

export const post = (name, value = {}) => inTurn(async () => setState(await tell(name, value)));
export const clean = () => inTurn(async () => setState((await tell("clean",
  { revision: store.state.revision })).state));

const name = (n) => store.model.name(n);
const many = (numbers) => numbers.slice(0, 4).map(name).join(", ")
  + (numbers.length > 4 ? ` and ${numbers.length - 4} more` : "");

export function merge(numbers, named = "") {
  const sorted = [...numbers].sort((a, b) => a - b);
  if (sorted.length < 2) return notice("Select two types or more to merge them", "hint");
  const edits = ["merge " + sorted.map((n) => "n" + n).join(" ")];
  const wanted = named.trim();
  if (wanted && wanted !== name(sorted[0])) edits.push(`type n${sorted[0]} ${wanted}`);
  return change([edits], `merge ${many(sorted)}${wanted ? " as " + wanted : ""}`, [sorted[0]]);
}

export const mergeBetween = (numbers, named = "") => merge(store.model.between(numbers), named);

export function under(lower, upper) {
  if (lower === upper) return notice("A type cannot be put under itself", "hint");
  return change([[`under n${lower} n${upper}`]], `put ${name(lower)} under ${name(upper)}`, [lower]);
}

export function drop(numbers) {
  const list = [...numbers];
  return change([list.map((n) => "drop n" + n)], "drop " + many(list));
}

export function dropEmpty() {
  const empty = [...store.model.nodes.values()].filter((node) => node.is_empty).map((node) => node.number);
  return empty.length ? drop(empty) : notice("No type is empty", "hint");
}

export function nameType(number, wanted) {
  if (!wanted.trim() || wanted.trim() === name(number)) return busy;
  return change([[`type n${number} ${wanted.trim()}`]], `name ${name(number)} ${wanted.trim()}`, [number]);
}

export function nameMember(column, wanted) {
  const now = store.model.columnName(column);
  if (!wanted.trim() || wanted.trim() === now) return busy;
  return change([[`member c${column} ${wanted.trim()}`]], `name ${now} ${wanted.trim()}`);
}

// A method has a declaration and a body: one of the two orders may be accepted where the other is not.
export function move(columns, number) {
  const edits = columns.map((c) => `move c${c} n${number}`);
  const choices = edits.length > 1 ? [edits, [...edits].reverse()] : [edits];
  return change(choices, `move ${store.model.columnName(columns[0])} to ${name(number)}`, [number]);
}

export const apply = (edits, title) => change([edits], title);
