// What the page knows: the program, the script's state, and what is selected. Views listen to it.
import { Model } from "./model.js";

const listeners = {};

export const store = { program: null, state: null, model: null, selected: new Set(), focus: null, refusal: null };

export function on(event, what) {
  (listeners[event] ||= []).push(what);
}

export function emit(event, value) {
  for (const what of listeners[event] || []) what(value);
}

// Another state of the script: views are told of the hierarchy, and then of the selection, gone types left out.
export function setState(state) {
  store.state = state;
  store.model = new Model(store.program, state.nodes);
  store.selected = new Set([...store.selected].filter((n) => store.model.nodes.has(n)));
  if (!store.model.nodes.has(store.focus)) store.focus = null;
  setRefusal(null);
  emit("state");
  emit("selection");
}

// Selects these types; `reveal` brings the first into sight.
export function select(numbers, reveal = false) {
  store.selected = new Set([...numbers].filter((n) => store.model.nodes.has(n)));
  const first = [...store.selected][0];
  if (first !== undefined && !store.selected.has(store.focus)) store.focus = first;
  emit("selection");
  if (reveal && first !== undefined) emit("reveal", first);
}

export function toggle(number) {
  const now = new Set(store.selected);
  if (!now.delete(number)) now.add(number);
  store.focus = number;
  store.selected = now;
  emit("selection");
}

export function setRefusal(refusal) {
  store.refusal = refusal;
  emit("refusal");
}
