// Elements of the page. Text from the program is only ever put in as text.

const SVG = "http://www.w3.org/2000/svg";

function filled(element, attributes, children) {
  for (const [name, value] of Object.entries(attributes || {})) {
    if (value === undefined || value === null || value === false) continue;
    if (name === "on") for (const [event, what] of Object.entries(value)) element.addEventListener(event, what);
    else if (name === "hue") element.style.setProperty("--hue", value);
    else element.setAttribute(name, value === true ? "" : String(value));
  }
  for (const child of children.flat()) if (child !== null && child !== undefined
    && child !== false) element.append(child);
  return element;
}

export function make(tag, attributes, ...children) {
  return filled(document.createElement(tag), attributes, children);
}

export function draw(tag, attributes, ...children) {
  return filled(document.createElementNS(SVG, tag), attributes, children);
}

export function button(text, what, more = {}) {
  return make("button", { type: "button", on: { click: what }, ...more }, text);
}

export const at = (id) => document.getElementById(id);

export function short(text, most = 44) {
  return text.length <= most ? text : text.slice(0, most - 1) + "\u2026";
}

// What a screen reader says, and nobody sees.
export function say(text) {
  const said = at("said");
  said.textContent = "";
  requestAnimationFrame(() => { said.textContent = text; });
}
