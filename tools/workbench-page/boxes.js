// The box of a type: its size, and its picture near and far.
import { draw, short } from "./dom.js";
import { store } from "./store.js";

export const LINE = 16;
const TITLE = 24, PAD = 8, LETTER = 7.25, BOLD = 7.9, MOST_MEMBERS = 30, MOST_ROWS = 8, MOST_LETTERS = 34;

// What stands in a box, a line each.
export function content(node, shown) {
  const model = store.model;
  const members = model.members(node);
  const folded = shown.folded.has(node.number) || (shown.foldUnasked && !node.rows.length
    && !shown.unfolded.has(node.number));
  const box = { node, title: short(node.name, MOST_LETTERS), note: note(node), members: [], rows: [], folded };
  if (folded) {
    const parts = [members.length && members.length + (members.length > 1 ? " members" : " member"), node.rows.length
      && node.rows.length + " variables"];
    box.more = parts.filter((it) => it).join(", ");
  } else {
    box.members = members.slice(0, MOST_MEMBERS);
    const rows = [...node.rows].sort((a, b) => model.isCreation(b) - model.isCreation(a) || a - b);
    box.rows = shown.variables ? rows.slice(0, MOST_ROWS) : rows.filter((r) => model.isCreation(r)).slice(0, MOST_ROWS);
    const left = [members.length - box.members.length, shown.variables ? rows.length - box.rows.length : 0];
    box.more = left.some((it) => it > 0) ? `${left[0] + left[1]} more at the side` : "";
  }
  return sized(box);
}

function note(node) {
  const kind = node.kind === "interface" ? (node.is_empty ? "empty interface" : "interface") : node.is_empty ? "empty"
    : "";
  return [kind, node.origin && node.origin !== node.name ? "from " + short(node.origin, 18)
    : ""].filter((it) => it).join(", ");
}

function sized(box) {
  const texts = [...box.members.map((it) => it.text), ...box.rows.map((r) => store.program.rows[r].label), box.more
    || ""];
  const letters = Math.min(MOST_LETTERS, Math.max(0, ...texts.map((it) => it.length)));
  box.width = Math.ceil(Math.max(92, box.title.length * BOLD + 30, box.note.length * 5.7 + 18, letters * LETTER + 30));
  box.top = TITLE + (box.note ? 13 : 0);
  const lines = box.members.length + box.rows.length + (box.more ? 1 : 0);
  const rules = (box.members.length > 0) + (box.rows.length > 0) + (box.more ? 1 : 0);
  box.height = box.top + lines * LINE + rules * PAD;
  return box;
}

// The element of a box; far away it has its name alone, and farther nothing.
export function boxElement(box, level) {
  const { node } = box;
  const hue = store.model.hue(node);
  const classes = ["node", node.kind, node.is_empty && "empty", level === 0 && "far", hue === null && "grey", box.folded
    && "folded"];
  const group = draw("g", { class: classes.filter((it) => it).join(" "), id: "n" + node.number, role: "option",
    hue: hue ?? 0 });
  group.setAttribute("aria-label", store.model.sentence(node));
  group.append(draw("rect", { class: "box", width: box.width, height: box.height, rx: node.kind === "interface" ? 12
    : 4 }));
  if (level === 0) return group;
  group.append(draw("rect", { class: "head", width: box.width - 2, x: 1, y: 1, height: box.top - 1,
    rx: node.kind === "interface" ? 11 : 3 }));
  if (level === 1) {
    const size = Math.max(12, Math.min(19, (box.width - 8) / (box.title.length * 0.62), box.height * 0.8));
    const title = draw("text", { class: "title", x: box.width / 2, y: Math.min(box.height, 40) / 2 + size * 0.36 },
      box.title);
    title.style.fontSize = size + "px";
    group.append(title);
    return group;
  }
  group.append(draw("text", { class: "title", x: box.width / 2, y: 17 }, box.title));
  group.append(draw("title", {}, store.model.sentence(node)));
  if (box.note) group.append(draw("text", { class: "note", x: box.width / 2, y: 31 }, box.note));
  drawLines(group, box);
  return group;
}

function drawLines(group, box) {
  let y = box.top;
  const rule = () => {
    group.append(draw("line", { class: "rule", x1: 0, x2: box.width, y1: y, y2: y }));
    y += PAD / 2;
  };
  if (box.members.length) rule();
  for (const member of box.members) {
    group.append(memberLine(box, member, y));
    y += LINE;
  }
  if (box.members.length) y += PAD / 2;
  if (box.rows.length) rule();
  for (const r of box.rows) {
    const row = store.program.rows[r];
    const kind = row.kind === "new" ? "creation" : "variable";
    const line = draw("g", { class: "line row " + kind, "data-item": "r" + r, "data-rows": r });
    line.append(draw("rect", { x: 2, y, width: box.width - 4, height: LINE }),
      draw("text", { x: 9, y: y + 12 }, short(row.label, MOST_LETTERS)));
    group.append(line);
    y += LINE;
  }
  if (box.rows.length) y += PAD / 2;
  if (box.more) {
    rule();
    group.append(draw("text", { class: "note", x: box.width / 2, y: y + 11 }, box.more));
  }
}

function memberLine(box, member, y) {
  const declared = member.kind === "method" && member.kinds.length === 1 && member.kinds[0] === "declaration";
  const line = draw("g", { class: "line member " + member.kind + (declared ? " declared" : ""),
    "data-columns": member.columns.join(" ") });
  line.append(draw("rect", { x: 2, y, width: box.width - 4, height: LINE }));
  line.append(draw("text", { x: 9, y: y + 12 }, short(member.text, MOST_LETTERS)));
  line.append(draw("title", {}, `${member.holder}.${member.text}, line ${member.line}: drag it to another type`));
  return line;
}
