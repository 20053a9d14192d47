// A hierarchy with what follows from it: what is above and below, what stands where, and in which words.

const GOLDEN = 137.5;

// A method's name with its brackets; that of an overload in everyday Java has its types in them.
export const withBrackets = (name) => name.endsWith(")") ? name : name + "()";

export class Model {
  constructor(program, nodes) {
    this.program = program;
    this.nodes = new Map(nodes.map((node) => [node.number, node]));
    this.nodeOfColumn = new Map();
    this.nodeOfRow = new Map();
    for (const node of nodes) {
      for (const c of node.columns) this.nodeOfColumn.set(c, node.number);
      for (const r of node.rows) this.nodeOfRow.set(r, node.number);
    }
    this.ups = new Map();
    for (const node of nodes) this.above(node.number);
    this.hues = new Map(program.classes.map((it, k) => [it.name, Math.round((210 + k * GOLDEN) % 360)]));
  }

  // The types at or above one.
  above(number) {
    const known = this.ups.get(number);
    if (known) return known;
    const found = new Set([number]);
    for (const over of this.nodes.get(number).above) for (const n of this.above(over)) found.add(n);
    this.ups.set(number, found);
    return found;
  }

  isBelow(lower, upper) {
    return this.ups.get(lower).has(upper);
  }

  below(number) {
    return [...this.nodes.keys()].filter((n) => this.isBelow(n, number));
  }

  hue(node) {
    return node.origin === null ? null : this.hues.get(node.origin) ?? null;
  }

  name(number) {
    const node = this.nodes.get(number);
    return node ? node.name : "n" + number;
  }

  // What a column is called now, where it stands somewhere.
  columnName(c) {
    const node = this.nodes.get(this.nodeOfColumn.get(c));
    return (node && node.names[c]) || this.program.columns[c].name;
  }

  // The members of a type: a method's declaration and body are one where both stand here.
  members(node) {
    const found = new Map();
    for (const c of node.columns) {
      const column = this.program.columns[c];
      const kind = column.kind === "field" ? "field" : column.kind === "mark" ? "mark" : "method";
      const key = kind + " " + column.holder + "." + column.name;
      const member = found.get(key) || { kind, columns: [], kinds: [], holder: column.holder, line: column.line };
      member.columns.push(c);
      member.kinds.push(column.kind);
      found.set(key, member);
    }
    for (const member of found.values()) member.text = this.memberText(member);
    return [...found.values()];
  }

  memberText(member) {
    const name = this.columnName(member.columns[0]);
    if (member.kind === "field") return name;
    if (member.kind === "mark") return "\u2039is " + member.holder + "\u203a";
    const head = withBrackets(name);
    if (member.kinds.length > 1) return head;
    return member.kinds[0] === "body" ? head + " {..}" : head + ";";
  }

  isCreation(r) {
    return this.program.rows[r].kind === "new";
  }

  // Whether an object is made with this type.
  makes(node) {
    return node.rows.some((r) => this.isCreation(r));
  }

  // What the selected ones need that no other creation does.
  alone(numbers) {
    const mine = new Set([...numbers].flatMap((n) => [...this.above(n)]));
    const others = [...this.nodes.values()].filter((node) => this.makes(node)
      && ![...numbers].some((n) => this.isBelow(node.number, n)));
    const theirs = new Set(others.flatMap((node) => [...this.above(node.number)]));
    return [...mine].filter((n) => !theirs.has(n));
  }

  // What all of them stand below, of the classes that they come from.
  common(numbers) {
    const list = [...numbers];
    const origins = new Set(list.map((n) => this.nodes.get(n).origin));
    const shared = [...this.above(list[0])].filter((n) => list.every((m) => m !== n && this.isBelow(m, n)));
    return shared.filter((n) => origins.has(this.nodes.get(n).origin));
  }

  // They and what lies between any two of them.
  between(numbers) {
    const list = [...numbers];
    const upper = new Set(list.flatMap((n) => [...this.above(n)]));
    return [...upper].filter((n) => list.some((m) => this.isBelow(n, m)));
  }

  ofClass(name) {
    return [...this.nodes.values()].filter((node) => node.origin === name).map((node) => node.number);
  }

  // A type in one sentence, for who does not see it.
  sentence(node) {
    const members = this.members(node).length;
    const parts = [node.kind + " " + node.name, "number " + node.number];
    if (node.origin) parts.push("from " + node.origin);
    parts.push(members + (members === 1 ? " member" : " members"), node.rows.length
      + (node.rows.length === 1 ? " variable" : " variables"));
    if (node.above.length) parts.push("below " + node.above.map((n) => this.name(n)).join(" and "));
    return parts.join(", ");
  }
}
