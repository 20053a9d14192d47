// Where the boxes stand where Graphviz gave no places: in layers, parts that hang together side by side.

const GAP = 26, LAYER = 54, ROW = 90, SWEEPS = 6;

// The middle of each box by its number; sideways, each layer stands to the right of the one above.
export function layered(sizes, edges, sideways, shape) {
  const graph = neighbours(sizes, edges);
  const turned = sideways ? new Map([...sizes].map(([n, [w, h]]) => [n, [h, w]])) : sizes;
  const blocks = components(graph).map((part) => turnedBack(placedPart(part, graph, turned), sideways));
  return packed(blocks, shape);
}

function turnedBack(block, sideways) {
  if (!sideways) return block;
  const places = new Map([...block.places].map(([n, [x, y]]) => [n, [y, x]]));
  return { places, width: block.height, height: block.width };
}

function neighbours(sizes, edges) {
  const ups = new Map(), downs = new Map();
  for (const [n] of sizes) { ups.set(n, []); downs.set(n, []); }
  for (const [a, b] of edges) { ups.get(a).push(b); downs.get(b).push(a); }
  return { ups, downs };
}

// The parts that hang together; what nearly all stand below joins nothing.
function components({ ups, downs }) {
  const many = Math.max(12, ups.size / 6);
  const seen = new Set(), parts = [], apart = [...downs].filter(([n, below]) => below.length > many
    && !ups.get(n).length).map(([n]) => n);
  for (const n of apart) { seen.add(n); parts.push([n]); }
  for (const start of ups.keys()) {
    if (seen.has(start)) continue;
    const part = [], left = [start];
    seen.add(start);
    while (left.length) {
      const n = left.pop();
      part.push(n);
      for (const m of [...ups.get(n), ...downs.get(n)]) if (!seen.has(m)) { seen.add(m); left.push(m); }
    }
    parts.push(part);
  }
  return parts;
}

function ranksOf(part, { ups }) {
  const within = new Set(part), ranks = new Map();
  const rank = (n) => {
    if (ranks.has(n)) return ranks.get(n);
    const over = ups.get(n).filter((m) => within.has(m)).map(rank);
    const found = over.length ? Math.max(...over) + 1 : 0;
    ranks.set(n, found);
    return found;
  };
  part.forEach(rank);
  return ranks;
}

function placedPart(part, graph, sizes) {
  const ranks = ranksOf(part, graph), layers = [];
  for (const n of part) (layers[ranks.get(n)] ||= []).push(n);
  ordered(layers, graph);
  const most = Math.max(1400, Math.sqrt(part.length) * 420);
  const places = new Map();
  let top = 0, width = 0;
  for (const layer of layers) {
    for (const row of wrapped(layer, sizes, most)) {
      let x = 0, height = 0;
      for (const n of row) {
        const [w, h] = sizes.get(n);
        places.set(n, [x + w / 2, top + h / 2]);
        x += w + GAP;
        height = Math.max(height, h);
      }
      const span = x - GAP;
      for (const n of row) places.get(n).push(span);
      width = Math.max(width, span);
      top += height + LAYER;
    }
  }
  for (const place of places.values()) place[0] += (width - place.pop()) / 2;
  return { places, width, height: top - LAYER };
}

// A layer in rows that are not much wider than this.
function wrapped(layer, sizes, most) {
  const rows = [[]];
  let x = 0;
  for (const n of layer) {
    const w = sizes.get(n)[0];
    if (x > 0 && x + w > most) { rows.push([]); x = 0; }
    rows[rows.length - 1].push(n);
    x += w + GAP;
  }
  return rows;
}

// Each layer by the middle of its neighbours, down and up by turns.
function ordered(layers, { ups, downs }) {
  const place = new Map();
  const count = (layer) => layer.forEach((n, k) => place.set(n, k / layer.length));
  layers.forEach(count);
  for (let sweep = 0; sweep < SWEEPS; sweep++) {
    const down = sweep % 2 === 0;
    for (const layer of down ? layers : [...layers].reverse()) {
      const middle = new Map(layer.map((n) => {
        const near = (down ? ups : downs).get(n).filter((m) => place.has(m));
        return [n, near.length ? near.reduce((sum, m) => sum + place.get(m), 0) / near.length : place.get(n)];
      }));
      layer.sort((a, b) => middle.get(a) - middle.get(b) || a - b);
      count(layer);
    }
  }
}

// The parts in rows, all of it of about this shape: its width for a height of one.
function packed(blocks, shape) {
  const area = blocks.reduce((sum, it) => sum + (it.width + ROW) * (it.height + ROW), 0);
  const most = Math.max(Math.sqrt(area * shape) * 1.1, ...blocks.map((it) => it.width));
  const found = new Map();
  let x = 0, y = 0, height = 0;
  for (const block of blocks) {
    if (x > 0 && x + block.width > most) { x = 0; y += height + ROW; height = 0; }
    for (const [n, [a, b]] of block.places) found.set(n, [x + a, y + b]);
    x += block.width + ROW;
    height = Math.max(height, block.height);
  }
  return found;
}
