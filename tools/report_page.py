"""The page of tools/report: the words, the lattice's picture, and the text, in one file."""
import html
import json
import re
import subprocess
import sys

from kaba_tools import HERE, fail
from report_sure import words_by_place

PAGE = """<!DOCTYPE html>
<html lang="en">
<head>
<meta charset="utf-8">
<title>@TITLE@</title>
<style>
body { font: 15px/1.45 sans-serif; margin: 1.2rem; color: #1c1c1c; }
h1 { font-size: 1.25rem; } h2 { font-size: 1.05rem; margin: 1.4rem 0 .3rem; }
pre, .mono { font: 13px/1.5 monospace; }
#top { display: grid; grid-template-columns: minmax(0, 3fr) minmax(20rem, 2fr); gap: .8rem; height: 84vh; }
#picture { border: 1px solid #bbb; overflow: auto; height: 84vh; box-sizing: border-box; }
#picture svg { display: block; max-width: none; }
#picture.whole svg { width: 100%; height: 100%; }
#side { display: grid; grid-template-rows: minmax(0, 1fr) minmax(0, 1fr); gap: .8rem; height: 84vh; }
#panel { border: 1px solid #bbb; padding: .6rem .8rem; overflow: auto; box-sizing: border-box; }
#panel h3 { margin: .7rem 0 .1rem; font-size: .95rem; } #panel ul { margin: 0; padding-left: 1.1rem; }
.node { cursor: pointer; } .node polygon { fill: #fff; }
.node.over polygon { fill: #dbe9fb; } .node.under polygon { fill: #fde8cf; } .node.here polygon { fill: #ffe45c; }
.node text { pointer-events: none; }
#text { border: 1px solid #bbb; overflow: auto; padding: .5rem 0; box-sizing: border-box; position: relative; }
#text div { white-space: pre; padding: 0 .6rem; } #text div.lit { background: #ffe45c; }
#text div.sure { border-left: 4px solid #3a9a4e; padding-left: calc(.6rem - 4px); }
#text i { color: #777; font-style: normal; display: inline-block; width: 3rem; user-select: none; }
.here-too { font-weight: bold; } .key span { white-space: nowrap; padding: 0 .35rem; border: 1px solid #bbb; margin-right: .25rem; }
a { color: #0b50a8; cursor: pointer; }
@media (max-width: 60rem) { #top { grid-template-columns: 1fr; height: auto; } }
</style>
</head>
<body>
<h1>@TITLE@</h1>
<p class="key">A box is a concept: its members stand in the upper part, its variables and creations in the lower. What needs the
concept's members stands in it or below, and it has what stands above. <span style="background:#ffe45c">the box</span>
<span style="background:#dbe9fb">above: it has these members too</span> <span style="background:#fde8cf">below: these need its members</span>
<span style="border-left:4px solid #3a9a4e">a line on which something is sure of every run: its tip says what</span>
<a id="size">the whole picture</a></p>
<div id="top">
<div id="picture">@PICTURE@</div>
<div id="side">
<div id="panel"><p>Move over a box to see its members, its variables and their lines; click to keep it, and once more to let it go.</p></div>
<div id="text" class="mono">@TEXT@</div>
</div>
</div>
@SECTIONS@
<script>
const data = @DATA@;
const panel = document.getElementById("panel");
let kept = null;

function shown(parent, heading, items, bold) {
  const title = document.createElement("h3");
  title.textContent = heading + (items.length ? "" : " none");
  parent.append(title);
  const list = document.createElement("ul");
  for (const item of items) {
    const entry = document.createElement("li");
    entry.className = "mono" + (bold ? " here-too" : "");
    entry.append(item.label + " ");
    if (item.line) {
      const link = document.createElement("a");
      link.textContent = "line " + item.line;
      link.onclick = () => light([item.line]);
      entry.append(link);
    }
    list.append(entry);
  }
  parent.append(list);
}

function light(lines) {
  for (const line of document.querySelectorAll("#text .lit")) line.classList.remove("lit");
  const found = lines.map((n) => document.getElementById("line" + n)).filter((e) => e);
  for (const line of found) line.classList.add("lit");
  if (found.length) document.getElementById("text").scrollTop = found[0].offsetTop - 60;
}

function colour(k) {
  for (const node of document.querySelectorAll(".node")) {
    node.classList.remove("here", "over", "under");
    const j = Number(node.id.slice(1));
    if (k === null) continue;
    if (j === k) node.classList.add("here");
    else if (data.concepts[k].up.includes(j)) node.classList.add("over");
    else if (data.concepts[j].up.includes(k)) node.classList.add("under");
  }
}

function tell(k) {
  const concept = data.concepts[k];
  const column = (c) => data.columns[c], row = (r) => data.rows[r];
  panel.replaceChildren();
  const title = document.createElement("b");
  title.textContent = "k" + k + ": " + concept.intent.length + " members, " + concept.extent.length + " variables and creations";
  panel.append(title);
  shown(panel, "members here:", concept.columns.map(column), true);
  shown(panel, "members from above:", concept.intent.filter((c) => !concept.columns.includes(c)).map(column), false);
  shown(panel, "variables and creations here:", concept.rows.map(row), true);
  shown(panel, "variables and creations below:", concept.extent.filter((r) => !concept.rows.includes(r)).map(row), false);
  colour(k);
  light(concept.columns.map((c) => data.columns[c].line).concat(concept.rows.map((r) => data.rows[r].line)));
}

document.getElementById("size").onclick = (event) => {
  const whole = document.getElementById("picture").classList.toggle("whole");
  event.target.textContent = whole ? "its full size" : "the whole picture";
};
for (const node of document.querySelectorAll(".node")) {
  const k = Number(node.id.slice(1));
  node.onmouseenter = () => { if (kept === null) tell(k); };
  node.onclick = () => { kept = kept === k ? null : k; tell(k); };
}
</script>
</body>
</html>
"""


def run(words, given):
    try:
        done = subprocess.run(words, input=given, capture_output=True)
    except OSError:
        return None
    return done.stdout if done.returncode == 0 else None


def as_json(lattice, said):
    """The lattice as `kaba lattice -j` writes it, its labels as they are said."""
    parts = zip(lattice.above, lattice.own_columns, lattice.own_rows, lattice.sizes)
    concepts = [{"above": above, "columns": columns, "rows": rows, "size": size} for above, columns, rows, size in parts]
    columns, rows = [[said(label) for label in labels] for labels in (lattice.columns, lattice.rows)]
    return json.dumps({"columns": columns, "concepts": concepts, "rows": rows}).encode()


def picture(lattice, focus, said):
    """The lattice drawn, or a sentence where Graphviz is not there."""
    words = [sys.executable, str(HERE / "tools" / "lattice-dot")] + (["--focus", said(focus)] if focus else [])
    text = run(words, as_json(lattice, said))
    if text is None:
        if focus:
            return "<p>Nothing of this class stands in the lattice.</p>"
        fail("tools/lattice-dot cannot be run")
    drawn = run(["dot", "-Tsvg"], text)
    if drawn is None:
        print("report: Graphviz's dot cannot be run: the page has no picture", file=sys.stderr)
        return "<p>No picture: Graphviz's dot was not there.</p>"
    drawn = drawn.decode(errors="replace")
    # The panel says what the boxes' tooltips say.
    drawn = re.sub(r'<a xlink:title="[^"]*">', "<a>", drawn)
    return drawn[drawn.index("<svg") :]


def data_of(analysis):
    """What the page's script shows, as a text of it."""
    lattice, said, line = analysis.lattice, analysis.given.said, analysis.given.shown_line
    columns = [{"label": said(label), "line": line(analysis.column_line(c))} for c, label in enumerate(lattice.columns)]
    rows = [{"label": said(label), "line": line(analysis.row_lines[r])} for r, label in enumerate(lattice.rows)]
    concepts = [
        {"columns": own, "rows": at, "intent": sorted(intent), "extent": sorted(extent), "up": sorted(up)}
        for own, at, intent, extent, up in zip(lattice.own_columns, lattice.own_rows, lattice.intents, lattice.extents, lattice.up)
    ]
    return json.dumps({"columns": columns, "rows": rows, "concepts": concepts}).replace("</", "<\\/")


def mark(said):
    """The mark of a line on which something is sure of every run, or nothing."""
    return f' class="sure" title="{html.escape(chr(10).join(said[1]))}"' if said else ""


def page(analysis, title, sections, focus):
    """The whole page."""
    lines = analysis.given.shown_lines(analysis.source.data.decode(errors="replace"))
    sure = words_by_place(analysis)[0]
    numbered = [f'<div id="line{n}"{mark(sure.get(n))}><i>{n}</i>{html.escape(line.rstrip())}</div>' for n, line in enumerate(lines, 1)]
    said = [f"<h2>{html.escape(heading)}</h2><pre>{html.escape(chr(10).join(lines))}</pre>" for heading, lines in sections]
    parts = {
        "TITLE": html.escape(title),
        "PICTURE": picture(analysis.lattice, focus, analysis.given.said),
        "SECTIONS": "\n".join(said),
        "TEXT": "".join(numbered),
        "DATA": data_of(analysis),
    }
    return re.sub("@(TITLE|PICTURE|SECTIONS|TEXT|DATA)@", lambda found: parts[found[1]], PAGE)
