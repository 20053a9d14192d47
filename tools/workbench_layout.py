"""Where the types of a hierarchy stand in the picture, by Graphviz where it is there and quick."""
import shutil
import subprocess

MOST_NODES = 400
SECONDS = 3
POINTS = 72


def text_of(nodes, edges, sideways):
    """The text for Graphviz of boxes with a width and a height, and lines upwards, or to the left."""
    graph = "rankdir=RL, nodesep=0.2, ranksep=0.8" if sideways else "rankdir=BT, nodesep=0.35, ranksep=0.6"
    lines = ["digraph hierarchy {", f'  graph [{graph}]; node [shape=box, fixedsize=true, label=""];']
    lines += [f"  n{n} [width={w / POINTS:.3f}, height={h / POINTS:.3f}];" for n, w, h in nodes]
    lines += [f"  n{a} -> n{b};" for a, b in edges]
    return "\n".join([*lines, "}"])


def positions(nodes, edges, sideways):
    """The middle of each box by its number, or nothing where the page has to find them itself."""
    if not nodes or len(nodes) > MOST_NODES or not shutil.which("dot"):
        return None
    try:
        done = subprocess.run(["dot", "-Tplain"], input=text_of(nodes, edges, sideways).encode(), capture_output=True,
            timeout=SECONDS)
    except (OSError, subprocess.TimeoutExpired):
        return None
    if done.returncode:
        return None
    return {n: [x, y] for n, x, y in places_in(done.stdout.decode())}


def places_in(text):
    """The nodes of Graphviz' plain form, y downwards."""
    height = 0.0
    for line in text.splitlines():
        words = line.split(" ")
        if words[0] == "graph":
            height = float(words[3])
        elif words[0] == "node":
            yield int(words[1][1:]), round(float(words[2]) * POINTS, 1), round((height - float(words[3])) * POINTS, 1)


def asked(given):
    """The answer to the page: numbers alone are taken from it."""
    nodes = [(int(n), float(w), float(h)) for n, w, h in given["nodes"]]
    edges = [(int(a), int(b)) for a, b in given["edges"]]
    return {"positions": positions(nodes, edges, given.get("sideways") is True)}
