"""Proposals: a plan that keeps each class whole and parts some of them by what their objects need."""
import textwrap

from kaba_groups import members_at
from kaba_hierarchy import MADE, MOST_CONCEPTS, asked, nodes_in, tree_in, with_steps
from kaba_plan import BadPlan, Plan, owner_of
from kaba_plan_script import Refused, Script, reached

FILLED = textwrap.TextWrapper(118, subsequent_indent="  ", break_long_words=False, break_on_hyphens=False)


class Figures:
    """How many members the objects of a program carry and do not need, by the class to which the members belong.

    A member counts once for each creation: a field, or a method where the object needs none of this name.
    """

    def __init__(self, program):
        self.program, self.lattice, self.analysis = program, program.lattice, program.analysis
        self.sites = program.objects()
        self.before = self.counted({r: set(self.analysis.inherited(program.row_classes[r])) for r in self.sites})

    def counted(self, carried):
        """The members that the creations carry and do not need, by class."""
        found = dict.fromkeys(self.program.classes, 0)
        for r, columns in carried.items():
            needs = self.analysis.needs[r]
            called = {self.analysis.member(c).split(".")[1] for c in needs if self.analysis.is_method(c)}
            unused = {(*self.analysis.member(c).split("."), self.analysis.is_method(c)) for c in columns - needs}
            for owner, name, is_method in unused:
                found[owner] += not (is_method and name in called)
        return found

    def after(self, nodes):
        """The same of a hierarchy."""
        above, columns = all_above(nodes), {node["number"]: set(node["columns"]) for node in nodes}
        at = {r: node["number"] for node in nodes for r in node["rows"]}
        marks = {c for c, label in enumerate(self.lattice.columns) if label.startswith("is(")}
        offered = {r: columns[at[r]].union(*(columns[up] for up in above[at[r]])) for r in self.sites}
        return self.counted({r: found - marks for r, found in offered.items()})


def crosses(one, other):
    return bool(one & other) and not one <= other and not other <= one


def tree_of_sets(sets):
    """The sets, with those that cross made one, until each two are apart or one is within the other."""
    found = set(sets)
    while True:
        pair = next(((one, other) for one in found for other in found if crosses(one, other)), None)
        if pair is None:
            return found
        found = (found - set(pair)) | {pair[0] | pair[1]}


def least_around(sets, sites):
    """The least of these sets around one; none around none."""
    return min((it for it in sets if sites and sites <= it), key=len, default=None)


class Parting:
    """The parts of a class: sets of creations, with the nodes of what these and no others need.

    Each node of the class has the creations of which the whole rows have what it has. Where the sets of two nodes
    cross, neither within the other, the nodes are not parted. A method's body stays with its declaration, and with it
    what it uses; what no object needs, such as a method that is never called, stands with what it uses, and keeps that
    together. A part without members joins the one around it. What the most creations need stays with the class.
    """

    def __init__(self, program, name, homes):
        self.program, self.name = program, name
        self.nodes = [k for k in program.nodes if homes[k] == name]
        objects = set(program.objects())
        sites = {k: frozenset(program.lattice.extents[k] & objects) for k in self.nodes}
        sets = tree_of_sets({it for it in sites.values() if it})
        top = frozenset().union(*sets)
        self.sets = sets | {top}
        self.set_of = {k: least_around(self.sets, sites[k]) for k in self.nodes}
        self.join()
        sets = {it for it in self.sets if it == top or members_at(program, self.of_set(it))}
        self.set_of = {k: least_around(sets, self.set_of[k]) for k in self.nodes}
        self.parts = sorted(sets - {top}, key=self.first_column)

    def of_set(self, sites):
        return [k for k in self.nodes if self.set_of[k] == sites]

    def first_column(self, sites):
        return min(c for k in self.of_set(sites) for c in self.program.lattice.own_columns[k])

    def join(self):
        """Joins what belongs together until nothing is left to join."""
        pairs, idle = self.method_nodes(), [k for k in self.nodes if self.set_of[k] is None]
        before = None
        while before != self.set_of:
            before = dict(self.set_of)
            for k in idle:
                self.set_of[k] = self.lift(k, [self.set_of[up] for up in self.above(k) if up != k])
            for head, body in pairs:
                self.lift(body, [self.set_of[head]])

    def above(self, k):
        return self.program.up[k] & self.set_of.keys()

    def lift(self, k, sets):
        """Takes what stands above a node to the least set around the lowest of these, and gives that set."""
        lowest = [it for it in sets if it and not any(other and other < it for other in sets)]
        around = least_around(self.sets, frozenset().union(*lowest)) or max(self.sets, key=len)
        for up in self.above(k):
            if self.set_of[up] is not None and self.set_of[up] < around:
                self.set_of[up] = around
        return around

    def method_nodes(self):
        """The nodes of the declaration and the body of each method that has both here."""
        at, labels = self.program.node_of_column, self.program.lattice.columns
        heads = [c for c in range(len(labels) - 1) if labels[c + 1] == labels[c].replace("dcl", "def", 1)]
        both = [(at.get(c), at.get(c + 1)) for c in heads]
        return [(head, body) for head, body in both if head in self.set_of and body in self.set_of and head != body]

    def pushed(self, homes):
        """The members of this class that only a class below needs: by that class."""
        found = {}
        for c, k in self.program.node_of_column.items():
            label = self.program.lattice.columns[c]
            if owner_of(self.program, c) == self.name and homes[k] != self.name and not label.startswith("is("):
                found.setdefault(homes[k], set()).add(k)
        return found


class Proposal:
    """A plan for a program in which some classes come apart."""

    def __init__(self, program, names):
        self.program, self.names = program, names
        self.homes = program.home_classes()
        self.taken = set(program.words)
        self.lines = {name: self.lines_of(name) for name in names}

    def lines_of(self, name):
        """The lines of a class that comes apart: each a name and its things."""
        parting = Parting(self.program, name, self.homes)
        found = [self.line_of(parting, sites) for sites in parting.parts]
        for low, nodes in parting.pushed(self.homes).items():
            found.append((low, members_at(self.program, nodes)))
        return found

    def line_of(self, parting, sites):
        nodes = parting.of_set(sites)
        members = members_at(self.program, nodes)
        rows = [r for k in nodes for r in self.program.lattice.own_rows[k] if r in self.program.objects()]
        return self.name_of(parting.name, rows or sorted(sites), members), members + self.creation_words(rows)

    def creation_words(self, rows):
        """How a plan names these creations: by a variable where that names no other ones."""
        words = []
        for r in sorted(rows):
            label = self.program.lattice.rows[r]
            made = label.partition("@")[0]
            into = [it for it in self.program.creations[r] if self.named_so(made, it) <= set(rows)]
            word = f"{made}@{into[0]}" if into else label
            if word not in words:
                words.append(word)
        return words

    def named_so(self, made, variable):
        """The creations that a plan names by a variable."""
        rows = self.program.lattice.rows
        into = [r for r, variables in self.program.creations.items() if variable in variables]
        return {r for r in into if rows[r].startswith(f"{made}@")}

    def name_of(self, owner, rows, members):
        """A free name for a part: that of the variable that holds its objects, or of its first member."""
        into = [label for r in rows for label in self.program.creations[r][:1]]
        stems = [label.split(".")[-1] if not label.endswith(".return") else label.split(".")[1] for label in into]
        first = members[0].split(" ")[-1].split(".")[-1].removesuffix("()") if members else "Part"
        stems = [stem for stem in stems if len(stem) > 2][:1] or [owner + first[:1].upper() + first[1:]]
        name = stems[0][:1].upper() + stems[0][1:]
        name = name if name not in self.taken else owner + name
        while name in self.taken:
            name += "_"
        self.taken.add(name)
        return name

    def text(self, heads=None):
        """The plan's text; `heads` are comments for the whole, under None, and for the classes."""
        heads = heads or {}
        lines = [f"# {line}" for line in heads.get(None, [])]
        for name in self.names:
            lines += ["", *(f"# {line}" for line in heads.get(name, []))]
            for part, things in self.lines[name]:
                lines += FILLED.wrap(f"class {part}: {' '.join(things)}")
        kept = [name for name in self.program.classes if name in self.homes.values() and not self.is_line(name)]
        lines += ["", "# whole as they are"] if heads and kept else []
        lines += [f"keep {name}" for name in kept]
        lines.append("drop empty")
        return "\n".join(lines) + "\n"

    def is_line(self, name):
        return any(part == name for lines in self.lines.values() for part, _ in lines)

    def script(self):
        """The script of the plan, before it is tried; None where the plan is none."""
        try:
            return Script(self.program, Plan(self.text().encode(), self.program))
        except BadPlan:
            return None

    def nodes(self):
        """The nodes that the plan comes to, with the steps to the tree; None where it comes to none."""
        script = self.script()
        try:
            nodes = script.tried() if script else None
        except Refused:
            return None
        if nodes is None or is_tree(self.program, nodes):
            return nodes
        file = self.program.analysis.file
        status, _, error = asked("regen", file, "", script.bytes(), MOST_CONCEPTS)
        whole = with_steps(script.bytes(), tree_in(error)["steps"])
        return nodes_in(asked("edit", file, "", whole, MOST_CONCEPTS)[1]) if status == MADE else None


def all_above(nodes):
    """The numbers of the nodes above each node."""
    near = {node["number"]: set(node["above"]) for node in nodes}
    return {number: reached(near, number) for number in near}


def is_tree(program, nodes):
    """Whether the classes at and above each class are a chain."""
    above = all_above(nodes)
    labels = program.lattice.columns
    objects = set(program.objects())
    made = {n["number"] for n in nodes if objects & set(n["rows"])}
    made |= {n["number"] for n in nodes if any(labels[c][:3] in ("fld", "def") for c in n["columns"])}
    classes = {n for n in above if n in made or above[n] & made}
    chains = [(above[n] | {n}) & classes for n in classes]
    pairs = [(one, other) for chain in chains for one in chain for other in chain if one < other]
    return all(one in above[other] or other in above[one] for one, other in pairs)
