"""The script that a plan comes to, tried by `kaba edit`, and what is refused in the plan's words."""
from kaba_groups import Groups
from kaba_hierarchy import MOST_CONCEPTS, asked, nodes_in, refusals_in
from kaba_plan import owner_of
from kaba_tools import class_of


SPARE = {"under": "below the class that it extends", "move": "back to its own class", "drop": "empty types"}


class Edit:
    """An edit of the script: its text, the group for which it stands, and whether the script is right without it."""

    def __init__(self, text, group=None, is_spare=False):
        self.text, self.group, self.is_spare = text, group, is_spare


class Refused(Exception):
    """Edits that the plan needs and that are refused: a line of the plan, or none, and a sentence each."""

    def __init__(self, faults):
        super().__init__(faults)
        self.faults = faults


def reached(near, n):
    """What is reached from a node by steps, without the node."""
    found, waiting = set(), [n]
    while waiting:
        new = near[waiting.pop()] - found
        found |= new
        waiting += new
    return found - {n}


def listed(nodes):
    return " ".join(f"n{k}" for k in sorted(nodes))


class Script:
    """The script of a plan."""

    def __init__(self, program, plan):
        self.program, self.plan = program, plan
        self.groups = Groups(program, plan)
        self.group_of = {k: group for group in self.groups.all() for k in group.nodes}
        self.edits = [*self.merges(), *self.unders(), *self.moves(), *self.drops()]

    def first(self, group):
        return min(group.nodes)

    def merges(self):
        for group in self.groups.all():
            if self.is_dropped(group.nodes):
                continue
            if len(group.nodes) > 1:
                yield Edit(f"merge {listed(group.nodes)}", group)
            yield Edit(f"type n{self.first(group)} {group.name}", group)

    def is_dropped(self, nodes):
        """Whether these are nodes at which nothing stands, and the plan drops such."""
        lattice = self.program.lattice
        return self.plan.drops_empty and not any(lattice.own_columns[k] or lattice.own_rows[k] for k in nodes)

    def homes(self):
        """The group of each class that is kept, by its name."""
        rests = [group for group in self.groups.all() if group.is_rest() and not self.is_dropped(group.nodes)]
        return {group.of_class: group for group in rests}

    def unders(self):
        """A kept class stays below the one that it extends."""
        homes = self.homes()
        for name, group in homes.items():
            above = next((up for up in self.program.chain(name)[1:-1] if up in homes), None)
            if above:
                yield Edit(f"under n{self.first(group)} n{self.first(homes[above])}", group, True)

    def model(self):
        """The nodes that come of the edits, if all are accepted: as those of `kaba edit`, but all nodes above each."""
        group_of = {k: self.first(self.group_of[k]) if k in self.group_of else k for k in self.program.nodes}
        near = {n: set() for n in group_of.values()}
        for k, n in group_of.items():
            near[n] |= {group_of[up] for up in self.program.up[k]} - {n}
        at = {c: group_of[k] for c, k in self.program.node_of_column.items()}
        for edit in self.edits:
            word, *numbers = edit.text.split(" ")
            if word == "under":
                near[int(numbers[0][1:])].add(int(numbers[1][1:]))
            if word == "move":
                at[int(numbers[0][1:])] = int(numbers[1][1:])
        above = {n: reached(near, n) for n in near}
        nodes = {n: {"number": n, "above": above[n], "columns": [], "rows": []} for n in near}
        for c, n in at.items():
            nodes[n]["columns"].append(c)
        for r, k in self.program.node_of_row.items():
            nodes[group_of[k]]["rows"].append(r)
        return list(nodes.values())

    def moves(self):
        """A member that stands with a class below its own goes back to its own."""
        homes = self.homes()
        for c, k in self.program.node_of_column.items():
            home, at = homes.get(owner_of(self.program, c)), self.group_of.get(k)
            is_member = not self.program.lattice.columns[c].startswith("is(")
            if is_member and home and at and at is not home and at.is_rest() and k not in self.named():
                yield Edit(f"move c{c} n{self.first(home)}", home, True)

    def named(self):
        return {k for things in self.plan.named.values() for _, nodes in things for k in nodes}

    def drops(self):
        """Where the plan says so, nodes at which nothing stands are dropped."""
        grouped = [{k} for group in self.groups.all() if self.is_dropped(group.nodes) for k in sorted(group.nodes)]
        loose = [{k} for k in self.program.nodes if k not in self.group_of]
        for nodes in [*grouped, *loose]:
            if self.is_dropped(nodes):
                yield Edit(f"drop n{min(nodes)}", None, True)

    def bytes(self):
        return "".join(f"{edit.text}\n" for edit in self.edits).encode()

    def tried(self):
        """The nodes after the edits; those that the plan does not need and that are refused are left out before."""
        while True:
            _, text, error = asked("edit", self.program.analysis.file, "", self.bytes(), MOST_CONCEPTS)
            refused = {refusal["line"] - 1: refusal for refusal in refusals_in(error)}
            needed = {k: refusal for k, refusal in refused.items() if not self.edits[k].is_spare}
            if needed:
                raise Refused([self.words(self.edits[k], refusal) for k, refusal in needed.items()])
            if not refused:
                return nodes_in(text)
            self.edits = [edit for k, edit in enumerate(self.edits) if k not in refused]

    def lines(self, plan_name):
        """The script's lines, those of each class with a comment."""
        yield f"# {self.program.given.name} by {plan_name}"
        last = None
        for edit in self.edits:
            heading = self.heading(edit)
            if heading != last:
                yield f"# {heading}"
                last = heading
            yield edit.text

    def heading(self, edit):
        if edit.is_spare:
            return SPARE[edit.text.split(" ")[0]]
        group = edit.group
        line = f", line {group.number}" if group.number else ", as it was"
        return f"class {group.name}{line}"

    def node_words(self, number):
        group = self.group_of.get(number)
        return f"class {group.name}" if group else f"what has {self.groups.words({number})}"

    def column_words(self, c):
        owner = class_of(self.program.lattice.columns[c])
        return self.program.analysis.column_words(c).replace("()", f"() of {owner}", 1)

    def words(self, edit, refusal):
        """A refused edit in the plan's words."""
        group, rule = edit.group, refusal["obligation"]
        teller = getattr(self, f"of_{rule}", None) if rule else None
        sentence = teller(group, refusal) if teller else f"the edit `{edit.text}` is refused: {refusal['why']}"
        return group.number, f"class {group.name}: {sentence}" + (f" ({rule})" if rule else "")

    def of_B1(self, group, refusal):
        number = refusal["nodes"][0]
        between = self.group_of[number].nodes if number in self.group_of else {number}
        above = group.nodes & set().union(*(self.program.up[k] for k in between))
        below = group.nodes & set().union(*(self.program.down[k] for k in between))
        said = f"below {self.groups.words(above)}, and above {self.groups.words(below)}"
        return f"{self.node_words(number)} lies between what becomes this class: {said}"

    def row_words(self, r):
        return self.program.lattice.rows[r]

    def of_B3(self, _group, refusal):
        return f"{self.row_words(refusal['row'])} would have a type that does not fit"

    def of_B4(self, _group, refusal):
        body = self.column_words(refusal["column"])
        return f"the object of {self.row_words(refusal['row'])} would no longer run the {body}"

    def of_B5(self, _group, refusal):
        method = self.row_words(refusal["row"]).removesuffix(".this")
        return f"the super call in {method} would no longer run the {self.column_words(refusal['column'])}"

    def of_B6(self, _group, refusal):
        name = self.program.analysis.member(refusal["column"]).split(".")[1]
        bodies = [label for label in self.program.lattice.columns if label.startswith("def(")]
        owners = [class_of(label) for label in bodies if label.endswith(f".{name})")]
        return f"it would have two bodies of {name}(), of those in {', '.join(owners)}"

    def of_B7(self, _group, refusal):
        target = self.node_words(refusal["nodes"][1])
        what = f"a cast, an instanceof or a store into an array at {target}"
        return f"{what} would come out otherwise for {self.row_words(refusal['row'])}"

    def of_B8(self, group, refusal):
        if refusal["column"] is None:
            others = "another type, or of a variable, a parameter or a field of the program"
            return f"the name {group.name} is a keyword, or that of {others}"
        return f"it would have two members of the name of the {self.column_words(refusal['column'])}"
