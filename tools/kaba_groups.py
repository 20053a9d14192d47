"""From a plan to groups of nodes: those of each class line with what lies between, and the rest of each class."""
from kaba_plan import BadPlan, member_words
from kaba_program import TOP

ANY = "Any"


class Group:
    """Nodes that become one: the name of their type, the class whose rest they are, and their line, if any."""

    def __init__(self, name, nodes, number=None, of_class=None):
        self.name, self.nodes, self.number, self.of_class = name, set(nodes), number, of_class

    def is_rest(self):
        return self.of_class is not None


def hull(program, nodes):
    """These nodes and what lies between them."""
    below = set().union(*(program.down[k] for k in nodes))
    above = set().union(*(program.up[k] for k in nodes))
    return below & above


class Groups:
    """The groups of a plan.

    What no line names is kept whole: of each class the nodes that stand for it. Where a class line comes to stand
    between them, that part of them joins it which has no members, be it above or below; where both parts have some, the
    plan has to say more. A class line with the name of an old class takes all of that class that no line names.
    """

    def __init__(self, program, plan):
        self.program, self.plan, self.faults = program, plan, []
        self.homes = program.home_classes()
        self.lines = [self.group_of_line(name) for name in plan.lines]
        self.check_apart()
        taken = set().union(*(group.nodes for group in self.lines))
        self.rests = []
        for name in [*program.classes, TOP]:
            nodes = {k for k in program.nodes if self.homes[k] == name and k not in taken}
            if nodes and (name not in plan.only or not plan.only):
                self.rest_of(name, nodes)
        self.check_names()
        if self.faults:
            raise BadPlan(sorted(self.faults))

    def fault(self, number, sentence):
        self.faults.append((number, sentence))

    def group_of_line(self, name):
        line = self.plan.lines[name]
        nodes = set().union(*(nodes for _, nodes in self.plan.named[name]))
        return Group(name, hull(self.program, nodes), line.number)

    def check_apart(self):
        """No node is in two class lines."""
        owner = {}
        for group in self.lines:
            for word, nodes in self.plan.named[group.name]:
                for k in nodes:
                    other, known = owner.setdefault(k, (group, word))
                    if other is not group:
                        same = f", and stands where `{said(word)}` does: the same variables need both"
                        place = f"`{said(known)}` is in class {other.name} of line {other.number}"
                        self.fault(word.number, place + ("" if known.text == word.text else same))
        for number, group in enumerate(self.lines):
            for other in self.lines[:number]:
                common = group.nodes & other.nodes
                if common and not self.faults:
                    both = f"class {group.name} and class {other.name} of line {other.number} cannot be parted"
                    self.fault(group.number, f"{both}: {self.words(common)} lies between what each of them names")

    def words(self, nodes):
        """What stands at these nodes, in a plan's words."""
        found = members_at(self.program, nodes)
        found = found or [self.program.lattice.rows[r] for k in sorted(nodes) for r in self.program.lattice.own_rows[k]]
        return ", ".join(found[:6]) + (f" and {len(found) - 6} more" if len(found) > 6 else "") or "an empty type"

    def reach(self, group, way):
        """The nodes above or below a group, where what is in another class line counts as one."""
        found, waiting = set(), set(group.nodes)
        while waiting:
            new = set().union(*(way[k] for k in waiting)) - found
            found |= new
            waiting = set().union(set(), *(other.nodes for other in self.lines if other.nodes & new)) - found
        return found

    def rest_of(self, name, nodes):
        """Puts the rest of a class into a group of its own, after what must join the class lines has joined them."""
        own = next((group for group in self.lines if group.name == name), None)
        for group in self.lines:
            if group is not own:
                fixed = own.nodes if own else set()
                nodes -= self.joined(name, nodes, fixed, group)
        if own:
            own.nodes |= nodes
            own.of_class = name
        elif nodes:
            self.rests.append(Group(self.name_of_rest(name), nodes, self.plan.kept.get(name), name))

    def joined(self, name, nodes, fixed, group):
        """Of the rest of a class the nodes that join a class line."""
        high, low = self.reach(group, self.program.up), self.reach(group, self.program.down)
        above, below = (nodes | fixed) & high, (nodes | fixed) & low
        if not above or not below:
            return set()
        for part in (below, above):
            if not part & fixed and not members_at(self.program, part):
                group.nodes |= part
                return part
        parts = f"above it {self.words(above)}, below it {self.words(below)}"
        place = f"class {group.name} stands within {name}: {parts}"
        self.fault(group.number, f"{place}; name the ones or the others in this line")
        return set()

    def name_of_rest(self, name):
        """The name of what is kept of a class: its own, where that is free."""
        if name in self.plan.new_names:
            return self.plan.new_names[name]
        taken = {group.name for group in self.lines}
        if name == TOP:
            return self.free(ANY)
        return self.free(f"{name}Object") if name in self.program.with_statics or name in taken else name

    def free(self, name):
        while name in self.program.words or name in self.plan.lines:
            name += "_"
        return name

    def check_names(self):
        names = {}
        for group in [*self.lines, *self.rests]:
            other = names.setdefault(group.name, group)
            if other is not group and group.number:
                kept = f"of the class {other.of_class}, which is kept"
                owner = f"of line {other.number} too" if other.number else kept
                self.fault(group.number, f"the name {group.name} is that {owner}")

    def all(self):
        return [*self.lines, *self.rests]


def said(word):
    return word.text if word.kind == "member" else f"{word.kind} {word.text}"


def members_at(program, nodes):
    """The members that stand at these nodes, as a plan names them."""
    return member_words(program, sorted(c for k in nodes for c in program.lattice.own_columns[k]))
