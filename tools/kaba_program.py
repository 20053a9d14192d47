"""A program as a plan speaks of it: its classes, members, variables and creations by name, and where each stands."""
from java_tree import NoTree, tree_of
from kaba_access import Types, Uses
from kaba_analysis import NO_CLASS, analyse_given
from kaba_match import is_static
from kaba_tools import class_of, fail

TOP = "Object"


class Creations(Uses):
    """The creations of objects in the order of the text, each with the variables that it is put into straight away."""

    def __init__(self, types):
        self.made, self.into = {}, {}  # by the token of the type's name: the form, and labels of variables
        super().__init__(types)

    def visit(self, form):
        if form.kind in ("New", "NewArray") and form.type.name not in NO_CLASS:
            self.made[form.type.at] = form
        return super().visit(form)

    def put(self, value, label):
        while value is not None and value.kind == "Cast":
            value = value.value
        if label and value is not None and value.kind in ("New", "NewArray"):
            self.into.setdefault(value.type.at, []).append(label)

    def method_label(self):
        return f"{self.within}.{self.member.name.name}"

    def label(self, target):
        """The label of the variable that a target is, of an element that of its array."""
        if target.kind == "Index":
            return self.label(target.base)
        name = target.name.name if target.kind in ("Name", "Field") else None
        if target.kind == "Name" and name in self.known:
            return f"{self.method_label()}.{name}"
        if target.kind == "Field":
            receiver, dims = super().visit(target.base)
            owner = self.types.field(receiver, name) if dims == 0 else None
        else:
            owner = self.types.field(self.within, name) if name else None
        return f"{owner}.{name}" if owner else None

    def of_Local(self, form, _inner):
        self.put(form.value, f"{self.method_label()}.{form.name.name}")
        return None, 0

    def of_Assign(self, form, _inner):
        self.put(form.value, self.label(form.target))
        return None, 0

    def of_Return(self, form, _inner):
        self.put(form.value, self.slot_label(self.member, self.within, "return"))
        return None, 0

    def found_method(self, receiver, name):
        owner = self.types.method(receiver, name)
        if owner and self.call is not None:
            method = self.types.methods[owner][name]
            for param, value in zip(method.params, self.call.args):
                self.put(value, self.slot_label(method, owner, param.name.name))
        return super().found_method(receiver, name)

    def of_Call(self, form, inner):
        self.call = form
        found = super().of_Call(form, inner)
        self.call = None
        return found

    def of_SuperCall(self, form, inner):
        self.call = form
        found = super().of_SuperCall(form, inner)
        self.call = None
        return found

    def slot_label(self, method, owner, name):
        """The label of a parameter or result: that of the first method of the slot in the text."""
        if is_static(method):
            return f"{owner}.{method.name.name}.{name}"
        shape = slot_of(method)
        for holder, members in self.types.methods.items():
            first = members.get(method.name.name)
            if first is not None and not is_static(first) and slot_of(first) == shape:
                places = [param.name.name for param in method.params]
                said = first.params[places.index(name)].name.name if name in places else name
                return f"{holder}.{method.name.name}.{said}"
        return None


def slot_of(method):
    return [(it.name, it.dims) for it in [method.type, *(param.type for param in method.params)]]


class Program:
    """A program's analysis, and the names of what is in it."""

    def __init__(self, given):
        self.analysis, self.given = analyse_given(given), given
        self.lattice, declared = self.analysis.lattice, self.analysis.declared
        self.classes, self.parents = list(declared.classes), declared.parents
        self.class_lines = declared.classes
        try:
            self.tree = tree_of(self.analysis.source)
        except NoTree as error:
            fail(f"{given.name}: {error}", 75)
        self.with_statics = {it.name.name for it in self.tree if any(is_static(member) for member in it.members)}
        self.node_of_column = {c: k for k, at in enumerate(self.lattice.own_columns) for c in at}
        self.node_of_row = {r: k for k, at in enumerate(self.lattice.own_rows) for r in at}
        self.nodes = [k for k, extent in enumerate(self.lattice.extents) if extent]
        for dead in self.lattice.dead:
            self.node_of_column.pop(dead, None)
        self.up = {k: self.lattice.up[k] for k in self.nodes}
        self.down = {k: {j for j in self.nodes if k in self.up[j]} for k in self.nodes}
        self.row_classes = self.classes_of_rows()
        self.creations = self.find_creations()
        self.words = {token.text for token in self.analysis.source.tokens if token.kind == "word"}

    def classes_of_rows(self):
        """The class by which each row is typed in the text."""
        left = {}
        for variable in self.analysis.declared.variables:
            name = variable.type.split("[")[0]
            if name not in NO_CLASS:
                left.setdefault(variable.label, []).append(name)
        return [class_of(label) if " " in label else (left.get(label) or [TOP]).pop(0) for label in self.lattice.rows]

    def find_creations(self):
        """The creations by their rows: the class, the line, and the labels of the variables that each is put into."""
        walked = Creations(Types(self.tree))
        rows = [r for r, label in enumerate(self.lattice.rows) if label.startswith("new ")]
        return {r: walked.into.get(at, []) for r, at in zip(rows, sorted(walked.made))}

    def objects(self):
        """The rows of the creations of objects, without those of arrays."""
        return [r for r in self.creations if "[" not in self.lattice.rows[r]]

    def chain(self, name):
        """A class and those above it, with Object."""
        found = []
        while name and name != TOP and name not in found:
            found.append(name)
            name = self.parents.get(name)
        return [*found, TOP]

    def join(self, names):
        """The lowest class at or above all of these."""
        chains = [self.chain(name) for name in names]
        return next((name for name in chains[0] if all(name in chain for chain in chains)), TOP) if chains else TOP

    def is_below(self, low, high):
        return high in self.chain(low)

    def home_classes(self):
        """The class that each node stands for: the lowest one at or above all that the node's variables have.

        A class with members that would have no node has those that stand for a class below it, as far as all of
        their members are its own or from above.
        """
        homes = {k: self.join([self.row_classes[r] for r in self.lattice.extents[k]]) for k in self.nodes}
        tops = {k: self.lowest_owner(k) for k in self.nodes}
        for name in sorted(self.classes, key=lambda it: -len(self.chain(it))):
            if name not in homes.values() and any(c in self.node_of_column for c in self.analysis.columns_of(name)):
                lifted = [k for k in self.nodes if self.is_below(homes[k], name) and self.is_below(name, tops[k])]
                homes.update(dict.fromkeys(lifted, name))
        return homes

    def lowest_owner(self, k):
        """The lowest class of the members that a node's variables need."""
        owners = {class_of(self.lattice.columns[c]) for c in self.lattice.intents[k]}
        return max(owners, key=lambda it: len(self.chain(it)), default=TOP)

    def column(self, label):
        return self.lattice.columns.index(label) if label in self.lattice.columns else None

    def member_columns(self, name, kinds):
        """The columns of a member C.m of these kinds."""
        labels = [f"{kind}({name})" for kind in kinds]
        return [c for c, label in enumerate(self.lattice.columns) if label in labels]
