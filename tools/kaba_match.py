"""Which old member each member of a written program is, and what of the old member's tokens must change."""

class NoMatch(Exception):
    """The written program has another form than the old one where they should agree."""


class Changes:
    """What stands in place of tokens, and what stands before and behind them."""

    def __init__(self):
        self.instead, self.before, self.behind = {}, {}, {}

    def put(self, at, text):
        self.instead[at] = text

    def wrap(self, first, last):
        self.before[first] = "(" + self.before.get(first, "")
        self.behind[last] = self.behind.get(last, "") + ")"


class Placed:
    """A member of a written type: its form there, and the old class and member that it is, or none."""

    def __init__(self, new, owner=None, old=None):
        self.new, self.owner, self.old = new, owner, old


def is_static(member):
    return any(word.name == "static" for word in member.mods)


def members_of(declaration):
    """The members of a declaration by name, a method with `()`."""
    return {member.name.name + ("()" if member.kind == "Method" else ""): member for member in declaration.members}


def old_member(old, label):
    """The old class and member of a column such as `fld(C.f)`."""
    kind, _, member = label.rstrip(")").partition("(")
    owner, _, name = member.partition(".")
    return owner, members_of(old[owner])[name if kind == "fld" else f"{name}()"]


def columns_named(node, labels):
    """The columns of a node's members, by their kind and the name that they are written with."""
    found = {}
    for c, name in node["names"].items():
        found.setdefault((labels[c].split("(")[0], name), []).append(labels[c])
    return found


def placed_member(old, columns, new):
    """The old member that a member of a node's type is."""
    kinds = ["fld"] if new.kind == "FieldMember" else ["dcl"] if new.body is None else ["def"]
    for label in (label for kind in kinds for label in columns.get((kind, new.name.name), [])):
        owner, member = old_member(old, label)
        if kinds != ["dcl"] or member.body is None:
            return Placed(new, owner, member)
    return Placed(new)


def placed_members(old, new, nodes, labels):
    """For each type of the written program its members, each with the old one."""
    by_name, found = {node["name"]: node for node in nodes}, {}
    for declaration in new:
        name = declaration.name.name
        if name in by_name:
            columns = columns_named(by_name[name], labels)
            found[name] = [placed_member(old, columns, member) for member in declaration.members]
        else:
            olds = members_of(old[name])
            found[name] = [Placed(member, name, olds[key]) for key, member in members_of(declaration).items()]
    return found


def names_within(member):
    """The names of the parameters and locals of a method."""
    names, waiting = {param.name.name for param in member.params}, list(member.body or [])
    while waiting:
        form = waiting.pop()
        if form.kind == "Local":
            names.add(form.name.name)
        for part in form.parts.values():
            waiting += forms_in(part)
    return names


def forms_in(part):
    """The forms within a part of a form."""
    if isinstance(part, (list, tuple)):
        return [form for item in part for form in forms_in(item)]
    return [part] if hasattr(part, "parts") else []


class Rewriting:
    """Goes through an old member and the written one side by side, and notes what of the old text must change."""

    def __init__(self, changes, holder, old, new):
        self.changes, self.holder = changes, holder
        self.within = names_within(old) if old.kind == "Method" else set()
        self.retype(old.type, new.type)
        self.rename(old.name, new.name)
        if old.kind == "Method":
            for mine, theirs in self.pairs(old.params, new.params):
                self.retype(mine.type, theirs.type)
            if old.body is not None and new.body is not None:
                self.all(old.body, new.body)

    def retype(self, old, new):
        self.need(old.dims == new.dims, old.at)
        if old.name != new.name:
            self.changes.put(old.at, new.name)

    def rename(self, old, new):
        if old.name != new.name:
            self.changes.put(old.at, new.name)

    def need(self, holds, at):
        if not holds:
            raise NoMatch(at)

    def pairs(self, old, new):
        self.need(len(old) == len(new), None)
        return list(zip(old, new))

    def all(self, old, new):
        for mine, theirs in self.pairs(old, new):
            self.form(mine, theirs)

    def form(self, old, new):
        """A statement or expression, or none."""
        if old is None or new is None:
            return self.need(old is new, old and old.first)
        if old.kind == "Name":
            return self.put_name(old.name, self.simple(old, new))
        if old.kind == "Call" and old.base is None:
            self.put_name(old.name, self.simple(old, new))
            return self.all(old.args, new.args)
        if old.kind == "Field" and new.kind == "Name":  # a static member of its own class
            return self.need(old.name.name == new.name.name, old.first)
        self.need(old.kind == new.kind, old.first)
        return getattr(self, f"of_{old.kind}", self.parts)(old, new)

    def parts(self, old, new):
        """A form whose parts are forms, lists of forms, names, types, or values that must agree."""
        for key, part in old.parts.items():
            other = new.parts[key]
            if key == "name":
                self.rename(part, other)
            elif key == "type":
                self.retype(part, other)
            elif isinstance(part, list):
                self.all(part, other)
            elif hasattr(part, "parts") or part is None:
                self.form(part, other)
            else:
                self.need(part == other, old.first)

    def of_Call(self, old, new):
        if new.base is not None:
            self.form(old.base, new.base)
            self.rename(old.name, new.name)
        self.all(old.args, new.args)

    def of_If(self, old, new):
        for mine, theirs in self.pairs(old.arms, new.arms):
            self.form(mine[0], theirs[0])
            self.all(mine[1], theirs[1])
        self.need((old.other is None) == (new.other is None), old.first)
        self.all(old.other or [], new.other or [])

    def of_Assign(self, old, new):
        if old.short is None:
            self.form(old.target, new.target)
            return self.form(old.value, new.value)
        self.need(new.value.kind == "Binary" and new.value.mark == old.short[0], old.first)
        self.form(old.value.right, new.value.right)
        text = self.simple(old.target, new.target)
        if "." in text:
            self.expand(old, text)
        else:
            self.put_name(old.target.name, text)

    def expand(self, old, text):
        """Writes `x op= e` in full, where x needs something before it."""
        mark, value = old.short
        at = old.target.name.at
        if value is not None:
            self.put_name(old.target.name, text)
            self.changes.put(at + 1, f"= {text} {mark}")
            if value.kind in ("Binary", "InstanceOf"):
                self.changes.wrap(value.first, value.last)
        elif old.first == at:
            self.put_name(old.target.name, text)
            self.changes.put(at + 1, f" = {text} {mark} 1")
        else:
            self.changes.put(old.first, "")
            self.changes.put(at, f"{text} = {text} {mark} 1")

    def put_name(self, old, text):
        if text != old.name:
            self.changes.put(old.at, text)

    def simple(self, old, new):
        """How a name that stands alone in the old text is written: alone, where it still means the same."""
        name = new.name.name
        if new.kind == "Name" or new.kind == "Call" and new.base is None:
            self.need(name == old.name.name, old.first)
            return name
        self.need(new.kind in ("Field", "Call"), old.first)
        base = new.base
        if base.kind == "This":
            return f"this.{name}" if old.kind == "Name" and name in self.within else name
        self.need(base.kind == "Name" and name == old.name.name, old.first)
        return name if base.name.name == self.holder else f"{base.name.name}.{name}"
