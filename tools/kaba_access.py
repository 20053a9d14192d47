"""Which modifiers the members of a changed program must have, so that each use may see its member, and Java agrees."""
from collections import namedtuple

from kaba_match import forms_in, is_static

PRIVATE, PACKAGE, PROTECTED, PUBLIC = range(4)
WORDS = {PRIVATE: "private", PROTECTED: "protected", PUBLIC: "public"}
RANKS = {word: rank for rank, word in WORDS.items()}

Use = namedtuple("Use", "owner name user receiver")  # a use of a member within a type, on something of a type


def rank_of(mods):
    return max((RANKS[word.name] for word in mods if word.name in RANKS), default=PACKAGE)


class Types:
    """The types of a written program, and what is found in them."""

    def __init__(self, declarations):
        self.types = {it.name.name: it for it in declarations}
        self.fields, self.methods = {}, {}
        for name, it in self.types.items():
            self.fields[name] = {m.name.name: m for m in it.members if m.kind == "FieldMember"}
            self.methods[name] = {m.name.name: m for m in it.members if m.kind == "Method"}

    def chain(self, name):
        """A type and the classes that it extends."""
        while name in self.types:
            yield name
            parent = self.types[name].parent
            name = parent.name if parent else None

    def above(self, name):
        """All types above a type."""
        it = self.types[name]
        near = [up.name for up in [it.parent, *it.faces] if up and up.name in self.types]
        return set(near).union(*(self.above(up) for up in near))

    def field(self, name, field):
        """The type that declares the field that is found in a type."""
        return next((up for up in self.chain(name) if field in self.fields[up]), None)

    def method(self, name, method):
        """The type that declares the method that is found in a type."""
        for up in [*self.chain(name), *(self.above(name) if name in self.types else ())]:
            if method in self.methods[up]:
                return up
        return None


class Uses:
    """The uses of members within the bodies of a program, with the static type of what they are used on."""

    def __init__(self, types):
        self.types, self.found, self.call = types, [], None
        for name, it in types.types.items():
            for member in it.members:
                if member.kind == "Method" and member.body:
                    self.within, self.member = name, member
                    self.known = {param.name.name: (param.type.name, param.type.dims) for param in member.params}
                    self.all(member.body)

    def all(self, forms):
        for form in forms:
            self.visit(form)

    def visit(self, form):
        """Notes the uses in a form, and gives its static type and its pairs of brackets, as far as it matters."""
        if form.kind == "Local":
            self.known = {**self.known, form.name.name: (form.type.name, form.type.dims)}
        inner = {}
        for key, part in form.parts.items():
            known = dict(self.known)
            inner[key] = [self.visit(it) for it in forms_in(part)]
            self.known = known if isinstance(part, list) else self.known
        return getattr(self, f"of_{form.kind}", lambda *_: (None, 0))(form, inner)

    def note(self, owner, name, receiver):
        if owner:
            self.found.append(Use(owner, name, self.within, receiver))

    def of_This(self, _form, _inner):
        return self.within, 0

    def of_New(self, form, _inner):
        return form.type.name, 0

    def of_NewArray(self, form, _inner):
        return form.type.name, form.type.dims

    of_Cast = of_New

    def of_Index(self, _form, inner):
        name, dims = inner["base"][0]
        return name, dims - 1

    def of_Name(self, form, _inner):
        name = form.name.name
        if name in self.known:
            return self.known[name]
        return self.found_field(self.within, name) if self.types.field(self.within, name) else (name, 0)

    def of_Field(self, form, inner):
        name, dims = inner["base"][0]
        return self.found_field(name, form.name.name) if dims == 0 else (None, 0)

    def found_field(self, receiver, name):
        owner = self.types.field(receiver, name)
        self.note(owner, name, receiver)
        if not owner:
            return None, 0
        declared = self.types.fields[owner][name].type
        return declared.name, declared.dims

    def of_Call(self, form, inner):
        name, dims = inner["base"][0] if form.base is not None else (self.within, 0)
        return self.found_method(name, form.name.name) if dims == 0 else (None, 0)

    def of_SuperCall(self, form, _inner):
        parent = self.types.types[self.within].parent
        return self.found_method(parent.name if parent else None, form.name.name)

    def found_method(self, receiver, name):
        owner = self.types.method(receiver, name)
        self.note(owner, f"{name}()", receiver)
        if not owner:
            return None, 0
        declared = self.types.methods[owner][name].type
        return declared.name, declared.dims


def key_of(member):
    return member.name.name + ("()" if member.kind == "Method" else "")


class Access:
    """The rank of access that each member gets, and which methods may stay final.

    A member keeps the access that it had, but for these: a private one that is used elsewhere, or on something of
    another type than its own, or whose name stands above or below, is open to the package; a method that comes to
    stand below another has no less access than that one, and one that an interface declares is public.
    """

    def __init__(self, declarations, placed):
        self.types = Types(declarations)
        self.ranks, self.placed = {}, placed
        types = self.types.types
        self.below = {name: [other for other in types if name in self.types.above(other)] for name in types}
        uses = Uses(self.types).found
        self.used_elsewhere = {(use.owner, use.name) for use in uses if {use.user, use.receiver} != {use.owner}}
        for name, members in placed.items():
            for member in members:
                self.ranks[name, key_of(member.new)] = self.first_rank(name, member)
        for name in self.types.types:
            self.open_for_interfaces(name)
        for name in sorted(self.types.types, key=lambda it: len(self.types.above(it))):
            self.open_below(name)

    def methods_named(self, names, method):
        return [name for name in names if method in self.types.methods[name]]

    def first_rank(self, name, member):
        if self.types.types[name].kind == "Interface":
            return PUBLIC
        key = key_of(member.new)
        if member.old is None:
            below = [it for other in self.below[name] for it in self.placed[other]]
            olds = [it.old for it in below if it.old and key_of(it.new) == key]
            return max(PACKAGE, min((rank_of(old.mods) for old in olds), default=PACKAGE))
        rank = rank_of(member.old.mods)
        if rank == PRIVATE and ((name, key) in self.used_elsewhere or self.has_relatives(name, member.new)):
            return PACKAGE
        return rank

    def has_relatives(self, name, member):
        """Whether a method of this name stands above or below."""
        others = [*self.types.above(name), *self.below[name]]
        return member.kind == "Method" and bool(self.methods_named(others, member.name.name))

    def open_for_interfaces(self, name):
        """What a class has for a method of an interface above it is public."""
        if self.types.types[name].kind == "Interface":
            return
        for face in self.types.above(name):
            if self.types.types[face].kind == "Interface":
                for method in self.types.methods[face]:
                    owner = next(iter(self.methods_named(self.types.chain(name), method)), None)
                    if owner:
                        self.ranks[owner, f"{method}()"] = PUBLIC

    def open_below(self, name):
        for method, member in self.types.methods[name].items():
            if not is_static(member):
                over = [self.ranks[up, f"{method}()"] for up in self.methods_named(self.types.above(name), method)]
                self.ranks[name, f"{method}()"] = max([self.ranks[name, f"{method}()"], *over])

    def may_be_final(self, name, member):
        """Whether a final method is hidden by none below."""
        return member.kind != "Method" or not self.methods_named(self.below[name], member.name.name)
