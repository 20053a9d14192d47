"""What the analysis joins: methods of one slot in unrelated classes, and containers that several uses share."""


def families(declared):
    """For each class and interface the set of those with which it is joined by its supertypes, Object aside."""
    family = {name: {name} for name in declared.classes}
    for name, above in declared.supertypes.items():
        for other in above:
            if other in family and family[other] is not family[name]:
                joined = family[other] | family[name]
                family.update(dict.fromkeys(joined, joined))
    return family


def shared_slots(declared):
    """Slots that unrelated classes have: the methods' heads, of one name, parameters and result.

    A slot has one row for each parameter and one for its result: so what one class's method is given counts for all.
    """
    slots, family = {}, families(declared)
    for head in declared.heads:
        if "static" not in head.modifiers:
            key = (head.label.split(".")[1], tuple(head.parameters), head.result)
            slots.setdefault(key, []).append(head)
    of_class = [(heads, [family[head.label.split(".")[0]] for head in heads]) for heads in slots.values()]
    return [heads for heads, found in of_class if any(it is not found[0] for it in found)]


def lower_classes(declared, name):
    return [other for other in declared.classes if other != name and name in chain(declared, other)]


def chain(declared, name):
    """A class and those that it extends."""
    found = []
    while name and name not in found:
        found.append(name)
        name = declared.parents.get(name)
    return found


def containers(analysis):
    """Fields that hold objects of several classes, of a class that is created at several places.

    Each is a name, a type, a line, and the rows of the creations.
    """
    declared, found = analysis.declared, []
    fields = [variable for variable in declared.variables if variable.label.count(".") == 1]
    for field in fields:
        holder, base = field.label.split(".")[0], field.type.split("[")[0]
        is_open = base == "Object" or len(lower_classes(declared, base)) > 1
        creations = [r for r in analysis.creations(holder)]
        if is_open and len(creations) > 1:
            found.append((field.label, field.type, field.line, creations))
    return found


def slot_line(heads):
    """A shared slot in words."""
    name, kinds = heads[0].label.split(".")[1], ", ".join(heads[0].parameters)
    places = ", ".join(f"{head.label} in line {head.line}" for head in heads)
    return f"  {heads[0].result} {name}({kinds}): {places}"


def container_line(analysis, container):
    label, kind, line, creations = container
    places = ", ".join(analysis.lattice.rows[r] for r in creations)
    return f"  line {line}, field {label} of type {kind}: {places}"


def sections(analysis, names):
    """The parts of the report that tell of these, left out where there are none."""
    slots = shared_slots(analysis.declared)
    slots = [heads for heads in slots if {head.label.split(".")[0] for head in heads} & set(names)]
    held = [it for it in containers(analysis) if it[0].split(".")[0] in names]
    found = []
    if slots:
        head = "slots of one name in unrelated classes: one row for each parameter and for the result, and one name"
        found.append((head, [slot_line(heads) for heads in slots]))
    if held:
        head = "shared containers: the rows of a container's methods are those of all its creations"
        found.append((head, [container_line(analysis, it) for it in held]))
    return found
