"""The sentences of tools/explain on constructors: what is wrong with one, or with what calls one."""
from explain_tokens import Pieces

MODIFIERS = ("public", "protected", "private", "abstract", "static", "final")

NO_NAME = "a method has a name between its result and the `(`; a constructor has the name of its class alone"
IN_INTERFACE = "an interface has no constructor: a method of an interface has a result type or void before its name"
NO_BODY = "a constructor has a body behind its parameters: write { }"
OTHER = "no constructor calls another one of its class: a class has one constructor; what it shares with others stands in a method"
ABOVE = "super(..) stands first in the body of a constructor, or nowhere: for a method of the class above write super.m(..)"
BEHIND_ABOVE = "behind super(..) stands a `;`: it is a statement of its own, and gives nothing"
SECOND = "a class has one constructor: there is no overloading; give this one's work to a method, or to a class below"
NAMED = "a constructor has the name of its class, which is `{holder}`; a method has a result type or void before its name"
MODIFIER = "before a constructor stand public, protected and private alone, each at most once"
NO_OBJECT = "what super(..) is given is found before there is an object: it names parameters and static members, and creates objects, but no field and no method of this"
OF_CREATION = "the arguments do not fit the parameters of the class's constructor; a class without a constructor takes none"
OF_ABOVE = (
    "super(..) does not fit the constructor of the class above in number or type of its arguments; where none is written, super() is meant, "
    "and a class without a constructor takes no arguments"
)
OF_IMPLIED = (
    "this class has no constructor, so it gets one that calls super(), and the constructor of the class above takes arguments: "
    "write a constructor here that begins with super(..)"
)


def is_head(pieces, k):
    """Whether a constructor's head stands at a piece, a modifier of it or its name."""
    while pieces.text(k) in MODIFIERS:
        k += 1
    first = k
    while pieces.text(first - 1) in MODIFIERS:
        first -= 1
    return pieces.kind(k) == "word" and pieces.text(k + 1) == "(" and pieces.text(first - 1) in ("{", "}", ";")


def is_given_above(pieces, k):
    """Whether a piece stands between the brackets of a `super(..)`."""
    return any(pieces.text(j) == "(" and pieces.text(j - 1) == "super" for j in pieces.around(k))


def in_class(spot):
    """The sentence where a token cannot stand among the members of a class or interface, or nothing."""
    pieces = Pieces(spot.source.data)
    if spot.text() == "(":
        kinds = [token.text for token in spot.tokens[: spot.open[-1]] if token.text in ("class", "interface")]
        return IN_INTERFACE if kinds[-1:] == ["interface"] and spot.is_name(-1) else NO_NAME
    if spot.text(-1) == ")":
        first = pieces.opening(pieces.at(spot.tokens[spot.k - 1].at)) - 1
        return NO_BODY if is_head(pieces, first) else None
    return None


def in_body(spot):
    """The sentence where a token cannot stand in a body, for a call of a constructor, or nothing."""
    if spot.text() == "(" and spot.text(-1) in ("super", "this"):
        return ABOVE if spot.text(-1) == "super" else OTHER
    if spot.text(-1) == ")" and spot.statement()[:2] == ["super", "("]:
        return BEHIND_ABOVE
    return None


def of_name(source, kind, name, at, holder):
    """The sentence for a condition on names that holds at a constructor's name, or nothing."""
    pieces = Pieces(source.data)
    k = pieces.at(at)
    if not is_head(pieces, k) or pieces.text(k) != name or len(pieces.around(k)) != 1:
        return None
    return {"Overload": SECOND, "Unknown": NAMED.format(holder=holder)}.get(kind)


def of_rule(source, rule, at):
    """The sentence for a rule of types or a form that fails at a constructor or a creation, or nothing."""
    pieces = Pieces(source.data)
    k = pieces.at(at)
    if rule == "ThisInStatic":
        return NO_OBJECT if is_given_above(pieces, k) else None
    if rule == "Modifier":
        return MODIFIER if len(pieces.around(k)) == 1 and is_head(pieces, k) else None
    if rule != "Arguments":
        return None
    if pieces.text(k) == "new":
        return OF_CREATION
    if pieces.text(k - 1) == "class":
        return OF_IMPLIED
    return OF_ABOVE if len(pieces.around(k)) == 1 and is_head(pieces, k) else None
