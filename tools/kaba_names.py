"""Names: the language's keywords, and names that Kaba takes and Java does not, or not everywhere."""

KEYWORDS = set(
    """abstract assert boolean break byte case catch char class const continue default do double else enum extends final
    finally float for goto if implements import instanceof int interface long native new package private protected
    public return short static strictfp super switch synchronized this throw throws transient try void volatile while
    true false null _""".split()
)
KNOWN = {"Object", "String", "System"}
# Java reads them as words of its own in some places.
RESTRICTED_TYPES = {"var", "record", "yield", "sealed", "permits"}
# The methods that every Java class has, and those of them that no class declares anew.
FINAL_METHODS = {"getClass", "notify", "notifyAll", "wait"}
METHODS_OF_OBJECT = FINAL_METHODS | {"clone", "equals", "finalize", "hashCode", "toString"}
# What the methods of Object without parameters give that a class may declare anew.
RESULTS = {"clone": "Object", "finalize": "void", "hashCode": "int", "toString": "String"}
NO_OBJECT = ("int", "boolean", "char", "void")
IN_BETWEEN = (
    "javac refuses it where an abstract class inherits it from an interface alone, since Object has one that is not public"
)


def warning_of_type(name):
    """What Java makes of a type of this name, or nothing."""
    if name in RESTRICTED_TYPES:
        return f"javac refuses a type named `{name}`, which is a restricted identifier of Java"
    return None


def warning_of_method(name, parameters=None, result=None, is_static=False):
    """What Java makes of a method of this name, or nothing; of the rest only what is known is given.

    `parameters` is how many it has, and `result` the text of the type of its result.
    """
    if name == "yield" and is_static:
        return "inside of its class it is called as `yield(..)`, which javac reads as a statement, and refuses"
    if name in FINAL_METHODS and not parameters:
        return f"javac refuses a method `{name}()`, which is final in Object"
    wanted = RESULTS.get(name)
    if not wanted or parameters:
        return None
    if result is not None and (result in NO_OBJECT if wanted == "Object" else result != wanted):
        return f"javac refuses a method `{name}()` whose result is not {wanted}, as in Object"
    if name == "finalize":
        return "the virtual machine calls a `finalize()` when it collects an object; " + IN_BETWEEN
    return IN_BETWEEN if name == "clone" else None


def warning_of_edit(line):
    """What Java makes of the name that an edit gives to a type or a member, or nothing."""
    words = line.split()
    if words[:1] == ["type"]:
        return warning_of_type(words[-1])
    return warning_of_method(words[-1]) if words[:1] == ["member"] else None
