"""What javac may refuse of the text that `kaba regen` writes, and what java may run in another way."""
import re

from explain_warnings import unicode_escapes
from kaba_names import warning_of_method, warning_of_type
from kaba_scripts import edits_in
from kaba_tools import Declarations, Source, bytes_of, fail_as, kaba

CONDITIONS = ("if", "while", "for")
CONSTANT = (
    "a `final` variable of a constant value decides here, and is written without `final`: where javac needs that value "
    "to know how the method goes on, write the constant itself (`while (true)`)"
)


def constants(source):
    """The names of the final variables with a value that is a literal."""
    tokens, found = source.tokens, set()
    for k, token in enumerate(tokens[:-4]):
        if token.text == "final" and tokens[k + 3].text == "=":
            value = tokens[k + 4]
            if value.kind in ("number", "char", "string") or value.text in ("true", "false", "-", "!", "("):
                found.add(tokens[k + 2].text)
    return found


def in_conditions(source):
    """The tokens in the tests of an if, a while or a for."""
    depth, opened = 0, None
    for k, token in enumerate(source.tokens):
        if token.text == "(":
            depth += 1
            if opened is None and k and source.tokens[k - 1].text in CONDITIONS:
                opened = depth
        elif token.text == ")":
            if opened == depth:
                opened = None
            depth -= 1
        elif opened is not None:
            yield token


def of_text(source, declared):
    """The places of the program's own text, each with what to say."""
    names = constants(source)
    seen = set()
    for token in in_conditions(source):
        if token.text in names and source.line_of(token) not in seen:
            seen.add(source.line_of(token))
            yield source.line_of(token), CONSTANT
    for head in declared.heads:
        name = head.label.rsplit(".", 1)[1]
        said = warning_of_method(name, len(head.parameters), head.result, "static" in head.modifiers)
        if said:
            yield head.line, f"method `{name}`: {said}"
    for at, said in unicode_escapes(source.data):
        yield source.place(at)[0], said


def of_script(declared, columns, script):
    """The lines of a script whose names Java reads in another way, each with what to say."""
    heads = {head.label: head for head in declared.heads}
    for number, edit in edits_in(script).items():
        said = None
        if edit.word == "type":
            said = warning_of_type(edit.name)
        elif edit.word == "member" and edit.numbers[0][1] < len(columns):
            member = re.sub(r"^\w+\(|\)$", "", columns[edit.numbers[0][1]])
            head = heads.get(member) if not columns[edit.numbers[0][1]].startswith("fld") else None
            said = head and warning_of_method(edit.name, len(head.parameters), head.result)
        if said:
            yield number, said


def columns_of(file):
    """The labels of the columns of a program's table."""
    status, out, error = kaba("table", file)
    if status:
        fail_as(status, error, file)
    lines = out.decode().split("\ncolumns ", 1)[1].splitlines()[1:]
    return [line.split(" ", 1)[1] for line in lines]


def explain_written(file, script):
    """Tells the places of a file and of a script; gives the status of the program on the file."""
    source = Source(bytes_of(file))
    status, _, error = kaba("run", file, "0")
    if status not in (0, 10, 11):
        fail_as(status, error, file)
    declared = Declarations(source)
    found = sorted(of_text(source, declared))
    told = [f"{file}:{line}: {said}\n    {source.line(line).strip()}" for line, said in found]
    if script:
        data = bytes_of(script)
        lines = data.decode(errors="replace").split("\n")
        found = of_script(declared, columns_of(file), data)
        told += [f"{script}:{number}: {said}\n    {lines[number - 1]}" for number, said in found]
    print("\n".join(told) if told else f"{file}: nothing is known that javac would refuse of what is written of it")
    return 0
