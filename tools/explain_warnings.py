"""What Kaba takes, and Java reads in another way."""
import re

COMMENT = re.compile(rb'//[^\r\n]*|/\*.*?(?:\*/|\Z)|"(?:[^"\\\r\n]|\\.)*"|' + rb"'(?:[^'\\\r\n]|\\.)*'", re.S)
ESCAPE = re.compile(rb"(?<!\\)(?:\\\\)*(\\u+)([0-9a-fA-F]{4})?")


def unicode_escapes(data):
    """The places in comments where Java reads a Unicode escape, which Kaba does not, each with what that does."""
    found = []
    for comment in COMMENT.finditer(data):
        if comment[0][:1] != b"/":
            continue
        for escape in ESCAPE.finditer(comment[0]):
            if escape[2] is None:
                said = "javac refuses `\\u` in a comment without four hexadecimal digits: leave the backslash out"
            else:
                said = "Java reads this escape in the comment too, which it may end: leave the backslash out"
            found.append((comment.start() + escape.start(1), said))
    return found
