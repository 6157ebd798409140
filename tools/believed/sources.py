"""The types that the sources of the crates declare, as the definitions speak of them."""
import re
from dataclasses import dataclass

# The comment above it, then the type with its attributes: its kind and its name.
TYPE = re.compile(r'((?:^//[^\n]*\n)*)((?:^#\[[^\n]*\n)*'
                  r'^(?:pub )?(struct|enum|type) (\w+)[^\n;{]*(?:\{.*?^\}|;))', re.M | re.S)


@dataclass(frozen=True)
class Type:
    """A struct, an enum or another type of a source, with its text and the comment above it."""
    kind: str
    name: str
    crate: str
    file: str
    line: int
    comment: tuple
    text: str


def types(crate, file, text):
    """The types that a source declares."""
    for match in TYPE.finditer(text):
        comment = tuple(match[1].rstrip('\n').split('\n')) if match[1] else ()
        line = text.count('\n', 0, match.start(2)) + 1
        yield Type(match[3], match[4], crate, file, line, comment, match[2])


def named_in(found):
    """The names that a type's fields have as their types."""
    body = re.sub(r'//[^\n]*', '', found.text)
    parts = re.findall(r'\(([^)]*)\)|:\s*([^,\n]+)|=([^;]*);', body)
    return [name for part in parts for name in re.findall(r'[A-Z]\w*', ' '.join(part))]
