"""Reads the trees of a domain, a problem or a side list, with places.

The rules are those of docs/LANGUAGE.md: blanks are the bytes 9 to 13 and 32, a `;` starts a comment up to the next line
feed, and letters are lowered. The text is expected to be free of faults; ask the program first (`fond.program`).
"""
import dataclasses

BLANKS = frozenset((9, 10, 11, 12, 13, 32))
OPEN, CLOSE, SEMICOLON, LINE_FEED = b"();\n"


@dataclasses.dataclass(frozen=True)
class Leaf:
    """A leaf: its place (line and column in bytes, both from 1), and its lowered text."""

    line: int
    column: int
    text: str

    @property
    def is_variable(self):
        return self.text.startswith("?")

    @property
    def is_keyword(self):
        return self.text.startswith(":")


@dataclasses.dataclass(frozen=True)
class Node:
    """A node: the place of its opening parenthesis, and its members."""

    line: int
    column: int
    members: tuple

    @property
    def head(self):
        """The text of the first member if it is a leaf, and otherwise the empty string."""
        return self.members[0].text if self.members and isinstance(self.members[0], Leaf) else ""


def tokens(text):
    """Yields (line, column, token) for each parenthesis and each lowered leaf of the bytes `text`."""
    line, start, at = 1, 0, 0
    while at < len(text):
        byte = text[at]
        if byte == LINE_FEED:
            line, start = line + 1, at + 1
        if byte in BLANKS:
            at += 1
        elif byte == SEMICOLON:
            end = text.find(b"\n", at)
            at = len(text) if end < 0 else end
        elif byte in (OPEN, CLOSE):
            yield line, at - start + 1, chr(byte)
            at += 1
        else:
            end = at
            while end < len(text) and text[end] not in BLANKS and text[end] not in (OPEN, CLOSE, SEMICOLON):
                end += 1
            yield line, at - start + 1, text[at:end].decode("latin-1").lower()
            at = end


def read_forest(text):
    """The trees of the bytes `text`, in order."""
    stack, found = [], []
    for line, column, token in tokens(text):
        if token == "(":
            stack.append((line, column, found))
            found = []
        elif token == ")":
            line, column, outer = stack.pop()
            outer.append(Node(line, column, tuple(found)))
            found = outer
        else:
            found.append(Leaf(line, column, token))
    return found


def read_tree(text):
    """The one tree of a domain or a problem."""
    (tree,) = read_forest(text)
    return tree
