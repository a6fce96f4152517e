"""Finds where the parts of a source end: comments and literals, brackets of Rust, and the braces of a clause."""
import re

# A lifetime, such as 'a, is no character: it has no quote at its end.
LITERAL = re.compile(r"""
      //[^\n]*
    | b?r(?P<hashes>\#*)".*?"(?P=hashes)
    | b?"(?:\\.|[^"\\])*"
    | b?'(?:\\(?:u\{[^}]*\}|x[0-9a-fA-F]{2}|.)|[^\\'])'
    """, re.DOTALL | re.VERBOSE)
BLOCK_EDGE = re.compile(r"/\*|\*/")
# A text of a clause, or a brace. An apostrophe is part of a name there.
CLAUSE_PART = re.compile(r'"(?:\\.|[^"\\])*"|[{}]', re.DOTALL)


class Unclear(Exception):
    """A part that begins at a place of the text and is not understood."""

    def __init__(self, text, at, what):
        super().__init__(f"line {text.count(chr(10), 0, at) + 1}: {what}")


def end_of_block_comment(text, at):
    depth = 0
    for edge in BLOCK_EDGE.finditer(text, at):
        depth += 1 if edge[0] == "/*" else -1
        if depth == 0:
            return edge.end()
    raise Unclear(text, at, "a comment that does not end")


def end_of_literal(text, at):
    """The place after the comment, the string or the character that begins at this place, or the place itself if none does."""
    if text.startswith("/*", at):
        return end_of_block_comment(text, at)
    found = LITERAL.match(text, at)
    return found.end() if found else at


def end_of_brackets(text, at):
    """The place after the closing bracket of the one at this place, in Rust."""
    start, depth = at, 0
    while at < len(text):
        end = end_of_literal(text, at)
        if end > at:
            at = end
            continue
        depth += (text[at] in "([{") - (text[at] in ")]}")
        at += 1
        if depth == 0:
            return at
    raise Unclear(text, start, "a bracket that is not closed")


def end_of_clause(text, at):
    """The place after the closing brace of the one at this place, in what a clause says, which is no Rust."""
    depth = 0
    for part in CLAUSE_PART.finditer(text, at):
        depth += (part[0] == "{") - (part[0] == "}")
        if depth == 0:
            return part.end()
    raise Unclear(text, at, "a brace that is not closed")
