"""Explains the faults of texts, F1 to F6: the byte, the parenthesis or the end at which a text is no tree."""
import re

from fond import faults
from fond.tree import tokens

ORDER_MARK = b"\xef\xbb\xbf"
TOKEN = re.compile(rb"[()]|[!-'*-:<-~]+")


def byte_at(text, place):
    """The number of a byte of the text by its place."""
    line, column = place
    start = 0
    for _ in range(line - 1):
        start = text.index(b"\n", start) + 1
    return start + column - 1


def character_at(text, at):
    """The printable character outside ASCII that begins at a byte, or the empty string."""
    for length in (2, 3, 4):
        try:
            character = text[at:at + length].decode("utf-8")
        except UnicodeDecodeError:
            continue
        return character if len(character) == 1 and character.isprintable() else ""
    return ""


def tokens_before(text, place):
    """The tokens of the text before a place, each with its line and its column."""
    for line, column, token in tokens(text):
        if (line, column) >= place:
            return
        yield line, column, token


def open_at(text, place):
    """The places of the parentheses that are open at a place, the outermost first."""
    stack = []
    for line, column, token in tokens_before(text, place):
        if token == "(":
            stack.append((line, column))
        elif token == ")":
            stack.pop()
    return stack


def token_at(text, place):
    """The parenthesis or the lowered leaf at a place."""
    return TOKEN.match(text, byte_at(text, place))[0].decode("ascii").lower()


def explain_byte(file, place, text):
    at = byte_at(text, place)
    if text.startswith(ORDER_MARK, at):
        return faults.fault(file, place, "F2", variant="mark")
    character = character_at(text, at)
    if character:
        return faults.fault(file, place, "F2", character, "character")
    return faults.fault(file, place, "F2", f"byte {text[at]}", byte=text[at])


def explain_end(files, file, place, text):
    stack = open_at(text, place)
    where = files.where(file, stack[-1], file)
    return faults.fault(file, place, "F3", variant="many" if len(stack) > 1 else "", count=len(stack), where=where)


def explain_misplaced(files, file, place, text):
    first = next(tokens_before(text, place), None)
    token = token_at(text, place)
    if token == ")":
        return faults.fault(file, place, "F4", token)
    return faults.fault(file, place, "F4", token, "after", where=files.where(file, first[:2], file))


def explain(files, file, place, code):
    """The finding of a fault of a text, or None if the code is none of these."""
    text = files.texts[file]
    if code == "F1":
        return faults.fault(file, place, code, count=len(text), limit=faults.MOST_BYTES)
    if code == "F2":
        return explain_byte(file, place, text)
    if code == "F3":
        return explain_end(files, file, place, text)
    if code == "F4":
        return explain_misplaced(files, file, place, text)
    if code == "F5":
        where = files.where(file, open_at(text, place)[0], file)
        return faults.fault(file, place, code, "(", limit=faults.MOST_OPEN, where=where)
    if code == "F6":
        return faults.fault(file, place, code, variant="blank" if text else "", owner=file)
    return None
