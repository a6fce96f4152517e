"""The files of a task as tools/lint shows them: paths, texts, and places as editors count them."""
import dataclasses

KINDS = ("domain", "problem", "side")


@dataclasses.dataclass(frozen=True)
class Files:
    """The paths and the bytes of the files, each by `domain`, `problem` and `side`."""

    paths: dict
    texts: dict

    def column(self, file, line, column):
        """The column in characters of a column in bytes, both from 1. A byte that is no part of UTF-8 counts as a character."""
        before = self.texts[file].split(b"\n", line)[line - 1][:column - 1]
        return len(before.decode("utf-8", "surrogateescape")) + 1

    def where(self, file, place, shown_in):
        """A place as a message about the file `shown_in` names it: with the path if it is in another file.

        Before a leaf or a parenthesis a line has no byte outside ASCII, so its column needs no counting.
        """
        line, column = place
        path = "" if file == shown_in else f"{self.paths[file]}:"
        return f"{path}{line}:{column}"


def place_of(tree):
    return tree.line, tree.column
