"""Turns a source of Rattle into Rust, which rustc compiles without proofs.

Rattle is Rust with contracts over a standard library of its own, in which each call that takes memory may fail. Stripped is what only
the prover reads:

- clauses, as `ensures ok { .. }` and `requires { .. }`, whose braces hold no Rust;
- ghost items and ghost fields, as `ghost use ..;` and `ghost fits: { .. } by { .. },`;
- an `impl Model for T`, which has ghost items alone;
- the attributes `tactic`, `cycle` and `error`, and the derives `Drop` and `Error`, which rustc does not know. The crate rstd gives
  each type the bound `Drop`, and no call of the program needs the bound `Error`.

Replaced is what is written otherwise over Rust's library:

- `std::` by `rstd::`, a crate over Rust's std whose calls take an allocator and return a `Result` (shims/rstd);
- `vec![in alloc; ..]` by `rvec![..]`, and `.collect(alloc)` by `.rcollect(alloc)`, since Rust has both names with other arguments;
- `fn main(rt: HostRuntime)`, by a `main` without parameters that calls it;
- `///` by `//`, since a ghost item leaves a comment that documents nothing, which is an error.

Each file gets `use rstd::prelude::*;` before its first item, for names that Rattle knows everywhere. All else is Rust. What is
stripped leaves its ends of lines, so that a line of the Rust is the line of the source with the same number.
"""
import re

from rust.scan import Unclear, end_of_brackets, end_of_clause, end_of_literal

PLAIN = re.compile(r"""[^A-Za-z0-9_#"'/]+""")
WORD = re.compile(r"[A-Za-z0-9_]+")
ATTRIBUTE = re.compile(r"#!?\[(?:tactic|cycle|error)\b")
DERIVE = re.compile(r"#\[derive\(([^)]*)\)\]")
UNKNOWN_DERIVES = ("Drop", "Error")
CLAUSE = re.compile(r"(?:requires|ensures)\s*\*?\s*(?:[A-Za-z_]\w*\s*)?(?=\{)")
MODEL = re.compile(r"impl\b[^{};]*?\bModel\s+for\b[^{;]*(?=\{)")
GHOST = r"(?:pub(?:\([a-z: ]*\))?\s+)?ghost\s+"
GHOST_USE = re.compile(GHOST + r"use\b[^;]*;")
GHOST_ITEM = re.compile(GHOST + r"[A-Za-z_]\w*\s*[:=]\s*(?=\{)")
PROOF = re.compile(r"\s*by\s*(?=\{)")
ITEM_END = re.compile(r"\s*[,;]")
BEFORE_ITEMS = re.compile(r"(?:[ \t]*(?://[^\n]*)?\n)*")
PRELUDE = "use rstd::prelude::*; "
MAIN = "fn main(rt: HostRuntime)"
RUST_MAIN = "fn rattle_main(rt: HostRuntime)"
CALL_OF_MAIN = "\nfn main() -> std::process::ExitCode {\n    rattle_main(HostRuntime)\n}\n"
# A word, and what follows it, each with the word that replaces it.
REPLACED = {("std", "::"): "rstd", ("vec", "!["): "rvec"}


class Translation:
    """Goes once through a source, from left to right."""

    def __init__(self, text):
        self.text = text
        self.at = 0
        self.rust = []

    def whole(self):
        while self.at < len(self.text):
            self.step()
        return "".join(self.rust)

    def copy(self, end, rust=None):
        """Goes on to a place, with what was passed or with other Rust in its place."""
        self.rust.append(self.text[self.at:end] if rust is None else rust)
        self.at = end

    def strip(self, end):
        """Goes on to a place, with nothing but the ends of lines."""
        self.copy(end, "\n" * self.text.count("\n", self.at, end))

    def step(self):
        """Passes what begins here: a literal, marks, a word with what it begins, or an attribute."""
        text, at = self.text, self.at
        plain, word, end = PLAIN.match(text, at), WORD.match(text, at), end_of_literal(text, at)
        if end > at:
            self.copy(end, "//" + text[at + 3:end] if text.startswith("///", at) else None)
        elif plain:
            self.copy(plain.end())
        elif word:
            self.word(word)
        elif text[at] == "#":
            self.attribute()
        else:
            self.copy(at + 1)

    def attribute(self):
        text, at = self.text, self.at
        derive = DERIVE.match(text, at)
        if derive:
            names = [name for name in re.findall(r"[\w:]+", derive[1]) if name not in UNKNOWN_DERIVES]
            ends = "\n" * derive[0].count("\n")
            self.copy(derive.end(), (f"#[derive({', '.join(names)})]" if names else "") + ends)
        elif ATTRIBUTE.match(text, at):
            self.strip(end_of_brackets(text, text.index("[", at)))
        else:
            self.copy(at + 1)

    def word(self, word):
        """Passes a word, with the item or the clause that it begins."""
        text, at, end = self.text, self.at, word.end()
        if text.endswith(".", 0, at) and not text.endswith("..", 0, at):
            is_collect = word[0] == "collect" and text.startswith("(alloc)", end)
            self.copy(end, "rcollect" if is_collect else None)
            return
        item_end = self.end_of_stripped(word[0])
        if item_end > at:
            self.strip(item_end)
        else:
            is_first = not text.endswith("::", 0, at)
            self.copy(end, REPLACED.get((word[0], text[end:end + 2])) if is_first else None)

    def end_of_stripped(self, word):
        """The place after the part to strip that begins here with this word, or the place itself if none does."""
        text, at = self.text, self.at
        if word in ("requires", "ensures", "impl"):
            head = (MODEL if word == "impl" else CLAUSE).match(text, at)
            return end_of_clause(text, head.end()) if head else at
        if word in ("ghost", "pub"):
            use, item = GHOST_USE.match(text, at), GHOST_ITEM.match(text, at)
            if word == "ghost" and not use and not item:
                raise Unclear(text, at, "a ghost item of another form")
            return use.end() if use else self.end_of_ghost(item.end()) if item else at
        return at

    def end_of_ghost(self, brace):
        """The place after a ghost item or field whose braces begin there: its proof and the mark at its end belong to it."""
        end = end_of_clause(self.text, brace)
        proof = PROOF.match(self.text, end)
        end = end_of_clause(self.text, proof.end()) if proof else end
        mark = ITEM_END.match(self.text, end)
        return mark.end() if mark else end


def rust_of(text):
    """The Rust of a source. Raises Unclear, with the line, if a part of it has an unknown form."""
    rust = Translation(text).whole()
    if MAIN in rust:
        rust = rust.replace(MAIN, RUST_MAIN) + CALL_OF_MAIN
    start = BEFORE_ITEMS.match(rust).end()
    return rust[:start] + PRELUDE + rust[start:]
