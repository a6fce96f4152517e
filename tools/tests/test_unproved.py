#!/usr/bin/env python3
"""Checks how bench/unproved turns sources into Rust and, if there is rustc, that the program that it builds answers as the proved one."""
import os
import re
import subprocess
import sys
import tempfile
import unittest

here = os.path.dirname(os.path.abspath(__file__))
sys.dont_write_bytecode = True
top = os.path.dirname(os.path.dirname(here))
sys.path[:0] = [os.path.dirname(here), here, os.path.join(top, "bench")]
from checkout import change, copy  # noqa: E402
import measured  # noqa: E402
from rust.build import PROGRAM, SHIMS, crates_of, lacking, listed_uses  # noqa: E402
from rust.scan import Unclear  # noqa: E402
from rust.translate import PRELUDE, rust_of  # noqa: E402

# What takes the least time to compile. A sum that is too large ends the program.
FLAGS = "-Copt-level=0 -Coverflow-checks=on"
EXAMPLES = ("coin", "doors", "blocks")
# A source of the program, and one of a crate that all others use.
MAIN, LOW = "crates/dualfond/src/main.rt", "crates/fond_text/src/text.rt"


def program():
    try:
        return measured.built_program()
    except SystemExit:
        return None


class Translation(unittest.TestCase):
    def check(self, source, rust):
        """The source has this Rust. Blanks do not count, but each line keeps its number."""
        found = rust_of(source)
        self.assertEqual(found.count("\n"), source.count("\n"))
        self.assertEqual(found.count(PRELUDE), 1)
        self.assertEqual(found.replace(PRELUDE, "").split(), rust.split())

    def test_clauses(self):
        self.check("""fn first(items: &[u8]) -> Option<u8>
    requires { 0 < length items.now }
    ensures some { IfSome result (λ x. record { byte = x; at = 0 } ≡ head items.now) }
    ensures { text_of x' ≡ codes "}" ++ codes "\\"{" }
{
    items.first().copied()
}
""", "fn first(items: &[u8]) -> Option<u8> { items.first().copied() }")
        self.check("trait T { fn go(&self) -> u8 ensures ok { ⊤ }; }", "trait T { fn go(&self) -> u8 ; }")

    def test_words_that_begin_no_clause(self):
        for source in ("let requires = 1; f(ensures, self.ensures { x: 1 });", "struct Ensures { a: u8 }", "impl Model { fn f() {} }"):
            self.check(source, source)

    def test_ghost_items(self):
        self.check("ghost use Rattle.std.specs.Prelude.{◌≡◌, None};\nuse a::b;", "use a::b;")
        self.check("""pub struct Held {
    ghost fits: { n < 2 ^ 64 } by { search },
    pub bytes: u8,
    /// The last one.
    pub(crate) ghost more: { List (a : ℕ) × { b } }
}
""", "pub struct Held { pub bytes: u8, // The last one.\n }")
        self.check("trait T { ghost faults: { Self → ℕ }; fn f(&self); }", "trait T { fn f(&self); }")
        self.check("impl T for S { ghost faults = { λ s. s.n };\n\n fn f(&self) {} }", "impl T for S { fn f(&self) {} }")

    def test_ghost_item_of_another_form(self):
        with self.assertRaisesRegex(Unclear, "line 3: a ghost item"):
            rust_of("use a::b;\n\nghost fn f() {}\n")
        with self.assertRaisesRegex(Unclear, "line 2: a brace"):
            rust_of("fn f()\n    ensures { {}\n{}")

    def test_models(self):
        self.check("""impl<R: Read> Model for Shelf<R> {
    ghost use Rattle.std.specs.Prelude.{ℕ};
    ghost view = { λ s. s.faults };
}
impl<R> Shelf<R> {}
""", "impl<R> Shelf<R> {}")

    def test_attributes(self):
        self.check("#![tactic(auto)]\n#[derive(Drop)]\nstruct A;", "struct A;")
        self.check("#[derive(Clone, Copy, Drop, Error)]\nenum E {\n    #[error(\"no ] here\")]\n    B,\n}",
                   "#[derive(Clone, Copy)] enum E { B, }")
        self.check("#[cycle(a, b)]\n#[inline]\nfn f() {}", "#[inline] fn f() {}")

    def test_literals_and_comments(self):
        """What they hold is neither stripped nor counted."""
        for source in ('let a = "ensures { ghost use x; \\" std::mem";', "let b = ['{', '\\'', '\"', b'}', '\\u{7b}'];",
                       'let c = r#"std::"{"#;',
                       "/* ghost use /* std:: */ } */ fn f<'a>(x: &'a str) {}", "// vec![in alloc; 0; 1]\nlet d = b\"#[derive(Drop)]\";"):
            self.check(source, source)
        self.check("fn f() ensures { ⊤ } { g(\"{\", '}') /* } */ }", "fn f() { g(\"{\", '}') /* } */ }")

    def test_replaced_names(self):
        self.check("use std::alloc::Global;\nlet a = std::mem::take(x);", "use rstd::alloc::Global; let a = rstd::mem::take(x);")
        self.check("let a = vec![in alloc; 0; n]?;", "let a = rvec![in alloc; 0; n]?;")
        self.check("a.iter().collect(alloc)?; b.collect(&c, d)?;", "a.iter().rcollect(alloc)?; b.collect(&c, d)?;")
        self.check("my::std::f(); x.vec; 0..std::u8::MAX", "my::std::f(); x.vec; 0..rstd::u8::MAX")

    def test_main(self):
        rust = rust_of("//! It runs.\n#![tactic(auto)]\n\nfn main(rt: HostRuntime) -> ExitCode {}\n")
        self.assertTrue(rust.startswith(f"//! It runs.\n\n\n{PRELUDE}fn rattle_main(rt: HostRuntime) -> ExitCode {{}}\n"))
        self.assertIn("fn main() -> std::process::ExitCode {", rust)


class Sources(unittest.TestCase):
    def test_crates(self):
        """All that the program uses is translated, line by line, and nothing else is used than is there."""
        with tempfile.TemporaryDirectory() as folder:
            crates = crates_of(top, folder)
            self.assertIn(PROGRAM, crates)
            for crate in crates.values():
                self.assertLessEqual(crate.uses, set(crates))
                self.assertIn(os.path.basename(crate.files[0]), ("lib.rs", "main.rs"))
            own = [path for crate in crates.values() if crate.folder == folder for path in crate.files]
            for path in own:
                with open(path, encoding="utf-8") as rust, open(source_of(path, folder), encoding="utf-8") as source:
                    lines, expected = rust.read().splitlines(), source.read().splitlines()
                # (the call of `main` is added at the end)
                self.assertEqual(len(lines) - len(expected), 4 if os.path.basename(path) == "main.rs" else 0, path)
                self.assertFalse([line for line in lines if re.match(r"\s*(pub )?(ghost|requires|ensures)\b", line)], path)

    def test_stand_ins(self):
        """Each crate of the kit that stands in bench/ is one of crates.txt, or rstd."""
        listed = {used for uses in listed_uses(top).values() for used in uses}
        self.assertLessEqual(set(os.listdir(SHIMS)), {*listed, "rstd"})

    def test_removed_sources(self):
        with tempfile.TemporaryDirectory() as folder:
            crates_of(top, folder)
            stray = os.path.join(folder, "crates", PROGRAM, "src", "stray.rs")
            with open(stray, "w", encoding="ascii") as file:
                file.write("a source that is gone")
            crates_of(top, folder)
            self.assertFalse(os.path.exists(stray))


def source_of(path, folder):
    """The source of a file of Rust."""
    return os.path.join(top, os.path.relpath(path, folder)[:-3] + ".rt")


@unittest.skipIf(lacking(), lacking())
class Builds(unittest.TestCase):
    """One build of a copy of the checkout, with little optimization, and what changes add to it."""

    @classmethod
    def setUpClass(cls):
        held = tempfile.TemporaryDirectory()
        cls.addClassCleanup(held.cleanup)
        cls.state, cls.program = os.path.join(held.name, "state"), os.path.join(held.name, "program")
        cls.top = os.path.join(held.name, "copy")
        os.mkdir(cls.top)
        copy(top, cls.top, ("bench", "crates", "crates.txt"))
        cls.first = cls.build()

    @classmethod
    def build(cls):
        """Builds the copy: the status, how many crates were compiled, and what was said."""
        words = [os.path.join(cls.top, "bench", "unproved"), "--jobs", "2", f"--flags={FLAGS}", "--folder", cls.state, cls.program]
        ran = subprocess.run(words, capture_output=True, text=True, check=False)
        count = re.match(r"unproved: (\d+) crates compiled", ran.stderr)
        return ran.returncode, int(count[1]) if count else None, ran.stdout + ran.stderr

    def test_first_build(self):
        status, count, said = self.first
        self.assertEqual(status, 0, said)
        self.assertGreater(count, 40)

    @unittest.skipUnless(program(), "no program to compare with")
    def test_answers(self):
        folders = [os.path.join(top, "examples", name) for name in EXAMPLES]
        words = [os.path.join(top, "bench", "agree"), program(), self.program, *folders]
        ran = subprocess.run(words, stdout=subprocess.PIPE, text=True, check=False)
        self.assertEqual(ran.returncode, 0, ran.stdout)
        self.assertRegex(ran.stdout, r"\n\d\d runs are the same, 0 differ, 0 were stopped;")

    def test_changes(self):
        """Contracts compile nothing, code compiles its crate, and a fault is named by its line and leaves the last program."""
        self.assertEqual(self.build()[:2], (0, 0))
        change(os.path.join(self.top, LOW), b"ghost use Rattle.std.specs.Prelude.{None};")
        self.assertEqual(self.build()[:2], (0, 0))
        change(os.path.join(self.top, MAIN), b"// more\n")
        self.assertEqual(self.build()[:2], (0, 1))
        change(os.path.join(self.top, MAIN), "fn f() -> u8\n    ensures { ⊤ }\n{ true }\n".encode())
        with open(os.path.join(self.top, MAIN), "rb") as file:
            last = file.read().count(b"\n")
        status, _, said = self.build()
        self.assertEqual(status, 1)
        self.assertIn(f"crates/dualfond/src/main.rs:{last}:", said)
        self.assertTrue(os.path.exists(self.program))


if __name__ == "__main__":
    unittest.main()
