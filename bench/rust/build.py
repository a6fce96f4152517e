"""Translates the crates of the program, and compiles those that changed, and those that use them, with rustc.

A folder of state has the Rust of a checkout in rust/, and in lib/ what rustc made of each crate with the digest of what that was made
of. The names of a crate's files are those of the checkout, but for the ending, so an error of rustc names the line to look at.
"""
import concurrent.futures
import contextlib
import dataclasses
import fcntl
import graphlib
import hashlib
import os
import platform
import re
import shutil
import subprocess

from rust.scan import Unclear
from rust.translate import rust_of

PROGRAM = "dualfond"
SHIMS = os.path.join(os.path.dirname(os.path.abspath(__file__)), "shims")
# The crates of shims/ that use others of them.
SHIMS_USE = {"indexmap": {"rstd"}, "rand_pcg": {"rand_core"}}
# Nothing tests arithmetic or unwinds, as in the program that the kit builds; the kit builds for x86-64-v2.
FLAGS = ["--edition=2024", "-Copt-level=3", "-Ccodegen-units=1", "-Cpanic=abort", "-Cdebug-assertions=off", "-Coverflow-checks=off",
         "-Cstrip=debuginfo", "--cap-lints=allow"]
FLAGS += ["-Ctarget-cpu=x86-64-v2"] if platform.machine() == "x86_64" else []
# The first rustc with the edition 2024.
LEAST_RUSTC = (1, 85)


class Fault(Exception):
    """What ends the build, in words."""


@dataclasses.dataclass(frozen=True)
class Crate:
    """A crate in Rust: its files, the first of which is the root, the folder to name them from, and the names of what it uses."""

    name: str
    files: tuple
    folder: str
    uses: frozenset


def rustc_version():
    """What rustc tells of itself, or nothing if there is none that runs."""
    try:
        return subprocess.run(["rustc", "-vV"], stdout=subprocess.PIPE, stderr=subprocess.DEVNULL, check=True, text=True).stdout
    except (OSError, subprocess.CalledProcessError):
        return ""


def lacking():
    """What the machine lacks for a build, in words, or nothing."""
    found = re.search(r"^release: (\d+)\.(\d+)", rustc_version(), re.M)
    if not found:
        return "no rustc"
    return "" if (int(found[1]), int(found[2])) >= LEAST_RUSTC else "no rustc with the edition 2024"


def content(path):
    """The bytes of a file, or nothing if there is none."""
    try:
        with open(path, "rb") as file:
            return file.read()
    except FileNotFoundError:
        return b""


def write_changed(path, text):
    """Writes a file, unless it has this text already."""
    if content(path) != text.encode():
        os.makedirs(os.path.dirname(path), exist_ok=True)
        with open(path, "w", encoding="utf-8") as file:
            file.write(text)


def listed_uses(top):
    """The crates of crates.txt, each with those that it uses, itself or through its contracts."""
    lines = content(os.path.join(top, "crates.txt")).decode().splitlines()
    parts = [line.partition(":") for line in lines if line.strip() and not line.startswith("#")]
    return {name.strip(): set(below.split()) for name, _, below in parts}


def files_below(folder, ending):
    """The paths of the files with this ending, from the folder on, the root of the crate first."""
    found = [os.path.relpath(os.path.join(at, name), folder)
             for at, _, names in os.walk(folder) for name in names if name.endswith(ending)]
    return sorted(found, key=lambda path: (path not in (f"lib{ending}", f"main{ending}"), path))


def translate_crate(source, folder):
    """Writes the Rust of a crate's sources into a folder, and removes what else is there. Returns the paths and the text of all."""
    paths, texts = [], []
    for name in files_below(source, ".rt"):
        path = os.path.join(folder, name[:-3] + ".rs")
        try:
            texts.append(rust_of(content(os.path.join(source, name)).decode()))
        except Unclear as unclear:
            raise Fault(f"{os.path.join(source, name)}, {unclear}") from unclear
        write_changed(path, texts[-1])
        paths.append(path)
    for name in files_below(folder, ".rs"):
        if os.path.join(folder, name) not in paths:
            os.remove(os.path.join(folder, name))
    return paths, "".join(texts)


def translated(top, rust, name, listed):
    """A crate of the checkout. What it uses is listed in crates.txt and has its name in the Rust: what is listed for its contracts
    alone is left out."""
    folder = os.path.join("crates", name, "src")
    if not os.path.isdir(os.path.join(top, folder)):
        raise Fault(f"there is no {folder} in {top}")
    paths, text = translate_crate(os.path.join(top, folder), os.path.join(rust, folder))
    named = set(re.findall(r"\b\w+(?=::)", text))
    shims = set(os.listdir(SHIMS))
    uses = {used for used in listed.get(name, ()) if used in named and (used in listed or used in shims)}
    return Crate(name, tuple(paths), rust, frozenset({*uses, "rstd"}))


def shim(name):
    """A crate of shims/, which stands in for one of the kit."""
    folder = os.path.join(SHIMS, name)
    paths = tuple(os.path.join(folder, path) for path in files_below(folder, ".rs"))
    return Crate(name, paths, SHIMS, frozenset(SHIMS_USE.get(name, ())))


def crates_of(top, rust):
    """The program of a checkout and all that it uses, translated into a folder, by name."""
    listed, found, left = listed_uses(top), {}, [PROGRAM]
    while left:
        name = left.pop()
        if name not in found:
            found[name] = translated(top, rust, name, listed) if name in listed else shim(name)
            left += found[name].uses
    return found


def chains(crates):
    """For each crate, how many crates the longest chain of users above it has."""
    found = dict.fromkeys(crates, 0)
    for name in reversed([*graphlib.TopologicalSorter({it.name: it.uses for it in crates.values()}).static_order()]):
        for used in crates[name].uses:
            found[used] = max(found[used], found[name] + 1)
    return found


class Build:
    """Compiles crates into a folder, with further flags of rustc. With `is_whole`, the program is optimized as one piece."""

    def __init__(self, crates, folder, flags, is_whole):
        self.crates, self.folder, self.flags, self.is_whole = crates, folder, [*FLAGS, *flags], is_whole
        self.version = rustc_version()
        self.digests, self.compiled = {}, []

    def path(self, name):
        return os.path.join(self.folder, name if name == PROGRAM else f"lib{name}.rlib")

    def flags_of(self, crate):
        """What rustc is told beside the names of files."""
        if crate.name != PROGRAM:
            return ["--crate-type", "rlib", *self.flags]
        return ["--crate-type", "bin", *self.flags, *(["-Clto=fat"] if self.is_whole else [])]

    def digest_of_input(self, crate):
        """The digest of all that the compiled crate depends on."""
        digest = hashlib.sha256("\0".join([self.version, *self.flags_of(crate)]).encode())
        for path in crate.files:
            digest.update(hashlib.sha256(os.path.relpath(path, crate.folder).encode() + b"\0" + content(path)).digest())
        for used in sorted(crate.uses):
            digest.update(f"{used} {self.digests[used]}\n".encode())
        return digest.hexdigest()

    def command(self, crate):
        words = ["rustc", crate.files[0], "--crate-name", crate.name, "-o", self.path(crate.name), *self.flags_of(crate)]
        words += ["-L", self.folder, f"--remap-path-prefix={crate.folder}/="]
        for used in sorted(crate.uses):
            words += ["--extern", f"{used}={self.path(used)}"]
        return words

    def make(self, name):
        """Compiles a crate whose used crates are compiled, unless nothing changed since it was compiled."""
        crate, mark = self.crates[name], self.path(name) + ".made-of"
        self.digests[name] = digest = self.digest_of_input(crate)
        if content(mark).decode() != digest or not os.path.exists(self.path(name)):
            # (a build that is cut off leaves no mark)
            write_changed(mark, "")
            ran = subprocess.run(self.command(crate), stderr=subprocess.PIPE, text=True, check=False)
            if ran.returncode:
                raise Fault(f"{name} is not compiled\n{ran.stderr}")
            write_changed(mark, digest)
            self.compiled.append(name)

    def make_all(self, jobs):
        """Compiles all crates, so many at a time. Those with the longest chain above them come first."""
        order = graphlib.TopologicalSorter({crate.name: crate.uses for crate in self.crates.values()})
        order.prepare()
        above, running = chains(self.crates), {}
        with concurrent.futures.ThreadPoolExecutor(jobs) as pool:
            while order.is_active():
                for name in sorted(order.get_ready(), key=lambda name: -above[name]):
                    running[pool.submit(self.make, name)] = name
                for done in concurrent.futures.wait(running, return_when=concurrent.futures.FIRST_COMPLETED).done:
                    if done.exception():
                        pool.shutdown(cancel_futures=True)
                    done.result()
                    order.done(running.pop(done))


@contextlib.contextmanager
def locked(folder):
    """Holds a folder for this build alone."""
    os.makedirs(folder, exist_ok=True)
    with open(os.path.join(folder, "lock"), "w", encoding="ascii") as lock:
        fcntl.flock(lock, fcntl.LOCK_EX)
        yield


def build(top, program, state, flags=(), is_whole=False, jobs=1):
    """Builds the program of a checkout into the file `program`. Returns the names of the crates that were compiled."""
    if lacking():
        raise Fault(lacking())
    top = os.path.realpath(top)
    key = hashlib.sha256("\0".join([top, *flags]).encode()).hexdigest()[:12]
    folder = os.path.join(state, f"{os.path.basename(top)}-{key}")
    with locked(folder):
        crates = crates_of(top, os.path.join(folder, "rust"))
        work = Build(crates, os.path.join(folder, "lib"), flags, is_whole)
        os.makedirs(work.folder, exist_ok=True)
        work.make_all(jobs)
        shutil.copy2(work.path(PROGRAM), f"{program}.new")
        os.replace(f"{program}.new", program)
    return work.compiled
