"""Finds the files of many tasks: in a list, or in folders in the layout of examples/. tools/batch and bench/agree share this."""
import os
import re

ALL_FAIR = "/dev/null"


class TaskFault(Exception):
    """What is wrong with a list or a folder of tasks."""


def tasks_of_list(path):
    """The tasks of a file with a line for each."""
    folder = os.path.dirname(os.path.abspath(path))
    with open(path, encoding="utf-8") as lines:
        for number, line in enumerate(lines, 1):
            words = line.rstrip("\n").split("\t") if "\t" in line else line.split()
            if not words or words[0].startswith("#"):
                continue
            if len(words) != 4:
                raise TaskFault(f"{path}:{number}: expected NAME DOMAIN PROBLEM SIDE")
            yield (words[0], *(os.path.join(folder, it) for it in words[1:]))


def tasks_of_folder(folder):
    """The tasks of a folder in the layout of examples/, one for each of its problems."""
    folder = os.path.abspath(folder)
    names = sorted(os.listdir(folder))
    stem = os.path.basename(folder)
    if f"{stem}.d" not in names:
        for name in names:
            if os.path.isfile(os.path.join(folder, name, f"{name}.d")):
                yield from tasks_of_folder(os.path.join(folder, name))
        return
    side = f"{folder}/{stem}.unfair" if f"{stem}.unfair" in names else ALL_FAIR
    for problem in sorted(it[:-2] for it in names if it.endswith(".p")):
        own = f"{folder}/{problem}.unfair" if f"{problem}.unfair" in names else side
        yield problem, f"{folder}/{stem}.d", f"{folder}/{problem}.p", own


def check_name(name):
    """A name is also that of files, on any machine."""
    if not re.fullmatch(r"[A-Za-z0-9][A-Za-z0-9_.+-]*", name):
        raise TaskFault(f"the name {name} has other characters than letters, digits and _ . + -, or begins with one of these four")


def read_tasks(paths):
    """The tasks of all paths, each a name and three absolute file names."""
    tasks, seen = [], set()
    for path in paths:
        tasks += tasks_of_folder(path) if os.path.isdir(path) else tasks_of_list(path)
    for name, *files in tasks:
        check_name(name)
        if name in seen:
            raise TaskFault(f"two tasks have the name {name}")
        seen.add(name)
        for file in files:
            if not os.path.exists(file) or "\t" in file or "\n" in file:
                raise TaskFault(f"task {name}: cannot read {file}")
    if not tasks:
        raise TaskFault(f"no task in {' '.join(paths)}")
    return tasks
