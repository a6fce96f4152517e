"""Copies of the checkout for tests. The files of crates/ are linked, since they are many: `change` gives a copy a file of its own."""
import os
import shutil

IGNORED = shutil.ignore_patterns("out", "__pycache__")


def link(source, to):
    try:
        os.link(source, to)
    except OSError:
        shutil.copy2(source, to)


def copy(top, to, names):
    """Copies these files and folders of the checkout, without what was built."""
    for name in names:
        path = os.path.join(top, name)
        if os.path.isdir(path):
            shutil.copytree(path, os.path.join(to, name), ignore=IGNORED, copy_function=link if name == "crates" else shutil.copy2)
        elif os.path.exists(path):
            shutil.copy2(path, to)


def change(path, more=b"\n"):
    """Adds bytes to a file of a copy."""
    content = b""
    if os.path.exists(path):
        with open(path, "rb") as file:
            content = file.read()
        os.remove(path)
    with open(path, "wb") as file:
        file.write(content + more)
