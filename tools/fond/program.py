"""Finds and runs the planner: the file that DUALFOND_PROGRAM names, or else the launcher `dualfond` of this checkout."""
import os
import subprocess

TOP = os.path.dirname(os.path.dirname(os.path.dirname(os.path.abspath(__file__))))


def path():
    return os.environ.get("DUALFOND_PROGRAM") or os.path.join(TOP, "dualfond")


def run(*words, cwd=None, timeout=None):
    """The exit status of the program with these words, and what it printed, as bytes."""
    ran = subprocess.run([path(), *words], cwd=cwd, timeout=timeout, stdin=subprocess.DEVNULL, stdout=subprocess.PIPE, check=False)
    return ran.returncode, ran.stdout
