"""Runs a program within limits of time and memory, and measures it. bench/run, bench/compare and tools/batch share this.

Seconds are user seconds. The peak of memory that Linux counts for a process (ru_maxrss) begins with what the process held before it
executed the program. That of a child of Python therefore includes Python itself, some 10 to 20 MB, and a smaller program does not
show. So a shell, of less than 1 MB, starts the program and ends. The program then becomes a child of this process, which is a
subreaper (prctl(2)), and wait4(2) returns the program's own peak.
"""
import contextlib
import ctypes
import dataclasses
import math
import os
import re
import resource
import signal
import subprocess
import sys
import time

BUDGET = 1000000
SET_CHILD_SUBREAPER = 36
# Prints the number of the process that becomes the program once the shell has ended and a line comes. The limit of processor time
# ends the program also if what measures it was killed.
STARTER = 'exec 3<&0; ulimit -S -t "$1"; out=$2; shift 2; { read go <&3 && exec "$@" 3<&- >"$out" 2>/dev/null; } & echo $!'
COLUMNS = ("name", "status", "answer", "seconds", "megabytes", "rules", "pairs", "items", "cubes", "bytes",
           "check", "check_seconds", "check_megabytes")
ANSWERS = {0: "policy", 1: "refusal", 2: "undecided", 9: "out of memory"}


def built_program():
    """The file of the program that DUALFOND_PROGRAM names, or else of the one that the launcher runs."""
    named = os.environ.get("DUALFOND_PROGRAM")
    if named:
        return named
    launcher = os.path.join(os.path.dirname(os.path.dirname(os.path.realpath(__file__))), "dualfond")
    told = subprocess.run([launcher, "--version"], stdin=subprocess.DEVNULL, stdout=subprocess.PIPE, check=False, text=True).stdout
    found = re.search(r"^program (.*), SHA-256 \w+$", told, re.M)
    return found[1] if found else sys.exit("there is no program yet: run ./dualfond --prove, or set DUALFOND_PROGRAM to one")


@dataclasses.dataclass(frozen=True)
class Limits:
    """The limits of a run: user seconds, and megabytes of memory. A run also ends after ten times as many seconds on the clock."""

    seconds: float
    megabytes: float = math.inf


@dataclasses.dataclass(frozen=True)
class Run:
    """What a run took, and how it ended: `stopped` names the limit that it reached, or else is empty and `status` is that of the
    process, or the negative number of the signal that ended it."""

    status: int | None
    stopped: str
    seconds: float
    megabytes: float


def spent_by(pid):
    """The user seconds of a process so far, and the megabytes that it holds."""
    try:
        with open(f"/proc/{pid}/stat", encoding="ascii", errors="replace") as stat:
            fields = stat.read().rpartition(")")[2].split()
    except OSError:
        return 0.0, 0.0
    return int(fields[11]) / os.sysconf("SC_CLK_TCK"), int(fields[21]) * os.sysconf("SC_PAGE_SIZE") / 1e6


@contextlib.contextmanager
def adopting():
    """Makes this process the parent of each process below it that loses its own, for a while."""
    libc = ctypes.CDLL(None, use_errno=True)
    if libc.prctl(SET_CHILD_SUBREAPER, 1, 0, 0, 0) != 0:
        raise OSError(ctypes.get_errno(), "this system cannot make a process a subreaper")
    try:
        yield
    finally:
        libc.prctl(SET_CHILD_SUBREAPER, 0, 0, 0, 0)


def started(words, folder, output, seconds):
    """Starts a program in a folder, with its output in a file, and returns the number of its process."""
    most = resource.getrlimit(resource.RLIMIT_CPU)[1]
    seconds = math.ceil(2 * seconds) + 1
    seconds = seconds if most == resource.RLIM_INFINITY else min(seconds, most)
    shell = ["sh", "-c", STARTER, "sh", str(seconds), os.path.abspath(output), *words]
    with subprocess.Popen(shell, cwd=folder, stdin=subprocess.PIPE, stdout=subprocess.PIPE) as starter:
        pid = int(starter.stdout.readline())
        starter.wait()
        starter.stdin.write(b"go\n")
    return pid


def limit_reached(pid, since, limits):
    """The limit that a process has reached, or the empty string."""
    spent, held = spent_by(pid)
    if spent > limits.seconds or time.monotonic() - since > 10 * limits.seconds:
        return "out of time"
    return "out of memory" if held > limits.megabytes else ""


def waited(pid, limits):
    """Waits for the end of a process, or ends it at a limit. Returns the limit, and the status and the usage of wait4(2)."""
    since, pause = time.monotonic(), 0.001
    while True:
        ended, status, usage = os.wait4(pid, os.WNOHANG)
        if ended:
            return "", status, usage
        stopped = limit_reached(pid, since, limits)
        if stopped:
            os.kill(pid, signal.SIGKILL)
            return stopped, *os.wait4(pid, 0)[1:]
        time.sleep(pause)
        pause = min(1.1 * pause, 0.01)


def run(words, folder, output, limits):
    """Runs the words of a command in a folder, with its output in a file."""
    with adopting():
        pid = started(words, folder, output, limits.seconds)
        try:
            stopped, status, usage = waited(pid, limits)
        except BaseException:
            os.kill(pid, signal.SIGKILL)
            raise
    status = os.waitstatus_to_exitcode(status)
    stopped = "out of time" if status == -signal.SIGXCPU else stopped
    return Run(None if stopped else status, stopped, usage.ru_utime, usage.ru_maxrss * 1024 / 1e6)


def parts(cert):
    """How many lines of each kind a certificate has, and its bytes."""
    heads = {b"rule": 0, b"pair": 0, b"item": 0, b"cube": 0}
    with open(cert, "rb") as text:
        for line in text:
            head = line.partition(b" ")[0].strip()
            if head in heads:
                heads[head] += 1
    rules, pairs, items, cubes = heads.values()
    return {"rules": rules, "pairs": pairs, "items": items, "cubes": cubes, "bytes": os.path.getsize(cert)}


def first_line(file):
    with open(file, encoding="ascii", errors="replace") as text:
        return text.readline().strip()


def answer(ran, output):
    """What a run of `plan` answered."""
    if ran.stopped:
        return ran.stopped
    if ran.status == 3:
        return f"faulty: {first_line(output)}"
    return ANSWERS.get(ran.status) or (f"signal {-ran.status}" if ran.status < 0 else f"status {ran.status}")


def verdict(ran, output):
    """What a run of `check` answered."""
    return answer(ran, output) if ran.stopped or ran.status not in (0, 7) else first_line(output)


def figures(ran):
    return {"seconds": f"{ran.seconds:.3f}", "megabytes": f"{ran.megabytes:.1f}"}


def judge_of(command, status):
    """The command that tests the certificate of another one that ended with this status."""
    return "rate" if command == "best" and status == 0 else "check"


def decide(program, files, folder, limits, budget=BUDGET, command="plan"):
    """Plans a task by a command, and tests the certificate that comes of it, which is the file `cert` of the folder. Returns a row
    without its name."""
    cert, said = os.path.join(folder, "cert"), os.path.join(folder, "verdict")
    planned = run([program, command, *files, str(budget)], folder, cert, limits)
    status = "" if planned.status is None else str(planned.status)
    row = dict.fromkeys(COLUMNS, "") | {"status": status, "answer": answer(planned, cert), **figures(planned)}
    if planned.status in (0, 1):
        checked = run([program, judge_of(command, planned.status), *files, "cert"], folder, said, limits)
        row |= parts(cert) | {"check": verdict(checked, said)} | {f"check_{key}": value for key, value in figures(checked).items()}
    return row
