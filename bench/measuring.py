"""What the scripts of this folder share: the program, the time and the memory that it takes, and tables of these. This puts tests/ on the path of modules."""

import os
import shutil
import subprocess
import sys

TOP = os.path.dirname(os.path.dirname(os.path.abspath(__file__)))
sys.path.insert(0, os.path.join(TOP, "tests"))

RUNS = 3
# The limits of a set.
MOST_FILES, MOST_BYTES = 4096, 67108864


def program():
    if os.environ.get("DJVM"):
        return os.path.abspath(os.environ["DJVM"])
    built = subprocess.run([os.path.join(TOP, "scripts", "program")], stdout=subprocess.PIPE)
    if built.returncode != 0:
        sys.exit(built.returncode)
    return os.fsdecode(built.stdout[:-1])


# What starts the measured program and writes its largest resident set, in KiB, to the file that `-o` names. The peak of a process begins with that
# of the process that started it, so this small program comes between this one and the measured one.
STARTER = shutil.which("time")


def measure(words, output):
    """Runs a program; its processor time in seconds, its peak in bytes and its status."""
    flags = os.O_WRONLY | os.O_CREAT | os.O_TRUNC
    actions = [(os.POSIX_SPAWN_OPEN, 0, "/dev/null", os.O_RDONLY, 0), (os.POSIX_SPAWN_OPEN, 1, output, flags, 0o600)]
    started = [STARTER, "--quiet", "-f", "%M", "-o", output + ".peak", *words] if STARTER else words
    child = os.posix_spawnp(started[0], started, os.environ, file_actions=actions)
    _, status, usage = os.wait4(child, 0)
    peak = usage.ru_maxrss
    if STARTER:
        with open(output + ".peak") as file:
            peak = int(file.read())
    return usage.ru_utime + usage.ru_stime, peak * 1024, status >> 8 if status & 0xFF == 0 else -(status & 0x7F)


def best(words, output, status, first_line=None):
    """The least time of the runs and the greatest peak; each run must have this status, and the last one this first line."""
    seconds, peak = float("inf"), 0
    for _ in range(RUNS):
        ran = measure(words, output)
        if ran[2] != status:
            sys.exit("%s: status %d, wanted %d" % (words[0], ran[2], status))
        seconds, peak = min(seconds, ran[0]), max(peak, ran[1])
    if first_line is not None:
        with open(output, "rb") as file:
            found = file.readline().decode()
        if found != first_line + "\n":
            sys.exit("%s: it wrote %r, wanted %r" % (words[0], found, first_line))
    return seconds, peak


def row(*cells):
    print("  " + "".join("%18s" % cell for cell in cells), flush=True)


def growing(checker, folder, counts, output, violations=0):
    """Prints a row of `check` for each size to which the folder grows; the time and the peak of the largest. Each file has this many violations."""
    row("files", "bytes", "seconds", "us a violation" if violations else "us a file", "to the first", "us a KB", "peak / bytes")
    first = None
    for count in counts:
        folder.grow(count)
        lines = count * violations
        status, first_line = (2, "REJECTED %d" % lines) if violations else (0, "ACCEPTED %d" % count)
        seconds, peak = best([checker, "check", folder.top], output, status, first_line)
        each = seconds / (lines or count)
        first = first or each
        cells = "%.3f" % seconds, "%.3f" % (each * 1e6), "%.2f" % (each / first), "%.2f" % (seconds / folder.bytes * 1e9)
        row(count, folder.bytes, *cells, "%.2f" % (peak / folder.bytes))
    return seconds, peak


def beside_hashing(folder, seconds, peak, output):
    """Prints what `check` takes beside sha256sum over the same files; whether its time and its peak are as wanted."""
    hashed, _ = best(["sha256sum", *folder.paths()], output, 0)
    print("  djvm check: %.3f s, peak %.1f MiB; sha256sum: %.3f s" % (seconds, peak / 1048576, hashed))
    print("  time / sha256sum: %.2f (wanted: at most 4)" % (seconds / hashed))
    print("  peak / bytes: %.2f (wanted: at most 2)" % (peak / folder.bytes))
    return seconds <= 4 * hashed and peak <= 2 * folder.bytes
