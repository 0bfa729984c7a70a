"""What the cases of tests/special share: outcomes, the list of cases, and what makes their folders."""

import os
import sys

sys.dont_write_bytecode = True

import harness
import reference
from class_files import INTEGER, RETURNS_ITS_ARGUMENT, class_file, row, u4
from harness import Outcome

MEBIBYTES_4 = 4194304
MOST_INPUT = 1048576
VERIFY, RAW = ("verify", "c", "A", "in"), ("raw", "c", "A", "in")

one = RETURNS_ITS_ARGUMENT
# It ends with its pool's one entry.
cut = u4(0xCAFEBABE) + row(0, 52, 2) + INTEGER

fault = Outcome(65, b"")
usage = Outcome(64, b"USAGE\n")
files_limit = Outcome(7, b"LIMIT files 4096\n")
file_limit = Outcome(7, b"LIMIT file 4194304\n")
total_limit = Outcome(7, b"LIMIT total 67108864\n")
input_limit = Outcome(7, b"LIMIT input 1048576\n")

special_cases = []


def special(*words, wanted, name=None, **more):
    """Registers a function that makes the folder in which the program is run; it is called in that folder. The case has its name where none is given."""

    def register(make):
        special_cases.append(((name or make.__name__).replace("_", "-"), make, words or ("check", "c"), wanted, more))
        return make

    return register


def accepted(count):
    return Outcome(0, b"ACCEPTED %d\n" % count)


def rejected(*lines):
    return Outcome(2, b"REJECTED %d\n" % len(lines) + b"".join(line + b"\n" for line in lines))


def ok(result, alloc=0):
    text = result.hex() if isinstance(result, bytes) else result
    line = "OK %d %s\n" % (len(text) // 2, text) if text else "OK 0\n"
    return Outcome(0, (line + "costs alloc %d invoke 0 jump 0 throw 0\n" % alloc).encode())


def returned(data):
    """The same of `raw`, which makes two steps of `one`."""
    return Outcome(0, (b"OK %d %s\n" % (len(data), data.hex().encode()) if data else b"OK 0\n") + b"steps 2\n")


def by_reference(folder):
    """What reference.py says of the folder `c` in this one."""
    text, status = reference.report(["check", os.path.join(folder, "c")])
    return Outcome(status, text)


def misjudged(program, folder, wanted):
    """The lines that say how `check` of the folder `c` in this one differs from what is wanted."""
    return harness.difference(wanted, harness.run(program, ["check", "c"], folder))


def write(path, data=b""):
    path = os.fsencode(path)
    os.makedirs(os.path.dirname(path) or b".", exist_ok=True)
    with open(path, "wb") as file:
        file.write(data)


def write_one():
    write("c/A.class", one)


def write_classes(folder, files):
    """The class files in the folder `c` of this one, by their names without `.class`."""
    for name, data in files.items():
        write(os.path.join(folder, "c", name + ".class"), data)


def write_long(path, name, length):
    """A right class file of this length, most of it one attribute of zeros, which take no room on the disk."""
    short = class_file(name, listed=[("Zeros", b"")])
    write(path, short[:-4] + u4(length - len(short)))
    os.truncate(path, length)


def write_zeros(path, length):
    write(path)
    os.truncate(path, length)


def link(path, target):
    os.makedirs(os.path.dirname(path), exist_ok=True)
    os.symlink(target, path)


# Standard output.


def full():
    return open("/dev/full", "wb")


def closed_pipe():
    reads, writes = os.pipe()
    os.close(reads)
    return os.fdopen(writes, "wb")


def write_files(count):
    os.mkdir("c")
    for number in range(count):
        name = "A%d" % number
        with open("c/%s.class" % name, "wb") as file:
            file.write(class_file(name))
