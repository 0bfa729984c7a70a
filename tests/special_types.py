"""What the types of the readers refuse before anything is proved: a view that is kept longer than the bytes that it was read from.

`rt try` compiles a program over the readers without a proof. It must report an error of borrowing in each function that keeps a
view of its own bytes, and no error in those between them, which lend the bytes from their caller.
"""

import os
import re
import shutil
import subprocess
import sys

sys.dont_write_bytecode = True

import harness

TOP = os.path.dirname(os.path.dirname(os.path.abspath(__file__)))
REFUSED = "borrow-e0515"
ERROR = re.compile(r"^(\S+):(\d+):\d+: error\[([a-z0-9-]+)\]", re.MULTILINE)

HEAD = """\
use dj_class::{ClassError, ClassView, CodeView, read_class, read_code};
use dj_pool::{Pool, PoolError, read_pool};
use std::alloc::Global;
"""
# Each call with its arguments after the allocator, and what it gives of bytes that live for 'x.
READERS = {
    "read_class": ("bytes", "Result<ClassView<'x>, ClassError>"),
    "read_code": ("bytes", "Result<CodeView<'x>, ClassError>"),
    "read_pool": ("bytes, 0", "Result<(Pool<'x>, u32), PoolError>"),
}


def functions():
    """The lines of the program, a function each, by name; a kept view stands before each lent one."""
    for call, (words, view) in READERS.items():
        kept, lent = view.replace("'x", "'static"), view.replace("'x", "'a")
        yield "kept_by_" + call, "(alloc: Global) -> %s { let bytes = [0u8; 16]; %s(alloc, &%s) }" % (kept, call, words)
        yield "lent_to_" + call, "<'a>(alloc: Global, bytes: &'a [u8]) -> %s { %s(alloc, %s) }" % (lent, call, words)


def below(crate, known):
    """The crates of the repository that this one stands on."""
    found = {crate}
    for name in known[crate]:
        if name in known:
            found |= below(name, known)
    return found


def make_crates(folder):
    """The readers' crates as they stand here, and the program over them."""
    with open(os.path.join(TOP, "crates.txt"), encoding="ascii") as file:
        rows = [row.split(":") for row in file.read().splitlines() if not row.startswith("#")]
    known = {row[0].split()[0]: row[1].split() for row in rows}
    crates = sorted(below("dj_class", known) | below("dj_pool", known))
    with open(os.path.join(folder, "crates.txt"), "w", encoding="ascii") as file:
        file.write("".join("%s: %s\n" % (name, " ".join(known[name])) for name in crates) + "kept: dj_pool dj_class\n")
    shutil.copy(os.path.join(TOP, "HANDLES"), folder)
    for name in crates:
        for part in ("src", "specs", "proofs"):
            if os.path.isdir(os.path.join(TOP, "crates", name, part)):
                shutil.copytree(os.path.join(TOP, "crates", name, part), os.path.join(folder, "crates", name, part))
    top = os.path.join(folder, "crates", "kept")
    os.makedirs(os.path.join(top, "src"))
    with open(os.path.join(top, "src", "main.rt"), "w", encoding="ascii") as file:
        file.write(HEAD + "".join("fn %s%s\n" % row for row in functions()) + "fn main(_rt: HostRuntime) {}\n")
    return top


def tried(folder):
    """What `rt try` said of the program in this folder."""
    try:
        ran = subprocess.run(["rt", "try"], cwd=folder, stdin=subprocess.DEVNULL, stdout=subprocess.PIPE, stderr=subprocess.STDOUT, timeout=300)
    except (OSError, subprocess.TimeoutExpired) as error:
        return "rt try gave no answer: %s" % error
    return ran.stdout.decode("utf-8", "replace")


def views_end_before_their_bytes(results):
    with harness.scratch() as folder:
        said = tried(make_crates(folder))
    first = HEAD.count("\n") + 1
    names = {str(first + number): name for number, (name, _) in enumerate(functions())}
    found = {names.get(line, line) if path == "src/main.rt" else path: code for path, line, code in ERROR.findall(said)}
    wanted = {name: REFUSED for name in names.values() if name.startswith("kept")}
    lines = ["%s isn't refused with %s, so a view can outlive its bytes" % (name, REFUSED) for name in sorted(wanted.keys() - found.keys())]
    lines += ["%s is refused with %s" % (name, code) for name, code in sorted(found.items()) if wanted.get(name) != code]
    if lines:
        lines += ["rt try said:"] + said.splitlines()[-20:]
    results.add("tests/special: views end before their bytes", ["rt", "try"], lines)
