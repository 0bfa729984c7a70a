"""The class files that javac made: those of tests/compiled, of tests/raw/javac-*, of examples/javac and of examples/raw, but for `stale`. The sources of the first two are in
tests/javac/source. tests/generated calls it.

- Where `javac` is that of JDK 17, the sources are compiled for Java 8 again, and each class file must be the same, byte for byte. Other versions write
  other class files.
- The reports and statuses of tests/compiled are kept as those of tests/written are (written_cases.py), and reference.py must find them.
"""

import glob
import os
import subprocess

import harness
import make_cases
from written_cases import Case, misreported

HERE = os.path.dirname(os.path.abspath(__file__))
COMPILED = os.path.join(HERE, "compiled")
SOURCES = os.path.join(HERE, "javac", "source")
RAW = os.path.join(HERE, "raw")
EXAMPLES = os.path.join(os.path.dirname(HERE), "examples")

# The options: with `-g` a class file says all that it may of its source, and with `-g:none` nothing.
OPTIONS = (["-g:none"], ["-g"], [])
# The examples with each option, below the folder of the examples and below its `source`.
OF_EXAMPLES = {"-g:none": [("raw", "accepted"), ("raw", "clocks")], "": [("javac", "accepted"), ("javac", "rejected")]}
# The folders of the sources of the cases of tests/raw, by what stands behind `javac-` in their names.
OF_RAW = {"accounts": "accounts", "shapes": "graph", "terms": "terms"}


def sets(option):
    """The folders of the sources and of the class files of the sets with this option. No two of these sources have a class of one name."""
    folders = [(os.path.join(EXAMPLES, top, "source", name), os.path.join(EXAMPLES, top, name)) for top, name in OF_EXAMPLES.get("".join(option), [])]
    cases = []
    if option:
        # `inner-g` and `inner` are made of one source.
        names = [name for name in sorted(os.listdir(COMPILED)) if name.endswith("-g") == (option == ["-g"])]
        cases += [(name[:-2] if name.endswith("-g") else name, os.path.join(COMPILED, name)) for name in names]
    if option == ["-g:none"]:
        cases += [(OF_RAW[name.split("-")[1]], os.path.join(RAW, name)) for name in sorted(os.listdir(RAW)) if name.startswith("javac-")]
    return folders + [(os.path.join(SOURCES, source), os.path.join(case, "files", "c")) for source, case in cases]


def has_javac():
    try:
        version = subprocess.run(["javac", "-version"], stdout=subprocess.PIPE, stderr=subprocess.STDOUT).stdout
    except OSError:
        return False
    return version.startswith(b"javac 17.")


def compiled(option, sources):
    """The class files of all these sources, by their paths."""
    paths = [path for source in sorted(set(sources)) for path in glob.glob(os.path.join(source, "**", "*.java"), recursive=True)]
    with harness.scratch() as target:
        words = ["javac", "--release", "8", "-nowarn", "-proc:none", "-encoding", "UTF-8", *option, "-d", target, *paths]
        subprocess.run(words, stdout=subprocess.DEVNULL, stderr=subprocess.DEVNULL)
        return make_cases.files_of(target)


def compare(results, option):
    folders = sets(option)
    made = compiled(option, [source for source, _ in folders])
    left = set(made)
    for _, folder in folders:
        there = make_cases.files_of(folder)
        left -= there.keys()
        lines = make_cases.unlike({path: made[path] for path in there if path in made}, there)
        results.add("%s, compiled anew" % os.path.relpath(folder, os.path.dirname(HERE)), [], lines)
    results.add("the sources of javac, with %s" % (option or "no option"), [], ["%s is in no case" % path for path in sorted(left)])


def check(results):
    for name in sorted(os.listdir(COMPILED)):
        case = Case(os.path.join(COMPILED, name))
        results.add("tests/compiled/%s" % name, case.words, misreported(case))
    if not has_javac():
        print("javac of JDK 17 isn't there: its class files aren't compared")
        return
    for option in OPTIONS:
        compare(results, option)
