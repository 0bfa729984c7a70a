"""The cases of the line on standard error beside a report, word for word."""

import contextlib
import functools
import os
import resource
import sys

sys.dont_write_bytecode = True

import harness
from class_files import class_file, native
from harness import Outcome
from special_base import RAW, VERIFY, accepted, closed_pipe, full, link, one, rejected, special, usage, write

LAUNCHER = os.path.join(os.path.dirname(os.path.dirname(os.path.abspath(__file__))), "djvm")


def says_on_stderr(status, line, stdout=b""):
    return Outcome(status, stdout, b"djvm: " + line + b"\n")


def with_note(outcome, note):
    return Outcome(outcome.status, outcome.stdout, note)


# Words of no job: the usage and the version. Those that ask for help or for the version are such words too.


@special("--help", wanted=with_note(usage, harness.USAGE))
def note_on_help():
    pass


@special("--version", wanted=with_note(usage, harness.USAGE))
def note_on_the_version():
    pass


@special("check", "c", "d", wanted=with_note(usage, harness.USAGE))
def note_on_a_word_too_many():
    write("c/A.class", one)


# What can't be read: its path, and why.


@special("check", "c", wanted=says_on_stderr(65, b'"c/": No such file or directory (os error 2)'))
def note_on_an_absent_folder():
    pass


# An empty FOLDER isn't the root.


@special("check", "", wanted=says_on_stderr(65, b'"": No such file or directory (os error 2)'))
def note_on_an_empty_folder():
    write("A.class", one)


@special("raw", "", "/", "in", wanted=says_on_stderr(65, b'"": No such file or directory (os error 2)'))
def note_on_an_empty_folder_before_a_slash():
    write("in")


@special("check", "c\nd", wanted=says_on_stderr(65, rb'"c\nd/": No such file or directory (os error 2)'))
def note_on_a_name_of_two_lines():
    pass


# A name of a folder isn't UTF-8: the first such name in the order of the listing.


@special(wanted=says_on_stderr(65, rb'''"c/": the name "\xff.class" in it isn't UTF-8'''))
def note_on_a_name_not_utf8():
    write("c/A.class", one)
    write(b"c/\xff.class", one)


@special(wanted=says_on_stderr(65, rb'''"c/a\n": the name "\xc3\xa9\xc3\n\"" in it isn't UTF-8'''))
def note_on_a_long_way_to_a_name_not_utf8():
    for number in range(2000):
        write("c/a\n/%d" % number)
    write(b"c/a\n/\xc3\xa9\xc3\n\"")


# A name has 255 bytes at most, and a path 4,095.


@special("check", "d" * 256, wanted=says_on_stderr(65, b'"%s/": File name too long (os error 36)' % (b"d" * 256)))
def note_on_a_name_that_is_too_long():
    pass


@special("check", "c" + "/." * 2048, wanted=says_on_stderr(65, b'"c%s/": File name too long (os error 36)' % (b"/." * 2048)))
def note_on_a_path_that_is_too_long():
    write("c/A.class", one)


@special("check", "c", wanted=says_on_stderr(65, b'"c/": Not a directory (os error 20)'))
def note_on_a_file_for_a_folder():
    write("c")


@special(wanted=says_on_stderr(65, b'"c/a": Permission denied (os error 13)'), as_nobody=True)
def note_on_an_unreadable_folder():
    write("c/A.class", one)
    os.mkdir("c/a", 0)


@special(wanted=says_on_stderr(65, b'"c/B.class": Permission denied (os error 13)'), as_nobody=True)
def note_on_an_unreadable_file():
    write("c/A.class", one)
    write("c/B.class", class_file("B"))
    os.chmod("c/B.class", 0)


@special(wanted=says_on_stderr(65, b'"c/X.class": No such file or directory (os error 2)'))
def note_on_a_link_to_nothing():
    write("c/A.class", one)
    link("c/X.class", "none")


@special(wanted=says_on_stderr(65, b"\"c/X.class\": it has a class file's name and is no file"))
def note_on_a_pipe():
    write("c/A.class", one)
    os.mkfifo("c/X.class")


@special(wanted=says_on_stderr(65, b'"c%s": it has a folder at level 65, or there are more than 1048576 entries' % (b"/d" * 64)))
def note_on_65_levels():
    write("c" + "/d" * 65 + "/A.class", one)


@special(*VERIFY, wanted=says_on_stderr(65, b'"in": No such file or directory (os error 2)'))
def note_on_an_absent_input():
    write("c/A.class", one)


@special(*VERIFY, wanted=says_on_stderr(65, b'"in": Is a directory (os error 21)'))
def note_on_a_folder_for_an_input():
    write("c/A.class", one)
    os.mkdir("in")


@special("assemble", "t", wanted=says_on_stderr(65, b'"t": No such file or directory (os error 2)'))
def note_on_an_absent_text():
    pass


# A folder that is the wrong one.


@special(wanted=with_note(accepted(0), harness.NO_CLASS_FILE))
def note_on_no_class_file():
    write("c/A.java")


@special(*VERIFY, wanted=with_note(rejected(b"A.class - - 20 ENTRY"), harness.NO_CLASS_FILE))
def note_on_a_run_of_no_class_file():
    os.mkdir("c")
    write("in")


def write_below(folder):
    write(folder + "/A.class", one)
    write(folder + "/B.class", class_file("B", [native("n")]))


BELOW = (b"d/A.class - - 3 NAME", b"d/B.class - - 3 NAME", b"d/B.class n()V - 7 NATIVE")


@special(wanted=with_note(rejected(*BELOW), harness.NO_RIGHT_PATH))
def note_on_a_folder_above():
    write_below("c/d")


@special(wanted=with_note(rejected(*BELOW), b""))
def no_note_where_a_path_is_right():
    write_below("c/d")
    write("c/C.class", class_file("C"))


@special(wanted=with_note(rejected(b"B.class n()V - 7 NATIVE"), b""))
def no_note_on_other_rules():
    write_below("c")


@special(wanted=with_note(accepted(1), b""))
def no_note_on_what_is_accepted():
    write("c/A.class", one)


# Another version: that of the first class file that has one, in the order of their paths.

OLD, NEW = (45, 3), (61, 0)


def other_version(path, version):
    return b'djvm: "c/%s": its version is %d.%d: compile with javac --release 8\n' % (path, *version)


def write_versions(**versions):
    for name, (major, minor) in versions.items():
        write("c/%s.class" % name, class_file(name, major=major, minor=minor))


@special(wanted=with_note(rejected(b"B.class - - 2 VERSION"), other_version(b"B.class", NEW)))
def note_on_another_version():
    write_versions(A=(52, 0), B=NEW)


@special(wanted=with_note(rejected(b"A.class - - 2 VERSION", b"B.class - - 2 VERSION"), other_version(b"A.class", OLD)))
def note_on_two_other_versions():
    write_versions(B=NEW, A=OLD)


@special(*RAW, wanted=with_note(rejected(b"A.class - - 2 VERSION", b"B.class n()V - 7 NATIVE"), other_version(b"A.class", NEW)))
def note_on_another_version_in_a_run():
    write_versions(A=NEW)
    write("c/B.class", class_file("B", [native("n")]))
    write("in")


@special(*VERIFY, wanted=with_note(rejected(b"A.class - - 2 VERSION"), other_version(b"A.class", (53, 65535))))
def note_on_another_version_by_verify():
    write_versions(A=(53, 65535))
    write("in", class_file("in", major=61))


@special(wanted=with_note(rejected(b"d/A.class - - 2 VERSION", b"d/A.class - - 3 NAME"), harness.NO_RIGHT_PATH))
def note_on_a_folder_above_another_version():
    write("c/d/A.class", class_file("A", major=61))


@special(wanted=with_note(rejected(b"A.class - - 1 MALFORMED"), b""))
def no_note_on_a_malformed_version():
    write("c/A.class", class_file("A", major=61)[:-1])


@special(wanted=with_note(accepted(3), b""))
def no_note_on_accepted_versions():
    write_versions(A=(50, 0), B=(51, 9), C=(52, 65535))


# A standard output that takes no more: why. One that isn't waited for ends so too.


@contextlib.contextmanager
def full_pipe():
    """A pipe that is full, and that nobody reads."""
    reads, writes = os.pipe()
    os.set_blocking(writes, False)
    with contextlib.suppress(BlockingIOError):
        while True:
            os.write(writes, bytes(65536))
    try:
        yield writes
    finally:
        os.close(reads)
        os.close(writes)


OUTPUTS = {
    "full device": (full, b"No space left on device (os error 28)"),
    "closed pipe": (closed_pipe, b"Broken pipe (os error 32)"),
    "full pipe": (full_pipe, b"Resource temporarily unavailable (os error 11)"),
}

for name, (output, cause) in OUTPUTS.items():
    make = functools.partial(write, "c/A.class", one)
    make.__name__ = "note_on_a_" + name.replace(" ", "_")
    special(wanted=says_on_stderr(66, b"standard output: " + cause), stdout=output)(make)


# ./djvm ignores the signal that the system sends past a limit on the size of files, so there the status is 66 too.


def past_a_limit(results):
    with harness.scratch() as folder:
        write(os.path.join(folder, "c", "A.class"), one[:-1])
        with open(os.path.join(folder, "output"), "w+b") as output:
            outcome = harness.run(LAUNCHER, ["check", "c"], folder, stdout=output, before=takes_11_bytes)
            output.seek(0)
            outcome.stdout = output.read()
    wanted = says_on_stderr(66, b"standard output: File too large (os error 27)", b"REJECTED 1\n")
    results.add("tests/special: ./djvm past a limit on the size of files", ["check", "c"], harness.difference(wanted, outcome))


def takes_11_bytes():
    resource.setrlimit(resource.RLIMIT_FSIZE, (11, 11))
