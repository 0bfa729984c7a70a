#!/usr/bin/env python3
"""Makes the folders of tests/cases anew. `tests/generated` says whether they are as this makes them.

The class files come from class_files.py, the cases of `djvm verify` from verify_cases.py, those of `djvm raw` from raw_cases.py, those on
constant pools from pool_cases.py, and those on the rules of `djvm check` from rule_cases.py, code_rule_cases.py, link_rule_cases.py,
resolution_cases.py, shape_rule_cases.py and shape_instruction_cases.py. The expected output and status of each case are those of reference.py, a small reference implementation
that was written from the description of the commands and not from the program. The cases on rules say by hand which lines
they have, and nothing is made where reference.py gives others. What a run of `raw` writes is written by hand, where reference.py comes to the run.

A case is a folder with `files/`, in which the program is run, `words`, one a line (an empty line is an empty word),
`stdout` and `status`. An empty `.keep` makes a folder exist; it is no class file.
"""

import os
import shutil
import sys

sys.dont_write_bytecode = True

import check_rules
import code_rule_cases  # It adds its cases to those of rule_cases, as link_rule_cases and those of resolution and shape do.
import link_rule_cases
import pool_cases
import raw_cases
import reference
import resolution_cases
import rule_cases
import shape_instruction_cases
import shape_rule_cases
import verify_cases
from class_files import (
    ABSTRACT,
    AN_INTERFACE,
    NATIVE,
    PAIR,
    PRIVATE,
    PROTECTED,
    PUBLIC,
    RETURNS_ITS_ARGUMENT,
    STATIC,
    class_entry,
    class_file,
    code,
    modified_utf8,
    native,
    parts,
    row,
    text_entry,
)
from pool_cases import with_pool

HERE = os.path.dirname(os.path.abspath(__file__))
CASES = os.path.join(HERE, "cases")

LONE = b"\xed\xa0\x81"  # a high surrogate alone

cases = {}


def case(name, files, words=("check", "c"), folders=()):
    """Files are given by their paths in the case's folder; the folders are made too, empty."""
    assert name not in cases
    cases[name] = (files, list(words), list(folders))


def plain(name, **more):
    return class_file(name, **more)


def with_native(name):
    return class_file(name, [native("n")])


# The first rows.

one = RETURNS_ITS_ARGUMENT
native_and_finalize = class_file("B", [native("n"), ("finalize", "()V", PROTECTED, [code()])])

case("accepted-one", {"c/A.class": one})
case("accepted-none", {}, folders=["c"])
case("version-53", {"c/A.class": one[:7] + b"\x35" + one[8:]})
case("name-other", {"c/B.class": one})
case("cut-native-finalize", {"c/A.class": one[:-1], "c/B.class": native_and_finalize})
case("trailing-byte", {"c/A.class": one + b"\0"})

# Sets.

case(
    "accepted-set",
    {
        "c/A.class": one,
        "c/a/B.class": plain("a/B", interfaces=["a/I", "java/lang/Runnable"], fields=[("x", "[[J", PRIVATE), ("y", "La/B;", STATIC)]),
        "c/a/I.class": plain("a/I", flags=AN_INTERFACE, methods=[("ok", "(I)Z", PUBLIC | ABSTRACT)]),
        "c/a/b/package-info.class": plain("a/b/package-info", flags=0x1600),
        "c/a/B$1.class": plain("a/B$1", listed=[("SourceFile", b"\0\1"), ("", b""), ("Synthetic", b"")]),
    },
)
case(
    "all-rules",
    {
        "c/A.class": b"\xca\xfe\xba\xbe",
        "c/B.class": plain("b", major=49, methods=[native("n"), ("finalize", "()V", PUBLIC, [code()])]),
        "c/C.class": plain("C", methods=[native("m", "(IJ)[La/B;")]),
    },
)
case(
    "all-rules-of-one-file",
    {"c/B.class": plain("C", major=65535, methods=[("finalize", "()V", NATIVE), native("a"), native("a", "(I)V")])},
)
case("malformed-has-one-line", {"c/B.class": plain("C", major=65535, methods=[native("finalize")], end=b"\0")})
case(
    "not-looked-at",
    {
        # What other checkers refuse and these rules don't look at.
        "c/A.class": plain("A", interfaces=["java/lang/Runnable"] * 2, flags=0xFFFF, fields=[("x", "I", 0xFFFF), ("<init>", "I", PUBLIC | PRIVATE | PROTECTED)]),
        "c/B.class": plain("B", methods=[("f", "()V", 0xFEFF), ("<init>", "()I", ABSTRACT), ("<clinit>", "(I)V", ABSTRACT)]),
        "c/C.class": plain(
            "C",
            listed=[("SourceFile", b""), ("InnerClasses", b"\xff"), ("BootstrapMethods", b"\1"), ("Signature", bytes(3))],
            fields=[("y", "I", 0, [("Signature", b""), ("Deprecated", b"x"), ("StackMapTable", b"\1")])],
            methods=[("f", "()V", ABSTRACT, [("Exceptions", b"\1"), ("Signature", b""), ("ConstantValue", b"")])],
        ),
    },
)

# Paths, escapes and the order of lines.

case(
    "escapes",
    {
        "c/" + path + ".class": with_native(path)
        for path in ("a b", "q%r", "é", "€/" + PAIR, "!", "~", "%41", "ı")
    },
)
case(
    "escapes-of-members",
    {
        "c/A.class": plain(
            "A",
            methods=[
                native(name, descriptor)
                for name, descriptor in (
                    ("a b", "()V"),
                    ("q%r", "(L%;)V"),
                    ("é", "()LÉ;"),
                    (PAIR, "()V"),
                    ("\0", "()V"),
                    (b"f" + LONE, "()V"),
                    ("\x7f~!", "()V"),
                    ("-", "()V"),
                    ("\n", "()V"),
                )
            ],
        )
    },
)
case(
    "order-by-bytes-before-escapes",
    {
        "c/" + path + ".class": plain(path, methods=[native(name) for name in ("a!", "a b", "a%", "a$", "aé", "a~", "a")])
        for path in ("a!", "a b", "a%", "aé", "a~", " ", "Ā", "é", PAIR, "\uffee")
    },
)
case(
    "order-inner-classes",
    {"c/" + path + ".class": with_native(path) for path in ("A", "A$B", "A$B$1", "A-B", "A0", "a", "AA")},
)
case(
    "order-folders",
    {
        "c/" + path + ".class": with_native(path)
        for path in ("a", "a/B", "a/b/C", "a-/B", "a0/B", "a$/B", "Z/Z", "b")
    },
)
case(
    "order-members",
    {
        "c/A.class": plain(
            "A",
            methods=[
                native("n"),
                native("finalize"),
                native("m", "(I)V"),
                native("m"),
                native("m", "(B)V"),
                native("mm"),
                native("<init>"),
                native("<clinit>"),
                native("N"),
                native("n", "()I"),
            ],
            major=53,
        )
    },
)
case(
    "equal-lines",
    {
        "c/A.class": plain("A", methods=[native("n"), native("n"), native("m"), native("n")]),
        # Two methods whose names and descriptors join to one text.
        "c/B.class": plain("B", methods=[native("f", "()LA(I)LB;"), native("f()LA", "(I)LB;")]),
        "c/C.class": plain("C", methods=[("finalize", "()V", PUBLIC, [code()]), ("finalize", "()V", PUBLIC, [code()])]),
    },
)

# Which files are class files.

case("dot-class", {"c/.class": one, "c/A.class": one, "c/a/.class": plain("a"), "c/b/.class": plain("b/")})
case(
    "other-files",
    {
        "c/A.class": one,
        "c/B.class.bak": b"",
        "c/C.CLASS": b"",
        "c/class": b"",
        "c/Dclass": b"",
        "c/E.class ": b"",
        "c/F.classes": b"",
        "c/G.jar": b"",
        "c/.gitkeep": b"",
        "A.class": b"",
    },
)
case(
    "folders-with-dots",
    {
        "c/x.class/A.class": one,
        "c/x.class/readme": b"",
        "c/.hidden/A.class": one,
        "c/y.class/.keep": b"",
    },
)
case("two-endings", {"c/A.class.class": one})

# FOLDER.

nested = {"c/a/A.class": plain("a/A"), "c/A.class": one}
case("folder-here", {"A.class": one, "a/A.class": plain("a/A")}, ["check", "."])
case("folder-nested", nested, ["check", "c/a"])
case("folder-slash", nested, ["check", "c/"])
case("folder-not-a-package", {"c/a/A.class": one}, ["check", "c/a"])
case("folder-two-slashes", nested, ["check", "c//"])
case("folder-dot-slash", nested, ["check", "./c/../c/a/.."])
case("folder-named-check", {"check/A.class": one}, ["check", "check"])
case("folder-with-blanks", {" c é %/A.class": one}, ["check", " c é %"])
case("folder-absent", nested, ["check", "d"])
case("folder-is-file", nested, ["check", "c/A.class"])
case("folder-is-file-slash", nested, ["check", "c/A.class/"])
case("folder-empty-word", nested, ["check", ""])

# Words.

case("words-none", nested, [])
case("words-one", nested, ["check"])
case("words-three", nested, ["check", "c", "c"])
case("words-three-empty", nested, ["check", "c", ""])
case("words-four", nested, ["check", "c", "A", "in"])
case("words-dash", {"-/A.class": one}, ["check", "-"])
case("words-option", {"-c/A.class": one}, ["check", "-c"])
case("words-option-first", nested, ["--", "check", "c"])
case("words-dashes", nested, ["check", "--", "c"])
case("words-dashes-last", nested, ["check", "c", "--"])
case("words-dashes-twice", {"--/A.class": one}, ["check", "--", "--"])
case("words-dashes-option", {"--jump/A.class": one}, ["check", "--", "--jump"])
case("words-option-of-another", nested, ["check", "c", "--jump", "5"])
case("words-option-of-none", nested, ["check", "c", "--other=5"])
case("words-help", nested, ["--help"])
case("words-help-short", nested, ["check", "c", "-h"])
case("words-help-word", nested, ["help"])
case("words-version", nested, ["--version"])
case("words-other-case", nested, ["Check", "c"])
case("words-empty", nested, ["", ""])

# The order of malformed files.

case("order-malformed", {"c/" + path + ".class": one[:-1] for path in ("b", "a!", "a b", "a/A", "a$")})

# Versions and names.

case(
    "versions",
    {
        "c/M%d_%d.class" % version: plain("M%d_%d" % version, major=version[0], minor=version[1])
        for version in ((0, 0), (45, 3), (49, 0), (50, 0), (50, 65535), (51, 0), (52, 0), (52, 1), (53, 0), (306, 0), (65535, 0))
    },
)
case(
    "names",
    {
        "c/a/B.class": plain("a/B"),
        "c/b/B.class": plain("a/B"),
        "c/B.class": plain("a/B"),
        "c/é.class": plain("é"),
        "c/e\u0301.class": plain("é"),
        "c/" + PAIR + "/" + PAIR + ".class": plain(PAIR + "/" + PAIR),
        "c/" + PAIR + ".class": plain(LONE),
        "c/\ufffd.class": plain("\ufffd"),
        "c/\u07ff\u0800.class": plain("\u07ff\u0800"),
        "c/four.class": plain(PAIR.encode("utf-8")),
        "c/x.class": plain("X"),
        "c/y.class": plain("y.class"),
        "c/z.class": plain("z\0"),
        "c/long.class": plain("long/long"),
        "c/shorter.class": plain("short"),
    },
)
case("names-nested-folder", {"d/c/a/B.class": plain("a/B"), "d/c/B.class": plain("c/B")}, ["check", "d/c"])
case("names-from-inside", {"a/B.class": plain("a/B")}, ["check", "a"])

# Rules on methods.

case(
    "finalizers",
    {
        "c/A.class": plain("A", methods=[("finalize", "()V", PROTECTED | NATIVE)]),
        "c/B.class": plain("B", methods=[("finalize", "(I)V"), ("finalize", "()I"), ("finalise", "()V"), ("Finalize", "()V")]),
        "c/C.class": plain("C", methods=[("finalize", "()V", ABSTRACT)], flags=AN_INTERFACE),
        "c/D.class": plain("D", methods=[("finalize", "()V", STATIC, [code()])]),
        "c/E.class": plain("E", fields=[("finalize", "I", NATIVE), ("f", "LV;", 0xFFFF)]),
        "c/F.class": plain("F", methods=[("f", "()V", 0xFEFF)]),
    },
)

# What is a class file.

longest = "(" + "I" * 255 + ")V"

case(
    "well-formed",
    {
        "c/" + name + ".class": plain(name, **more)
        for name, more in {
            "array255": dict(fields=[("x", "[" * 255 + "I")]),
            "slots255": dict(methods=[("f", longest, ABSTRACT), ("g", "(" + "J" * 127 + "[D)D", STATIC | ABSTRACT)]),
            "names": dict(fields=[("<x>", "I"), ("<init>", "I"), ("(", "I")], methods=[("<init>", "()I"), ("<clinit>", "(I)V"), ("(", "()V")]),
            "texts": dict(listed=[(b"\xc0\x80\x7f\xc2\x80\xdf\xbf\xe0\xa0\x80\xef\xbf\xbf" + LONE, b"\0" * 70000)]),
        }.items()
    },
)


def with_class_of(text):
    """A whole file that has one more class entry, of this text."""
    return with_pool("A", class_entry(2), text_entry(modified_utf8(text)))


case(
    "indexes",
    {
        "c/%s.class" % name: data
        for name, data in {
            "A": parts(fields=row(1, 0, 5, 6, 0), methods=row(1, ABSTRACT, 5, 7, 1, 5, 0, 0), interfaces=[2, 2]),
            "this-0": parts(this_class=0),
            "this-text": parts(this_class=1),
            "this-array": parts(this_class=9),
            "this-count": parts(this_class=10),
            "super-text": parts(super_class=3),
            "super-array": parts(super_class=9),
            "super-65535": parts(super_class=65535),
            "interface-0": parts(interfaces=[0]),
            "interface-array": parts(interfaces=[2, 9]),
            "interface-text": parts(interfaces=[5]),
            "field-name-0": parts(fields=row(1, 0, 0, 6, 0)),
            "field-name-class": parts(fields=row(1, 0, 2, 6, 0)),
            "field-name-slash": parts(fields=row(1, 0, 3, 6, 0)),
            "field-of-method": parts(fields=row(1, 0, 5, 7, 0)),
            "field-desc-name": parts(fields=row(1, 0, 5, 5, 0)),
            "method-of-field": parts(methods=row(1, 0, 5, 6, 0)),
            "method-name-array": parts(methods=row(1, 0, 8, 7, 0)),
            "method-desc-10": parts(methods=row(1, 0, 5, 10, 0)),
            "attribute-0": parts(listed=row(1, 0, 0, 0)),
            "attribute-class": parts(listed=row(1, 2, 0, 0)),
            "attribute-of-field": parts(fields=row(1, 0, 5, 6, 1, 9, 0, 0)),
            "attribute-long": parts(listed=row(1, 5, 0xFFFF, 0xFFFF)),
            "attribute-short": parts(listed=row(1, 5, 0, 1)),
            "count-less": parts(count=9),
            "count-more": parts(count=11),
            "members-more": parts(methods=row(65535)),
        }.items()
    },
)
case(
    "class-names",
    {
        "c/%s.class" % name: with_class_of(text)
        for name, text in {
            "A": "a/b/C",
            "blank": " /<x>/(",
            "array": "[[[La/B;",
            "array255": "[" * 255 + "D",
            "empty": "",
            "slash-first": "/a",
            "slash-last": "a/",
            "slashes": "a//b",
            "dot": "a.b",
            "semicolon": "a;",
            "bracket": "a[",
            "array256": "[" * 256 + "D",
            "array-of-void": "[V",
            "array-of-nothing": "[",
            "array-more": "[II",
            "array-unended": "[La/B",
            "array-of-dots": "[La.B;",
            "array-of-empty": "[L;",
            "array-of-method": "[()V",
        }.items()
    },
)
case(
    "descriptors",
    {
        "c/%s.class" % name: plain("A", fields=[("x", text)])
        if kind == "f"
        else plain("A", methods=[("x", text)])
        for name, kind, text in (
            ("A", "m", "(BCDFIJSZLa;[[LA/b/c d;[J)[[Z"),
            ("f-void", "f", "V"),
            ("f-empty", "f", ""),
            ("f-two", "f", "II"),
            ("f-array256", "f", "[" * 256 + "I"),
            ("f-class-empty", "f", "L;"),
            ("f-class-unended", "f", "LA"),
            ("f-class-slash", "f", "LA/;"),
            ("f-class-bracket", "f", "LA[;"),
            ("f-letter", "f", "Q"),
            ("f-lower", "f", "i"),
            ("m-empty", "m", "()"),
            ("m-unended", "m", "(I"),
            ("m-no-start", "m", "I)V"),
            ("m-two", "m", "()VV"),
            ("m-array-of-void", "m", "()[V"),
            ("m-void", "m", "(V)V"),
            ("m-slots256", "m", "(" + "I" * 256 + ")V"),
            ("m-slots256-long", "m", "(" + "J" * 128 + ")V"),
            ("m-slots256-double", "m", "(" + "D" * 128 + ")V"),
            ("m-array256", "m", "(" + "[" * 256 + "I)V"),
        )
    },
)
case(
    "member-names",
    {
        "c/%s.class" % name: plain("A", fields=[(text, "I")]) if kind == "f" else plain("A", methods=[(text, "()V")])
        for name, kind, text in (
            ("f-empty", "f", ""),
            ("f-dot", "f", "a.b"),
            ("f-semicolon", "f", ";"),
            ("f-bracket", "f", "["),
            ("f-slash", "f", "/"),
            ("m-empty", "m", ""),
            ("m-dot", "m", "."),
            ("m-slash", "m", "a/b"),
            ("m-less", "m", "<"),
            ("m-greater", "m", "a>"),
            ("m-init-more", "m", "<init>>"),
            ("m-init-upper", "m", "<Init>"),
        )
    },
)
case(
    "texts",
    {
        # A text that nothing names is asked too.
        "c/%s.class" % name: with_pool("A", text_entry(bytes.fromhex(text)))
        for name, text in (
            ("A", "c080 61 dfbf efbfbf eda081 edb0b7 edb0b7eda081"),
            ("zero", "61 00"),
            ("alone-80", "80"),
            ("alone-bf", "bf"),
            ("two-cut", "c2"),
            ("two-end", "c261"),
            ("two-short-c081", "c081"),
            ("two-short-c1bf", "c1bf"),
            ("three-cut", "e0a0"),
            ("three-second", "e06180"),
            ("three-third", "e0a061"),
            ("three-short", "e09fbf"),
            ("three-zero", "e08080"),
            ("three-third-c0", "e0a0c0"),
            ("four", "f09090b7"),
            ("four-first", "f0a0a0"),
            ("ff", "ff"),
        )
    },
)
case(
    "cut",
    {"c/%03d.class" % length: one[:length] for length in (0, 3, 4, 7, 8, 9, 10, 11, 13, 62, 64, 66, 74, 80, 84, 88, 99, 104, 105)},
)
case("magic", {"c/%d.class" % at: one[:at] + bytes([one[at] ^ 1]) + one[at + 1 :] for at in range(4)})


def write(path, data):
    os.makedirs(os.path.dirname(path), exist_ok=True)
    with open(path, "wb") as file:
        file.write(data)


def lines_of_words(words):
    return "".join(word + "\n" for word in words).encode()


def write_parts(top, files, words):
    """The files and the words of the case in this folder; the files that were there are removed."""
    shutil.rmtree(os.path.join(top, "files"), ignore_errors=True)
    for path, data in files.items():
        write(os.path.join(top, "files", path), data)
    write(os.path.join(top, "words"), lines_of_words(words))


def files_of(top):
    """The bytes of each file in the folder, by its path there."""
    found = {}
    for inside, _, names in os.walk(top):
        for name in names:
            path = os.path.join(inside, name)
            with open(path, "rb") as file:
                found[os.path.relpath(path, top)] = file.read()
    return found


def unlike(made, there):
    """The lines that say how the files of a case differ."""
    lines = ["%s isn't there" % path for path in sorted(made.keys() - there.keys())]
    lines += ["%s isn't made" % path for path in sorted(there.keys() - made.keys())]
    return lines + ["%s differs" % path for path in sorted(made.keys() & there.keys()) if made[path] != there[path]]


def mismade(top, files, words):
    """The lines that say how the files and the words of the case in this folder differ from these."""
    if not os.path.exists(top):
        return ["it isn't there"]
    with open(os.path.join(top, "words"), "rb") as file:
        lines = [] if file.read() == lines_of_words(words) else ["words: %r are made" % words]
    return lines + unlike(files, files_of(os.path.join(top, "files")))


def outcome_of(inside, words):
    """What reference.py writes, run in this folder, and its status."""
    before = os.getcwd()
    os.chdir(inside)
    try:
        return reference.outcome([os.fsencode(word) for word in words])
    finally:
        os.chdir(before)


def lines_of_report(text):
    """The lines of a report as rule_cases.py writes them."""
    first, *lines = text.decode().splitlines()
    found = []
    for path, member, number, rule, name in map(str.split, lines):
        assert name == check_rules.RULES[int(rule)]
        found.append(" ".join(part for part in (path[: -len(".class")], member, number, rule) if part != "-"))
    assert first.split()[0] == "ACCEPTED" and not found or first == "REJECTED %d" % len(found)
    return found


def make(target, name, files, words, folders):
    top = os.path.join(target, name)
    inside = os.path.join(top, "files")
    write_parts(top, files, words)
    os.makedirs(inside, exist_ok=True)
    for folder in folders:
        write(os.path.join(inside, folder, ".keep"), b"")
    text, status = outcome_of(inside, words)
    if name in rule_cases.found:
        reported, wanted = lines_of_report(text), list(rule_cases.found[name][1])
        if sorted(reported) != sorted(wanted):
            sys.exit("%s: reported %s, wanted %s" % (name, sorted(set(reported) - set(wanted)), sorted(set(wanted) - set(reported))))
    if (text, status) == (b"", reference.NO_RUN) or name in raw_cases.runs:
        if status != reference.NO_RUN:
            sys.exit("%s: reported %r with status %d, and the case has a run" % (name, text, status))
        text, status = raw_cases.runs[name]
    write(os.path.join(top, "stdout"), text)
    write(os.path.join(top, "status"), b"%d\n" % status)
    return text, status


def make_all(target):
    """Makes the folder of each case in this folder."""
    for name, made in [*pool_cases.found.items(), *verify_cases.found.items(), *raw_cases.found.items()]:
        case(name, *made)
    for name, (files, _) in rule_cases.found.items():
        case(name, files)
    for name, made in cases.items():
        make(target, name, *made)


def main():
    shutil.rmtree(CASES, ignore_errors=True)
    make_all(CASES)
    print("%d cases" % len(cases))


if __name__ == "__main__":
    main()
