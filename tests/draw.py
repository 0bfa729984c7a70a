"""Draws the sets of class files of tests/drawn and makes the folders of these cases anew. `tests/generated` says whether they are as this makes them.

Each set is drawn from a seed of SEEDS, by numbers that are the SHA-256 of the seed and a count, so that every Python draws the same. A case is
named for its report, as `check-3-files-malformed-hierarchy` and `verify-null-pointer`; cases of one name have letters behind it, in
the order of the seeds.

The reports and statuses are those of reference.py alone; tests/run compares the program with them. The 185 sets that stood here before were drawn by programs and
from seeds that aren't kept, and most of them had reports from other sources. A set was taken away where reference.py finds the report that it had, byte for byte;
it found all of them. The 53 that were of a run of `verify`, of a fault of shape in one, or of hierarchies alone are kept in tests/written as straight-* and
hierarchy-*, where their class files are written down with the reports that they had. Of the other rules and ends tests/written has other cases with reports
from elsewhere.
"""

import hashlib
import os
import re
import shutil
import sys

sys.dont_write_bytecode = True

import make_cases
from class_files import (
    A_CLASS,
    ABSTRACT,
    AN_INTERFACE,
    FIELD,
    FINAL,
    INTERFACE,
    INTERFACE_METHOD,
    METHOD,
    NATIVE,
    OBJECT,
    PROTECTED,
    PUBLIC,
    STATIC,
    Pool,
    class_file,
    code,
    row,
    u1,
)
from instructions import instruction, instructions
from opcodes import OPCODES, opcode
from reference import EXCEPTION, LATER, REJECTED, THRESHOLD, USAGE

DRAWN = os.path.join(os.path.dirname(os.path.abspath(__file__)), "drawn")

SEEDS = {
    "files": "1 2 9 16 22 24 25 27 29 30 32 33 35 36 40 49 52 57 59 67 76 77 78 84 85 97 99 109 112 115 120 133 139 145 149 163 172 197 199 202 "
    "213 220 226 229 234 248 249 253 543 852 1470 2105 2727 3311 17284 22605",
    "hierarchy": "0 2 8 9 12 14 24 26 28 52 56 85 129 170 173 176 178 190 217",
    "uses": "1 5 6 7 10 11 13 14 15 20 21 22 30 35 46 58 75 83 102 103 104 109 159 175 197 237 266 373 471 533 965 1402 10446",
    "straight": "0 1 2 3 4 6 7 8 9 10 11 12 14 15 16 17 18 19 20 21 22 23 24 25 26 27 28 29 30 31 33 35 38 39 40 41 43 44 46 47 50 51 52 53 54 56 "
    "57 58 59 61 62 63 64 65 68 69 74 75 76 79 82 87 88 89 93 95 100 103 104 106 109 118 119 123 125 127 131 144 145 146 152 165 175 "
    "186 193 203 220 232 240 263 354 454 619",
}


class Draw:
    """What is drawn from a seed, one number after the other."""

    def __init__(self, kind, seed):
        self.start, self.count = "%s %d" % (kind, seed), 0

    def below(self, most):
        self.count += 1
        digest = hashlib.sha256(b"%s %d" % (self.start.encode(), self.count)).digest()
        return int.from_bytes(digest[:8], "big") % most

    def chance(self, percent):
        return self.below(100) < percent

    def one(self, items):
        return items[self.below(len(items))]

    def some(self, items, count):
        """So many different ones, in the order in which they are drawn."""
        left = list(items)
        return [left.pop(self.below(len(left))) for _ in range(min(count, len(left)))]

    def bytes(self, most):
        return bytes(self.below(256) for _ in range(self.below(most + 1)))


class Drawn:
    """A set: its files by their paths, and the words. Where it isn't straight, `more` says in the case's name what there is more."""

    def __init__(self, files, words, more=""):
        self.files, self.words, self.more = files, words, more


def spoiled(draw, data):
    """The bytes of a class file, cut, with a byte more, or with one that is another."""
    what, at = draw.below(3), draw.below(len(data))
    if what == 0:
        return data[:at]
    if what == 1:
        return data + draw.bytes(4) + b"\0"
    return data[:at] + u1(data[at] ^ 1 << draw.below(8)) + data[at + 1 :]


# Sets of files by themselves: members and attributes of all sorts, versions, and files that are spoiled.

NAMES = ["A", "Foo", "a/b/C", "x/Y", "Café", "lı", "q%r", "a b", "package-info"]
FOLDERS = ["c", "c", "c", "c c", "café", "d/e"]
METHODS = [("verify", "([B)[B"), ("f", "()V"), ("g", "([[[J)Z"), ("h", "(ILFoo;)V"), ("main", "([Ljava/lang/String;)V")]


def junk(draw):
    """Attributes that nothing looks into."""
    return [(draw.one(["Deprecated", "SourceFile", "", "Café"]), draw.bytes(6)) for _ in range(draw.below(3))]


def any_method(draw, name, descriptor):
    what = draw.below(12)
    if what == 0:
        return (name, descriptor, NATIVE | draw.below(16), junk(draw))
    if what < 3:
        return ("finalize", "()V", *draw.one([(ABSTRACT, junk(draw)), (PUBLIC, [code()])]))
    if what < 6:
        return (name, descriptor, ABSTRACT | draw.below(16), junk(draw))
    return (name, descriptor, draw.below(64), [*junk(draw), code(opcode("return"), draw.below(4), 4)])


def any_class(draw, name):
    """A class file that is mostly well-formed and violates few rules."""
    kinds = ["B", "I", "J", "Z", "[[Ljava/lang/String;", "LFoo;"] * 4 + ["F", "[D"]
    return class_file(
        name if draw.chance(94) else draw.one(NAMES),
        [any_method(draw, *each) for each in draw.some(METHODS, draw.below(4))],
        [(draw.one("xyz"), draw.one(kinds), draw.below(64), junk(draw)) for _ in range(draw.below(3))],
        draw.some(["java/lang/Runnable", "java/lang/Comparable"], draw.below(2)),
        junk(draw),
        major=draw.one([50, 51, 52] * 6 + [49, 53]),
        minor=draw.one([0, 0, 3, 65535]),
        flags=draw.one([0x21] * 9 + [0x601, 0xFFFF]),
        super_name=draw.one([OBJECT] * 9 + ["x/Y", None]),
    )


def files(draw):
    folder = draw.one(FOLDERS)
    names = draw.some(NAMES, draw.below(6))
    percent = draw.one([0, 0, 30, 90])
    made = {}
    for name in names:
        data = any_class(draw, name)
        made["%s/%s.class" % (folder, name)] = spoiled(draw, data) if draw.chance(percent) else data
    others = {folder + "/note": b"", folder + "/lı.CLASS": draw.bytes(9), folder + "x/A.class": b"", "A.class": b""}
    made.update((path, others[path]) for path in draw.some(others, draw.below(3)))
    if not names:
        made[folder + "/note"] = b""
    folder += draw.one(["", "", "", "/"])
    wrong = [["check"], ["-check", folder], ["check", folder, "--jump", "5"]]
    return Drawn(made, draw.one(wrong) if draw.chance(8) and names else ["check", folder])


# Hierarchies: classes of a few names above and below each other, twice, final, and in packages of the sandbox.

CLASSES = ["A", "B", "C", "D", "a/E", "a/F", "G", "A0", "C2"]
KINDS = [A_CLASS] * 3 + [A_CLASS | ABSTRACT] + [AN_INTERFACE] * 2 + [A_CLASS | FINAL]


def of_hierarchy(draw, name, flags, names):
    """A class below others of the set or of the library, most of which may stand there."""
    above = [OBJECT] * 5 + ["java/lang/Exception", "java/lang/String", "x/Y", *names]
    below = ["java/lang/Runnable", "java/lang/Comparable", "java/io/Serializable", *names]
    return class_file(
        name,
        fields=[("f", draw.one("IJ"), PROTECTED) for _ in range(draw.below(3) if draw.chance(30) else 0)],
        methods=[(draw.one("mn"), "()V", ABSTRACT) for _ in range(draw.below(3) if draw.chance(30) else 0)],
        interfaces=[draw.one(below) for _ in range(draw.below(3) if draw.chance(40) else 0)],
        flags=flags,
        super_name=OBJECT if flags & INTERFACE and draw.chance(80) else draw.one(above),
    )


def hierarchy(draw):
    paths = draw.some(CLASSES, 1 + draw.below(9))
    if draw.chance(25):
        paths[-1] = draw.one(["java/A", "sandbox/A"])
    percent, others = draw.one([0, 0, 15, 40]), draw.one([paths, ["H", "a/H", "h"]])
    names = {path: draw.one(others) if draw.chance(percent) else path for path in paths}
    return Drawn({"c/%s.class" % path: of_hierarchy(draw, names[path], draw.one(KINDS), paths) for path in paths}, ["check", "c"])


# Sets in which code names classes and members, of the set, of the library and of neither.

OTHERS = ["java/lang/String", "java/lang/StringBuilder", "java/lang/Math", "java/lang/Exception", "java/lang/CharSequence"]
ABSENT = ["x/Y", "java/lang/Thread", "java/util/List", "javax/a/B"]
MEMBERS = ["run", "length", "hashCode", "toString", "compareTo", "append", "abs", "f", "g", "<init>", "<clinit>"]
OF_METHODS = ["()V", "()I", "(I)I", "(I)V", "()Ljava/lang/String;", "(Ljava/lang/Object;)Z", "(LA;)V"]
OF_FIELDS = ["I", "J", "LA;", "[I"]
CAUGHT = ["A", "B", "java/lang/Exception", "x/Y", "java/lang/Throwable"]
NAMING_FIELDS = ["getstatic", "putstatic", "getfield", "putfield"]
NAMING_METHODS = ["invokevirtual", "invokespecial", "invokestatic", "invokeinterface"]
NAMING_CLASSES = ["new", "anewarray", "checkcast", "instanceof"]


def any_class_name(draw, names):
    """The name of a class of the set mostly, or of an array of it."""
    name = draw.one([*names * 2, *OTHERS, *ABSENT])
    return draw.one(["[L%s;", "[[L%s;"]) % name if draw.chance(12) else name


def named_by(draw, pool, names):
    """An instruction that names a class or a member."""
    op = draw.one(["ldc", *NAMING_FIELDS, *NAMING_METHODS, *NAMING_CLASSES])
    name = any_class_name(draw, names)
    if op == "ldc":
        return instruction("ldc %d" % pool.string("x"))
    if op in NAMING_CLASSES:
        return instruction("%s %d" % (op, pool.class_name(name)))
    is_field = op in NAMING_FIELDS
    descriptor = draw.one(OF_FIELDS if is_field else OF_METHODS)
    member = draw.one(MEMBERS[:9] if is_field else MEMBERS)
    if draw.chance(3):
        name, member, descriptor = ("java/lang/Class", "f", descriptor) if is_field else (name, "getClass", "()Ljava/lang/Class;")
    tag = FIELD if is_field else INTERFACE_METHOD if op == "invokeinterface" else METHOD
    return instruction("%s %d%s" % (op, pool.member(tag, name, member, descriptor), " 1 0" if op == "invokeinterface" else ""))


def use(draw, pool, number, names):
    """A method of instructions that name classes and members, and of handlers."""
    parts = [opcode("nop"), *(named_by(draw, pool, names) for _ in range(draw.below(8))), opcode("return")]
    starts = [len(b"".join(parts[:count])) for count in range(len(parts))]
    caught = [draw.one(CAUGHT) if draw.chance(95) else "java/lang/ThreadDeath" for _ in range(draw.below(3) if draw.chance(50) else 0)]
    rows = [(0, draw.one(starts[1:]), draw.one(starts), pool.class_name(name)) for name in caught]
    return ("use%d" % number, "()V", PUBLIC | STATIC, [code(b"".join(parts), 9, 9, rows)])


def plain_method(draw, name, is_interface, short):
    """An abstract method, or one that returns nothing, whether or not it should."""
    descriptor = draw.one(OF_METHODS) if draw.chance(50) else "(%s)V" % draw.one(OF_FIELDS)
    if is_interface or draw.chance(20):
        return (name, descriptor, PUBLIC | ABSTRACT)
    return (name, descriptor if short else descriptor.partition(")")[0] + ")V", PUBLIC | draw.one([0, STATIC]), [code(instructions("nop, return"), 9, 9)])


def user(draw, name, is_interface, names, most, short):
    """A class with so many methods of this kind at most; where it is `short`, others may lack their results."""
    pool, is_coded = Pool(), not is_interface or draw.chance(40)
    methods = [plain_method(draw, each, is_interface, short) for each in draw.some(MEMBERS[:7], draw.below(4))]
    methods += [use(draw, pool, number, names) for number in range(draw.below(most + 1) if is_coded else 0)]
    return class_file(
        name,
        methods,
        [(each, draw.one(OF_FIELDS), draw.below(8) | draw.one([0, STATIC])) for each in draw.some("fgh", draw.below(3))],
        draw.some(["java/lang/Runnable", "java/lang/Comparable"], draw.below(2)),
        flags=AN_INTERFACE if is_interface else draw.one([A_CLASS, A_CLASS | ABSTRACT]),
        pool=pool,
    )


def uses(draw):
    names = CLASSES[: 1 + draw.below(9)]
    most, short, percent = draw.below(4), draw.chance(60), draw.one([0, 30])
    made = {"c/%s.class" % name: user(draw, name, draw.chance(percent), names, most, short) for name in names}
    return Drawn(made, ["check", "c"])


# Straight sets for `verify`: the kinds in the local variables and on the operands are followed, and now and then not.

INT, ARRAY = "i", "a"

# Instructions, with what they take and what they give.
ON_TOP = [(name, INT * 2, INT) for name in "iadd isub imul iand ior ixor".split()] * 2
ON_TOP += [("pop", INT, ""), ("pop", ARRAY, ""), ("dup", INT, INT * 2), ("dup", ARRAY, ARRAY * 2), ("arraylength", ARRAY, INT)]
ON_TOP += [("newarray byte", INT, ARRAY), ("baload", ARRAY + INT, INT), ("bastore", ARRAY + INT * 2, "")]
OTHERS_OF_SLOTS = [("areturn", ARRAY, ""), ("aload 9", "", ARRAY), ("iload_0", "", INT), ("istore_0", INT, "")]


class Straight:
    """The text of a method as it is drawn. What a step takes is there, but where it is drawn without a thought of that."""

    def __init__(self, draw, slots):
        self.draw, self.text, self.stack, self.most = draw, [], "", 1
        self.slots = {0: ARRAY, **dict.fromkeys(range(1, slots), None)}

    def add(self, text, takes="", gives=""):
        self.text.append(text)
        self.stack = self.stack[: len(self.stack) - len(takes)] + gives
        self.most = max(self.most, len(self.stack))

    def number(self):
        constants = ["iconst_m1", *("iconst_%d" % number for number in range(6)), "bipush %d" % (self.draw.below(256) - 128)]
        self.add(self.draw.one(constants * 2 + ["sipush 255", "sipush -129", "sipush 1000", "sipush -32768"]), "", INT)

    def load(self):
        slot = self.draw.one([slot for slot, kind in self.slots.items() if kind])
        self.of_slot("load", slot, "", self.slots[slot])

    def store(self):
        slot = self.draw.one(list(self.slots))
        self.slots[slot] = self.stack[-1]
        self.of_slot("store", slot, self.stack[-1], "")

    def of_slot(self, word, slot, takes, gives):
        """The first four slots have instructions of their own."""
        self.add("%s%s%s%d" % (takes or gives, word, self.draw.one(" _") if slot < 4 else " ", slot), takes, gives)

    def array(self):
        self.add("bipush %d" % self.draw.below(64) if self.draw.chance(90) else "sipush %d" % self.draw.below(32768), "", INT)
        self.add("newarray byte", INT, ARRAY)

    def read(self):
        self.add("aload_0, iconst_%d" % self.draw.below(3), "", ARRAY + INT)
        self.add("baload", ARRAY + INT, INT)

    def large(self):
        self.add("sipush 32767, dup, imul", "", INT)
        self.add("newarray byte", INT, ARRAY)

    def null(self):
        self.add("aconst_null", "", ARRAY)

    def step(self, percent):
        """An instruction or a few; `percent` is how often it may not find what it takes."""
        draw = self.draw
        if draw.chance(percent):
            self.add(*draw.one(ON_TOP + OTHERS_OF_SLOTS))
        elif draw.chance(6):
            draw.one([self.array, self.read, self.large, self.null])()
        elif self.stack and draw.chance(20):
            self.store()
        elif self.stack and draw.chance(60):
            self.add(*draw.one([each for each in ON_TOP if self.stack.endswith(each[1])]))
        else:
            draw.one([self.number, self.load])()

    def end(self):
        one_byte = "iconst_1, newarray byte, dup, iconst_0, bipush %d, bastore, areturn" % self.draw.below(128)
        self.most = max(self.most, len(self.stack) + 4)
        self.text.append(self.draw.one(["aconst_null, areturn", "aload_0, areturn", one_byte]) if self.draw.chance(97) else "nop")


def straight_method(draw, name, percent):
    """A method of straight code, which has shape mostly."""
    slots = 1 + draw.below(9)
    drawn = Straight(draw, slots)
    for _ in range(draw.below(30)):
        drawn.step(percent)
    drawn.end()
    body = instructions(", ".join(drawn.text))
    return [name, "([B)[B", PUBLIC | STATIC | draw.one([0, 0, 32]), [code(body, drawn.most, slots)]]


# What else a class may have; the word is in the name of the case where this makes its set one that isn't straight.


def with_code(draw, parts, change):
    """Changes the body of the first method's code."""
    first = parts["methods"][0]
    first[3] = [("Code", change(first[3][0][1]))]


def with_opcode(draw, parts):
    name = draw.one(["lconst_0", "lload_1", "dstore_1", "swap", "idiv", "ineg", "ireturn", "return"])
    parts["methods"][0][3] = [code(instructions("aload_0, %s, areturn" % name), 4, 4)]
    return "opcode-%d" % OPCODES[name]


MORE = {
    "abstract": lambda draw, parts: parts["methods"].append(["h", "([B)[B", ABSTRACT, []]),
    "body": lambda draw, parts: with_code(draw, parts, lambda body: body[:-1] if draw.chance(50) else body + b"\0"),
    "field": lambda draw, parts: parts.update(fields=[("x", draw.one(OF_FIELDS), STATIC)]),
    "handler": lambda draw, parts: with_code(draw, parts, lambda body: body[:-4] + row(1, 0, 1, 0, 0) + row(0)),
    "initialiser": lambda draw, parts: parts["methods"].append(["<clinit>", "()V", STATIC, [code()]]),
    "interfaces": lambda draw, parts: parts.update(interfaces=["java/lang/Runnable"]),
    "opcode": with_opcode,
    "reserved-package": lambda draw, parts: parts.update(name=draw.one(["java/A", "sandbox/A"])),
    "superclass": lambda draw, parts: parts.update(super_name=draw.one(["x/Y", "java/lang/Exception", None])),
    "two-classes": lambda draw, parts: None,
    "version": lambda draw, parts: parts.update(major=draw.one([49, 53])),
    "native": lambda draw, parts: parts["methods"].append(["n", "()V", NATIVE, []]),
    "finalizer": lambda draw, parts: parts["methods"].append(["finalize", "()V", ABSTRACT, []]),
}


def straight(draw):
    name, percent = draw.one(["A", "A", "A", "a/B", "café", ""]), draw.one([0, 0, 0, 2, 6])
    methods = [straight_method(draw, each, percent) for each in ["verify", *draw.some(["f", "Verify"], draw.below(3))]]
    if draw.chance(10):
        methods = methods[1:]
    parts, more = dict(name=name or "A", methods=methods), ""
    if draw.chance(35) and methods:
        more = draw.one(list(MORE))
        more = MORE[more](draw, parts) or more
    path = "c/%s.class" % (parts["name"] if draw.chance(95) else "B")
    made = {path: class_file(parts.pop("name"), parts.pop("methods"), **parts)}
    if draw.chance(5):
        made[path], more = spoiled(draw, made[path]), more or "spoiled"
    if more == "two-classes":
        made["c/A$1.class"] = class_file("A$1")
    if draw.chance(5):
        made = {"c/note": b""}
    made["in"] = draw.bytes(8) if draw.chance(80) else bytes(draw.below(256) for _ in range(300))
    words = ["verify", "c", draw.one([path[2:-6], path[2:-6].replace("/", ".")]) if name else "", "in"]
    wrong = [words[:3], words[:1], words + ["--jump", "5"] * 2]
    return Drawn(made, draw.one(wrong) if draw.chance(4) else words, more)


# The names of cases, by their reports.


class Report:
    def __init__(self, text, status):
        self.lines, self.status = text.decode().splitlines(), status
        # Of each line the instruction's number, the rule's number and the rule's name.
        self.violations = [line.split(" ")[2:] for line in self.lines[1:]] if status == REJECTED else []


def rule_words(report):
    """The names of the rules that the report has."""
    names = {int(rule): name.lower().replace("_", "-") for _, rule, name in report.violations}
    return "-".join({4: "package"}.get(rule, names[rule]) for rule in sorted(names))


def name_of_check(drawn, report):
    # Where the words are wrong, the class files of all folders count.
    folder = "" if report.status == USAGE else drawn.words[1].rstrip("/") + "/"
    count = len([path for path in drawn.files if path.startswith(folder) and path.endswith(".class")])
    ending = {USAGE: "usage", 0: "accepted"}.get(report.status) or rule_words(report)
    return "check-%s-%s-%s" % (count or "no", "file" if count == 1 else "files", ending)


def name_of_fault(report):
    """Rule 19 is named with the instruction, and other rules once."""
    found = ["shape-at-" + number if rule == "19" else name.lower() for number, rule, name in report.violations]
    return "-".join(sorted(dict.fromkeys(found), key=lambda word: not word.startswith("shape")))


def name_of_end(report):
    """How a run ended: the class of an exception, or how many bytes were returned, and what was charged."""
    _, *parts = report.lines[0].split(" ")
    if report.status == EXCEPTION:
        return re.sub(r"(?<!^)([A-Z])", r"-\1", parts[0].rpartition("/")[2][: -len("Exception")]).lower()
    made = {"null": "ok-null", "0": "ok-no-bytes", "1": "ok-1-byte"}.get(parts[0], "ok-%s-bytes" % parts[0])
    charged = report.lines[1].split(" ")[2]
    return made if charged == "0" else made + "-alloc-" + charged


def name_of_verify(drawn, report):
    if report.status == REJECTED:
        return "verify-" + name_of_fault(report)
    ending = {USAGE: "usage", LATER: "later-" + drawn.more, THRESHOLD: "threshold"}.get(report.status)
    return "verify-" + (ending or name_of_end(report))


def name_of(drawn, report):
    return (name_of_check if "verify" not in drawn.words else name_of_verify)(drawn, report)


# The cases.

BY_KIND = {"files": files, "hierarchy": hierarchy, "uses": uses, "straight": straight}


def drawn_of(kind, seed):
    return BY_KIND[kind](Draw(kind, seed))


def make_all(target):
    """Makes the folder of each case in this folder."""
    found = {}
    for kind, seeds in SEEDS.items():
        for seed in map(int, seeds.split()):
            drawn = drawn_of(kind, seed)
            top = os.path.join(target, "%s %d" % (kind, seed))
            report = Report(*make_cases.make(target, os.path.basename(top), drawn.files, drawn.words, []))
            found.setdefault(name_of(drawn, report), []).append(top)
    for name, tops in found.items():
        for number, top in enumerate(tops):
            os.rename(top, os.path.join(target, name if len(tops) == 1 else "%s-%s" % (name, "abcdefghijklmnopqrstuvwxyz"[number])))


def main():
    shutil.rmtree(DRAWN, ignore_errors=True)
    make_all(DRAWN)
    print("%d cases" % len(os.listdir(DRAWN)))


if __name__ == "__main__":
    main()
