"""The cases of `djvm check FOLDER` on the rules that are asked of whole files and of sets of them, 1 to 8, in tests/cases;
make_cases.py makes their folders. code_rule_cases.py has those of the other rules.

Each case says by hand which lines its report has, and make_cases.py asks that reference.py gives just these. A line is written
`PATH RULE`, `PATH MEMBER RULE` or `PATH MEMBER NUMBER RULE`, without `.class` and the rule's name. Files that are
malformed are named for what is wrong with them.
"""

from class_files import (
    A_CLASS,
    ABSTRACT,
    AN_INTERFACE,
    DOUBLE,
    FINAL,
    FLOAT,
    INTEGER,
    INTERFACE,
    LONG,
    NATIVE,
    PROTECTED,
    PUBLIC,
    STATIC,
    Pool,
    class_entry,
    class_file,
    code,
    native,
    parts,
    row,
    string,
    text_entry,
    u1,
    u2,
    u4,
)
from instructions import instructions, switch
from opcodes import BASES, numbers, opcode

# The instructions of most methods here.
NOP, NULL, ZERO, POP, RETURN = map(opcode, ("nop", "aconst_null", "iconst_0", "pop", "return"))

found = {}


def case(name, files, *lines):
    name = "rule-" + name
    assert name not in found
    found[name] = ({"c/%s.class" % path: data for path, data in files.items()}, lines)


def refused(name, bad, good=()):
    """A case of files that are malformed, and of others that violate nothing."""
    case(name, {**bad, **dict(good)}, *("%s 1" % path for path in bad))


def method(name, *body, flags=PUBLIC | STATIC, descriptor="()V", max_stack=9, max_locals=9, **more):
    """A method with this code."""
    return (name, descriptor, flags, [code(b"".join(body), max_stack, max_locals, **more)])


def of_code(*body, **more):
    """A class A with a method of this code."""
    return class_file("A", [method("m", *body, **more)])


# 1 MALFORMED: code where there must be some, and where there must be none.

NO_CODE = []

refused(
    "01-code-missing",
    {
        "none": class_file("A", [("m", "()V", PUBLIC, NO_CODE)]),
        "none-of-synchronized": class_file("A", [("m", "()V", 0xFAFF, NO_CODE)]),
        "other-case": class_file("A", [("m", "()V", PUBLIC, [("code", code()[1])])]),
        "more-letters": class_file("A", [("m", "()V", PUBLIC, [("Codes", code()[1])])]),
        "two": class_file("A", [("m", "()V", PUBLIC, [code(), code()])]),
        "two-and-one-between": class_file("A", [("m", "()V", PUBLIC, [code(), ("Other", b""), code()])]),
        "abstract": class_file("A", [("m", "()V", ABSTRACT, [code()])]),
        "native": class_file("A", [("m", "()V", NATIVE, [code()])]),
        "native-and-abstract": class_file("A", [("m", "()V", NATIVE | ABSTRACT, [code()])]),
        "abstract-with-bad-code": class_file("A", [("m", "()V", ABSTRACT, [("Code", b"")])]),
        "initialiser": class_file("A", [("<clinit>", "()V", STATIC, NO_CODE)]),
        "of-interface": class_file("A", [("m", "()V", PUBLIC, NO_CODE)], flags=AN_INTERFACE),
        "second-method": class_file("A", [method("m", RETURN), ("n", "()V", PUBLIC, NO_CODE)]),
    },
)
case(
    "01-code-elsewhere",
    {
        # A Code attribute counts on a method alone, and what an abstract or a native method has besides isn't asked.
        "A": class_file("A", fields=[("f", "I", PUBLIC, [("Code", b""), ("Code", b"\1")])], listed=[("Code", b"")]),
        "B": class_file("B", [("m", "()V", ABSTRACT, [("code", b""), ("Codex", b"")]), native("n")], flags=A_CLASS | ABSTRACT),
        "C": class_file("C", [("m", "()V", PUBLIC | STATIC, [("StackMapTable", b"\1"), code(), ("StackMapTable", b"")])]),
    },
    "B n()V 7",
)

body = code(RETURN, handlers=[(0, 1, 0, 0)], listed=row(1, 0, 0, 2) + b"\0\0")[1]
refused(
    "01-code-body",
    {"cut-%02d" % length: class_file("A", [("m", "()V", PUBLIC, [("Code", body[:length])])]) for length in range(len(body))}
    | {"a-byte-more": class_file("A", [("m", "()V", PUBLIC, [("Code", body + b"\0")])])},
    # The name of an attribute within the code is no text here, and nothing asks what that is.
    {"A": class_file("A", [("m", "()V", PUBLIC | STATIC, [("Code", body)])])},
)
refused(
    "01-code-length",
    {"of-0": of_code(), "of-65536": of_code(NOP * 65535, RETURN)},
    {"A": of_code(NOP * 65534, RETURN)},
)

# 1 MALFORMED: instructions.

refused(
    "01-opcodes-reserved",
    {"op-%d" % op: of_code(u1(op), NOP * 8, RETURN) for op in (203, 204, 210, 254, 255)} | {"behind-return": of_code(RETURN, u1(203))},
)
# What is there behind each opcode; the switches stand at 3, where they have no padding.
CUT = {"bipush": b"", "sipush": b"\0", "ldc": b"", "ldc_w": b"\0", "iload": b"", "iinc": b"\0", "goto": b"\0", "getstatic": b"\0"}
CUT |= {"invokeinterface": b"\0\1\1", "invokedynamic": b"\0\1\0", "newarray": b"", "wide": b""}
CUT |= {"wide-iload": opcode("iload") + b"\0", "wide-iinc": opcode("iinc") + bytes(3)}
CUT |= {"multianewarray": b"\0\1", "goto_w": bytes(3), "ifnull": b"\0", "tableswitch": b"", "tableswitch-padding": bytes(2)}
CUT |= {"tableswitch-default": bytes(3), "tableswitch-low": bytes(7), "tableswitch-high": bytes(11)}
CUT |= {"tableswitch-table": row(0, 0, 0, 0, 0, 1) + bytes(7), "lookupswitch-default": bytes(3)}
CUT |= {"lookupswitch-pairs": bytes(7), "lookupswitch-table": row(0, 0, 0, 1) + bytes(7)}
refused("01-instructions-cut", {name: of_code(NOP * 3, opcode(name.split("-")[0]), rest) for name, rest in CUT.items()})

NOT_WIDE = numbers("nop ldc2_w iload_0 saload istore_0 lxor i2l jsr tableswitch wide breakpoint") + [203, 255]
refused(
    "01-wide",
    {"op-%d" % op: of_code(opcode("wide"), u1(op), NOP * 9, RETURN) for op in NOT_WIDE}
    | {"op-132-of-one-byte": of_code(opcode("wide"), opcode("iinc"), b"\0\0\1"), "op-21-of-one-byte": of_code(opcode("wide"), opcode("iload"), b"\1")},
    {"A": of_code(instructions("wide iload 1, wide lload 1, wide aload 1, wide istore 1, wide lstore 1, wide astore 1, wide iinc 1 1, return"))},
)
refused(
    "01-newarray",
    {"type-%d" % base: of_code(ZERO, opcode("newarray"), u1(base), POP, RETURN) for base in (0, 1, 2, 3, 12, 13, 128, 255)},
    {"A": of_code(*(instructions("iconst_0, newarray %s, pop" % name) for name in BASES if name not in ("float", "double")), RETURN)},
)
refused(
    "01-operands",
    {
        "invokeinterface-count-0": of_code(opcode("invokeinterface"), row(1), b"\0\0", RETURN),
        "invokeinterface-fourth": of_code(opcode("invokeinterface"), row(1), b"\1\1", RETURN),
        "invokedynamic-third": of_code(opcode("invokedynamic"), row(1), b"\1\0", RETURN),
        "invokedynamic-fourth": of_code(opcode("invokedynamic"), row(1), b"\0\1", RETURN),
        "multianewarray-0": of_code(opcode("multianewarray"), row(1), b"\0", RETURN),
        "behind-a-return": of_code(RETURN, opcode("multianewarray"), row(1), b"\0"),
    },
)


def table(low, high, *targets, padding=b"\0"):
    """nop, iconst_0, then a switch at 2 whose default and targets are given from 2 on."""
    return NOP + ZERO + switch("tableswitch", padding, targets[0], low, high, *targets[1:])


def pairs(*matches, default=None, count=None):
    """nop, iconst_0, then a lookupswitch at 2, all of whose targets are right after it."""
    length = 10 + 8 * len(matches)
    heads = length if default is None else default, len(matches) if count is None else count
    return NOP + ZERO + switch("lookupswitch", b"\0", *heads, *(number for match in matches for number in (match, length)))


def with_switches(*switches):
    """A class A with a method for each switch."""
    return class_file("A", [method("m%d" % number, switch, RETURN) for number, switch in enumerate(switches)])


refused(
    "01-tableswitch",
    {
        "low-above-high": of_code(table(1, 0, 14), RETURN),
        "low-above-high-by-sign": of_code(table(0, -1, 14), RETURN),
        "most-of-all": of_code(table(-(1 << 31), (1 << 31) - 1, 14), RETURN),
        "one-target-less": of_code(table(3, 5, 22, 22, 22), RETURN),
        "default-within": of_code(table(3, 3, 1, 18), RETURN),
        "target-within": of_code(table(3, 3, 18, 4), RETURN),
        "target-past": of_code(table(3, 3, 18, 19), RETURN),
        "target-before": of_code(table(3, 3, 18, -3), RETURN),
    },
    {"A": with_switches(table(3, 3, 18, 18), table(-1, 1, 26, 26, 26, 26), table(5, 5, 18, 18, padding=b"\xff"))},
)
refused(
    "01-lookupswitch",
    {
        "count-negative": of_code(pairs(count=-1), RETURN),
        "matches-equal": of_code(pairs(4, 4), RETURN),
        "matches-fall": of_code(pairs(5, 4), RETURN),
        "matches-fall-by-sign": of_code(pairs(1, -1), RETURN),
        "third-match-falls": of_code(pairs(1, 3, 2), RETURN),
        "one-pair-less": of_code(pairs(1, count=2), RETURN),
        "default-within": of_code(pairs(1, default=2), RETURN),
    },
    {"A": with_switches(pairs(), pairs(7), pairs(-(1 << 31), -1, 0, (1 << 31) - 1))},
)


TARGETS = {
    "goto-within-itself": "goto 1, return",
    "goto-within-another": "goto 4, sipush 0, pop, return",
    "goto-the-end": "goto 3",
    "goto-past-the-end": "goto 4, return",
    "goto-before-the-start": "goto -1, return",
    "ifeq-within": "iconst_0, ifeq 2, return",
    "if_icmpeq-within": "iconst_0, iconst_0, if_icmpeq 1, return",
    "if_acmpne-before": "aconst_null, aconst_null, if_acmpne -3, return",
    "ifnull-past": "aconst_null, ifnull 5, return",
    "ifnonnull-within": "aconst_null, ifnonnull 1, return",
    "jsr-within": "jsr 1, return",
    "goto_w-within": "goto_w 4, return",
    "goto_w-far": "goto_w 65536, return",
    "jsr_w-within": "jsr_w 2, return",
    "never-reached": "return, goto 1",
}
refused("01-targets", {name: of_code(instructions(text)) for name, text in TARGETS.items()})
HANDLER = instructions("nop, sipush 0, pop, return, pop, return")  # at 0, 1, 4, 5, 6, 7; the length is 8
refused(
    "01-handlers",
    {
        "start-within": of_code(HANDLER, handlers=[(2, 5, 6, 0)]),
        "start-past": of_code(HANDLER, handlers=[(9, 10, 6, 0)]),
        "start-at-the-end": of_code(HANDLER, handlers=[(8, 8, 6, 0)]),
        "end-within": of_code(HANDLER, handlers=[(0, 3, 6, 0)]),
        "end-past": of_code(HANDLER, handlers=[(0, 9, 6, 0)]),
        "empty": of_code(HANDLER, handlers=[(1, 1, 6, 0)]),
        "backwards": of_code(HANDLER, handlers=[(4, 1, 6, 0)]),
        "handler-within": of_code(HANDLER, handlers=[(0, 5, 3, 0)]),
        "handler-at-the-end": of_code(HANDLER, handlers=[(0, 5, 8, 0)]),
        "handler-past": of_code(HANDLER, handlers=[(0, 5, 65535, 0)]),
        "second-row": of_code(HANDLER, handlers=[(0, 5, 6, 0), (0, 2, 6, 0)]),
    },
    {"A": of_code(HANDLER, handlers=[(0, 8, 6, 0), (0, 5, 6, 65535), (6, 7, 0, 0), (0, 5, 6, 0)])},
)


def with_maps(*names):
    """A class A whose code has an attribute of each of these names, with an empty stack map."""
    pool = Pool()
    indexes = [pool.text(name) if isinstance(name, str) else name for name in names]
    listed = u2(len(names)) + b"".join(u2(index) + u4(2) + row(0) for index in indexes)
    return class_file("A", [method("m", RETURN, listed=listed)], pool=pool)


two_texts = Pool()
two_texts.add(text_entry(b"StackMapTable"))
two_texts.add(text_entry(b"StackMapTable"))
refused(
    "01-two-stack-maps",
    {
        "two": with_maps("StackMapTable", "StackMapTable"),
        "two-and-one-between": with_maps("StackMapTable", "LineNumberTable", "StackMapTable"),
        "two-of-two-texts": class_file("A", [method("m", RETURN, listed=row(2, 1, 0, 2, 0, 2, 0, 2, 0))], pool=two_texts),
    },
    {"A": with_maps("StackMapTable", "StackMap", "LocalVariableTable", "LocalVariableTable", 0, 65535, "StackMapTables")},
)

# 1 MALFORMED: constants of fields.


def with_value(descriptor, *bodies, entry=INTEGER, flags=PUBLIC | STATIC | FINAL, name="A"):
    """A class whose pool begins with this entry, with a field that has a ConstantValue of each of these bodies."""
    pool = Pool()
    pool.add(entry)
    return class_file(name, fields=[("f", descriptor, flags, [("ConstantValue", body) for body in bodies])], pool=pool)


refused(
    "01-constant-lengths",
    {
        "two": with_value("I", u2(1), u2(1)),
        "of-0": with_value("I", b""),
        "of-1": with_value("I", b"\1"),
        "of-3": with_value("I", b"\0\1\0"),
        "of-3-to-the-same-index": with_value("I", b"\0\0\1"),
        "of-4": with_value("I", u4(1)),
        "of-a-field-that-is-not-static": with_value("I", b"", flags=0),
    },
    {
        "A": with_value("I", u2(1)),
        "B": with_value("S", u2(1), flags=0, name="B"),
        # It counts on a field alone.
        "C": class_file("C", [("m", "()V", PUBLIC | STATIC, [("ConstantValue", b""), code()])], listed=[("ConstantValue", b"\1")]),
    },
)

TYPES = ("B", "C", "I", "S", "Z", "J", "F", "D", "Ljava/lang/String;", "Ljava/lang/Object;", "[I", "[Ljava/lang/String;", "LString;")


def with_constants(*fields, name="A"):
    """A class with a field for each descriptor and the index of its constant. Entry 1 is an int, 2 and 4 a long and a double, 6 a
    float, 7 a string, 8 and 9 the text and the class of A."""
    pool = Pool()
    for entry in (INTEGER, LONG, DOUBLE, FLOAT, string(8), text_entry(b"A"), class_entry(8)):
        pool.add(entry)
    made = [("f%d" % number, text, PUBLIC | STATIC, [("ConstantValue", u2(index))]) for number, (text, index) in enumerate(fields)]
    return class_file(name, fields=made, pool=pool)


PLACES = {"int": 1, "long": 2, "double": 4, "float": 6, "string": 7, "text": 8, "class": 9, "zero": 0, "hole": 3, "past": 999}
FITTING = {"int": ("B", "C", "I", "S", "Z"), "long": ("J",), "float": ("F",), "double": ("D",), "string": ("Ljava/lang/String;",)}
case(
    "01-constants-fit",
    {"A": with_constants(*((text, PLACES[kind]) for kind, texts in FITTING.items() for text in texts))},
    "A 12",
    "A f6F 12",
    "A f7D 12",
)
refused(
    "01-constants-do-not-fit",
    {
        "%s-of-%s" % (kind, text.strip(";").replace("[", "array-").replace("/", ".")): with_constants(("I", 1), (text, index))
        for kind, index in PLACES.items()
        for text in (TYPES if kind in FITTING else ("I", "Ljava/lang/String;"))
        if text not in FITTING.get(kind, ())
    },
)

# A file with rule 1 has no other line, and its class is in no set.

all_wrong = dict(major=49, fields=[("f", "F"), ("f", "F")], methods=[native("n"), native("n"), ("m", "()V", 0)])
case(
    "01-silences-all",
    {
        "A": class_file("java/A", super_name=None, **all_wrong),
        "B": class_file("B", [("m", "()V", PUBLIC)]),
        "C": class_file("C", super_name="B"),
        "D": class_file("D", interfaces=["I"]),
        "E": class_file("E"),
        "I": class_file("I", [("m", "()V", PUBLIC)], flags=AN_INTERFACE),
        "b": class_file("B"),
        "e": class_file("E", [("m", "()V", PUBLIC)]),
    },
    "A 1",
    "B 1",
    "D 6",
    "I 1",
    "b 3",
    "e 1",
)

# 4 SANDBOX_PACKAGE.

NAMES = ("sandbox/A", "sandbox/java/A", "java/A", "java/lang/Integer", "javax/a/B", "java/lang/Object")
NEAR = ("sandbox", "java", "javax", "javas/A", "Java/A", "a/java/A", "a/sandbox/B", "sandboxes/A", "javaxx/B", "jav/A", "san/dbox")
case(
    "04-packages",
    {name: class_file(name) for name in (*NAMES, *NEAR)},
    *("%s 4" % name for name in NAMES),
    "java/lang/Object 6",
)
case("04-by-the-name-not-the-path", {"java/A": class_file("A"), "A": class_file("java/A")}, "A 3", "A 4", "java/A 3")

# 5 DUPLICATE.

case(
    "05-several-files",
    {
        "A": class_file("A"),
        "B": class_file("B"),
        "a/A": class_file("A"),
        "b": class_file("A", fields=[("f", "I")]),
        "a/B": class_file("a/B"),
    },
    "A 5",
    "a/A 3",
    "a/A 5",
    "b 3",
    "b 5",
)
case("05-equal-bytes", {path: class_file("A") for path in ("A", "B", "C/A")}, "A 5", "B 3", "B 5", "C/A 3", "C/A 5")
case(
    "05-of-other-letters",
    {"A": class_file("A"), "a": class_file("a"), "A\u0301": class_file("A\u0301"), "\u00c1": class_file("\u00c1"), "A ": class_file("A ")},
)
case("05-a-library-class-is-no-file", {"java/lang/String": class_file("java/lang/String")}, "java/lang/String 4")

# 6 HIERARCHY: the superclass.

LIBRARY_OPEN = "Object Throwable Exception Error RuntimeException ArithmeticException ArrayStoreException ClassCastException"
LIBRARY_OPEN += " IllegalArgumentException IllegalStateException IndexOutOfBoundsException NegativeArraySizeException NullPointerException"
LIBRARY_OPEN += " UnsupportedOperationException ArrayIndexOutOfBoundsException StringIndexOutOfBoundsException"
LIBRARY_FINAL = "String StringBuilder Math System"
LIBRARY_INTERFACES = ("java/lang/Comparable", "java/lang/CharSequence", "java/lang/Runnable", "java/lang/Cloneable", "java/io/Serializable")
NO_LIBRARY = ("java/lang/Integer", "java/lang/Enum", "java/lang/Iterable", "java/util/ArrayList", "java/lang/StackOverflowError", "java/Object")


def below(*names):
    """A class below each of these, by the number of its place, from A0 on."""
    return {"A%d" % number: class_file("A%d" % number, super_name=name) for number, name in enumerate(names)}


def listing(*names, **more):
    """A class for each of these that lists it as an interface."""
    return {"A%d" % number: class_file("A%d" % number, interfaces=[name], **more) for number, name in enumerate(names)}


def numbered(count, rule=6):
    return ["A%d %d" % (number, rule) for number in range(count)]


case(
    "06-no-superclass",
    {
        "A": class_file("A", super_name=None),
        "I": class_file("I", super_name=None, flags=AN_INTERFACE),
        "B": class_file("B", super_name="A"),
    },
    "A 6",
    "I 6",
)
case("06-super-of-the-library", below(*("java/lang/" + name for name in LIBRARY_OPEN.split())))
case("06-super-final-of-the-library", below(*("java/lang/" + name for name in LIBRARY_FINAL.split())), *numbered(4))
case("06-super-interface-of-the-library", below(*LIBRARY_INTERFACES), *numbered(5))
case("06-super-absent", below("B", "a/A0", "Object", "java/lang", *NO_LIBRARY), *numbered(10))
case(
    "06-super-of-the-set",
    {
        "Open": class_file("Open"),
        "Final": class_file("Final", flags=A_CLASS | FINAL),
        "Face": class_file("Face", flags=AN_INTERFACE),
        "Abstract": class_file("Abstract", flags=A_CLASS | ABSTRACT),
        **below("Open", "Final", "Face", "Abstract", "A0", "A1"),
    },
    "A1 6",
    "A2 6",
)
case(
    "06-super-malformed",
    {"A": class_file("A", super_name="B"), "B": class_file("B", [("m", "()V", PUBLIC)]), "C": class_file("C", super_name="A")},
    "A 6",
    "B 1",
)
case(
    "06-super-of-another-fault",
    {
        "A": class_file("A", super_name="B"),
        "B": class_file("B", major=53, super_name="C"),
        "C": class_file("C", [native("n")], super_name=None),
        "d": class_file("D"),
        "E": class_file("E", super_name="D"),
    },
    "B 2",
    "C 6",
    "C n()V 7",
    "d 3",
)
case(
    "06-super-of-an-interface",
    {
        "I": class_file("I", flags=AN_INTERFACE, super_name="B"),
        "J": class_file("J", flags=AN_INTERFACE, super_name="java/lang/Throwable"),
        "K": class_file("K", flags=AN_INTERFACE, super_name="java/lang/Runnable"),
        "L": class_file("L", flags=INTERFACE),
        "B": class_file("B"),
    },
    "I 6",
    "J 6",
    "K 6",
)

# 6 HIERARCHY: interfaces.

case("06-interfaces-of-the-library", listing(*LIBRARY_INTERFACES))
case(
    "06-interfaces-that-are-none",
    listing("java/lang/Object", "java/lang/String", "java/lang/Throwable", "B", "java/lang/Iterable", "java/util/List", "java/lang/runnable")
    | {"B": class_file("B")},
    *numbered(7),
)
case("06-interfaces-of-interfaces-that-are-none", listing("java/lang/Object", "A0", flags=AN_INTERFACE), "A0 6")
case(
    "06-interfaces-of-the-set",
    {
        "A": class_file("A", interfaces=["I", "J", "I", "java/lang/Runnable", "java/lang/Runnable"]),
        "I": class_file("I", flags=AN_INTERFACE, interfaces=["J", "K"]),
        "J": class_file("J", flags=AN_INTERFACE, interfaces=["K", "java/lang/Comparable"]),
        "K": class_file("K", flags=0xFFFF),
        "B": class_file("B", interfaces=["I", "A"]),
    },
    "B 6",
)

# 6 HIERARCHY: a class that is its own ancestor.

case("06-cycle-of-one", {"A": class_file("A", super_name="A"), "I": class_file("I", flags=AN_INTERFACE, interfaces=["I"])}, "A 6", "I 6")
case(
    "06-cycle-of-superclasses",
    {
        "A": class_file("A", super_name="B"),
        "B": class_file("B", super_name="C"),
        "C": class_file("C", super_name="A"),
        # Those that only stand below a cycle.
        "D": class_file("D", super_name="A"),
        "E": class_file("E", super_name="D"),
    },
    "A 6",
    "B 6",
    "C 6",
)
case(
    "06-cycle-of-interfaces",
    {
        "I": class_file("I", flags=AN_INTERFACE, interfaces=["java/lang/Runnable", "J"]),
        "J": class_file("J", flags=AN_INTERFACE, interfaces=["L", "K"]),
        "K": class_file("K", flags=AN_INTERFACE, interfaces=["I"]),
        "L": class_file("L", flags=AN_INTERFACE),
        "M": class_file("M", flags=AN_INTERFACE, interfaces=["I", "L"]),
        "A": class_file("A", interfaces=["M", "J"]),
    },
    "I 6",
    "J 6",
    "K 6",
)
case(
    "06-cycle-of-both",
    {
        "A": class_file("A", super_name="B"),
        "B": class_file("B", interfaces=["I"]),
        "I": class_file("I", flags=AN_INTERFACE, interfaces=["A"]),
        "C": class_file("C", interfaces=["I"]),
    },
    "A 6",
    "B 6",
    "I 6",
)
chain = {"A%d" % number: class_file("A%d" % number, super_name="A%d" % ((number + 1) % 60)) for number in range(60)}
case("06-cycle-of-60", chain | {"B": class_file("B", super_name="A7")}, *numbered(60))
case("06-chain-of-60", chain | {"A59": class_file("A59")})

# 6 HIERARCHY: names of several classes. Each file keeps its own superclass and interfaces.

case(
    "06-names-of-several",
    {
        "A": class_file("A", super_name="B"),
        "B": class_file("B"),
        "b": class_file("B", flags=A_CLASS | FINAL),
        "C": class_file("C", interfaces=["I"]),
        "I": class_file("I"),
        "i": class_file("I", flags=AN_INTERFACE),
        "D": class_file("D", super_name="J"),
        "J": class_file("J"),
        "j": class_file("J"),
    },
    "A 6",
    "B 5",
    "C 6",
    "I 5",
    "J 5",
    "b 3",
    "b 5",
    "i 3",
    "i 5",
    "j 3",
    "j 5",
)
case(
    "06-cycle-through-names-of-several",
    {
        "A": class_file("A", super_name="B"),
        "B": class_file("B"),
        "b": class_file("B", super_name="A"),
        "C": class_file("C", super_name="B"),
    },
    "A 6",
    "B 5",
    "b 3",
    "b 5",
    "b 6",
)
case(
    "06-names-of-the-library",
    {
        "A": class_file("A", interfaces=["java/lang/Runnable"]),
        "B": class_file("B", interfaces=["java/lang/Comparable"]),
        "C": class_file("C", super_name="java/lang/Exception"),
        "java/lang/Runnable": class_file("java/lang/Runnable"),
        "java/lang/Exception": class_file("java/lang/Exception", flags=A_CLASS | FINAL),
    },
    "A 6",
    "C 6",
    "java/lang/Exception 4",
    "java/lang/Runnable 4",
)

# 6 HIERARCHY: two members of one name and descriptor.

M = method("m", RETURN)
case(
    "06-members-twice",
    {
        "A": class_file("A", fields=[("f", "I"), ("g", "I"), ("f", "I")]),
        "B": class_file("B", [M, method("n", RETURN), M]),
        "C": class_file("C", [M, ("m", "()V", ABSTRACT), M]),
        "D": class_file("D", [("<init>", "()V", PUBLIC, [code()])] * 2),
        "E": class_file("E", fields=[("f", "I", 0), ("f", "I", STATIC)], flags=AN_INTERFACE),
    },
    "A 6",
    "B 6",
    "C 6",
    "D 6",
    "E 6",
)
case(
    "06-members-nearly-twice",
    {
        "A": class_file("A", fields=[("f", "I"), ("f", "J"), ("F", "I"), ("f", "[I")], methods=[("f", "()I"), ("f", "()J"), ("f", "(I)I")]),
        # A field and a method of one name, and two members whose names and descriptors join to one text.
        "B": class_file("B", [native("f", "()LA(I)LB;"), native("f()LA", "(I)LB;")], [("m", "I"), ("m", "LI;")]),
    },
    "B f()LA(I)LB; 7",
)
case("06-members-twice-by-two-texts", {"A": parts(fields=row(2, 8, 5, 6, 0, 8, 10, 6, 0), more=[text_entry(b"f")])}, "A 6")

# 7 NATIVE and 8 FINALIZER beside the others.

case(
    "07-08-beside-others",
    {
        "A": class_file("A", [native("n"), ("finalize", "()V", PROTECTED, [code()]), ("finalize", "(I)V", PROTECTED, [code()])], super_name="B"),
        "B": class_file("B", [native("finalize"), native("n", "(F)V")], flags=A_CLASS | FINAL),
    },
    "A 6",
    "A finalize()V 8",
    "A n()V 7",
    "B finalize()V 7",
    "B finalize()V 8",
    "B n(F)V 7",
    "B n(F)V 12",
)
