"""The cases rule-* of tests/written on the rules 1 to 16 of `djvm check`."""

from class_files import (
    A_CLASS,
    ABSTRACT,
    AN_INTERFACE,
    FIELD,
    FINAL,
    INTERFACE,
    METHOD,
    NATIVE,
    OBJECT,
    PRIVATE,
    PROTECTED,
    PUBLIC,
    RETURNS_ITS_ARGUMENT,
    STATIC,
    attribute,
    class_entry,
    class_file,
    code,
    invoke_dynamic,
    member_entry,
    method_handle,
    method_type,
    name_and_type,
    row,
    string,
    u1,
    u2,
)
from instructions import instructions, switch
from opcodes import BASES, opcode, opcodes_between
from shaped_code import Method
from written_base import above, caught, check, coded, float_entry, in_order, integer_entry, of_method, pool_of, uses, wide_entry

NOP, RETURN = opcode("nop"), opcode("return")

# 1 MALFORMED: code.


def with_code(name, body=RETURN, max_stack=1, max_locals=1, flags=PUBLIC | STATIC, inner=(), **more):
    return of_method(name, [code(body, max_stack, max_locals, **more)], *inner, flags=flags)


def with_body(name, body):
    """A file whose method has a Code attribute of these bytes."""
    return of_method(name, [("Code", body)])


plain = code(RETURN, 1, 1)[1]
elsewhere = pool_of("Code", "f", "I", "m", "()V", "ConstantValue", ("code-elsewhere",))
others = [("Exceptions", b"zz"), ("ConstantValue", b""), ("ConstantValue", b""), ("StackMapTable", b""), code(RETURN, 1, 1)]
CODE = {
    "abstract-code": dict(flags=PUBLIC | ABSTRACT),
    "both-code": dict(flags=PUBLIC | NATIVE | ABSTRACT),
    "code-0": dict(body=b""),
    "fine": {},
    "inner-long": dict(inner=["X"], listed=row(1, 3, 0, 3) + b"ab"),
    "inner-name-0": dict(inner=["X", class_entry(3)], listed=row(3) + attribute(0, b"ab") + attribute(65535, b"") + attribute(4, b"")),
    "native-code": dict(flags=PUBLIC | NATIVE),
    "one-map": dict(inner=["StackMapTable"], listed=row(1) + attribute(3, row(0))),
    "two-maps": dict(inner=["StackMapTable"], listed=row(2) + attribute(3, row(0)) * 2),
}
check(
    "rule-1-code",
    {
        **{name: with_code(name, **more) for name, more in CODE.items()},
        "abstract": of_method("abstract", [], flags=PUBLIC | ABSTRACT),
        "body-cut": with_body("body-cut", plain[:-1]),
        "body-trailing": with_body("body-trailing", plain + b"\0"),
        "clinit-abstract": of_method("clinit-abstract", [], flags=STATIC | ABSTRACT),
        "code-elsewhere": class_file(
            "code-elsewhere",
            [("m", "()V", PUBLIC | STATIC, [code(RETURN, 1, 1)])],
            [("f", "I", PUBLIC | STATIC, [("Code", b"x")])],
            listed=[("Code", b""), ("Code", b""), ("ConstantValue", b"")],
            pool=elsewhere,
        ),
        "code-longer": with_body("code-longer", plain[:7] + u1(9) + plain[8:]),
        "cut-class": with_code("cut-class")[:-1],
        "empty-body": with_body("empty-body", b""),
        "no-code": of_method("no-code", []),
        "other-attrs": of_method("other-attrs", others, "Exceptions", "ConstantValue", "StackMapTable"),
        "rows-cut": with_body("rows-cut", plain[:9] + row(2, 0, 0, 0, 0, 0)),
        "trailing": with_code("trailing") + b"\0",
        "two-codes": of_method("two-codes", [code(RETURN, 1, 1)] * 2),
    },
)

INSTRUCTIONS = {
    "dynamic-fourth": "invokedynamic 1 0 1, return",
    "dynamic-third": "invokedynamic 1 1 0, return",
    "interface-0": "invokeinterface 1 0 0, return",
    "interface-zero": "invokeinterface 1 1 1, return",
    "multi-0": "multianewarray 1 0, return",
    "newarray-11": "iconst_0, newarray 11, pop, return",
    "newarray-12": "iconst_0, newarray 12, pop, return",
    "newarray-3": "iconst_0, newarray 3, pop, return",
    "newarray-4": "iconst_0, newarray 4, pop, return",
    "op-202": "breakpoint, return",
    "target-end": "goto 3",
    "target-if": "iconst_0, ifeq 2, return",
    "target-jsr": "jsr 2, return",
    "target-middle": "goto 4, bipush 0, pop, return",
    "target-minus": "goto -1, return",
    "target-ok": "goto 3, bipush 0, pop, return",
    "target-past": "goto 127, return",
    "target-self": "goto 0",
    "target-w": "goto_w -1, return",
    "target-w-huge": "goto_w 2147483647, return",
    "wide-iinc": "wide iinc 0 1, return",
    "wide-ret": "wide ret 0, return",
}


def table(*numbers, padding=b"\0\0", end=RETURN):
    """iconst_0, then a tableswitch at 1."""
    return opcode("iconst_0") + switch("tableswitch", padding, *numbers) + end


def lookup(*numbers):
    """The same of a lookupswitch."""
    return opcode("iconst_0") + switch("lookupswitch", b"\0\0", *numbers) + RETURN


SWITCHES = {
    "lookup-empty": lookup(11, 0),
    "lookup-equal": lookup(27, 2, 7, 27, 7, 27),
    "lookup-falling": lookup(27, 2, 1, 27, -1, 27),
    "lookup-minus": lookup(11, -1),
    "lookup-rising": lookup(27, 2, -5, 27, -4, 27),
    "table": table(19, 0, 0, 19),
    "table-cut": table(19, 0, 1, 19, end=b""),
    "table-low-high": table(15, 1, 0),
    "table-padded": table(19, 0, 0, 19, padding=b"\x07\xff"),
    "table-wide-range": table(19, -(1 << 31), (1 << 31) - 1),
    "target-default": lookup(10, 0),
    "target-lookup": lookup(19, 1, 0, 20),
    "target-table": table(19, 0, 0, 18),
}
# Instructions that are cut, opcodes that no instruction has, and `wide` before what can't be wide.
NO_INSTRUCTIONS = {
    "cut-bipush": NOP + opcode("bipush"),
    "cut-goto": opcode("goto") + b"\0",
    "cut-wide": opcode("wide"),
    "op-203": u1(203),
    "op-254": u1(254),
    "op-255": u1(255),
    "wide-iload_0": opcode("wide") + opcode("iload_0") + row(0) + RETURN,
    "wide-nop": opcode("wide") + NOP + row(0) + RETURN,
    "wide-wide": opcode("wide") + instructions("wide iload 0, return"),
}
bodies = {name: instructions(text) for name, text in INSTRUCTIONS.items()} | SWITCHES | NO_INSTRUCTIONS
check("rule-1-instructions", {name: with_code(name, body, 2) for name, body in bodies.items()})

# The rows of handlers of `bipush 0, pop, return`, whose instructions are at 0, 2 and 3.
ROWS = {
    "row-back": [(3, 0, 0, 0)],
    "row-empty": [(2, 2, 0, 0)],
    "row-empty-end": [(4, 4, 0, 0)],
    "row-end-middle": [(0, 1, 0, 0)],
    "row-end-past": [(0, 5, 0, 0)],
    "row-handler-end": [(0, 4, 4, 0)],
    "row-handler-middle": [(0, 4, 1, 0)],
    "row-last": [(3, 4, 3, 0)],
    "row-middle": [(0, 2, 3, 0)],
    "row-past-16": [(0, 65535, 0, 0)],
    "row-second": [(0, 4, 0, 0), (0, 0, 0, 0)],
    "row-start-middle": [(1, 4, 0, 0)],
    "row-two": [(0, 4, 0, 0), (0, 4, 0, 0)],
    "row-whole": [(0, 4, 0, 0)],
}
check("rule-1-rows", {name: with_code(name, instructions("bipush 0, pop, return"), handlers=rows) for name, rows in ROWS.items()})
check("rule-1-length", {name: with_code(name, NOP * (length - 1) + RETURN, 0, 0) for name, length in (("big", 65535), ("past", 65536))})

finalizer = [("finalize", "()V", PUBLIC | NATIVE, [code(RETURN, 1, 1)])]
finalizer = in_order("A", float_entry(), "Code", "finalize", "()V", methods=finalizer, super_name="x/Y", major=49)
check("rule-1-alone", {"A": finalizer, "B": coded("B", Method("m", "new A, pop, return"), super_name="A")})

# 1 MALFORMED: values of fields. The value is the last of the constants that are given.


def with_values(name, descriptor, listed, *before, flags=PUBLIC | STATIC):
    pool = pool_of(*before, "ConstantValue", "f", descriptor, (name,))
    return class_file(name, fields=[("f", descriptor, flags, listed)], pool=pool)


def value(index):
    return ("ConstantValue", u2(index))


INT = integer_entry(300)
VALUES = {"int": (1, INT), "long": (1, wide_entry(5, 1)), "float": (1, float_entry()), "double": (1, wide_entry(6)), "string": (2, "s", string(1))}
ODD = {"class": (2, ("A",)), "field": (6, ("A",), "x", "I", name_and_type(3, 4), member_entry(FIELD, 2, 5)), "hole": (2, wide_entry(5, 1))}
ODD |= {"past": (999,), "utf8": (1, "x"), "zero": (0,)}
STRING = "Ljava/lang/String;"
OF_FIELDS = {"B-a": "[B", "I-a": "[I", **{letter: letter for letter in "BCDFIJSZ"}, "String": "LString;", "java-lang-Object": "Ljava/lang/Object;"}
OF_FIELDS |= {"java-lang-String": STRING, "java-lang-String-a": "[" + STRING}
files = {}
for title, descriptor in OF_FIELDS.items():
    for kind, (index, *before) in (VALUES | (ODD if descriptor in ("I", STRING) else {})).items():
        name = "cv-%s-%s" % (title, kind)
        files[name] = with_values(name, descriptor, [value(index)], *before)
check(
    "rule-1-constants",
    {
        **files,
        "instance": with_values("instance", "I", [value(1)], INT, flags=PUBLIC),
        "instance-unfit": with_values("instance-unfit", "I", [value(2)], "s", string(1), flags=PUBLIC),
        "length-0": with_values("length-0", "I", [("ConstantValue", b"")]),
        "length-1": with_values("length-1", "I", [("ConstantValue", b"\0")]),
        "length-3": with_values("length-3", "I", [("ConstantValue", b"\0\1\0")], INT),
        "length-4": with_values("length-4", "I", [("ConstantValue", b"\0\0\0\1")], INT),
        "two-other": with_values("two-other", "I", [("X", b""), ("X", b""), value(2)], "X", INT),
        "two-values": with_values("two-values", "I", [value(1), value(1)], INT),
    },
)

# 2 VERSION, 3 NAME, 4 SANDBOX_PACKAGE, 5 DUPLICATE.

VERSIONS = [(0, 0), (49, 0), (50, 9), (51, 65535), (52, 1), (53, 0), (65535, 65535)]
check("rule-2", {"v%d" % major: class_file("v%d" % major, major=major, minor=minor) for major, minor in VERSIONS})
NAMES = {"A": "A", "a": "A3", "€": "\u20ad", "b/A": "A2", "é/𐐷": "é/𐐷"}
check("rule-3", {path: class_file(name) for path, name in NAMES.items()})
PACKAGES = ["java", "sandbox", "Sandbox/A", "a/java/B", "a/sandbox/B", "djvm/Accounter", "djvm/Stop", "jav/a", "java/A", "java/lang/Foo"]
PACKAGES += ["javafx/A", "javax/A", "javaz/A", "sandbox/A", "sandbox/sandbox/B", "sandboxx/A"]
check("rule-4", {name: class_file(name) for name in PACKAGES})
check(
    "rule-5",
    {
        **{path: class_file(path[-1]) for path in ("A", "B", "E", "b/A")},
        "c": coded("B", fields=[("x", "I", PUBLIC)]),
        "d": class_file("B"),
        "e": RETURNS_ITS_ARGUMENT[:50],
        "f": class_file("E", major=49),
    },
)

# 6 HIERARCHY. A class is given by its superclass, `.` for Object and `0` for none, and its interfaces.


def below(flags, **parents):
    files = {}
    for name, text in parents.items():
        above, *interfaces = text.split()
        files[name] = class_file(name, interfaces=interfaces, flags=flags, super_name={".": OBJECT, "0": None}.get(above, above))
    return files


check(
    "rule-6-cycles",
    {
        **below(A_CLASS, A="B", Above="A", B="A", Fine=". K L", M="N", N=". M", OfIA=". IA", Self="Self", X="Y", Y="Z", Z="X"),
        **below(AN_INTERFACE, IA=". IB", IB=". IC", IC=". IA", IS=". IS", K=". L", L="."),
    },
)
twice = {"b": class_file("B", flags=A_CLASS | FINAL), "i": class_file("I"), "q": class_file("Q", super_name="R")}
check("rule-6-duplicates", {**below(A_CLASS, A="B", B=".", D=". I", E="I", Q=".", R="Q"), **below(AN_INTERFACE, I="."), **twice})
OF_LIBRARY = "java/lang/Runnable java/io/Serializable java/lang/Comparable java/lang/CharSequence"
check(
    "rule-6-interfaces",
    {
        **below(A_CLASS, A=". I J " + OF_LIBRARY, Missing=". I x/Y", OfClass=". A", OfIterable=". java/lang/Iterable"),
        **below(A_CLASS, OfObject=". java/lang/Object", OfString=". java/lang/String", Twice=". I I"),
        **below(AN_INTERFACE, I=".", J=". I java/lang/Cloneable", JofClass=". A"),
    },
)
in_library = {"java/lang/Foo": class_file("java/lang/Foo"), OBJECT: class_file(OBJECT, super_name="A", flags=AN_INTERFACE)}
check("rule-6-library-name", {**below(A_CLASS, A=".", B="java/lang/Throwable"), **in_library})
check(
    "rule-6-super",
    {
        **below(A_CLASS, Above="Missing", Missing="x/Y", Object0="0", OfAbstract="Abstract", OfFinal="Final", OfFlagOnly="IfaceFlagOnly"),
        **below(A_CLASS, OfInterface="I", OfBuilder="java/lang/StringBuilder", OfMath="java/lang/Math", OfString="java/lang/String"),
        **below(A_CLASS, OfNpe="java/lang/NullPointerException", OfRunnable="java/lang/Runnable", OfSystem="java/lang/System"),
        **below(A_CLASS, OfThread="java/lang/Thread", OfThrowable="java/lang/Throwable"),
        **below(AN_INTERFACE, I=".", IofA="Abstract", IofI="I", IofObject=". I", IofThrowable="java/lang/Throwable", iface0="0"),
        **below(A_CLASS | ABSTRACT, Abstract="."),
        **below(A_CLASS | FINAL, Final="."),
        **below(A_CLASS | FINAL | ABSTRACT, FinalAbstract="."),
        **below(INTERFACE, IfaceFlagOnly="."),
    },
)
check(
    "rule-6-twice",
    {
        "F": coded("F", fields=[("x", "I", PUBLIC | STATIC), ("x", "I", PUBLIC)]),
        "G": coded("G", Method("x", "return"), fields=[("x", "I", PUBLIC | STATIC), ("x", "J", PUBLIC | STATIC), ("y", "I", PUBLIC | STATIC)]),
        "H": coded("H", ("m", "()V", PUBLIC | ABSTRACT), Method("m", "return")),
        "K": coded("K", Method("m", "return"), Method("m(I)V", "return"), Method("m()I", "iconst_0, ireturn")),
    },
)

# 7 NATIVE, 8 FINALIZER.

check(
    "rule-7-8",
    {
        "A": coded(
            "A",
            ("n", "()V", PUBLIC | NATIVE),
            ("n", "(I)I", PUBLIC | STATIC | NATIVE),
            ("a", "()V", PUBLIC | NATIVE | ABSTRACT),
            ("abs", "()V", PUBLIC | ABSTRACT),
            Method("finalize", "return", flags=PROTECTED, locals=1),
            Method("finalize()I", "iconst_0, ireturn"),
            Method("finalize(I)V", "return"),
            flags=A_CLASS | ABSTRACT,
        ),
        "B": coded("B", ("finalize", "()V", PUBLIC | NATIVE)),
        "I": coded("I", ("finalize", "()V", PUBLIC | ABSTRACT), ("n", "()V", PUBLIC | NATIVE), ("<clinit>", "()V", STATIC | NATIVE), flags=AN_INTERFACE),
    },
)

# 9 DYNAMIC.

BEFORE = ["m", "()V", name_and_type(3, 4), invoke_dynamic(0, 5), "Code", "dyn", "getClass", "()Ljava/lang/Class;", name_and_type(9, 10)]
BEFORE += [invoke_dynamic(7, 11), "dyn-getClass", member_entry(METHOD, 2, 5), method_handle(6, 14), "ldc-handle", method_type(4), "ldc-type"]
BEFORE += ["ldc_w-handle", "ldc_w-type", ("x/Y",), "dyn-wrong", "dyn-past"]
DYNAMIC = {
    "dyn": "invokedynamic 6 0 0, return",
    "dyn-getClass": "invokedynamic 12 0 0, pop, return",
    "ldc-handle": "ldc 15, pop, return",
    "ldc-type": "ldc 17, pop, return",
    "ldc_w-handle": "ldc_w 15, pop, return",
    "ldc_w-type": "nop, ldc_w 17, pop, return",
    "dyn-wrong": "invokedynamic 22 0 0, return",
    "dyn-past": "invokedynamic 999 0 0, return",
}
methods = [(name, "()V", PUBLIC | STATIC, [code(instructions(text), 9, 9)]) for name, text in DYNAMIC.items()]
UNUSED = [("A",), "m", "()V", name_and_type(5, 6), member_entry(METHOD, 4, 7), method_handle(6, 8), method_type(6), invoke_dynamic(0, 7)]
unused = in_order("B", *UNUSED, "Code", "unused", methods=[("unused", "()V", PUBLIC | STATIC, [code(RETURN, 9, 9)])])
check("rule-9", {"A": in_order("A", *BEFORE, methods=methods), "B": unused})

# 10 REFLECTION.

check(
    "rule-10",
    {
        "A": coded(
            "A",
            Method("ldc", "ldc class:A, pop, ldc_w class:[I, pop, ldc class:x/Y, pop, ldc string:java/lang/Class, pop, return"),
            uses(
                "cls",
                "checkcast java/lang/Class", "instanceof [Ljava/lang/Class;", "anewarray java/lang/Class", "new java/lang/Class",
                "invokevirtual java/lang/Class getName ()Ljava/lang/String;",
            ),
            uses(
                "loader",
                "invokestatic java/lang/ClassLoader getSystemClassLoader ()Ljava/lang/ClassLoader;",
                "getstatic java/lang/ClassLoader x I", "checkcast java/lang/ClassLoaders",
            ),
            uses(
                "pkg",
                "checkcast java/lang/reflect/Method", "checkcast java/lang/reflect", "checkcast java/lang/reflection/X",
                "checkcast java/lang/invoke/MethodHandle", "checkcast [[Ljava/lang/invoke/a/b;", "checkcast java/lang/invoker",
            ),
            uses(
                "get",
                "invokevirtual java/lang/Object getClass ()Ljava/lang/Class;", "invokevirtual A getClass ()Ljava/lang/Class;",
                "invokestatic x/Y getClass ()Ljava/lang/Class;", "invokeinterface I getClass ()Ljava/lang/Class;",
            ),
            uses("near", "invokevirtual A getClass ()V", "invokestatic A getclass ()Ljava/lang/Class;"),
            Method("getClass", "return", flags=PUBLIC),
            Method("getclass()Ljava/lang/Class;", "aconst_null, areturn"),
            caught("hnd", "java/lang/Class", "java/lang/reflect/X"),
        ),
        "I": class_file("I", flags=AN_INTERFACE),
    },
)

BEFORE = ["getClass", "Ljava/lang/Class;", name_and_type(3, 4), member_entry(FIELD, 2, 5), "Code", "field", "()V", ("java/lang/Class",)]
BEFORE += ["class-entry", string(10), "string", "B", class_entry(15), "()Ljava/lang/Class;", name_and_type(3, 17), member_entry(METHOD, 16, 18)]
FIELD_OF_CLASS = {
    "field": "getstatic 6, pop, return",
    "class-entry": "aconst_null, getfield 11, pop, return",
    "string": "ldc 13, pop, return",
    "member-entry": "new 19, pop, return",
}
methods = [(name, "()V", PUBLIC | STATIC, [code(instructions(text), 9, 9)]) for name, text in FIELD_OF_CLASS.items()]
check("rule-10-field", {"A": in_order("A", *BEFORE, "member-entry", methods=methods)})

# 11 CATCH.

check(
    "rule-11",
    {
        "A": coded(
            "A",
            caught("h0", "java/lang/ThreadDeath"),
            caught("h1", "java/lang/VirtualMachineError"),
            caught("h2", "java/lang/StackOverflowError"),
            caught("h3", "java/lang/OutOfMemoryError"),
            caught(
                "many",
                "java/lang/ThreadDeath",
                "java/lang/VirtualMachineError",
                "java/lang/StackOverflowError",
                "java/lang/OutOfMemoryError",
                "java/lang/ThreadDeath",
                "java/lang/VirtualMachineError",
                "java/lang/StackOverflowError",
                "java/lang/OutOfMemoryError",
            ),
            caught("near", "java/lang/Throwable", "java/lang/Error", None, "A"),
            caught("others", "java/lang/InternalError"),
            caught("array", "[Ljava/lang/ThreadDeath;"),
            caught("package", "ThreadDeath"),
            Method(
                "two",
                "A: nop, B: return, C: {stack ref:java/lang/Throwable} pop, return, D: {stack ref:java/lang/Throwable} pop, return",
                "A B D java/lang/ThreadDeath,A B C java/lang/ThreadDeath,A B A",
            ),
        ),
    },
)


def with_first(name, text, body, **more):
    """A class whose first constant is the class of this name."""
    pool = pool_of(class_entry(2), text, (name,), "Code", "m", "()V")
    return class_file(name, [("m", "()V", PUBLIC | STATIC, [code(instructions(body), 9, 9, **more)])], pool=pool)


handler = dict(handlers=[(0, 1, 2, 1)])
check(
    "rule-11-first-entry",
    {
        "A": with_first("A", "java/lang/ThreadDeath", "nop, return, pop, return", **handler),
        "B": with_first("B", "java/lang/Thread", "nop, return, pop, return", **handler),
        "C": with_first("C", "x/Y", "new 1, pop, return"),
        "D": with_first("D", "java/lang/Class", "aconst_null, checkcast 1, pop, ldc 1, pop, return"),
        "E": with_first("E", "[F", "return"),
        "F": with_first("F", "E", "new 1, pop, return", handlers=[(0, 3, 4, 1)]),
    },
)

# 12 FLOAT.

FLOATS = {
    "cls-d": [("[[[D",)],
    "cls-f": [("[F",)],
    "double": [wide_entry(6)],
    "float": [float_entry()],
    "mtype": ["(D)V", method_type(3)],
    **{"nt-" + name: ["x", text, name_and_type(3, 4)] for name, text in {"d": "[[D", "f": "F", "m": "(IF)V", "ma": "([F)V", "r": "()D"}.items()},
    "ok-names": [("F",), ("D",), ("[LF;",), "[D", "(F)D", string(10), "LF;", name_and_type(3, 12), "(LD;[La/F;)LFD;", name_and_type(5, 14)],
}
FLOATS["ok-names"] += ["(LF;)V", method_type(16)]
check("rule-12-class", {name: in_order(name, *before) for name, before in FLOATS.items()})



def every_instruction():
    """All instructions of one byte up to dcmpg, loads and stores with a slot, wide and not, and then those with constants."""
    loads, stores = (", ".join("%s%s 0, wide %s%s 0" % (kind, name, kind, name) for kind in "ilfda") for name in ("load", "store"))
    body = opcodes_between("nop", "dconst_1") + instructions(loads) + opcodes_between("iload_0", "saload")
    body += instructions(stores) + opcodes_between("istore_0", "lxor") + opcodes_between("i2l", "dcmpg") + opcodes_between("ireturn", "return")
    body += instructions(", ".join("newarray " + base for base in BASES))
    return body + instructions("ldc 3, ldc_w 3, ldc2_w 4, ldc 6, ldc_w 6, ldc2_w 7, ldc2_w 3, ldc 4, return")


BEFORE = [float_entry(), wide_entry(6), integer_entry(), wide_entry(5), "Code", "m", "()V"]
check("rule-12-instructions", {"A": in_order("A", *BEFORE, methods=[("m", "()V", PUBLIC | STATIC, [code(every_instruction(), 9, 9)])])})
check(
    "rule-12-member",
    {
        "A": coded(
            "A",
            ("p", "(F)V", PUBLIC | ABSTRACT),
            ("q", "(I[DLD;)V", PUBLIC | ABSTRACT),
            ("r", "()F", PUBLIC | ABSTRACT),
            ("s", "()[D", PUBLIC | ABSTRACT),
            ("t", "(LF;LD;)LFloat;", PUBLIC | ABSTRACT),
            Method("map1", "goto A, A: {append float} return"),
            Method("map2", "goto A, A: {full int double /} return"),
            Method("map3", "goto A, A: {full / float} return"),
            Method("map4", "goto A, A: {stack double} return"),
            Method("map5", "goto A, A: {append top int long} return"),
            flags=A_CLASS | ABSTRACT,
            fields=[(name, text, PUBLIC | STATIC) for name, text in (("f", "F"), ("d", "D"), ("fa", "[[F"), ("ok", "LF;"), ("ok", "I"))],
        ),
    },
)
check(
    "rule-12-multi-float",
    {
        "A": coded("A", Method("multi", "multianewarray [[F 2, return")),
    },
)

# 13 SUBROUTINE, 14 BREAKPOINT, 15 MULTI_ARRAY.

BEFORE = ["sub", "()V", "Code", "brk", "multi", ("[I",), ("[[Lx/Y;",), ("[Ljava/lang/Thread;",)]
THREE = {
    "sub": ("jsr 0, jsr_w -3, ret 0, wide ret 300, return, goto -15, goto_w -18", 301),
    "brk": ("nop, breakpoint, return, breakpoint, breakpoint", 9),
    "multi": ("iconst_1, multianewarray 11 1, pop, multianewarray 13 2, multianewarray 15 1, anewarray 11, return", 9),
}
methods = [(name, "()V", PUBLIC | STATIC, [code(instructions(text), 9, slots)]) for name, (text, slots) in THREE.items()]
wrong = in_order("B", "x", "Code", "wrong", "()V", methods=[("wrong", "()V", PUBLIC | STATIC, [code(instructions("multianewarray 3 1, return"), 9, 9)])])
check("rule-13-14-15", {"A": above("A", *BEFORE, methods=methods), "B": wrong})

# 16 INTERFACE_CODE.

check(
    "rule-16",
    {
        "A": coded("A", Method("m", "return"), flags=A_CLASS | ABSTRACT),
        "I": coded(
            "I",
            Method("m", "return", flags=PUBLIC),
            Method("s", "return"),
            Method("p", "return", flags=PRIVATE),
            Method("<init>", "return", flags=PUBLIC),
            Method("<clinit>", "return", flags=STATIC),
            Method("<clinit>(I)V", "return", flags=PUBLIC),
            ("a", "()V", PUBLIC | ABSTRACT),
            ("n", "()V", PUBLIC | NATIVE),
            flags=AN_INTERFACE,
        ),
        "J": coded("J", Method("m", "return"), flags=INTERFACE),
        "K": coded("K", Method("m", "return", flags=PUBLIC), flags=AN_INTERFACE, major=51),
    },
)
