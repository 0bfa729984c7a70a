"""The cases of tests/written on `djvm verify`, on words and on folders."""

from class_files import (
    ABSTRACT,
    INTERFACE,
    NATIVE,
    OBJECT,
    PUBLIC,
    RETURNS_ITS_ARGUMENT,
    STATIC,
    attribute,
    class_entry,
    class_file,
    code,
    name_and_type,
    native,
    row,
    u1,
)
from instructions import instructions
from opcodes import opcode
from written_base import add_every, case, check, float_entry, integer_entry, pool_of

DATA = b"\x0a\x0b"
DESCRIPTOR = "([B)[B"
RETURNS = instructions("aload_0, areturn")
one = RETURNS_ITS_ARGUMENT

# Words and folders.

for name, words in {
    "usage-none": [],
    "usage-option": ["check", "--jump"],
    "usage-three": ["check", "c", "c"],
    "check-absent-folder": ["check", "d"],
    "check-folder-is-file": ["check", "c/A.class"],
    "check-trailing-slash": ["check", "c/"],
}.items():
    case(name, {"c/A.class": one}, words)
for length in 0, 3, 4, 9, 13, 64, 104:
    check("check-cut-%d" % length, {"A": one[:length]})
natives = class_file("B", [native("n"), ("finalize", "()V", PUBLIC, [code()])], pool=pool_of("n", "()V", "Code", "finalize"))
check("check-cut-native-finalize", {"A": one[:-1], "B": natives})

# A run of one class, whose constants begin with those of its method.


def of_verify(body=RETURNS, max_stack=1, flags=PUBLIC | STATIC, name="verify", descriptor=DESCRIPTOR, **more):
    return (name, descriptor, flags, [code(body, max_stack, **more)])


def method_first(*method):
    return class_file("A", [method], pool=pool_of("Code", "verify", DESCRIPTOR))


def run(name, text, entry="A", path="in", data=DATA, max_stack=1):
    case("verify-" + name, {"c/A.class": method_first(*of_verify(instructions(text), max_stack)), "in": data}, ["verify", "c", entry, path])


run("absent-input", "aload_0, areturn", path="nothing")
run("charges-add-up", "sipush 32767, newarray byte, pop, " * 3 + "iconst_1, newarray byte, areturn")
run("identity", "aload_0, areturn")
run("index", "aload_0, iconst_5, baload, pop, aload_0, areturn", data=b"", max_stack=2)
run("negative-size", "iconst_m1, newarray byte, areturn")
run("null", "aconst_null, areturn")
run("other-entry", "aload_0, areturn", entry="B")
run("shape", "areturn")
case("verify-goto-later", {"c/A.class": method_first(*of_verify(instructions("goto 0"))), "in": DATA}, ["verify", "c", "A", "in"])
case("verify-no-classes", {"c/.keep": b"", "in": b""}, ["verify", "c", "A", "in"])

# What is straight and what isn't. The constants begin with the class.


def verify(name, data, entry="A", path="A", more=()):
    files = {"c/%s.class" % path: data, "in": DATA, **{"c/%s.class" % other: each for other, each in dict(more).items()}}
    case("class-file-verify-" + name, files, ["verify", "c", entry, "in"])


def ordered(*before, inner=(), behind=(), name="A", descriptor=DESCRIPTOR):
    """A pool that begins with constants, the class, and what the method's attributes, its name and its descriptor are."""
    return pool_of(*before, (name,), *inner, "Code", "verify", descriptor, *behind)


def a_class(*methods, pool=None, name="A", **more):
    return class_file(name, methods or [of_verify()], pool=pool or ordered(), **more)


def later(name, *methods, **more):
    verify("later-" + name, a_class(*methods, **more))


def later_code(name, body, max_stack=1):
    later(name, of_verify(body, max_stack))


listed = row(3) + attribute(3, row(1, 0, 7)) + attribute(0, b"zz") + attribute(2, b"")
verify("attributes", a_class(of_verify(listed=listed), pool=ordered(inner=["LineNumberTable"])))
verify("entry-other", a_class(), entry="B.c")
verify("float-pool", a_class(pool=ordered(float_entry(), "x", "D", name_and_type(2, 3), ("[F",))))
later("abstract", of_verify(flags=PUBLIC | STATIC | ABSTRACT))
verify("later-before-entry", a_class(of_verify(opcode("return"))), entry="B")
later("clinit", of_verify(), of_verify(name="<clinit>"), pool=ordered(behind=["<clinit>"]))
trailing = (*of_verify()[:3], [("Code", code(RETURNS, 1)[1] + b"\0")])
verify("later-code-trailing", method_first(*trailing))
later_code("cut-operand", instructions("aload_0") + opcode("bipush"))
later("desc", of_verify(descriptor="([C)[B"), pool=ordered(descriptor="([C)[B"))
later_code("empty-code", b"")
later("field", fields=[("x", "I", PUBLIC | STATIC)], pool=pool_of("x", "I", "Code", "verify", DESCRIPTOR, ("A",)))
later_code("getstatic", instructions("getstatic 1") + RETURNS)
later_code("goto", instructions("goto 0"))
later("iface", interfaces=["I"], pool=ordered(behind=[(OBJECT,), ("I",)]))
later("instance", of_verify(flags=PUBLIC))
later("interface", flags=PUBLIC | INTERFACE | ABSTRACT)
later_code("lconst", instructions("lconst_0, pop2") + RETURNS, 2)
later("ldc", of_verify(instructions("ldc 1, pop") + RETURNS, 2), pool=ordered(integer_entry(7)))
later("map", of_verify(listed=row(1) + attribute(3, row(0))), pool=ordered(inner=["StackMapTable"]))
later_code("newarray-int", instructions("iconst_1, newarray int, areturn"))
later("no-code", ("verify", DESCRIPTOR, PUBLIC | STATIC))
verify("later-package", a_class(name="java/A", pool=ordered(name="java/A")), entry="java.A", path="java/A")
later_code("reserved", u1(255) + RETURNS)
later_code("return", opcode("return"))
later("row", of_verify(handlers=[(0, 1, 0, 0)]))
later("same-name", of_verify(), of_verify())
later("super-0", super_name=None)
later("super-other", super_name="B")
later("super-string", super_name="java/lang/String")
later_code("swap", instructions("aload_0, aload_0, swap, pop, areturn"), 2)
verify("later-two", a_class(), more={"B": class_file("B")})
later("two-codes", (*of_verify()[:3], of_verify()[3] * 2))
later_code("wide", instructions("wide aload 0, areturn"))
verify("malformed", a_class(pool=ordered(class_entry(9999))))
verify("malformed-two", a_class(), more={"B": one[:4]})
beside = ("verify", DESCRIPTOR, PUBLIC | STATIC, [("StackMapTable", b"zz"), code(RETURNS, 1), ("Exceptions", b"\0\0")])
pool = pool_of(("A",), "StackMapTable", "Code", "Exceptions", "verify", DESCRIPTOR)
verify("map-beside-code", class_file("A", [beside], pool=pool, listed=[("StackMapTable", b""), ("Code", b"")]))
case("class-file-verify-none", {"c/.keep": b"", "in": DATA}, ["verify", "c", "A", "in"])
ruled = [of_verify(opcode("return")), ("finalize", "()V", PUBLIC | NATIVE)]
verify("rules-first", class_file("B", ruled, pool=ordered(name="B", behind=["finalize", "()V"]), major=49))

SHAPES = [("g", "aload_0, areturn", {}), ("h", "aload_0, areturn", dict(max_stack=0)), ("k", "aload_0, areturn", dict(max_locals=0))]
SHAPES += [("l", "aload_0, nop", {}), ("m", "nop, iconst_0, pop, iconst_0, areturn", {})]
shapes = [of_verify(instructions(text), name=name, **more) for name, text, more in SHAPES]
verify("shape-and-entry", class_file("A", shapes, pool=pool_of(("A",), "Code", "g", DESCRIPTOR, "h", "k", "l", "m")))

# Constants of each tag, which the code doesn't name.


def whole(name, body, max_stack=1, max_locals=1):
    pool = pool_of()
    add_every(pool)
    pool.class_name("A")
    for text in "Code", "verify", DESCRIPTOR:
        pool.text(text)
    verify(name, class_file("A", [of_verify(body, max_stack, max_locals=max_locals)], pool=pool))


whole("whole-pool", RETURNS)
whole("index", instructions("aload_0, iconst_2, baload, pop, aload_0, areturn"), 2)
whole("null", instructions("aconst_null, arraylength, pop, aload_0, areturn"))
whole("store", instructions("iconst_3, newarray byte, dup, iconst_0, bipush -128, bastore, dup, iconst_1, sipush 383, bastore, areturn"), 4)
behind = ordered()
add_every(behind)
verify("whole-pool-behind", class_file("A", [of_verify()], pool=behind))
