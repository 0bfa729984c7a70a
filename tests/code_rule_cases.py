"""The cases of `djvm check FOLDER` on the rules that are asked of constants, members and code, 9 to 16, in tests/cases;
make_cases.py makes their folders. rule_cases.py says how they are written, and has the other rules.

A method that a rule doesn't refuse is named `near` and so on.
"""

from class_files import (
    A_CLASS,
    ABSTRACT,
    AN_INTERFACE,
    DOUBLE,
    FIELD,
    FINAL,
    FLOAT,
    INTEGER,
    INTERFACE_METHOD,
    LONG,
    METHOD,
    PRIVATE,
    PUBLIC,
    STATIC,
    Pool,
    attribute,
    class_file,
    code,
    invoke_dynamic,
    method_handle,
    method_type,
    native,
    row,
    u1,
    u2,
)
from instructions import LENGTHS, instructions
from opcodes import BASES, OPCODES, numbers, opcode
from rule_cases import NOP, NULL, POP, RETURN, ZERO, case, method
from shaped_code import Frames, Method

GETSTATIC, PUTSTATIC, GETFIELD, PUTFIELD = numbers("getstatic putstatic getfield putfield")
INVOKEVIRTUAL, INVOKESPECIAL, INVOKESTATIC = numbers("invokevirtual invokespecial invokestatic")
INVOKEINTERFACE, INVOKEDYNAMIC = numbers("invokeinterface invokedynamic")
NEW, ANEWARRAY, CHECKCAST, INSTANCEOF, MULTIANEWARRAY = numbers("new anewarray checkcast instanceof multianewarray")
LDC, LDC_W, LDC2_W = numbers("ldc ldc_w ldc2_w")
BREAKPOINT = opcode("breakpoint")


def names(op, index, *more):
    """An instruction with the index of a constant."""
    if op == LDC:
        return bytes([LDC, index])
    return u1(op) + u2(index) + bytes(more)


def casts(pool, *texts):
    """For each text aconst_null, checkcast of the class with this text, and pop: the instructions 3 * n + 1 cast."""
    return b"".join(NULL + names(CHECKCAST, pool.class_name(text)) + POP for text in texts)


def one(name, pool, *methods, **more):
    return {name: class_file(name, methods, pool=pool, **more)}


# 9 DYNAMIC.

pool = Pool()
call = pool.add(invoke_dynamic(0, pool.name_and_type("call", "()V")))
handle = pool.add(method_handle(6, pool.member(METHOD, "A", "near", "()V")))
type_index = pool.add(method_type(pool.text("()V")))
text = pool.string("x")
case(
    "09-dynamic",
    one(
        "A",
        pool,
        method("call", NOP, names(INVOKEDYNAMIC, call, 0, 0), NOP, names(INVOKEDYNAMIC, call, 0, 0), RETURN),
        method("handle", names(LDC, handle), POP, names(LDC_W, handle), POP, RETURN),
        method("type", names(LDC, type_index), POP, names(LDC_W, type_index), POP, RETURN),
        method("near", names(LDC, text), POP, names(LDC_W, text), POP, RETURN),
    ),
    "A call()V 1 9",
    "A call()V 3 9",
    "A handle()V 0 9",
    "A handle()V 2 9",
    "A type()V 0 9",
    "A type()V 2 9",
)
pool = Pool()
for number in range(3):
    pool.add(invoke_dynamic(number, pool.name_and_type("call", "()V")))
pool.add(method_handle(6, pool.member(METHOD, "A", "m", "()V")))
pool.add(method_type(pool.text("()V")))
case("09-only-in-the-pool", one("A", pool, method("m", RETURN)))
# Whatever constant invokedynamic names, or none.
case(
    "09-any-constant",
    one("A", Pool(), *(method("m%d" % index, names(INVOKEDYNAMIC, index, 0, 0), RETURN) for index in (0, 1, 2, 999))),
    *("A m%d()V 0 9" % index for index in (0, 1, 2, 999)),
)

# 10 REFLECTION.

pool = Pool()
some_class, array, of_class, text = (pool.class_name("A"), pool.class_name("[I"), pool.class_name("java/lang/Class"), pool.string("java/lang/Class"))
case(
    "10-class-constants",
    one(
        "A",
        pool,
        method("ldc", names(LDC, some_class), POP, names(LDC, array), POP, names(LDC, of_class), POP, RETURN),
        method("ldc_w", names(LDC_W, some_class), POP, names(LDC_W, array), POP, RETURN),
        method("near", names(LDC, text), POP, RETURN),
    ),
    *("A ldc()V %d 10" % number for number in (0, 2, 4)),
    *("A ldc_w()V %d 10" % number for number in (0, 2)),
)
REFLECTIVE = ("java/lang/Class", "java/lang/ClassLoader", "java/lang/reflect/Method", "java/lang/reflect/a/B", "java/lang/invoke/MethodHandle")
NEARLY = ("A", "Class", "java/lang/Classes", "java/lang/ClassLoaders", "java/lang/reflect", "java/lang/reflection/B", "java/lang/invoke")
NEARLY += ("java/lang/invokes/A", "java/lang/class", "x/java/lang/Class", "java/lang/Class/A", "java/Class")
pool = Pool()
case(
    "10-classes",
    one(
        "A",
        pool,
        method("all", casts(pool, *REFLECTIVE), RETURN),
        method("arrays", casts(pool, *("[L%s;" % text for text in REFLECTIVE), "[[[[L%s;" % REFLECTIVE[0]), RETURN),
        method("near", casts(pool, *NEARLY, *("[L%s;" % text for text in NEARLY), "[I", "[[J"), RETURN),
    ),
    *("A all()V %d 10" % (3 * place + 1) for place in range(5)),
    *("A arrays()V %d 10" % (3 * place + 1) for place in range(6)),
    # Of the others A alone is there; all but the second and the tenth begin with java/.
    *("A near()V %d %d" % (3 * place + 1, 18 if place % 12 in (1, 9) else 17) for place in range(24) if place % 12 != 0),
)
pool = Pool()
of_class = pool.class_name("java/lang/Class")
members = [pool.member(tag, "java/lang/ClassLoader", "m", text) for tag, text in ((FIELD, "I"), (METHOD, "()V"), (INTERFACE_METHOD, "()V"))]
case(
    "10-instructions",
    one(
        "A",
        pool,
        method("new", names(NEW, of_class), POP, RETURN),
        method("anewarray", ZERO, names(ANEWARRAY, of_class), POP, RETURN),
        method("instanceof", NULL, names(INSTANCEOF, of_class), POP, RETURN),
        method("get", names(GETSTATIC, members[0]), POP, NULL, names(GETFIELD, members[0]), POP, RETURN),
        method("put", ZERO, names(PUTSTATIC, members[0]), NULL, ZERO, names(PUTFIELD, members[0]), RETURN),
        method("call", names(INVOKESTATIC, members[1]), NULL, names(INVOKEVIRTUAL, members[1]), NULL, names(INVOKESPECIAL, members[1]), RETURN),
        method("face", NULL, names(INVOKEINTERFACE, members[2], 1, 0), RETURN),
        # Descriptors name classes too, and nobody uses them as such.
        method("near", NULL, POP, RETURN, descriptor="(Ljava/lang/Class;)V"),
    ),
    "A new()V 0 10",
    "A anewarray()V 1 10",
    "A instanceof()V 1 10",
    "A get()V 0 10",
    "A get()V 3 10",
    "A put()V 1 10",
    "A put()V 4 10",
    "A call()V 0 10",
    "A call()V 2 10",
    "A call()V 4 10",
    "A face()V 1 10",
)
GET_CLASS = ("getClass", "()Ljava/lang/Class;")
pool = Pool()
getters = [pool.member(METHOD, text, *GET_CLASS) for text in ("java/lang/Object", "A", "x/Y", "[I")]
getters.append(pool.member(INTERFACE_METHOD, "I", *GET_CLASS))
near = [pool.member(METHOD, "A", *texts) for texts in (("getClass", "()V"), ("getclass", GET_CLASS[1]), ("getClass", "(I)Ljava/lang/Class;"))]
near.append(pool.member(FIELD, "A", "getClass", "Ljava/lang/Class;"))
case(
    "10-get-class",
    {
        **one(
            "A",
            pool,
            *(method("m%d" % place, NULL, names(INVOKEVIRTUAL, index), POP, RETURN) for place, index in enumerate(getters)),
            method("static", names(INVOKESTATIC, getters[1]), POP, RETURN),
            method("near0", NULL, names(INVOKEVIRTUAL, near[0]), RETURN),
            method("near1", NULL, names(INVOKEVIRTUAL, near[1]), POP, RETURN),
            method("near2", NULL, ZERO, names(INVOKEVIRTUAL, near[2]), POP, RETURN),
            method("near3", names(GETSTATIC, near[3]), POP, RETURN),
        ),
        # One that declares it violates nothing.
        "B": class_file("B", [method("getClass", instructions("aconst_null, areturn"), descriptor=GET_CLASS[1])]),
    },
    *("A m%d()V 1 10" % place for place in range(5)),
    "A static()V 0 10",
    # A has no such members.
    "A near0()V 1 18",
    "A near1()V 1 18",
    "A near2()V 2 18",
    "A near3()V 0 18",
)
pool = Pool()
of_class, getter = pool.class_name("java/lang/Class"), pool.member(METHOD, "A", *GET_CLASS)
text = pool.text("java/lang/Class")
case(
    "10-any-constant",
    # The class and the member are those of the constant, whatever the instruction asks of it. A text alone names no class.
    one(
        "A",
        pool,
        method("getfield", NULL, names(GETFIELD, of_class), POP, RETURN),
        method("ldc2_w", names(LDC2_W, of_class), POP, RETURN),
        method("new", names(NEW, getter), POP, RETURN),
        method("ldc", names(LDC, getter), POP, RETURN),
        method("near", names(NEW, text), POP, names(LDC, text), POP, RETURN),
        # invokedynamic has the class of its constant, and no member.
        method("dynamic", names(INVOKEDYNAMIC, getter, 0, 0), names(INVOKEDYNAMIC, of_class, 0, 0), RETURN),
    ),
    "A dynamic()V 0 9",
    "A dynamic()V 1 9",
    "A dynamic()V 1 10",
    "A getfield()V 1 10",
    "A ldc2_w()V 0 10",
    "A new()V 0 10",
    "A ldc()V 0 10",
    "A near()V 0 18",
    "A near()V 2 18",
)

# 11 CATCH.

ERRORS = ["java/lang/" + text for text in ("ThreadDeath", "VirtualMachineError", "StackOverflowError", "OutOfMemoryError")]
NO_ERRORS = ["java/lang/Error", "java/lang/Throwable", "java/lang/StackOverflow", "java/lang/ThreadDeaths", "StackOverflowError"]
NO_ERRORS += ["java/util/OutOfMemoryError", "java/lang/InternalError", "[Ljava/lang/ThreadDeath;", "java/lang/stackoverflowerror"]
TRY = NOP + RETURN + POP + RETURN  # its handler begins at 2


def catching(name, *catch_types):
    return method(name, TRY, handlers=[(0, 1, 2, index) for index in catch_types])


pool = Pool()
case(
    "11-errors",
    one(
        "A",
        pool,
        *(catching("m%d" % place, pool.class_name(text)) for place, text in enumerate(ERRORS)),
        catching("near", *map(pool.class_name, NO_ERRORS), 0),
    ),
    *("A m%d()V 2 11" % place for place in range(4)),
    "A near()V 2 17",
    "A near()V 2 18",
)
pool = Pool()
indexes = [pool.class_name(text) for text in ERRORS]
case(
    "11-handlers",
    one(
        "A",
        pool,
        catching("one", *indexes),
        # The handlers begin at the instructions 3, 5 and 0; they stand at other bytes.
        method(
            "several",
            instructions("sipush 0, pop, return, pop, return, pop, return"),
            handlers=[(0, 3, 5, indexes[0]), (0, 3, 7, indexes[1]), (3, 4, 0, indexes[2]), (0, 4, 5, 0)],
        ),
        # The same entry elsewhere is no handler.
        method("near", NULL, names(CHECKCAST, indexes[0]), POP, RETURN),
    ),
    "A one()V 2 11",
    "A several()V 0 11",
    "A several()V 3 11",
    "A several()V 5 11",
    "A near()V 1 17",
)
pool = Pool()
member = pool.member(METHOD, ERRORS[0], "m", "()V")
case(
    "11-only-of-a-class-constant",
    one("A", pool, *(catching("m%d" % place, index) for place, index in enumerate((pool.text(ERRORS[0]), pool.string(ERRORS[0]), member, 999)))),
    "A m0()V 2 18",
    "A m1()V 2 18",
    "A m2()V 2 17",
    "A m3()V 2 18",
)

# 12 FLOAT: constants.


def with_constant(name, make):
    pool = Pool()
    make(pool)
    return one(name, pool)


CONSTANTS = {
    "Float": lambda pool: pool.add(FLOAT),
    "Double": lambda pool: pool.add(DOUBLE),
    "Name": lambda pool: pool.name_and_type("f", "F"),
    "Arrays": lambda pool: pool.name_and_type("f", "[[D"),
    "Method": lambda pool: pool.member(METHOD, "A", "m", "(IF)V"),
    "Result": lambda pool: pool.member(INTERFACE_METHOD, "A", "m", "()D"),
    "Field": lambda pool: pool.member(FIELD, "A", "f", "D"),
    "Behind": lambda pool: pool.name_and_type("m", "(LF;[Ljava/lang/D;JF)V"),
    "Type": lambda pool: pool.add(method_type(pool.text("(D)V"))),
    "TypeArray": lambda pool: pool.add(method_type(pool.text("()[F"))),
    "Class": lambda pool: pool.class_name("[F"),
    "ClassArrays": lambda pool: pool.class_name("[[[D"),
}
NEAR_CONSTANTS = {
    "NoText": lambda pool: [pool.text(text) for text in ("F", "[D", "(F)D", "FLOAT")],
    "NoString": lambda pool: [pool.string(text) for text in ("F", "[D")],
    "NoClass": lambda pool: [pool.class_name(text) for text in ("F", "D", "a/F", "D/D", "[LF;", "[[La/D;", "[I", "[J")],
    "NoNames": lambda pool: [pool.name_and_type(name, text) for name, text in (("F", "I"), ("D", "()V"), ("f", "LF;"), ("m", "(LD;[LF/D;)LFD;"))],
    "NoTypes": lambda pool: pool.add(method_type(pool.text("(LF;)[LD;"))),
    "NoNumbers": lambda pool: [pool.add(INTEGER), pool.add(LONG)],
}
files = {}
for name, make in {**CONSTANTS, **NEAR_CONSTANTS}.items():
    files |= with_constant(name, make)
case("12-constants", files, *("%s 12" % name for name in CONSTANTS))
pool = Pool()
for entry in (FLOAT, DOUBLE, FLOAT, DOUBLE):
    pool.add(entry)
case("12-one-line-of-a-class", one("A", pool), "A 12")

# 12 FLOAT: members.

FLOATS = ("F", "D", "[F", "[[[D")
NO_FLOATS = ("I", "LF;", "LD;", "[LF;", "[[La/D/F;", "[J")
PARAMETERS = ("(F)V", "(D)V", "([F)V", "(I[[DLD;)V", "(LF;JD)V", "()F", "()[[D", "(ID)F")
NO_PARAMETERS = ("()V", "(LF;)V", "([LD;I)LF;", "(Ljava/lang/Double;)Ljava/lang/Float;")
case(
    "12-members",
    {
        "A": class_file(
            "A",
            [("m%d" % place, text) for place, text in enumerate(PARAMETERS)] + [("F", text) for text in NO_PARAMETERS],
            [("f%d" % place, text) for place, text in enumerate(FLOATS)] + [("D%d" % place, text) for place, text in enumerate(NO_FLOATS)],
            flags=A_CLASS | ABSTRACT,
        ),
        "B": class_file("B", [native("n", "(F)V"), ("finalize", "()D", PUBLIC, [code(instructions("dconst_0, dreturn"), 2)])]),
    },
    *("A f%d%s 12" % (place, text) for place, text in enumerate(FLOATS)),
    *("A m%d%s 12" % (place, text) for place, text in enumerate(PARAMETERS)),
    "B finalize()D 0 12",
    "B finalize()D 1 12",
    "B finalize()D 12",
    "B n(F)V 7",
    "B n(F)V 12",
)

# 12 FLOAT: stack maps. The code is nop, nop, return.

map_of = Frames(Pool(), end=3).map_of
GOOD_MAPS = {
    "same": map_of("1 same"),
    "append": map_of("1 append int"),
    "stack1": map_of("1 stack int"),
    # The last type is of a constant that isn't there.
    "full": map_of("1 full top int long / null class:65535"),
    "none": map_of(""),
    # The number 2 or 3 stands elsewhere.
    "two-of-three": map_of("0 same, 1 same"),
    "chop": map_of("0 chop 2"),
    "index": map_of("0 append class:%d" % 0x0203),
}
FLOAT_MAPS = {
    "stack1-float": map_of("1 stack float"),
    "stack1-double": map_of("0 stack double"),
    "stack1-extended": map_of("1 stack+ float"),
    "append-third": map_of("0 append int top double"),
    "full-locals": map_of("0 full null float /"),
    "full-stack": map_of("0 full / int double"),
    "second-frame": map_of("1 same, 0 append float"),
}
BAD_MAPS = {
    "cut": map_of("1 stack float", count=2),
    "cut-type": map_of("1 stack"),
    "byte-more": map_of("1 stack float", more=b"\0"),
    # No frame begins with 128, and no type is 9.
    "reserved": map_of("1 stack float", count=2, more=u1(128)),
    "type-9": map_of("0 stack float, 0 append float tag:9"),
    "at-the-end": map_of("0 stack float, 2 same"),
    "past": map_of("0 stack float, 63 same"),
    "uninitialized-past": map_of("0 append float new:end"),
    "empty": b"",
}


def with_map(name, stack_map):
    """A method whose stack map has the name 1."""
    return method(name, NOP, NOP, RETURN, listed=row(1) + attribute(1, stack_map))


def with_all_maps(name, maps):
    pool = Pool()
    assert pool.text("StackMapTable") == 1
    return one(name, pool, *(with_map(*each) for each in maps.items()))


# The set has a malformed file, so that nothing is asked of shapes.
case(
    "12-stack-maps",
    with_all_maps("A", GOOD_MAPS) | with_all_maps("B", FLOAT_MAPS) | with_all_maps("C", BAD_MAPS) | {"D": b""},
    *("B %s()V 12" % name for name in FLOAT_MAPS),
    "D 1",
)
pool = Pool()
other = pool.text("StackMap")
one_frame = map_of("1 stack float")
case(
    "12-no-stack-map",
    one(
        "A",
        pool,
        method("m", NOP, NOP, RETURN, listed=row(1) + attribute(other, one_frame)),
        ("n", "()V", PUBLIC | STATIC, [code(RETURN), ("StackMapTable", one_frame)]),
        listed=[("StackMapTable", one_frame)],
    ),
)

# 12 FLOAT: instructions. Each method has one instruction and a return; it is named for the opcode.

OF_FLOATS = "fconst_0 fconst_1 fconst_2 dconst_0 dconst_1 fload dload fload_0 fload_1 fload_2 fload_3 dload_0 dload_1 dload_2 dload_3 faload daload"
OF_FLOATS += " fstore dstore fstore_0 fstore_1 fstore_2 fstore_3 dstore_0 dstore_1 dstore_2 dstore_3 fastore dastore fadd dadd fsub dsub fmul dmul"
OF_FLOATS += " fdiv ddiv frem drem fneg dneg i2f i2d l2f l2d f2i f2l f2d d2i d2l d2f fcmpl fcmpg dcmpl dcmpg freturn dreturn"
OF_FLOATS = OF_FLOATS.split()
WITH_SLOT = ("fload", "dload", "fstore", "dstore")
case(
    "12-instructions",
    {
        "A": class_file("A", [method(name, NOP, opcode(name), b"\1" * (name in WITH_SLOT), RETURN) for name in OF_FLOATS]),
        "B": class_file("B", [method(name, instructions("wide %s 1, return" % name)) for name in WITH_SLOT]),
    },
    *("A %s()V 1 12" % name for name in OF_FLOATS),
    *("B %s()V 0 12" % name for name in WITH_SLOT),
)
OTHERS = [name for name in OPCODES if name not in (*OF_FLOATS, *LENGTHS, "tableswitch", "lookupswitch", "wide", "breakpoint")]
case(
    "12-other-instructions",
    {"A": class_file("A", [method("op%d" % OPCODES[name], opcode(name), RETURN) for name in OTHERS]), "B": b""},
    "B 1",
)
pool = Pool()
integer, float_index, long, double, text = pool.add(INTEGER), pool.add(FLOAT), pool.add(LONG), pool.add(DOUBLE), pool.string("F")
case(
    "12-loads-of-constants",
    one(
        "A",
        pool,
        method("ldc", names(LDC, integer), POP, names(LDC, float_index), POP, names(LDC, text), POP, names(LDC, double), RETURN),
        method("ldc_w", names(LDC_W, integer), POP, names(LDC_W, float_index), POP, names(LDC_W, double), RETURN),
        method("ldc2_w", names(LDC2_W, long), names(LDC2_W, double), names(LDC2_W, float_index), RETURN),
        method("near", names(LDC, integer), POP, names(LDC2_W, long), opcode("pop2"), RETURN),
    ),
    "A 12",
    "A ldc()V 2 12",
    "A ldc()V 6 12",
    "A ldc_w()V 2 12",
    "A ldc_w()V 4 12",
    "A ldc2_w()V 1 12",
    "A ldc2_w()V 2 12",
)
case(
    "12-newarray",
    one("A", Pool(), *(method("m%d" % base, instructions("iconst_0, newarray %s, pop, return" % name)) for name, base in BASES.items())),
    "A m6()V 1 12",
    "A m7()V 1 12",
)
pool = Pool()
class_of_floats, field = pool.class_name("[F"), pool.member(FIELD, "A", "f", "D")
case(
    # The class and the field violate the rule, once; the instructions that name them don't.
    "12-not-by-the-operand",
    one("A", pool, method("m", NULL, names(CHECKCAST, class_of_floats), POP, RETURN), fields=[("f", "D")]),
    "A 12",
    "A fD 12",
)

# 13 SUBROUTINE, 14 BREAKPOINT, 15 MULTI_ARRAY.

case(
    "13-subroutines",
    one(
        "A",
        Pool(),
        method("jsr", instructions("nop, jsr 3, return")),
        method("jsr_w", instructions("jsr_w 5, return")),
        method("ret", instructions("nop, nop, ret 1")),
        method("wide_ret", instructions("wide ret 256")),
        method("all", instructions("jsr 4, return, astore 1, ret 1")),
        # Their opcodes as operands.
        method("near", opcode("bipush"), opcode("jsr"), POP, opcode("sipush"), opcode("ret"), opcode("jsr_w"), POP, RETURN),
    ),
    "A jsr()V 1 13",
    "A jsr_w()V 0 13",
    "A ret()V 2 13",
    "A wide_ret()V 0 13",
    "A all()V 0 13",
    "A all()V 3 13",
)
case(
    "14-breakpoints",
    one("A", Pool(), method("m", instructions("breakpoint, nop, breakpoint, return, breakpoint")), method("near", opcode("bipush"), BREAKPOINT, POP, RETURN)),
    *("A m()V %d 14" % number for number in (0, 2, 4)),
)
pool = Pool()
arrays = [pool.class_name(text) for text in ("[[I", "[[[LA;", "A", "[[F", "[[Ljava/lang/Class;")]
case(
    "15-arrays-of-arrays",
    one(
        "A",
        pool,
        *(method("m%d" % place, ZERO, ZERO, names(MULTIANEWARRAY, index, 2), POP, RETURN) for place, index in enumerate(arrays)),
        method("past", ZERO, names(MULTIANEWARRAY, 999, 1), POP, RETURN),
        # An array of arrays, made one by one.
        method("near", ZERO, names(ANEWARRAY, pool.class_name("[I")), POP, RETURN),
    ),
    "A 12",
    *("A m%d()V 2 15" % place for place in range(5)),
    "A m4()V 2 10",
    "A past()V 1 15",
)

# 16 INTERFACE_CODE.

INIT = ("<clinit>", "()V", STATIC, [code(RETURN)])
case(
    "16-interfaces",
    {
        "I": class_file("I", [method("m", RETURN), ("n", "()V", PUBLIC, [code(RETURN)]), ("o", "()V", PUBLIC | ABSTRACT), INIT], flags=AN_INTERFACE),
        "J": class_file("J", [("m", "()V", PRIVATE, [code(RETURN)]), ("<init>", "()V", PUBLIC, [code(RETURN)]), native("p")], flags=AN_INTERFACE),
        "K": class_file("K", [INIT, ("<clinit>", "(I)V", STATIC, [code(RETURN)])], flags=AN_INTERFACE),
        "A": class_file("A", [method("m", RETURN)], flags=A_CLASS | ABSTRACT, interfaces=["I"]),
    },
    "I m()V 16",
    "I n()V 16",
    "J <init>()V 16",
    "J m()V 16",
    "J p()V 7",
)

# What stands together: an instruction with several lines, a handler and its first instruction, lines of two methods of one text.

pool = Pool()
of_class, death = pool.class_name("java/lang/Class"), pool.class_name(ERRORS[0])
handle = pool.add(method_handle(6, pool.member(METHOD, "A", *GET_CLASS)))
case(
    "several-at-one-instruction",
    one(
        "A",
        pool,
        # One line of 10, though it is a class and of reflection.
        method("one", names(LDC, of_class), POP, RETURN),
        method("two", ZERO, names(MULTIANEWARRAY, of_class, 1), POP, RETURN),
        method("handler", NOP, RETURN, names(NEW, of_class), POP, RETURN, handlers=[(0, 1, 2, death), (1, 2, 2, death)]),
        method("float", instructions("nop, return, fstore_0, return"), handlers=[(0, 1, 2, death)]),
        method("handle", names(LDC, handle), POP, RETURN),
    ),
    "A one()V 0 10",
    "A two()V 1 10",
    "A two()V 1 15",
    "A handler()V 2 10",
    "A handler()V 2 11",
    "A float()V 2 11",
    "A float()V 2 12",
    "A handle()V 0 9",
)
case(
    "equal-lines-of-instructions",
    one(
        "A",
        Pool(),
        method("f", BREAKPOINT, RETURN, descriptor="()LA(I)LB;"),
        method("f()LA", BREAKPOINT, BREAKPOINT, RETURN, descriptor="(I)LB;"),
        method("g", BREAKPOINT, RETURN),
    ),
    "A f()LA(I)LB; 0 14",
    "A f()LA(I)LB; 1 14",
    "A g()V 0 14",
)
case(
    "order-of-numbers",
    one("A", Pool(), method("m", BREAKPOINT * 12, RETURN), method("l", instructions("fconst_0, breakpoint, return"), descriptor="(F)V"), major=53),
    "A 2",
    "A l(F)V 12",
    "A l(F)V 0 12",
    "A l(F)V 1 14",
    *("A m()V %d 14" % number for number in range(12)),
)

# A class of code of many kinds, which tests/special changes byte by byte.


def rich_class():
    pool = Pool()
    pool.text("StackMapTable")
    death, throwable = pool.class_name(ERRORS[0]), pool.class_name("java/lang/Throwable")
    call = pool.add(invoke_dynamic(0, pool.name_and_type("call", "()V")))
    handle, getter = pool.add(method_handle(6, pool.member(METHOD, "Rich", "m", "()V"))), pool.member(METHOD, "Rich", *GET_CLASS)
    matrix, number, text = pool.class_name("[[I"), pool.add(LONG), pool.string("x")
    switches = "Top: {same} iconst_0, nop, tableswitch 1 Next Top Next, Next: {same} iconst_0, dup, istore_1, lookupswitch 3 Then 4 Then Then,"
    switches += "Then: {append top int} wide iinc 1 1, wide iload 1, {stack int} ifeq Last, lconst_0, lstore_2, aconst_null, goto_w Far,"
    switches += "Far: {full top int long / ref:java/lang/Throwable} pop, Last: {chop 1} return"
    operands = [
        *(names(INVOKEDYNAMIC, call, 0, 0), names(LDC, handle), NULL, names(INVOKEVIRTUAL, getter), names(LDC2_W, number), names(LDC_W, text)),
        *(names(MULTIANEWARRAY, matrix, 2), instructions("newarray byte"), names(NEW, throwable), instructions("breakpoint, jsr 3, ret 1, return")),
    ]
    methods = [
        Method("m", switches).made(pool)[0],
        method("n", *operands, handlers=[(0, 5, 7, death), (5, 7, 8, throwable), (0, 8, 8, 0)]),
        ("finalize", "()V", PUBLIC | ABSTRACT),
        native("o", "(J[I)V"),
    ]
    constants = [(name, text, STATIC, [("ConstantValue", u2(index))]) for name, text, index in (("l", "J", number), ("s", "Ljava/lang/String;", text))]
    return class_file("Rich", methods, constants, ["java/lang/Runnable"], pool=pool, flags=A_CLASS | ABSTRACT)


case(
    "rich",
    {"Rich": rich_class()},
    "Rich finalize()V 8",
    "Rich n()V 0 9",
    "Rich n()V 1 9",
    "Rich n()V 2 11",
    "Rich n()V 3 10",
    "Rich n()V 6 15",
    "Rich n()V 9 14",
    "Rich n()V 10 13",
    "Rich n()V 11 13",
    "Rich o(J[I)V 7",
)

# A set in which each rule is violated.

pool = Pool()
call, of_class, death = pool.add(invoke_dynamic(0, pool.name_and_type("call", "()V"))), pool.class_name("java/lang/Class"), pool.class_name(ERRORS[2])
everything = [
    method("m", names(INVOKEDYNAMIC, call, 0, 0), names(NEW, of_class), instructions("breakpoint, ret 1"), handlers=[(0, 5, 8, death)]),
    method("n", instructions("fconst_0, iconst_0"), names(MULTIANEWARRAY, of_class, 1), RETURN),
    ("finalize", "()V", PUBLIC, [code(RETURN)]),
    native("o"),
]
case(
    "all-of-1-to-16",
    {
        "A": b"\xca\xfe\xba\xbe",
        "B": class_file("java/B", everything, [("f", "D")], pool=pool, major=49, super_name=None, flags=AN_INTERFACE | FINAL),
        "C": class_file("C"),
        "c": class_file("C"),
    },
    "A 1",
    "B 2",
    "B 3",
    "B 4",
    "B 6",
    "B fD 12",
    "B finalize()V 8",
    "B finalize()V 16",
    "B m()V 16",
    "B m()V 0 9",
    "B m()V 1 10",
    "B m()V 2 11",
    "B m()V 2 14",
    "B m()V 3 13",
    "B n()V 16",
    "B n()V 0 12",
    "B n()V 2 10",
    "B n()V 2 15",
    "B o()V 7",
    "C 5",
    "c 3",
    "c 5",
)
