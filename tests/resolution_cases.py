"""The cases of `djvm check FOLDER` on rule 18, on what keeps 17 and 18 silent, and on sets, in tests/cases; make_cases.py makes
their folders. link_rule_cases.py says how they are written, and has those on rule 17, on arrays and on handlers.
"""

from class_files import (
    A_CLASS,
    ABSTRACT,
    AN_INTERFACE,
    FIELD,
    FINAL,
    INTEGER,
    INTERFACE_METHOD,
    LONG,
    METHOD,
    PRIVATE,
    PUBLIC,
    STATIC,
    Pool,
    class_file,
    invoke_dynamic,
    method_handle,
    method_type,
    native,
)
from code_rule_cases import LDC, LDC2_W, LDC_W, names
from link_rule_cases import (
    ANEWARRAY,
    AT,
    CHECKCAST,
    DYNAMIC,
    EACH,
    GETFIELD,
    GETSTATIC,
    INSTANCEOF,
    INTERFACE,
    MULTIANEWARRAY,
    NEW,
    PUTFIELD,
    PUTSTATIC,
    SPECIAL,
    STATICALLY,
    VIRTUAL,
    classes,
    declared,
    handled,
    lines,
    members,
    of_class,
    one,
)
from opcodes import opcode
from rule_cases import NULL, POP, RETURN, ZERO, case, found, method

# 18 UNRESOLVED: members that aren't there.

pool = Pool()
FIELDS_OF = {"B": "above both", "I": "listed", "J": "deep", "K": "ofAbove", "Other": "other"}


def with_fields(name, of_fields, **more):
    """A class with fields of ints, which have these flags."""
    return class_file(name, fields=[(text, "I", of_fields) for text in FIELDS_OF[name].split()], **more)


case(
    "18-fields",
    one(
        "A",
        pool,
        *members(
            pool,
            near=(GETFIELD, "A own I"),
            nearAbove=(GETFIELD, "A above I"),
            nearListed=(GETSTATIC, "A listed I"),
            nearDeep=(GETSTATIC, "A deep I"),
            nearOfAbove=(GETSTATIC, "A ofAbove I"),
            nearBoth=(GETFIELD, "A both I"),
            nearFace=(GETSTATIC, "I deep I"),
            nearPrivate=(PUTFIELD, "Other other I"),
            type=(GETFIELD, "A own J"),
            typeAbove=(GETFIELD, "A both J"),
            array=(GETFIELD, "A own [I"),
            name=(GETFIELD, "A Own I"),
            below=(GETFIELD, "B own I"),
            beside=(GETFIELD, "A other I"),
            faceAbove=(GETSTATIC, "J listed I"),
            method=(GETFIELD, "A near I"),
        ),
        fields=[("own", "I", 0)],
        super_name="B",
        interfaces=["I"],
    )
    | {
        "B": with_fields("B", 0, interfaces=["K"]),
        "I": with_fields("I", STATIC, interfaces=["J"], flags=AN_INTERFACE),
        "J": with_fields("J", STATIC, flags=AN_INTERFACE),
        "K": with_fields("K", STATIC, flags=AN_INTERFACE),
        "Other": with_fields("Other", PRIVATE),
    },
    *lines("A", 18, type=1, typeAbove=1, array=1, name=1, below=1, beside=1, faceAbove=0, method=1),
)
# Of two fields that a class could mean, the first decides: the class, its interfaces with theirs in order, then above.
pool = Pool()
case(
    "18-fields-in-order",
    one(
        "A",
        pool,
        *members(
            pool,
            near=(GETFIELD, "A own I"),
            nearListed=(GETSTATIC, "A above I"),
            nearDeep=(GETSTATIC, "A deep I"),
            nearAbove=(GETFIELD, "B above I"),
            own=(GETSTATIC, "A own I"),
            listed=(GETFIELD, "A above I"),
            deep=(GETFIELD, "A deep I"),
            above=(GETSTATIC, "B above I"),
        ),
        fields=[("own", "I", 0)],
        super_name="B",
        interfaces=["I"],
    )
    | {
        "B": class_file("B", fields=[("own", "I", STATIC), ("above", "I", 0), ("deep", "I", 0)]),
        "I": class_file("I", fields=[("own", "I", STATIC), ("above", "I", STATIC)], interfaces=["J"], flags=AN_INTERFACE),
        "J": class_file("J", fields=[("deep", "I", STATIC)], flags=AN_INTERFACE),
    },
    *lines("A", 18, own=0, listed=1, deep=1, above=0),
)
ABSTRACTLY = PUBLIC | ABSTRACT
pool = Pool()
case(
    "18-methods",
    one(
        "A",
        pool,
        *members(
            pool,
            near=(VIRTUAL, "A own ()V"),
            nearAbove=(VIRTUAL, "A above ()I"),
            nearObject=(VIRTUAL, "A hashCode ()I"),
            nearListed=(VIRTUAL, "A listed ()V"),
            nearDeep=(VIRTUAL, "A deep ()V"),
            nearOfAbove=(VIRTUAL, "A ofAbove ()V"),
            nearPrivate=(VIRTUAL, "B hidden ()V"),
            nearPrivateAbove=(VIRTUAL, "A hidden ()V"),
            nearFace=(INTERFACE, "I listed ()V"),
            nearFaceDeep=(INTERFACE, "I deep ()V"),
            nearFaceObject=(INTERFACE, "I equals (Ljava/lang/Object;)Z"),
            result=(VIRTUAL, "A own ()I"),
            parameter=(VIRTUAL, "A own (I)V"),
            name=(VIRTUAL, "A Own ()V"),
            below=(VIRTUAL, "B own ()V"),
            beside=(VIRTUAL, "A ofOther ()V"),
            field=(VIRTUAL, "A f ()V"),
            face=(INTERFACE, "J listed ()V"),
            faceBelow=(INTERFACE, "I own ()V"),
        ),
        *declared("own()V", flags=PUBLIC),
        fields=[("f", "I", 0)],
        super_name="B",
        interfaces=["I"],
        flags=A_CLASS | ABSTRACT,
    )
    | {
        "B": class_file("B", [*declared("above()I", flags=PUBLIC), *declared("hidden()V", flags=PRIVATE)], interfaces=["K"], flags=A_CLASS | ABSTRACT),
        "C": class_file("C", declared("ofOther()V", flags=PUBLIC)),
        "I": class_file("I", [("listed", "()V", ABSTRACTLY)], interfaces=["J"], flags=AN_INTERFACE),
        "J": class_file("J", [("deep", "()V", ABSTRACTLY)], flags=AN_INTERFACE),
        "K": class_file("K", [("ofAbove", "()V", ABSTRACTLY)], flags=AN_INTERFACE),
    },
    *lines("A", 18, result=1, parameter=2, name=1, below=1, beside=1, field=1, face=1, faceBelow=1),
)
# What is private or static in an interface above is not found there, and the next one may be; one's own is.
pool = Pool()
case(
    "18-methods-of-interfaces",
    one(
        "A",
        pool,
        *members(
            pool,
            near=(STATICALLY, "J static ()V", INTERFACE_METHOD),
            nearPrivate=(INTERFACE, "J hidden ()V"),
            nearBoth=(VIRTUAL, "A both ()V"),
            nearClass=(STATICALLY, "A class ()V"),
            ofClass=(STATICALLY, "A static ()V"),
            ofClassHidden=(VIRTUAL, "A hidden ()V"),
            below=(STATICALLY, "I static ()V", INTERFACE_METHOD),
            belowHidden=(INTERFACE, "I hidden ()V"),
            first=(VIRTUAL, "A class ()V"),
        ),
        *declared("class()V"),
        interfaces=["I", "K"],
        flags=A_CLASS | ABSTRACT,
    )
    | {
        "I": class_file("I", [("class", "()V", ABSTRACTLY)], interfaces=["J"], flags=AN_INTERFACE),
        "J": class_file(
            "J",
            [("static", "()V", ABSTRACTLY | STATIC), ("hidden", "()V", PRIVATE | ABSTRACT), ("both", "()V", ABSTRACTLY | STATIC)],
            flags=AN_INTERFACE,
        ),
        "K": class_file("K", [("both", "()V", ABSTRACTLY)], flags=AN_INTERFACE),
    },
    *lines("A", 18, ofClass=0, ofClassHidden=1, below=0, belowHidden=1, first=1),
)
pool = Pool()
case(
    # Object's methods come before those of the interfaces above an interface, and the superclasses before their interfaces.
    "18-methods-in-order",
    one(
        "A",
        pool,
        *members(
            pool,
            near=(VIRTUAL, "A hashCode ()I"),
            nearFace=(INTERFACE, "I hashCode ()I"),
            nearStatic=(STATICALLY, "A above ()V"),
            nearOwn=(INTERFACE, "I toString ()Ljava/lang/String;"),
            ofAbove=(VIRTUAL, "A above ()V"),
            own=(INTERFACE, "J toString ()Ljava/lang/String;"),
            nearOther=(STATICALLY, "J toString ()Ljava/lang/String;", INTERFACE_METHOD),
        ),
        super_name="B",
        interfaces=["I"],
        flags=A_CLASS | ABSTRACT,
    )
    | {
        "B": class_file("B", declared("above()V")),
        "I": class_file("I", [("above", "()V", ABSTRACTLY)], interfaces=["J"], flags=AN_INTERFACE),
        "J": class_file("J", [("toString", "()Ljava/lang/String;", ABSTRACTLY | STATIC), ("hashCode", "()I", ABSTRACTLY | STATIC)], flags=AN_INTERFACE),
    },
    *lines("A", 18, ofAbove=1, own=1),
)

# 18 UNRESOLVED: the tag. Each kind of instruction meets each kind of constant; those that fit violate nothing.

FITTING = {
    "ldc": (LDC, "integer string"),
    "ldc_w": (LDC_W, "integer string"),
    "ldc2_w": (LDC2_W, "long"),
    "getstatic": (GETSTATIC, "static"),
    "putstatic": (PUTSTATIC, "static"),
    "getfield": (GETFIELD, "field"),
    "putfield": (PUTFIELD, "field"),
    "invokevirtual": (VIRTUAL, "method"),
    "invokespecial": (SPECIAL, "method"),
    "invokestatic": (STATICALLY, "staticMethod"),
    "invokeinterface": (INTERFACE, "face"),
    "new": (NEW, "class"),
    "anewarray": (ANEWARRAY, "class"),
    "checkcast": (CHECKCAST, "class"),
    "instanceof": (INSTANCEOF, "class"),
}
# Rules 9 and 10 come before.
DYNAMIC_OR_REFLECTIVE = {"ldc class": 10, "ldc handle": 9, "ldc type": 9, "ldc_w class": 10, "ldc_w handle": 9, "ldc_w type": 9}


def of_all_tags():
    pool = Pool()
    found = {"string": pool.string("x"), "integer": pool.add(INTEGER), "text": pool.text("A"), "class": pool.class_name("A")}
    found |= {"static": pool.member(FIELD, "A", "s", "I"), "field": pool.member(FIELD, "A", "f", "I"), "method": pool.member(METHOD, "A", "m", "()V")}
    found |= {"staticMethod": pool.member(METHOD, "A", "n", "()V"), "face": pool.member(INTERFACE_METHOD, "I", "m", "()V")}
    found |= {"names": pool.name_and_type("m", "()V"), "handle": pool.add(method_handle(6, found["staticMethod"]))}
    found |= {"type": pool.add(method_type(pool.text("()V"))), "call": pool.add(invoke_dynamic(0, found["names"])), "long": pool.add(LONG)}
    found |= {"hole": found["long"] + 1, "zero": 0, "past": 200}
    return pool, found


def against_each_tag():
    """For each instruction a method with that instruction for each constant, and the lines of it."""
    pool, indexes = of_all_tags()
    wanted, made = [], []
    for name, (op, fitting) in FITTING.items():
        body = []
        for number, (kind, index) in enumerate(indexes.items()):
            body.append(names(op, index, *([1, 0] if op == INTERFACE else [])))
            rule = DYNAMIC_OR_REFLECTIVE.get("%s %s" % (name, kind), 18)
            wanted += [] if kind in fitting.split() else ["A %s()V %d %d" % (name, number, rule)]
        made.append(method(name, *body, RETURN))
    made += declared("n()V") + declared("m()V", flags=PUBLIC)
    files = one("A", pool, *made, fields=[("s", "I", STATIC), ("f", "I", 0)])
    return files | {"I": class_file("I", [("m", "()V", ABSTRACTLY)], flags=AN_INTERFACE)}, wanted


files, wanted = against_each_tag()
case("18-tags", files, *wanted)
pool = Pool()
case(
    # Of what isn't the instruction's tag the class and the member count too: the library's lacks come first.
    "17-18-tags-and-members",
    one(
        "A",
        pool,
        method("newOfMethod", names(NEW, pool.member(METHOD, "java/lang/Object", "m", "()V")) + POP, RETURN),
        method("newOfMath", names(NEW, pool.member(METHOD, "java/lang/Math", "abs", "(I)I")) + POP, RETURN),
        method("newOfClass", names(NEW, pool.member(METHOD, "java/lang/Object", "hashCode", "()I")) + POP, RETURN),
        method("castOfField", NULL, names(CHECKCAST, pool.member(FIELD, "java/lang/System", "out", "I")) + POP, RETURN),
        method("castOfAbsent", NULL, names(CHECKCAST, pool.member(FIELD, "java/util/List", "f", "I")) + POP, RETURN),
        method("pushOfAbsent", names(LDC, pool.member(METHOD, "java/util/List", "m", "()V")) + POP, RETURN),
        method("longOfAbsent", names(LDC2_W, pool.class_name("java/util/List")) + opcode("pop2"), RETURN),
        method("longOfString", names(LDC2_W, pool.class_name("java/lang/String")) + opcode("pop2"), RETURN),
        method("fieldOfMethod", NULL, names(GETFIELD, pool.member(METHOD, "java/lang/String", "length", "()I")) + POP, RETURN),
        method("fieldOfClass", NULL, names(GETFIELD, pool.class_name("java/lang/String")) + POP, RETURN),
        method("callOfField", names(STATICALLY, pool.member(FIELD, "java/lang/String", "f", "I")), RETURN),
    ),
    *lines("A", 17, newOfMethod=0, newOfMath=0, castOfField=1, castOfAbsent=1, pushOfAbsent=0, longOfAbsent=0, callOfField=0),
    *lines("A", 18, newOfClass=0, longOfString=0, fieldOfMethod=1, fieldOfClass=1),
)

# 18 UNRESOLVED: static where the instruction isn't, or the reverse.

pool = Pool()
case(
    "18-static",
    one(
        "A",
        pool,
        *members(
            pool,
            near=(GETSTATIC, "A s I"),
            nearPut=(PUTSTATIC, "A s I"),
            nearField=(GETFIELD, "A f I"),
            nearPutField=(PUTFIELD, "A f I"),
            nearCall=(STATICALLY, "A n ()V"),
            nearVirtual=(VIRTUAL, "A m ()V"),
            nearSpecial=(SPECIAL, "A m ()V"),
            nearFace=(INTERFACE, "I m ()V"),
            nearFaceStatic=(STATICALLY, "I n ()V", INTERFACE_METHOD),
            nearLibrary=(STATICALLY, "java/lang/Math abs (I)I"),
            getstatic=(GETSTATIC, "A f I"),
            putstatic=(PUTSTATIC, "A f I"),
            getfield=(GETFIELD, "A s I"),
            putfield=(PUTFIELD, "A s I"),
            invokestatic=(STATICALLY, "A m ()V"),
            invokevirtual=(VIRTUAL, "A n ()V"),
            invokespecial=(SPECIAL, "A n ()V"),
            invokeinterface=(INTERFACE, "I n ()V"),
            face=(STATICALLY, "I m ()V", INTERFACE_METHOD),
            library=(VIRTUAL, "java/lang/Math abs (I)I"),
            libraryStatic=(STATICALLY, "java/lang/String length ()I"),
            object=(STATICALLY, "A hashCode ()I"),
            initialiser=(STATICALLY, "java/lang/Object hashCode ()I"),
        ),
        *declared("n()V"),
        *declared("m()V", flags=PUBLIC),
        fields=[("s", "I", STATIC), ("f", "I", 0)],
    )
    | {"I": class_file("I", [("m", "()V", ABSTRACTLY), ("n", "()V", ABSTRACTLY | STATIC)], flags=AN_INTERFACE)},
    *lines("A", 18, **{name: at for name, at in AT.items() if name not in EACH}),
    *lines("A", 18, face=0, library=2, libraryStatic=0, object=0, initialiser=0),
)

# 18 UNRESOLVED: new.

pool = Pool()
case(
    "18-new",
    one(
        "A",
        pool,
        *classes(
            pool,
            near=(NEW, "A"),
            nearFinal=(NEW, "Final"),
            nearHidden=(NEW, "Hidden"),
            face=(NEW, "I"),
            abstract=(NEW, "Abstract"),
            odd=(NEW, "Odd"),
            array=(NEW, "[LA;"),
            arrays=(NEW, "[[J"),
            # Other instructions may name these.
            nearArray=(ANEWARRAY, "I"),
            nearCast=(CHECKCAST, "Abstract"),
            nearInstance=(INSTANCEOF, "[[J"),
        ),
    )
    | {
        "Final": class_file("Final", flags=A_CLASS | FINAL),
        # It has no constructor.
        "Hidden": class_file("Hidden", flags=0x1000),
        "I": class_file("I", flags=AN_INTERFACE),
        "Abstract": class_file("Abstract", flags=A_CLASS | ABSTRACT),
        # An interface without the flag of what is abstract.
        "Odd": class_file("Odd", flags=0x200),
    },
    *lines("A", 18, face=0, abstract=0, odd=0, array=0, arrays=0),
)

# 18 UNRESOLVED: methods of classes and of interfaces.

pool = Pool()
case(
    "18-methods-of-classes-and-interfaces",
    one(
        "A",
        pool,
        *members(
            pool,
            near=(STATICALLY, "A n ()V", METHOD),
            nearFace=(STATICALLY, "I n ()V", INTERFACE_METHOD),
            nearObject=(INTERFACE, "I hashCode ()I"),
            nearArray=(VIRTUAL, "[LI; hashCode ()I", METHOD),
            face=(STATICALLY, "I n ()V", METHOD),
            faceVirtual=(VIRTUAL, "I m ()V", METHOD),
            faceObject=(VIRTUAL, "I hashCode ()I", METHOD),
            ofLibrary=(VIRTUAL, "java/lang/Runnable run ()V", METHOD),
            own=(STATICALLY, "A n ()V", INTERFACE_METHOD),
            ownVirtual=(INTERFACE, "A m ()V", INTERFACE_METHOD),
            library=(INTERFACE, "java/lang/Object hashCode ()I", INTERFACE_METHOD),
            array=(INTERFACE, "[LI; hashCode ()I", INTERFACE_METHOD),
        ),
        *declared("n()V"),
        *declared("m()V", flags=PUBLIC),
    )
    | {"I": class_file("I", [("m", "()V", ABSTRACTLY), ("n", "()V", ABSTRACTLY | STATIC)], flags=AN_INTERFACE)},
    *lines("A", 18, face=0, faceVirtual=1, faceObject=1, ofLibrary=1, own=0, ownVirtual=1, library=1, array=1),
)

# 18 UNRESOLVED: constructors and initialisers.

pool = Pool()
case(
    "18-constructors",
    one(
        "A",
        pool,
        *members(
            pool,
            near=(SPECIAL, "A <init> ()V"),
            nearOther=(SPECIAL, "Other <init> (I)V"),
            nearAbove=(SPECIAL, "A <init> (I)V"),
            nearLibrary=(SPECIAL, "java/lang/Throwable <init> ()V"),
            virtual=(VIRTUAL, "A <init> ()V"),
            static=(STATICALLY, "A <init> ()V"),
            staticOne=(STATICALLY, "Other <init> (J)V"),
            face=(INTERFACE, "I <init> ()V"),
            absent=(SPECIAL, "Other <init> (Z)V"),
            absentHere=(SPECIAL, "A <init> (LA;)V"),
            specialStatic=(SPECIAL, "Other <init> (J)V"),
            initialiser=(STATICALLY, "Other <clinit> ()V"),
            initialiserHere=(STATICALLY, "A <clinit> ()V"),
            initialiserSpecial=(SPECIAL, "A <clinit> ()V"),
            initialiserAbsent=(STATICALLY, "A <clinit> (I)V"),
        ),
        *declared("<init>()V", flags=PUBLIC),
        *declared("<clinit>()V"),
        super_name="Other",
        flags=A_CLASS | ABSTRACT,
    )
    | {
        "Other": class_file("Other", [*declared("<init>(I)V", flags=PUBLIC), *declared("<init>(J)V", "<clinit>()V")]),
        "I": class_file("I", [("<init>", "()V", ABSTRACTLY)], flags=AN_INTERFACE),
    },
    *lines("A", 18, virtual=1, static=0, staticOne=1, face=1, absent=2, absentHere=2, specialStatic=2),
    *lines("A", 18, initialiser=0, initialiserHere=0, initialiserSpecial=1, initialiserAbsent=1),
)

# 18 UNRESOLVED: invokespecial.

pool = Pool()
case(
    "18-special",
    one(
        "A",
        pool,
        *members(
            pool,
            near=(SPECIAL, "A own ()V"),
            nearAbove=(SPECIAL, "B above ()V"),
            nearHere=(SPECIAL, "A above ()V"),
            nearListed=(SPECIAL, "A listed ()V"),
            nearObject=(SPECIAL, "java/lang/Object hashCode ()I"),
            nearThere=(SPECIAL, "C hashCode ()I"),
            below=(SPECIAL, "Below own ()V"),
            beside=(SPECIAL, "Beside own ()V"),
            besideAbove=(SPECIAL, "Beside hashCode ()I"),
            face=(SPECIAL, "I listed ()V", INTERFACE_METHOD),
            library=(SPECIAL, "java/lang/String length ()I"),
            libraryFace=(SPECIAL, "java/lang/Runnable run ()V", INTERFACE_METHOD),
        ),
        *declared("own()V", flags=PUBLIC),
        super_name="B",
        interfaces=["I"],
        flags=A_CLASS | ABSTRACT,
    )
    | {
        "B": class_file("B", declared("above()V", flags=PUBLIC), super_name="C"),
        "C": class_file("C"),
        "Below": class_file("Below", super_name="A"),
        "Beside": class_file("Beside", declared("own()V", flags=PUBLIC)),
        "I": class_file("I", [("listed", "()V", ABSTRACTLY)], flags=AN_INTERFACE),
    },
    *lines("A", 18, below=1, beside=1, besideAbove=1, face=1, library=1, libraryFace=1),
)
pool = Pool()
own = members(
    pool,
    near=(SPECIAL, "I listed ()V", INTERFACE_METHOD),
    object=(SPECIAL, "java/lang/Object hashCode ()I"),
    above=(SPECIAL, "J deep ()V", INTERFACE_METHOD),
    statically=(STATICALLY, "I static ()V", INTERFACE_METHOD),
)
case(
    # In an interface's own code, which rule 16 refuses besides.
    "18-special-in-an-interface",
    one("I", pool, *own, ("listed", "()V", ABSTRACTLY), ("static", "()V", ABSTRACTLY | STATIC), interfaces=["J"], flags=AN_INTERFACE)
    | {"J": class_file("J", [("deep", "()V", ABSTRACTLY)], flags=AN_INTERFACE)},
    *("I %s()V 16" % name for name in ("near", "object", "above", "statically")),
    "I above()V 1 18",
)

# What keeps an instruction from 17 and 18: a line of 9 to 15 of its own, and nothing else of its class or method.

pool = Pool()
some_class, absent = pool.class_name("java/lang/Class"), pool.class_name("java/lang/invoke/MethodHandle")
case(
    "17-18-behind-9-to-15",
    one(
        "A",
        pool,
        method("dynamic", names(DYNAMIC, 0, 0, 0), names(DYNAMIC, pool.member(METHOD, "java/util/List", "m", "()V"), 0, 0), RETURN),
        method("reflection", names(NEW, some_class) + POP, names(NEW, absent) + POP, names(LDC, pool.class_name("java/util/List")) + POP, RETURN),
        method("getClass", NULL, names(VIRTUAL, pool.member(METHOD, "B", "getClass", "()Ljava/lang/Class;")) + POP, RETURN),
        method("grid", ZERO, ZERO, names(MULTIANEWARRAY, pool.class_name("[[Ljava/util/List;"), 2) + POP, RETURN),
        method("gridAway", ZERO, names(MULTIANEWARRAY, 999, 1) + POP, RETURN),
        # By their opcodes these take no floats.
        *members(pool, floats=(STATICALLY, "B m ([F)V"), doubles=(STATICALLY, "java/lang/Math sort ([D)V")),
    ),
    "A 12",
    "A dynamic()V 0 9",
    "A dynamic()V 1 9",
    "A reflection()V 0 10",
    "A reflection()V 2 10",
    "A reflection()V 4 10",
    "A getClass()V 1 10",
    "A grid()V 2 15",
    "A gridAway()V 1 15",
    "A floats()V 1 18",
    "A doubles()V 1 17",
)
pool = Pool()
case(
    "17-18-beside-7-8-12-and-16",
    one(
        "I",
        pool,
        method("finalize", of_class(pool, CHECKCAST, "java/util/List"), RETURN, flags=PUBLIC),
        method("m", of_class(pool, CHECKCAST, "B"), RETURN, descriptor="(F)V"),
        native("n"),
        flags=AN_INTERFACE,
        fields=[("f", "F", STATIC)],
    ),
    "I fF 12",
    "I finalize()V 8",
    "I finalize()V 16",
    "I finalize()V 1 17",
    "I m(F)V 12",
    "I m(F)V 16",
    "I m(F)V 1 18",
    "I n()V 7",
)

# Where a rule of 1 to 6 is violated by any file, 17 and 18 are judged of none.


def far(name="A", **more):
    pool = Pool()
    casts = [of_class(pool, CHECKCAST, text) for text in ("java/util/List", "B")]
    return class_file(name, [method("m", *casts, opcode("breakpoint"), RETURN)], pool=pool, **more)


case("17-18-where-1-to-6-hold", {"A": far(), "Other": class_file("Other")}, "A m()V 1 17", "A m()V 4 18", "A m()V 6 14")
for name, file, path, rule in (
    ("1", b"", "Other", 1),
    ("2", class_file("Other", major=53), "Other", 2),
    ("3", class_file("Another"), "Other", 3),
    ("4", class_file("java/Other"), "java/Other", 4),
    ("6", class_file("Other", super_name="Absent"), "Other", 6),
):
    case("17-18-silent-by-%s" % name, {"A": far(), path: file}, "%s %d" % (path, rule), "A m()V 6 14")
case("17-18-silent-by-5", {"A": far(), "B": far()}, "A 5", "A m()V 6 14", "B 3", "B 5", "B m()V 6 14")
case("17-18-silent-by-their-own-file", {"A": far(super_name="Absent")}, "A 6", "A m()V 6 14")

# Members that only descriptors name, and classes that stand above: nobody looks for these.

pool = Pool()
case(
    "17-18-descriptors-name-anything",
    one(
        "A",
        pool,
        *members(pool, near=(STATICALLY, "A own (Ljava/util/List;)V"), nearField=(GETSTATIC, "A f Lcash/Purse;")),
        *declared("own(Ljava/util/List;)V"),
        *declared("other()Lcash/Purse;"),
        fields=[("f", "Lcash/Purse;", STATIC)],
    ),
)

# A chain of superclasses, through which a member is found at its top, and a lattice of interfaces.

pool = Pool()
above = {"A%d" % number: class_file("A%d" % number, super_name="A%d" % (number - 1)) for number in range(1, 60)}
above["A0"] = class_file("A0", declared("top()V", flags=PUBLIC), [("f", "I", STATIC)])
case(
    "18-chain-of-60",
    one("A", pool, *members(pool, near=(VIRTUAL, "A59 top ()V"), nearField=(GETSTATIC, "A f I"), absent=(VIRTUAL, "A bottom ()V")), super_name="A59") | above,
    "A absent()V 1 18",
)
pool = Pool()
lattice = {
    "I%d" % number: class_file(
        "I%d" % number,
        [("m%d" % number, "()V", ABSTRACTLY)],
        [("f%d" % number, "I", STATIC)],
        ["I%d" % other for other in range(number)],
        flags=AN_INTERFACE,
    )
    for number in range(30)
}
case(
    "18-lattice-of-30",
    one(
        "A",
        pool,
        *members(
            pool,
            near=(VIRTUAL, "A m0 ()V"),
            nearFace=(INTERFACE, "I29 m7 ()V"),
            nearField=(GETSTATIC, "A f0 I"),
            absent=(VIRTUAL, "A m30 ()V"),
            absentFace=(INTERFACE, "I7 m8 ()V"),
            absentField=(GETSTATIC, "I29 f30 I"),
        ),
        interfaces=["I29"],
        flags=A_CLASS | ABSTRACT,
    )
    | lattice,
    *lines("A", 18, absent=1, absentFace=1, absentField=0),
)


# A class that names what stands beside it and above it in each way; tests/special changes it byte by byte.


def linked_set():
    pool = Pool()
    uses = members(
        pool,
        a=(GETSTATIC, "A s I"),
        b=(PUTFIELD, "A f J"),
        c=(VIRTUAL, "A m ()V"),
        d=(SPECIAL, "B m ()V"),
        e=(STATICALLY, "B n (I)J"),
        g=(INTERFACE, "I i (J)I"),
        h=(STATICALLY, "I j ()V", INTERFACE_METHOD),
        k=(VIRTUAL, "[LA; hashCode ()I"),
        o=(SPECIAL, "java/lang/Error <init> ()V"),
    )
    uses += classes(pool, p=(NEW, "B"), q=(ANEWARRAY, "[I"), r=(CHECKCAST, "I"), t=(INSTANCEOF, "java/lang/Runnable"))
    uses.append(method("u", names(LDC, pool.string("m")) + POP, names(LDC2_W, pool.add(LONG)) + opcode("pop2"), RETURN))
    uses.append(handled(pool, "v", pool.class_name("java/lang/Exception"), pool.class_name("[LB;"), 0))
    return {
        "A": class_file("A", uses, [("s", "I", STATIC)], ["I"], super_name="B", flags=A_CLASS | ABSTRACT, pool=pool),
        "B": class_file("B", declared("m()V", flags=PUBLIC) + declared("n(I)J"), [("f", "J", PRIVATE)]),
        "I": class_file("I", [("i", "(J)I", ABSTRACTLY), ("j", "()V", ABSTRACTLY | STATIC)], flags=AN_INTERFACE),
    }


case("17-18-linked", linked_set())


# The same where a member's name is long, so that members are found by the numbers of their texts.


def with_long_name(files):
    """The same set, and a class of its own with a method of so long a name."""
    return files | {"c/zz/Long.class": class_file("zz/Long", declared("m" * 201 + "()V", flags=PUBLIC), flags=A_CLASS | ABSTRACT)}


for name, (files, wanted) in list(found.items()):
    if name.startswith("rule-18"):
        found[name + "-numbered"] = (with_long_name(files), wanted)
