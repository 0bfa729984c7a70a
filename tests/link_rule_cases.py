"""The cases of `djvm check FOLDER` on rule 17, and on the arrays and handlers of rules 17 and 18, in tests/cases; make_cases.py
makes their folders. rule_cases.py says how they are written, and resolution_cases.py has those on rule 18.

Most methods here have one instruction that names something: what it takes is pushed first, and what it leaves is taken away.
So its number is how much it takes. A method that no rule refuses is named `near` and so on.
"""

import re

from class_files import (
    A_CLASS,
    ABSTRACT,
    AN_INTERFACE,
    FIELD,
    INTEGER,
    INTERFACE_METHOD,
    METHOD,
    PUBLIC,
    STATIC,
    Pool,
    attribute,
    class_file,
    row,
)
from code_rule_cases import names, one
from instructions import instructions
from opcodes import numbers, opcode
from rule_cases import NOP, NULL, POP, RETURN, ZERO, case, method
from shaped_code import Frames, parameters, slots_of

GETSTATIC, PUTSTATIC, GETFIELD, PUTFIELD = numbers("getstatic putstatic getfield putfield")
VIRTUAL, SPECIAL, STATICALLY, INTERFACE, DYNAMIC = numbers("invokevirtual invokespecial invokestatic invokeinterface invokedynamic")
NEW, ANEWARRAY, CHECKCAST, INSTANCEOF, MULTIANEWARRAY = numbers("new anewarray checkcast instanceof multianewarray")

# What pushes and takes away a value that begins so in a descriptor.
PUSHES = dict.fromkeys("BCISZ", ZERO) | {"J": opcode("lconst_0"), "L": NULL, "[": NULL}
DROPS = {"V": b"", "J": opcode("pop2")}

FIELDS, METHODS = (GETSTATIC, PUTSTATIC, GETFIELD, PUTFIELD), (VIRTUAL, SPECIAL, STATICALLY, INTERFACE)
OF_STATICS = (GETSTATIC, PUTSTATIC, STATICALLY)


def uses(op, index, descriptor=""):
    """An instruction with this constant, as if its member had this descriptor, with what it takes and what it leaves."""
    if op == NEW:
        return names(op, index) + POP
    if op in (ANEWARRAY, CHECKCAST, INSTANCEOF):
        return (ZERO if op == ANEWARRAY else NULL) + names(op, index) + POP
    takes = [] if op in OF_STATICS else [NULL]
    if op in METHODS:
        takes += [PUSHES[text[0]] for text in parameters(descriptor)]
        leaves = descriptor[descriptor.index(")") + 1 :]
    else:
        takes += [PUSHES[descriptor[0]]] if op in (PUTSTATIC, PUTFIELD) else []
        leaves = "V" if op in (PUTSTATIC, PUTFIELD) else descriptor
    more = [1 + slots_of(descriptor), 0] if op == INTERFACE else []
    return b"".join(takes) + names(op, index, *more) + DROPS.get(leaves[0], POP)


def member(pool, op, text, tag=None):
    """An instruction on the member that is given as `CLASS NAME DESCRIPTOR`; the tag is the one that the instruction asks."""
    of_class, name, descriptor = text.split()
    asked = FIELD if op in FIELDS else INTERFACE_METHOD if op == INTERFACE else METHOD
    return uses(op, pool.member(tag or asked, of_class, name, descriptor), descriptor)


def of_class(pool, op, text):
    return uses(op, pool.class_name(text))


def members(pool, **named):
    """For each name a method with an instruction on a member, by an opcode, the member and a tag. None of them is such a member."""
    assert not any(each[1].endswith(" %s ()V" % name) for name in named for each in named.values())
    return [method(name, member(pool, *each), RETURN) for name, each in named.items()]


def classes(pool, **named):
    """For each name a method with an instruction on a class, by an opcode and the class."""
    return [method(name, of_class(pool, *each), RETURN) for name, each in named.items()]


def handled(pool, name, *catch_types, body=NOP + RETURN, flags=PUBLIC | STATIC):
    """A method whose handlers begin at instruction 2, one for each of these constants."""
    stack_map = Frames(pool).map_of("%d stack ref:java/lang/Throwable" % len(body))
    listed = row(1) + attribute(pool.text("StackMapTable"), stack_map)
    return method(name, body, POP, RETURN, handlers=[(0, len(body), len(body), index) for index in catch_types], listed=listed, flags=flags)


def declared(name, *others, flags=PUBLIC | STATIC):
    """Methods with code, given as name and descriptor."""
    ends = {"V": RETURN, "I": instructions("iconst_0, ireturn"), "J": instructions("lconst_0, lreturn")}
    parted = [(text[: text.index("(")], text[text.index("(") :]) for text in (name, *others)]
    return [method(each, ends.get(text[-1], instructions("aconst_null, areturn")), flags=flags, descriptor=text) for each, text in parted]


def lines(of_file, rule, **numbers):
    """The lines of methods `()V`, by the number of the instruction."""
    return ["%s %s()V %d %d" % (of_file, name, number, rule) for name, number in numbers.items()]


# 17 WHITELIST: the class.

EACH = {
    "new": (NEW, "%s"),
    "anewarray": (ANEWARRAY, "%s"),
    "checkcast": (CHECKCAST, "%s"),
    "instanceof": (INSTANCEOF, "%s"),
}
EACH_MEMBER = {
    "getstatic": (GETSTATIC, "%s f I"),
    "putstatic": (PUTSTATIC, "%s f I"),
    "getfield": (GETFIELD, "%s f I"),
    "putfield": (PUTFIELD, "%s f I"),
    "invokevirtual": (VIRTUAL, "%s m ()V"),
    "invokespecial": (SPECIAL, "%s m ()V"),
    "invokestatic": (STATICALLY, "%s m ()V"),
    "invokeinterface": (INTERFACE, "%s m ()V"),
}
AT = {"new": 0, "anewarray": 1, "checkcast": 1, "instanceof": 1, "getstatic": 0, "putstatic": 1, "getfield": 1, "putfield": 2}
AT |= {"invokevirtual": 1, "invokespecial": 1, "invokestatic": 0, "invokeinterface": 1}


def each(pool, text):
    """A method for each instruction that names a class or a member, all on the class of this text."""
    made = classes(pool, **{name: (op, form % text) for name, (op, form) in EACH.items()})
    return made + members(pool, **{name: (op, form % text) for name, (op, form) in EACH_MEMBER.items()})


for name, text, rule in (
    ("17-absent-by-each-instruction", "java/util/List", 17),
    ("17-absent-elements-by-each-instruction", "[[Ljavax/crypto/Mac;", 17),
    ("18-absent-by-each-instruction", "cash/Purse", 18),
    ("18-absent-elements-by-each-instruction", "[Lcash/Purse;", 18),
):
    pool = Pool()
    case(name, one("A", pool, *each(pool, text)), *lines("A", rule, **AT))

ABSENT = ("java/A", "java/lang/Integer", "java/lang/object", "java/lang/String/A", "java/util/ArrayList", "javax/a/B", "java/io/File")
NO_PACKAGE = ("java", "javax", "javas/A", "jav/A", "javaxx/B", "a/java/B", "Java/A", "sandbox/java/lang/Object", "lang/Object", "Object")
pool = Pool()
case(
    "17-packages",
    one(
        "A",
        pool,
        *classes(pool, **{"m%d" % place: (CHECKCAST, text) for place, text in enumerate(ABSENT)}),
        *classes(pool, **{"n%d" % place: (CHECKCAST, text) for place, text in enumerate(NO_PACKAGE)}),
    ),
    *("A m%d()V 1 17" % place for place in range(7)),
    *("A n%d()V 1 18" % place for place in range(10)),
)

LIBRARY = "Object String StringBuilder Math System Comparable CharSequence Runnable Cloneable java/io/Serializable Throwable Exception Error "
LIBRARY += "RuntimeException ArithmeticException ArrayStoreException ClassCastException IllegalArgumentException IllegalStateException "
LIBRARY += "IndexOutOfBoundsException NegativeArraySizeException NullPointerException UnsupportedOperationException "
LIBRARY += "ArrayIndexOutOfBoundsException StringIndexOutOfBoundsException"
LIBRARY = [text if "/" in text else "java/lang/" + text for text in LIBRARY.split()]
pool = Pool()
case(
    "17-classes-of-the-library",
    one(
        "A",
        pool,
        method("near", *(of_class(pool, op, text) for text in LIBRARY for op in (CHECKCAST, INSTANCEOF, ANEWARRAY)), RETURN),
        method("nearArrays", *(of_class(pool, op, "[L%s;" % text) for text in LIBRARY for op in (CHECKCAST, INSTANCEOF, ANEWARRAY)), RETURN),
        handled(pool, "nearHandlers", *map(pool.class_name, LIBRARY)),
    ),
)

# 17 WHITELIST: the member.

METHODS_OF = {
    "Object": "<init>()V equals(LObject;)Z hashCode()I toString()LString;",
    "String": "length()I isEmpty()Z toString()LString; charAt(I)C equals(LObject;)Z hashCode()I compareTo(LString;)I compareTo(LObject;)I "
    "startsWith(LString;)Z concat(LString;)LString; substring(I)LString; substring(II)LString; toCharArray()[C",
    "StringBuilder": "<init>()V <init>(LString;)V append(LString;)LStringBuilder; append(C)LStringBuilder; append(I)LStringBuilder; "
    "append(J)LStringBuilder; append(Z)LStringBuilder; length()I charAt(I)C toString()LString;",
    "Throwable": "<init>()V <init>(LString;)V <init>(LString;LThrowable;)V getMessage()LString; getCause()LThrowable;",
}
METHODS_OF |= {text[10:]: "<init>()V <init>(LString;)V" for text in LIBRARY if text.endswith(("Exception", "Error"))}
for name in "Exception RuntimeException Error IllegalArgumentException IllegalStateException UnsupportedOperationException".split():
    METHODS_OF[name] += " <init>(LString;LThrowable;)V"
STATICS_OF = {
    "String": "valueOf([C)LString; valueOf(C)LString; valueOf(I)LString; valueOf(J)LString; valueOf(Z)LString;",
    "Math": "abs(I)I abs(J)J max(II)I max(JJ)J min(II)I min(JJ)J",
    "System": "identityHashCode(LObject;)I arraycopy(LObject;ILObject;II)V",
}
INTERFACES_OF = {"Comparable": "compareTo(LObject;)I", "CharSequence": "length()I charAt(I)C toString()LString;", "Runnable": "run()V"}


def whole(text):
    """A descriptor whose names without a package are of java.lang."""
    return re.sub(r"L([A-Z]\w*);", r"Ljava/lang/\1;", text)


def each_member(kinds):
    """Each method as a member of its class."""
    for name, texts in kinds.items():
        for text in texts.split():
            yield "java/lang/%s %s %s" % (name, text[: text.index("(")], whole(text[text.index("(") :]))


def makes(pool, text):
    """An object of the class, made by the given constructor."""
    name, _, descriptor = text.split()
    made = names(NEW, pool.class_name(name)) + opcode("dup") + b"".join(PUSHES[each[0]] for each in parameters(descriptor))
    return made + names(SPECIAL, pool.member(METHOD, *text.split())) + POP


pool = Pool()
case(
    # Each method of the library once: 84 of them.
    "17-methods-of-the-library",
    one(
        "A",
        pool,
        method("near", *(makes(pool, text) for text in each_member(METHODS_OF) if "<init>" in text), RETURN),
        method("nearObjects", *(member(pool, VIRTUAL, text) for text in each_member(METHODS_OF) if "<init>" not in text), RETURN),
        method("nearStatics", *(member(pool, STATICALLY, text) for text in each_member(STATICS_OF)), RETURN),
        method("nearInterfaces", *(member(pool, INTERFACE, text) for text in each_member(INTERFACES_OF)), RETURN),
    ),
)
pool = Pool()
case(
    "17-methods-that-the-library-lacks",
    one(
        "A",
        pool,
        *members(
            pool,
            clone=(VIRTUAL, "java/lang/Object clone ()Ljava/lang/Object;"),
            monitor=(VIRTUAL, "java/lang/Object notify ()V"),
            capital=(VIRTUAL, "java/lang/Object hashcode ()I"),
            result=(VIRTUAL, "java/lang/Object hashCode ()J"),
            parameter=(VIRTUAL, "java/lang/String equals (Ljava/lang/String;)Z"),
            trim=(VIRTUAL, "java/lang/String trim ()Ljava/lang/String;"),
            valueOf=(STATICALLY, "java/lang/String valueOf (Ljava/lang/Object;)Ljava/lang/String;"),
            append=(VIRTUAL, "java/lang/StringBuilder append (Ljava/lang/Object;)Ljava/lang/StringBuilder;"),
            nanoTime=(STATICALLY, "java/lang/System nanoTime ()J"),
            currentTimeMillis=(STATICALLY, "java/lang/System currentTimeMillis ()J"),
            pow=(STATICALLY, "java/lang/Math abs (S)I"),
            trace=(VIRTUAL, "java/lang/Throwable printStackTrace ()V"),
            below=(VIRTUAL, "java/lang/Throwable length ()I"),
            # That without parameters is Object's, whether an object can be made or not.
            nearInit=(SPECIAL, "java/lang/String <init> ()V"),
            init=(SPECIAL, "java/lang/Object <init> (I)V"),
            face=(INTERFACE, "java/lang/Runnable stop ()V"),
            faceOfNone=(INTERFACE, "java/lang/Cloneable clone ()Ljava/lang/Object;"),
            field=(GETSTATIC, "java/lang/System out Ljava/io/PrintStream;"),
            message=(GETFIELD, "java/lang/Throwable message Ljava/lang/String;"),
            method=(GETFIELD, "java/lang/String length I"),
        ),
    ),
    *lines("A", 17, clone=1, monitor=1, capital=1, result=1, parameter=2, trim=1, valueOf=1, append=2, nanoTime=0, currentTimeMillis=0, pow=1),
    *lines("A", 17, trace=1, below=1, init=2, face=1, faceOfNone=1, field=0, message=1, method=1),
)
pool = Pool()
case(
    "17-methods-from-above",
    one(
        "A",
        pool,
        *members(
            pool,
            # From a superclass, from Object for an interface, and from interfaces above a class of the set.
            near=(VIRTUAL, "java/lang/StringBuilder hashCode ()I"),
            nearText=(VIRTUAL, "java/lang/ArithmeticException toString ()Ljava/lang/String;"),
            nearMessage=(VIRTUAL, "java/lang/ArrayIndexOutOfBoundsException getMessage ()Ljava/lang/String;"),
            nearCause=(SPECIAL, "java/lang/ArithmeticException <init> (Ljava/lang/String;Ljava/lang/Throwable;)V"),
            nearMath=(VIRTUAL, "java/lang/Math equals (Ljava/lang/Object;)Z"),
            nearFace=(INTERFACE, "java/lang/Runnable hashCode ()I"),
            nearEmpty=(INTERFACE, "java/io/Serializable toString ()Ljava/lang/String;"),
            nearOwn=(VIRTUAL, "A getMessage ()Ljava/lang/String;"),
            nearAbove=(SPECIAL, "java/lang/Exception getCause ()Ljava/lang/Throwable;"),
            nearListed=(VIRTUAL, "A charAt (I)C"),
            nearDeep=(INTERFACE, "I compareTo (Ljava/lang/Object;)I"),
            # A class of the set isn't the library's, though the method would be.
            own=(VIRTUAL, "A getStackTrace ()I"),
            ownListed=(INTERFACE, "I length ()I"),
            # Object has it not, whatever stands below.
            above=(VIRTUAL, "java/lang/Object getMessage ()Ljava/lang/String;"),
        ),
        super_name="java/lang/ArithmeticException",
        interfaces=["java/lang/CharSequence"],
        flags=A_CLASS | ABSTRACT,
    )
    | {"I": class_file("I", interfaces=["java/lang/Runnable", "java/lang/Comparable"], flags=AN_INTERFACE)},
    "A above()V 1 17",
    "A own()V 1 18",
    "A ownListed()V 1 18",
)

# 17 WHITELIST: new.

NO_OBJECTS = ("java/lang/String", "java/lang/Math", "java/lang/System", "java/io/Serializable")
NO_OBJECTS += tuple("java/lang/" + text for text in ("Comparable", "CharSequence", "Runnable", "Cloneable"))
pool = Pool()
case(
    "17-new",
    one(
        "A",
        pool,
        *classes(pool, **{"m%d" % place: (NEW, text) for place, text in enumerate(NO_OBJECTS)}),
        method("near", *(of_class(pool, NEW, text) for text in LIBRARY if text not in NO_OBJECTS), RETURN),
        *classes(pool, array=(NEW, "[Ljava/lang/Object;"), arrayOfNone=(NEW, "[Ljava/lang/Math;"), ints=(NEW, "[I")),
        *classes(pool, absent=(NEW, "[Ljava/util/List;")),
    ),
    *("A m%d()V 0 17" % place for place in range(8)),
    "A array()V 0 18",
    "A arrayOfNone()V 0 18",
    "A ints()V 0 18",
    "A absent()V 0 17",
)

# 17 and 18: arrays.

pool = Pool()
case(
    "17-arrays",
    one(
        "A",
        pool,
        *members(
            pool,
            near=(VIRTUAL, "[I hashCode ()I"),
            nearOwn=(VIRTUAL, "[[LA; equals (Ljava/lang/Object;)Z"),
            nearText=(VIRTUAL, "[Ljava/lang/String; toString ()Ljava/lang/String;"),
            nearFace=(VIRTUAL, "[Ljava/lang/Runnable; toString ()Ljava/lang/String;"),
            nearInit=(SPECIAL, "[I <init> ()V"),
            # Members are looked up in Object; the class is that of the elements.
            ints=(VIRTUAL, "[I clone ()Ljava/lang/Object;"),
            intsField=(GETFIELD, "[[I length I"),
            texts=(VIRTUAL, "[Ljava/lang/String; length ()I"),
            own=(VIRTUAL, "[LA; clone ()Ljava/lang/Object;"),
            ownMember=(STATICALLY, "[LA; here ()V"),
            ownField=(GETSTATIC, "[LA; f I"),
            # The elements' class isn't there.
            absent=(VIRTUAL, "[Ljava/util/List; hashCode ()I"),
            away=(VIRTUAL, "[LB; hashCode ()I"),
            # A method of an interface, one of a superclass, and one that is static.
            face=(INTERFACE, "[Ljava/lang/Runnable; hashCode ()I"),
            faceOwn=(STATICALLY, "[LA; hashCode ()I", INTERFACE_METHOD),
            special=(SPECIAL, "[LA; hashCode ()I"),
            specialInts=(SPECIAL, "[I hashCode ()I"),
            static=(STATICALLY, "[I hashCode ()I"),
        ),
        *declared("here()V"),
        fields=[("f", "I", STATIC)],
    ),
    *lines("A", 17, ints=1, intsField=1, texts=1, absent=1),
    *lines("A", 18, own=1, ownMember=0, ownField=0, away=1, face=1, faceOwn=0, special=1, specialInts=1, static=0),
)
pool = Pool()
deep = "[" * 255
case(
    "18-dimensions",
    one(
        "A",
        pool,
        *classes(
            pool,
            ints=(ANEWARRAY, deep + "I"),
            own=(ANEWARRAY, deep + "LA;"),
            near=(ANEWARRAY, deep[1:] + "I"),
            nearOwn=(ANEWARRAY, deep[1:] + "LA;"),
            nearCast=(CHECKCAST, deep + "I"),
            nearInstance=(INSTANCEOF, deep + "LA;"),
            absent=(ANEWARRAY, deep + "Ljava/util/List;"),
            away=(ANEWARRAY, deep[1:] + "LB;"),
        ),
        *members(pool, nearMember=(VIRTUAL, deep + "I hashCode ()I")),
    ),
    *lines("A", 18, ints=1, own=1, away=1),
    "A absent()V 1 17",
)

# 17 and 18: handlers.

pool = Pool()
absent, away, own, text = (pool.class_name(name) for name in ("java/util/NoSuchElementException", "B", "A", "java/lang/String"))
arrays = [pool.class_name(name) for name in ("[I", "[LA;", "[Ljava/lang/ThreadDeath;", "[Ljava/util/List;", "[LB;")]
named = ("java/lang/Object hashCode ()I", "java/lang/Object m ()V", "A m ()V", "B m ()V", "java/util/List m ()V")
methods = [pool.member(METHOD, *each.split()) for each in named]
others = [pool.string("x"), pool.add(INTEGER), pool.text("A"), 999, pool.name_and_type("m", "()V")]
case(
    "17-18-handlers",
    one(
        "A",
        pool,
        handled(pool, "near", own, text, arrays[0], arrays[1], 0),
        handled(pool, "absent", absent),
        handled(pool, "away", away),
        *(handled(pool, "arrays%d" % place, index) for place, index in enumerate(arrays[2:])),
        *(handled(pool, "methods%d" % place, index) for place, index in enumerate(methods)),
        *(handled(pool, "others%d" % place, index) for place, index in enumerate(others)),
        # Each row by itself.
        handled(pool, "several", away, absent, own, away, absent),
    ),
    *lines("A", 17, absent=2, arrays0=2, arrays1=2, methods1=2, methods4=2, several=2),
    *lines("A", 18, away=2, arrays2=2, methods0=2, methods2=2, methods3=2, others0=2, others1=2, others2=2, others3=2, others4=2, several=2),
)
pool = Pool()
death, absent, away = (pool.class_name(name) for name in ("java/lang/ThreadDeath", "java/util/List", "B"))


def returning(name, first, *catch_types):
    """A method whose handlers begin at its first instruction, which takes what they catch."""
    rows = [(len(first), len(first) + 1, 0, index) for index in catch_types]
    return method(name, first, RETURN, descriptor="(Ljava/lang/Throwable;)V", handlers=rows)


case(
    "17-18-handlers-and-their-first-instruction",
    one(
        "A",
        pool,
        # The row and the instruction have lines of their own: neither silences the other.
        returning("cast", names(CHECKCAST, absent) + POP, death, away),
        returning("castAway", names(CHECKCAST, away) + POP, death, absent),
        returning("halt", instructions("breakpoint, pop"), absent),
        returning("both", names(CHECKCAST, absent) + POP, absent),
        returning("reflection", names(CHECKCAST, pool.class_name("java/lang/Class")) + POP, away, death),
    ),
    "A cast(Ljava/lang/Throwable;)V 0 11",
    "A cast(Ljava/lang/Throwable;)V 0 17",
    "A cast(Ljava/lang/Throwable;)V 0 18",
    "A castAway(Ljava/lang/Throwable;)V 0 11",
    "A castAway(Ljava/lang/Throwable;)V 0 17",
    "A castAway(Ljava/lang/Throwable;)V 0 18",
    "A halt(Ljava/lang/Throwable;)V 0 14",
    "A halt(Ljava/lang/Throwable;)V 0 17",
    "A both(Ljava/lang/Throwable;)V 0 17",
    "A reflection(Ljava/lang/Throwable;)V 0 10",
    "A reflection(Ljava/lang/Throwable;)V 0 11",
    "A reflection(Ljava/lang/Throwable;)V 0 18",
)


# No line of these rules where superclasses go round, and no search for members among them.

pool, below = Pool(), Pool()
named = {"field": (GETSTATIC, "%s f I"), "method": (STATICALLY, "%s m ()V"), "virtual": (VIRTUAL, "%s n ()V"), "interface": (INTERFACE, "%s o ()V")}
case(
    "06-cycle-whose-members-are-named",
    one("A", pool, *members(pool, **{name: (op, form % "A") for name, (op, form) in named.items()}), super_name="B")
    | {"B": class_file("B", super_name="A")}
    | one("C", below, *members(below, **{name: (op, form % "C") for name, (op, form) in named.items()}), super_name="B"),
    "A 6",
    "B 6",
)

# The first example's class, which returns its argument, with another superclass or another call before that.

ITS_ARGUMENT = instructions("aload_0, areturn")


def first_class(*called, **more):
    pool = Pool()
    body = [member(pool, STATICALLY, text) for text in called]
    return one("A", pool, method("verify", *body, ITS_ARGUMENT, descriptor="([B)[B"), **more)


case("06-first-class-below-an-absent-one", first_class(super_name="x/Y"), "A 6")
case("17-first-class-calls-yield", first_class("java/lang/Thread yield ()V"), "A verify([B)[B 0 17")
case("18-first-class-calls-what-it-lacks", first_class("A g ()V"), "A verify([B)[B 0 18")
