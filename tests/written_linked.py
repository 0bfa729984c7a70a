"""The cases linked-* of tests/written on the rules 17 and 18, WHITELIST and UNRESOLVED: what code names must be there, and be what is asked.

`uses` makes a method of instructions that name something, each behind what pushes what it takes, and `caught` one of handlers (written_base.py).
"""

from class_files import (
    A_CLASS,
    ABSTRACT,
    AN_INTERFACE,
    FIELD,
    FINAL,
    INTERFACE_METHOD,
    METHOD,
    NATIVE,
    OBJECT,
    PUBLIC,
    RETURNS_ITS_ARGUMENT,
    STATIC,
    class_file,
    code,
    invoke_dynamic,
    method_handle,
    method_type,
    u2,
)
from instructions import instructions
from opcodes import OPCODES
from shaped_code import Method
from written_base import caught, check, coded, integer_entry, pool_of, uses, wide_entry

# The two rules are judged where the rules 1 to 6 hold of the whole set, and beside the others.

named = Method("m", "invokestatic java/lang/Thread yield ()V, invokestatic x/Y m ()V, breakpoint, return")
B = coded("B", named, ("n", "()V", PUBLIC | NATIVE))
for name, files in {
    "none": {"A": class_file("A")},
    "rule-1": {"A": RETURNS_ITS_ARGUMENT[:60]},
    "rule-2": {"A": class_file("A", major=53)},
    "rule-3": {"A": class_file("a")},
    "rule-4": {"java/A": class_file("java/A")},
    "rule-5": {"A": class_file("A"), "a": class_file("A")},
    "rule-6": {"A": class_file("A", super_name="x/Y")},
    "rule-6-cycle": {"A": class_file("A", super_name="A")},
    "rule-6-final": {"A": class_file("A", super_name="java/lang/String")},
    "rule-6-interface": {"A": class_file("A", interfaces=[OBJECT])},
    "rule-6-super-0": {"A": class_file("A", super_name=None)},
    "rule-6-twice": {"A": coded("A", fields=[("x", "I", PUBLIC | STATIC)] * 2)},
}.items():
    check("linked-judged-" + name, {**files, "B": B})
check(
    "linked-judged-beside-7-and-16",
    {
        "A": coded(
            "A",
            ("n", "()V", PUBLIC | NATIVE),
            Method("f(F)V", "invokestatic java/lang/Thread yield ()V, return"),
            Method("finalize", "invokestatic x/Y m ()V, return"),
            Method("d", "fconst_0, invokestatic x/Y m (F)V, return"),
        ),
        "I": coded("I", Method("m", "invokestatic x/Y m ()V, return"), flags=AN_INTERFACE),
    },
)
catches = "A: nop, B: return, C: {stack ref:java/lang/Throwable} checkcast %s, pop, return"
check(
    "linked-judged-handlers",
    {
        "A": coded(
            "A",
            Method("a", catches % "java/lang/Class", "A B C java/lang/Thread,A B C x/Y,A B C java/lang/ThreadDeath"),
            Method("b", catches % "java/lang/Thread", "A B C x/Y,A B C x/Y"),
            Method("c", catches % "x/Y", "A B C java/lang/ThreadDeath"),
        ),
    },
)
breaks = Method("m", "breakpoint, return")
check(
    "linked-judged-order",
    {
        "A$C": coded("A$C", breaks),
        "A": coded("A", breaks),
        "B": coded(
            "B",
            Method("z", "breakpoint, ldc class:B, pop, invokestatic x/Y m ()V, new java/lang/Thread, pop, jsr A, A: return"),
            ("n", "(F)V", PUBLIC | NATIVE),
            Method("a", "invokedynamic x (D)V, return"),
            fields=[("f", "F", PUBLIC | STATIC)],
        ),
        "a/B": coded("a/B", Method("b", "breakpoint, return"), Method("B", "breakpoint, return")),
    },
)

# The library, and what isn't in it.

check(
    "linked-library-all",
    {
        "A": coded(
            "A",
            uses(
                "m0",
                "invokespecial java/lang/Object <init> ()V", "invokevirtual java/lang/Object equals (Ljava/lang/Object;)Z",
                "invokevirtual java/lang/Object hashCode ()I", "invokevirtual java/lang/Object toString ()Ljava/lang/String;",
            ),
            uses(
                "m1",
                "invokevirtual java/lang/String length ()I", "invokevirtual java/lang/String isEmpty ()Z",
                "invokevirtual java/lang/String toString ()Ljava/lang/String;", "invokevirtual java/lang/String charAt (I)C",
                "invokevirtual java/lang/String equals (Ljava/lang/Object;)Z", "invokevirtual java/lang/String hashCode ()I",
                "invokevirtual java/lang/String compareTo (Ljava/lang/String;)I",
                "invokevirtual java/lang/String compareTo (Ljava/lang/Object;)I",
                "invokevirtual java/lang/String startsWith (Ljava/lang/String;)Z",
                "invokevirtual java/lang/String concat (Ljava/lang/String;)Ljava/lang/String;",
                "invokevirtual java/lang/String substring (I)Ljava/lang/String;",
                "invokevirtual java/lang/String substring (II)Ljava/lang/String;", "invokevirtual java/lang/String toCharArray ()[C",
                "invokestatic java/lang/String valueOf ([C)Ljava/lang/String;",
                "invokestatic java/lang/String valueOf (C)Ljava/lang/String;",
                "invokestatic java/lang/String valueOf (I)Ljava/lang/String;",
                "invokestatic java/lang/String valueOf (J)Ljava/lang/String;",
                "invokestatic java/lang/String valueOf (Z)Ljava/lang/String;",
            ),
            uses(
                "m2",
                "invokespecial java/lang/StringBuilder <init> ()V", "invokespecial java/lang/StringBuilder <init> (Ljava/lang/String;)V",
                "invokevirtual java/lang/StringBuilder append (Ljava/lang/String;)Ljava/lang/StringBuilder;",
                "invokevirtual java/lang/StringBuilder append (C)Ljava/lang/StringBuilder;",
                "invokevirtual java/lang/StringBuilder append (I)Ljava/lang/StringBuilder;",
                "invokevirtual java/lang/StringBuilder append (J)Ljava/lang/StringBuilder;",
                "invokevirtual java/lang/StringBuilder append (Z)Ljava/lang/StringBuilder;",
                "invokevirtual java/lang/StringBuilder length ()I", "invokevirtual java/lang/StringBuilder charAt (I)C",
                "invokevirtual java/lang/StringBuilder toString ()Ljava/lang/String;",
            ),
            uses(
                "m3",
                "invokevirtual java/lang/Throwable getMessage ()Ljava/lang/String;",
                "invokevirtual java/lang/Throwable getCause ()Ljava/lang/Throwable;",
            ),
            uses(
                "m4",
                "invokestatic java/lang/Math abs (I)I", "invokestatic java/lang/Math abs (J)J", "invokestatic java/lang/Math max (II)I",
                "invokestatic java/lang/Math max (JJ)J", "invokestatic java/lang/Math min (II)I", "invokestatic java/lang/Math min (JJ)J",
            ),
            uses(
                "m5",
                "invokestatic java/lang/System identityHashCode (Ljava/lang/Object;)I",
                "invokestatic java/lang/System arraycopy (Ljava/lang/Object;ILjava/lang/Object;II)V",
            ),
            uses("m6", "invokeinterface java/lang/Comparable compareTo (Ljava/lang/Object;)I"),
            uses(
                "m7",
                "invokeinterface java/lang/CharSequence length ()I", "invokeinterface java/lang/CharSequence charAt (I)C",
                "invokeinterface java/lang/CharSequence toString ()Ljava/lang/String;",
            ),
            uses("m8", "invokeinterface java/lang/Runnable run ()V"),
            uses(
                "m9",
                "invokespecial java/lang/Throwable <init> ()V", "invokespecial java/lang/Throwable <init> (Ljava/lang/String;)V",
                "invokespecial java/lang/Throwable <init> (Ljava/lang/String;Ljava/lang/Throwable;)V",
            ),
            uses(
                "m10",
                "invokespecial java/lang/Exception <init> ()V", "invokespecial java/lang/Exception <init> (Ljava/lang/String;)V",
                "invokespecial java/lang/Exception <init> (Ljava/lang/String;Ljava/lang/Throwable;)V",
            ),
            uses(
                "m11",
                "invokespecial java/lang/Error <init> ()V", "invokespecial java/lang/Error <init> (Ljava/lang/String;)V",
                "invokespecial java/lang/Error <init> (Ljava/lang/String;Ljava/lang/Throwable;)V",
            ),
            uses(
                "m12",
                "invokespecial java/lang/RuntimeException <init> ()V",
                "invokespecial java/lang/RuntimeException <init> (Ljava/lang/String;)V",
                "invokespecial java/lang/RuntimeException <init> (Ljava/lang/String;Ljava/lang/Throwable;)V",
            ),
            uses(
                "m13",
                "invokespecial java/lang/ArithmeticException <init> ()V",
                "invokespecial java/lang/ArithmeticException <init> (Ljava/lang/String;)V",
            ),
            uses(
                "m14",
                "invokespecial java/lang/ArrayStoreException <init> ()V",
                "invokespecial java/lang/ArrayStoreException <init> (Ljava/lang/String;)V",
            ),
            uses(
                "m15",
                "invokespecial java/lang/ClassCastException <init> ()V",
                "invokespecial java/lang/ClassCastException <init> (Ljava/lang/String;)V",
            ),
            uses(
                "m16",
                "invokespecial java/lang/IllegalArgumentException <init> ()V",
                "invokespecial java/lang/IllegalArgumentException <init> (Ljava/lang/String;)V",
                "invokespecial java/lang/IllegalArgumentException <init> (Ljava/lang/String;Ljava/lang/Throwable;)V",
            ),
            uses(
                "m17",
                "invokespecial java/lang/IllegalStateException <init> ()V",
                "invokespecial java/lang/IllegalStateException <init> (Ljava/lang/String;)V",
                "invokespecial java/lang/IllegalStateException <init> (Ljava/lang/String;Ljava/lang/Throwable;)V",
            ),
            uses(
                "m18",
                "invokespecial java/lang/IndexOutOfBoundsException <init> ()V",
                "invokespecial java/lang/IndexOutOfBoundsException <init> (Ljava/lang/String;)V",
            ),
            uses(
                "m19",
                "invokespecial java/lang/NegativeArraySizeException <init> ()V",
                "invokespecial java/lang/NegativeArraySizeException <init> (Ljava/lang/String;)V",
            ),
            uses(
                "m20",
                "invokespecial java/lang/NullPointerException <init> ()V",
                "invokespecial java/lang/NullPointerException <init> (Ljava/lang/String;)V",
            ),
            uses(
                "m21",
                "invokespecial java/lang/UnsupportedOperationException <init> ()V",
                "invokespecial java/lang/UnsupportedOperationException <init> (Ljava/lang/String;)V",
                "invokespecial java/lang/UnsupportedOperationException <init> (Ljava/lang/String;Ljava/lang/Throwable;)V",
            ),
            uses(
                "m22",
                "invokespecial java/lang/ArrayIndexOutOfBoundsException <init> ()V",
                "invokespecial java/lang/ArrayIndexOutOfBoundsException <init> (Ljava/lang/String;)V",
            ),
            uses(
                "m23",
                "invokespecial java/lang/StringIndexOutOfBoundsException <init> ()V",
                "invokespecial java/lang/StringIndexOutOfBoundsException <init> (Ljava/lang/String;)V",
            ),
        ),
    },
)
check(
    "linked-library-not",
    {
        "A": coded(
            "A",
            uses("m00", "invokespecial java/lang/String <init> ([C)V"),
            uses("m01", "invokevirtual java/lang/String valueOf (Ljava/lang/Object;)Ljava/lang/String;"),
            uses("m02", "invokevirtual java/lang/String indexOf (I)I"),
            uses("m03", "invokevirtual java/lang/StringBuilder append (Ljava/lang/Object;)Ljava/lang/StringBuilder;"),
            uses("m04", "invokevirtual java/lang/StringBuilder append ([C)Ljava/lang/StringBuilder;"),
            uses("m05", "invokevirtual java/lang/StringBuilder append (Ljava/lang/CharSequence;)Ljava/lang/StringBuilder;"),
            uses("m06", "invokespecial java/lang/StringBuilder <init> (I)V"),
            uses("m07", "invokevirtual java/lang/StringBuilder isEmpty ()Z"),
            uses("m08", "invokevirtual java/lang/StringBuilder compareTo (Ljava/lang/Object;)I"),
            uses("m09", "invokespecial java/lang/ArithmeticException <init> (Ljava/lang/Throwable;)V"),
            uses("m10", "invokespecial java/lang/Throwable <init> (Ljava/lang/Throwable;)V"),
            uses("m11", "invokevirtual java/lang/Throwable fillInStackTrace ()Ljava/lang/Throwable;"),
            uses("m12", "invokevirtual java/lang/Object clone ()Ljava/lang/Object;"),
            uses("m13", "invokevirtual java/lang/Object notify ()V"),
            uses("m14", "invokevirtual java/lang/Throwable addSuppressed (Ljava/lang/Throwable;)V"),
            uses("m15", "invokevirtual java/lang/Throwable toString ()Ljava/lang/String;"),
            uses("m16", "invokevirtual java/lang/StringBuilder hashCode ()I"),
            uses("m17", "invokevirtual java/lang/StringBuilder equals (Ljava/lang/Object;)Z"),
            uses("m18", "invokevirtual java/lang/Exception getCause ()Ljava/lang/Throwable;"),
        ),
    },
)
check(
    "linked-rule-17-arrays",
    {
        "A": coded(
            "A",
            uses(
                "m",
                "invokevirtual [B hashCode ()I", "invokevirtual [B length ()I", "invokevirtual [Ljava/lang/String; length ()I",
                "invokevirtual [LA; length ()I", "invokevirtual [[LA; toString ()Ljava/lang/String;",
                "invokevirtual [I clone ()Ljava/lang/Object;", "invokevirtual [LA; clone ()Ljava/lang/Object;",
                "invokevirtual [Lx/Y; hashCode ()I",
            ),
            uses("f", "getstatic [I length I", "getstatic [LA; f I"),
            uses(
                "s",
                "invokespecial [LA; hashCode ()I", "invokespecial [I hashCode ()I", "invokespecial [LA; <init> ()V",
                "invokeinterface [LI; hashCode ()I", "invokevirtual [LI; hashCode ()I",
            ),
            fields=[("f", "I", PUBLIC | STATIC)],
        ),
        "I": class_file("I", flags=AN_INTERFACE),
    },
)
check(
    "linked-rule-17-classes",
    {
        "A": coded(
            "A",
            uses(
                "a",
                "getstatic java/lang/Thread x I", "putstatic java/lang/Thread x I", "getfield java/lang/Thread x I",
                "putfield java/lang/Thread x I",
            ),
            uses(
                "b",
                "invokevirtual java/lang/Thread run ()V", "invokespecial java/lang/Thread <init> ()V",
                "invokestatic java/lang/Thread yield ()V", "invokeinterface java/util/List clear ()V",
            ),
            uses(
                "c",
                "new java/lang/Thread", "anewarray java/lang/Thread", "checkcast java/lang/Thread", "instanceof javax/swing/X",
                "checkcast [[Ljava/util/List;", "anewarray [Ljavax/x;",
            ),
            caught("d", "java/io/IOException"),
            Method(
                "near",
                "aconst_null, checkcast java/lang/Object, checkcast [Ljava/lang/Throwable;, checkcast [[Ljava/io/Serializable;, pop, "
                "iconst_1, anewarray java/lang/String, pop, aconst_null, instanceof java/lang/Runnable, pop, return",
            ),
            uses("e", "checkcast java/lang/Integer", "checkcast java/lang/string", "checkcast java/lang"),
            uses("f", "checkcast javaz/Q", "checkcast java"),
        ),
    },
)
check(
    "linked-rule-17-members",
    {
        "A": coded(
            "A",
            uses(
                "a",
                "getstatic java/lang/System out Ljava/io/PrintStream;", "getfield java/lang/Throwable message Ljava/lang/String;",
                "invokevirtual java/lang/Object nope ()V", "invokevirtual java/lang/Object hashCode ()J",
                "invokevirtual java/lang/Object wait ()V",
            ),
            Method(
                "b",
                "invokestatic java/lang/String format (Ljava/lang/String;[Ljava/lang/Object;)Ljava/lang/String;, pop, aconst_null, "
                "invokevirtual java/lang/StringBuilder append (Ljava/lang/Object;)Ljava/lang/StringBuilder;, pop, "
                "invokestatic java/lang/System nanoTime ()J, pop2, invokestatic java/lang/Math addExact (II)I, pop, return",
            ),
            Method(
                "c",
                "aconst_null, invokevirtual java/lang/Throwable printStackTrace ()V, aconst_null, "
                "invokespecial java/lang/ArithmeticException <init> (Ljava/lang/String;Ljava/lang/Throwable;)V, aconst_null, "
                "invokespecial java/lang/String <init> ()V, aconst_null, invokeinterface java/lang/Runnable walk ()V, return",
            ),
            uses(
                "ok",
                "invokevirtual java/lang/NullPointerException getMessage ()Ljava/lang/String;",
                "invokevirtual java/lang/NullPointerException hashCode ()I", "invokeinterface java/lang/CharSequence hashCode ()I",
                "invokevirtual java/lang/StringBuilder toString ()Ljava/lang/String;",
                "invokevirtual java/lang/Math toString ()Ljava/lang/String;",
            ),
            uses("init", "invokespecial java/lang/Math <init> ()V", "invokespecial java/lang/String <init> ()V"),
        ),
    },
)
check(
    "linked-rule-17-new",
    {
        "A": coded(
            "A",
            uses(
                "m",
                "new java/lang/Object", "new java/lang/StringBuilder", "new java/lang/Throwable", "new java/lang/Exception",
                "new java/lang/Error", "new java/lang/RuntimeException", "new java/lang/ArithmeticException",
                "new java/lang/ArrayStoreException", "new java/lang/ClassCastException", "new java/lang/IllegalArgumentException",
                "new java/lang/IllegalStateException", "new java/lang/IndexOutOfBoundsException",
                "new java/lang/NegativeArraySizeException", "new java/lang/NullPointerException",
                "new java/lang/UnsupportedOperationException", "new java/lang/ArrayIndexOutOfBoundsException",
                "new java/lang/StringIndexOutOfBoundsException", "new java/lang/String", "new java/lang/Math", "new java/lang/System",
                "new java/lang/Comparable", "new java/lang/CharSequence", "new java/lang/Runnable", "new java/lang/Cloneable",
                "new java/io/Serializable", "new java/lang/Enum", "new java/lang/LinkageError", "new [Ljava/lang/Math;", "new [I",
                "new [Ljava/lang/Object;", "new [Ljava/lang/Thread;",
            ),
        ),
    },
)
check(
    "linked-rule-18-classes",
    {
        "A": coded(
            "A",
            uses("a", "getstatic x/Y x I", "putstatic x/Y x I", "getfield x/Y x I", "putfield x/Y x I"),
            uses("b", "invokevirtual x/Y run ()V", "invokespecial x/Y <init> ()V", "invokestatic x/Y m ()V", "invokeinterface x/Y m ()V"),
            uses("c", "new x/Y", "anewarray x/Y", "checkcast x/Y", "instanceof x/Y", "checkcast [[Lx/Y;", "anewarray [Lx/Y;"),
            caught("d", "x/Y", "[Lx/Y;", None),
            Method(
                "near",
                "aconst_null, checkcast A, checkcast [LA;, checkcast [[I, pop, new A, pop, iconst_1, anewarray [[J, pop, return",
            ),
            caught("h", "[I", "A", "[LA;"),
            ("t", "(Lx/Y;)[Lx/Y;", PUBLIC | ABSTRACT),
        ),
    },
)
check(
    "linked-rule-18-init",
    {
        "A": coded(
            "A",
            Method("<init>", "aload_0, invokespecial java/lang/Object <init> ()V, return", flags=PUBLIC, stack=1, locals=1),
            Method("<clinit>", "return", flags=STATIC),
            Method("<clinit>(I)V", "return"),
            uses(
                "a",
                "getstatic A <init> I", "getstatic A <clinit> I", "getstatic A <x> I", "invokevirtual A <init> ()V",
                "invokestatic A <clinit> ()V", "invokestatic A <clinit> (I)V", "invokespecial A <init> ()V",
                "invokespecial java/lang/Object <init> ()V", "invokespecial B <init> ()V", "invokeinterface I <init> ()V",
                "invokespecial interface:I <init> ()V",
            ),
            fields=[("<init>", "I", PUBLIC | STATIC), ("<clinit>", "I", PUBLIC | STATIC), ("<x>", "I", PUBLIC | STATIC)],
        ),
        "B": class_file("B", super_name="A"),
        "I": class_file("I", flags=AN_INTERFACE),
    },
)
pool = pool_of(("I",), (OBJECT,), "c", "ConstantValue", integer_entry(5), "q", "()V")
constant = ("c", "I", PUBLIC | STATIC | FINAL, [("ConstantValue", u2(pool.count - 3))])
with_constant = class_file("I", [("q", "()V", PUBLIC | ABSTRACT)], [constant], flags=AN_INTERFACE, pool=pool)
check(
    "linked-rule-18-members",
    {
        "A": coded(
            "A",
            Method("m", "return", flags=PUBLIC),
            Method("t", "return"),
            Method(
                "a",
                "getstatic A nope I, pop, getstatic A s J, pop2, aconst_null, getfield A nope I, pop, invokestatic A nope ()V, "
                "invokestatic A t ()I, pop, invokestatic A t (I)V, aconst_null, invokevirtual A nope ()V, return",
            ),
            Method(
                "ok",
                "getstatic A s I, putstatic A s I, aconst_null, getfield A i I, pop, aconst_null, invokevirtual A m ()V, "
                "invokestatic A t ()V, getstatic B s I, pop, invokestatic B t ()V, getstatic B c I, pop, aconst_null, "
                "invokevirtual B q ()V, aconst_null, invokevirtual B hashCode ()I, pop, return",
            ),
            fields=[("s", "I", PUBLIC | STATIC), ("i", "I", PUBLIC)],
        ),
        "B": class_file("B", super_name="A", interfaces=["I"], flags=A_CLASS | ABSTRACT),
        "C": class_file("C", super_name="B", flags=A_CLASS | ABSTRACT),
        "D": coded(
            "D",
            uses("a", "getstatic C c I", "getfield E i I", "invokestatic E t ()V", "invokevirtual E q ()V"),
        ),
        "E": class_file("E", super_name="C"),
        "I": with_constant,
    },
)
check(
    "linked-rule-18-new",
    {
        "A": coded("A", Method("m", "new I, pop, new Abs, pop, new Fin, pop, new A, pop, new [LA;, pop, new Ann, pop, return")),
        "Abs": class_file("Abs", flags=A_CLASS | ABSTRACT),
        "Ann": class_file("Ann", flags=0x2600),
        "Fin": class_file("Fin", flags=A_CLASS | FINAL),
        "I": class_file("I", flags=AN_INTERFACE),
    },
)
check(
    "linked-rule-18-refs",
    {
        "A": coded(
            "A",
            Method("t", "return"),
            Method("m", "return", flags=PUBLIC),
            uses(
                "a",
                "invokevirtual I q ()V", "invokeinterface I q ()V", "invokeinterface A m ()V", "invokestatic interface:A t ()V",
                "invokestatic I st ()V", "invokestatic interface:I st ()V", "invokespecial interface:A m ()V",
                "invokevirtual java/lang/Runnable run ()V", "invokeinterface java/lang/Object hashCode ()I",
                "invokeinterface I hashCode ()I", "invokevirtual I hashCode ()I",
            ),
        ),
        "I": coded("I", ("q", "()V", PUBLIC | ABSTRACT), ("st", "()V", PUBLIC | STATIC | ABSTRACT), flags=AN_INTERFACE),
    },
)
check(
    "linked-rule-18-special",
    {
        "A": class_file("A", super_name="B"),
        "B": coded("B", Method("m", "return", flags=PUBLIC), super_name="Top"),
        "Below": class_file("Below", super_name="Sub", flags=A_CLASS | ABSTRACT),
        "I": coded("I", ("q", "()V", PUBLIC | ABSTRACT), flags=AN_INTERFACE),
        "Other": coded(
            "Other",
            Method("m", "return", flags=PUBLIC),
            Method("<init>", "aload_0, invokespecial java/lang/Object <init> ()V, return", flags=PUBLIC, stack=1, locals=1),
        ),
        "Sub": coded(
            "Sub",
            Method("m", "return", flags=PUBLIC),
            uses(
                "a",
                "invokespecial Sub m ()V", "invokespecial A m ()V", "invokespecial B m ()V", "invokespecial Top t ()V",
                "invokespecial java/lang/Object hashCode ()I", "invokespecial Other m ()V", "invokespecial Other <init> ()V",
                "invokespecial interface:I q ()V", "invokespecial Below m ()V",
                "invokespecial java/lang/Throwable getMessage ()Ljava/lang/String;", "invokespecial Sub q ()V",
                "invokespecial Sub hashCode ()I",
            ),
            super_name="A",
            interfaces=["I"],
            flags=A_CLASS | ABSTRACT,
        ),
        "Top": coded("Top", Method("t", "return", flags=PUBLIC), Method("m", "return", flags=PUBLIC)),
    },
)
check(
    "linked-rule-18-static",
    {
        "A": coded(
            "A",
            Method("m", "return", flags=PUBLIC),
            Method("t", "return"),
            Method("<init>", "aload_0, invokespecial java/lang/Object <init> ()V, return", flags=PUBLIC, stack=1, locals=1),
            Method(
                "a",
                "getstatic A i I, pop, iconst_0, putstatic A i I, aconst_null, getfield A s I, pop, aconst_null, iconst_0, "
                "putfield A s I, invokestatic A m ()V, aconst_null, invokevirtual A t ()V, aconst_null, invokespecial A t ()V, "
                "aconst_null, invokevirtual java/lang/Math abs (I)I, pop, invokestatic java/lang/Object hashCode ()I, pop, return",
            ),
            uses("b", "invokeinterface I st ()V", "invokestatic interface:I ab ()V", "invokestatic interface:I st ()V"),
            fields=[("s", "I", PUBLIC | STATIC), ("i", "I", PUBLIC)],
        ),
        "I": coded("I", ("st", "()V", PUBLIC | STATIC | ABSTRACT), ("ab", "()V", PUBLIC | ABSTRACT), flags=AN_INTERFACE),
    },
)

# Arrays of 255 dimensions.

MOST = "[" * 255
check(
    "linked-rule-18-dims",
    {
        "A": coded(
            "A",
            Method(
                "m",
                "iconst_0, anewarray %sI, pop, iconst_0, anewarray %sI, pop, iconst_0, anewarray %sLA;, pop, "
                "aconst_null, checkcast %sI, instanceof %sLA;, pop, return" % (MOST, MOST[1:], MOST, MOST, MOST),
            ),
        ),
    },
)

# Each instruction that names a constant, and handlers, with a constant of each kind.

ADDS = {
    "utf8": lambda pool: pool.text("x"),
    "int": lambda pool: pool.once(integer_entry(5)),
    "long": lambda pool: pool.once(wide_entry(5, 5)),
    "hole": lambda pool: pool.once(wide_entry(5, 5)) + 1,
    "string": lambda pool: pool.string("s"),
    "class": lambda pool: pool.class_name("A"),
    "nt": lambda pool: pool.name_and_type("s", "I"),
    "field": lambda pool: pool.member(FIELD, "A", "s", "I"),
    "method": lambda pool: pool.member(METHOD, "A", "t", "()V"),
    "imethod": lambda pool: pool.member(INTERFACE_METHOD, "A", "t", "()V"),
    "inst": lambda pool: pool.member(METHOD, "A", "m", "()V"),
    "ifield": lambda pool: pool.member(FIELD, "A", "i", "J"),
    "iinst": lambda pool: pool.member(INTERFACE_METHOD, "I", "q", "()V"),
    "istat": lambda pool: pool.member(INTERFACE_METHOD, "I", "st", "()V"),
    "mofi": lambda pool: pool.member(METHOD, "I", "q", "()V"),
    "idyn": lambda pool: pool.once(invoke_dynamic(0, pool.name_and_type("m", "()V"))),
    "handle": lambda pool: pool.once(method_handle(6, pool.member(METHOD, "A", "m", "()V"))),
    "mtype": lambda pool: pool.once(method_type(pool.text("()V"))),
    "zero": lambda pool: 0,
    "past": lambda pool: 999,
}
# For handlers alone.
MORE = {
    "throwable": lambda pool: pool.class_name("java/lang/Throwable"),
    "thread": lambda pool: pool.member(METHOD, "java/lang/Thread", "run", "()V"),
    "missing": lambda pool: pool.member(METHOD, "x/Y", "run", "()V"),
    "nope": lambda pool: pool.member(METHOD, OBJECT, "nope", "()V"),
    "death": lambda pool: pool.member(FIELD, "java/lang/ThreadDeath", "x", "I"),
}
NAMING = "ldc ldc_w ldc2_w getstatic putstatic getfield putfield invokevirtual invokespecial invokestatic invokeinterface new anewarray checkcast"
NAMING += " instanceof"


def named_by(pool, name, add):
    """The code of an instruction with this constant."""
    more = " 1 0" if name == "invokeinterface" else ""
    return code(instructions("%s %d%s, return" % (name, add(pool), more)), 9, 9)


pool = pool_of(("A",), "Code", "t", "()V", "m")
methods = [("t", "()V", PUBLIC | STATIC, [code(max_locals=0)]), ("m", "()V", PUBLIC, [code()])]
for name in NAMING.split():
    for kind, add in ADDS.items():
        if name != "ldc" or kind != "past":
            body = named_by(pool, name, add)
            methods.append(("o%d-%s" % (OPCODES[name], kind), "()V", PUBLIC | STATIC, [body]))
            pool.text(methods[-1][0])
I = coded("I", ("q", "()V", PUBLIC | ABSTRACT), ("st", "()V", PUBLIC | STATIC | ABSTRACT), flags=AN_INTERFACE)
check("linked-rule-18-tags", {"A": class_file("A", methods, [("s", "I", PUBLIC | STATIC), ("i", "J", PUBLIC)], pool=pool), "I": I})

pool, methods = pool_of(("A",), "x", "Code"), []
for kind, add in {**ADDS, **MORE}.items():
    if kind != "zero":
        body = code(instructions("nop, return, pop, return"), 9, 9, [(0, 1, 2, add(pool))])
        methods.append(("h-" + kind, "()V", PUBLIC | STATIC, [body]))
        pool.text(methods[-1][0]), pool.text("()V")
check("linked-rule-18-handlers", {"A": class_file("A", methods, pool=pool)})
