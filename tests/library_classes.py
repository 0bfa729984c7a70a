"""The classes of the deterministic library and of the raw one, with their methods; the reference implementation takes them from here.

They are those of the tables of docs/RULES.md and docs/LIBRARY.md. A name without a package is of java/lang, in descriptors too.
"""

import re

STATIC, FINAL, INTERFACE, ABSTRACT = 0x0008, 0x0010, 0x0200, 0x0400

OBJECT = b"java/lang/Object"

# By the superclass.
BELOW = {
    "Object": "String StringBuilder Math System Throwable Comparable CharSequence Runnable Cloneable java/io/Serializable",
    "Throwable": "Exception Error",
    "Exception": "RuntimeException",
    "RuntimeException": "ArithmeticException ArrayStoreException ClassCastException IllegalArgumentException "
    "IllegalStateException IndexOutOfBoundsException NegativeArraySizeException NullPointerException "
    "UnsupportedOperationException",
    "IndexOutOfBoundsException": "ArrayIndexOutOfBoundsException StringIndexOutOfBoundsException",
}
FINALS = ("String", "StringBuilder", "Math", "System")
INTERFACES = ("Comparable", "CharSequence", "Runnable", "Cloneable", "java/io/Serializable")
LISTED = {"String": ["Comparable", "CharSequence"], "StringBuilder": ["CharSequence"], "Throwable": ["java/io/Serializable"]}

# The methods that have an object, constructors among them; those of interfaces are abstract.
METHODS = {
    "Object": "<init>()V equals(LObject;)Z hashCode()I toString()LString;",
    "String": "length()I isEmpty()Z toString()LString; charAt(I)C equals(LObject;)Z hashCode()I compareTo(LString;)I compareTo(LObject;)I "
    "startsWith(LString;)Z concat(LString;)LString; substring(I)LString; substring(II)LString; toCharArray()[C",
    "StringBuilder": "<init>()V <init>(LString;)V append(LString;)LStringBuilder; append(C)LStringBuilder; append(I)LStringBuilder; "
    "append(J)LStringBuilder; append(Z)LStringBuilder; length()I charAt(I)C toString()LString;",
    "Comparable": "compareTo(LObject;)I",
    "CharSequence": "length()I charAt(I)C toString()LString;",
    "Runnable": "run()V",
    "Throwable": "getMessage()LString; getCause()LThrowable;",
}
STATICS = {
    "String": "valueOf([C)LString; valueOf(C)LString; valueOf(I)LString; valueOf(J)LString; valueOf(Z)LString;",
    "Math": "abs(I)I abs(J)J max(II)I max(JJ)J min(II)I min(JJ)J",
    "System": "identityHashCode(LObject;)I arraycopy(LObject;ILObject;II)V",
}

# The constructors of each class of exceptions, and the one that some have besides.
THROWN, WITH_CAUSE = "<init>()V <init>(LString;)V", "<init>(LString;LThrowable;)V"
CAUSED = "Throwable Exception RuntimeException Error IllegalArgumentException IllegalStateException UnsupportedOperationException".split()


def full(name):
    return (name if "/" in name else "java/lang/" + name).encode()


def with_packages(descriptor):
    return re.sub(r"L([A-Z]\w*);", r"Ljava/lang/\1;", descriptor)


def is_thrown(name):
    return name.endswith(("Exception", "Error", "Throwable"))


def methods_of(name, more):
    """The flags of each method by its name and its descriptor."""
    kinds = [(METHODS.get(name, ""), ABSTRACT if name in INTERFACES else 0), (STATICS.get(name, ""), STATIC), (more, STATIC)]
    if is_thrown(name):
        kinds += [(THROWN, 0), (WITH_CAUSE if name in CAUSED else "", 0)]
    found = {}
    for texts, flags in kinds:
        for text in texts.split():
            method, parenthesis, rest = with_packages(text).partition("(")
            assert (method.encode(), (parenthesis + rest).encode()) not in found
            found[method.encode(), (parenthesis + rest).encode()] = flags
    return found


class LibraryClass:
    """It has no field that code can name."""

    def __init__(self, name, super_name, more=""):
        """`more` are static methods that it has besides."""
        self.name = full(name)
        self.flags = (FINAL if name in FINALS else 0) | (INTERFACE | ABSTRACT if name in INTERFACES else 0)
        self.super_class = full(super_name) if super_name else None
        self.interfaces = [full(above) for above in LISTED.get(name, [])]
        self.fields, self.methods = {}, methods_of(name, more)


def library(more):
    """The library, some of whose classes have more static methods."""
    below = [LibraryClass(name, above, more.get(name, "")) for above, names in BELOW.items() for name in names.split()]
    return [LibraryClass("Object", None), *below]


LIBRARY, RAW_LIBRARY = library({}), library({"System": "nanoTime()J currentTimeMillis()J"})
