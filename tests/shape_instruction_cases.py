"""The cases of `djvm check FOLDER` on what each instruction takes and leaves by rule 19, in tests/cases; make_cases.py makes their
folders. shape_rule_cases.py says how they are written, and has the others on this rule.
"""

from class_files import ABSTRACT, AN_INTERFACE, PUBLIC, STATIC, class_file
from shape_rule_cases import shaped
from shaped_code import Method

# What pushes a value of a kind, and what takes one that is on top, of this kind alone.
PUSHES = {"int": "iconst_0", "long": "lconst_0", "reference": "aconst_null"}
STORES = {"int": "istore 8", "long": "lstore 7", "reference": "astore 8", "": "nop"}
OTHERS = {"int": ("reference", "long"), "long": ("int", "reference", "int int"), "reference": ("int", "long")}

# Instructions, and what they take and leave.
FAMILIES = {
    "arithmetic": [
        ("iadd, isub, imul, idiv, irem, ishl, ishr, iushr, iand, ior, ixor", "int int", "int"),
        ("ladd, lsub, lmul, ldiv, lrem, land, lor, lxor", "long long", "long"),
        ("lshl, lshr, lushr", "long int", "long"),
        ("ineg, i2b, i2c, i2s", "int", "int"),
        ("lneg", "long", "long"),
        ("i2l", "int", "long"),
        ("l2i", "long", "int"),
        ("lcmp", "long long", "int"),
    ],
    "arrays": [
        ("iaload, baload, caload, saload", "reference int", "int"),
        ("laload", "reference int", "long"),
        ("aaload", "reference int", "reference"),
        ("iastore, bastore, castore, sastore", "reference int int", ""),
        ("lastore", "reference int long", ""),
        ("aastore", "reference int reference", ""),
        ("arraylength", "reference", "int"),
        *(("newarray %s" % base, "int", "reference") for base in ("boolean", "char", "byte", "short", "int", "long")),
        ("anewarray A", "int", "reference"),
    ],
    "objects": [
        ("new A", "", "reference"),
        ("checkcast A", "reference", "reference"),
        ("instanceof A", "reference", "int"),
        ("monitorenter, monitorexit", "reference", ""),
    ],
    "constants": [
        ("nop", "", ""),
        ("aconst_null", "", "reference"),
        ("iconst_m1, iconst_0, iconst_1, iconst_2, iconst_3, iconst_4, iconst_5", "", "int"),
        ("lconst_0, lconst_1", "", "long"),
        ("bipush -128", "", "int"),
        ("sipush 32767", "", "int"),
        ("ldc int", "", "int"),
        ("ldc_w int", "", "int"),
        ("ldc string", "", "reference"),
        ("ldc_w string", "", "reference"),
        ("ldc2_w long", "", "long"),
    ],
    "fields": [
        *(("getstatic A s%s %s" % (letter, letter), "", "int") for letter in "ZBCSI"),
        *(("putstatic A s%s %s" % (letter, letter), "int", "") for letter in "ZBCSI"),
        ("getstatic A sJ J", "", "long"),
        ("putstatic A sJ J", "long", ""),
        ("getstatic A sA LA;", "", "reference"),
        ("putstatic A sA LA;", "reference", ""),
        ("getfield A fI I", "reference", "int"),
        ("putfield A fI I", "reference int", ""),
        ("getfield A fJ J", "reference", "long"),
        ("putfield A fJ J", "reference long", ""),
        ("getfield A fA [J", "reference", "reference"),
        ("putfield A fA [J", "reference reference", ""),
    ],
    "calls": [
        ("invokestatic A none ()V", "", ""),
        ("invokestatic A long ()J", "", "long"),
        ("invokestatic A all (IJLA;)[I", "int long reference", "reference"),
        ("invokevirtual A own ()V", "reference", ""),
        ("invokevirtual A owns (JI)Z", "reference long int", "int"),
        ("invokespecial A owns (JI)Z", "reference long int", "int"),
        ("invokespecial A <init> (I)V", "reference int", ""),
        ("invokeinterface I face ()V", "reference", ""),
        ("invokeinterface I faces (J[J)J", "reference long reference", "long"),
    ],
}


def slots(kinds):
    return sum(2 if kind == "long" else 1 for kind in kinds)


def pushed(kinds):
    return [PUSHES[kind] for kind in kinds]


def methods_of(name, text, takes, leaves):
    """One that finds just what it takes, those that find too little or another kind, and one without room for what it leaves. The
    instruction's number is how much is pushed."""
    room = max(slots(takes), slots(leaves.split()))
    yield Method("near_" + name, ", ".join([*pushed(takes), text, STORES[leaves], "return"]), stack=room)
    if room > slots(takes):
        yield Method("full_" + name, ", ".join([*pushed(takes), "!" + text, "return"]), stack=room - 1)
    for place, kind in enumerate(takes):
        for number, other in enumerate(("", *OTHERS[kind])):
            found = takes[:place] + other.split() + takes[place + 1 :]
            yield Method("%s_%d_%d" % (name, place, number), ", ".join([*pushed(found), "!" + text, "return"]))


def methods_of_family(rows):
    texts = [(text, takes.split(), leaves) for names, takes, leaves in rows for text in names.split(", ")]
    for number, (text, takes, leaves) in enumerate(texts):
        yield from methods_of("%s%d" % (text.split()[0], number), text, takes, leaves)


# What the families name: the members of A and of I.

FIELDS = [("s" + letter, letter, STATIC) for letter in "ZBCSIJ"] + [("sA", "LA;", STATIC), ("fI", "I", 0), ("fJ", "J", 0), ("fA", "[J", 0)]
MEMBERS = [
    *(Method("none", "return"), Method("long()J", "lconst_0, lreturn"), Method("all(IJLA;)[I", "aconst_null, areturn")),
    *(Method("own", "return", flags=PUBLIC), Method("owns(JI)Z", "iconst_0, ireturn", flags=PUBLIC), Method("<init>(I)V", "return", flags=PUBLIC)),
]
FACE = class_file("I", [("face", "()V", PUBLIC | ABSTRACT), ("faces", "(J[J)J", PUBLIC | ABSTRACT)], flags=AN_INTERFACE)


def of_members(name, *methods, **more):
    """A case of a class that has the members which the families name."""
    shaped(name, *MEMBERS, *methods, fields=[*FIELDS, *more.pop("fields", ())], files={"I": FACE}, **more)


for family, rows in FAMILIES.items():
    of_members("19-5-" + family, *methods_of_family(rows))

# Those that don't go on to the next one, or have targets.


def branches():
    end = ", D: {same} return"
    rows = {"ifeq ifne iflt ifge ifgt ifle": "int", "if_icmpeq if_icmpne if_icmplt if_icmpge if_icmpgt if_icmple": "int int"}
    rows |= {"if_acmpeq if_acmpne": "reference reference", "ifnull ifnonnull": "reference"}
    for names, takes in rows.items():
        for name in names.split():
            yield name, name + " D", takes.split(), ", nop" + end
    for name, text in (("tableswitch", "tableswitch 7 D D D"), ("lookupswitch", "lookupswitch -1 D 7 D D")):
        yield name, text, ["int"], end
    yield "athrow", "athrow", ["reference"], ""


def jumps():
    for name, text, takes, end in branches():
        yield Method("near_" + name, ", ".join([*pushed(takes), text]) + end, stack=len(takes))
        for place, kind in enumerate(takes):
            for number, other in enumerate(("", *OTHERS[kind])):
                found = takes[:place] + other.split() + takes[place + 1 :]
                yield Method("%s_%d_%d" % (name, place, number), ", ".join([*pushed(found), "!" + text]) + end)


shaped("19-5-jumps", *jumps())

# Loads, stores and iinc.


def slot_forms():
    """Each form of each load and store, in slots that have room for it, and iinc."""
    for kind, letter in (("int", "i"), ("long", "l"), ("reference", "a")):
        forms = [("%%s_%d" % slot, slot) for slot in range(4)] + [("%s 4", 4), ("%s 255", 255), ("wide %s 5", 5), ("wide %s 300", 300)]
        for form, slot in forms:
            name = letter + form.replace("%s", "").replace(" ", "_")
            store, load = form % (letter + "store"), form % (letter + "load")
            last = slot + slots([kind])
            yield Method("near_" + name, ", ".join([PUSHES[kind], store, load, STORES[kind], "return"]), locals=max(last, 9))
            yield Method("past_" + name, ", ".join([PUSHES[kind], "!" + store, "return"]), locals=last - 1)
            yield Method("loadPast_" + name, ", ".join(["nop", "!" + load, "return"]), locals=last - 1)
            yield Method("none_" + name, ", ".join(["nop", "!" + load, "return"]), locals=400)
            yield Method("nothing_" + name, ", ".join(["nop", "!" + store, "return"]), locals=400)
            for other in OTHERS[kind]:
                pushes = [PUSHES[each] for each in other.split()]
                yield Method("other_%s_%s" % (name, other.replace(" ", "_")), ", ".join([*pushes, "!" + store, "return"]), locals=400)


shaped("19-5-slots", *slot_forms())
shaped(
    "19-5-locals",
    Method("ref", "aconst_null, astore_1, !iload_1, return"),
    Method("int", "iconst_0, istore_1, !aload_1, return"),
    Method("ints", "iconst_0, dup, istore_0, istore_1, !lload_0, return"),
    Method("intOfLong", "lconst_0, lstore_0, !iload_0, return"),
    Method("intOfSecond", "lconst_0, lstore_0, !iload_1, return"),
    Method("second", "lconst_0, lstore_0, !lload_1, return"),
    Method("again", "iconst_0, istore_0, aconst_null, astore_0, !iload_0, return"),
    Method("nearAgain", "iconst_0, istore_0, aconst_null, astore_0, aload_0, pop, return"),
    # A store into the second slot of a long takes the long away.
    Method("cut", "lconst_0, lstore_0, iconst_0, istore_1, !lload_0, return"),
    Method("cutByReference", "lconst_0, lstore_0, aconst_null, astore_1, !lload_0, return"),
    Method("cutByLong", "lconst_0, lstore_0, lconst_0, lstore_1, !lload_0, return"),
    Method("nearCut", "lconst_0, lstore_0, iconst_0, istore_1, iload_1, pop, return"),
    Method("nearCutByLong", "lconst_0, lstore_0, lconst_0, lstore_1, lload_1, pop2, return"),
    Method("nearBefore", "lconst_0, lstore_1, iconst_0, istore_0, lload_1, pop2, return"),
    Method("nearBehind", "lconst_0, lstore_0, iconst_0, istore_2, lload_0, pop2, return"),
    Method("cutParameter(J)V", "iconst_0, istore_1, !lload_0, return"),
    # One into the first slot leaves nothing in the second.
    Method("first", "lconst_0, lstore_0, iconst_0, istore_0, !iload_1, return"),
    Method("longOverFirst", "lconst_0, lstore_1, lconst_0, lstore_0, !lload_1, return"),
    Method("longOverInts", "iconst_0, dup, istore_0, istore_1, lconst_0, lstore_0, !iload_1, return"),
    Method("nearOverInts", "iconst_0, dup, istore_0, istore_2, lconst_0, lstore_0, iload_2, pop, return"),
    # A store that fails for its operand.
    Method("operand", "lconst_0, !istore_0, return"),
    Method("operands", "iconst_0, iconst_0, !lstore_0, return"),
    # The last slots of all.
    Method("nearLast", "iconst_0, wide istore 65534, wide iload 65534, pop, return", locals=65535),
    Method("past", "iconst_0, !wide istore 65535, return", locals=65535),
    Method("nearLastLong", "lconst_0, wide lstore 65533, wide lload 65533, pop2, return", locals=65535),
    Method("pastOfLong", "lconst_0, !wide lstore 65534, return", locals=65535),
    Method("pastByWideLoad", "!wide aload 65535, return", locals=65535),
)
shaped(
    "19-5-iinc",
    Method("near", "iconst_0, istore_0, iinc 0 -1, wide iinc 0 1000, iload_0, pop, return", stack=1, locals=1),
    Method("nearWide", "iconst_0, wide istore 300, wide iinc 300 -1000, return", locals=301),
    Method("nearParameter(Z)V", "iinc 0 1, return", locals=1),
    Method("none", "nop, !iinc 0 1, return"),
    Method("reference", "aconst_null, astore_0, !iinc 0 1, return"),
    Method("referenceWide", "aconst_null, astore_0, !wide iinc 0 1, return"),
    Method("long(J)V", "!iinc 0 1, return"),
    Method("secondOfLong(J)V", "nop, !iinc 1 1, return"),
    Method("past(I)V", "nop, !iinc 1 1, return", locals=1),
    Method("pastWide(I)V", "nop, !wide iinc 65535 1, return", locals=65535),
    Method("dropped(I)V", "{full /} nop, !iinc 0 1, return"),
)

# The instructions of the stack, in the forms of JVMS 6.5. None cuts a long.

shaped(
    "19-5-stack",
    Method("near_pop", "iconst_0, pop, aconst_null, pop, return", stack=1),
    Method("pop", "nop, !pop, return"),
    Method("popOfLong", "lconst_0, !pop, return"),
    Method("near_pop2", "iconst_0, aconst_null, pop2, lconst_0, pop2, return", stack=2),
    Method("pop2", "iconst_0, !pop2, return"),
    Method("pop2Cut", "lconst_0, iconst_0, !pop2, return"),
    Method("near_dup", "iconst_0, dup, istore_0, istore_1, return", stack=2),
    Method("near_dupOfReference", "aconst_null, dup, astore_0, astore_1, return", stack=2),
    Method("dup", "!dup, return"),
    Method("dupOfLong", "lconst_0, !dup, return"),
    Method("near_dup_x1", "iconst_0, aconst_null, dup_x1, astore_0, istore_1, astore_2, return", stack=3),
    Method("dup_x1", "iconst_0, !dup_x1, return"),
    Method("dup_x1Cut", "lconst_0, iconst_0, !dup_x1, return"),
    Method("dup_x1OfLong", "iconst_0, lconst_0, !dup_x1, return"),
    Method("near_dup_x2", "iconst_0, aconst_null, iconst_0, dup_x2, istore_0, astore_1, istore_2, istore_3, return", stack=4),
    Method("near_dup_x2Long", "lconst_0, aconst_null, dup_x2, astore_0, lstore_1, astore_3, return", stack=4),
    Method("dup_x2", "iconst_0, iconst_0, !dup_x2, return"),
    Method("dup_x2Cut", "lconst_0, iconst_0, iconst_0, !dup_x2, return"),
    Method("dup_x2OfLong", "iconst_0, lconst_0, !dup_x2, return"),
    Method("dup_x2OfLongs", "lconst_0, lconst_0, !dup_x2, return"),
    Method("near_dup2", "iconst_0, aconst_null, dup2, astore_0, istore_1, astore_2, istore_3, return", stack=4),
    Method("near_dup2Long", "lconst_0, dup2, lstore_0, lstore_2, return", stack=4),
    Method("dup2", "iconst_0, !dup2, return"),
    Method("dup2Cut", "lconst_0, iconst_0, !dup2, return"),
    Method("near_dup2_x1", "aconst_null, iconst_0, aconst_null, dup2_x1, astore_0, istore_1, astore_2, astore_3, istore 4, return", stack=5),
    Method("near_dup2_x1Long", "aconst_null, lconst_0, dup2_x1, lstore_0, astore_2, lstore_3, return", stack=5),
    Method("dup2_x1", "lconst_0, !dup2_x1, return"),
    Method("dup2_x1OfTwo", "iconst_0, iconst_0, !dup2_x1, return"),
    Method("dup2_x1Cut", "lconst_0, iconst_0, iconst_0, !dup2_x1, return"),
    Method("dup2_x1CutOfTop", "iconst_0, lconst_0, iconst_0, !dup2_x1, return"),
    Method("dup2_x1Longs", "lconst_0, lconst_0, !dup2_x1, return"),
    Method("near_swap", "iconst_0, aconst_null, swap, istore_0, astore_1, return", stack=2),
    Method("swap", "iconst_0, !swap, return"),
    Method("swapOfLong", "lconst_0, !swap, return"),
    Method("swapOfLongOnTop", "iconst_0, lconst_0, !swap, return"),
    Method("swapOfLongBelow", "lconst_0, iconst_0, !swap, return"),
)
shaped(
    "19-5-dup2-x2",
    # Four values, a long above two, two above a long, and a long above a long.
    Method("near1", "iconst_0, aconst_null, iconst_0, aconst_null, dup2_x2, astore_0, istore_1, astore_2, istore_3, astore 4, istore 5, return", stack=6),
    Method("near2", "iconst_0, aconst_null, lconst_0, dup2_x2, lstore_0, astore_2, istore_3, lstore 4, return", stack=6),
    Method("near3", "lconst_0, iconst_0, aconst_null, dup2_x2, astore_0, istore_1, lstore_2, astore 4, istore 5, return", stack=6),
    Method("near4", "lconst_0, lconst_0, dup2_x2, lstore_0, lstore_2, lstore 4, return", stack=6),
    Method("three", "iconst_0, iconst_0, iconst_0, !dup2_x2, return"),
    Method("longAndInt", "iconst_0, lconst_0, !dup2_x2, return"),
    Method("top", "iconst_0, lconst_0, iconst_0, !dup2_x2, return"),
    Method("below", "lconst_0, iconst_0, iconst_0, iconst_0, !dup2_x2, return"),
    Method("belowLong", "lconst_0, iconst_0, lconst_0, !dup2_x2, return"),
)
FULL = {"dup": "iconst_0", "dup_x1": "iconst_0, iconst_0", "dup_x2": "iconst_0, iconst_0, iconst_0", "dup2": "lconst_0"}
FULL |= {"dup2_x1": "iconst_0, lconst_0", "dup2_x2": "lconst_0, lconst_0"}
ROOM = {"dup": 1, "dup_x1": 2, "dup_x2": 3, "dup2": 3, "dup2_x1": 4, "dup2_x2": 5}
shaped(
    "19-5-max-stack",
    *(Method("full_" + name, "%s, !%s, return" % (text, name), stack=ROOM[name]) for name, text in FULL.items()),
    *(Method("near_" + name, "%s, %s, return" % (text, name), stack=ROOM[name] + 1) for name, text in FULL.items()),
    Method("iload(I)V", "nop, !iload_0, return", stack=0),
    Method("lload(J)V", "nop, !lload_0, return", stack=1),
    Method("aload([J)V", "nop, !aload_0, return", stack=0),
    Method("nearLoad(J)V", "lload_0, pop2, return", stack=2),
    Method("deep", "iconst_0, iconst_0, iconst_0, !lconst_0, return", stack=4),
    Method("nearDeep", "iconst_0, iconst_0, iconst_0, lconst_0, return", stack=5),
    # The stack is never passed on the way: what is taken goes first.
    Method("nearTakesFirst", "lconst_0, lconst_0, ladd, l2i, i2l, pop2, return", stack=4),
)

# Members with floats, arguments, and counts of invokeinterface.

of_members(
    "19-5-floats",
    # A member without a float but for arrays of them has kinds; one with it fails, and the class has a line of 12.
    Method("near", "aconst_null, getfield A fFs [F, pop, getstatic A sDs [[D, pop, return"),
    Method("nearCall", "aconst_null, aconst_null, invokestatic A arrays ([F[[D)[F, pop, return"),
    Method("getstatic", "nop, !getstatic A sF F, pop, return"),
    Method("putstatic", "iconst_0, !putstatic A sF F, return"),
    Method("getfield", "aconst_null, !getfield A fD D, pop2, return"),
    Method("putfield", "aconst_null, lconst_0, !putfield A fD D, return"),
    Method("parameter", "iconst_0, !invokestatic A takes (F)V, return"),
    Method("result", "nop, !invokestatic A gives ()D, pop2, return"),
    Method("takes(F)V", "return"),
    Method("gives()D", "dconst_0, dreturn"),
    Method("arrays([F[[D)[F", "aconst_null, areturn"),
    fields=[("sF", "F", STATIC), ("fD", "D", 0), ("fFs", "[F", 0), ("sDs", "[[D", STATIC)],
    other_lines=[
        *("A 12", "A sFF 12", "A fDD 12", "A fFs[F 12", "A sDs[[D 12", "A takes(F)V 12", "A gives()D 12", "A gives()D 0 12", "A gives()D 1 12"),
        "A arrays([F[[D)[F 12",
    ],
)
of_members(
    "19-5-arguments",
    Method("near", "iconst_0, lconst_0, aconst_null, invokestatic A all (IJLA;)[I, pop, return"),
    Method("order", "lconst_0, iconst_0, aconst_null, !invokestatic A all (IJLA;)[I, pop, return"),
    Method("receiver", "iconst_0, lconst_0, iconst_0, !invokevirtual A owns (JI)Z, pop, return"),
    Method("receiverAbove", "lconst_0, iconst_0, aconst_null, !invokevirtual A owns (JI)Z, pop, return"),
    Method("void", "invokestatic A none ()V, !pop, return"),
    Method("long", "invokestatic A long ()J, !pop, return"),
    Method("nearMade", "new A, dup, iconst_0, invokespecial A <init> (I)V, astore_0, return", stack=3),
    Method("made", "new A, dup, iconst_0, invokespecial A <init> (I)V, !istore_0, return"),
    # What stands below stays.
    Method("nearBelow", "lconst_0, iconst_0, lconst_0, aconst_null, invokestatic A all (IJLA;)[I, astore_0, lstore_1, return"),
    # The classes of references aren't asked.
    Method("nearClasses", "ldc string, lconst_0, iconst_0, invokevirtual A owns (JI)Z, pop, return"),
    Method("nearArray", "iconst_0, newarray int, lconst_0, iconst_0, invokevirtual A owns (JI)Z, pop, return"),
    Method("nearBytes", "iconst_0, newarray long, iconst_0, baload, pop, return"),
)
CALL = "aconst_null, lconst_0, aconst_null, %sinvokeinterface I faces (J[J)J %d, pop2, return"
of_members(
    "19-5-counts",
    *(Method("faces%d" % count, CALL % ("!", count)) for count in (1, 2, 3, 5, 6, 255)),
    Method("near", CALL % ("", 4)),
    *(Method("face%d" % count, "aconst_null, !invokeinterface I face ()V %d, return" % count) for count in (2, 3, 255)),
    Method("nearFace", "aconst_null, invokeinterface I face ()V 1, return"),
)
