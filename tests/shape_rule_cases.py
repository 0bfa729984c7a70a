"""The cases of `djvm check FOLDER` on rule 19 in tests/cases, but for those on what each instruction takes and leaves, which
shape_instruction_cases.py has; make_cases.py makes their folders. rule_cases.py says how cases are written, shaped_code.py how code is.

The instruction of which a method has a line is marked with `!` in its text. A method that has shape is named `near` and so on. Methods have
room for nine operands and nine local variables where nothing else is said.
"""

from class_files import A_CLASS, ABSTRACT, AN_INTERFACE, PUBLIC, STATIC, Pool, attribute, class_file, native, row
from code_rule_cases import BAD_MAPS, map_of, with_all_maps
from instructions import instructions
from opcodes import opcode
from rule_cases import NOP, RETURN, case, method
from shaped_code import Method, made_all


def shaped(name, *methods, files=(), other_lines=(), **more):
    """A case of a class A with these methods."""
    pool = Pool()
    made, lines = made_all(pool, methods)
    case(name, {"A": class_file("A", made, pool=pool, **more), **dict(files)}, *lines, *other_lines)


# 1. The parameters fit in the local variables, and they alone are there before the first instruction.

MOST = "J" * 127 + "I"
shaped(
    "19-1-parameters",
    Method("near", "return", stack=0, locals=0),
    Method("instance", "!return", flags=PUBLIC, locals=0),
    Method("nearInstance", "return", flags=PUBLIC, locals=1),
    Method("int(I)V", "!return", locals=0),
    Method("nearInt(I)V", "return", locals=1),
    Method("long(J)V", "!return", locals=1),
    Method("nearLong(J)V", "return", locals=2),
    Method("longOfInstance(J)V", "!return", flags=PUBLIC, locals=2),
    Method("nearLongOfInstance(J)V", "return", flags=PUBLIC, locals=3),
    Method("arrays([[J[ILA;)V", "!return", locals=2),
    Method("nearArrays([[J[ILA;)V", "return", locals=3),
    Method("most(%s)V" % MOST, "!return", locals=254),
    Method("nearMost(%s)V" % MOST, "return", locals=255),
    Method("mostOfInstance(%s)V" % MOST, "!return", flags=PUBLIC, locals=255),
    Method("nearMostOfInstance(%s)V" % MOST, "return", flags=PUBLIC, locals=256),
    # This is asked before all else.
    Method("beforeInstructions(J)V", "!nop, pop, return", locals=1),
    Method("beforeFrames(J)V", "!nop, nop, {stack top} nop, return", locals=1),
    Method("beforeRows(J)V", "!nop, F: nop, T: return, H: {stack int} pop, return", "F T H", locals=1),
)
shaped(
    "19-1-first-state",
    Method("near(IJLA;)V", "iload_0, istore 8, lload_1, lstore 6, aload_3, astore_0, return"),
    Method("nearSmall(BCSZ[B)V", "iload_0, istore 5, iload_1, istore 6, iload_2, istore 7, iload_3, istore 8, aload 4, astore_0, return"),
    Method("nearInstance(IJ)V", "aload_0, pop, iload_1, pop, lload_2, pop2, return", flags=PUBLIC),
    Method("int(IJ)V", "!lload_0, pop2, return"),
    Method("long(IJ)V", "nop, !iload_1, pop, return"),
    Method("secondOfLong(IJ)V", "nop, !lload_2, pop2, return"),
    Method("array([I)V", "!iload_0, pop, return"),
    Method("this(I)V", "!aload_0, pop, return"),
    Method("thisOfInstance(I)V", "!iload_0, pop, return", flags=PUBLIC),
    Method("behind(I)V", "!iload_1, pop, return"),
    Method("operands(I)V", "!pop, return"),
    # A class may have a parenthesis in its name, and the letter of a type.
    Method("nearNames (LA)J;LJ(;I)V", "aload_0, astore_0, aload_1, pop, iload_2, pop, return"),
    Method("names (LA)J;I)V", "nop, !lload_0, pop2, return"),
)

# 2. Frames are read one after the other, and each fits.

shaped(
    "19-2-chop",
    Method("none", "nop, !{chop 1} return"),
    Method("near(II)V", "nop, {chop 1} iload_0, pop, return"),
    Method("taken(II)V", "nop, {chop 1} nop, !iload_1, pop, return"),
    Method("two(I)V", "nop, !{chop 2} return"),
    Method("nearTwo(II)V", "nop, {chop 2} return"),
    Method("three(II)V", "nop, !{chop 3} return"),
    Method("nearThree(II)V", "nop, {chop 3} return", flags=PUBLIC),
    # It takes entries away, and a long is one.
    Method("long(J)V", "nop, !{chop 2} return"),
    Method("nearLong(IJ)V", "nop, {chop 1} iload_0, pop, return"),
    Method("longIsGone(J)V", "nop, {chop 1} nop, !lload_0, pop2, return"),
    Method("nearLongs(JJ)V", "nop, {chop 1} lload_0, pop2, return"),
    Method("twoOfLong(IJ)V", "nop, {chop 2} nop, !iload_0, pop, return"),
    Method("again(II)V", "nop, {chop 1} nop, {chop 1} nop, !{chop 1} return"),
    # What the code stores is no entry.
    Method("stored", "iconst_0, istore_0, !{chop 1} return"),
    Method("nearStored(I)V", "iconst_0, istore_1, {chop 1} return"),
    Method("nearAdded", "iconst_0, istore_0, {append int} nop, {chop 1} return"),
)
shaped(
    "19-2-append",
    Method("near", "iconst_0, istore_0, {append int} iload_0, pop, return", locals=1),
    Method("nearTwo", "iconst_0, istore_0, aconst_null, astore_1, {append int ref} iload_0, pop, aload_1, pop, return", locals=2),
    Method("nearThree", "lconst_0, lstore_0, iconst_0, dup, istore_2, istore_3, {append long int int} lload_0, pop2, iload_3, pop, return", locals=4),
    Method("one", "nop, !{append top} return", locals=0),
    Method("two", "nop, !{append top top} return", locals=1),
    Method("three", "nop, !{append top top top} return", locals=2),
    Method("nearTops", "nop, {append top top top} return", locals=3),
    Method("long", "nop, !{append top long} return", locals=2),
    Method("nearLong", "iconst_0, istore_0, lconst_0, lstore_1, {append top long} lload_1, pop2, return", locals=3),
    Method("afterParameters(J)V", "nop, !{append top top} return", locals=3),
    Method("nearAfterParameters(J)V", "nop, {append top} lload_0, pop2, return", locals=3),
    Method("afterThis", "nop, !{append top top} return", flags=PUBLIC, locals=2),
    Method("addsUp", "nop, {append top top} nop, {chop 1} nop, {append top top} nop, {same} nop, !{append top} return", locals=3),
    Method("nearAddsUp", "nop, {append top top} nop, {chop 1} nop, {append top top} nop, {chop 3} nop, {append top top top} return", locals=3),
)
shaped(
    "19-2-full",
    Method("near", "nop, {full top top /} return", locals=2),
    Method("locals", "nop, !{full top top top /} return", locals=2),
    Method("long", "nop, !{full long /} return", locals=1),
    Method("longBehind(I)V", "nop, !{full int long /} return", locals=2),
    Method("empties(I)V", "nop, {full /} nop, !iload_0, pop, return"),
    Method("nearFull(IJ)V", "nop, {full int long /} iload_0, pop, lload_1, pop2, return", locals=3),
    Method("nearNone", "nop, {full /} return", stack=0, locals=0),
    # The next frame counts on from this one.
    Method("chopped(II)V", "nop, {full int /} nop, !{chop 2} return"),
    Method("nearAppended(II)V", "nop, {full int /} iload_0, istore_1, {append int} iload_1, pop, return"),
)
shaped(
    "19-2-operands",
    Method("top", "nop, !{stack top} return"),
    Method("topOfFull", "nop, !{full / top} return"),
    Method("topBetween", "nop, !{full / int top int} return"),
    Method("nearTopOfLocals", "nop, {full top /} return"),
    Method("none", "nop, !{stack int} return", stack=0),
    Method("near", "iconst_0, {stack int} pop, return", stack=1),
    Method("long", "nop, !{stack long} return", stack=1),
    Method("nearLong", "lconst_0, {stack long} pop2, return", stack=2),
    Method("intAndLong", "nop, !{full / int long} return", stack=2),
    Method("nearIntAndLong", "iconst_0, lconst_0, {full / int long} pop2, pop, return", stack=3),
    Method("three", "nop, !{full / null this ref:A} return", stack=2),
    # same empties the operands, and keeps the local variables as stack does.
    Method("nearKept", "iconst_0, istore_0, {append int} aconst_null, {stack ref} pop, {same} iload_0, pop, return"),
    Method("nearForms", "iconst_0, {stack+ int} pop, {same+} nop, iconst_0, {stack int} pop, {same} return"),
    Method("extended", "nop, nop, !{stack+ top} return"),
)
shaped(
    "19-2-uninitialized",
    Method("near", "N: new A, {stack new:N} pop, return"),
    Method("local", "aconst_null, N: astore_0, !{append new:N} return"),
    Method("nearLocal", "N: new A, astore_0, {append new:N} aload_0, pop, return"),
    Method("before", "N: nop, new A, !{stack new:N} pop, return"),
    Method("array", "iconst_0, N: anewarray A, !{stack new:N} pop, return"),
    Method("ints", "iconst_0, N: newarray int, !{stack new:N} pop, return"),
    # Any new will do, one after it too, and it gives a reference.
    Method("nearBehind", "aconst_null, {stack new:N} pop, N: new A, pop, return"),
    Method("nearKinds", "aconst_null, {stack null} pop, aconst_null, {stack this} pop, aconst_null, {stack ref:A} pop, return"),
    Method("int", "!iconst_0, {stack this} pop, return"),
)
shaped(
    "19-2-the-first-frame",
    # Frames are asked before instructions, and the first that fails is reported.
    Method("beforeInstructions", "pop, nop, !{stack top} nop, {chop 1} return"),
    Method("ofTwo", "nop, !{chop 1} nop, {stack top} return"),
    Method("atTheStart", "!{chop 1} nop, return"),
    Method("nearAtTheStart(I)V", "{chop 1} nop, return"),
    Method("behindTheEnd", "return, !{stack top} pop, return"),
    Method("atTheLast", "nop, !{chop 1} return"),
    # A frame with a float or a double is refused by rule 12, and then the method has no line of 19.
    Method("float", "pop, {stack float} return"),
    Method("double", "pop, {full double / } return"),
    other_lines=["A float()V 12", "A double()V 12"],
)
pool = Pool()
assert pool.text("StackMapTable") == 1


def with_no_map(name, *body, **more):
    """Its stack map has one frame, which is cut."""
    return method(name, *body, listed=row(1) + attribute(1, BAD_MAPS["cut-type"]), **more)


case(
    "19-2-maps-that-are-none",
    with_all_maps("A", BAD_MAPS)
    | {
        "B": class_file(
            "B",
            [
                # There is one line, whatever else fails.
                with_no_map("parameters", NOP, RETURN, descriptor="(J)V", max_locals=1),
                with_no_map("instance", NOP, RETURN, flags=PUBLIC, max_locals=0),
                with_no_map("instructions", instructions("pop, pop, pop")),
                with_no_map("rows", NOP, RETURN, handlers=[(0, 1, 0, 0)]),
                # A frame between two instructions is none of either.
                method("within", instructions("sipush 0, pop, return"), listed=row(1) + attribute(1, map_of("1 same"))),
                method("near", instructions("sipush 0, pop, return"), listed=row(1) + attribute(1, map_of("4 same"))),
                with_no_map("halt", opcode("breakpoint"), RETURN),
                with_no_map("floats", RETURN, descriptor="(F)V"),
            ],
            pool=pool,
        )
    },
    *("A %s()V 19" % name for name in BAD_MAPS),
    "B parameters(J)V 19",
    "B instance()V 19",
    "B instructions()V 19",
    "B rows()V 19",
    "B within()V 19",
    "B halt()V 0 14",
    "B floats(F)V 12",
)

# 3. What flows into a frame has its operands, and each kind that it has of a local variable.

shaped(
    "19-3-into-the-first-frame",
    Method("near", "{same} return"),
    Method("nearParameter(I)V", "{same} iload_0, pop, return"),
    Method("nearLess(IJ)V", "{full int /} iload_0, pop, return"),
    Method("nearTop(IJ)V", "{full top long /} lload_1, pop2, return"),
    Method("nearThis", "{full this /} return", flags=PUBLIC),
    Method("nearArray([I)V", "{full ref:A /} return"),
    Method("kind(I)V", "!{full long /} return"),
    Method("reference(I)V", "!{full ref /} return"),
    Method("int([I)V", "!{full int /} return"),
    Method("more", "!{append int} return"),
    Method("operands", "!{stack int} pop, return"),
    Method("taken(I)V", "{full /} nop, !iload_0, pop, return"),
)
shaped(
    "19-3-operands",
    Method("near", "iconst_0, {stack int} pop, return"),
    Method("more", "nop, !iconst_0, {same} pop, return"),
    Method("less", "nop, !nop, {stack int} pop, return"),
    Method("kind", "nop, !iconst_0, {stack ref} pop, return"),
    Method("long", "nop, !iconst_0, {stack long} pop, return"),
    Method("ints", "iconst_0, !iconst_0, {stack long} pop2, return"),
    Method("order", "iconst_0, !aconst_null, {full / ref int} pop2, return"),
    Method("nearOrder", "iconst_0, aconst_null, {full / int ref} pop2, return"),
    Method("orderOfLong", "lconst_0, !iconst_0, {full / int long} pop, pop2, return"),
    Method("nearOrderOfLong", "lconst_0, iconst_0, {full / long int} pop, pop2, return"),
)
shaped(
    "19-3-locals",
    Method("near", "iconst_0, istore_0, {append int} iload_0, pop, return"),
    Method("nearLess", "iconst_0, istore_0, {same} return"),
    Method("nearTop", "iconst_0, istore_0, {append top} return"),
    Method("none", "nop, !nop, {append int} return"),
    Method("reference", "iconst_0, !istore_0, {append ref} return"),
    Method("int", "aconst_null, !astore_0, {append int} return"),
    Method("long", "iconst_0, !istore_0, {append long} return"),
    Method("ofLong", "lconst_0, !lstore_0, {append int} return"),
    Method("second", "iconst_0, dup, istore_0, !istore_1, {append int ref} return"),
    Method("nearLong", "lconst_0, lstore_0, {append long} lload_0, pop2, return"),
    Method("behindLong", "lconst_0, !lstore_0, {append long int} return"),
    Method("nearBehindLong", "lconst_0, lstore_0, iconst_0, istore_2, {append long int} iload_2, pop, return"),
    Method("secondOfLong", "lconst_0, !lstore_0, {append top int} return"),
    Method("nearTopsOfLong", "lconst_0, lstore_0, {append top top} return"),
    Method("shifted", "iconst_0, istore_0, lconst_0, !lstore_1, {append long} return"),
    # The frame's kinds go on, and no others.
    Method("dropped", "iconst_0, istore_0, {append top} nop, !iload_0, pop, return"),
    Method("droppedBySame", "iconst_0, istore_0, {same} !iload_0, pop, return"),
    Method("droppedLong", "lconst_0, lstore_0, {append top top} !lload_0, pop2, return"),
)
shaped(
    "19-3-jumps",
    Method("near", "iconst_0, ifeq L, nop, L: {same} return"),
    Method("operand", "iconst_0, !goto L, L: {same} return"),
    Method("operandBelow", "iconst_0, iconst_0, !ifeq L, pop, return, L: {same} return"),
    Method("nearOperandBelow", "iconst_0, iconst_0, ifeq L, pop, return, L: {stack int} return"),
    Method("local", "nop, !goto L, L: {append int} return"),
    Method("nearLocal", "iconst_0, istore_0, goto L, L: {append int} return"),
    Method("back", "iconst_0, istore_0, L: {append int} aconst_null, astore_0, !goto L"),
    Method("nearBack", "iconst_0, istore_0, L: {append int} iconst_1, istore_0, goto L"),
    Method("self", "iconst_0, L: {stack int} !ifeq L, return"),
    Method("nearSelf", "L: {same} goto L"),
    # Two ways lead into one frame.
    Method("jump", "iconst_0, dup, istore_0, !ifeq L, aconst_null, astore_0, L: {append ref} return"),
    Method("fall", "iconst_0, dup, istore_0, ifeq L, aconst_null, !astore_0, L: {append int} return"),
    Method("nearBoth", "iconst_0, dup, istore_0, ifeq L, aconst_null, astore_0, L: {append top} return"),
    # The jump finds the kinds of the frame before it, and not those that were there.
    Method("between", "iconst_0, istore_0, {same} nop, !goto L, L: {append int} return"),
)
shaped(
    "19-3-switches",
    Method("near", "iconst_0, istore_0, iconst_0, tableswitch 0 L M N D, L: {append int} nop, M: {chop 1} nop, N: {same} nop, D: {same} return"),
    Method("first", "iconst_0, !tableswitch 0 L D D D, L: {append int} nop, D: {chop 1} return"),
    Method("third", "iconst_0, !tableswitch 0 D D L D, L: {append int} nop, D: {chop 1} return"),
    Method("default", "iconst_0, !tableswitch 0 D D D L, L: {append int} nop, D: {chop 1} return"),
    Method("operand", "iconst_0, iconst_0, !tableswitch 0 D D D D, D: {same} return"),
    Method("nearPairs", "iconst_0, lookupswitch 1 L 5 M 9 N D, L: {same} nop, M: {same} nop, N: {same} nop, D: {same} return"),
    Method("firstPair", "iconst_0, !lookupswitch 1 L 5 D 9 D D, L: {append int} nop, D: {chop 1} return"),
    Method("thirdPair", "iconst_0, !lookupswitch 1 D 5 D 9 L D, L: {append int} nop, D: {chop 1} return"),
    Method("defaultOfPairs", "iconst_0, !lookupswitch 1 D L, L: {append int} nop, D: {chop 1} return"),
    Method("defaultAlone", "iconst_0, !lookupswitch L, L: {append int} return"),
)

# 4. An instruction without a frame goes on from the one before it. 8. The last one doesn't go on.

shaped(
    "19-4-behind-the-end",
    Method("goto", "L: {same} goto L, !nop, return"),
    Method("nearGoto", "L: {same} goto L, {same} nop, return"),
    Method("goto_w", "L: {same} goto_w L, !nop, return"),
    Method("nearGoto_w", "L: {same} goto_w L, {same} nop, return"),
    Method("tableswitch", "iconst_0, tableswitch 0 D D, !nop, D: {same} return"),
    Method("nearTableswitch", "iconst_0, tableswitch 0 D D, {same} nop, D: {same} return"),
    Method("lookupswitch", "iconst_0, lookupswitch D, !nop, D: {same} return"),
    Method("nearLookupswitch", "iconst_0, lookupswitch D, {same} nop, D: {same} return"),
    Method("ireturn()I", "iconst_0, ireturn, !iconst_0, ireturn"),
    Method("nearIreturn()I", "iconst_0, ireturn, {same} iconst_0, ireturn"),
    Method("lreturn()J", "lconst_0, lreturn, !lconst_0, lreturn"),
    Method("nearLreturn()J", "lconst_0, lreturn, {same} lconst_0, lreturn"),
    Method("areturn()LA;", "aconst_null, areturn, !aconst_null, areturn"),
    Method("nearAreturn()LA;", "aconst_null, areturn, {same} aconst_null, areturn"),
    Method("return", "return, !return"),
    Method("nearReturn", "return, {same} return"),
    Method("athrow", "aconst_null, athrow, !return"),
    Method("nearAthrow", "aconst_null, athrow, {same} return"),
    # What no run meets is judged by its frame.
    Method("never", "return, {same} nop, !pop, return"),
    Method("nearNever", "return, {append int ref} iload_0, istore_1, iload_1, pop, return"),
    Method("neverJumps", "return, {append int} aconst_null, astore_0, !goto L, L: {same} return"),
    Method("nearNeverJumps", "return, L: {append int} goto L"),
)
shaped(
    "19-8-the-end",
    Method("nop", "!nop"),
    Method("pop", "iconst_0, !pop"),
    Method("push", "nop, !iconst_0"),
    Method("call", "nop, !invokestatic A nop ()V"),
    Method("branch", "L: {same} iconst_0, !ifeq L"),
    Method("wide", "iconst_0, istore_0, !wide iinc 0 1"),
    Method("store", "iconst_0, !istore_0"),
    Method("behind", "return, {same} nop, !nop"),
    Method("nearGoto", "L: {same} nop, goto L"),
    Method("nearGoto_w", "L: {same} nop, goto_w L"),
    Method("nearTableswitch", "L: {same} iconst_0, tableswitch 0 L L"),
    Method("nearLookupswitch", "L: {same} iconst_0, lookupswitch 7 L L"),
    Method("nearAthrow", "aconst_null, athrow"),
    Method("nearIreturn()I", "iconst_0, ireturn"),
    Method("nearLreturn()J", "lconst_0, lreturn"),
    Method("nearAreturn()LA;", "aconst_null, areturn"),
    Method("nearReturn", "return"),
)

# 6. The target of a jump has a frame.

BRANCHES = {"ifeq": 1, "ifne": 1, "iflt": 1, "ifge": 1, "ifgt": 1, "ifle": 1}
BRANCHES |= {"if_icmpeq": 2, "if_icmpne": 2, "if_icmplt": 2, "if_icmpge": 2, "if_icmpgt": 2, "if_icmple": 2}
OF_REFERENCES = {"if_acmpeq": 2, "if_acmpne": 2, "ifnull": 1, "ifnonnull": 1}


def branches(push, names):
    for name, count in names.items():
        before = "nop, " + (push + ", ") * count
        yield Method(name, before + "!%s L, nop, L: return" % name)
        yield Method("near_" + name, before + "%s L, nop, L: {same} return" % name)


shaped(
    "19-6-targets",
    *branches("iconst_0", BRANCHES),
    *branches("aconst_null", OF_REFERENCES),
    Method("goto", "!goto L, L: return"),
    Method("goto_w", "nop, !goto_w L, L: return"),
    Method("back", "L: nop, !goto L"),
    Method("nearBack", "L: {same} nop, goto L"),
    Method("self", "!L: goto L"),
    Method("first", "iconst_0, !tableswitch 0 L D D D, L: nop, D: {same} return"),
    Method("third", "iconst_0, !tableswitch 0 D D L D, D: {same} return, L: return"),
    Method("default", "iconst_0, !tableswitch 0 D D D L, D: {same} nop, L: return"),
    Method("thirdPair", "iconst_0, !lookupswitch 1 D 2 D 3 L D, D: {same} nop, L: return"),
    Method("defaultOfPairs", "iconst_0, !lookupswitch 1 D L, D: {same} nop, L: return"),
)

# 7. A handler has a frame whose one operand is a reference, and the local variables flow into it from each instruction of its range.

shaped(
    "19-7-handlers",
    Method("near", "F: nop, T: return, H: {stack ref} pop, return", "F T H"),
    Method("nearNull", "F: nop, T: return, H: {stack null} pop, return", "F T H"),
    Method("nearFull", "F: nop, T: return, H: {full / this} pop, return", "F T H"),
    # Its state would be known, and it has no frame.
    Method("noFrame", "aconst_null, !H: pop, F: nop, T: return", "F T H"),
    Method("noFrameBehind", "F: nop, T: return, !H: pop, return", "F T H"),
    Method("nothing", "F: nop, T: return, !H: {same} return", "F T H"),
    Method("int", "F: nop, T: return, !H: {stack int} pop, return", "F T H"),
    Method("long", "F: nop, T: return, !H: {stack long} pop2, return", "F T H"),
    Method("two", "F: nop, T: return, !H: {full / ref ref} pop2, return", "F T H"),
    Method("intBelow", "F: nop, T: return, !H: {full / int ref} pop2, return", "F T H"),
    Method("noRoom", "F: nop, T: return, !H: {stack ref} pop, return", "F T H", stack=0),
    # Code that falls into a handler brings its operand.
    Method("nearFall", "F: nop, T: aconst_null, H: {stack ref} pop, return", "F T H"),
    Method("fall", "F: nop, T: !iconst_0, H: {stack ref} pop, return", "F T H"),
    # One that stands before its range, and one whose range goes to the end.
    Method("nearBefore", "aconst_null, H: {stack ref} pop, F: nop, T: return", "F T H"),
    Method("nearEnd", "goto F, H: {stack ref} pop, return, F: {same} nop, return", "F end H"),
    Method("end", "iconst_0, istore_0, goto F, H: {full int / ref} pop, return, F: {full int /} aconst_null, astore_0, !return", "F end H"),
)
TAIL = "T: return, H: {full int / ref} pop, return"
shaped(
    "19-7-ranges",
    Method("near", "iconst_0, istore_0, F: nop, iconst_1, istore_0, nop, " + TAIL, "F T H"),
    Method("first", "iconst_0, F: !istore_0, nop, " + TAIL, "F T H"),
    Method("nearFirst", "iconst_0, istore_0, F: nop, nop, " + TAIL, "F T H"),
    Method("middle", "iconst_0, istore_0, F: aconst_null, astore_0, !iconst_0, istore_0, nop, " + TAIL, "F T H"),
    Method("last", "iconst_0, istore_0, F: aconst_null, astore_0, !nop, " + TAIL, "F T H"),
    # What counts is what stands before the instruction: a store that ends the range changes nothing.
    Method("nearLast", "iconst_0, istore_0, F: aconst_null, astore_0, " + TAIL, "F T H"),
    Method("nearBehind", "iconst_0, istore_0, F: nop, aconst_null, T: astore_0, return, H: {full int / ref} pop, return", "F T H"),
    Method("alone", "iconst_0, F: !istore_0, " + TAIL, "F T H"),
    Method("nearLess", "F: iconst_0, istore_0, nop, T: return, H: {full top / ref} pop, return", "F T H"),
    Method("long(J)V", "F: iconst_0, istore_1, !nop, T: return, H: {full long / ref} pop, return", "F T H"),
    Method("nearLong(J)V", "F: iconst_0, istore_2, nop, T: return, H: {full long / ref} pop, return", "F T H"),
    # The operands of the range are nobody's.
    Method("nearOperands", "iconst_0, dup, istore_0, lconst_0, F: pop2, nop, pop, " + TAIL, "F T H"),
    # A frame within the range.
    Method("frame", "iconst_0, istore_0, F: nop, !{same} nop, T: return, H: {full int / ref} pop, return", "F T H"),
    Method("nearFrame", "iconst_0, istore_0, F: nop, {append int} nop, T: return, H: {stack ref} pop, return", "F T H"),
    # What no run meets.
    Method("never", "return, !F: {same} nop, " + TAIL, "F T H"),
    Method("nearNever", "return, F: {append int} nop, " + TAIL, "F T H"),
)
shaped(
    "19-7-within-the-range",
    Method("near", "F: nop, goto E, H: {stack ref} pop, nop, E: {same} return", "F E H"),
    Method("nearItself", "aconst_null, H: {stack ref} pop, E: return", "H E H"),
    Method("nearLocal", "iconst_0, istore_0, F: nop, goto E, H: {full int / ref} pop, iconst_1, istore_0, nop, E: {same} return", "F E H"),
    Method("local", "iconst_0, istore_0, F: nop, goto E, H: {full int / ref} astore_0, !nop, E: {full /} return", "F E H"),
    Method("nearStored", "iconst_0, istore_0, F: nop, goto E, H: {full top / ref} astore_0, nop, E: {full /} return", "F E H"),
    Method("operand", "F: nop, goto E, !H: {stack int} pop, E: {same} return", "F E H"),
)
shaped(
    "19-7-rows",
    Method("near", "iconst_0, istore_0, F: nop, T: nop, U: return, H: {full int / ref} pop, return, K: {full / ref} pop, return", "F T H, T U K, F U K"),
    Method("secondRow", "iconst_0, F: istore_0, G: nop, T: aconst_null, astore_0, !nop, U: return, H: {full int / ref} pop, return", "G T H, T U H"),
    Method("secondHandler", "F: nop, T: return, H: {stack ref} pop, return, !K: {same} return", "F T H, F T K"),
    Method("firstHandler", "F: nop, T: return, !H: {stack int} pop, return, K: {same} return", "F T K, F T H"),
    Method("nearTwice", "F: nop, T: return, H: {stack ref} pop, return", "F T H, F T H"),
    Method("twice", "F: nop, T: return, !H: {same} return", "F T H, F T H"),
    Method("nearOfAHandler", "F: nop, T: return, H: {stack ref} pop, U: return, K: {stack ref} pop, return", "F T H, H U K"),
    Method("ofAHandler", "iconst_0, istore_0, F: nop, T: return, H: {full int / ref} astore_0, !nop, U: return, K: {full int / ref} pop, return", "F T H, H U K"),
    # Without a frame the handler fails alone; with one the local variables are compared whatever its operands are.
    Method("range", "F: !nop, T: return, H: {full int / int} pop, return", "F T H"),
    Method("handler", "F: nop, T: return, H: !pop, return", "F T H"),
    Method("rangeOfFew", "F: !nop, T: return, H: {full int /} return", "F T H"),
    Method("handlerBefore", "iconst_0, !H: {stack int} pop, F: nop, T: return", "F T H"),
    Method("handlerFirst", "iconst_0, goto L, !H: {full int / int} pop, return, L: {full / int} pop, F: nop, T: return", "F T H"),
)

# 9. Returns have the kind of the result.

RESULTS = {"int": "IZBCS", "long": "J", "reference": ["LA;", "[I", "[[J"]}
WAYS = {"int": "iconst_0, ireturn", "long": "lconst_0, lreturn", "reference": "aconst_null, areturn", "void": "nop, return"}


def returns():
    for kind, results in {**RESULTS, "void": "V"}.items():
        for result in results:
            for way, body in WAYS.items():
                head, last = body.split(", ")
                yield Method("%s()%s" % ("near" if way == kind else way, result), "%s, %s%s" % (head, "" if way == kind else "!", last))


shaped(
    "19-9-returns",
    *returns(),
    Method("nothing()I", "!ireturn"),
    Method("nothingOfLong()J", "iconst_0, !lreturn"),
    Method("nothingOfReference()LA;", "!areturn"),
    Method("kind()I", "aconst_null, !ireturn"),
    Method("kindOfLong()J", "iconst_0, iconst_0, !lreturn"),
    Method("kindOfReference()LA;", "iconst_0, !areturn"),
    Method("longBelow()I", "lconst_0, !ireturn"),
    # Others may stand below it.
    Method("nearMore()I", "lconst_0, aconst_null, iconst_0, ireturn"),
    Method("nearMoreOfVoid", "iconst_0, return"),
    # The first return that fails, and a second one.
    Method("second()I", "iconst_0, ifeq L, iconst_0, ireturn, L: {same} !return"),
    Method("ofBoth()I", "iconst_0, ifeq L, !return, L: {same} aconst_null, areturn"),
)

# A method with a line of the rules 7 to 18 has none of 19; the others have theirs.

HANDLER = "F: nop, T: return, H: pop, return"
shaped(
    "19-beside-other-rules",
    Method("finalize", "pop, return"),
    Method("dynamic", "pop, invokedynamic call ()V, return"),
    Method("reflection", "ldc class:A, return, nop"),
    Method("getter", "nop, invokevirtual A getClass ()Ljava/lang/Class;, areturn"),
    Method("catch", HANDLER, "F T H java/lang/ThreadDeath"),
    Method("floats(F)V", "pop, return"),
    Method("float", "fconst_0, return"),
    Method("floatFrame", "pop, {full float / int} return"),
    Method("arrays", "newarray float, return"),
    Method("subroutine", "jsr L, L: return"),
    Method("breakpoint", "breakpoint, nop"),
    Method("matrix", "multianewarray [[I 2, return"),
    Method("whitelist", "pop, new java/util/List, return"),
    Method("whitelistOfHandler", HANDLER, "F T H java/util/List"),
    Method("unresolved", "pop, new B, return"),
    Method("unresolvedOfHandler", HANDLER, "F T H B"),
    # A call may name the method with the floats, whose line isn't this one's.
    Method("calls", "nop, !invokestatic A floats (F)V, return"),
    Method("finalize(I)V", "!pop, return"),
    Method("last", "!pop, pop, pop"),
    Method("near", "return"),
    other_lines=[
        *("A 12", "A finalize()V 8", "A dynamic()V 1 9", "A reflection()V 0 10", "A getter()V 1 10", "A catch()V 2 11", "A floats(F)V 12"),
        *("A float()V 0 12", "A floatFrame()V 12", "A arrays()V 0 12", "A subroutine()V 0 13", "A breakpoint()V 0 14", "A matrix()V 0 15"),
        *("A whitelist()V 1 17", "A whitelistOfHandler()V 2 17", "A unresolved()V 1 18", "A unresolvedOfHandler()V 2 18"),
        *("C fF 12", "C finalize()V 8", "C n()V 7"),
    ],
    # Other files and their members silence nothing, nor do members without code have a line.
    files={"C": class_file("C", [native("n"), ("finalize", "()V", PUBLIC | ABSTRACT), ("m", "(J)V")], [("f", "F")], flags=A_CLASS | ABSTRACT)},
)
WRONG = Method("m", "!pop, return")


def silent(name, files, *lines):
    """A class that has a line of 19 elsewhere, and files with which none is asked of it."""
    made, _ = made_all(Pool(), [WRONG])
    case("19-silent-by-" + name, {"A": class_file("A", made), **files}, *lines)


shaped("19-not-silent", WRONG, files={"B": class_file("B", [native("n")])}, other_lines=["B n()V 7"])
silent("1", {"B": b""}, "B 1")
silent("2", {"B": class_file("B", major=53)}, "B 2")
silent("3", {"B": class_file("C")}, "B 3")
silent("4", {"java/B": class_file("java/B")}, "java/B 4")
silent("5", {"B": class_file("B"), "C": class_file("B")}, "B 5", "C 3", "C 5")
silent("6", {"B": class_file("B", super_name="Absent")}, "B 6")
silent("6-of-members", {"B": class_file("B", fields=[("f", "I"), ("f", "I")])}, "B 6")
made, _ = made_all(Pool(), [WRONG])
case("19-silent-by-its-own-file", {"A": class_file("A", made, major=53)}, "A 2")

# The code of an interface's <clinit> is judged; other code of an interface has a line of 16.

shaped(
    "19-interfaces",
    Method("<clinit>", "!pop, return", flags=STATIC),
    Method("<clinit>(I)V", "iload_0, pop, return", flags=STATIC),
    Method("m", "pop, return"),
    Method("n", "return", flags=PUBLIC),
    other_lines=["A m()V 16", "A n()V 16"],
    flags=AN_INTERFACE,
)
shaped("19-initialisers", Method("<clinit>", "iconst_0, !pop2, return", flags=STATIC), Method("<init>", "aload_0, !pop2, return", flags=PUBLIC))

# Methods whose name and descriptor join to one text are judged one by one, and lines that are equal are one.

shaped(
    "19-methods-of-one-text",
    Method("f ()LA(I)LB;", "breakpoint, areturn"),
    Method("f()LA (I)LB;", "nop, !return"),
    Method("g ()LA(I)LB;", "!areturn"),
    Method("g()LA (I)LB;", "!pop, areturn"),
    Method("h ()LA(I)LB;", "!areturn"),
    Method("h()LA (I)LB;", "aconst_null, !ireturn"),
    Method("i ()LA(I)LB;", "aconst_null, areturn"),
    Method("i()LA (I)LB;", "aconst_null, nop, !pop2, areturn"),
    other_lines=["A f()LA(I)LB; 0 14"],
)

# Of one method the first instruction that fails is reported, once.

shaped(
    "19-the-first-instruction",
    Method("ofMany", "nop, !pop, pop, pop, pop"),
    Method("jumpBeforeTarget", "iconst_0, !ifeq L, pop, return, L: return"),
    Method("ofSeveralFaults()I", "nop, !areturn"),
    Method("takeBeforeFlow", "nop, !iadd, {stack ref} pop, return"),
    Method("handlerBeforeTake", "!H: iadd, F: nop, T: return", "F T H"),
    Method("inFront", "iconst_0, !H: {stack int} pop, F: iconst_0, T: iadd, return", "F T H"),
)

# Classes of older versions have no other rule, though a machine may judge them without a stack map.

for major in (50, 51):
    shaped(
        "19-version-%d" % major,
        Method("jump", "nop, !goto L, L: return"),
        Method("kind", "iconst_0, !areturn"),
        Method("near", "iconst_0, ifeq L, nop, L: {same} return"),
        Method("nearStraight", "iconst_0, istore_0, iload_0, pop, return"),
        major=major,
    )
