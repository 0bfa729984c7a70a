"""The rule 19 SHAPE, by which `djvm check` judges the kinds of values in the local variables and on the operands of code; part of
the reference implementation, reference.py.

It was written from the description of the rule and from the JVM Specification SE 8, 4.7.4, 4.10.1 and 6.5, and shares nothing with
the program. Lines are those of check_rules.py.
"""

import check_rules
import link_rules
from check_rules import FULL, IINC, INVOKEINTERFACE, LDC, LDC2_W, LDC_W, SAME_EXTENDED, STACK_1_EXTENDED, Malformed, StackMap
from check_rules import TYPE_DOUBLE, TYPE_FLOAT, TYPE_INT, TYPE_LONG, TYPE_TOP, TYPE_UNINITIALIZED
from class_reader import CLASS, INTEGER, LONG, STRING
from library_classes import LIBRARY
from link_rules import GETFIELD, GETSTATIC, INVOKESPECIAL, INVOKESTATIC, INVOKEVIRTUAL, NEW, PUTFIELD, PUTSTATIC, STATIC
from opcodes import by_number, numbers

# The kinds: ints I, longs L and references R. A local variable without a kind is None, and so is the second one of a long.
# On the operands here a long is two, L and below it l.

TABLE = {}


def row(names, taken, given):
    for op in numbers(names):
        TABLE[op] = taken, given


row("nop goto goto_w return", "", "")
row("aconst_null new", "", "R")
row("iconst_m1 iconst_n iconst_4 iconst_5 bipush sipush", "", "I")
row("lconst_0 lconst_1", "", "L")
row("iaload baload caload saload", "RI", "I")
row("laload", "RI", "L")
row("aaload", "RI", "R")
row("iastore bastore castore sastore", "RII", "")
row("lastore", "RIL", "")
row("aastore", "RIR", "")
row("iadd isub imul idiv irem ishl ishr iushr iand ior ixor", "II", "I")
row("ladd lsub lmul ldiv lrem land lor lxor", "LL", "L")
row("lshl lshr lushr", "LI", "L")
row("ineg i2b i2c i2s", "I", "I")
row("lneg", "L", "L")
row("i2l", "I", "L")
row("l2i", "L", "I")
row("lcmp", "LL", "I")
row("ifeq ifne iflt ifge ifgt ifle tableswitch lookupswitch ireturn", "I", "")
row("if_icmpeq if_icmpne if_icmplt if_icmpge if_icmpgt if_icmple", "II", "")
row("if_acmpeq if_acmpne", "RR", "")
row("lreturn", "L", "")
row("areturn athrow monitorenter monitorexit ifnull ifnonnull", "R", "")
row("newarray anewarray", "I", "R")
row("arraylength instanceof", "R", "I")
row("checkcast", "R", "R")

LOADS = by_number(iload="I", lload="L", aload="R")
STORES = by_number(istore="I", lstore="L", astore="R")
# The first ones of the short forms, each of which has four.
SHORT_LOADS = by_number(iload_0="I", lload_0="L", aload_0="R")
SHORT_STORES = by_number(istore_0="I", lstore_0="L", astore_0="R")

POP, POP2, SWAP = numbers("pop pop2 swap")
# How many operands are moved, and above how many others they are put.
COPIES = by_number(dup=(1, 0), dup_x1=(1, 1), dup_x2=(1, 2), dup2=(2, 0), dup2_x1=(2, 1), dup2_x2=(2, 2))

RETURNS = by_number(ireturn="I", lreturn="L", areturn="R", **{"return": ""})
LAST = [*numbers("goto goto_w tableswitch lookupswitch athrow"), *RETURNS]


def lines(files, library=LIBRARY):
    """The lines of a set by the rules 1 to 19 with this library. The last three are judged where the first six hold of all files."""
    found, good = check_rules.lines(files)
    if any(rule <= 6 for _, _, _, rule in found):
        return found
    classes = link_rules.classes_of(good, library)
    return found | link_rules.lines(good, classes) | shape_lines(good, classes)


def shape_lines(good, classes):
    found = set()
    for path, view in good:
        for method in view.methods:
            if method.code is not None and not places_of(view, method, classes):
                number = fault_of(view, method)
                if number is not None:
                    found.add((path, method.name + method.descriptor, number, 19))
    return found


def places_of(view, method, classes):
    """What the method violates by the rules 7 to 18."""
    found = check_rules.rules_of_method(view, method) | check_rules.rules_of_code(view, method.code)
    return found.union(link_rules.rules_of_code(view, method.code, classes))


class NoShape(Exception):
    """Something isn't found, or doesn't fit."""


def fault_of(view, method):
    """The number of the first fault, -1 where the stack map is none, or None where the code has shape."""
    try:
        frames = [frame for body in method.code.maps for frame in StackMap(body, method.code.starts).frames]
    except Malformed:
        return -1
    parameters, result = kinds_of(method.descriptor)
    if not method.flags & STATIC:
        parameters = "R" + parameters
    first = [slot for kind in parameters for slot in slots(kind)]
    if len(first) > method.code.max_locals:
        return 0
    shape = Shape(view, method.code, result)
    number = fault_of_frames(shape, frames, list(parameters))
    return fault_of_steps(shape, first) if number is None else number


def fault_of_frames(shape, frames, entries):
    """The number of the first frame that doesn't fit, or None. The frames are those of the shape from here on."""
    for address, tag, lists in frames:
        number = shape.number[address]
        try:
            shape.add_frame(number, tag, lists, entries)
        except NoShape:
            return number
    return None


def fault_of_steps(shape, first):
    """The number of the first instruction that doesn't find what it takes, or None; `first` has the local variables before the first one."""
    state = Shape.padded(first, shape.code.max_locals), ""
    for number in range(len(shape.code.instructions)):
        try:
            state = shape.step(number, state)
        except NoShape:
            return number
    return None


def slots(kind):
    return ["L", None] if kind == "L" else [kind]


def kinds_of(descriptor):
    """The kinds of the parameters of a method, and of its result, empty for none. The name of a class may have a parenthesis."""
    parameters, at = "", 1
    while descriptor[at : at + 1] != b")":
        kind, at = kind_at(descriptor, at)
        parameters += kind
    return parameters, kind_at(descriptor, at + 1)[0]


def kind_at(descriptor, at):
    """The kind of the type that begins at this place, empty for none, and the place after it."""
    begin = at
    while descriptor[at : at + 1] == b"[":
        at += 1
    at = descriptor.index(b";", at) + 1 if descriptor[at : at + 1] == b"L" else at + 1
    letter = descriptor[begin : begin + 1]
    if letter in (b"F", b"D"):
        raise NoShape
    return {b"V": "", b"J": "L", b"L": "R", b"[": "R"}.get(letter, "I"), at


class Shape:
    """The frames of code, by the numbers of their instructions: local variables and operands."""

    def __init__(self, view, code, result):
        self.pool, self.code, self.result = view.pool, code, result
        self.number = {address: number for number, address in enumerate(code.starts)}
        self.frames, self.entries = {}, None
        rows = {(start, end, handler) for start, end, handler, _ in code.rows}
        end = len(code.starts)
        self.rows = [(self.number[a], self.number.get(b, end), self.number[h]) for a, b, h in rows]

    @staticmethod
    def padded(locals, count):
        return locals + [None] * (count - len(locals))

    # Frames.

    def add_frame(self, number, tag, lists, entries):
        before = entries if self.entries is None else self.entries
        kinds = [[self.kind_of(*one) for one in types] for types in lists]
        stack = []
        if tag == FULL:
            locals, stack = kinds
        elif STACK_1_EXTENDED < tag < SAME_EXTENDED:
            chopped = SAME_EXTENDED - tag
            if chopped > len(before):
                raise NoShape
            locals = before[: len(before) - chopped]
        elif tag > SAME_EXTENDED:
            locals = before + kinds[0]
        else:
            locals, stack = before, [kind for types in kinds for kind in types]
        self.entries = locals
        filled = [slot for kind in locals for slot in slots(kind)]
        if len(filled) > self.code.max_locals or None in stack:
            raise NoShape
        operands = "".join(pushed(kind) for kind in stack)
        if len(operands) > self.code.max_stack:
            raise NoShape
        self.frames[number] = self.padded(filled, self.code.max_locals), operands

    def kind_of(self, tag, address):
        if tag == TYPE_UNINITIALIZED and self.code.instructions[self.number[address]].op != NEW or tag in (TYPE_FLOAT, TYPE_DOUBLE):
            raise NoShape
        return {TYPE_TOP: None, TYPE_INT: "I", TYPE_LONG: "L"}.get(tag, "R")

    # Instructions.

    def step(self, number, state):
        """The state after the instruction, None where the run doesn't go on to the one after it."""
        one, frame = self.code.instructions[number], self.frames.get(number)
        if number == 0 and frame is not None:
            check_flow(state, frame)
        state = state if frame is None else frame
        if state is None:
            raise NoShape
        after = self.after(one, *state)
        is_last = one.op in LAST
        if not is_last:
            if number + 1 == len(self.code.instructions):
                raise NoShape
            if number + 1 in self.frames:
                check_flow(after, self.frames[number + 1])
        for target in one.targets:
            check_flow(after, self.frames.get(self.number[target]))
        for start, end, handler in self.rows:
            if handler == number and (frame is None or frame[1] != "R"):
                raise NoShape
            if start <= number < end and handler in self.frames:
                check_locals(state[0], self.frames[handler][0])
        return None if is_last else after

    def after(self, one, locals, operands):
        op, slot = one.op, one.slot
        for kinds, of_kind in ((SHORT_LOADS, LOADS), (SHORT_STORES, STORES)):
            for base, kind in kinds.items():
                if base <= op < base + 4:
                    op, slot = next(long for long, other in of_kind.items() if other == kind), op - base
        if op in LOADS:
            if slot >= len(locals) or locals[slot] != LOADS[op]:
                raise NoShape
            taken, given = "", LOADS[op]
        elif op in STORES:
            return self.stored(locals, slot, STORES[op]), self.changed(operands, STORES[op], "")
        elif op == IINC:
            if slot >= len(locals) or locals[slot] != "I":
                raise NoShape
            taken, given = "", ""
        elif op in (POP, POP2, SWAP, *COPIES):
            return locals, self.fitting(moved(op, operands))
        elif op in RETURNS and RETURNS[op] != self.result:
            raise NoShape
        elif op in TABLE:
            taken, given = TABLE[op]
        else:
            taken, given = self.by_constant(one)
        return locals, self.changed(operands, taken, given)

    def by_constant(self, one):
        tag, *parts = self.pool[one.constant]
        if one.op in (LDC, LDC_W) and tag in (INTEGER, STRING):
            return "", "I" if tag == INTEGER else "R"
        if one.op == LDC2_W and tag == LONG:
            return "", "L"
        if tag == CLASS or one.op in (LDC, LDC_W, LDC2_W):
            raise NoShape
        descriptor = self.pool[self.pool[parts[1]][2]][1]
        if one.op in (GETSTATIC, PUTSTATIC, GETFIELD, PUTFIELD):
            kind, _ = kind_at(descriptor, 0)
            holder = "R" if one.op in (GETFIELD, PUTFIELD) else ""
            return (holder, kind) if one.op in (GETSTATIC, GETFIELD) else (holder + kind, "")
        parameters, result = kinds_of(descriptor)
        if one.op == INVOKEINTERFACE and one.count != 1 + sum(len(slots(kind)) for kind in parameters):
            raise NoShape
        if one.op not in (INVOKEVIRTUAL, INVOKESPECIAL, INVOKESTATIC, INVOKEINTERFACE):
            raise NoShape
        return (parameters if one.op == INVOKESTATIC else "R" + parameters), result

    def changed(self, operands, taken, given):
        wanted = "".join(pushed(kind) for kind in taken)
        if not operands.endswith(wanted):
            raise NoShape
        return self.fitting(operands[: len(operands) - len(wanted)] + "".join(pushed(kind) for kind in given))

    def fitting(self, operands):
        if len(operands) > self.code.max_stack:
            raise NoShape
        return operands

    def stored(self, locals, slot, kind):
        filled = slots(kind)
        if slot + len(filled) > len(locals):
            raise NoShape
        locals = list(locals)
        if slot > 0 and locals[slot - 1] == "L":
            locals[slot - 1] = None
        locals[slot : slot + len(filled)] = filled
        return locals


def pushed(kind):
    return "lL" if kind == "L" else kind


def moved(op, operands):
    """The operands after pop, pop2, swap and those that copy; a long is never cut."""
    if op in (POP, POP2):
        return operands[: cut(operands, 1 if op == POP else 2)]
    if op == SWAP:
        middle = cut(operands, 1)
        bottom = cut(operands, 2)
        return operands[:bottom] + operands[middle:] + operands[bottom:middle]
    count, others = COPIES[op]
    top, below = cut(operands, count), cut(operands, count + others)
    return operands[:below] + operands[top:] + operands[below:]


def cut(operands, count):
    """The place below this many operands."""
    place = len(operands) - count
    if place < 0 or operands[place : place + 1] == "L":
        raise NoShape
    return place


def check_flow(left, frame):
    if frame is None or left[1] != frame[1]:
        raise NoShape
    check_locals(left[0], frame[0])


def check_locals(locals, declared):
    if any(kind is not None and kind != local for local, kind in zip(locals, declared)):
        raise NoShape
