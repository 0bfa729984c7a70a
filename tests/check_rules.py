"""The rules 1 to 16, by which `djvm check` judges a set of class files; part of the reference implementation, reference.py. Those
of what instructions name, 17 and 18, stand in link_rules.py, and 19 in shape_rules.py.

They were written from the description of the rules and from the JVM Specification SE 8, chapters 4 and 6, and share nothing
with the program. A line is a path, a member (empty for none), an instruction's number (-1 for none), and a rule's number.
"""

from class_reader import (
    CLASS,
    DOUBLE,
    FIELD,
    FLOAT,
    INTEGER,
    INTERFACE_METHOD,
    LONG,
    METHOD,
    METHOD_HANDLE,
    METHOD_TYPE,
    NAME_AND_TYPE,
    STRING,
    UTF8,
    ClassFile,
    Malformed,
    Reader,
    units_of,
    utf16,
)
from library_classes import LIBRARY, OBJECT
from opcodes import BASES, OPCODES, by_number, numbers

RULES = {
    1: "MALFORMED",
    2: "VERSION",
    3: "NAME",
    4: "SANDBOX_PACKAGE",
    5: "DUPLICATE",
    6: "HIERARCHY",
    7: "NATIVE",
    8: "FINALIZER",
    9: "DYNAMIC",
    10: "REFLECTION",
    11: "CATCH",
    12: "FLOAT",
    13: "SUBROUTINE",
    14: "BREAKPOINT",
    15: "MULTI_ARRAY",
    16: "INTERFACE_CODE",
    17: "WHITELIST",
    18: "UNRESOLVED",
    19: "SHAPE",
}

# Flags of classes and methods (JVMS tables 4.1-A and 4.6-A).
FINAL, IS_NATIVE, INTERFACE, ABSTRACT = 0x0010, 0x0100, 0x0200, 0x0400


def lines(files):
    """The lines of a set, whose files are pairs of a path and bytes; and the paths with the class files that violate no rule 1."""
    read = [(path, good_class(data)) for path, data in files]
    good = [(path, view) for path, view in read if view is not None]
    found = {(path, b"", -1, 1) for path, view in read if view is None}
    found = found.union(*(lines_of_file(path, view) for path, view in good))
    return found | duplicates(good) | hierarchy(good), good


def good_class(data):
    """The class file that the bytes are, with the code of its methods, or None by rule 1."""
    try:
        view = ClassFile(data)
        for method in view.methods:
            method.code = code_of(view, method)
        for field in view.fields:
            check_constant_value(view, field)
    except Malformed:
        return None
    return view


def bodies(name, attributes):
    return [body for other, body in attributes if other == name]


# Code (JVMS 4.7.3).


def code_of(view, method):
    """The code of a method, or None where it has none and must have none."""
    found = bodies(b"Code", method.attributes)
    has_code = not method.flags & (IS_NATIVE | ABSTRACT)
    if len(found) != (1 if has_code else 0):
        raise Malformed
    return Code(found[0], view.pool) if has_code else None


class Code(Reader):
    """The body of a Code attribute, its instructions and its rows."""

    def __init__(self, body, pool):
        super().__init__(body)
        self.max_stack, self.max_locals = self.number(2), self.number(2)
        length = self.number(4)
        if not 0 < length < 65536:
            raise Malformed
        self.instructions = instructions(self.bytes(length))
        self.starts = [instruction.at for instruction in self.instructions]
        self.rows = [[self.number(2) for _ in range(4)] for _ in range(self.number(2))]
        # The name of an attribute in here may be no text.
        attributes = [(pool.get(self.number(2)), self.bytes(self.number(4))) for _ in range(self.number(2))]
        self.end()
        self.maps = [body for entry, body in attributes if entry == (UTF8, b"StackMapTable")]
        if len(self.maps) > 1:
            raise Malformed
        self.check_places(length)

    def check_places(self, length):
        """Jumps and handlers go to instructions, and rows are ranges of instructions."""
        starts = set(self.starts)
        targets = [target for instruction in self.instructions for target in instruction.targets]
        targets += [place for start, _, handler, _ in self.rows for place in (start, handler)]
        ends = [end for _, end, _, _ in self.rows]
        if not starts.issuperset(targets) or not (starts | {length}).issuperset(ends):
            raise Malformed
        if any(start >= end for start, end, _, _ in self.rows):
            raise Malformed

    def number_of(self, address):
        return self.starts.index(address)


# Instructions (JVMS 6.5).

LDC, LDC_W, LDC2_W, IINC, TABLESWITCH, LOOKUPSWITCH = numbers("ldc ldc_w ldc2_w iinc tableswitch lookupswitch")
INVOKEINTERFACE, INVOKEDYNAMIC, NEWARRAY, MULTIANEWARRAY = numbers("invokeinterface invokedynamic newarray multianewarray")
JSR, RET, GOTO_W, JSR_W, WIDE, BREAKPOINT = numbers("jsr ret goto_w jsr_w wide breakpoint")

WITH_SLOT = numbers("iload lload fload dload aload istore lstore fstore dstore astore ret")
JUMPS = numbers("ifeq ifne iflt ifge ifgt ifle if_icmpeq if_icmpne if_icmplt if_icmpge if_icmpgt if_icmple if_acmpeq if_acmpne")
JUMPS += numbers("goto jsr ifnull ifnonnull")
WITH_CONSTANT = numbers("ldc_w ldc2_w getstatic putstatic getfield putfield invokevirtual invokespecial invokestatic invokeinterface")
WITH_CONSTANT += numbers("invokedynamic new anewarray checkcast instanceof multianewarray")
OF_FLOATS = numbers("fconst_0 fconst_1 fconst_2 fload fload_n faload fstore fstore_n fastore fadd fsub fmul fdiv frem fneg fcmpl fcmpg freturn")
OF_FLOATS += numbers("dconst_0 dconst_1 dload dload_n daload dstore dstore_n dastore dadd dsub dmul ddiv drem dneg dcmpl dcmpg dreturn")
OF_FLOATS += numbers("i2f i2d l2f l2d f2i f2l f2d d2i d2l d2f")

# How many bytes follow an opcode. A switch and `wide` have lengths of their own.
OPERANDS = dict.fromkeys(OPCODES.values(), 0)
OPERANDS |= dict.fromkeys([*numbers("bipush ldc newarray"), *WITH_SLOT], 1)
OPERANDS |= dict.fromkeys([*numbers("sipush iinc"), *JUMPS, *WITH_CONSTANT], 2)
OPERANDS |= by_number(invokeinterface=4, invokedynamic=4, multianewarray=3, goto_w=4, jsr_w=4)


class Instruction:
    """Its address, its opcode (after `wide` that of what is wide), the index of a constant, the base type of newarray, the slot
    of a local variable and the count of invokeinterface, each or None, and the addresses to which it may go."""

    def __init__(self, at, op):
        self.at, self.op, self.constant, self.base, self.slot, self.count, self.targets = at, op, None, None, None, None, []


def instructions(code):
    reader, found = Reader(code), []
    while reader.at < len(code):
        found.append(instruction(reader))
    return found


def instruction(reader):
    made = Instruction(reader.at, reader.number(1))
    if made.op in (TABLESWITCH, LOOKUPSWITCH):
        made.targets = switch_targets(reader, made)
    elif made.op == WIDE:
        made.op = reader.number(1)
        if made.op not in (*WITH_SLOT, IINC):
            raise Malformed
        made.slot = reader.number(2)
        reader.bytes(2 if made.op == IINC else 0)
    elif made.op in OPERANDS:
        read_operands(made, reader.bytes(OPERANDS[made.op]))
    else:
        raise Malformed
    return made


def read_operands(made, operands):
    op = made.op
    if op == LDC:
        made.constant = operands[0]
    elif op in WITH_CONSTANT:
        made.constant = int.from_bytes(operands[:2], "big")
    elif op in (*JUMPS, GOTO_W, JSR_W):
        made.targets = [made.at + int.from_bytes(operands, "big", signed=True)]
    elif op == NEWARRAY:
        made.base = operands[0]
    elif op in WITH_SLOT or op == IINC:
        made.slot = operands[0]
    if op == INVOKEINTERFACE:
        made.count = operands[2]
    is_bad = op == NEWARRAY and operands[0] not in BASES.values()
    is_bad = is_bad or op == INVOKEINTERFACE and (operands[2] == 0 or operands[3] != 0)
    is_bad = is_bad or op == INVOKEDYNAMIC and operands[2:] != b"\0\0"
    if is_bad or op == MULTIANEWARRAY and operands[2] == 0:
        raise Malformed


def switch_targets(reader, made):
    """The padding goes up to an address that four divides; its bytes are not looked at."""
    reader.bytes(-reader.at % 4)
    offsets = [signed(reader)]
    if made.op == TABLESWITCH:
        low, high = signed(reader), signed(reader)
        if low > high:
            raise Malformed
        table = Reader(reader.bytes(4 * (high - low + 1)))
        offsets += [signed(table) for _ in range(high - low + 1)]
    else:
        count = signed(reader)
        if count < 0:
            raise Malformed
        table = Reader(reader.bytes(8 * count))
        pairs = [(signed(table), signed(table)) for _ in range(count)]
        if any(one[0] >= other[0] for one, other in zip(pairs, pairs[1:])):
            raise Malformed
        offsets += [offset for _, offset in pairs]
    return [made.at + offset for offset in offsets]


def signed(reader):
    return int.from_bytes(reader.bytes(4), "big", signed=True)


# Stack maps (JVMS 4.7.4).

TYPE_TOP, TYPE_INT, TYPE_FLOAT, TYPE_DOUBLE, TYPE_LONG = range(5)
TYPE_OBJECT, TYPE_UNINITIALIZED = 7, 8
# Frames that begin with a tag less than the first of these have no delta of their own. The three tags below SAME_EXTENDED chop one to three
# local variables, and the three above it append as many.
STACK_1_EXTENDED, SAME_EXTENDED, FULL = 247, 251, 255


class StackMap(Reader):
    """The frames of a stack map, which stand at instructions: the address of each, its tag, and its lists of types. A type is its tag
    and the number that follows it, or None."""

    def __init__(self, body, starts):
        super().__init__(body)
        self.starts, self.frames, address = set(starts), [], -1
        for _ in range(self.number(2)):
            delta, tag, lists = self.frame()
            address += 1 + delta
            if address not in self.starts:
                raise Malformed
            self.frames.append((address, tag, lists))
        self.end()

    def frame(self):
        """The delta of a frame, its tag and its types."""
        tag = self.number(1)
        if 128 <= tag < STACK_1_EXTENDED:
            raise Malformed
        if tag < 128:
            delta, counts = tag % 64, [tag // 64]
        else:
            delta = self.number(2)
            counts = {STACK_1_EXTENDED: [1], FULL: [None, None]}.get(tag, [tag - SAME_EXTENDED] if tag > SAME_EXTENDED else [])
        return delta, tag, [self.read_types(self.number(2) if count is None else count) for count in counts]

    def read_types(self, count):
        return [self.read_type() for _ in range(count)]

    def read_type(self):
        tag = self.number(1)
        index = self.number(2) if tag in (TYPE_OBJECT, TYPE_UNINITIALIZED) else None
        if tag > TYPE_UNINITIALIZED or tag == TYPE_UNINITIALIZED and index not in self.starts:
            raise Malformed
        return tag, index


def has_float_frame(code):
    """Whether the stack map has a float or a double; bytes that are no stack map have none."""
    try:
        frames = [frame for body in code.maps for frame in StackMap(body, code.starts).frames]
    except Malformed:
        return False
    return any(tag in (TYPE_FLOAT, TYPE_DOUBLE) for _, _, lists in frames for types in lists for tag, _ in types)


# ConstantValue (JVMS 4.7.2).

OF_INTS = (b"B", b"C", b"I", b"S", b"Z")
VALUES = {INTEGER: OF_INTS, LONG: (b"J",), FLOAT: (b"F",), DOUBLE: (b"D",), STRING: (b"Ljava/lang/String;",)}


def check_constant_value(view, field):
    found = bodies(b"ConstantValue", field.attributes)
    if len(found) > 1:
        raise Malformed
    for body in found:
        tag, *_ = view.pool.get(int.from_bytes(body, "big"), (0,))
        if len(body) != 2 or field.descriptor not in VALUES.get(tag, ()):
            raise Malformed


# The rules on a class file by itself.


def lines_of_file(path, view):
    found = {(path, b"", -1, rule) for rule in rules_of_class(path, view)}
    for field in view.fields:
        if mentions_float(field.descriptor):
            found.add((path, field.name + field.descriptor, -1, 12))
    for method in view.methods:
        places = rules_of_method(view, method) | rules_of_code(view, method.code)
        found |= {(path, method.name + method.descriptor, number, rule) for number, rule in places}
    return found


def rules_of_class(path, view):
    if view.major not in (50, 51, 52):
        yield 2
    if utf16(path.decode("utf-8")) != units_of(view.this_class) + utf16(".class"):
        yield 3
    if view.this_class.startswith((b"sandbox/", b"java/", b"javax/")):
        yield 4
    if any(is_float_constant(view.pool, *entry) for entry in view.pool.values()):
        yield 12


def rules_of_method(view, method):
    """Those that the method violates as a whole."""
    found = set()
    if method.flags & IS_NATIVE:
        found.add((-1, 7))
    if (method.name, method.descriptor) == (b"finalize", b"()V"):
        found.add((-1, 8))
    if mentions_float(method.descriptor) or method.code is not None and has_float_frame(method.code):
        found.add((-1, 12))
    if view.flags & INTERFACE and method.code is not None and method.name != b"<clinit>":
        found.add((-1, 16))
    return found


def rules_of_code(view, code):
    """Those that its instructions and handlers violate."""
    if code is None:
        return set()
    found = set()
    for number, one in enumerate(code.instructions):
        found |= {(number, rule) for rule in rules_of_instruction(view.pool, one)}
    for _, _, handler, catch_type in code.rows:
        if name_of_class(view.pool, catch_type) in UNCATCHABLE:
            found.add((code.number_of(handler), 11))
    return found


UNCATCHABLE = [b"java/lang/" + name for name in (b"ThreadDeath", b"VirtualMachineError", b"StackOverflowError", b"OutOfMemoryError")]


def name_of_class(pool, index):
    """The text of a class constant, or None."""
    tag, *parts = pool.get(index, (0,))
    return pool[parts[0]][1] if tag == CLASS else None


# The rules on instructions.


def rules_of_instruction(pool, one):
    entry = pool.get(one.constant, (0,))
    tag = entry[0] if one.constant is not None else 0
    is_short_load = one.op in (LDC, LDC_W)
    if one.op == INVOKEDYNAMIC or is_short_load and tag in (METHOD_HANDLE, METHOD_TYPE):
        yield 9
    if is_short_load and tag == CLASS or is_reflective(pool, entry, has_member=one.op != INVOKEDYNAMIC):
        yield 10
    if one.op in OF_FLOATS or one.base in (BASES["float"], BASES["double"]) or one.op in (LDC, LDC_W, LDC2_W) and tag in (FLOAT, DOUBLE):
        yield 12
    if one.op in (JSR, RET, JSR_W):
        yield 13
    if one.op == BREAKPOINT:
        yield 14
    if one.op == MULTIANEWARRAY:
        yield 15


def is_reflective(pool, entry, has_member):
    """Whether the class or the member that the constant names is of reflection."""
    tag, *parts = entry
    if tag == CLASS:
        return is_reflective_class(pool[parts[0]][1])
    if tag not in (FIELD, METHOD, INTERFACE_METHOD):
        return False
    _, name, descriptor = pool[parts[1]]
    member = pool[name][1], pool[descriptor][1]
    return is_reflective_class(name_of_class(pool, parts[0])) or has_member and member == (b"getClass", b"()Ljava/lang/Class;")


def is_reflective_class(text):
    """By the class, or by that of an array's elements."""
    if text.startswith(b"["):
        element = text.lstrip(b"[")
        text = element[1:-1] if element.startswith(b"L") else OBJECT
    return text in (b"java/lang/Class", b"java/lang/ClassLoader") or text.startswith((b"java/lang/reflect/", b"java/lang/invoke/"))


# FLOAT.


def is_float_constant(pool, tag, *parts):
    if tag in (NAME_AND_TYPE, METHOD_TYPE):
        return mentions_float(pool[parts[-1]][1])
    if tag == CLASS:
        text = pool[parts[0]][1]
        return text.startswith(b"[") and mentions_float(text)
    return tag in (FLOAT, DOUBLE)


def mentions_float(descriptor):
    """Whether F or D stands in a descriptor, outside the names of classes."""
    at = 0
    while at < len(descriptor):
        letter = descriptor[at : at + 1]
        if letter in (b"F", b"D"):
            return True
        at = descriptor.index(b";", at) + 1 if letter == b"L" else at + 1
    return False


# The rules on a set.


def duplicates(good):
    names = [view.this_class for _, view in good]
    times = {name: 0 for name in names}
    for name in names:
        times[name] += 1
    return {(path, b"", -1, 5) for path, view in good if times[view.this_class] > 1}


def hierarchy(good):
    """Rule 6. A name stands for all classes of the set and of the library that have it."""
    classes = {}
    for one in LIBRARY:
        classes.setdefault(one.name, []).append((one.flags, above_of(one)))
    for _, view in good:
        classes.setdefault(view.this_class, []).append((view.flags, above_of(view)))
    return {(path, b"", -1, 6) for path, view in good if is_off_hierarchy(view, classes)}


def above_of(view):
    return [*([] if view.super_class is None else [view.super_class]), *view.interfaces]


def is_off_hierarchy(view, classes):
    if view.super_class is None or view.flags & INTERFACE and view.super_class != OBJECT:
        return True
    if any(flags & (INTERFACE | FINAL) for flags, _ in classes.get(view.super_class, [(FINAL, [])])):
        return True
    if any(not flags & INTERFACE for name in view.interfaces for flags, _ in classes.get(name, [(0, [])])):
        return True
    return has_twice(view.fields) or has_twice(view.methods) or view.this_class in ancestors(view, classes)


def has_twice(members):
    """Whether two have one name and one descriptor."""
    return len({(member.name, member.descriptor) for member in members}) < len(members)


def ancestors(view, classes):
    """The names that stand above a class, directly or not."""
    found, waiting = set(), above_of(view)
    while waiting:
        name = waiting.pop()
        if name not in found:
            found.add(name)
            waiting += [other for _, above in classes.get(name, []) for other in above]
    return found
