"""Makes methods of texts, for the cases on rule 19: instructions by their names, with labels, frames and rows of an exception table.

A text has instructions, separated by commas, as

    iconst_0, ifeq Else, goto End, Else: {same} nop, !End: {append int} return

Before an instruction may stand labels, each with a colon; its frame in braces; and `!`, by which a case says that rule 19 has
this instruction's number. An instruction is a name of JVMS 6.5 and its operands: a number, a slot, labels, a type of newarray, a class, or
a class, a name and a descriptor. `wide` stands before the name. A tableswitch has its least number and a label for each number from there on,
a lookupswitch a number and a label for each; the last word is the default's label. ldc and its like have the name of a constant.

Frames are `same`, `stack TYPE`, `chop N`, `append TYPE..` and `full TYPE.. / TYPE..`; `same+` and `stack+` are the forms with two bytes
of delta. Types are those of TYPES, `ref`, which is of Object, `ref:CLASS`, `class:INDEX` of any constant, `new:LABEL`, and `tag:N`, which is
this byte alone. Rows are `FROM TO HANDLER`, and a class where they catch no others, separated by commas; TO may be `end`.
"""

import re

from class_files import DOUBLE, FIELD, FLOAT, INTEGER, INTERFACE_METHOD, LONG, METHOD, PUBLIC, STATIC, attribute, code, invoke_dynamic, row, u1, u2, u4
from opcodes import BASES, opcode

TYPES = {"top": 0, "int": 1, "float": 2, "double": 3, "long": 4, "null": 5, "this": 6}
CONSTANTS = {"int": INTEGER, "float": FLOAT, "long": LONG, "double": DOUBLE}

WITH_SLOT = tuple(kind + each for kind in "ilfda" for each in ("load", "store")) + ("ret", "iinc")
OF_FIELDS = ("getstatic", "putstatic", "getfield", "putfield")
OF_CLASSES = ("new", "anewarray", "checkcast", "instanceof")


def signed(number, size):
    return int(number).to_bytes(size, "big", signed=True)


def parameters(descriptor):
    return re.findall(r"\[*(?:L[^;]*;|[A-Z])", descriptor[1 : descriptor.index(")")])


def slots_of(descriptor):
    return sum(2 if text in "JD" else 1 for text in parameters(descriptor))


class Text:
    """What stands before each instruction of a text, and its words."""

    PART = re.compile(r"\s*(?:(!)|(\w+):|\{([^}]*)\})")

    def __init__(self, text):
        self.words, self.frames, self.labels, self.marked = [], {}, {}, None
        for number, part in enumerate(text.split(",")):
            found = self.PART.match(part)
            while found:
                mark, label, frame = found.groups()
                if mark:
                    assert self.marked is None
                    self.marked = number
                elif label:
                    self.labels[label] = number
                else:
                    self.frames[number] = frame
                part = part[found.end() :]
                found = self.PART.match(part)
            self.words.append(part.split())
        self.labels["end"] = len(self.words)


class Frames:
    """The bytes of frames, whose types name classes of this pool and addresses of these labels."""

    def __init__(self, pool, **labels):
        self.pool, self.labels = pool, labels

    def address(self, label):
        return self.labels[label]

    def map_of(self, text, count=None, more=b""):
        """A stack map whose frames are separated by commas, each with its delta before it, as in `0 stack int, 2 same`. Where another count
        than theirs is given, it has that one; `more` stands behind the frames."""
        made = [self.frame(int(delta), *frame) for delta, *frame in map(str.split, filter(None, text.split(",")))]
        return u2(len(made) if count is None else count) + b"".join(made) + more

    def frame(self, delta, form, *operands):
        if form == "same" and delta < 64:
            return u1(delta)
        if form == "stack" and delta < 64:
            return u1(64 + delta) + self.types(operands)
        if form == "chop":
            return u1(251 - int(operands[0])) + u2(delta)
        if form == "full":
            middle = operands.index("/")
            lists = operands[:middle], operands[middle + 1 :]
            return u1(255) + u2(delta) + b"".join(u2(len(each)) + self.types(each) for each in lists)
        tag = {"same": 251, "stack": 247, "append": 251 + len(operands)}[form.rstrip("+")]
        return u1(tag) + u2(delta) + self.types(operands)

    def types(self, texts):
        return b"".join(map(self.type, texts))

    def type(self, text):
        if text in TYPES:
            return u1(TYPES[text])
        kind, _, name = text.partition(":")
        if kind == "tag":
            return u1(int(name))
        if kind == "new":
            return u1(8) + u2(self.address(name))
        return u1(7) + u2(int(name) if kind == "class" else self.pool.class_name(name or "java/lang/Object"))


class Body(Frames):
    """The code of a text, with its stack map and its rows."""

    def __init__(self, pool, text, rows=""):
        self.pool, self.text, self.starts = pool, Text(text), [0]
        for words in self.text.words:
            self.starts.append(self.starts[-1] + len(self.bytes_of(words, self.starts[-1], 0)))
        parts = [self.bytes_of(words, at) for words, at in zip(self.text.words, self.starts)]
        self.code = b"".join(parts)
        self.rows = [self.row(*each.split()) for each in rows.split(",") if each]

    def address(self, label):
        return self.starts[self.text.labels[label]]

    def row(self, start, end, handler, of_class=None):
        return *map(self.address, (start, end, handler)), self.pool.class_name(of_class) if of_class else 0

    def bytes_of(self, words, at, target=None):
        """The bytes of an instruction at this address; each label stands for the target, where one is given."""

        def offset(label, size):
            return signed(self.address(label) - at if target is None else target, size)

        name, *operands = words
        if name == "wide":
            name, slot, *more = operands
            return opcode("wide") + opcode(name) + u2(int(slot)) + b"".join(signed(each, 2) for each in more)
        op = opcode(name)
        if name in ("bipush", "sipush"):
            return op + signed(operands[0], 1 if name == "bipush" else 2)
        if name in WITH_SLOT:
            return op + u1(int(operands[0])) + b"".join(signed(each, 1) for each in operands[1:])
        if name in ("goto_w", "jsr_w"):
            return op + offset(operands[0], 4)
        if name in ("tableswitch", "lookupswitch"):
            return op + bytes(-(at + 1) % 4) + offset(operands[-1], 4) + self.table(name, operands[:-1], offset)
        if name == "newarray":
            return op + u1(BASES[operands[0]])
        if name.startswith("if") or name in ("goto", "jsr"):
            return op + offset(operands[0], 2)
        return op + self.constant(name, operands) if operands else op

    def table(self, name, operands, offset):
        if name == "tableswitch":
            low, targets = int(operands[0]), operands[1:]
            return signed(low, 4) + signed(low + len(targets) - 1, 4) + b"".join(offset(label, 4) for label in targets)
        pairs = list(zip(operands[::2], operands[1::2]))
        return u4(len(pairs)) + b"".join(signed(match, 4) + offset(label, 4) for match, label in pairs)

    def constant(self, name, operands):
        if name.startswith("ldc"):
            index = self.constant_named(operands[0])
            return u1(index) if name == "ldc" else u2(index)
        if name in OF_CLASSES:
            return u2(self.pool.class_name(operands[0]))
        if name == "multianewarray":
            return u2(self.pool.class_name(operands[0])) + u1(int(operands[1]))
        if name == "invokedynamic":
            return u2(self.pool.once(invoke_dynamic(0, self.pool.name_and_type(*operands)))) + bytes(2)
        tag = FIELD if name in OF_FIELDS else INTERFACE_METHOD if name == "invokeinterface" else METHOD
        index = u2(self.pool.member(tag, *operands[:3]))
        if name != "invokeinterface":
            return index
        return index + bytes([int(operands[3]) if operands[3:] else 1 + slots_of(operands[2]), 0])

    def constant_named(self, name):
        if name in CONSTANTS:
            return self.pool.once(CONSTANTS[name])
        return self.pool.class_name(name[6:]) if name.startswith("class:") else self.pool.string("x")

    def stack_map(self):
        last, made = -1, []
        for number, frame in sorted(self.text.frames.items()):
            delta, last = self.starts[number] - last - 1, self.starts[number]
            made.append("%d %s" % (delta, frame))
        return self.map_of(",".join(made))

    def attribute(self, stack, locals):
        if not self.text.frames:
            return code(self.code, stack, locals, self.rows)
        frames = self.stack_map()
        listed = row(1) + attribute(self.pool.text("StackMapTable"), frames)
        return code(self.code, stack, locals, self.rows, listed)


class Method:
    """A method that a case has: its name and its descriptor, `()V` where it has none, with a blank between them where the name has a
    parenthesis too; and its text."""

    def __init__(self, head, text, rows="", flags=PUBLIC | STATIC, stack=9, locals=9):
        head = head if "(" in head else head + "()V"
        self.name, self.descriptor = head.split() if " " in head else (head[: head.index("(")], head[head.index("(") :])
        self.text, self.rows = text, rows
        self.flags, self.stack, self.locals = flags, stack, locals

    def made(self, pool):
        """The method as class_files.py takes it, and the marked number, or None."""
        body = Body(pool, self.text, self.rows)
        return (self.name, self.descriptor, self.flags, [body.attribute(self.stack, self.locals)]), body.text.marked


def made_all(pool, methods, of_file="A"):
    """The methods, and the lines that they have."""
    made, lines = [], []
    for one in methods:
        method, number = one.made(pool)
        made.append(method)
        if number is not None:
            lines.append("%s %s%s %d 19" % (of_file, one.name, one.descriptor, number))
    return made, list(dict.fromkeys(lines))
