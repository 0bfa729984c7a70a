"""What the class files of `bench/shape` are made of: code that grows, with its frames and its rows."""

import collections

import measuring  # It puts tests/ on the path of modules.

from class_files import PUBLIC, STATIC, Pool, attribute, class_file, code, row, u1, u2
from opcodes import opcode

# The most bytes of code, local variables, operands, rows and frames that a method has.
MOST = 65535
# How far a jump goes back or forth.
FAR = 32767

NOP, ZERO, NULL, RETURN, ATHROW = map(opcode, ("nop", "iconst_0", "aconst_null", "return", "athrow"))
IFEQ, GOTO, WIDE = map(opcode, ("ifeq", "goto", "wide"))
# The types of a frame that have one byte (JVMS 4.7.4).
TOP_TYPE, INT_TYPE, LONG_TYPE, NULL_TYPE = u1(0), u1(1), u1(4), u1(5)
TYPES = {"int": (INT_TYPE, 1), "long": (LONG_TYPE, 2)}
# The name of each class, in whose place that of a copy is put.
STAND_IN = "Stand_in"

# A class file, how many frames and rows its method has, and its violations.
Made = collections.namedtuple("Made", "data frames rows violations")


def types(text):
    """Types of one byte by their letters: T(op), I(nt), L(ong), N(ull)."""
    return text.translate({ord(each): kind[0] for each, kind in zip("TILN", (TOP_TYPE, INT_TYPE, LONG_TYPE, NULL_TYPE))}).encode("latin-1")


def full(declared, operands=b""):
    """A full frame with these types, each of which has one byte."""
    return 255, u2(len(declared)) + declared + u2(len(operands)) + operands


def same():
    return 251, b""


def one_operand(kind=NULL_TYPE):
    return 247, kind


def chopped(count):
    return 251 - count, b""


def appended(declared, count=None):
    return 251 + (len(declared) if count is None else count), declared


def frame_bytes(delta, form, body):
    """A frame; with a small delta some take two bytes less."""
    if delta < 64 and form in (251, 247):
        return u1(delta if form == 251 else 64 + delta) + body
    return u1(form) + u2(delta) + body


def stack_map(frames):
    last, made = -1, [u2(len(frames))]
    for address, (form, body) in frames:
        made.append(frame_bytes(address - last - 1, form, body))
        last = address
    return b"".join(made)


def store(slot, kind="int"):
    """Instructions that put a value into a local variable."""
    push, wide, near = {"int": (ZERO, 54, 54), "null": (NULL, 58, 58), "long": (opcode("lconst_0"), 55, 55)}[kind]
    return push + (WIDE + u1(wide) + u2(slot) if slot > 255 else u1(near) + u1(slot))


class Method:
    """Code that grows, with its frames and rows. It begins with a return, so that the first frame after it comes from nowhere."""

    def __init__(self, start=RETURN):
        self.code, self.frames, self.rows = bytearray(start), [], []

    def here(self):
        return len(self.code)

    def add(self, more):
        self.code += more

    def at_frame(self, frame, more):
        """Adds instructions of which the first has a frame, and gives its address."""
        at = self.here()
        self.frames.append((at, frame))
        self.code += more
        return at

    def jump(self, target):
        """A branch to an address, which may be too far: then it is left out."""
        offset = target - self.here() - 1
        if abs(offset) <= FAR:
            self.add(ZERO + IFEQ + offset.to_bytes(2, "big", signed=True))

    def switch(self, targets):
        """A switch over this many numbers, at a multiple of 4 but one, so that it has no padding."""
        self.add(NOP * ((2 - self.here()) % 4))
        at = self.here() + 1
        numbers = [targets[0] - at, 0, len(targets) - 1, *(target - at for target in targets)]
        self.add(ZERO + opcode("tableswitch") + b"".join(each.to_bytes(4, "big", signed=True) for each in numbers))

    def handler(self, frame):
        return self.at_frame(frame, ATHROW)

    def cover(self, start, end, handler):
        self.rows.append((start, end, handler, 0))

    def listed(self, pool):
        return row(1) + attribute(pool.text("StackMapTable"), stack_map(self.frames))

    def made(self, slots=MOST, operands=2, violations=0):
        pool = Pool()
        body = code(bytes(self.code), operands, slots, self.rows, self.listed(pool))
        data = class_file(STAND_IN, [("m", "(I)V", PUBLIC | STATIC, [body])], pool=pool)
        return Made(data, len(self.frames), len(self.rows), violations)
