#!/usr/bin/env python3
"""What a class file means: the same for two files that differ in the order of their constants alone.

    tests/meaning.py CLASSFILE CLASSFILE     prints what differs; the status is 1 where something does

Attributes that the assembler doesn't write (line numbers, the source's name and the like) are left out. Constants stand for
what they name, and instructions, rows of the exception table and frames for the same with the indexes looked up.
"""

import struct
import sys

sys.dont_write_bytecode = True

from check_rules import FULL, IINC, LDC, LOOKUPSWITCH, OPERANDS, SAME_EXTENDED, STACK_1_EXTENDED, TABLESWITCH, TYPE_OBJECT, TYPE_UNINITIALIZED
from check_rules import WIDE, WITH_CONSTANT
from class_reader import DOUBLE, FLOAT, INTEGER, INVOKE_DYNAMIC, LONG, METHOD_HANDLE, PARTS, UTF8


class Reader:
    def __init__(self, data):
        self.data, self.at = data, 0

    def number(self, size):
        self.at += size
        return int.from_bytes(self.data[self.at - size : self.at], "big")

    def bytes(self, size):
        self.at += size
        return self.data[self.at - size : self.at]


def pool_of(reader):
    """The constants by their indexes."""
    pool, count, at = {}, reader.number(2), 1
    while at < count:
        tag = reader.number(1)
        if tag == UTF8:
            pool[at] = (tag, reader.bytes(reader.number(2)))
        else:
            pool[at] = (tag, *(reader.number(size) for size in PARTS[tag]))
        at += 2 if tag in (LONG, DOUBLE) else 1
    return pool


def constant(pool, index):
    """What the constant of an index names."""
    tag, *parts = pool[index]
    if tag in (UTF8, INTEGER, FLOAT, LONG, DOUBLE):
        return (tag, *parts)
    if tag in (METHOD_HANDLE, INVOKE_DYNAMIC):
        return (tag, parts[0], constant(pool, parts[1]))
    return (tag, *(constant(pool, part) for part in parts))


def instructions(pool, code):
    """The instructions at their addresses."""
    found, at = [], 0
    while at < len(code):
        op = code[at]
        if op in (TABLESWITCH, LOOKUPSWITCH):
            start = at + 4 - at % 4
            low, high = struct.unpack(">ii", code[start + 4 : start + 12])
            length = start - at + (12 + 4 * (high - low + 1) if op == TABLESWITCH else 8 + 8 * low)
        elif op == WIDE:
            length = 6 if code[at + 1] == IINC else 4
        else:
            length = 1 + OPERANDS[op]
        operands = code[at + 1 : at + length]
        if op in (LDC, *WITH_CONSTANT):
            size = 1 if op == LDC else 2
            operands = (constant(pool, int.from_bytes(operands[:size], "big")), operands[size:])
        found.append((at, op, operands))
        at += length
    return found


def type_of(pool, reader):
    tag = reader.number(1)
    if tag == TYPE_OBJECT:
        return (tag, constant(pool, reader.number(2)))
    return (tag, reader.number(2)) if tag == TYPE_UNINITIALIZED else (tag,)


def frame_of(pool, reader):
    kind = reader.number(1)
    if kind < 64:
        return (kind,)
    if kind < 128:
        return (kind, type_of(pool, reader))
    delta = reader.number(2)
    if kind == STACK_1_EXTENDED:
        return (kind, delta, type_of(pool, reader))
    if kind <= SAME_EXTENDED:
        return (kind, delta)
    if kind < FULL:
        return (kind, delta, [type_of(pool, reader) for _ in range(kind - SAME_EXTENDED)])
    return (kind, delta, [[type_of(pool, reader) for _ in range(reader.number(2))] for _ in range(2)])


def attributes(pool, reader):
    """The attributes that the assembler writes, by their names."""
    found = {}
    for _ in range(reader.number(2)):
        name = pool[reader.number(2)][1]
        body = Reader(reader.bytes(reader.number(4)))
        if name == b"ConstantValue":
            found[name] = constant(pool, body.number(2))
        elif name == b"StackMapTable":
            found[name] = [frame_of(pool, body) for _ in range(body.number(2))]
        elif name == b"Code":
            sizes = (body.number(2), body.number(2))
            code = instructions(pool, body.bytes(body.number(4)))
            rows = [tuple(body.number(2) for _ in range(4)) for _ in range(body.number(2))]
            table = [(*row[:3], constant(pool, row[3]) if row[3] else None) for row in rows]
            found[name] = (sizes, code, table, attributes(pool, body))
    return found


def members(pool, reader):
    found = []
    for _ in range(reader.number(2)):
        flags, name, descriptor = (reader.number(2) for _ in range(3))
        found.append((flags, pool[name][1], pool[descriptor][1], attributes(pool, reader)))
    return found


def meaning(data):
    """The parts of a class file by their names."""
    reader = Reader(data)
    parts = {"magic": reader.number(4), "version": (reader.number(2), reader.number(2))}
    pool = pool_of(reader)
    parts["flags"] = reader.number(2)
    parts["class"] = constant(pool, reader.number(2))
    parts["superclass"] = constant(pool, reader.number(2))
    parts["interfaces"] = [constant(pool, reader.number(2)) for _ in range(reader.number(2))]
    parts["fields"] = members(pool, reader)
    parts["methods"] = members(pool, reader)
    return parts


def differences(first, second):
    """A line for each part in which two class files differ in what they mean."""
    one, other = meaning(first), meaning(second)
    return ["%s: %r, %r" % (part, one[part], other[part]) for part in one if one[part] != other[part]]


def main():
    files = []
    for path in sys.argv[1:3]:
        with open(path, "rb") as file:
            files.append(file.read())
    lines = differences(*files)
    print("\n".join(lines), end="\n" if lines else "")
    return 1 if lines else 0


if __name__ == "__main__":
    sys.exit(main())
