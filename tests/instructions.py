"""The bytes of instructions whose operands are given as numbers: a slot, an offset, a constant's index and so on.

    iconst_3, istore 8, goto -3, invokestatic 7, newarray byte, wide iload 300

A type of newarray may also be a number, as in `newarray 3`, which no type has. tableswitch and lookupswitch have no such form: `switch` makes them."""

from opcodes import BASES, opcode

# The lengths of the operands in bytes, below 0 where the operand has a sign.
LENGTHS = {name: [1] for name in "ldc iload lload fload dload aload istore lstore fstore dstore astore ret newarray".split()}
LENGTHS |= {name: [2] for name in "ldc_w ldc2_w getstatic putstatic getfield putfield invokevirtual invokespecial invokestatic".split()}
LENGTHS |= {name: [2] for name in "new anewarray checkcast instanceof".split()}
LENGTHS |= {name: [-2] for name in "ifeq ifne iflt ifge ifgt ifle if_icmpeq if_icmpne if_icmplt if_icmpge if_icmpgt if_icmple".split()}
LENGTHS |= {name: [-2] for name in "if_acmpeq if_acmpne ifnull ifnonnull goto jsr sipush".split()}
LENGTHS |= {"bipush": [-1], "iinc": [1, -1], "goto_w": [-4], "jsr_w": [-4]}
LENGTHS |= {"multianewarray": [2, 1], "invokeinterface": [2, 1, 1], "invokedynamic": [2, 1, 1]}


def instruction(text):
    """The bytes of one instruction."""
    name, *operands = text.split()
    lengths, start = LENGTHS.get(name, []), opcode(name)
    if name == "wide":
        name, *operands = operands
        lengths, start = [2 * length for length in LENGTHS[name]], start + opcode(name)
    if len(operands) != len(lengths) or name.endswith("switch"):
        raise ValueError("no instruction: %s" % text)
    if name == "newarray":
        operands = [BASES.get(operands[0], operands[0])]
    return start + b"".join(int(each).to_bytes(abs(length), "big", signed=length < 0) for each, length in zip(operands, lengths))


def instructions(text):
    """The bytes of instructions that are separated by commas."""
    return b"".join(instruction(part) for part in text.split(","))


def switch(name, padding, *numbers):
    """A tableswitch or a lookupswitch: its padding, its default, and then of the one the least number, the greatest and the targets, of the other the count
    and the pairs. The default and the targets are offsets."""
    return opcode(name) + padding + b"".join(number.to_bytes(4, "big", signed=True) for number in numbers)
