"""The opcodes of instructions by their names in JVMS 6.5, and the types of newarray by theirs."""


def expanded(text):
    """The names that are separated by blanks; `NAME_n` stands for NAME_0 to NAME_3."""
    for name in text.split():
        yield from [name[:-1] + str(number) for number in range(4)] if name.endswith("_n") else [name]


NAMES = "nop aconst_null iconst_m1 iconst_0 iconst_1 iconst_2 iconst_3 iconst_4 iconst_5 lconst_0 lconst_1 fconst_0 fconst_1 fconst_2 dconst_0"
NAMES += " dconst_1 bipush sipush ldc ldc_w ldc2_w iload lload fload dload aload iload_n lload_n fload_n dload_n aload_n iaload laload faload"
NAMES += " daload aaload baload caload saload istore lstore fstore dstore astore istore_n lstore_n fstore_n dstore_n astore_n iastore lastore"
NAMES += " fastore dastore aastore bastore castore sastore pop pop2 dup dup_x1 dup_x2 dup2 dup2_x1 dup2_x2 swap iadd ladd fadd dadd isub lsub"
NAMES += " fsub dsub imul lmul fmul dmul idiv ldiv fdiv ddiv irem lrem frem drem ineg lneg fneg dneg ishl lshl ishr lshr iushr lushr iand land"
NAMES += " ior lor ixor lxor iinc i2l i2f i2d l2i l2f l2d f2i f2l f2d d2i d2l d2f i2b i2c i2s lcmp fcmpl fcmpg dcmpl dcmpg ifeq ifne iflt ifge"
NAMES += " ifgt ifle if_icmpeq if_icmpne if_icmplt if_icmpge if_icmpgt if_icmple if_acmpeq if_acmpne goto jsr ret tableswitch lookupswitch"
NAMES += " ireturn lreturn freturn dreturn areturn return getstatic putstatic getfield putfield invokevirtual invokespecial invokestatic"
NAMES += " invokeinterface invokedynamic new newarray anewarray arraylength athrow checkcast instanceof monitorenter monitorexit wide"
NAMES += " multianewarray ifnull ifnonnull goto_w jsr_w breakpoint"
OPCODES = {name: op for op, name in enumerate(expanded(NAMES))}
assert OPCODES["breakpoint"] == 202

BASES = dict(zip("boolean char float double byte short int long".split(), range(4, 12)))


def opcode(name):
    """The byte of an opcode."""
    return bytes([OPCODES[name]])


def numbers(names):
    """The numbers of opcodes, whose names are separated by blanks; `iload_n` stands for four of them."""
    return [OPCODES[name] for name in expanded(names)]


def by_number(**values):
    """These values by the numbers of the opcodes for which they are given."""
    return {OPCODES[name]: value for name, value in values.items()}


def opcodes_between(first, last):
    """The bytes of the opcodes from one name to another."""
    return bytes(range(OPCODES[first], OPCODES[last] + 1))
