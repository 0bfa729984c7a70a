"""The class files of `bench/shape`. Each form makes one of some number of bytes, or as large a one as it can be. The first frame of most of them declares
many local variables, which comes from nowhere: it stands behind a return."""

from slow_methods import (
    FAR, INT_TYPE, LONG_TYPE, MOST, Made, Method, NOP, RETURN, STAND_IN, TOP_TYPE, TYPES, ZERO, appended, chopped, full, one_operand, same, store,
    types,
)

from class_files import PUBLIC, STATIC, Pool, class_file, code, row, u2
from opcodes import opcode

forms = {}


def form(make):
    """Keeps the function that makes a class file, by its name."""
    forms[make.__name__.replace("_", " ")] = make
    return make


def up_to(most, count):
    return max(1, min(most, int(count)))


def ints(count):
    return INT_TYPE * up_to(MOST, count)


def longs(count):
    return LONG_TYPE * up_to(MOST // 2, count)


def begun(declared, operands=b""):
    """A method with a frame at 1, whose instruction does nothing."""
    method = Method()
    method.at_frame(full(declared, operands), NOP)
    return method


def steps(method, count, more):
    """Adds instructions this many times, as far as there is room."""
    method.add(more * min(count, (MOST - 1 - method.here()) // len(more)))


# ---- frames


@form
def a_frame_at_each_byte(size):
    """Room for all local variables, of which none has a kind."""
    method = Method(NOP)
    for _ in range(up_to(MOST - 2, size / 2)):
        method.at_frame(same(), NOP)
    method.add(RETURN)
    return method.made()


def frames_that_keep(declared, size):
    method = begun(declared)
    for _ in range(up_to(MOST - 3, (size - len(declared)) / 2)):
        method.at_frame(same(), NOP)
    method.add(RETURN)
    return method.made()


@form
def frames_that_keep_ints(size):
    return frames_that_keep(ints(size / 3), size)


@form
def frames_that_keep_longs(size):
    """For which a frame has half as many types."""
    return frames_that_keep(longs(size / 4), size)


@form
def frames_that_keep_few_and_many(size):
    """By turns one local variable and as many as fit, each frame a whole one."""
    return declared_by_turns(size, [ints(1), longs(size**0.5)])


def declared_by_turns(size, lists):
    """Behind returns, so that none is compared with the one before."""
    method, count = begun(lists[0]), sum(len(each) + 9 for each in lists)
    for turn in range(min(size // count, MOST // len(lists) - 2)):
        for each in lists:
            method.at_frame(full(each), RETURN)
    return method.made()


@form
def frames_that_declare_anew(size):
    """Each of them is compared with the one before."""
    each, method = ints(min(size**0.5 * 4, size / 3)), begun(ints(1))
    method.add(RETURN)
    while method.here() * (len(each) + 8) < size:
        method.at_frame(full(each), NOP)
    method.add(RETURN)
    return method.made()


@form
def frames_of_tops_before_ints(size):
    """Whole frames of which only the last local variable has a kind."""
    each = TOP_TYPE * up_to(MOST - 1, size**0.5 * 4) + INT_TYPE
    return declared_by_turns(size, [each])


def by_turns(declared, frames, size, each):
    """A return in each byte, and after it a frame by turns."""
    method = begun(declared)
    method.add(RETURN)
    for number in range(up_to(MOST - 3, (size - len(declared)) / each)):
        method.at_frame(frames[number % len(frames)], RETURN)
    return method.made()


@form
def frames_that_chop_and_append(size):
    """Three of many types are taken away, and then appended."""
    return by_turns(ints(min(30000, size / 3)), [chopped(3), appended(INT_TYPE * 3)], size, 5.5)


@form
def frames_that_chop_and_append_a_long(size):
    return by_turns(longs(min(30000, size / 3)), [chopped(1), appended(LONG_TYPE)], size, 4.5)


@form
def frames_that_chop_all(size):
    """Many types are taken away one by one."""
    count = up_to(MOST // 2 - 2, size / 5)
    return by_turns(longs(count), [chopped(1)], min(size, 5 * count), 4)


@form
def frames_that_append_all(size):
    """Longs are appended one by one."""
    return by_turns(ints(1), [appended(LONG_TYPE)], min(size, 5 * 32000), 5)


@form
def frames_with_one_operand(size):
    return by_turns(ints(min(30000, size / 3)), [one_operand()], size, 3)


@form
def frames_with_many_operands(size):
    """Whole frames of one local variable and many operands, each compared with the one before."""
    each, method = min(size**0.5 * 4, 65000), begun(ints(1))
    method.add(RETURN)
    while method.here() * (each + 8) < size:
        method.at_frame(full(INT_TYPE, ints(each)), NOP)
    method.add(RETURN)
    return method.made(operands=MOST)


# ---- jumps


def to_the_next(jump, method, count):
    for _ in range(min(count, (MOST - 1 - method.here()) // len(jump))):
        method.add(jump)
        method.frames.append((method.here(), same()))
    method.add(RETURN)
    return method.made()


@form
def branches_to_the_next(size):
    method = begun(ints(min(30000, size / 2)))
    return to_the_next(ZERO + opcode("ifeq") + u2(3), method, size // 10)


@form
def gotos_to_the_next(size):
    method = begun(longs(min(30000, size / 2)))
    return to_the_next(opcode("goto") + u2(3), method, size // 8)


@form
def branches_to_one_frame(size):
    """All as far back as they go."""
    method = begun(longs(min(30000, size / 2)))
    for _ in range(up_to(8000, size / 8)):
        method.jump(1)
    method.add(RETURN)
    return method.made()


@form
def a_switch_to_one_frame(size):
    method = begun(longs(min(30000, size / 2)))
    method.switch([1] * up_to(16000, size / 8))
    return method.made()


def lists_of(count, size, more=0):
    """How long each of so many whole lists is, in bytes."""
    return up_to(FAR - 8, (size - more) / count - 9)


def jumps_to_lists(size, kind, by_switch=False):
    """As many whole lists as states and as targets, and from each state a jump to each target; the targets are in the middle."""
    declared, width = TYPES[kind]
    count = up_to(120, (size / 12) ** 0.5)
    each = declared * min(lists_of(2 * count, size, 4 * count * count), 65000 // width)
    method, half = Method(), count // 2
    # The targets' addresses are reckoned first.
    length = 1 + 4 * count + 20 if by_switch else 2 + 4 * count
    first = 1 + half * (length + 4)
    targets = [first + number for number in range(count)]
    for number in range(count):
        if number == half:
            pad_to(method, first)
            for _ in targets:
                method.at_frame(full(each), RETURN)
        method.at_frame(full(each), NOP)
        if by_switch:
            method.switch(targets)
        else:
            for target in targets:
                method.jump(target)
            method.add(RETURN)
    return method.made()


def pad_to(method, address):
    """Returns up to an address, the first of which has a frame."""
    while method.here() < address:
        method.at_frame(same(), RETURN)


@form
def branches_from_each_list_to_each(size):
    return jumps_to_lists(size, "int")


@form
def branches_from_each_list_of_longs_to_each(size):
    return jumps_to_lists(size, "long")


@form
def switches_from_each_list_to_each(size):
    return jumps_to_lists(size, "long", by_switch=True)


@form
def stores_and_branches_to_two_lists(size):
    """A store in another local variable, and a branch to one of two whole lists by turns."""
    count = min(size // 4, 30000)
    method = begun(types("I" * count))
    method.add(RETURN)
    method.at_frame(full(types("IT" * (count // 2))), RETURN)
    method.at_frame(full(types("I" + "IT" * (count // 2))[: count]), RETURN)
    method.at_frame(full(types("I" * count)), NOP)
    for number in range(up_to(3500, size / 20)):
        method.add(store(3 + (number * 37) % (count - 4), ("int", "null")[number % 2]))
        method.jump(4)
    method.add(RETURN)
    return method.made()


@form
def stores_and_switches_to_lists(size):
    """Many stores, and then a switch to each of many whole lists, which have nothing where the stores go; time and again."""
    count = up_to(240, (size / 8) ** 0.5)
    stored = up_to(120, size / 4 / count)
    wanted = types("IT" * (stored + max(0, (size // 2 // count - 2 * stored) // 2)))[: 65000]
    method = begun(types("I" * len(wanted)))
    method.add(RETURN)
    targets = [method.at_frame(full(wanted), RETURN) for _ in range(count)]
    method.at_frame(full(types("I" * len(wanted))), NOP)
    turn = 0
    while method.here() * 4 < size and method.here() + 5 * stored + 4 * count + 40 < min(MOST, FAR):
        for number in range(stored):
            method.add(store(1 + 2 * number, ("null", "int")[turn % 2]))
        turn += 1
        method.add(NOP * ((2 - method.here()) % 4))
        # A branch to each, as a switch would end the run.
        for target in targets:
            method.jump(target)
    method.add(RETURN)
    return method.made()


@form
def a_switch_to_frames_that_chop_and_append(size):
    """Each target has another list than the one before."""
    method = begun(longs(min(30000, size / 3)))
    count = up_to(10000, size / 15)
    method.switch(targets_after(method, count))
    for number in range(count):
        method.at_frame(chopped(1) if number % 2 == 0 else appended(LONG_TYPE), RETURN)
    return method.made()


def targets_after(method, count):
    """The addresses behind a switch with this many numbers."""
    start = method.here() + (2 - method.here()) % 4 + 2 + 12 + 4 * count
    return [start + number for number in range(count)]


@form
def branches_back_among_frames_that_chop_and_append(size):
    """From each frame to the one two before, which has a list of its own."""
    method = begun(longs(min(30000, size / 3)))
    method.add(RETURN)
    last = [1, 1]
    for number in range(up_to(10000, size / 12)):
        at = method.at_frame(chopped(1) if number % 2 == 0 else appended(LONG_TYPE), NOP)
        method.jump(last[0] if number > 2 else at)
        method.add(RETURN)
        last = [last[1], at]
    return method.made()


@form
def switches_with_few_targets(size):
    """Each has its own frame, a whole one, and goes to all that were before, as far as these are within reach."""
    count = up_to(60, (size / 40) ** 0.5)
    each = longs(lists_of(2 * count, size, 4 * count * count))
    method = begun(each)
    method.add(RETURN)
    before = [1]
    for _ in range(count):
        before.append(method.at_frame(full(each), NOP))
        method.switch(before)
    return method.made()


# ---- operands


@form
def branches_with_many_operands(size):
    """Each goes back to a frame with as many operands as there are."""
    method = begun(INT_TYPE, ints(min(65000, size / 2)))
    for _ in range(up_to(8000, size / 8)):
        method.jump(1)
    method.add(RETURN)
    return method.made(operands=MOST)


@form
def a_switch_with_many_operands(size):
    method = begun(INT_TYPE, ints(min(65000, size / 2)))
    method.switch([1] * up_to(16000, size / 8))
    return method.made(operands=MOST)


@form
def branches_with_many_operands_to_frames_of_their_own(size):
    """Each of many frames has many operands, and each goes to each."""
    count = up_to(120, (size / 12) ** 0.5)
    each = ints(lists_of(count, size, 4 * count * count))
    method = begun(INT_TYPE, each)
    targets = [1]
    for _ in range(count):
        targets.append(method.at_frame(full(INT_TYPE, each), NOP))
        for target in targets:
            method.jump(target)
    method.add(RETURN)
    return method.made(operands=MOST)


@form
def operands_that_are_moved(size):
    """Over many others."""
    method = begun(INT_TYPE, ints(min(60000, size / 2)))
    steps(method, size // 4, opcode("dup2_x2") + opcode("pop2"))
    method.add(RETURN)
    return method.made(operands=MOST)


@form
def calls_with_many_parameters(size):
    """A frame has the parameters of each."""
    pool = Pool()
    method = Method()
    called = pool.member(10, STAND_IN, "n", "(" + "I" * 255 + ")V")
    count = up_to(MOST // 255 - 1, size / 270)
    times = up_to(60, size / (270 * count))
    for _ in range(times):
        method.at_frame(full(INT_TYPE, INT_TYPE * (255 * count)), NOP)
        method.add((opcode("invokestatic") + u2(called)) * count + RETURN)
    body = code(bytes(method.code), MOST, 1, (), method.listed(pool))
    other = code(RETURN, 0, 255, (), row(0))
    methods = [("m", "(I)V", PUBLIC | STATIC, [body]), ("n", "(" + "I" * 255 + ")V", PUBLIC | STATIC, [other])]
    return Made(class_file(STAND_IN, methods, pool=pool), times, 0, 0)
