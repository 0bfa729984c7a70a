"""Further class files of `bench/shape`: with rows of the exception table, with many methods, and such that are refused."""

import random

from slow_forms import begun, by_turns, form, ints, longs, steps, up_to
from slow_methods import (
    INT_TYPE, LONG_TYPE, MOST, Made, Method, NOP, NULL, NULL_TYPE, RETURN, STAND_IN, ZERO, appended, chopped, full, one_operand, same, store, types,
)

from class_files import PUBLIC, STATIC, Pool, class_file, code, row, u1, u2
from opcodes import opcode


def staggered(method, start, width, count, handlers, rows):
    """Rows that begin in the first half of so many instructions of this width, and end in the other, of the handlers by turns."""
    half = max(1, count // 2)
    for number in range(up_to(MOST, rows)):
        turn = number // len(handlers)
        first, last = turn * 7 % half, half + turn * 11 % max(1, count - half)
        method.cover(start + width * first, start + width * (last + 1), handlers[number % len(handlers)])


def loads_and_stores(method, count):
    start = method.here()
    steps(method, count, opcode("iload_0") + opcode("istore_1"))
    return start, method.here() - start


def rows_over_stores(size, handlers, declared):
    """Rows of half of the code and more."""
    method = begun(declared)
    start, count = loads_and_stores(method, min(size // 12, (MOST - handlers - 8) // 2))
    method.add(RETURN)
    those = [method.handler(one_operand()) for _ in range(handlers)]
    staggered(method, start, 1, count, those, (size - method.here() - len(declared) - 4 * handlers) / 8)
    return method.made()


@form
def rows_of_few_handlers(size):
    return rows_over_stores(size, 4, ints(2))


@form
def rows_of_many_handlers(size):
    return rows_over_stores(size, up_to(8000, size / 40), ints(2))


@form
def rows_of_few_handlers_and_many_ints(size):
    return rows_over_stores(size, 4, ints(min(30000, size / 3)))


@form
def rows_of_many_handlers_and_many_longs(size):
    return rows_over_stores(size, up_to(8000, size / 40), INT_TYPE * 2 + longs(min(30000, size / 3)))


def changing_stores(method, slots, count):
    """A store in one of so many local variables after the other, first of null, then of an int and so on; where they start."""
    start = method.here()
    for number in range(min(count, (MOST - method.here() - 3) // 5)):
        method.add(store(256 + number * 37 % slots, ("null", "int")[number // slots % 2]))
    return start


@form
def rows_and_stores_in_many_ints(size):
    """The handlers' frames have ints, all others are left by the stores as they are."""
    count = up_to(30000, size / 3)
    method, handlers = begun(ints(count + 300)), up_to(1000, size / 100)
    start = method.here()
    for number in range(min(size // 20, (MOST - handlers - 8) // 5)):
        method.add(store(256 + number % count))
    stores = (method.here() - start) // 5
    method.add(RETURN)
    those = [method.handler(one_operand()) for _ in range(handlers)]
    staggered(method, start, 5, stores, those, (size - method.here() - count) / 8)
    return method.made()


def stores_in_spread_variables(size, rows):
    """What all of a range have is another list in each block of instructions."""
    method = begun(ints(min(65000, size / 3)))
    start = changing_stores(method, max(1, len(method.frames[0][1][1]) - 4 - 256), size // 8)
    end = method.here()
    method.add(RETURN)
    handler = method.handler(full(INT_TYPE, NULL_TYPE))
    for _ in range(up_to(MOST, rows)):
        method.cover(start, end, handler)
    return method.made()


@form
def a_row_over_stores_in_spread_variables(size):
    return stores_in_spread_variables(size, 1)


@form
def rows_over_stores_in_spread_variables(size):
    return stores_in_spread_variables(size, size / 32)


@form
def rows_of_one_instruction(size):
    """All the same, of a handler whose frame has many longs."""
    method = begun(longs(min(32000, size / 3)))
    method.add(RETURN)
    handler = method.handler(one_operand())
    for _ in range(up_to(MOST, size / 12)):
        method.cover(1, 2, handler)
    return method.made()


@form
def a_frame_at_each_byte_in_rows(size):
    """Each row begins at another byte."""
    method = begun(longs(min(32000, size / 14)))
    for _ in range(up_to(MOST - 4, size / 14)):
        method.at_frame(same(), NOP)
    end = method.here()
    method.add(RETURN)
    handler = method.handler(one_operand())
    for number in range(up_to(MOST, size / 11)):
        method.cover(1 + number % (end - 1), end, handler)
    return method.made()


@form
def rows_within_rows(size):
    method = begun(longs(min(32000, size / 3)))
    start, count = loads_and_stores(method, min(size // 12, (MOST - 8) // 2))
    method.add(RETURN)
    handler = method.handler(one_operand())
    for number in range(up_to(MOST, size / 12)):
        inner = number % max(1, count // 2)
        method.cover(start + inner, start + count - inner, handler)
    return method.made()


@form
def handlers_that_chop_and_append(size):
    """Before each handler's frame, one appends or takes away a type; stores of other kinds beyond, and rows that begin and end everywhere."""
    count, few = up_to(30000, size / 6), up_to(6000, size / 60)
    method = begun(types("I" * count + "T" * 300))
    start = method.here()
    for number in range(up_to(4500, size / 20)):
        method.add(store(count + 270 + number % 2 * 2, ("null", "int", "int")[number % 3]))
    stores = (method.here() - start) // 5 if count > 0 else 1
    method.add(RETURN)
    method.at_frame(full(ints(count)), RETURN)
    those = []
    for number in range(few):
        method.at_frame(appended(INT_TYPE) if number % 2 else chopped(1), RETURN)
        those.append(method.handler(one_operand()))
    staggered(method, start, 5, stores, those, size / 12)
    return method.made()


@form
def states_that_chop_and_append(size):
    """In rows of few handlers with whole lists."""
    count = up_to(30000, size / 12)
    method = begun(longs(count))
    for number in range(up_to(20000, size / 30)):
        method.at_frame(chopped(1) if number % 2 == 0 else appended(LONG_TYPE), RETURN)
    end = method.here()
    those = [method.handler(full(longs(count - 1), NULL_TYPE)) for _ in range(4)]
    staggered(method, 1, 1, end - 1, those, size / 20)
    return method.made()


def lists_in_rows(size, states, handlers, rows, declared):
    """Whole lists as states, and as those of handlers."""
    method = Method()
    start = method.here()
    for _ in range(states):
        method.at_frame(full(declared), RETURN)
    those = [method.handler(full(declared, NULL_TYPE)) for _ in range(handlers)]
    staggered(method, start, 1, states, those, rows)
    return method.made()


@form
def lists_in_rows_of_lists(size):
    """Whole lists of longs as states, and as those of handlers: each handler is asked of many states."""
    count = up_to(1024, (size / 1.5) ** 0.5)
    rows = min(MOST, count * count / 16)
    return lists_in_rows(size, count, count, rows, longs((size - 8 * rows) / (2 * count) - 9))


@form
def lists_in_rows_of_few_instructions(size):
    """The same with rows of two instructions."""
    count = up_to(360, (size / 6) ** 0.5)
    each = longs((size - 4 * count * count) / (2 * count) - 9)
    method = Method()
    for _ in range(count):
        method.at_frame(full(each), RETURN)
    for _ in range(count):
        handler = method.handler(full(each, NULL_TYPE))
        for number in range(1, count, 2):
            method.cover(number, min(number + 2, count + 1), handler)
    method.rows = method.rows[:MOST]
    return method.made()


@form
def lists_with_gaps_in_rows(size):
    """Many handlers with whole lists of their own, which have nothing where stores go; rows begin and end everywhere."""
    handlers = up_to(400, (size / 40) ** 0.5)
    return gaps_in_rows(handlers, up_to(65000, size / 3 / handlers), size / 20, size // 24, 16)


@form
def lists_with_many_gaps_in_rows(size):
    """The same with nothing in each second local variable."""
    handlers = up_to(400, size**0.5 / 4)
    return gaps_in_rows(handlers, up_to(65000, size / 3 / handlers), size / 25, size // 15, 2)


def gaps_in_rows(handlers, count, rows, stores, gap):
    wanted = types(("T" + "I" * (gap - 1)) * (count // gap + 1))[:count]
    method = begun(types("I" * count))
    start = method.here()
    places, gaps, draw = [], max(1, count // gap), random.Random(1)
    for number in range(stores):
        more = store(gap * (number * 31 % gaps), ("null", "int")[number // gaps % 2])
        if method.here() + len(more) + handlers + 2 > MOST:
            break
        places.append(method.here())
        method.add(more)
    places.append(method.here())
    method.add(RETURN)
    those = [method.handler(full(wanted, NULL_TYPE)) for _ in range(handlers)]
    for number in range(up_to(MOST, rows)):
        first, last = sorted(draw.sample(range(len(places)), 2))
        method.cover(places[first], places[last], those[number % handlers])
    return method.made()


# ---- long kinds, objects, returns


@form
def halves_of_longs(size):
    """Stores that cut a long, and longs that are stored there again, where there is room for all local variables."""
    method = Method(NOP)
    steps(method, size, ZERO + opcode("istore_2") + opcode("lconst_0") + opcode("lstore_1"))
    method.add(RETURN)
    return method.made()


@form
def halves_of_longs_far_away(size):
    method = Method(NOP)
    steps(method, size, store(65000) + store(64999, "long"))
    method.add(RETURN)
    return method.made(operands=2)


@form
def stores_of_other_kinds(size):
    method = Method(NOP)
    steps(method, size, NULL + opcode("astore_1") + ZERO + opcode("istore_1"))
    method.add(RETURN)
    return method.made()


def with_objects(size, frame, each):
    """A class name, and code that makes objects of it; then frames that have them."""
    pool = Pool()
    made = opcode("new") + u2(pool.class_name(STAND_IN)) + opcode("pop")
    method = Method(NOP)
    objects = up_to(10000, size / 16)
    starts = [1 + 4 * number for number in range(objects)]
    method.add(made * objects + RETURN)
    for number in range(up_to(20000, (size - 4 * objects) / each)):
        method.at_frame(frame(starts, number), RETURN)
    body = code(bytes(method.code), MOST, MOST, (), method.listed(pool))
    return Made(class_file(STAND_IN, [("m", "(I)V", PUBLIC | STATIC, [body])], pool=pool), len(method.frames), 0, 0)


def uninitialised(address):
    return u1(8) + u2(address)


@form
def frames_with_an_uninitialised_operand(size):
    return with_objects(size, lambda starts, number: (247, uninitialised(starts[number * 37 % len(starts)])), 7)


@form
def frames_with_uninitialised_local_variables(size):
    """Three more in each frame, or three fewer."""
    def frame(starts, number):
        if number % 2:
            return chopped(3)
        return appended(b"".join(uninitialised(starts[(number * 37 + more) % len(starts)]) for more in range(3)), 3)

    return with_objects(size, frame, 10)


@form
def whole_frames_with_uninitialised_local_variables(size):
    count = up_to(10000, size**0.5)

    def frame(starts, number):
        listed = b"".join(uninitialised(starts[(number * 37 + more * 11) % len(starts)]) for more in range(count))
        return 255, u2(count) + listed + u2(0)

    return with_objects(size, frame, 3 * count + 8)


@form
def returns_with_many_ints(size):
    """A return at each byte, with a frame that keeps many ints."""
    return by_turns(ints(min(60000, size / 2)), [same()], size, 2)


# ---- many methods


def many_methods(size, descriptors, body, length):
    """Methods of as many names as there are descriptors and more."""
    pool = Pool()
    listed = [body(pool)]
    count = up_to(60000, size / length)
    names = -(-count // len(descriptors))
    methods = [("m%d" % (number % names), descriptors[number // names], PUBLIC | STATIC, listed) for number in range(count)]
    return Made(class_file(STAND_IN, methods, pool=pool), 0, 0, 0)


@form
def methods_with_many_parameters(size):
    """Each of 255 local variables, and without instructions but a return."""
    count = up_to(200, (size / 300) ** 0.5 / 2)
    kinds = [digits(number) for number in range(count)]
    return many_methods(size - 270 * count, kinds, lambda pool: code(RETURN, 0, 255), 27)


def digits(number):
    """A descriptor of 255 parameters, by a number."""
    return "(" + "".join("IZSB"[number >> 2 * place & 3] for place in range(5)) + "I" * 250 + ")V"


@form
def methods_with_room_for_many_local_variables(size):
    """Each with a frame that has one, and a row."""
    def body(pool):
        method = begun(INT_TYPE)
        method.add(RETURN)
        method.cover(0, 1, method.handler(full(b"", NULL_TYPE)))
        return code(bytes(method.code), MOST, MOST, method.rows, method.listed(pool))

    return many_methods(size, ["()V"], body, 65)


# ---- refused


@form
def rows_that_fail_at_their_end(size):
    """All rows ask for what the last store takes away."""
    method = begun(ints(min(30000, size / 3)))
    start, _ = loads_and_stores(method, min(size // 12, (MOST - 8) // 2))
    method.add(NULL + opcode("astore_1"))
    end = method.here() + 1
    method.add(NOP + RETURN)
    handler = method.handler(one_operand())
    for _ in range(up_to(MOST, size / 12)):
        method.cover(start, end, handler)
    return method.made(violations=1)


@form
def handlers_that_fail_at_their_end(size):
    """The same with many handlers, each of which has a list of its own."""
    count = up_to(300, (size / 40) ** 0.5)
    each = ints(size / 3 / count)
    method = begun(each)
    start, _ = loads_and_stores(method, min(size // 12, (MOST - count - 8) // 2))
    method.add(NULL + opcode("astore_1"))
    end = method.here() + 1
    method.add(NOP + RETURN)
    those = [method.handler(full(each, NULL_TYPE)) for _ in range(count)]
    for number in range(up_to(MOST, size / 20)):
        method.cover(start, end, those[number % count])
    return method.made(violations=1)
