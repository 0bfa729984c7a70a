"""Rows of arithmetic, of dj_parts_tests (arith_rows.rt) and of the facts of dj_arith (ArithmeticRows.antt), computed anew by what JVMS 6.5 says of each instruction.
tests/generated calls it."""

import os
import re

CRATES = os.path.join(os.path.dirname(os.path.dirname(os.path.abspath(__file__))), "crates")
ROWS = os.path.join(CRATES, "dj_parts_tests", "src", "arith_rows.rt")
FACTS = os.path.join(CRATES, "dj_arith", "proofs", "ArithmeticRows.antt")
WIDTHS = {"int": 32, "long": 64}
MOST = {"i32::MAX": 2**31 - 1, "i32::MIN": -(2**31), "i64::MAX": 2**63 - 1, "i64::MIN": -(2**63)}


def wrap(width, n):
    """The low bits of a number, with their sign."""
    return (n + 2 ** (width - 1)) % 2**width - 2 ** (width - 1)


def quotient(width, a, b):
    """Rounded towards zero; none where the divisor is zero."""
    return None if b == 0 else wrap(width, abs(a) // abs(b) * (1 if (a < 0) == (b < 0) else -1))


def remainder(width, a, b):
    """With the sign of the dividend."""
    return None if b == 0 else abs(a) % abs(b) * (1 if a >= 0 else -1)


OF_TWO = {
    "add": lambda width, a, b: wrap(width, a + b),
    "sub": lambda width, a, b: wrap(width, a - b),
    "mul": lambda width, a, b: wrap(width, a * b),
    "and": lambda width, a, b: a & b,
    "or": lambda width, a, b: a | b,
    "xor": lambda width, a, b: a ^ b,
    "div": quotient,
    "rem": remainder,
    "shl": lambda width, a, b: wrap(width, a << b % width),
    "shr": lambda width, a, b: a >> b % width,
    "ushr": lambda width, a, b: wrap(width, a % 2**width >> b % width),
    "cmp": lambda width, a, b: (a > b) - (a < b),
}
OF_ONE = {
    "int_to_long": lambda n: n,
    "int_to_byte": lambda n: wrap(8, n),
    "int_to_char": lambda n: n % 2**16,
    "int_to_short": lambda n: wrap(16, n),
    "long_to_int": lambda n: wrap(32, n),
    "neg_int": lambda n: wrap(32, -n),
    "neg_long": lambda n: wrap(64, -n),
}


def meant(name, arguments):
    """What an instruction makes of its arguments."""
    if name in OF_ONE:
        return OF_ONE[name](*arguments)
    what, kind = name.split("_")
    return OF_TWO[what](WIDTHS[kind], *arguments)


def tables_of_tests():
    """By the name of a table its rows, each with the result last."""
    with open(ROWS, encoding="utf-8") as file:
        text = file.read()
    for name, rows in re.findall(r"^pub const (\w+): [^=]*= \[(.*?)^\];", text, re.MULTILINE | re.DOTALL):
        number = r"-?\d+|i\d\d::M\w\w|None"
        found = [re.findall(number, row) for row in re.findall(r"\((.*)\),\n", rows)]
        yield name.lower(), [[None if each == "None" else MOST.get(each) or int(each) for each in row] for row in found]


def numbers_in(text):
    """Those of a list of the definitions' language, in which `negsuc n` is -1 - n."""
    return [int(n) if sign == "pos" else -1 - int(n) for sign, n in re.findall(r"(pos|negsuc) (\d+)", text)]


def tables_of_facts():
    with open(FACTS, encoding="utf-8") as file:
        text = file.read()
    for name, given, results in re.findall(r"^([a-z_]+?)(?:_\d)? : map .*\n\s+\((.*)\)\n\s+≡ (.*)$", text, re.MULTILINE):
        arguments, answers = numbers_in(given), numbers_in(results)
        count = len(arguments) // len(answers)
        yield name, [arguments[count * at : count * at + count] + [answer] for at, answer in enumerate(answers)]


def wrong(tables):
    """The rows whose result is another than is meant, and where no row was found that there is none."""
    count, lines = 0, []
    for name, rows in tables:
        count += len(rows)
        lines += ["%s %r: %r is meant" % (name, row, meant(name, row[:-1])) for row in rows if row[-1] != meant(name, row[:-1])]
    return lines if count else ["no rows were found"]


def check(results):
    results.add("dj_parts_tests, rows of arithmetic", [], wrong(tables_of_tests()))
    results.add("dj_arith, facts of arithmetic", [], wrong(tables_of_facts()))
