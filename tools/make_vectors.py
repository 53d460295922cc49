#!/usr/bin/env python3
# Prints test vectors for stochastic rounding in fixed point, every expected
# answer worked out from the definitions with exact fractions.
#
#   make_vectors.py                    the fixed set, in groups
#   make_vectors.py --random N SEED    N random operation and split lines
#
# Kinds of lines:
#   FORMAT K RULE OP A B WORD -> CODE CLAMP
#   split FORMAT K OP A B -> NEAR FAR R CLAMP
#   next FORMAT CODE -> ABOVE BELOW
#   size S I P -> LEAST GREATEST
#   rule RULE K R DRAW -> near | far
#   unit MODE N K X WORD -> ANSWER
#   lcg SEED -> eight words
# Where there is no answer, "refused" and the number of the refusal follow
# the arrow. A WORD of "-" is an empty source.

import random
import sys
from fractions import Fraction

BAD_SIZES, BAD_SETTING, NO_NUMBER, ZERO_DIVISOR, EMPTY_SOURCE = 1, 2, 3, 4, 8

OPS = ("add", "sub", "mul", "div")
RULES = ("comparison", "carry")
MODES = ("down", "nearest", "stochastic")

MAX32 = 2**32 - 1
MAX64 = 2**64 - 1
EMPTY = None


class Refused(Exception):
    """No answer; carries the number of the refusal."""


# ---------------------------------------------------------------- definitions

class Format:
    """Fixed point of `sign` sign bits, `whole` integer and `part` fractional
    bits. The sizes may be any; `check` refuses the bad ones."""

    def __init__(self, sign, whole, part):
        self.sign, self.whole, self.part = sign, whole, part
        self.width = sign + whole + part

    @staticmethod
    def named(name):
        whole, part = name[1:].split(".")
        return Format({"u": 0, "s": 1}[name[0]], int(whole), int(part))

    def check(self):
        if self.sign not in (0, 1) or not 2 <= self.width <= 32:
            raise Refused(BAD_SIZES)

    def step(self):
        return Fraction(1, 2**self.part)

    def least(self):
        return Fraction(-(2**self.whole) if self.sign else 0)

    def greatest(self):
        return 2**self.whole - self.step()

    def value(self, code):
        """The value of a code; refuses a code that is no number."""
        if code >= 2**self.width:
            raise Refused(NO_NUMBER)
        negative = self.sign and code >= 2**(self.width - 1)
        return Fraction(code - 2**self.width if negative else code, 2**self.part)

    def code(self, value):
        """The code of a value that is a number of this format."""
        steps = value * 2**self.part
        assert steps.denominator == 1 and self.least() <= value <= self.greatest()
        return steps.numerator % 2**self.width


def floor(x):
    return x.numerator // x.denominator


def in_range(setting):
    return 1 <= setting <= 32


def exact(op, left, right):
    if op == "add":
        return left + right
    if op == "sub":
        return left - right
    if op == "mul":
        return left * right
    if right == 0:
        raise Refused(ZERO_DIVISOR)
    return left / right


def split(name, k, op, a, b):
    """The codes of near and far, the count, and 1 for a clamped result."""
    fmt = Format.named(name)
    fmt.check()
    if not in_range(k):
        raise Refused(BAD_SETTING)
    x = exact(op, fmt.value(a), fmt.value(b))
    if x > fmt.greatest() or x < fmt.least():
        end = fmt.code(fmt.greatest() if x > 0 else fmt.least())
        return end, end, 0, 1
    near = floor(x / fmt.step()) * fmt.step()
    far = near if near == x else near + fmt.step()
    gap = far - near
    count = floor(2**k * abs(x - near) / gap) if gap else 0
    return fmt.code(near), fmt.code(far), count, 0


def draw_of(word, k):
    return word // 2**(32 - k)


def says_far(rule, k, count, draw):
    if not in_range(k) or count >= 2**k or draw >= 2**k:
        return False
    if rule == "comparison":
        return draw < count
    return draw + count >= 2**k


def operation(name, k, rule, op, a, b, word):
    near, far, count, clamp = split(name, k, op, a, b)
    if word is EMPTY:
        raise Refused(EMPTY_SOURCE)
    return far if says_far(rule, k, count, draw_of(word, k)) else near, clamp


def neighbours(name, code):
    """The codes next above and next below, None for one that is not there."""
    fmt = Format.named(name)
    fmt.check()
    above, below = fmt.value(code) + fmt.step(), fmt.value(code) - fmt.step()
    return (fmt.code(above) if above <= fmt.greatest() else None,
            fmt.code(below) if below >= fmt.least() else None)


def ends(sign, whole, part):
    fmt = Format(sign, whole, part)
    fmt.check()
    return fmt.code(fmt.least()), fmt.code(fmt.greatest())


def unit(mode, n, k, x, word):
    if not in_range(n) or not in_range(k):
        raise Refused(BAD_SETTING)
    answer = floor(Fraction(x, 2**n))
    if mode == "nearest":
        answer = floor(Fraction(x + 2**(n - 1), 2**n))
    elif mode == "stochastic":
        if word is EMPTY:
            raise Refused(EMPTY_SOURCE)
        count = floor(Fraction(2**k * (x % 2**n), 2**n))
        answer += says_far("comparison", k, count, draw_of(word, k))
    return max(-2**31, min(answer, 2**31 - 1))


def lcg(seed, length=8):
    words, state = [], seed
    for _ in range(length):
        state = (1664525 * state + 1013904223) % 2**32
        words.append(state)
    return words


# ---------------------------------------------------------------------- lines

def show_code(code):
    return "absent" if code is None else f"0x{code:04x}"


def show_word(word):
    return "-" if word is EMPTY else f"0x{word:08x}"


def answered(question, answer):
    """The line of a question; `answer` gives the text after the arrow."""
    try:
        return f"{question} -> {answer()}"
    except Refused as refusal:
        return f"{question} -> refused {refusal.args[0]}"


def operation_line(name, k, rule, op, a, b, word):
    def answer():
        code, clamp = operation(name, k, rule, op, a, b, word)
        return f"{show_code(code)} {clamp}"
    return answered(f"{name} {k} {rule} {op} {show_code(a)} {show_code(b)} "
                    f"{show_word(word)}", answer)


def split_line(name, k, op, a, b):
    def answer():
        near, far, count, clamp = split(name, k, op, a, b)
        return f"{show_code(near)} {show_code(far)} {count} {clamp}"
    return answered(f"split {name} {k} {op} {show_code(a)} {show_code(b)}", answer)


def next_line(name, code):
    return answered(f"next {name} {show_code(code)}",
                    lambda: " ".join(map(show_code, neighbours(name, code))))


def size_line(sign, whole, part):
    return answered(f"size {sign} {whole} {part}",
                    lambda: " ".join(map(show_code, ends(sign, whole, part))))


def rule_line(rule, k, count, draw):
    return answered(f"rule {rule} {k} {count} {draw}",
                    lambda: "far" if says_far(rule, k, count, draw) else "near")


def unit_line(mode, n, k, x, word):
    return answered(f"unit {mode} {n} {k} {x} {show_word(word)}",
                    lambda: unit(mode, n, k, x, word))


def lcg_line(seed):
    return answered(f"lcg {seed}", lambda: " ".join(map(show_word, lcg(seed))))


# ------------------------------------------------------------ edges of choice

def unique(items):
    return list(dict.fromkeys(items))


def lowest_word(draw, k):
    return draw * 2**(32 - k)


def highest_word(draw, k):
    return lowest_word(draw + 1, k) - 1


def edge_words(count, k):
    """The words on both sides of each rule's edge: draws of R-1 and R, and of
    2^k-R-1 and 2^k-R, each as the word that lies closest to the edge."""
    words = []
    for edge in (count, 2**k - count):
        if edge > 0:
            words.append(highest_word(edge - 1, k))
        if edge < 2**k:
            words.append(lowest_word(edge, k))
    return unique(words)


def some_edge_word(rng, name, k, op, a, b):
    """One of the edge words of an operation, any word if it is refused."""
    try:
        words = edge_words(split(name, k, op, a, b)[2], k)
    except Refused:
        return rng.getrandbits(32)
    return words[rng.randrange(len(words))]


def corners(name, rng):
    """Codes worth trying as operands: 0, one step and 1 up and down, both
    ends, half of 2^i, and a random one."""
    fmt = Format.named(name)
    values = [Fraction(0), fmt.step(), -fmt.step(), fmt.least(), fmt.greatest(),
              Fraction(2**fmt.whole, 2), Fraction(1), Fraction(-1)]
    codes = [fmt.code(v) for v in values
             if fmt.least() <= v <= fmt.greatest() and v % fmt.step() == 0]
    return unique(codes + [rng.randrange(2**fmt.width)])


# --------------------------------------------------------------------- groups

SMALL_FORMATS = ("u0.2", "u1.1", "u2.0", "s0.1", "s1.0")
WIDE_FORMATS = ("u0.32", "s0.31", "u32.0", "s31.0", "s16.15", "u16.16")

# Out of 1..32. The last three pass for good ones where a shift wraps at 64
# bits or the number is cut to 8 or 32 bits.
BAD_SETTINGS = (0, 33, MAX64, 65, 256 + 8, 2**32 + 8)

KNOWN = (("mul", 0x0081, 0x0081), ("mul", 0xffff, 0x0001),
         ("add", 0x7fff, 0x0001), ("sub", 0x8000, 0x0001),
         ("div", 0x0080, 0x0180))


def known_results():
    for op, a, b in KNOWN:
        yield split_line("s8.7", 8, op, a, b)
        for word in (0, 0x7fffffff, MAX32):
            yield operation_line("s8.7", 8, "comparison", op, a, b, word)


def edges_of_rules():
    cases = (("s8.7", 8, "mul", 0x0081, 0x0081), ("s8.7", 8, "mul", 0xffff, 0x0001),
             ("s8.7", 8, "div", 0x0080, 0x0180), ("s8.7", 1, "mul", 0xff41, 0x0001),
             ("s8.7", 32, "div", 0xff80, 0x0180), ("u0.32", 32, "mul", MAX32, 0x0003))
    for name, k, op, a, b in cases:
        count = split(name, k, op, a, b)[2]
        for word in edge_words(count, k):
            for rule in RULES:
                yield operation_line(name, k, rule, op, a, b, word)


def exact_results():
    for op, a, b in (("add", 0xff80, 0x0080), ("mul", 0xff00, 0x0040),
                     ("div", 0x0100, 0xff80)):
        yield split_line("s8.7", 8, op, a, b)
        yield operation_line("s8.7", 8, "comparison", op, a, b, 0)
    yield operation_line("s8.7", 8, "carry", "sub", 0x1234, 0x0034, MAX32)


def cut_to_zero():
    cases = (("s8.7", 6, "mul", 0x0081, 0x0081), ("u0.32", 31, "mul", 0x0001, 0x0001),
             ("u32.0", 31, "div", 0x0001, MAX32), ("u16.16", 15, "div", 0x0001, MAX32))
    for name, k, op, a, b in cases:
        yield split_line(name, k, op, a, b)
        yield split_line(name, k + 1, op, a, b)
        yield operation_line(name, k, "comparison", op, a, b, 0)
        yield operation_line(name, k, "carry", op, a, b, MAX32)


def least_and_greatest_k():
    for name, op, a, b in (("s8.7", "mul", 0xff41, 0x0001),
                           ("s31.0", "div", 0xffffffff, 0x7fffffff),
                           ("u32.0", "div", 0xfffffffe, 0xffffffff)):
        for k in (1, 2, 31, 32):
            yield split_line(name, k, op, a, b)


def bad_k():
    for k in BAD_SETTINGS:
        yield split_line("s8.7", k, "add", 0x0001, 0x0001)
        yield operation_line("s8.7", k, "comparison", "mul", 0x0081, 0x0081, 0)


def no_numbers():
    cases = (("s8.7", 0xffffffff), ("s8.7", 0x10000), ("s8.7", 0xffff8000),
             ("u0.2", 0x0004), ("s1.0", 0xfffffffe), ("s0.30", 0x80000000))
    for name, bad in cases:
        yield split_line(name, 8, "add", bad, 0x0001)
        yield operation_line(name, 8, "comparison", "mul", 0x0001, bad, 0)


def zero_divisors():
    for name, a in (("s8.7", 0x8000), ("u0.2", 0x0003), ("u32.0", MAX32),
                    ("s0.31", 0x0000)):
        yield split_line(name, 8, "div", a, 0x0000)
        yield operation_line(name, 32, "carry", "div", a, 0x0000, MAX32)


def around_the_ends():
    cases = (("s8.7", "add", 0x7ffe, 0x0001), ("s8.7", "add", 0x7fff, 0x7fff),
             ("s8.7", "add", 0x8001, 0xffff), ("s8.7", "add", 0x8000, 0xffff),
             ("s8.7", "sub", 0x8001, 0x0001), ("s8.7", "sub", 0x7fff, 0xffff),
             ("s8.7", "sub", 0x0000, 0x8000), ("s8.7", "sub", 0xffff, 0x8000),
             ("s8.7", "mul", 0x7fff, 0x0080), ("s8.7", "mul", 0x0800, 0x0800),
             ("s8.7", "mul", 0x0800, 0xf800), ("s8.7", "mul", 0x0180, 0xd555),
             ("s8.7", "div", 0x7fff, 0x0080), ("s8.7", "div", 0x8000, 0xff80),
             ("s8.7", "div", 0x4000, 0x0040), ("s8.7", "div", 0x4000, 0xffc0),
             ("u0.32", "add", 0xfffffffe, 0x0001), ("u0.32", "add", MAX32, 0x0001),
             ("u0.32", "div", 0x12345678, 0x12345678),
             ("s0.31", "mul", 0x80000000, 0x80000000),
             ("s31.0", "div", 0x80000000, 0xffffffff),
             ("s31.0", "mul", 0x80000000, 0x0001),
             ("u32.0", "mul", 0x10001, 0xffff), ("u32.0", "mul", 0x10000, 0x10000),
             ("s0.1", "mul", 0x0002, 0x0002), ("s1.0", "div", 0x0002, 0x0003))
    for name, op, a, b in cases:
        yield split_line(name, 8, op, a, b)


def close_to_the_ends():
    """By 1/128 of a step or 127/128, inside and beyond."""
    for a, b in ((0x027b, 0x19cd), (0x00b7, 0x5987), (0x07ff, 0x0801),
                 (0x07ff, 0xf7ff), (0x018d, 0xd6bb)):
        yield split_line("s8.7", 8, "mul", a, b)
        yield operation_line("s8.7", 8, "carry", "mul", a, b, MAX32)


def below_zero_unsigned():
    for name, greatest in (("u8.8", 0xffff), ("u0.32", MAX32), ("u32.0", MAX32)):
        yield split_line(name, 8, "sub", 0x0000, 0x0001)
        yield split_line(name, 8, "sub", greatest, greatest)
        yield operation_line(name, 8, "comparison", "sub", 0x0000, greatest, 0)
    yield operation_line("u16.16", 8, "carry", "sub", 0x7fffffff, 0x80000000, MAX32)


def corner_pairs(codes, shift):
    """At most six pairs of codes, each code in one pair at least."""
    shift %= len(codes)
    return list(zip(codes, codes[shift:] + codes[:shift]))[:6]


def corner_lines(names, shifts, rng):
    """The four operations at corner operands; split lines and operation lines
    by turns."""
    turn = 0
    for name in names:
        codes = corners(name, rng)
        for op in OPS:
            for a, b in corner_pairs(codes, shifts[op]):
                k = (8, 32, 1, 16, 31)[turn % 5]
                if turn % 2 == 0:
                    yield split_line(name, k, op, a, b)
                else:
                    word = some_edge_word(rng, name, k, op, a, b)
                    yield operation_line(name, k, RULES[turn // 2 % 2], op, a, b, word)
                turn += 1


def small_corners():
    shifts = {"add": 0, "sub": 3, "mul": 1, "div": 2}
    return corner_lines(SMALL_FORMATS, shifts, random.Random(7))


def wide_corners():
    shifts = {"add": 6, "sub": 3, "mul": 5, "div": 4}
    return corner_lines(WIDE_FORMATS, shifts, random.Random(7))


def precedence():
    good, bad, zero = 0x0080, 0x10000, 0x0000
    cases = (("s8.24", 0, bad, zero), ("u0.1", 8, bad, bad),
             ("s8.7", 0, bad, good), ("s8.7", 33, good, bad), ("s8.7", 0, good, zero),
             ("s8.7", 8, bad, bad), ("s8.7", 8, bad, zero), ("s8.7", 8, good, bad),
             ("s8.7", 8, good, zero), ("s8.7", 8, zero, zero), ("s8.7", 8, good, good))
    for name, k, a, b in cases:
        yield operation_line(name, k, "comparison", "div", a, b, 0)
        yield operation_line(name, k, "comparison", "div", a, b, EMPTY)
    yield operation_line("s8.7", 8, "carry", "add", 0x7fff, 0x7fff, EMPTY)
    yield split_line("s8.24", 0, "div", bad, zero)
    yield split_line("s8.7", 0, "div", bad, zero)
    yield split_line("s8.7", 8, "div", bad, zero)
    yield split_line("s8.7", 8, "div", zero, zero)


def bad_formats():
    for name in ("s8.24", "u0.1", "s0.0", "u0.0", "s0.32", f"u{MAX64}.9",
                 f"s8.{MAX64}", f"s{2**63}.{2**63 + 7}", f"u{2**32 + 8}.8"):
        yield operation_line(name, 8, "comparison", "add", 0x0000, 0x0001, 0)
    yield split_line(f"u{MAX64}.9", 8, "mul", 0x0000, 0x0001)
    yield next_line("s8.24", 0x0000)
    yield next_line(f"u{MAX64}.9", 0xffffffff)


def next_numbers():
    for name in ("s8.7",) + SMALL_FORMATS + WIDE_FORMATS:
        fmt = Format.named(name)
        yield next_line(name, fmt.code(fmt.least()))
        yield next_line(name, fmt.code(fmt.greatest()))
    for name, code in (("s8.7", 0x0000), ("s8.7", 0xffff), ("s1.0", 0x0003),
                       ("s31.0", 0xffffffff), ("u0.32", 0x7fffffff)):
        yield next_line(name, code)
    for name, code in (("s8.7", 0x10000), ("s8.7", 0xffffffff), ("u0.2", 0x0004),
                       ("u31.0", 0x80000000)):
        yield next_line(name, code)


def good_sizes():
    for name in ("s8.7", "u31.0") + SMALL_FORMATS + WIDE_FORMATS:
        fmt = Format.named(name)
        yield size_line(fmt.sign, fmt.whole, fmt.part)


def bad_sizes():
    for sizes in ((0, 0, 0), (0, 0, 1), (0, 1, 0), (1, 0, 0), (0, 33, 0), (0, 0, 33),
                  (1, 32, 0), (1, 0, 32), (1, 16, 16), (2, 8, 7), (2, 0, 0),
                  (MAX64, 8, 7), (2**32 + 1, 8, 7), (0, MAX64, 9), (1, 8, MAX64),
                  (1, MAX64, 0), (0, MAX64, MAX64), (1, MAX64, MAX64),
                  (1, 2**63 + 8, 2**63 + 7), (0, 2**32 + 8, 8)):
        yield size_line(*sizes)


def both_rules(cases):
    for k, count, draw in cases:
        for rule in RULES:
            yield rule_line(rule, k, count, draw)


def rules_inside():
    return both_rules((
        (8, 0, 255), (8, 1, 0), (8, 1, 1), (8, 1, 254), (8, 1, 255),
        (8, 128, 127), (8, 128, 128), (8, 255, 0), (8, 255, 1), (8, 255, 254),
        (8, 255, 255), (1, 0, 1), (1, 1, 0), (1, 1, 1), (32, 0, MAX32),
        (32, MAX32, 0), (32, MAX32, 1), (32, MAX32, MAX32)))


def rules_outside():
    return both_rules((
        (0, 1, 0), (33, MAX32, 1), (65, 1, 0), (65, 1, 1), (264, 255, 1),
        (MAX64, 1, 0), (8, 256, 0), (8, 255, 256), (1, 2, 1)))


def rules_past_32_bits():
    return both_rules((
        (32, 2**32, 0), (32, MAX32, 2**32), (33, 2**33 - 1, 1), (8, MAX64, 1)))


def unit_down_and_nearest():
    for x in (384, -384, 383, 128, 127, -128, -129):
        yield unit_line("nearest", 8, 8, x, 0)
    for x in (255, 256, -1, -256, -257):
        yield unit_line("down", 8, 8, x, 0)
    for mode in ("down", "nearest"):
        yield unit_line(mode, 32, 32, 2**31, EMPTY)
        yield unit_line(mode, 32, 1, -2**31 - 1, EMPTY)


def unit_stochastic():
    for n, k, x in ((8, 8, 384), (8, 4, -9), (1, 1, -3), (1, 32, 1), (32, 1, 2**31),
                    (32, 32, -1)):
        count = 2**k * (x % 2**n) // 2**n
        for word in edge_words(count, k)[:2]:
            yield unit_line("stochastic", n, k, x, word)
    for n, k, x in ((8, 4, 15), (32, 1, 2**31 - 1), (8, 8, 256)):
        yield unit_line("stochastic", n, k, x, 0)


def unit_clamps():
    for mode in MODES:
        for x in (2**63 - 1, -2**63):
            for n in (1, 32):
                yield unit_line(mode, n, 32, x, 0)
    yield unit_line("stochastic", 32, 32, 2**63 - 1, MAX32)
    for x in (2**32 - 1, 2**32, -2**32, -2**32 - 1):
        yield unit_line("down", 1, 1, x, 0)
    for x in (2**32 - 2, 2**32 - 1, -2**32 - 1, -2**32 - 2):
        yield unit_line("nearest", 1, 1, x, 0)
    for x in (2**32 - 1, -2**32 - 1):
        for word in (0, MAX32):
            yield unit_line("stochastic", 1, 1, x, word)


def unit_refusals():
    for mode in MODES:
        for n, k in ((0, 8), (33, 8), (8, 0), (8, 33)):
            yield unit_line(mode, n, k, 384, 0)
        yield unit_line(mode, 0, 33, 384, EMPTY)
        yield unit_line(mode, 8, 8, 384, EMPTY)
    for setting in (MAX64, 65):
        yield unit_line("down", setting, 8, 384, EMPTY)
        yield unit_line("stochastic", 8, setting, 384, 0)


def generator():
    for seed in (0, 1, MAX32, 2, 7, 2**31, 0xdeadbeef):
        yield lcg_line(seed)


GROUPS = (
    ("Known results in s8.7", known_results),
    ("Draws of R-1, R, 2^k-R-1 and 2^k-R, both rules", edges_of_rules),
    ("Results that are numbers", exact_results),
    ("Something cut off, yet a count of 0; one bit more counts it", cut_to_zero),
    ("The least and the greatest k", least_and_greatest_k),
    ("k out of range", bad_k),
    ("Codes that are no numbers", no_numbers),
    ("Divisors of value 0", zero_divisors),
    ("Results at an end and one step beyond it", around_the_ends),
    ("Results less than a step from an end, both sides", close_to_the_ends),
    ("Differences below 0, unsigned", below_zero_unsigned),
    ("Corners of the formats of 2 bits", small_corners),
    ("Corners of the formats of 32 bits", wide_corners),
    ("Which refusal comes first", precedence),
    ("Formats of bad sizes", bad_formats),
    ("Next numbers", next_numbers),
    ("Ends of good sizes", good_sizes),
    ("Bad sizes, some with a sum that wraps to a good one", bad_sizes),
    ("Rules, at the edges", rules_inside),
    ("Rules, out of range", rules_outside),
    ("Rules, counts and draws past 32 bits", rules_past_32_bits),
    ("Rounding unit, down and nearest", unit_down_and_nearest),
    ("Rounding unit, stochastic", unit_stochastic),
    ("Rounding unit, clamps and extremes", unit_clamps),
    ("Rounding unit, refusals", unit_refusals),
    ("Generator", generator),
)


def print_groups():
    print("# Test vectors for stochastic rounding in fixed point")
    for title, lines in GROUPS:
        print(f"\n# {title}")
        for line in lines():
            print(line)


# --------------------------------------------------------------- random lines

def one_in(rng, n):
    return rng.randrange(n) == 0


def random_name(rng):
    """A format of 2 to 32 bits, often of 2, 16 or 32; seldom of bad sizes."""
    sign = rng.getrandbits(1)
    width = rng.randint(2, 32)
    if one_in(rng, 2):
        width = (2, 16, 32, 32)[rng.getrandbits(2)]
    if one_in(rng, 100):
        width = (1, 33)[rng.getrandbits(1)]
    part = rng.randint(0, width - sign)
    return f"{'us'[sign]}{width - sign - part}.{part}"


def random_code(rng, width, sign):
    """A code of any magnitude; often at a corner, seldom no number."""
    if one_in(rng, 100):
        return rng.getrandbits(32)
    if one_in(rng, 8):
        near_corner = (0, 2**(width - 1), 2**width)[rng.randrange(3)]
        return (near_corner + rng.randint(-2, 2)) % 2**width
    magnitude = rng.getrandbits(rng.randint(1, width))
    return (-magnitude if sign and one_in(rng, 2) else magnitude) % 2**width


def random_k(rng):
    if one_in(rng, 100):
        return BAD_SETTINGS[rng.randrange(len(BAD_SETTINGS))]
    if one_in(rng, 4):
        return (1, 32)[rng.getrandbits(1)]
    return rng.randint(1, 32)


def random_word(rng, name, k, op, a, b):
    """Any word, or one at the edge of a rule; seldom none."""
    if one_in(rng, 100):
        return EMPTY
    if one_in(rng, 2):
        return rng.getrandbits(32)
    return some_edge_word(rng, name, k, op, a, b)


def random_line(rng):
    name, k, op = random_name(rng), random_k(rng), OPS[rng.randrange(4)]
    fmt = Format.named(name)
    a, b = (random_code(rng, min(fmt.width, 32), fmt.sign) for _ in range(2))
    if one_in(rng, 2):
        return split_line(name, k, op, a, b)
    word = random_word(rng, name, k, op, a, b)
    return operation_line(name, k, RULES[rng.getrandbits(1)], op, a, b, word)


def print_random(count, seed):
    rng = random.Random(seed)
    for _ in range(count):
        print(random_line(rng))


# --------------------------------------------------------------- sanity, main

def check_known_facts():
    assert split("s8.7", 8, "mul", 0x0081, 0x0081) == (0x0082, 0x0083, 2, 0)
    assert sum(operation("s8.7", 8, "comparison", "mul", 0x0081, 0x0081,
                         lowest_word(draw, 8))[0] for draw in range(256)) == 33282
    assert split("s8.7", 8, "mul", 0xffff, 0x0001) == (0xffff, 0x0000, 254, 0)
    assert split("s8.7", 8, "div", 0x0080, 0x0180) == (0x002a, 0x002b, 170, 0)
    assert split("s8.7", 8, "add", 0x7fff, 0x0001) == (0x7fff, 0x7fff, 0, 1)
    assert split("s8.7", 8, "sub", 0x8000, 0x0001) == (0x8000, 0x8000, 0, 1)
    assert unit("nearest", 8, 8, 384, EMPTY) == 2
    assert unit("nearest", 8, 8, -384, EMPTY) == -1
    assert unit("nearest", 1, 8, 2**63 - 1, EMPTY) == 2147483647
    assert lcg(0, 2) == [1013904223, 1196435762]


def main(arguments):
    check_known_facts()
    if not arguments:
        print_groups()
    elif len(arguments) == 3 and arguments[0] == "--random":
        print_random(int(arguments[1]), int(arguments[2]))
    else:
        sys.exit("usage: make_vectors.py [--random N SEED]")


if __name__ == "__main__":
    main(sys.argv[1:])
