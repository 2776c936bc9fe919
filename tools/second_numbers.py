#!/usr/bin/env python3
"""A second program for the questions that `numbers` answers, by Python's own fractions.

    python3 tools/second_numbers.py < crates/numbers/stdin | diff - crates/numbers/stdout
"""
import re
import sys
from fractions import Fraction

LIMIT = 2147483647


def held(kind, q):
    if kind == "fractions":
        return abs(q.numerator) <= LIMIT and q.denominator <= LIMIT
    if kind == "thousandths":
        count = q * 1000
        return count.denominator == 1 and abs(count.numerator) <= LIMIT
    return q.denominator == 1 and abs(q.numerator) <= 1000


class NotHeld(Exception):
    pass


def keep(kind, q):
    if not held(kind, q):
        raise NotHeld
    return q


def whole(text, low, high, sign):
    if not re.fullmatch(("[+-]?" if sign else "[+]?") + "[0-9]+", text):
        raise ValueError
    n = int(text)
    if not low <= n <= high:
        raise ValueError
    return n


def ratio(text):
    parts = text.split("/", 1)
    n = whole(parts[0], -(2**63), 2**63 - 1, True)
    d = whole(parts[1], -(2**63), 2**63 - 1, True) if len(parts) == 2 else 1
    return n, d


def take(kind, r):
    n, d = r
    if d < 1:
        raise NotHeld
    return keep(kind, Fraction(n, d))


def shown(q):
    return str(q.numerator) if q.denominator == 1 else f"{q.numerator}/{q.denominator}"


def work(kind, word, text):
    if word == "take":
        r = ratio(text)
        return lambda: shown(take(kind, r))
    if word == "scale":
        first, n, k = text.split(",", 2)
        r = ratio(first)
        n, k = whole(n, 0, 2**32 - 1, False), whole(k, 0, 2**32 - 1, False)

        def scaled():
            p = take(kind, r)
            if n > LIMIT or not 1 <= k <= 4:
                raise NotHeld
            return shown(keep(kind, p * n / k))

        return scaled
    if word not in ("add", "sub", "mul", "div", "lt", "le"):
        raise ValueError
    first, second = text.split(",", 1)
    r, s = ratio(first), ratio(second)

    def two():
        p, q = take(kind, r), take(kind, s)
        if word == "lt":
            return "true" if p < q else "false"
        if word == "le":
            return "true" if p <= q else "false"
        if word == "div":
            return shown(keep(kind, p / q))
        return shown(keep(kind, {"add": p + q, "sub": p - q, "mul": p * q}[word]))

    return two


def answer(line):
    try:
        kind, word, text = line.split(",", 2)
        if kind not in ("fractions", "thousandths", "small"):
            raise ValueError
        question = work(kind, word, text)
    except ValueError:
        return "not understood"
    try:
        return question()
    except NotHeld:
        return "not held"
    except ZeroDivisionError:
        return "zero divisor"


if __name__ == "__main__":
    for line in sys.stdin:
        print(answer(line.rstrip("\n")))
