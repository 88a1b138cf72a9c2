#!/usr/bin/env python3
"""What the console should print for the commands on standard input, worked out independently of the receiver.

Written from docs/CONSOLE.md, docs/FIELDS.md, docs/PLANS.md and docs/REFUSALS.md, with other methods than the
receiver's: primes by trial division, polynomial products by long multiplication and long division, inverses by search,
words by evaluating every polynomial, local coefficients by binomials, roots by trying every polynomial.
"""
import functools
import itertools
import math
import re
import sys

MODULI = {2: 0b111, 3: 0b1011, 4: 0b10011, 5: 0b100101, 6: 0b1000011, 7: 0b10000011, 8: 0b100011101}


class Prime:
    def __init__(self, p):
        self.size = self.letters = self.characteristic = p

    def sum(self, a, b):
        return (a + b) % self.size

    def negative(self, a):
        return -a % self.size

    def product(self, a, b):
        return a * b % self.size


class Binary:
    characteristic = 2

    def __init__(self, m, every):
        self.m, self.size = m, 1 << m
        self.letters = self.size if every else 2

    def sum(self, a, b):
        return a ^ b

    def negative(self, a):
        return a

    @functools.lru_cache(maxsize=None)
    def product(self, a, b):
        x = 0
        for i in range(16):
            for j in range(16):
                if a >> i & 1 and b >> j & 1:
                    x ^= 1 << (i + j)
        while x.bit_length() > self.m:
            x ^= MODULI[self.m] << (x.bit_length() - 1 - self.m)
        return x


def inverse(field, a):
    found = [b for b in range(field.size) if a < field.size and field.product(a, b) == 1]
    return found[0] if found else None


def number(word, bits):
    if not re.fullmatch(r"\+?[0-9]+", word) or int(word) >= 1 << bits:
        raise ValueError(word)
    return int(word)


def plan(size, n, t, w, k, l, support, multipliers):
    if not 2 <= n <= 64 or not 2 <= size <= 256 or len(support) != n or len(multipliers) != n:
        return "refused 3 plan 0"
    if not 1 <= t <= n - 1:
        return "refused 4 plan 0"
    if not w < n:
        return "refused 5 plan 0"
    if not 1 <= k <= 4 or not k + 1 <= l <= 8:
        return "refused 6 plan 0"
    if not n * k * (k + 1) + (n - t - 1) * l * (l - 1) < 2 * l * k * (n - w):
        return "refused 7 plan 0"
    for i, a in enumerate(support):
        if a >= size or a in support[:i]:
            return "refused 8 plan %d" % i
    for i, b in enumerate(multipliers):
        if b == 0 or b >= size:
            return "refused 9 plan %d" % i
    return "plan made"


def value(field, f, a):
    """f(a), power by power."""
    power, result = 1, 0
    for c in f:
        result, power = field.sum(result, field.product(c, power)), field.product(power, a)
    return result


def words_of(state):
    """Every word of the code, by evaluating every polynomial."""
    field, (size, n, t, w, k, l, support, multipliers) = state["field"], state["plan"]
    found = []
    for f in itertools.product(range(size), repeat=n - t):
        word = [field.product(b, value(field, f, a)) for a, b in zip(support, multipliers)]
        if all(c < field.letters for c in word):
            found.append(word)
    return found


def power(field, a, e):
    result = 1
    for _ in range(e):
        result = field.product(result, a)
    return result


def local(field, q, a, b, r, u):
    """The coefficient of x^r y^u in q(a + x, b + y); q has the coefficient of x^i y^c at (i, c)."""
    total = 0
    for (i, c), coefficient in q.items():
        if i >= r and c >= u:
            times = math.comb(i, r) * math.comb(c, u) % field.characteristic
            term = field.product(power(field, a, i - r), power(field, b, c - u))
            total = field.sum(total, field.product(field.product(times, coefficient), term))
    return total


def add(field, q, factor, other, up=0):
    """q + factor * x^up * other, without zeros."""
    result = dict(q)
    for (i, c), coefficient in other.items():
        result[i + up, c] = field.sum(result.get((i + up, c), 0), field.product(factor, coefficient))
    return {at: coefficient for at, coefficient in result.items() if coefficient}


def interpolation(state, heard):
    """An interpolation polynomial of the word heard, by Koetter's method."""
    field, (size, n, t, w, k, l, support, multipliers) = state["field"], state["plan"]
    weight, bound = n - t - 1, k * (n - w)
    rows, degrees = [{(0, j): 1} for j in range(l)], [j * weight for j in range(l)]
    for a, b, v in zip(support, multipliers, heard):
        y = field.product(v, inverse(field, b))
        for u, r in [(u, r) for u in range(k) for r in range(k - u)]:
            failing = {}
            for j in range(l):
                if degrees[j] < bound:
                    failing[j] = local(field, rows[j], a, y, r, u)
            failing = {j: d for j, d in failing.items() if d}
            if not failing:
                continue
            pivot = min(failing, key=lambda j: (degrees[j], j))
            source, over = rows[pivot], inverse(field, failing[pivot])
            for j, d in failing.items():
                if j != pivot:
                    rows[j] = add(field, rows[j], field.negative(field.product(d, over)), source)
            rows[pivot] = add(field, add(field, {}, field.negative(a), source), 1, source, 1)
            degrees[pivot] += 1
    return rows[min((j for j in range(l) if degrees[j] < bound), key=lambda j: (degrees[j], j))]


def vanishes(field, q, f):
    """Whether q(x, f) is zero: first at every element, which is quick, then coefficient by coefficient."""
    for x in range(field.size):
        y = value(field, f, x)
        if local(field, q, x, y, 0, 0):
            return False
    total, powered = {}, {(0, 0): 1}
    for c in range(max(c for _, c in q) + 1):
        for i in [i for i, e in q if e == c]:
            total = add(field, total, q[i, c], powered, i)
        product = {}
        for i, coefficient in enumerate(f):
            product = add(field, product, coefficient, powered, i)
        powered = product
    return not total


def listed(state, heard):
    """The words within w places of the word heard, and how many polynomials are roots of the interpolation polynomial.

    Which interpolation polynomial it is, the promise leaves open; so the second number rests on both programs choosing
    the same pivot and the same row at the end. The words do not.
    """
    field, (size, n, t, w) = state["field"], state["plan"][:4]
    near = sorted(v for v in words_of(state) if sum(a != b for a, b in zip(v, heard)) <= w)
    q = interpolation(state, heard)
    tested = sum(vanishes(field, q, f) for f in itertools.product(range(size), repeat=n - t))
    return "\n".join(["list %d %d" % (len(near), tested)] + ["word " + " ".join(map(str, v)) for v in near])


def coded(state, verb, xs):
    """The outcome of check, write or list."""
    field = state.get("field")
    if field is None:
        raise LookupError
    size, n, t = state["plan"][:3]
    if size != field.size:
        return "refused 20 code 0"
    if len(xs) != (n - t if verb == "write" else n):
        return "refused 10 code 0"
    for i, c in enumerate(xs):
        if c >= field.letters:
            return "refused 11 code %d" % i
    if verb == "check":
        return "check yes" if xs in words_of(state) else "check no"
    if verb == "list":
        return listed(state, xs)
    found = [w for w in words_of(state) if w[: n - t] == xs]
    assert len(found) <= 1
    return "write " + " ".join(map(str, found[0])) if found else "refused 12 code 0"


def answer(state, ws):
    """The line to print; a KeyError for no such command, a ValueError for no number."""
    if ws[:2] == ["field", "prime"] and len(ws) == 3:
        p = number(ws[2], 64)
        if not 3 <= p <= 251 or any(p % d == 0 for d in range(2, p)):
            return "refused 2 field 0"
        state["field"] = Prime(p)
        return "field %d %d" % (p, p)
    if ws[:2] == ["field", "binary"] and len(ws) == 4 and ws[3] in ("two", "all"):
        m = number(ws[2], 64)
        if not 2 <= m <= 8:
            return "refused 1 field 0"
        state["field"] = Binary(m, ws[3] == "all")
        return "field %d %d" % (state["field"].size, state["field"].letters)
    if ws[0] in ("sum", "product") and len(ws) == 3 or ws[0] in ("negative", "inverse") and len(ws) == 2:
        xs = [number(x, 16) for x in ws[1:]]
        field = state.get("field")
        if field is None:
            raise LookupError
        if ws[0] == "inverse":
            r = inverse(field, xs[0])
            return "inverse " + ("none" if r is None else str(r))
        inside = all(x < field.size for x in xs)
        return "%s %d" % (ws[0], getattr(field, ws[0])(*xs) if inside else 0)
    if ws[0] == "plan" and len(ws) > 7 and ws[7] == "/" and "/" in ws[8:]:
        cut = ws.index("/", 8)
        asked = [number(x, 64) for x in ws[1:7]] + [[number(x, 16) for x in ws[8:cut]], [number(x, 16) for x in ws[cut + 1:]]]
        outcome = plan(*asked)
        if outcome == "plan made":
            state["plan"] = asked
        return outcome
    if ws[0] in ("check", "write", "list"):
        return coded(state, ws[0], [number(x, 16) for x in ws[1:]])
    raise KeyError


def main():
    state = {"plan": [2, 2, 1, 1, 1, 3, [0, 1], [1, 1]]}
    for i, line in enumerate(sys.stdin.buffer.read().split(b"\n"), 1):
        try:
            ws = line.decode().split()
        except UnicodeDecodeError:
            print("error %d not text" % i)
            continue
        if not ws or ws[0].startswith("#"):
            continue
        try:
            print(answer(state, ws))
        except KeyError:
            print("error %d no such command" % i)
        except ValueError:
            print("error %d not a number of the range expected" % i)
        except LookupError:
            print("error %d no field is chosen" % i)


if __name__ == "__main__":
    main()
