"""Small fields by their tables, and all words of a code by evaluating every polynomial: what the references share."""
import itertools

MODULI = {2: 0b111, 3: 0b1011, 4: 0b10011}


def prime(p):
    return p, [[(a + b) % p for b in range(p)] for a in range(p)], [[a * b % p for b in range(p)] for a in range(p)]


def times(a, b, m):
    r = 0
    while b:
        if b & 1:
            r ^= a
        a, b = a << 1, b >> 1
        if a >> m & 1:
            a ^= MODULI[m]
    return r


def binary(m):
    q = 1 << m
    return q, [[a ^ b for b in range(q)] for a in range(q)], [[times(a, b, m) for b in range(q)] for a in range(q)]


def code_words(field, letters, n, t, support, multipliers):
    size, add, mul = field
    words = set()
    for f in itertools.product(range(size), repeat=n - t):
        word = []
        for a, b in zip(support, multipliers):
            power, value = 1, 0
            for c in f:
                value, power = add[value][mul[c][power]], mul[power][a]
            word.append(mul[b][value])
        if all(c < letters for c in word):
            words.add(tuple(word))
    return words
