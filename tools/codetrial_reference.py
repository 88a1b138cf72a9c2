#!/usr/bin/env python3
"""What the program codetrial should print, worked out independently of the receiver.

The words of a code are made here by evaluating every polynomial once, with fields given by addition and multiplication
tables; a word is in the code if it is in that set and all its numbers are letters. Every word and every content is then
counted, and the receiver has to agree on each.
"""
from code_words import binary, code_words, prime


def line(name, field, letters, n, t, support, multipliers):
    words = code_words(field, letters, n, t, support, multipliers)
    contents = {w[: n - t] for w in words}
    assert len(contents) == len(words)
    return "%s: %d words, %d in the code, %d equal; %d contents, %d written, %d equal" % (
        name, letters ** n, len(words), letters ** n, letters ** (n - t), len(contents), letters ** (n - t))


CODES = [
    ("prime 3, n = 3, t = 1", prime(3), 3, 3, 1, [2, 0, 1], [1, 2, 2]),
    ("prime 5, n = 5, t = 3", prime(5), 5, 5, 3, [4, 2, 0, 3, 1], [4, 3, 2, 1, 2]),
    ("prime 7, n = 4, t = 2", prime(7), 7, 4, 2, [6, 1, 3, 0], [3, 1, 6, 2]),
    ("binary 2, two letters, n = 4, t = 2", binary(2), 2, 4, 2, [0, 1, 2, 3], [1, 1, 1, 1]),
    ("binary 2, all letters, n = 4, t = 2", binary(2), 4, 4, 2, [2, 0, 3, 1], [3, 1, 2, 2]),
    ("binary 3, two letters, n = 6, t = 3", binary(3), 2, 6, 3, [5, 1, 7, 0, 2, 6], [1, 2, 3, 4, 5, 6]),
    ("binary 3, all letters, n = 4, t = 2", binary(3), 8, 4, 2, [7, 1, 4, 2], [6, 5, 1, 3]),
    ("binary 4, two letters, n = 7, t = 5", binary(4), 2, 7, 5, [9, 3, 0, 15, 6, 12, 1], [1] * 7),
]

if __name__ == "__main__":
    for code in CODES:
        print(line(*code))
