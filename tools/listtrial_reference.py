#!/usr/bin/env python3
"""What the program listtrial should print, worked out independently of the receiver.

The words of a code are made here by evaluating every polynomial once, with fields given by addition and multiplication
tables, and keeping what is made of letters. Of each word heard the words of the code within the plan's errors are
counted: that is the list that must come, so the receiver has to agree on each, and the longest list is what is found.
"""
from code_words import binary, code_words, prime


def line(name, field, letters, numbers, support, multipliers, step):
    n, t, w, k, l = numbers
    assert n * k * (k + 1) // 2 + (n - t - 1) * l * (l - 1) // 2 < l * k * (n - w)
    assert len(support) == len(multipliers) == len(set(support)) == n
    words = code_words(field, letters, n, t, support, multipliers)
    heard = longest = 0
    for number in range(0, letters ** n, step):
        word = [number // letters ** i % letters for i in range(n)]
        near = sum(1 for c in words if sum(map(int.__ne__, c, word)) <= w)
        heard, longest = heard + 1, max(longest, near)
    return "%s n %d t %d w %d k %d l %d: heard %d equal %d longest %d" % (name, n, t, w, k, l, heard, heard, longest)


CODES = [
    ("prime 3", prime(3), 3, (3, 2, 2, 1, 4), [2, 0, 1], [1, 2, 2], 1),
    ("prime 5", prime(5), 5, (5, 3, 2, 1, 3), [0, 1, 2, 3, 4], [1] * 5, 1),
    ("prime 5", prime(5), 5, (5, 3, 2, 2, 4), [4, 2, 0, 3, 1], [4, 3, 2, 1, 2], 1),
    ("prime 7", prime(7), 7, (6, 4, 3, 2, 5), [6, 1, 3, 0, 5, 2], [3, 1, 6, 2, 4, 5], 41),
    ("prime 7", prime(7), 7, (7, 4, 3, 4, 8), [0, 1, 2, 3, 4, 5, 6], [1] * 7, 251),
    ("prime 11", prime(11), 11, (10, 7, 5, 3, 7), [7, 2, 10, 0, 4, 9, 1, 6, 3, 8], [5, 1, 8, 3, 10, 2, 7, 4, 9, 6],
     8645809),
    ("prime 13", prime(13), 13, (12, 10, 7, 1, 4), [3, 11, 6, 0, 12, 8, 1, 9, 5, 2, 10, 7],
     [2, 7, 12, 1, 5, 9, 3, 11, 4, 8, 6, 10], 7766028377),
    ("binary 2 all", binary(2), 4, (4, 3, 3, 1, 5), [2, 0, 3, 1], [3, 1, 2, 2], 1),
    ("binary 3 all", binary(3), 8, (6, 4, 3, 3, 6), [7, 1, 4, 2, 0, 5], [6, 5, 1, 3, 2, 7], 97),
    ("binary 4 all", binary(4), 16, (8, 6, 4, 4, 7), [9, 3, 0, 15, 6, 12, 1, 10], [11, 4, 2, 10, 8, 13, 9, 1], 1431683),
    ("binary 3 two", binary(3), 2, (8, 3, 2, 3, 5), [5, 1, 7, 0, 2, 6, 4, 3], [1] * 8, 1),
    ("binary 3 two", binary(3), 2, (7, 5, 4, 3, 8), [7, 6, 5, 0, 3, 2, 4], [1, 3, 7, 5, 2, 4, 6], 1),
    ("binary 4 two", binary(4), 2, (9, 5, 3, 2, 4), [14, 8, 12, 10, 15, 2, 5, 13, 11],
     [12, 6, 10, 14, 3, 14, 6, 6, 3], 1),
]

if __name__ == "__main__":
    for code in CODES:
        print(line(*code))
