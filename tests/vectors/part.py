#!/usr/bin/env python3
"""The expected output of the program vectors_part: the part call in both editions, with the table of units
that it leaves. To make it again:

    tests/vectors/part.py > crates/vectors_part/stdout
"""
from definitions import is_refused, part

LONG = "abaabaababaabaabababa"
LARGEST = 4294967295

SHORT = [  # word, edition, first, last, places lent
    # the sequences of document 01, whole, and some of their parts, with a place more than each needs
    ("a", 1, 1, 1, 2),
    ("ab", 1, 1, 2, 3),
    ("aa", 1, 1, 2, 3),
    ("aaaa", 1, 1, 4, 5),
    ("aaaaa", 1, 1, 5, 6),
    ("ababa", 1, 1, 5, 6),
    ("baa", 1, 1, 3, 4),
    ("baa", 1, 2, 3, 3),
    ("aabb", 1, 1, 4, 5),
    ("aabaabaa", 1, 1, 8, 9),
    ("aabaabaa", 1, 3, 8, 8),
    ("aabaabaa", 1, 2, 6, 6),
    ("aaaab", 1, 1, 5, 6),
    ("abaababaab", 1, 1, 10, 11),
    (LONG, 1, 1, 16, 17),
    (LONG, 1, 1, 19, 20),
    (LONG, 1, 17, 21, 6),
    ("aabaabaacbbcbbcbb", 1, 9, 17, 10),
    # refusal 6, at each bound
    ("", 1, 1, 0, 1),
    ("", 1, 1, 1, 1),
    ("ababa", 1, 0, 5, 6),
    ("ababa", 1, 1, 6, 7),
    ("ababa", 1, 4, 3, 2),
    ("ababa", 1, 6, 6, 2),
    ("ababa", 1, LARGEST, LARGEST, 2),
    # just the places that are needed, one fewer, none: 7, and that it comes after 6 and 12
    ("aabaabaa", 1, 1, 8, 8),
    ("aabaabaa", 1, 1, 8, 7),
    ("aabaabaa", 1, 1, 8, 0),
    ("aabaabaa", 2, 3, 8, 6),
    ("aabaabaa", 2, 3, 8, 5),
    ("a", 1, 1, 1, 1),
    ("a", 1, 1, 1, 0),
    ("ababa", 1, 1, 6, 4),
    ("ababa", 1, 4, 3, 0),
    ("", 1, 1, 0, 0),
    ("ababa", 0, 1, 5, 4),
    ("ababa", 3, 1, 6, 0),
    # edition 2, beside edition 1 where the two differ or come near it
    ("a", 2, 1, 1, 2),
    ("aa", 2, 1, 2, 3),
    ("aaa", 1, 1, 3, 4),
    ("aaa", 2, 1, 3, 4),
    ("ababa", 2, 1, 5, 6),
    ("ababab", 1, 1, 6, 7),
    ("ababab", 2, 1, 6, 7),
    ("abababa", 1, 1, 7, 8),
    ("abababa", 2, 1, 7, 8),
    ("aabaabaa", 2, 1, 8, 9),
    ("aabaabaab", 2, 1, 9, 10),
    (LONG, 1, 9, 17, 10),
    (LONG, 2, 1, 16, 17),
    (LONG, 2, 9, 17, 10),
    (LONG, 2, 9, 16, 9),
    (LONG, 2, 15, 21, 8),
    ("", 2, 1, 0, 1),
    ("ababab", 2, 0, 6, 7),
    ("ababab", 2, 1, 7, 8),
    # 12, and that it comes before 6
    ("ababab", 0, 1, 6, 7),
    ("ababab", 3, 1, 6, 7),
    ("ababab", LARGEST, 1, 6, 7),
    ("ababab", 0, 0, 6, 7),
    ("ababab", 3, 1, 7, 7),
    ("ababab", LARGEST, 4, 3, 7),
]

EQUAL = [  # so many equal passes; edition, first, last, places lent
    # the limit
    (4096, 1, 1, 4096, 4097),
    (4096, 1, 1, 4096, 4096),
    (4096, 1, 1, 4096, 4095),
    (4096, 1, 1, 4097, 4097),
    (4096, 2, 1, 4096, 4097),
    # refusal 1 comes before 12, 6 and 7
    (70001, 1, 1, 1, 4097),
    (70001, 1, 0, 0, 4097),
    (70001, 0, 1, 1, 4097),
    (70001, 3, 0, 0, 0),
]


def show_part(name, word, asked, start):
    """Shows the answer and the table from one place on; the last number asked is how many are lent."""
    edition, first, last, lent = asked
    outcome, table = part(word, edition, first, last, [7] * lent)
    if is_refused(outcome):
        fields = outcome
    else:
        _, *numbers, block = outcome
        fields = (*numbers, "block" if block else "no block")
    print("part", name, *asked, *fields, sep=",", end=":")
    print("", *table[start:])


def main():
    for word, *asked in SHORT:
        show_part(word, word.encode(), asked, 0)
    for n, *asked in EQUAL:
        show_part(f"{n} equal", b"a" * n, asked, 4094)


if __name__ == "__main__":
    main()
