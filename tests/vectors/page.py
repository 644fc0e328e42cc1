#!/usr/bin/env python3
"""The expected output of the program vectors_page: the pages of splits of document 01's sequences in both
editions, and every byte that was lent. To make it again:

    tests/vectors/page.py > crates/vectors_page/stdout
"""
from sys import stdout

from definitions import write_page

LONG = "abaabaababaabaabababa"
OTHER = "aabaabaacbbcbbcbb"
LARGEST = 4294967295

ROWS = [  # word, edition, bytes lent, ends
    # the best splits of the sequences of document 01, with a byte more than each page needs
    ("", 1, 1, []),
    ("aa", 1, 62, [2]),
    ("aaaa", 1, 62, [4]),
    ("aaaa", 1, 123, [2, 4]),
    ("aaaaa", 1, 62, [5]),
    ("aaaaa", 1, 123, [2, 5]),
    ("ababa", 1, 62, [5]),
    ("aabb", 1, 123, [2, 4]),
    ("aabaabaa", 1, 62, [8]),
    ("aabaabaa", 1, 123, [2, 8]),
    ("abaababaab", 1, 62, [10]),
    (LONG, 1, 123, [16, 21]),
    (LONG, 1, 245, [6, 10, 16, 21]),
    (OTHER, 1, 123, [8, 17]),
    (OTHER, 1, 245, [2, 8, 15, 17]),
    (OTHER, 1, 245, [6, 8, 15, 17]),
    # edition 2
    ("", 2, 1, []),
    ("aaa", 2, 62, [3]),
    ("aaaaaa", 2, 62, [6]),
    ("aaaaaa", 2, 123, [3, 6]),
    ("ababab", 2, 62, [6]),
    ("aabaabaabcccc", 2, 123, [9, 13]),
    ("aabaabaa", 2, 123, [2, 8]),
    ("aaaa", 2, 123, [2, 4]),
    # just the bytes that a page needs, one fewer, none
    ("", 1, 0, []),
    ("aa", 1, 61, [2]),
    ("aa", 1, 60, [2]),
    ("aa", 1, 0, [2]),
    ("aabaabaa", 1, 122, [2, 8]),
    ("aabaabaa", 1, 121, [2, 8]),
    ("aabaabaa", 1, 61, [2, 8]),
    # 12, 3, 4 and 5 before 7
    ("aabaabaa", 0, 0, [2, 8]),
    ("aabaabaa", 3, 0, [2, 8]),
    ("aabaabaa", LARGEST, 123, [2, 2, 8]),
    ("aabaabaa", 1, 0, [3, 8]),
    ("aabaabaa", 1, 0, [2, 2, 8]),
    ("aabaabaa", 1, 0, [2, 9]),
    ("aabaabaa", 1, 0, [2]),
    ("aabaabaa", 1, 0, []),
    ("ab", 1, 0, [2]),
    ("", 1, 0, [0]),
    ("aabaabaa", 1, 123, [2, 4]),
]

NINE = [1, 35, 69, 103, 137, 171, 205, 239, 16]
TEN = NINE + [255]

SYMBOLS = [  # name, word, ends; in edition 1, with 123 bytes lent
    ("0, 9, 10, 255 twice", [0, 9, 10, 255] * 2, [8]),
    ("10 three times", [10] * 3, [3]),
    ("nine symbols twice", NINE * 2, [18]),
    ("ten symbols twice, and two more", TEN * 2 + TEN[:2], [22]),
    ("another symbol before a unit of ten", [7, 7] + TEN * 2, [2, 22]),
]


def show(asked, word, edition, ends, lent, start=0):
    """Shows the outcome, and the bytes lent from a place on."""
    outcome, out = write_page(word, edition, ends, list(b"." * lent))
    print("page", *asked, *outcome, sep=",", flush=True)
    stdout.buffer.write(bytes(out[start:]) + b"\n")
    stdout.flush()


def main():
    for word, edition, lent, ends in ROWS:
        show((word, edition, lent, *ends), word.encode(), edition, ends, lent)
    for name, word, ends in SYMBOLS:
        show((name, *ends), bytes(word), 1, ends, 123)
    # the limit: the last two lines of the longest page
    twos = list(range(2, 4098, 2))
    lent = 61 * 2048 + 1
    show(("4096 equal, blocks of 2", 1), b"a" * 4096, 1, twos, lent, lent - 123)
    # refusal 1 comes before 12
    outcome, _ = write_page(b"a" * 70001, 3, twos, list(b"." * lent))
    print("page", "70001 equal", 3, *outcome, sep=",")


if __name__ == "__main__":
    main()
