#!/usr/bin/env python3
"""The expected output of the program vectors_compare: which of two of document 01's sequences to wind
first, and its first block, in both editions, with every place that was lent. To make it again:

    tests/vectors/compare.py > crates/vectors_compare/stdout
"""
from definitions import first_block, which_first

LONG = "abaabaababaabaabababa"
OTHER = "aabaabaacbbcbbcbb"
LARGEST = 4294967295

ROWS = [  # two words, an edition, the places lent
    # each word winning, ties, equal words, words of which one or none can be split, the empty word
    ("aabaabaa", LONG, 1, 89),
    (LONG, "aabaabaa", 1, 89),
    (LONG, OTHER, 1, 89),
    (OTHER, LONG, 1, 89),
    ("aabb", "aabaabaa", 1, 37),
    ("aabaabaa", "aabb", 1, 37),
    ("aabb", "aabb", 1, 21),
    ("aaaa", "ababa", 1, 25),
    ("ababa", "aaaa", 1, 25),
    ("aaaaa", "aa", 1, 25),
    ("ab", "aa", 1, 13),
    ("aa", "ab", 1, 13),
    ("baa", OTHER, 1, 73),
    (OTHER, "baa", 1, 73),
    ("ab", "baa", 1, 17),
    ("baa", "ab", 1, 17),
    ("a", "a", 1, 9),
    ("", "", 1, 5),
    ("", "aa", 1, 13),
    ("aa", "", 1, 13),
    ("", "a", 1, 9),
    ("a", "", 1, 9),
    # edition 2
    ("aabaabaa", "aaaaaa", 2, 37),
    ("aaaaaa", "aabaabaa", 2, 37),
    ("aaa", "aaaaaa", 2, 29),
    ("aaaaaa", "aaa", 2, 29),
    ("aaabbb", "ababab", 2, 29),
    ("ababab", "aaabbb", 2, 29),
    ("ababa", "aabb", 2, 25),
    ("aabb", "ababa", 2, 25),
    ("", "", 2, 5),
    ("aa", "", 2, 13),
    ("", "aa", 2, 13),
    # 12, then 9, then 2
    ("aa", "aabaabaa", 0, 0),
    ("aabaabaa", "aa", 3, 36),
    ("ab", "ab", LARGEST, 12),
    ("aa", "aabaabaa", 1, 35),
    ("aabaabaa", "aa", 1, 35),
    ("aa", "aabaabaa", 1, 12),
    ("aabaabaa", "aa", 1, 12),
    ("aa", "aabaabaa", 1, 36),
    ("aabaabaa", "aa", 1, 36),
    ("ab", "ab", 1, 11),
    ("ab", "ab", 1, 12),
    ("", "", 1, 3),
    ("", "", 1, 4),
    ("", "", 1, 0),
    ("aa", "", 1, 0),
]

SYMBOLS = [  # name, two words, an edition; 29 places, as the case before leaves them
    ("0 255 twice,255 three times,2", [0, 255] * 2, [255] * 3, 2),
    ("128 twice and 127 twice,128 127 three times,1", [128] * 2 + [127] * 2, [128, 127] * 3, 1),
]

LIMITS = [  # the same with 16,389 places
    ("4096 equal,4096 equal,1", [97] * 4096, [97] * 4096, 1),
    ("aabb,4096 equal,2", [97, 97, 98, 98], [97] * 4096, 2),
    ("70001 equal,aa,3", [97] * 70001, [97] * 2, 3),
    ("aa,70001 equal,3", [97] * 2, [97] * 70001, 3),
]


def brief(cases, places):
    """The answer, the length of the first block, and the last ten places that are lent."""
    work = [7] * places
    for name, a, b, edition in cases:
        outcome, work = which_first(bytes(a), bytes(b), edition, work)
        print("which", name, *outcome, *work[-10:], sep=",")
        part, work = first_block(bytes(a), bytes(b), edition, work)
        print("block", name, len(part), *work[-10:], sep=",")


def main():
    for a, b, edition, places in ROWS:
        asked = (a, b, edition, places)
        words = (a.encode(), b.encode(), edition, [7] * places)
        outcome, work = which_first(*words)
        print("which", *asked, *outcome, *work, sep=",")
        part, work = first_block(*words)
        print("block", *asked, part.decode(), *work, sep=",")
    brief(SYMBOLS, 29)
    brief(LIMITS, 16389)


if __name__ == "__main__":
    main()
