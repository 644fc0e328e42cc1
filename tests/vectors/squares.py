#!/usr/bin/env python3
"""The expected output of the program vectors_squares: best squares and judge squares on the documents'
words, on each refusal, and on squares joined by a small generator, with every place that was lent. To
make it again:

    tests/vectors/squares.py > crates/vectors_squares/stdout
"""
from definitions import FEWEST, MOST, best_squares, judge_squares

W8 = b"aabaabaa"
W18 = b"abaababaabbbaabbbb"  # Example 1 of source document 002
LARGEST = 4294967295

WORDS = [  # both choices, with a place more than is needed
    b"",
    b"a",
    b"aa",
    b"ab",
    b"aaa",
    b"aaaa",
    b"aaaaa",
    b"aaaaaa",
    b"aaaaaaaa",
    b"abab",
    b"ababa",
    b"ababab",
    b"abababab",
    b"abba",
    b"aabb",
    b"aabbaabb",
    b"aabaab",
    b"baabaa",
    W8,
    W18,
    b"abaabaababaabaabababa",
    b"aabaabaacbbcbbcbb",
    b"bbabaabaabbabaabaacc",
]

LENT = [  # word, choice, places lent for the ends, places of the working table
    # just the places that are needed, and one fewer of either table
    (W8, 1, 2, 36),
    (W8, 1, 1, 36),
    (W8, 2, 0, 36),
    (W8, 2, 2, 35),
    (b"aaaa", 1, 1, 20),
    (b"aaaa", 1, 0, 20),
    (b"aaaa", 2, 2, 20),
    (b"aaaa", 2, 1, 20),
    # 8 comes before 9, 2 and 7
    (W8, 0, 2, 36),
    (W8, 3, 2, 35),
    (W8, LARGEST, 0, 0),
    (b"ab", 3, 0, 12),
    # 9 comes before 2 and 7
    (W8, 1, 0, 35),
    (W8, 2, 0, 0),
    (b"ab", 1, 0, 11),
    # 2 comes before 7 and leaves the working table as an answer does
    (b"ab", 1, 0, 12),
    (b"ab", 2, 1, 13),
    (b"aaa", 1, 0, 17),
    (b"aaaab", 2, 0, 25),
    # the empty word
    (b"", 1, 0, 4),
    (b"", 2, 1, 5),
    (b"", 1, 0, 3),
    (b"", 2, 0, 0),
    (b"", 3, 0, 0),
]

JUDGED = [  # word, ends
    (b"aaaa", [4]),
    (b"aaaa", [2, 4]),
    (b"aaaa", [1, 4]),
    (b"aaaa", [3, 4]),
    (b"aaaa", [2, 3, 4]),
    (b"aaaa", [2, 2, 4]),
    (b"aaaa", [2, 0]),
    (b"aaaa", [4, 4]),
    (b"aaaa", [0]),
    (b"aaaa", [5]),
    (b"aaaa", [2, LARGEST]),
    (b"aaaa", [2]),
    (b"aaaa", []),
    (W8, [2, 8]),
    (W8, [6, 8]),
    (W8, [8]),
    (W8, [2, 6, 8]),
    (W8, [2, 2, 8]),
    (W8, [2, 9]),
    (W8, [6]),
    (W18, [6, 16, 18]),
    (W18, [6, 16, 17, 18]),
    (W18, [10, 12, 14, 16, 18]),
    (W18, [10, 12, 18]),
    (W18, [10, 14, 18]),
    (b"abab", [4]),
    (b"abab", [2, 4]),
    (b"abba", [4]),
    (b"ababa", [5]),
    (b"ababa", [4]),
    (b"ababa", [4, 5]),
    (b"ababab", [6]),
    (b"", []),
    (b"", [0]),
    (b"", [1]),
]

SYMBOLS = [  # name, word; both choices with 29 places, as the call before leaves them
    ("0 255 twice", [0, 255] * 2),
    ("128 127 127 twice", [128, 127, 127] * 2),
    ("255 twice and 0 twice", [255] * 2 + [0] * 2),
]


def lent(places):
    """A table as it is before a call."""
    return [7] * places


def listed(name, numbers):
    return f" {name}:" + "".join(f" {number}" for number in numbers)


def show_best(asked, word, choice, ends, work):
    outcome, ends, work = best_squares(word, choice, ends, work)
    print("best", *asked, *outcome, sep=",", end="")
    print(listed("ends", ends))
    print(listed("work", work))
    return ends, work


def show_both(word):
    for choice in FEWEST, MOST:
        asked = word.decode(), choice
        show_best(asked, word, choice, lent(12), lent(4 * (len(word) + 1) + 1))


def generated(count):
    """Squares joined, of halves of up to 5 letters over 2 or 3, up to 24 letters in all; every fourth
    word has its middle letter changed. The numbers are those of a linear congruential generator, of
    which the upper bits count."""
    number = 12345

    def below(m):
        nonlocal number
        number = (number * 1103515245 + 12345) % 2**31
        return number // 2**16 % m

    for i in range(count):
        word = []
        while True:
            span = 1 + below(5)
            half = [ord("a") + below(2 + i % 2) for _ in range(span)]
            if len(word) + 2 * span > 24 - i % 5:
                break
            word += half + half
        if i % 4 == 3:
            word[len(word) // 2] = ord("a") + (word[len(word) // 2] - ord("a") + 1) % 2
        yield bytes(word)


def show_brief(name, word, choice, ends, work):
    """The first and the last three places of the ends, and of the working table the sizes of the
    longest leading parts of 4,096 passes and the last ten places."""
    outcome, ends, work = best_squares(word, choice, ends, work)
    print("best", name, choice, *outcome, sep=",", end="")
    print(listed("ends", ends[:3]))
    print(listed("last ends", ends[2046:2049]))
    print(listed("sizes", work[4092:4098]))
    print(listed("last places", work[16379:16389]))
    return ends, work


def show_limits():
    """The limit, and refusal 1, which comes before 8."""
    tables = lent(2049), lent(4 * 4097 + 1)
    for n, choice in (4096, 1), (4096, 2), (4095, 2), (70001, 1), (70001, 3):
        tables = show_brief(f"{n} equal", b"a" * n, choice, *tables)
    for ends in [4096], [2048, 4096], [4095, 4096], [4096, 4097]:
        print("judge", "4096 equal", *ends, *judge_squares(b"a" * 4096, ends), sep=",")
    for ends in [0], [4097]:
        print("judge", "70001 equal", *ends, *judge_squares(b"a" * 70001, ends), sep=",")


def main():
    for word in WORDS:
        show_both(word)
    for word, choice, places, space in LENT:
        asked = word.decode(), choice, places, space
        show_best(asked, word, choice, lent(places), lent(space))
    for word, ends in JUDGED:
        print("judge", word.decode(), *ends, *judge_squares(word, ends), sep=",")
    tables = lent(3), lent(29)
    for name, word in SYMBOLS:
        for choice in FEWEST, MOST:
            tables = show_best((name, choice), bytes(word), choice, *tables)
    for word in generated(48):
        show_both(word)
    show_limits()


if __name__ == "__main__":
    main()
