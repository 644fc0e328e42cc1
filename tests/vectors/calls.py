#!/usr/bin/env python3
"""The expected output of the program vectors: runs, nodes, best splits, the judges and paths, in both
editions, words with many runs, every refusal of these calls, and generated words, with the lent tables
afterwards. To make it again:

    tests/vectors/calls.py > crates/vectors/stdout

The rows of 4,096 equal passes come out of the definitions like the others, in some fifteen seconds.
"""
from definitions import FEWEST, MOST, best_split, judge_path, judge_split, nodes, path_of_split, runs
from definitions import runs_by_unit, runs_of

W8 = b"aabaabaa"
W17 = b"aabaabaacbbcbbcbb"
W21 = b"abaabaababaabaabababa"

AB4 = b"abababab"  # one run, of unit 2 and four turns
A6B3C3 = b"aaaaaabbbccc"
A4 = b"aaaabababab"  # two splits of two blocks in edition 2
W15 = b"aaabaaabaaabaaa"  # for three turns what W8 is for two

LARGEST = 4294967295

RUNS = [  # word, places lent
    (W8, 18),
    (W8, 16),
    (W8, 15),
    (W8, 12),
    (W8, 0),
    (b"", 0),
    (b"", 2),
    (b"ab", 1),
    (b"aaaa", 4),
    (b"ababa", 5),
    (W21, 64),
    (W17, 64),
    (AB4, 5),
    (A6B3C3, 13),
    (A4, 9),
    (W15, 21),
    # one unit from different starting passes
    (b"ababbaba", 17),
    (b"bababab", 4),
    (b"cabcabca", 4),
    # roots that more than the first pass decides
    (b"abacabacab", 4),
    (b"abaaabaaabaa", 17),
]

SYMBOLS = [  # name, word; with five places lent
    ("128 1 twice", [128, 1] * 2),
    ("127 128 twice", [127, 128] * 2),
    ("200 100 twice and 200", [200, 100] * 2 + [200]),
    ("128 255 128 127 twice", [128, 255, 128, 127] * 2),
]


def series(n):
    """The first n passes of the words of a series with many runs for their length: each begins with the
    one before it and goes on with an earlier one."""
    words = [b"abbababbabaababbaba", b"abbababbabaab", b"abbababbabaababbababbaba"]
    while len(words[-1]) < n:
        k = len(words)
        words.append(words[-1] + words[k - 2 if k % 3 == 0 else k - 4])
    return words[-1][:n]


RICH = [  # name, word with many runs for its length n; with 4 × n places lent
    (b"aa", b"aa"),
    (b"aabaabbaabaabb", b"aabaabbaabaabb"),
    (series(125), series(125)),
    ("4096 rich in runs", series(4096)),
]

NODES = [  # word, edition, position, places lent
    (W8, 1, 1, 3),
    (W8, 1, 2, 3),
    (W8, 1, 5, 3),
    (W8, 1, 6, 1),
    (W8, 1, 8, 3),
    (W8, 1, 8, 2),
    (W8, 1, 8, 1),
    (W8, 1, 0, 3),
    (W8, 1, 9, 3),
    (b"", 1, 1, 0),
    (b"aa", 1, 2, 1),
    (W21, 1, 21, 8),
    (AB4, 1, 3, 2),
    (AB4, 1, 4, 2),
    (AB4, 1, 5, 2),
    (AB4, 1, 6, 2),
    (AB4, 1, 8, 2),
    (AB4, 1, 5, 0),
    # edition 2
    (AB4, 2, 3, 2),
    (AB4, 2, 4, 2),
    (AB4, 2, 5, 2),
    (AB4, 2, 6, 2),
    (AB4, 2, 7, 2),
    (AB4, 2, 8, 2),
    (AB4, 2, 5, 0),
    (AB4, 2, 6, 0),
    (AB4, 2, 0, 2),
    (AB4, 2, 9, 2),
    (b"", 2, 1, 0),
    (b"aaa", 2, 2, 1),
    (b"aaa", 2, 3, 1),
    (W8, 2, 8, 3),
    (W15, 2, 12, 3),
    (W15, 2, 14, 3),
    (W15, 2, 15, 3),
    (W15, 2, 15, 1),
    (W21, 2, 9, 8),
    (W21, 2, 21, 8),
    # 12, and that it comes before 6 and 7
    (AB4, 0, 8, 2),
    (AB4, 3, 8, 2),
    (AB4, LARGEST, 8, 2),
    (AB4, 0, 0, 2),
    (AB4, 3, 9, 2),
    (AB4, LARGEST, 8, 0),
]

# the sequences of document 01, and those that three turns ask for
SEQUENCES = [b"", b"a", b"ab", b"aa", b"aaaa", b"aaaaa", b"ababa", b"baa", b"aabb", W8, W21, W17]
LONGER = [b"aaa", b"aaaaaa", b"aaaaaaaa", b"baaa", b"aaabbb", b"ababab", AB4, b"aabaabaab"]
LONGER += [b"abababababab", b"aaaababab", A4, A6B3C3, W15]
LONGER += [b"bbbaaaaaaaaaaaabaabaaba", b"aaaababababababaabaabaab"]


def both_choices(words, edition):
    """With a place more than is needed."""
    pairs = [(word, choice) for word in words for choice in (FEWEST, MOST)]
    return [(word, edition, choice, 12, 4 * (len(word) + 1) + 1) for word, choice in pairs]


# word, edition, choice, places lent for the ends, places of the working table
BEST = both_choices(SEQUENCES, 1) + [
    # each refusal in its order
    (W8, 1, 0, 2, 36),
    (W8, 1, 3, 2, 36),
    (W8, 1, 3, 2, 35),
    (W8, 1, 1, 2, 35),
    (W8, 1, 2, 1, 36),
    (W8, 1, 2, 2, 36),
    (b"baa", 1, 2, 0, 18),
    (b"", 1, 1, 0, 3),
    (b"", 1, 1, 0, 4),
]
BEST += both_choices(SEQUENCES + LONGER, 2) + [
    (b"aaaaaa", 2, 0, 2, 28),
    (b"aaaaaa", 2, 3, 2, 27),
    (b"aaaaaa", 2, 1, 2, 27),
    (b"aaaaaa", 2, 2, 1, 28),
    (b"aaaaaa", 2, 2, 2, 28),
    (b"ababa", 2, 1, 0, 24),
    (b"", 2, 1, 0, 3),
    (b"", 2, 1, 0, 4),
    # 12, and that it comes before 8, 9, 2 and 7
    (b"aaa", 0, 1, 1, 16),
    (b"aaa", 3, 2, 1, 16),
    (b"aaa", LARGEST, 1, 1, 16),
    (b"aaa", 0, 3, 1, 16),
    (b"aaa", 3, 1, 1, 15),
    (b"baa", LARGEST, 1, 1, 16),
    (b"aaa", 0, 1, 0, 16),
]

JUDGED = [  # word, edition, ends
    (W8, 1, []),
    (W8, 1, [8]),
    (W8, 1, [2, 8]),
    (W8, 1, [3, 8]),
    (W8, 1, [2, 2, 8]),
    (W8, 1, [2, 9]),
    (W8, 1, [2]),
    (W8, 1, [2, 4, 8]),
    (W8, 1, [0]),
    (W8, 1, [LARGEST]),
    (b"", 1, []),
    (b"", 1, [1]),
    (W17, 1, [6, 8, 15, 17]),
    (W17, 1, [2, 8, 15, 17]),
    (AB4, 1, [4, 8]),
    (A6B3C3, 1, [2, 6, 9, 12]),
    # edition 2
    (AB4, 2, [8]),
    (AB4, 2, [4, 8]),
    (AB4, 2, [5]),
    (AB4, 2, [6]),
    (AB4, 2, [6, 8]),
    (AB4, 2, [6, 6]),
    (AB4, 2, [9]),
    (AB4, 2, []),
    (W8, 2, [8]),
    (W8, 2, [2, 8]),
    (b"", 2, []),
    (A6B3C3, 2, [6, 9, 12]),
    (A6B3C3, 2, [3, 6, 9, 12]),
    (A6B3C3, 2, [2, 6, 9, 12]),
    (A6B3C3, 2, [6, 12]),
    (A6B3C3, 2, [6, 9, 11, 12]),
    (A4, 2, [3, 11]),
    (A4, 2, [4, 11]),
    (W15, 2, [12, 15]),
    # 12, and that it comes before 3, 4 and 5
    (AB4, 0, [8]),
    (AB4, 3, [8]),
    (AB4, LARGEST, [8]),
    (AB4, 0, [9]),
    (AB4, 3, [3, 8]),
    (AB4, LARGEST, []),
]

PATHS = [  # word, edition, ends, places lent
    (W8, 1, [8], 2),
    (W8, 1, [2, 8], 3),
    (W8, 1, [2, 8], 2),
    (W8, 1, [2, 8], 1),
    (W8, 1, [3, 8], 1),
    (W8, 1, [2, 9], 0),
    (W8, 1, [2], 3),
    (W17, 1, [6, 8, 15, 17], 4),
    (W21, 1, [6, 10, 16, 21], 5),
    (AB4, 1, [4, 8], 2),
    # edition 2
    (AB4, 2, [8], 2),
    (AB4, 2, [4, 8], 2),
    (AB4, 2, [9], 0),
    (AB4, 2, [5], 0),
    (AB4, 2, [6], 0),
    (AB4, 2, [8], 0),
    (b"", 2, [], 1),
    (A6B3C3, 2, [6, 9, 12], 3),
    (A6B3C3, 2, [3, 6, 9, 12], 5),
    (A6B3C3, 2, [3, 6, 9, 12], 3),
    (A4, 2, [3, 11], 2),
    (A4, 2, [4, 11], 2),
    (W15, 2, [3, 15], 2),
    (W15, 2, [12, 15], 2),
    # 12, and that it comes before 3, 4, 5 and 7
    (AB4, 0, [8], 2),
    (AB4, 3, [8], 2),
    (AB4, LARGEST, [8], 2),
    (AB4, 0, [9], 2),
    (AB4, 3, [3, 8], 2),
    (AB4, LARGEST, [], 2),
    (AB4, 0, [8], 0),
]

JUDGED_PATHS = [  # word, edition, for each block a run number and an end
    (W8, 1, [1, 2, 2, 8]),
    (W8, 1, [2, 8]),
    (W8, 1, [1, 2, 1, 8]),
    (W8, 1, [1, 2, 9, 8]),
    (W8, 1, [1, 2, 5, 8]),
    (W8, 1, [0, 8]),
    (W8, 1, [1, 2, 2]),
    (W8, 1, [1, 2, 2, 2]),
    (W8, 1, [1, 2, 2, 9]),
    (W8, 1, [1, 2]),
    (W8, 1, []),
    (b"", 1, []),
    (b"", 1, [1]),
    (AB4, 1, [1, 4, 1, 8]),
    (A6B3C3, 1, [1, 6, 2, 9, 3, 12]),
    # edition 2
    (AB4, 2, [1, 8]),
    (AB4, 2, [1, 4, 1, 8]),
    (AB4, 2, [1, 5]),
    (AB4, 2, [1, 6]),
    (AB4, 2, [1, 6, 1, 8]),
    (AB4, 2, [1, 6, 1, 6]),
    (AB4, 2, [1, 9]),
    (AB4, 2, [2, 8]),
    (AB4, 2, [0, 8]),
    (AB4, 2, [1]),
    (AB4, 2, []),
    (b"", 2, []),
    (W8, 2, [2, 8]),
    (A6B3C3, 2, [1, 6, 2, 9, 3, 12]),
    (A6B3C3, 2, [1, 3, 1, 6, 2, 9, 3, 12]),
    (A6B3C3, 2, [1, 3, 1, 6, 2, 9, 3, 11]),
    (A6B3C3, 2, [1, 2, 1, 6, 2, 9, 3, 12]),
    (A6B3C3, 2, [1, 6, 2, 12]),
    (A4, 2, [1, 3, 2, 11]),
    (A4, 2, [1, 4, 2, 11]),
    (W15, 2, [2, 15]),
    (W15, 2, [1, 3, 2, 15]),
    (W15, 2, [2, 12, 5, 15]),
    # 12, and that it comes before 10, 3, 4 and 5
    (AB4, 0, [1, 8]),
    (AB4, 3, [1, 8]),
    (AB4, LARGEST, [1, 8]),
    (AB4, 0, [1]),
    (AB4, 3, [1, 9]),
    (AB4, LARGEST, [2, 8]),
    (AB4, 0, []),
]


def lent(places):
    """A table as it is before a call."""
    return [7] * places


def fields(*values):
    """The values, and of an outcome each of its values, parted by commas."""
    flat = []
    for value in values:
        flat.extend(value if isinstance(value, tuple) else [value])
    return ",".join(value.decode() if isinstance(value, bytes) else str(value) for value in flat)


def listed(numbers):
    return ":" + "".join(f" {number}" for number in numbers)


def show_calls():
    for word, places in RUNS:
        outcome, table = runs(word, lent(places))
        print(fields("runs", word, places, outcome) + listed(table))
    for name, word in SYMBOLS:
        outcome, table = runs(bytes(word), lent(5))
        print(fields("runs", name, outcome) + listed(table))
    for name, word in RICH:
        places = 4 * len(word)
        find = runs_of if places <= 500 else runs_by_unit
        outcome, table = runs(word, lent(places), find)
        shown = listed(table) if places <= 64 else ""
        print(fields("runs", name, len(word), places, outcome) + shown)
    for word, edition, position, places in NODES:
        outcome, table = nodes(word, edition, position, lent(places))
        print(fields("nodes", word, edition, position, places, outcome) + listed(table))
    for word, edition, choice, places, space in BEST:
        outcome, ends, work = best_split(word, edition, choice, lent(places), lent(space))
        print(fields("best", word, edition, choice, outcome) + " ends" + listed(ends))
        print(" work" + listed(work))
    for word, edition, ends in JUDGED:
        print(fields("judge", word, edition, judge_split(word, edition, ends)) + " ends" + listed(ends))
    for word, edition, ends, places in PATHS:
        outcome, table = path_of_split(word, edition, ends, lent(places))
        print(fields("path", word, edition, outcome) + " ends" + listed(ends))
        print(" runs" + listed(table))
    for word, edition, numbers in JUDGED_PATHS:
        outcome = judge_path(word, edition, numbers)
        print(fields("judge path", word, edition, outcome) + " numbers" + listed(numbers))


def show_longest(edition, most):
    """4,096 equal passes, of which so many blocks are the most."""
    word = b"a" * 4096
    space = 4 * 4097 + 1
    outcome, ends, _ = best_split(word, edition, FEWEST, lent(2049), lent(space))
    print(fields("4096 equal", edition, " fewest", outcome) + " ends" + listed(ends[:3]))
    outcome, ends, work = best_split(word, edition, MOST, lent(2049), lent(space))
    print(fields("4096 equal", edition, " most", outcome) + " ends" + listed(ends[:3]))
    print(" last ends" + listed(ends[most - 2 : most + 1]))
    print(" sizes" + listed(work[4094:4099]))
    outcome, _, _ = best_split(word, edition, MOST, lent(most - 1), lent(space))
    print(fields("4096 equal", edition, " one place too few", outcome))


def show_too_long(edition):
    """One pass more: refusal 1 comes first in every call."""
    word = b"a" * 70001
    outcome, table = nodes(word, edition, 0, lent(4))
    print(fields("70001 equal", edition, " nodes", outcome) + listed(table))
    outcome, _, work = best_split(word, edition, 0, lent(4), lent(4))
    print(fields("70001 equal", edition, " best", outcome) + listed(work))
    print(fields("70001 equal", edition, " judge", judge_split(word, edition, [0])))
    outcome, table = path_of_split(word, edition, [0], lent(4))
    print(fields("70001 equal", edition, " path", outcome) + listed(table))
    print(fields("70001 equal", edition, " judge path", judge_path(word, edition, [0])))


def show_too_long_runs():
    outcome, table = runs(b"a" * 70001, lent(4))
    print(fields("70001 equal", " runs", outcome) + listed(table))


def generated(count):
    """Words of a linear congruential generator: lengths from 1 to 24, over 2 or 3 letters, each by the
    upper bits of the next number."""
    number = 12345
    for i in range(count):
        word = []
        for _ in range(1 + i % 24):
            number = (number * 1103515245 + 12345) % 2**31
            word.append(ord("a") + number // 2**16 % (2 + i % 2))
        yield bytes(word)


def show_generated():
    for word in generated(300):
        sizes = []
        for edition in 1, 2:
            fewest, _, _ = best_split(word, edition, FEWEST, lent(16), lent(100))
            most, _, _ = best_split(word, edition, MOST, lent(16), lent(100))
            sizes += [edition, "fewest", fewest, "most", most]
        print(fields("word", word, *sizes))


def main():
    show_calls()
    show_longest(1, 2048)
    show_longest(2, 1365)
    show_too_long_runs()
    for edition in 1, 2, 0:
        show_too_long(edition)
    show_generated()


if __name__ == "__main__":
    main()
