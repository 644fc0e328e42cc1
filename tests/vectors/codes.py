#!/usr/bin/env python3
"""The expected output of the program vectors_codes: every call on words of 16-bit codes, pages, pairs of
words, and refusals, with every place that was lent. To make it again:

    tests/vectors/codes.py > crates/vectors_codes/stdout
"""
from definitions import FEWEST, MOST, best_split, best_squares, first_block, is_refused, judge_path
from definitions import judge_split, judge_squares, nodes, part, path_of_split, runs, runs_by_unit
from definitions import runs_of, which_first, write_page

W8 = (256, 256, 1, 256, 256, 1, 256, 256)  # document 01's aabaabaa
AROUND = (255, 256, 257, 65535) * 2

WORDS = [  # word, edition
    # equal low bytes
    ((1, 257), 1),
    ((1, 257) * 2, 1),
    # the root by the high byte, and codes from 32,768 on
    ((256, 1) * 2, 1),
    ((32768, 1) * 2, 1),
    (AROUND, 1),
    (W8, 1),
    ((65535,) * 3, 2),
]

SPLITS = [  # word, edition, ends, numbers of a path
    ((263, 519), 1, [2], [1, 2]),
    ((1, 257) * 2, 1, [2, 4], [1, 2, 1, 4]),
    ((1, 257) * 2, 1, [4], [1, 4]),
    (W8, 1, [8], [2, 8]),
    (W8, 1, [2, 8], [1, 2, 2, 8]),
]

PAGES = [  # word, edition, ends; units of one, three, four and five passes
    (W8, 1, [2, 8]),
    (AROUND, 1, [8]),
    ((10, 9, 8, 7, 6) * 2, 1, [10]),
    ((43981,) * 3 + (0,) * 3, 2, [3, 6]),
]

PAIRS = [  # two words, an edition
    ((1, 257) * 2, (1, 1, 257, 257), 1),
    ((1, 1, 257, 257), (1, 257) * 2, 1),
    ((1, 257), (257, 257), 1),
    ((1, 257), (263, 519), 1),
    ((), (257, 257), 2),
]

REFUSED = [  # word, edition, choice; with one place in each table
    ((256,) * 70001, 3, 3),
    (W8, 3, 3),
    (W8, 1, 1),
]


def lent(places):
    """A table as it is before a call."""
    return [7] * places


def shown(word):
    """The codes, each after a space; of a long word their count."""
    if len(word) > 10:
        return f" {len(word)} symbols"
    return "".join(f" {code}" for code in word)


def show(name, word, *fields, **tables):
    """One line: the fields, and then each table with its name."""
    print(name + shown(word), *fields, sep=",", end="")
    for table, numbers in tables.items():
        print(f" {table}:", *numbers, end="")
    print()


def show_part(word, edition, places):
    outcome, units = part(word, edition, 1, len(word), lent(places))
    if not is_refused(outcome):
        _, *numbers, block = outcome
        outcome = (*numbers, "block" if block else "no block")
    show("part", word, edition, *outcome, units=units)


def show_runs(word, places, find=runs_of):
    outcome, table = runs(word, lent(places), find)
    show("runs", word, *outcome, table=table)


def show_nodes(word, edition, places):
    outcome, table = nodes(word, edition, len(word), lent(places))
    show("nodes", word, edition, *outcome, runs=table)


def show_best_split(word, edition, choice, ends, work):
    outcome, ends, work = best_split(word, edition, choice, ends, work)
    show("best split", word, edition, choice, *outcome, ends=ends, work=work)
    return ends, work


def show_best_squares(word, choice, ends, work):
    outcome, ends, work = best_squares(word, choice, ends, work)
    show("best squares", word, choice, *outcome, ends=ends, work=work)


def show_judged(word, edition, ends):
    show("judge split", word, edition, *judge_split(word, edition, ends), ends=ends)
    show("judge squares", word, *judge_squares(word, ends), ends=ends)


def show_given(word, edition, ends, numbers, places):
    show_judged(word, edition, ends)
    outcome, table = path_of_split(word, edition, ends, lent(places))
    show("path", word, edition, *outcome, ends=ends, runs=table)
    show("judge path", word, edition, *judge_path(word, edition, numbers), numbers=numbers)


def show_page(word, edition, ends, room):
    outcome, out = write_page(word, edition, ends, list(b"." * room))
    show("page", word, edition, *outcome, ends=ends)
    print(bytes(out).decode())


def show_which(a, b, edition, places):
    outcome, work = which_first(a, b, edition, lent(places))
    show(f"which{shown(a)} or", b, edition, *outcome, work=work)


def show_block(a, b, edition, places):
    block, work = first_block(a, b, edition, lent(places))
    show(f"block{shown(a)} or", b, edition, len(block), symbols=block, work=work)


def show_word(word, edition):
    show_part(word, edition, 9)
    show_runs(word, 17)
    show_nodes(word, edition, 3)
    for choice in FEWEST, MOST:
        space = 4 * (len(word) + 1) + 1
        show_best_split(word, edition, choice, lent(3), lent(space))
        show_best_squares(word, choice, lent(3), lent(space))


def show_refused(word, edition, choice):
    show_part(word, edition, 1)
    show_runs(word, 1)
    show_nodes(word, edition, 1)
    show_best_split(word, edition, choice, lent(1), lent(1))
    show_best_squares(word, choice, lent(1), lent(1))
    show_given(word, edition, [2, 8], [1], 1)
    show_page(word, edition, [2, 8], 1)
    show_which(word, W8, edition, 1)
    show_block(W8, word, edition, 1)


def main():
    for word, edition in WORDS:
        show_word(word, edition)
    for word, edition, ends, numbers in SPLITS:
        show_given(word, edition, ends, numbers, 3)
    for word, edition, ends in PAGES:
        show_page(word, edition, ends, 123)
    for a, b, edition in PAIRS:
        show_which(a, b, edition, 21)
        show_block(a, b, edition, 21)
    for case in REFUSED:
        show_refused(*case)
    # 8 of best split, and 7 with a working table that is long enough
    tables = show_best_split(W8, 1, 3, lent(1), lent(37))
    tables = show_best_split(W8, 1, MOST, *tables)
    show_best_squares(W8, MOST, *tables)
    # the limit
    longest = (65535,) * 4096
    show_runs(longest, 5, runs_by_unit)
    show_judged(longest, 1, [4096])


if __name__ == "__main__":
    main()
