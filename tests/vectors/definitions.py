#!/usr/bin/env python3
"""The definitions and calls of document 01 and of document 02's items 1 to 4 and 6 to 10, as plainly as
the documents state them, for the expected outputs of the test programs. Nothing is taken from the
library or from its runs.

A word (sequence) is a bytes object, or a tuple of 16-bit codes. A joint m stands after pass number m,
and the part between the joints a and b is word[a:b]. A definition of blocks or nodes is told k, the
turns that a block has at least, and a call the edition, which sets k; where blocks are squares, k is
SQUARES. A call takes what it is lent and gives its outcome, and then each lent table as it is
afterwards; a lent table is a list, and is not changed in place.

Run by itself, this file compares the definitions with one another and with worked examples.
"""
import re
from functools import lru_cache
from itertools import combinations, product

LIMIT = 70000
NONE = 4294967295
FEWEST, MOST = 1, 2
TURNS = {1: 2, 2: 3}  # k of each edition
UNIT_MEMORY = 256  # the passes of the longest unit that a block has, in both editions
SQUARES = "squares"


def accepted(*values):
    return ("accepted", *values)


def refused(number, index=0):
    return ("refused", number, index)


def is_refused(outcome):
    return outcome[0] == "refused"


def written(values, table):
    """Only the first places that an answer needs change."""
    return values + table[len(values):]


# ---- units, blocks, runs, nodes


def unit(part):
    """The smallest p at which no pair of passes p apart differs, of a part that is not empty. The
    left sides of all such pairs, in order, are all but the last p passes; the right sides are all
    but the first p."""
    p = 1
    while part[: len(part) - p] != part[p:]:
        p += 1
    return p


def is_square(part):
    """A word that is not empty, twice over."""
    half = len(part) // 2
    return half > 0 and part[:half] == part[half:]


def is_block(part, k):
    if k == SQUARES:
        return is_square(part)
    p = unit(part)
    return len(part) >= k * p and p <= UNIT_MEMORY


def comes_before(part, other):
    """Of two parts of one length, in order of pass code: the first pass where they differ decides."""
    for code, other_code in zip(part, other):
        if code != other_code:
            return code < other_code
    return False


def root(word, first, p):
    """The position from first to first + p - 1 where the p passes starting there come first in order
    of pass code: before those at every other such position. Of a run there is just one."""
    positions = range(first, first + p)

    def passes_at(q):
        return word[q - 1 : q - 1 + p]

    (q,) = [
        q
        for q in positions
        if all(comes_before(passes_at(q), passes_at(other)) for other in positions if other != q)
    ]
    return q


@lru_cache(maxsize=None)
def runs_of(word):
    """(first, last, unit, root) of each run, in the order of the run numbers: every first and last is
    tried, and the two conditions are those of the document, with position 1 at place 0. Runs have the
    turns of edition 1, and units of any length."""
    n = len(word)
    found = []
    for first in range(1, n + 1):
        for last in range(first, n + 1):
            part = word[first - 1 : last]
            p = unit(part)
            if (
                len(part) >= TURNS[1] * p
                and (first == 1 or word[first - 2] != word[first + p - 2])
                and (last == n or word[last] != word[last - p])
            ):
                found.append((first, last, p, root(word, first, p)))
    return sorted(found, key=lambda run: (run[0], run[2]))


def runs_by_unit(word):
    """The same, quickly, of a long word. Between two passes that differ from those p further on, or up
    to the word's ends, is the longest part in which no pair p apart differs: it cannot be lengthened,
    and is a run if it has two turns and p is its unit."""
    n = len(word)
    found = []
    for p in range(1, n // 2 + 1):
        differ = [i for i, (left, right) in enumerate(zip(word, word[p:])) if left != right]
        for before, after in zip([-1] + differ, differ + [n - p]):
            part = word[before + 1 : after + p]
            if len(part) >= TURNS[1] * p and unit(part) == p:
                found.append((before + 2, after + p, p, root(word, before + 2, p)))
    return sorted(found, key=lambda run: (run[0], run[2]))


def nodes_at(word, k, position):
    """The numbers of the runs with a white node at a position, rising."""
    return [
        number
        for number, (first, last, p, _) in enumerate(runs_of(word), 1)
        if p <= UNIT_MEMORY and first + k * p - 1 <= position <= last
    ]


# ---- splits


@lru_cache(maxsize=1)
def blocks_up_to(word, k):
    """For each joint m and each joint j below it: 1 where the part between them is a block, or 0."""
    return [bytes(is_block(word[j:m], k) for j in range(m)) for m in range(len(word) + 1)]


@lru_cache(maxsize=2)
def best_table(word, k, choice):
    """The best size of each leading length, NONE where it has no split, and the joint before the last
    block of the split that wins the tie: the lowest joint, so the longest last block, of those that
    give the best size. The block before it is the last one of the leading part up to that joint."""
    sizes, befores = [0], [0]
    for m in range(1, len(word) + 1):
        best, before = NONE, 0
        for j, block in enumerate(blocks_up_to(word, k)[m]):
            if block and sizes[j] != NONE:
                size = sizes[j] + 1
                if best == NONE or (size < best if choice == FEWEST else size > best):
                    best, before = size, j
        sizes.append(best)
        befores.append(before)
    return sizes, befores


def best_ends(word, k, choice):
    _, befores = best_table(word, k, choice)
    ends = []
    joint = len(word)
    while joint > 0:
        ends.append(joint)
        joint = befores[joint]
    return ends[::-1]


def verdict(n, ends, fits):
    """For each end in turn 3, 4; then 5; else the number of blocks. The test is told the number of
    the block and the joints that it lies between."""
    before = 0
    for index, end in enumerate(ends, 1):
        if end <= before or end > n:
            return refused(3, index)
        if not fits(index, before, end):
            return refused(4, index)
        before = end
    if before != n:
        return refused(5)
    return accepted(len(ends))


# ---- the calls, each with its refusals in the document's order


def part(word, edition, first, last, table):
    """Part: 1, 12, 6, 7. Gives unit, turns, rest, and 1 for a block or 0; writes the unit of each leading
    part but the empty one."""
    if len(word) > LIMIT:
        return refused(1), table
    if edition not in TURNS:
        return refused(12), table
    if first < 1 or last > len(word) or first > last:
        return refused(6), table
    piece = word[first - 1 : last]
    if len(table) < len(piece):
        return refused(7), table
    units = [unit(piece[:m]) for m in range(1, len(piece) + 1)]
    p = units[-1]
    outcome = accepted(p, len(piece) // p, len(piece) % p, int(is_block(piece, TURNS[edition])))
    return outcome, written(units, table)


def runs(word, table, find=runs_of):
    """Runs: 1, 7. Four numbers a run."""
    if len(word) > LIMIT:
        return refused(1), table
    found = find(word)
    numbers = [number for run in found for number in run]
    if len(table) < len(numbers):
        return refused(7), table
    return accepted(len(found)), written(numbers, table)


def nodes(word, edition, position, table):
    """Nodes: 1, 12, 6, 7."""
    if len(word) > LIMIT:
        return refused(1), table
    if edition not in TURNS:
        return refused(12), table
    if position < 1 or position > len(word):
        return refused(6), table
    numbers = nodes_at(word, TURNS[edition], position)
    if len(table) < len(numbers):
        return refused(7), table
    return accepted(len(numbers)), written(numbers, table)


def best(word, k, choice, ends, work):
    """8, 9, 2, 7. The working table is the same after an answer, 2 and 7."""
    n = len(word)
    if choice not in (FEWEST, MOST):
        return refused(8), ends, work
    if len(work) < 4 * (n + 1):
        return refused(9), ends, work
    sizes, _ = best_table(word, k, choice)
    work = written(sizes + [0] * (3 * (n + 1)), work)
    if sizes[n] == NONE:
        return refused(2), ends, work
    if len(ends) < sizes[n]:
        return refused(7), ends, work
    return accepted(sizes[n]), written(best_ends(word, k, choice), ends), work


def best_split(word, edition, choice, ends, work):
    """Best split: 1, 12, 8, 9, 2, 7."""
    if len(word) > LIMIT:
        return refused(1), ends, work
    if edition not in TURNS:
        return refused(12), ends, work
    return best(word, TURNS[edition], choice, ends, work)


def best_squares(word, choice, ends, work):
    """Best squares: 1, 8, 9, 2, 7."""
    if len(word) > LIMIT:
        return refused(1), ends, work
    return best(word, SQUARES, choice, ends, work)


def which_first(a, b, edition, work):
    """Which first: 1 for either, 12, 9 for the longer, 2 if neither splits. Gives 1 or 2 for the one
    that has fewer blocks in its fewest split. The working table is the same after an answer and 2."""
    n = max(len(a), len(b))
    if n > LIMIT:
        return refused(1), work
    if edition not in TURNS:
        return refused(12), work
    if len(work) < 4 * (n + 1):
        return refused(9), work
    work = written([0] * (4 * (n + 1)), work)
    sizes = [best_table(word, TURNS[edition], FEWEST)[0][-1] for word in (a, b)]
    if sizes == [NONE, NONE]:
        return refused(2), work
    # NONE is above every size, and index gives the first of two that are equal
    return accepted(1 + sizes.index(min(sizes))), work


def first_block(a, b, edition, work):
    """First block: that of the fewest split of the one that which first answers, as a part of it; the
    empty part of an empty one, and where which first refuses."""
    outcome, work = which_first(a, b, edition, work)
    if is_refused(outcome):
        return b"", work
    word = (a, b)[outcome[1] - 1]
    ends = best_ends(word, TURNS[edition], FEWEST)
    return word[: ends[0]] if ends else b"", work


def judge_split(word, edition, ends):
    """Judge a split: 1, 12; then for each end in turn 3, 4; then 5."""
    if len(word) > LIMIT:
        return refused(1)
    if edition not in TURNS:
        return refused(12)
    return verdict(len(word), ends, lambda index, a, b: is_block(word[a:b], TURNS[edition]))


def judge_squares(word, ends):
    """Judge squares: 1; then for each end in turn 3, 4; then 5."""
    if len(word) > LIMIT:
        return refused(1)
    return verdict(len(word), ends, lambda index, a, b: is_square(word[a:b]))


def path_of_split(word, edition, ends, table):
    """Path of a split: the same, then 7. Gives the number of the run that encloses each block and has
    its unit."""
    outcome = judge_split(word, edition, ends)
    if is_refused(outcome):
        return outcome, table
    if len(table) < len(ends):
        return refused(7), table
    numbers = []
    for a, b in zip([0] + ends, ends):
        (number,) = [
            number
            for number, (first, last, p, _) in enumerate(runs_of(word), 1)
            if first <= a + 1 and b <= last and p == unit(word[a:b])
        ]
        numbers.append(number)
    return outcome, written(numbers, table)


def judge_path(word, edition, numbers):
    """Judge a path: 1, 12, 10, then as for a split. 4 is: no run has that number, or the run has no
    nodes since its unit is too long, or it does not enclose the piece, or the piece is shorter than
    k × the run's unit."""
    if len(word) > LIMIT:
        return refused(1)
    if edition not in TURNS:
        return refused(12)
    if len(numbers) % 2 == 1:
        return refused(10)

    def fits(index, a, b):
        number = numbers[2 * index - 2]
        if not 1 <= number <= len(runs_of(word)):
            return False
        first, last, p, _ = runs_of(word)[number - 1]
        encloses = first <= a + 1 and b <= last
        return p <= UNIT_MEMORY and encloses and b - a >= TURNS[edition] * p

    return verdict(len(word), numbers[1::2], fits)


# ---- pages


def page_line(number, word, a, b, run):
    """One block's line: seven columns of six characters, right-aligned, and one of eighteen, which shows
    nine bytes in two digits each, or four codes in four."""
    p = unit(word[a:b])
    columns = number, a + 1, b, p, (b - a) // p, (b - a) % p, run
    digits, shown = (2, 9) if isinstance(word, bytes) else (4, 4)
    passes = b"".join(b"%0*x" % (digits, code) for code in word[a : a + p][:shown])
    return b"".join(b"%6d" % column for column in columns) + passes.ljust(18) + b"\n"


def write_page(word, edition, ends, out):
    """Write a page: the judge's order, then 7. Gives the count of bytes."""
    outcome, numbers = path_of_split(word, edition, ends, [0] * len(ends))
    if is_refused(outcome):
        return outcome, out
    blocks = enumerate(zip([0] + ends, ends, numbers), 1)
    page = list(b"".join(page_line(number, word, a, b, run) for number, (a, b, run) in blocks))
    if len(out) < len(page):
        return refused(7), out
    return accepted(len(page)), written(page, out)


# ---- plans

# "Stored plan lines have four digits, so above 4,096 passes the line begins with long and a comma and has
# six digits a number."
LINE_LIMIT = 4096
PLAN_LINE = re.compile(rb"plan,([0-9]{4}),([0-9]{4})((?:,[0-9]{4})*)\n")
LONG_LINE = re.compile(rb"long,([0-9]{6}),([0-9]{6})((?:,[0-9]{6})*)\n")


def plan_line(n, ends):
    name, digits = (b"long", 6) if n > LINE_LIMIT else (b"plan", 4)
    return b",".join([name] + [b"%0*d" % (digits, number) for number in [n, len(ends)] + ends]) + b"\n"


def plausible(limit, n, ends):
    """1; 3 for each end; 5. A plan line carries no passes, so every piece will do."""
    if n > limit:
        return refused(1)
    return verdict(n, ends, lambda index, a, b: True)


def write_plan(n, ends, out):
    """Write a plan: 1; 3 for each end; 5; 7. Gives the count of bytes."""
    outcome = plausible(LIMIT, n, ends)
    if is_refused(outcome):
        return outcome, out
    line = list(plan_line(n, ends))
    if len(out) < len(line):
        return refused(7), out
    return accepted(len(line)), written(line, out)


def read_plan(line, table):
    """Read a plan: 11; then as for writing. Gives n and the count of ends."""
    form, limit = PLAN_LINE.fullmatch(line), LINE_LIMIT
    if not form:
        form, limit = LONG_LINE.fullmatch(line), LIMIT
        if not form or int(form[1]) <= LINE_LIMIT:
            return refused(11), table
    n, count = int(form[1]), int(form[2])
    ends = [int(end) for end in form[3].split(b",")[1:]]
    if count != len(ends):
        return refused(11), table
    outcome = plausible(limit, n, ends)
    if is_refused(outcome):
        return outcome, table
    if len(table) < len(ends):
        return refused(7), table
    return accepted(n, count), written(ends, table)


# ---- the definitions compared with one another, and with worked examples


def joined(word, judge):
    """Every split that a judge of ends accepts: every choice of joints inside the word is tried, and
    the last end is n."""
    n = len(word)
    last = [n] if n else []
    return [
        list(inner) + last
        for count in range(max(n, 1))
        for inner in combinations(range(1, n), count)
        if not is_refused(judge(list(inner) + last))
    ]


@lru_cache(maxsize=None)
def splits_of(word, edition):
    return joined(word, lambda ends: judge_split(word, edition, ends))


@lru_cache(maxsize=None)
def squares_of(word):
    return joined(word, lambda ends: judge_squares(word, ends))


def is_primitive(word):
    """No x has the word as its power with an exponent of 2 or more."""
    lengths = range(1, len(word))
    return all(word != word[:m] * (len(word) // m) for m in lengths)


def best_of(splits, choice):
    """The size and the ends of the split that wins, of a list of them; NONE and no ends of none."""
    if not splits:
        return NONE, []
    size = (min if choice == FEWEST else max)(map(len, splits))

    def block_lengths_from_the_end(ends):
        return [b - a for a, b in zip([0] + ends, ends)][::-1]

    return size, max((s for s in splits if len(s) == size), key=block_lengths_from_the_end)


def paths_of(word, k, joint=0):
    """Every path of the graph from a joint to joint n, as the run number and the joint of each drop."""
    if joint == len(word):
        yield []
    for number, (_, _, p, _) in enumerate(runs_of(word), 1):
        position = joint + k * p  # where the diagonal leads, if there is a white node
        while number in nodes_at(word, k, position):
            for rest in paths_of(word, k, position):
                yield [number, position] + rest
            position += 1  # the flat edge


def judged_paths_of(word, edition, path=()):
    """Every path that judge a path accepts. One that is refused with 5 may be gone on with."""
    outcome = judge_path(word, edition, list(path))
    if not is_refused(outcome):
        yield list(path)
    elif outcome == refused(5):
        for number in range(len(runs_of(word)) + 2):
            for end in range(len(word) + 2):
                yield from judged_paths_of(word, edition, (*path, number, end))


EXAMPLES = {  # of each edition: sequence, ends of the fewest, ends of the most; None is refusal 2
    1: [  # document 01's
        (b"", [], []),
        (b"a", None, None),
        (b"ab", None, None),
        (b"aa", [2], [2]),
        (b"aaaa", [4], [2, 4]),
        (b"aaaaa", [5], [2, 5]),
        (b"ababa", [5], [5]),
        (b"baa", None, None),
        (b"aabb", [2, 4], [2, 4]),
        (b"aabaabaa", [8], [2, 8]),
        (b"abaabaababaabaabababa", [16, 21], [6, 10, 16, 21]),
        (b"aabaabaacbbcbbcbb", [8, 17], [2, 8, 15, 17]),
    ],
    2: [  # worked out by hand
        (b"", [], []),
        (b"a", None, None),
        (b"aa", None, None),
        (b"aaa", [3], [3]),
        (b"aaaaa", [5], [5]),
        (b"aaaaaa", [6], [3, 6]),
        (b"aaaaaaaa", [8], [3, 8]),
        (b"ababa", None, None),
        (b"ababab", [6], [6]),
        (b"abababa", [7], [7]),
        (b"aabb", None, None),
        (b"aaabbb", [3, 6], [3, 6]),
        (b"aabaabaa", None, None),
        (b"aabaabaab", [9], [9]),
        (b"abababababab", [12], [6, 12]),
        (b"aaaabababab", [3, 11], [3, 11]),
        (b"aaaaaabbbccc", [6, 9, 12], [3, 6, 9, 12]),
    ],
}

LONG = b"abaabaababaabaabababa"

PAIRS = [  # two lay-ups, edition, which first, first block; worked out by hand
    (b"aabaabaa", LONG, 1, accepted(1), b"aabaabaa"),
    (LONG, b"aabaabaa", 1, accepted(2), b"aabaabaa"),
    (b"aabb", LONG, 1, accepted(1), b"aa"),
    (LONG, b"aabb", 1, accepted(1), b"abaabaababaabaab"),
    (b"ab", b"aabb", 1, accepted(2), b"aa"),
    (b"aabb", b"ab", 1, accepted(1), b"aa"),
    (b"ab", b"baa", 1, refused(2), b""),
    (b"", b"aa", 1, accepted(1), b""),
    (b"aa", b"", 1, accepted(2), b""),
    (b"", b"ab", 1, accepted(1), b""),
    (b"", b"", 1, accepted(1), b""),
    (b"aabaabaa", b"aaabbb", 2, accepted(2), b"aaa"),
    (b"aaabbb", b"aabaabaab", 2, accepted(2), b"aabaabaab"),
    (b"aaaabababab", b"aaabbb", 2, accepted(1), b"aaa"),
    (b"aabaabaa", b"aabb", 2, refused(2), b""),
]

SQUARES_OF = [  # word, ends of the fewest squares, ends of the most; None is refusal 2
    # document 02's
    (b"aaaa", [4], [2, 4]),
    (b"aabaabaa", [2, 8], [2, 8]),
    # source document 002's Example 1
    (b"abaababaabbbaabbbb", [6, 16, 18], [10, 12, 14, 16, 18]),
    # worked out by hand
    (b"", [], []),
    (b"a", None, None),
    (b"ab", None, None),
    (b"aa", [2], [2]),
    (b"aaa", None, None),
    (b"aaaaa", None, None),
    (b"aaaaaa", [6], [2, 4, 6]),
    (b"abab", [4], [4]),
    (b"ababa", None, None),
    (b"ababab", None, None),
    (b"abababab", [8], [4, 8]),
    (b"aabb", [2, 4], [2, 4]),
    (b"aabbaabb", [8], [2, 4, 6, 8]),
    (b"abba", None, None),
    (b"aabaab", [6], [6]),
    (b"baabaa", [6], [6]),
]

SQUARES_JUDGED = [  # word, ends, outcome; worked out by hand
    (b"aaaa", [4], accepted(1)),
    (b"aaaa", [2, 4], accepted(2)),
    (b"aaaa", [3, 4], refused(4, 1)),
    (b"aaaa", [2, 3], refused(4, 2)),
    (b"aaaa", [2, 2, 4], refused(3, 2)),
    (b"aaaa", [2, 5], refused(3, 2)),
    (b"aaaa", [2], refused(5)),
    (b"aaaa", [], refused(5)),
    (b"ababa", [5], refused(4, 1)),
    (b"ababab", [6], refused(4, 1)),
    (b"aabaabaa", [8], refused(4, 1)),
    (b"aabaabaa", [6, 8], accepted(2)),
    (b"", [], accepted(0)),
    (b"", [0], refused(3, 1)),
]

RUNS_OF = [  # word, and first, last, unit and root of each run; worked out by hand
    (b"aabaabaa", [(1, 2, 1, 1), (1, 8, 3, 1), (4, 5, 1, 4), (7, 8, 1, 7)]),
    # the first and the last wind one unit from different starting passes
    (b"ababbaba", [(1, 4, 2, 1), (2, 7, 3, 3), (4, 5, 1, 4), (5, 8, 2, 6)]),
    (b"bababa", [(1, 6, 2, 2)]),
    (b"cabcabca", [(1, 8, 3, 2)]),
    (b"abacabacab", [(1, 10, 4, 1)]),
    (b"baabaabaa", [(1, 9, 3, 2), (2, 3, 1, 2), (5, 6, 1, 5), (8, 9, 1, 8)]),
    # codes above 127 come after the others
    (b"\x80\x01\x80\x01", [(1, 4, 2, 2)]),
    (b"\x7f\x80\x7f\x80", [(1, 4, 2, 1)]),
    (b"\x80\xff\x80\x7f\x80\xff\x80\x7f", [(1, 8, 4, 4)]),
    # 16-bit codes
    ((1, 257), []),
    ((256, 1, 256, 1), [(1, 4, 2, 2)]),
    ((32768, 1, 32768, 1), [(1, 4, 2, 2)]),
]

JUDGED = [  # on aabaabaa, edition 1: ends, and the document's refusal
    ([3, 8], refused(4, 1)),
    ([2, 2, 8], refused(3, 2)),
    ([2, 9], refused(3, 2)),
    ([], refused(5)),
]


def expect(holds, *what):
    if not holds:
        raise SystemExit("definitions: not so: " + " ".join(map(str, what)))


def compare_with_enumeration(word, edition):
    n, k = len(word), TURNS[edition]
    for choice in FEWEST, MOST:
        leading = [best_of(splits_of(word[:m], edition), choice) for m in range(n + 1)]
        sizes, _ = best_table(word, k, choice)
        expect(sizes == [size for size, _ in leading], "sizes of", word, edition, choice)
        if sizes[n] != NONE:
            expect(best_ends(word, k, choice) == leading[n][1], "ends of", word, edition, choice)
    paths = sorted(paths_of(word, k))
    splits = sorted(splits_of(word, edition))
    expect(sorted(path[1::2] for path in paths) == splits, "one path a split of", word, edition)
    expect(paths == sorted(judged_paths_of(word, edition)), "paths that are accepted of", word, edition)
    for path in paths:
        _, numbers = path_of_split(word, edition, path[1::2], [0] * (len(path) // 2))
        expect(numbers == path[0::2], "path of", word, edition, path[1::2])
    for ends in splits:
        expect(len(ends) <= n // 2, "blocks of", word, edition, ends)
        # every split has a page, and no line another width
        outcome, out = write_page(word, edition, ends, [7] * (61 * len(ends) + 1))
        expect(outcome == accepted(61 * len(ends)) and out.pop() == 7, "page of", word, edition, ends)
        lines = bytes(out).splitlines()
        expect([len(line) for line in lines] == [60] * len(ends), "lines of", word, edition, ends)


def compare_two_with_enumeration(a, b, edition):
    """Both calls, with a place more than they need; the first wins where both sizes are equal."""
    needed = 4 * (max(len(a), len(b)) + 1)
    cleared = [0] * needed + [7]
    (size, ends), (other_size, other_ends) = (
        best_of(splits_of(word, edition), FEWEST) for word in (a, b)
    )
    if size == other_size == NONE:
        outcome, block = refused(2), b""
    elif other_size < size:
        outcome, block = accepted(2), b[: min(other_ends, default=0)]
    else:
        outcome, block = accepted(1), a[: min(ends, default=0)]
    lent = [7] * len(cleared)
    expect(which_first(a, b, edition, lent) == (outcome, cleared), "first of", a, b, edition)
    expect(first_block(a, b, edition, lent) == (block, cleared), "first block of", a, b, edition)


def compare_squares_with_enumeration(word):
    """Both choices; and every split of most squares has primitive halves only."""
    n = len(word)
    for choice in FEWEST, MOST:
        leading = [best_of(squares_of(word[:m]), choice) for m in range(n + 1)]
        size, ends = leading[n]
        table = [size for size, _ in leading] + [0] * (3 * (n + 1)) + [7]
        if size == NONE:
            given = refused(2), [7] * n, table
        else:
            given = accepted(size), written(ends, [7] * n), table
        lent = [7] * len(table)
        expect(best_squares(word, choice, [7] * n, lent) == given, "squares of", word, choice)
        if 0 < size < NONE:
            given = refused(7), [7] * (size - 1), table
            expect(best_squares(word, choice, given[1], lent) == given, "few places", word, choice)
    for ends in squares_of(word):
        expect(len(ends) <= n // 2, "squares of", word, ends)
        if len(ends) == size:
            halves = [word[a : (a + b) // 2] for a, b in zip([0] + ends, ends)]
            expect(all(map(is_primitive, halves)), "most squares of", word, ends)


def compare_squares_with_examples():
    for word, *both in SQUARES_OF:
        for choice, ends in zip((FEWEST, MOST), both):
            outcome, table, _ = best_squares(word, choice, [7] * 9, [7] * 100)
            expected = refused(2) if ends is None else accepted(len(ends))
            expect(outcome == expected, "squares of", word, choice)
            expect(table == written(ends or [], [7] * 9), "ends of squares of", word, choice)
            if ends is not None:
                expect(judge_squares(word, ends) == expected, "judged squares of", word, ends)
    for word, ends, outcome in SQUARES_JUDGED:
        expect(judge_squares(word, ends) == outcome, "judged squares", word, ends)
    # 1, 8, 9 and 2 in this order; both tables are kept after the first three
    kept = [7], [7] * 11
    refusals = (b"a" * 70001, 3, 1), (b"ab", 3, 8), (b"ab", 0, 8), (b"ab", 1, 9), (b"ab", 2, 9)
    for word, choice, number in refusals:
        expect(best_squares(word, choice, *kept) == (refused(number), *kept), "refusal", number)
    expect(judge_squares(b"a" * 70001, [0]) == refused(1), "refusal 1 of judge squares")
    expect(not is_primitive(b"abab") and is_primitive(b"aba") and is_primitive(b"a"), "primitive")


def compare_runs(word):
    """The call with just the places that the runs need, with one more and with one fewer, and with those
    that always suffice; and the roots with the rotations of the units, as Python orders them."""
    found = runs_of(word)
    expect(runs_by_unit(word) == found, "runs by unit of", word)
    expect(len(found) < len(word) or word == b"", "count of the runs of", word)
    numbers = [number for run in found for number in run]
    needed = 4 * len(found)
    for places in needed, needed + 1, 4 * len(word):
        table = [7] * places
        given = accepted(len(found)), numbers + table[needed:]
        expect(runs(word, table) == given, "runs of", word, places)
    if found:
        few = [7] * (needed - 1)
        expect(runs(word, few) == (refused(7), few), "few places for the runs of", word)
    for first, _, p, q in found:
        passes = word[first - 1 : first - 1 + p]
        rotations = [passes[i:] + passes[:i] for i in range(p)]
        expect(is_primitive(passes), "unit of", word, first, p)
        expect(q == first + rotations.index(min(rotations)), "root of", word, first, p)


def compare_item_9():
    """One pass of code 1 and 256 of code 0, all wound twice, is no block, and with 255 of code 0 it is
    one; either is a square."""
    for p, held in (256, True), (257, False):
        word = (b"\x01" + bytes(p - 1)) * 2
        n = len(word)
        outcome, units = part(word, 1, 1, n, [7] * n)
        expect(outcome == accepted(p, 2, 0, int(held)) and units[-1] == p, "part of unit", p)
        outcome = accepted(1) if held else refused(4, 1)
        expect(judge_split(word, 1, [n]) == outcome, "judged block of unit", p)
        expect(judge_squares(word, [n]) == accepted(1), "judged square of unit", p)
        expect((1, n, p, 2) in runs_by_unit(word), "run of unit", p)
    # the longer one has no split
    outcome, ends, _ = best_split(word, 1, FEWEST, [7], [7] * 4 * (n + 1))
    expect((outcome, ends) == (refused(2), [7]), "fewest blocks of unit", p)


def compare_item_10():
    """A page of codes: four digits each, and four passes of a unit of five; and codes that differ by 256
    are not equal."""
    page = (
        b"     1     1     2     1     2     0     10100              \n"
        b"     2     3    12     5     2     0     2000aabcd000000ff  \n"
    )
    word = (256, 256) + (10, 43981, 0, 255, 65535) * 2
    given = write_page(word, 1, [2, 12], [7] * 123)
    expect(given == (accepted(122), list(page) + [7]), "page of codes")
    expect(judge_squares((1, 257), [2]) == refused(4, 1), "square of 1 and 257")
    expect(judge_squares((1, 257, 1, 257), [4]) == accepted(1), "square of 1 and 257 twice")


def remember(passes):
    """Sets what unit memory holds, and forgets what was worked out with another."""
    global UNIT_MEMORY
    UNIT_MEMORY = passes
    for known in blocks_up_to, best_table, splits_of:
        known.cache_clear()


def compare_with_less_memory(words):
    """No short word has a unit above what memory holds, so it is made smaller for a while."""
    held = UNIT_MEMORY
    for passes in 1, 2:
        remember(passes)
        for edition in TURNS:
            for word in words:
                compare_with_enumeration(word, edition)
    remember(held)


def compare_with_examples(edition):
    for word, *both in EXAMPLES[edition]:
        for choice, ends in zip((FEWEST, MOST), both):
            outcome, table, _ = best_split(word, edition, choice, [7] * 9, [7] * 100)
            expected = refused(2) if ends is None else accepted(len(ends))
            expect(outcome == expected, "outcome of", word, edition, choice)
            expect(table == written(ends or [], [7] * 9), "ends of", word, edition, choice)


def compare_with_document():
    for ends, outcome in JUDGED:
        expect(judge_split(b"aabaabaa", 1, ends) == outcome, "judged", ends)
    ababa = accepted(2, 2, 1, 1), [1, 2, 2, 2, 2, 7]
    expect(part(b"ababa", 1, 1, 5, [7] * 6) == ababa, "part of ababa")
    page = (
        b"     1     1     2     1     2     0     161                \n"
        b"     2     3     8     3     2     0     2626161            \n"
    )
    given = write_page(b"aabaabaa", 1, [2, 8], [7] * 123)
    expect(given == (accepted(122), list(page) + [7]), "page of aabaabaa")
    expect(write_page(b"aabaabaa", 1, [2, 8], [7] * 121) == (refused(7), [7] * 121), "a short page")
    for ends, outcome in JUDGED:
        expect(write_page(b"aabaabaa", 1, ends, []) == (outcome, []), "page of", ends)
    for a, b, edition, outcome, block in PAIRS:
        expect(which_first(a, b, edition, [7] * 89)[0] == outcome, "first of", a, b, edition)
        expect(first_block(a, b, edition, [7] * 89)[0] == block, "first block of", a, b, edition)
    # 1, 12, 9 and 2 in this order, 1 and 9 for the longer wherever it stands; the table is kept
    kept = [7] * 11
    for longer, edition, number in (b"a" * 70001, 3, 1), (b"ab", 3, 12), (b"ab", 1, 9):
        for a, b in (longer, b"a"), (b"a", longer):
            expect(which_first(a, b, edition, kept) == (refused(number), kept), "refusal", number)
            expect(first_block(a, b, edition, kept) == (b"", kept), "the part after", number)
    for word, found in RUNS_OF:
        expect(runs_of(word) == found, "runs of", word)
        compare_runs(word)
    expect(runs(b"a" * 70001, [7]) == (refused(1), [7]), "refusal 1 of runs")


def main():
    compare_with_document()
    compare_squares_with_examples()
    compare_item_9()
    compare_item_10()
    words = [bytes(letters) for n in range(9) for letters in product(b"ab", repeat=n)]
    # few of these have a split in edition 2
    longer = [word for word, *_ in EXAMPLES[2] if 8 < len(word)]
    for edition in TURNS:
        compare_with_examples(edition)
        for word in words + longer:
            compare_with_enumeration(word, edition)
    compare_with_less_memory(words)
    # codes on both sides of 127 too
    coded = words + [bytes(codes) for codes in product(b"\x01\x7f\x80", repeat=7)]
    for word in coded:
        compare_runs(word)
    # few of the short words have a split into squares; that of 18 passes would take too long
    squared = words + [word for word, *_ in SQUARES_OF if len(word) < 13]
    ends = [word for word in words[:31] if len(word) % 2 == 0]
    squared += [half + half + end for half in words[1:15] for end in ends]
    for word in squared:
        compare_squares_with_enumeration(word)
    # the examples stand beside the short words, few of which have a split in edition 2
    few = {word for word in words if len(word) < 5}
    few |= {word for edition in TURNS for word, *_ in EXAMPLES[edition] if len(word) < 13}
    for edition in TURNS:
        for a, b in product(few, repeat=2):
            compare_two_with_enumeration(a, b, edition)
    print(
        f"definitions: {len(words + longer)} words compared with the enumeration of their splits and"
        f" paths, {len(words)} of them also with less unit memory, and {len(few) ** 2} pairs with that of their splits, in both editions;"
        f" {len(set(squared))} words with that of their splits into squares;"
        f" the roots of {len(coded)} words with the rotations of their units"
    )


if __name__ == "__main__":
    main()
