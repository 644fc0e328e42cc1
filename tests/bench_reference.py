"""What the bench program prints for a line, from the definitions of document 01 and of document 02's
items 7 and 9.

Passes are counted from 0 here and a part ends before its end, as Python has it; what is printed
counts from 1."""

from functools import lru_cache

LIMIT = 1024
UNIT_MEMORY = 256  # the passes of the longest unit that a block has


def unit(part):
    """The smallest p at which no pair of passes p apart differs."""
    return next(p for p in range(1, len(part) + 1) if part[p:] == part[:-p])


def root(word, first, p):
    """Of the first p passes of a run, the one where the p passes starting there come first in order of
    pass code, which is how Python orders bytes."""
    return min(range(first, first + p), key=lambda q: word[q : q + p])


def blocks_and_runs(word):
    """Where the blocks from each pass end, as marks, and the runs by first and then by unit."""
    n = len(word)
    # reach[p][i]: the end of the longest part from i that has the period p
    reach = {}
    for p in range(1, n // 2 + 1):
        ends = [n] * n
        for i in range(n - p - 1, -1, -1):
            ends[i] = ends[i + 1] if word[i] == word[i + p] else i + p
        reach[p] = ends
    ends_from = [bytearray(n + 1) for _ in range(n)]
    runs = []
    for i in range(n):
        for p in range(1, (n - i) // 2 + 1):
            end = reach[p][i]
            if end < i + 2 * p:
                continue
            # with the period p, the unit is p or less, and the part is a block if memory holds it
            if p <= UNIT_MEMORY:
                ends_from[i][i + 2 * p : end + 1] = b"\1" * (end + 1 - i - 2 * p)
            # it cannot be lengthened to the right, since it is the longest
            if (i == 0 or word[i - 1] != word[i + p - 1]) and unit(word[i:end]) == p:
                runs.append((i, end, p))
    return ends_from, runs


def best_split(n, ends_from, better):
    """The blocks of the best split, each as start and end; None where there is none. Of the splits
    of the best size, the one whose last block is longest, then the one before it, and so on."""
    size = [0] + [None] * n
    start = [None] * (n + 1)
    for end in range(1, n + 1):
        # starts from the left: only a better size replaces a longer last block
        for i in range(end):
            if ends_from[i][end] and size[i] is not None:
                if size[end] is None or better(size[i] + 1, size[end]):
                    size[end], start[end] = size[i] + 1, i
    if size[n] is None:
        return None
    blocks = []
    while n > 0:
        blocks.insert(0, (start[n], n))
        n = start[n]
    return blocks


def report(given):
    """What is printed for the bytes of standard input: up to byte 10 they are the passes."""
    return report_of(given.split(b"\n")[0])


@lru_cache(maxsize=None)
def report_of(word):
    n = len(word)
    if n > LIMIT:
        return b"refused,1\n"
    ends_from, runs = blocks_and_runs(word)
    lines = [("passes", n)]
    for k, (i, end, p) in enumerate(runs, 1):
        lines.append(("run", k, i + 1, end, p, root(word, i, p) + 1))
    for name, better in (("fewest", int.__lt__), ("most", int.__gt__)):
        blocks = best_split(n, ends_from, better)
        if blocks is None:
            lines.append((name, "none"))
            continue
        lines.append((name, len(blocks)))
        for k, (i, end) in enumerate(blocks, 1):
            p = unit(word[i:end])
            run = next(r for r, (a, b, q) in enumerate(runs, 1) if a <= i and end <= b and q == p)
            lines.append(("block", k, i + 1, end, p, (end - i) // p, (end - i) % p, run))
    return "".join(",".join(map(str, line)) + "\n" for line in lines).encode()
