#!/usr/bin/env python3
"""The expected output of the program vectors_plan: plans written and read, and every refusal of both
calls, with the lent table before and after. To make it again:

    tests/vectors/plan.py > crates/vectors_plan/stdout
"""
from definitions import is_refused, read_plan, write_plan

# What the tables hold before a call. Their first places are lent, and the whole is shown.
BYTES = list(b"." * 40)
PLACES = [777] * 4

WRITTEN = [  # n, ends, bytes lent
    # accepted
    (0, [], 15),
    (8, [8], 40),
    (8, [2, 8], 25),
    (8, [2, 8], 26),
    (4096, [2048, 4096], 25),
    (5, [1, 2, 3, 4, 5], 40),
    # refused
    (4097, [4097], 40),
    (4294967295, [], 40),
    (4097, [3, 2], 0),
    (8, [0, 8], 40),
    (0, [0], 40),
    (8, [2, 2, 8], 40),
    (8, [5, 4, 9], 40),
    (8, [2, 9], 40),
    (8, [4294967295], 40),
    (8, [2, 2, 8], 0),
    (8, [], 40),
    (8, [2, 7], 40),
    (8, [2, 7], 0),
    (0, [], 14),
    (0, [], 0),
    (8, [2, 8], 24),
    (5, [1, 2, 3, 4, 5], 39),
    # above 4,096: long lines
    (4097, [4097], 26),
    (4097, [4097], 25),
    (65536, [2, 65536], 33),
    (70000, [2, 70000], 40),
    (70000, [2, 70000], 32),
    (70000, [70001], 40),
    (70000, [2], 40),
    (70001, [70001], 40),
    (70001, [3, 2], 0),
]

LINE = b"plan,0008,0002,0002,0008\n"

READ = [  # bytes, places lent
    # accepted
    (b"plan,0000,0000\n", 0),
    (b"plan,0008,0001,0008\n", 4),
    (LINE, 2),
    (LINE, 3),
    (b"plan,4096,0002,2048,4096\n", 4),
    (b"plan,0004,0004,0001,0002,0003,0004\n", 4),
    # not one plan line
    (b"", 4),
    (b"\n", 4),
    (b"plan,0008,0002,0002,0008\n\n", 4),
    (b"plan,0008,0002,0002,00080\n", 4),
    (b"plan,0000,0000\nplan,0000,0000\n", 4),
    (b"plan;0008,0002,0002,0008\n", 4),
    (b"plan,0008;0002,0002,0008\n", 4),
    (b"plan,0008,0002;0002,0008\n", 4),
    (b"plan,0008,0002,0002;0008\n", 4),
    (b"plan,0008,0002,0002,0008 ", 4),
    (b"plan,0008,0001,0002,0008\n", 4),
    (b"plan,0008,0003,0002,0008\n", 4),
    (b"plan,0008,9999,0002,0008\n", 4),
    (b"plan,008,0000\n", 4),
    (b"plan,00008,0000\n", 4),
    (b"plan,000:,0000\n", 4),
    (b"plan,000/,0000\n", 4),
    (b"plan,-008,0000\n", 4),
    (b"Plan,0008,0000\n", 4),
    (b" plan,0008,0000", 4),
    # a line, refused as for writing
    (b"plan,4097,0001,4097\n", 4),
    (b"plan,5000,0000\n", 4),
    (b"plan,9999,0002,0003,0002\n", 0),
    (b"plan,0008,0002,0000,0008\n", 4),
    (b"plan,0008,0002,0002,0002\n", 4),
    (b"plan,0008,0003,0005,0004,0009\n", 4),
    (b"plan,0008,0002,0002,0009\n", 4),
    (b"plan,0008,0001,9999\n", 0),
    (b"plan,0008,0000\n", 4),
    (b"plan,0008,0002,0002,0007\n", 4),
    (b"plan,0008,0002,0002,0007\n", 0),
    (LINE, 1),
    (b"plan,0008,0001,0008\n", 0),
    # long lines
    (b"long,004097,000001,004097\n", 1),
    (b"long,065536,000002,000002,065536\n", 2),
    (b"long,070000,000002,000002,070000\n", 4),
    # needless
    (b"long,004096,000001,004096\n", 4),
    (b"long,004096,000001,009999\n", 0),
    (b"long,000000,000000\n", 4),
    # not one long line
    (b"long,04097,00001,04097\n", 4),
    (b"long,4097,0001,4097\n", 4),
    (b"plan,004097,000001,004097\n", 4),
    (b"lonG,004097,000001,004097\n", 4),
    (b"long,00409x,000001,004097\n", 4),
    (b"long,004097,00000:,004097\n", 4),
    (b"long,004097;000001,004097\n", 4),
    (b"long,004097,000001;004097\n", 4),
    (b"long,004097,000002,004097\n", 4),
    (b"long,004097,000001,004097", 4),
    (b"long,004097,000001,004097\n\n", 4),
    # a line, refused as for writing
    (b"long,070001,000001,070001\n", 4),
    (b"long,999999,000002,000003,000002\n", 0),
    (b"plan,9999,0001,9999\n", 4),
    (b"long,004097,000002,000002,000002\n", 4),
    (b"long,070000,000001,070001\n", 4),
    (b"long,004097,000000\n", 4),
    (b"long,070000,000001,000002\n", 0),
    (b"long,070000,000002,000002,070000\n", 1),
]

# a line cut at every length below its own, and with each of its bytes in turn made an x
READ += [(LINE[:length], 4) for length in range(len(LINE))]
READ += [(LINE[:i] + b"x" + LINE[i + 1 :], 4) for i in range(len(LINE))]


def text(line):
    """Bytes as text, byte 10 as a backslash and an n."""
    return bytes(line).decode().replace("\n", "\\n")


def spaced(numbers):
    return "".join(f" {number}" for number in numbers)


def show(before, after, outcome, values):
    print("  before" + before)
    print("  after " + after)
    if is_refused(outcome):
        print("  refused {},{}".format(*outcome[1:]))
    else:
        print(" ", values, ",".join(map(str, outcome[1:])))


def show_written(n, ends, places):
    print(f"write {n} ends{spaced(ends)} into {places}")
    outcome, lent = write_plan(n, ends, BYTES[:places])
    show(" " + text(BYTES), " " + text(lent + BYTES[places:]), outcome, "bytes")


def show_read(line, places):
    print(f"read {text(line)} into {places}")
    outcome, lent = read_plan(line, PLACES[:places])
    show(spaced(PLACES), spaced(lent + PLACES[places:]), outcome, "plan")


def main():
    for case in WRITTEN:
        show_written(*case)
    for case in READ:
        show_read(*case)


if __name__ == "__main__":
    main()
