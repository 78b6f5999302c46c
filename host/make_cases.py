#!/usr/bin/env python3
"""Writes the list of small walks that test programs print: to cases.txt beside this script, or to the
file named as its argument.

A line is NAME HEX COLUMN ROW MOVES: the frame's bytes in hexadecimal, the start pixel, the moves as
digits ("-" for none). The list is the same on every run; `expected` prints what each walk answers.
"""
import os
import struct
import sys

MARK = b"\x49\x43\x45\x31"
TABLE, GUIDED = 1, 2
NO_READING = 65535


class Random:
    """A small generator of our own, so that the list does not depend on Python's version."""

    def __init__(self, seed):
        self.state = seed

    def below(self, bound):
        self.state = (self.state * 6364136223846793005 + 1442695040888963407) % 2**64
        return (self.state >> 33) % bound

    def numbers(self, length, bound):
        return [self.below(bound) for _ in range(length)]


def numbers16(numbers):
    return b"".join(struct.pack(">H", number) for number in numbers)


def frame(width, height, levels, guides, kind, radius, smoothing, values, guide, table=(), gap=b""):
    """The bytes of a frame; `gap` stands between its parts, where document 01 ignores it."""
    parts = [numbers16(values), numbers16(guide), numbers16(table)]
    body, starts = b"", []
    for part in parts:
        starts.append(len(body))
        body += part + gap
    distances = [len(body) - start for start in starts]
    if not table:
        distances[2] = 0
    trailer = struct.pack(">4H2BH3I", width, height, levels, guides, kind, radius, smoothing, *distances)
    return body + trailer + MARK


def row(values, guide, levels, guides, kind, radius, smoothing, table=()):
    return frame(len(values), 1, levels, guides, kind, radius, smoothing, values, guide, table)


def bench_cases():
    """Document 01's bench windows A to H, walks over them from the other end, and five windows more."""
    a = row([5, 1, 3], [0, 0, 2], 8, 4, GUIDED, 1, 1)
    b = row([1, 2, 5, 3, 4], [7, 7, 15, 7, 0], 8, 16, GUIDED, 2, 1)
    c = row([2, 6], [0, 0], 8, 2, TABLE, 1, 0, [1] * 4)
    d = row([2, 6], [0, 0], 8, 2, TABLE, 1, 0, [0] * 4)
    e = row([5, 1, 3], [0, 0, 2], 8, 4, GUIDED, 0, 1)
    f = row([7, 4, 2, 0], [0, 1, 16, 255], 8, 256, TABLE, 3, 0)
    g = row([2], [0], 8, 2, TABLE, 1, 0, [1] * 4)
    # Hollow in the middle only: under a row of 0, and a lamp alone in its guide class.
    hollow = row([7, 2, 4], [0, 1, 0], 8, 2, TABLE, 1, 0, [1, 1, 0, 0])
    lamp = row([2, 7, 4], [0, 1, 0], 8, 2, TABLE, 1, 0, [1, 0, 0, 0])
    rows = row([2, 6], [0, 1], 8, 2, TABLE, 1, 0, [1, 2, 0, 1])
    heavy = row([1, 5, 3], [0, 1, 0], 8, 2, TABLE, 1, 0, [65535, 257, 1, 65535])
    # One window's formula is negative at guide 0, another's at the last guide.
    both_ends = frame(3, 2, 8, 16, GUIDED, 1, 1, [6, 1, 3, 7, 1, 4], [7, 15, 3, 7, 0, 3])
    return [
        ("bench_a", a, 0, 0, "00"),
        ("bench_a_back", a, 2, 0, "11"),
        ("bench_b", b, 0, 0, "0000"),
        ("bench_b_back", b, 4, 0, "1111"),
        ("bench_b_pixel_2", b, 2, 0, "-"),
        ("bench_c", c, 0, 0, "0"),
        ("bench_d", d, 0, 0, "0"),
        ("bench_d_back", d, 1, 0, "1"),
        ("hollow_row", hollow, 0, 0, "00"),
        ("hollow_row_back", hollow, 2, 0, "11"),
        ("hollow_row_end", hollow, 0, 0, "0"),
        ("lamp", lamp, 0, 0, "00"),
        ("lamp_back", lamp, 2, 0, "11"),
        ("lamp_start", lamp, 1, 0, "01"),
        ("lamp_only", lamp, 1, 0, "-"),
        ("bench_e", e, 0, 0, "00"),
        ("bench_f", f, 0, 0, "000"),
        ("bench_g", g, 0, 0, "0123"),
        ("bench_h", a, 0, 0, "0201"),
        ("table_rows", rows, 0, 0, "01"),
        ("heavy", heavy, 0, 0, "00"),
        ("heavy_back", heavy, 2, 0, "11"),
        ("both_ends", both_ends, 0, 0, "00211"),
    ]


def shaped_cases():
    """Windows that random frames seldom show."""
    around = "2220001111333022"
    lonely = frame(4, 4, 16, 8, GUIDED, 1, 1, [15, 3, 9, 0, 8, 8, 1, 14, 2, 12, 7, 5, 6, 10, 11, 4],
                   [0, 0, 0, 0, 0, 7, 0, 0, 0, 0, 0, 7, 7, 0, 0, 0])
    # Under a centre of guide 1 nothing weighs: its windows are hollow, and each pixel counts 1.
    islands = frame(4, 3, 16, 3, TABLE, 1, 0, [9, 2, 15, 4, 1, 7, 12, 3, 8, 0, 5, 14],
                    [0, 1, 2, 0, 1, 1, 0, 2, 2, 0, 1, 0], [256, 1, 9, 0, 0, 0, 3, 128, 0])
    wide = [11, 4, 7, 0, 15, 2]
    guided_wide = frame(3, 2, 16, 8, GUIDED, 15, 64, wide, [1, 7, 3, 0, 2, 5])
    table_wide = frame(3, 2, 16, 8, TABLE, 15, 0, wide, [1, 7, 3, 0, 2, 5])
    # One plane serves as values and guides.
    overlapped = numbers16([3, 0, 5, 1, 4, 2]) + struct.pack(
        ">4H2BH3I", 3, 2, 8, 6, GUIDED, 1, 9, 12, 12, 0) + MARK
    gapped = frame(3, 2, 8, 3, TABLE, 1, 0, [3, 0, 5, 1, 4, 2], [2, 1, 0, 0, 1, 2],
                   [5, 0, 200, 1, 1, 1, 0, 256, 7], gap=b"\xff\x00\xff")
    # At the first two pixels half is reached exactly, at the third it is missed by 1 at its own level.
    by_one = row([1, 5, 3], [0, 1, 2], 8, 3, TABLE, 1, 0, [65535, 65535, 0, 32767, 32768, 1, 0, 65535, 65534])
    heaviest = frame(4, 3, 16, 2, TABLE, 15, 0, [9, 2, 15, 4, 1, 7, 12, 3, 8, 0, 5, 14], [0, 1] * 6, [65535] * 4)
    # Both sides of 32,768, and a row of 0.
    middle = frame(3, 3, 16, 4, TABLE, 1, 0, [4, 13, 2, 9, 0, 15, 7, 7, 11], [0, 1, 2, 3, 0, 1, 2, 3, 0],
                   [32767, 32768, 65535, 1, 32768, 32767, 1, 65535, 65535, 0, 32768, 32767, 0, 0, 0, 0])
    # At the first pixel the formula is 0 or -2 at guide 0, or at the last guide.
    at_ends = {"zero_at_0": [3, 1], "below_at_0": [4, 1], "zero_at_last": [1, 3], "below_at_last": [0, 3]}
    ends = [(name, row([3, 1], guide, 8, 5, GUIDED, 1, 1), 0, 0, "0") for name, guide in at_ends.items()]
    # B's guides: at the middle pixel the levels below its answer weigh less than 0, or those up to it more than all.
    negative_below = row([4, 5, 4, 5, 3], [7, 7, 15, 7, 0], 8, 16, GUIDED, 2, 1)
    more_than_all = row([4, 4, 4, 4, 5], [7, 7, 15, 7, 0], 8, 16, GUIDED, 2, 1)
    return ends + [
        ("negative_below", negative_below, 0, 0, "0000"),
        ("more_than_all", more_than_all, 0, 0, "0000"),
        ("not_steady_around", lonely, 0, 0, around),
        ("not_steady_up", lonely, 3, 3, "3331222"),
        ("hollow_around", islands, 1, 1, "0211330002"),
        ("hollow_start", islands, 0, 1, "3022"),
        ("wide_guided", guided_wide, 1, 1, "0311220"),
        ("wide_table", table_wide, 1, 1, "0311220"),
        ("unknown_bytes", lonely, 1, 1, "4052617383909"),
        ("unknown_bytes_table", islands, 3, 2, "9381716253"),
        ("overlapped", overlapped, 0, 0, "00211"),
        ("gapped", gapped, 0, 0, "00211"),
        ("by_one", by_one, 0, 0, "00"),
        ("by_one_back", by_one, 2, 0, "11"),
        ("heaviest", heaviest, 0, 0, "0002111"),
        ("middle_weights", middle, 0, 0, "002112003"),
        ("middle_weights_up", middle, 2, 2, "311300"),
        ("tall", frame(1, 6, 16, 8, GUIDED, 2, 3, [9, 1, 15, 4, 4, 0], [0, 7, 1, 6, 2, 5]), 0, 0, "2222230333"),
    ]


def block_cases():
    """Levels in several blocks of 16, the last one short; the coarse way sums each block's weights."""
    def table_row(values, guide, radius, table, levels=40):
        return row(values, guide, levels, 2, TABLE, radius, 0, table)

    centre_row = table_row([2, 39, 17, 20], [0, 1, 0, 1], 1, [1, 2, 0, 1])
    blocks = table_row([33, 2, 39, 17], [0, 1, 1, 0], 1, [1, 2, 0, 3])
    # B with its levels apart: the pixel of negative weight has a block of its own.
    apart = row([17, 34, 37, 35, 3], [7, 7, 15, 7, 0], 40, 16, GUIDED, 2, 1)
    # One hollow window between two others, and two, whose levels are in every block.
    between = table_row([20, 35, 31], [0, 1, 0], 0, [1, 0, 0, 0])
    pair = table_row([20, 35, 3, 31], [0, 1, 1, 0], 1, [1, 0, 0, 0])
    # First and last levels of blocks, and empty blocks between them.
    ends = [15, 16, 31, 32, 0, 96, 79, 80]
    return [
        ("block_rows", centre_row, 0, 0, "000"),
        ("blocks", blocks, 0, 0, "000"),
        ("blocks_back", blocks, 3, 0, "1912"),
        ("blocks_apart", apart, 0, 0, "0000"),
        ("blocks_apart_end", apart, 0, 0, "00"),
        ("block_hollow", between, 0, 0, "00"),
        ("block_hollow_end", between, 0, 0, "0"),
        ("block_hollow_pair", pair, 0, 0, "000"),
        ("block_hollow_pair_end", pair, 3, 0, "1"),
        ("block_ends_table", table_row(ends, [0, 1, 1, 0, 0, 1, 0, 1], 1, [3, 1, 2, 5], 97), 0, 0, "0000000"),
        ("block_ends_table_back", table_row(ends, [0, 1, 1, 0, 0, 1, 0, 1], 0, [3, 1, 2, 5], 97), 7, 0, "1111111"),
        ("block_ends_guided", row(ends, [0, 7, 3, 3, 0, 3, 3, 7], 97, 8, GUIDED, 1, 1), 0, 0, "0000000"),
        ("block_ends_guided_back", row(ends, [0, 7, 3, 3, 0, 3, 3, 7], 97, 8, GUIDED, 2, 1), 7, 0, "1111111"),
    ]


def dead_cases():
    """Dead pixels: among readings, at the centre, in windows without a reading, and of every pixel."""
    dead = NO_READING
    b = row([1, dead, 5, 3, dead], [7, 7, 15, 7, 0], 8, 16, GUIDED, 2, 1)
    mostly = row([dead, dead, dead, 5], [0] * 4, 8, 2, TABLE, 1, 0, [1] * 4)
    all_dead = row([dead] * 3, [0, 0, 2], 8, 4, GUIDED, 1, 1)
    all_dead_table = frame(2, 2, 8, 2, TABLE, 1, 0, [dead] * 4, [0, 1, 1, 0], [1, 2, 3, 4])
    # The dead middle pixel's guide chooses the row; by the other row the lower level would reach half.
    centre = row([2, dead, 6], [0, 1, 1], 8, 2, TABLE, 1, 0, [3, 1, 1, 3])
    # What the dead pixel would weigh is all that weighs: its window is hollow.
    hollow = row([6, dead, 4], [1, 0, 1], 8, 2, TABLE, 1, 0, [1, 0, 1, 1])
    # A gap wider than a window between two blocks of levels: the cut stays where it was.
    gap = row([3, 39] + [dead] * 4 + [20, 33], [0, 7, 3, 3, 0, 3, 3, 7], 40, 8, GUIDED, 1, 1)
    gap_table = row([3, 39] + [dead] * 4 + [20, 33], [0, 1] * 4, 40, 2, TABLE, 1, 0, [2, 1, 1, 2])
    # Columns beside the window have dead pixels too.
    field = frame(4, 3, 16, 8, GUIDED, 1, 1, [dead, 2, 15, dead, 1, dead, dead, 3, 8, 0, dead, 14],
                  [0, 1, 7, 0, 6, 0, 2, 0, 3, 5, 0, 7])
    return [
        ("dead_b", b, 0, 0, "0000"),
        ("dead_b_back", b, 4, 0, "1111"),
        ("dead_b_pixel_4", b, 4, 0, "-"),
        ("dead_mostly", mostly, 0, 0, "000"),
        ("dead_mostly_back", mostly, 3, 0, "1111"),
        ("dead_all", all_dead, 0, 0, "0024"),
        ("dead_all_table", all_dead_table, 1, 1, "1302"),
        ("dead_centre", centre, 0, 0, "00"),
        ("dead_centre_only", centre, 1, 0, "-"),
        ("dead_hollow", hollow, 0, 0, "00"),
        ("dead_gap", gap, 0, 0, "0000000"),
        ("dead_gap_back", gap, 7, 0, "1111111"),
        ("dead_gap_inside", gap, 3, 0, "-"),
        ("dead_gap_table", gap_table, 0, 0, "0000000"),
        ("dead_gap_table_inside", gap_table, 6, 0, "11"),
        ("dead_field", field, 0, 0, "000211120003"),
        ("dead_field_corner", field, 3, 2, "1113"),
    ]


def every_start_cases():
    """One 3 by 3 frame from each of its pixels, turning once through all four directions."""
    nine = frame(3, 3, 16, 8, GUIDED, 1, 2, [4, 13, 2, 9, 0, 15, 7, 7, 11], [1, 0, 7, 0, 6, 0, 2, 0, 3])
    return [(f"start_{s}_{t}", nine, s, t, "02130312") for t in range(3) for s in range(3)]


# What the weights of random cases are below: small ones, any, and those of 15 bits.
WEIGHTS_BELOW = {1: 257, 5: 65536, 9: 32768}


def random_case(number, dead_of_ten=0):
    """A random frame of at most 6 by 6 with a random walk; odd numbers are kind 1. So many pixels of ten are dead."""
    random = Random(1000 + number)
    width, height = 1 + random.below(6), 1 + random.below(6)
    levels, guides = 2 + random.below(15), 2 + random.below(7)
    kind = TABLE if number % 2 else GUIDED
    radius = random.below(4)
    smoothing = 0 if kind == TABLE else 1 + random.below(20)
    values = random.numbers(width * height, levels)
    guide = random.numbers(width * height, guides)
    table = random.numbers(guides * guides, WEIGHTS_BELOW[number]) if number in WEIGHTS_BELOW else []
    bound = 5 if number % 3 == 0 else 4
    moves = "".join(str(digit) for digit in random.numbers(12 + random.below(9), bound))
    if dead_of_ten:
        values = [NO_READING if random.below(10) < dead_of_ten else value for value in values]
    data = frame(width, height, levels, guides, kind, radius, smoothing, values, guide, table)
    return (f"random_{number}", data, random.below(width), random.below(height), moves)


def main():
    cases = bench_cases() + shaped_cases() + block_cases() + dead_cases() + every_start_cases()
    cases += [random_case(number) for number in range(1, 13)]
    cases += [random_case(number, dead_of_ten) for number, dead_of_ten in zip(range(13, 21), [1, 1, 3, 3, 5, 5, 9, 9])]
    beside = os.path.join(os.path.dirname(os.path.abspath(__file__)), "cases.txt")
    path = sys.argv[1] if len(sys.argv) > 1 else beside
    with open(path, "w", encoding="ascii") as out:
        out.write("# Written by make_cases.py: NAME HEX COLUMN ROW MOVES\n")
        for name, data, column, line, moves in cases:
            out.write(f"{name} {data.hex()} {column} {line} {moves}\n")


if __name__ == "__main__":
    main()
