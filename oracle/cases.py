#!/usr/bin/env python3
"""Document 01's bench cases B1 to B11, T-02's B12 and T-09's B13, put to the oracle.

    python3 oracle/cases.py

The numbers on the right-hand side are copied from document 01; those of B12 and
B13, which no document gives, were worked out by hand from T-02 and T-09. B10 lies too far up
for a short run, so its table is set up by hand; the others are runs.
"""

import sys
from fractions import Fraction
from pathlib import Path

import oracle

HERE = Path(__file__).resolve().parent
EXAMPLE_FILE = HERE.parent / "examples" / "document-01.run"
EXAMPLE_PRINTED = """\
line answer who slice sum total
1 0 - - 0 0
2 0 - - 0 2
3 0 1 1 0 2
4 0 - - 720720 2
5 0 - - 1441440 4
6 0 0 1 1441440 4
7 0 - - 2162160 4
8 0 - - 1441440 2
9 0 0 1 1441440 2
"""
EXAMPLE = ["S 1", "J 1 2 2", "G", "U 1 1 0", "J 0 2 1", "G", "U 0 1 0", "L 1", "G"]
TO_LINE_7 = EXAMPLE[:7]
B4 = ["S 1", "J 0 2 1", "J 1 15 1", "G"]
B5 = B4 + ["U 1 1 0", "J 2 1 1"]
B12 = ["S 1", "J 3 2 2", "G", "U 3 1 0", "L 3", "G", "J 4 4 1", "G", "U 4 1 0", "W 4 3 2", "G", "U 4 1 0"]


def play(lines):
    """The table after the lines, and the last answer."""
    table, answer = oracle.first_table(), 0
    for line in lines:
        table, answer = oracle.answer_line(table, line.encode())
    return table, answer


def answer(lines):
    return play(lines)[1]


def holder(lines):
    return play(lines)[0].holder


def virtual(lines):
    return play(lines)[0].virtual


def account(lines, number):
    return play(lines)[0].present[number].account


def sums(lines):
    table, _ = play(lines)
    return oracle.weighted_sum(table), table.total


def lag_report(lines):
    """weight x (A - W x position), which is account x W x 720,720."""
    table, _ = play(lines)
    return [table.present[number].account * table.total * oracle.UNIT
            for number in sorted(table.present)]


def answer_of_grant_at(position):
    """B10: a lone queue of weight 16, length 1, nothing served."""
    table = oracle.first_table()
    oracle.join(table, 0, 16, 1)
    table.virtual = Fraction(position)
    oracle.open_request(table.present[0], Fraction(position))
    return oracle.grant(table)


def example_printed():
    lines = oracle.split_lines(EXAMPLE_FILE.read_bytes())
    return "".join(text + "\n" for text in oracle.answers(lines))


def state(lines):
    """Everything but the slice that is out."""
    table, _ = play(lines)
    rows = {number: (queue.weight, queue.account, queue.opening, queue.left)
            for number, queue in table.present.items()}
    return table.virtual, table.total, rows


def cases():
    half = Fraction(1, 2)
    yield "B1 the run", example_printed(), EXAMPLE_PRINTED
    yield "B1 its lines", EXAMPLE_FILE.read_text().splitlines(), EXAMPLE
    yield "B2 V after line 7", virtual(TO_LINE_7), 540_540
    yield "B2 lag of queue 1", account(TO_LINE_7, 1), half
    yield "B2 V after it leaves", virtual(TO_LINE_7 + ["L 1"]), 720_720
    other = TO_LINE_7 + ["L 0"]
    yield "B3 lag of queue 0", account(TO_LINE_7, 0), -half
    yield "B3 queue 0 is going", play(other)[0].present[0].going, True
    yield "B3 W stays", sums(other)[1], 4
    yield "B3 grant", holder(other + ["G"]), 1
    yield "B3 W after the return", sums(other + ["G", "U 1 1 0"])[1], 2
    yield "B4 first grant", holder(B4), 1
    yield "B4 A and W", sums(B4 + ["U 1 1 0"]), (720_720, 17)
    yield "B5 queue 2 opens at", play(B5)[0].present[2].opening, 42_396
    yield "B5 A and W", sums(B5), (763_116, 18)
    yield "B5 lag report", lag_report(B5), [1_526_232, -1_526_220, -12]
    yield "B6 grant", holder(B5 + ["G"]), 0
    yield "B7 weight 16", answer(["J 0 16 1"]), 0
    yield "B7 weight 17", answer(["J 0 17 1"]), 3
    yield "B7 number 64, weight 0", answer(["J 64 0 1"]), 2
    yield "B8 length 10,000", answer(["J 0 1 10000"]), 0
    yield "B8 length 10,001", answer(["J 0 1 10001"]), 4
    granted = ["S 1", "J 0 1 5", "G"]
    yield "B9 used 1", answer(granted + ["U 0 1 0"]), 0
    yield "B9 used 2", answer(granted + ["U 0 2 0"]), 10
    yield "B10 at P - 45,045", answer_of_grant_at(oracle.CEILING - 45_045), 0
    yield "B10 at P - 45,044", answer_of_grant_at(oracle.CEILING - 45_044), 12
    taken_in = granted + ["U 0 0 0"]
    yield "B11 answer", answer(taken_in), 0
    yield "B11 no slice out", holder(taken_in), None
    yield "B11 nothing else changes", state(taken_in), state(granted)
    opened = ["S 100", "J 3 2 0", "R 3 5", "G"]
    used = opened + ["U 3 8 0", "R 3 0", "G"]
    yield "B13 a length of 0 is 8", play(opened)[0].ticks, 8
    yield "B13 the next by name", play(used)[0].ticks, 5
    yield "B13 then 0 again", play(used + ["U 3 5 0", "G"])[0].ticks, 8
    yield "B13 default 9", answer(["S 100 1 9"]), 25
    yield "B13 rule 3 first", answer(["S 100 3 9"]), 23
    yield "B13 in a 20-tick table", play(["S 100 1 20", "J 3 2 7", "W 3 1 0", "G"])[0].ticks, 20
    yield "B12 V where the table rests", virtual(B12[:5]), 360_360
    yield "B12 nobody is there", answer(B12[:6]), 11
    yield "B12 queue 4 opens at", play(B12[:7])[0].present[4].opening, 360_360
    yield "B12 A and W", sums(B12[:7]), (1_441_440, 4)
    yield "B12 V after its tick", virtual(B12[:9]), 540_540
    yield "B12 reweighted, it opens at", play(B12[:10])[0].present[4].opening, 540_540
    yield "B12 A and W, reweighted", sums(B12[:10]), (1_621_620, 3)
    yield "B12 A and W at the end", sums(B12), (2_342_340, 3)


def main():
    wrong = 0
    count = 0
    for name, found, wanted in cases():
        count += 1
        if found != wanted:
            wrong += 1
            print(f"{name}: found {found}, document 01 says {wanted}")
    print(f"bench cases: {count} values, {wrong} wrong")
    return 1 if wrong else 0


if __name__ == "__main__":
    sys.exit(main())
