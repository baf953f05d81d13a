#!/usr/bin/env python3
"""Long runs for the bench.

    python3 bench/runs.py --queues N --lines N [--seed N]

writes a run to standard output: mostly grants and returns, with some lengths,
reweights, departures and joins. Every line is one to be accepted. The same
numbers give the same bytes.

To return a slice one must know who holds it, so the table is followed in whole
numbers, as document 01 has it. No fractions: this has to be quick.
"""

import argparse
import random
import sys

UNIT = 720_720
LIMIT = 10
LONGEST_LENGTH = 60
CALLS = 0.06                # share of rounds that are no grant with its return
EARLY = 0.05
SHORT = 0.2                 # share of returns that use less than the slice


class Row:
    """A row that is not free."""

    __slots__ = ("weight", "step", "going", "position", "opening", "length",
                 "served", "next_length", "deadline")

    def __init__(self, weight, position, length):
        self.weight = weight
        self.step = UNIT // weight
        self.going = False
        self.position = position
        self.next_length = length
        self.open_request()

    def open_request(self):
        self.opening = self.position
        self.length = self.next_length
        self.served = 0
        self.deadline = self.opening + self.length * self.step


class Table:
    """Rows by number, with A and W."""

    def __init__(self):
        self.rows = {}
        self.total = 0
        self.sum = 0

    def enter(self, number, weight, length):
        position = -(-self.sum // self.total) if self.total else 0
        self.rows[number] = Row(weight, position, length)
        self.total += weight
        self.sum += weight * position

    def free(self, number):
        row = self.rows.pop(number)
        self.total -= row.weight
        self.sum -= row.weight * row.position

    def is_reached(self, position):
        return position * self.total <= self.sum

    def release(self):
        going = [number for number, row in self.rows.items() if row.going]
        freed = True
        while freed:
            ready = [n for n in going if self.is_reached(self.rows[n].position)]
            for number in ready:
                self.free(number)
                going.remove(number)
            freed = bool(ready)

    def leave(self, number):
        row = self.rows[number]
        if self.is_reached(row.position):
            self.free(number)
        else:
            row.going = True
        self.release()

    def reweight(self, number, weight, length):
        self.free(number)
        self.release()
        self.enter(number, weight, length)
        self.release()

    def choose(self):
        """Least deadline of the eligible, then the lowest number."""
        total, weighted = self.total, self.sum
        return min((row.deadline, number) for number, row in self.rows.items()
                   if not row.going and row.opening * total <= weighted)[1]

    def take_back(self, number, used, early):
        row = self.rows[number]
        row.position += used * row.step
        row.served += used
        self.sum += used * UNIT
        if early or row.served == row.length:
            row.open_request()
        self.release()


class Maker:
    """Makes the lines for one number of queues."""

    def __init__(self, queues, seed):
        self.draw = random.Random(seed).random
        self.queues = queues
        self.table = Table()
        self.lines = [f"S {LIMIT}"]

    def below(self, count):
        return int(self.draw() * count)

    def weight(self):
        return 1 + self.below(16)

    def length(self):
        return 1 + self.below(LONGEST_LENGTH)

    def join(self, number):
        weight, length = self.weight(), self.length()
        self.table.enter(number, weight, length)
        self.table.release()
        self.lines.append(f"J {number} {weight} {length}")

    def grant_and_return(self):
        number = self.table.choose()
        row = self.table.rows[number]
        ticks = min(LIMIT, row.length - row.served)
        used = self.below(ticks + 1) if self.draw() < SHORT else ticks
        early = int(self.draw() < EARLY)
        self.table.take_back(number, used, early)
        self.lines.append("G")
        self.lines.append(f"U {number} {used} {early}")

    def call(self):
        """A queue that is away comes back; else one leaves or changes."""
        rows = self.table.rows
        away = [n for n in range(self.queues) if n not in rows]
        if away and self.draw() < 0.6:
            return self.join(away[self.below(len(away))])
        asking = [n for n, row in rows.items() if not row.going]
        number = asking[self.below(len(asking))]
        draw = self.draw()
        if draw < 0.4 and self.table.is_reached(rows[number].position):
            weight, length = self.weight(), self.length()
            self.table.reweight(number, weight, length)
            self.lines.append(f"W {number} {weight} {length}")
        elif draw < 0.7:
            rows[number].next_length = length = self.length()
            self.lines.append(f"R {number} {length}")
        elif self.queues == 1 or len(asking) > 1:
            self.table.leave(number)
            self.lines.append(f"L {number}")

    def run(self, count):
        for number in range(self.queues):
            self.join(number)
        while len(self.lines) < count:
            if not self.table.rows:
                self.join(0)
            elif self.draw() < CALLS:
                self.call()
            else:
                self.grant_and_return()
        return self.lines[:count]


def make_run(queues, count, seed):
    lines = Maker(queues, seed).run(count)
    return "".join(line + "\n" for line in lines).encode()


def main():
    options = argparse.ArgumentParser(description="Writes a long run.")
    options.add_argument("--queues", type=int, default=6)
    options.add_argument("--lines", type=int, default=200_000)
    options.add_argument("--seed", type=int, default=1)
    chosen = options.parse_args()
    sys.stdout.buffer.write(make_run(chosen.queues, chosen.lines, chosen.seed))


if __name__ == "__main__":
    main()
