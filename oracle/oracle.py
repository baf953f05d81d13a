#!/usr/bin/env python3
"""The oracle: what bandtrace prints, worked out a second time.

It follows document 01's section "The account" and keeps no positions. A queue
has an account in ticks (its lag, equation 3 of document 000), the table has
virtual time V in position units, and both are exact fractions. Where a place
in virtual time is needed, it comes from these two: a queue with account a and
weight w stands at V - a x 720,720 / w.

    python3 oracle/oracle.py < RUN

prints the header and one line for each input line. After every line the
promises of the account are checked; if one fails, the oracle says so on
standard error and ends with status 1.
"""

import re
import sys
from fractions import Fraction
from math import ceil

UNIT = 720_720              # positions to one unit of virtual time
CEILING = 2 ** 48           # P
HIGHEST_NUMBER = 63
HEAVIEST = 16
LONGEST_LENGTH = 10_000
DEFAULTS = (8, 20)          # what a length of 0 may stand for; 8 where none is named (T-09)
LARGEST_LIMIT = 100

HEADER = "line answer who slice sum total"
BROKEN_LINE = 15


class Queue:
    """A row that is not free."""

    __slots__ = ("weight", "going", "account", "opening", "deadline",
                 "left", "next_length", "longest")

    def __init__(self, weight, account, length):
        self.weight = weight
        self.going = False
        self.account = account
        self.next_length = length
        self.longest = 0            # longest request opened since the join
        self.opening = self.deadline = None
        self.left = 0               # ticks of the open request not yet served


class Table:
    """The rows that are not free, with W, V and the slice that is out."""

    __slots__ = ("limit", "rule", "default", "present", "total", "virtual", "holder", "ticks")

    def __init__(self, limit, rule, default):
        self.limit = limit
        self.rule = rule            # for ties (T-06)
        self.default = default      # the length that 0 stands for
        self.present = {}           # queue number -> Queue
        self.total = 0              # W
        self.virtual = Fraction(0)  # V, which an empty table keeps (T-02)
        self.holder = None
        self.ticks = 0


class CheckFailed(Exception):
    """A promise of the account does not hold."""


# ---------------------------------------------------------------- the account

def share_out(table, ticks):
    """Every row gains its weight's part of the ticks, and V rises with it."""
    each = ticks / table.total
    for queue in table.present.values():
        queue.account += queue.weight * each
    table.virtual += UNIT * each


def open_request(queue, opening):
    """Equations 7 and 8: where the next request opens and where it is due."""
    length = queue.next_length
    queue.opening = opening
    queue.deadline = opening + Fraction(length * UNIT, queue.weight)
    queue.left = length
    queue.longest = max(queue.longest, length)


def enter(table, number, weight, length):
    """The queue enters at c, the least whole number not below V."""
    entry = ceil(table.virtual)
    ahead = weight * (entry - table.virtual) / UNIT
    queue = Queue(weight, -ahead, length)
    table.present[number] = queue
    table.total += weight
    share_out(table, ahead)         # "the newcomer too"
    open_request(queue, Fraction(entry))


def free(table, number):
    """Equations 14 and 15: what was owed to the leaver goes to the others."""
    queue = table.present.pop(number)
    table.total -= queue.weight
    if table.present:
        share_out(table, queue.account)
    elif queue.account != 0 or table.virtual.denominator != 1:
        raise CheckFailed(f"the last one leaves with account {queue.account} "
                          f"and V rests at {table.virtual}")


def release(table):
    """Going rows that owe nothing are freed until there is none."""
    while True:
        ready = [number for number, queue in table.present.items()
                 if queue.going and queue.account >= 0]
        if not ready:
            return
        free(table, ready[0])


def stop_asking(queue):
    """Section 5 of document 000: a request of length zero gets no slices."""
    queue.going = True
    queue.opening = queue.deadline = None
    queue.left = 0


# ----------------------------------------------------------------- the events
# Each gives the number of its answer. The tests stand in the order of their
# numbers, because the lowest one answers.

def join(table, number, weight, length):
    if number > HIGHEST_NUMBER:
        return 2
    if not 1 <= weight <= HEAVIEST:
        return 3
    if length > LONGEST_LENGTH:
        return 4
    if table.holder is not None:
        return 5
    if number in table.present:
        return 7
    enter(table, number, weight, length or table.default)
    release(table)
    return 0


def is_asking(table, number):
    queue = table.present.get(number)
    return queue is not None and not queue.going


def leave(table, number):
    if number > HIGHEST_NUMBER:
        return 2
    if table.holder is not None:
        return 5
    if not is_asking(table, number):
        return 8
    queue = table.present[number]
    if queue.account >= 0:
        free(table, number)
    else:
        stop_asking(queue)
    release(table)
    return 0


def reweight(table, number, weight, length):
    if number > HIGHEST_NUMBER:
        return 2
    if not 1 <= weight <= HEAVIEST:
        return 3
    if length > LONGEST_LENGTH:
        return 4
    if table.holder is not None:
        return 5
    if not is_asking(table, number):
        return 8
    if table.present[number].account < 0:
        return 9
    free(table, number)             # the leave, with its release
    release(table)
    enter(table, number, weight, length or table.default)
    release(table)                  # the join, with its release
    return 0


def set_length(table, number, length):
    if number > HIGHEST_NUMBER:
        return 2
    if length > LONGEST_LENGTH:
        return 4
    if table.holder is not None:
        return 5
    if not is_asking(table, number):
        return 8
    table.present[number].next_length = length or table.default
    return 0


def stands_at(table, queue):
    """Where a queue with this account stands in virtual time."""
    return table.virtual - queue.account * UNIT / queue.weight


def choose(table):
    """The eligible request with the least deadline, then by the table's rule:
    the lowest number, or the least position and then the lowest number."""
    eligible = [(queue.deadline, stands_at(table, queue) if table.rule == 2 else 0, number)
                for number, queue in table.present.items()
                if not queue.going and queue.opening <= table.virtual]
    if not eligible:
        raise CheckFailed("the table is not empty and nobody can be granted")
    deadline, _, number = min(eligible)
    return deadline, number


def grant(table):
    if table.holder is not None:
        return 5
    if not table.present:
        return 11
    deadline, number = choose(table)
    if deadline > CEILING:
        return 12
    table.holder = number
    table.ticks = min(table.limit, table.present[number].left)
    return 0


def take_back(table, number, used, early):
    if number > HIGHEST_NUMBER:
        return 2
    if table.holder != number:      # no slice out, or another holds it
        return 6
    if used > table.ticks:
        return 10
    queue = table.present[number]
    share_out(table, Fraction(used))
    queue.account -= used
    queue.left -= used
    if queue.left == 0 or early:    # equations 11 and 12
        open_request(queue, stands_at(table, queue))
    table.holder, table.ticks = None, 0
    release(table)
    return 0


# ------------------------------------------------------------------ the lines

NUMBER = rb" (0|[1-9][0-9]{0,4})"
GRAMMAR = {
    b"S": (re.compile(rb"S" + NUMBER + rb"(?:" + NUMBER + rb"(?:" + NUMBER + rb")?)?"), None),
    b"J": (re.compile(rb"J" + 3 * NUMBER), join),
    b"L": (re.compile(rb"L" + NUMBER), leave),
    b"W": (re.compile(rb"W" + 3 * NUMBER), reweight),
    b"R": (re.compile(rb"R" + 2 * NUMBER), set_length),
    b"G": (re.compile(rb"G"), grant),
    b"U": (re.compile(rb"U" + 2 * NUMBER + rb" ([01])"), take_back),
}


def read_line(line):
    """The event and its numbers, or None for a line to be answered 15.

    No line of the grammar is longer than 19 bytes, so an overlong one (more
    than 40) never fits a pattern and needs no test of its own.
    """
    pattern, event = GRAMMAR.get(line[:1], (None, None))
    found = pattern.fullmatch(line) if pattern else None
    if found is None:
        return None
    return event, [int(digits) for digits in found.groups() if digits is not None]


def answer_line(table, line):
    """One line without its newline: the table after it, and the answer."""
    call = read_line(line)
    if call is None:
        return table, BROKEN_LINE
    event, numbers = call
    if event is None:               # S: a fresh table, or the present one kept
        limit, rule, default = numbers + [1, DEFAULTS[0]][len(numbers) - 1:]
        if not 1 <= limit <= LARGEST_LIMIT:
            return table, 14
        if rule not in (1, 2):
            return table, 23
        if default not in DEFAULTS:
            return table, 25
        return Table(limit, rule, default), 0
    return table, event(table, *numbers)


def first_table():
    """bandtrace begins with the table that refusal 14 gives."""
    return Table(1, 1, DEFAULTS[0])


def weighted_sum(table):
    """A, which is V x W and a whole number; 0 for the empty table."""
    if not table.present:
        return 0
    total = table.virtual * table.total
    if total.denominator != 1:
        raise CheckFailed(f"A is no whole number: {total}")
    return total.numerator


def printed(table, line, answer):
    """answer, who, slice, sum and total, as they stand after the line number."""
    granted = line == b"G" and answer == 0
    who, ticks = (table.holder, table.ticks) if granted else ("-", "-")
    return f"{answer} {who} {ticks} {weighted_sum(table)} {table.total}"


def check_accounts(table):
    """The accounts add up to 0, and none is too far below it.

    Section 6 of document 000, theorem 3: a lag stays above minus the request.
    """
    if sum(queue.account for queue in table.present.values()) != 0:
        raise CheckFailed("the accounts do not add up to 0")
    for number, queue in table.present.items():
        if queue.account <= -queue.longest:
            raise CheckFailed(f"queue {number} has account {queue.account} with "
                              f"no request longer than {queue.longest}")


def check_virtual_time(before, table):
    """V never falls, until an accepted S begins a new run."""
    old_table, virtual = before
    if old_table is table and table.virtual < virtual:
        raise CheckFailed(f"V fell from {virtual} to {table.virtual}")


def answers(lines):
    """bandtrace's printed lines for an iterable of input lines (bytes)."""
    yield HEADER
    table = first_table()
    for count, line in enumerate(lines, 1):
        line = line[:-1] if line.endswith(b"\n") else line
        before = table, table.virtual
        try:
            table, answer = answer_line(table, line)
            check_accounts(table)
            check_virtual_time(before, table)
            yield f"{count} {printed(table, line, answer)}"
        except CheckFailed as failure:
            raise CheckFailed(f"line {count}: {failure}") from None


def split_lines(data):
    """Lines end at a newline byte only; nothing after the last is no line."""
    lines = data.split(b"\n")
    return lines if lines[-1] else lines[:-1]


def main():
    # Standard input opened for bytes ends its lines at newline bytes only.
    try:
        for text in answers(sys.stdin.buffer):
            sys.stdout.write(text + "\n")
    except CheckFailed as failure:
        sys.stdout.flush()
        print(f"oracle: {failure}", file=sys.stderr)
        return 1
    return 0


if __name__ == "__main__":
    sys.exit(main())
