#!/usr/bin/env python3
"""Random runs for bandtrace.

    python3 oracle/generate.py --seed N --lines N [--kind KIND]

writes a run to standard output. The run is played on the oracle's table while
it is made, so that most lines are accepted and lead somewhere: a grant is
followed by its return, queues leave that are owed time and that owe time.
A share of the lines is refused or broken on purpose.

The same seed, number of lines and kind give the same bytes. One run in four
ends without its last newline.

Refusals that these runs meet: 2 to 11, 14 and 15. Number 1 needs a table that
isn't sound and number 13 a lag list, and bandtrace has neither. Number 12 can't
be met in a short run: no position rises by more than 100 x 720,720 at a return,
no queue joins above the highest position, and no deadline lies more than
10,000 x 720,720 ahead, so a deadline above P is 3,905,370 returns away at least.
The kind "ceiling" makes this climb, 7.8 million lines, has a deadline of exactly
P granted and the next one refused, and then plays just below P for --lines
lines; it only runs when asked for by name.
"""

import argparse
import random
import sys
from dataclasses import dataclass, replace

import oracle


class Dice:
    """Draws made from random() alone.

    Python promises the same sequence of random() for a seed in all versions,
    and promises it for nothing else in its module.
    """

    def __init__(self, seed):
        self.random = random.Random(seed).random

    def below(self, count):
        return int(self.random() * count)

    def between(self, low, high):
        return low + self.below(high - low + 1)

    def chance(self, share):
        return self.random() < share

    def pick(self, choices):
        return choices[self.below(len(choices))]


@dataclass(frozen=True)
class Kind:
    """What sort of lines a run is made of."""

    numbers: int = 6                # queues 0 to numbers - 1 are used
    crowd: int = 5                  # about so many are present
    weights: tuple = (1, 16)
    lengths: tuple = (1, 30)
    limits: tuple = (1, 100)
    calls: float = 0.25             # share of lines that are no grant or return
    bursts: float = 0.01            # how often several leave one after another
    refused: float = 0.06           # share of lines meant to be refused
    broken: float = 0.03            # share of broken lines
    restarts: float = 0.004         # share of lines that make a fresh table


KINDS = {
    "few": Kind(limits=(1, 10)),
    "pair": Kind(numbers=3, crowd=2, lengths=(1, 6), limits=(1, 4)),
    "full": Kind(numbers=64, crowd=62, calls=0.4),
    # Equal weights and unit lengths: deadlines tie, and V often lies exactly on
    # an opening.
    "ties": Kind(numbers=10, crowd=8, weights=(2, 3), lengths=(1, 2), limits=(1, 2)),
    "unit": Kind(numbers=12, crowd=9, lengths=(1, 1), limits=(1, 1)),
    "long": Kind(numbers=8, crowd=6, lengths=(1, 10_000), limits=(50, 100)),
    "light": Kind(numbers=64, crowd=40, weights=(1, 1), lengths=(1, 200)),
    "lone": Kind(numbers=3, crowd=1, calls=0.6),
    "bursts": Kind(numbers=20, crowd=16, lengths=(1, 60), bursts=0.08),
    "restarts": Kind(restarts=0.05),
    "refused": Kind(numbers=8, refused=0.5),
    "broken": Kind(broken=0.5),
}
MIXED = "mixed"                     # goes through all of them in turn
CEILING = "ceiling"
NAMES = [*KINDS, MIXED]

# Fields at and beside every border of document 01.
EDGE_NUMBERS = (0, 1, 2, 62, 63, 64, 65, 127, 255, 256, 65_536, 99_999)
EDGE_WEIGHTS = (0, 1, 2, 15, 16, 17, 32, 256, 65_537, 99_999)
EDGE_LENGTHS = (0, 1, 2, 7, 8, 9, 19, 20, 9_999, 10_000, 10_001, 65_536, 99_999)
EDGE_TICKS = (0, 1, 2, 99, 100, 101, 10_000, 65_536, 99_999)
EDGE_LIMITS = (0, 101, 102, 256, 65_537, 99_999)
EDGE_RULES = (0, 3, 4, 255, 256, 99_999)
EDGE_DEFAULTS = (0, 1, 7, 9, 19, 21, 255, 264, 99_999)


class Run:
    """The lines so far, and the oracle's table after them."""

    def __init__(self, dice, kind):
        self.dice = dice
        self.kind = kind
        self.table = oracle.first_table()
        self.lines = []
        self.answered = set()

    def put(self, line):
        self.lines.append(line)
        self.table, answer = oracle.answer_line(self.table, line)
        self.answered.add(answer)
        return answer

    def asking(self):
        return [n for n, queue in self.table.present.items() if not queue.going]

    def absent(self):
        return [n for n in range(self.kind.numbers) if n not in self.table.present]

    def number(self):
        """Any number that is used, now and then a border one."""
        if self.dice.chance(0.15):
            return self.dice.pick(EDGE_NUMBERS)
        return self.dice.below(self.kind.numbers)


def text(*fields):
    return b" ".join(field if isinstance(field, bytes) else b"%d" % field
                     for field in fields)


# -------------------------------------------------------- lines to be accepted

def weight(run):
    return run.dice.between(*run.kind.weights)


def length(run):
    """A length of 0, the house default, comes up whatever the kind."""
    if run.dice.chance(0.08):
        return 0
    shortest, longest = run.kind.lengths
    if run.dice.chance(0.4):        # short ones too, where long ones are usual
        longest = min(longest, shortest + 9)
    return run.dice.between(shortest, longest)


def terms(run):
    """The rule for ties and the default length: none named, which is rule 1 and 8,
    the rule alone, or both."""
    return run.dice.pick(((), (1,), (2,), (1, 8), (2, 8), (1, 20), (2, 20)))


def fresh_line(run):
    if run.dice.chance(0.3):
        return text(b"S", run.dice.pick((1, 2, 99, 100)), *terms(run))
    return text(b"S", run.dice.between(*run.kind.limits), *terms(run))


def join_line(run):
    free = run.absent()
    number = run.dice.pick(free) if free else run.number()
    return text(b"J", number, weight(run), length(run))


def leaver(run):
    """One that is owed time, one that owes time, or any."""
    asking = run.asking()
    account = {n: run.table.present[n].account for n in asking}
    owed = [n for n in asking if account[n] > 0]
    owing = [n for n in asking if account[n] < 0]
    even = [n for n in asking if account[n] == 0]
    choice = run.dice.pick((owed, owing, even, asking))
    return run.dice.pick(choice or asking or [run.number()])


def leave_line(run):
    return text(b"L", leaver(run))


def reweight_line(run):
    ready = [n for n in run.asking() if run.table.present[n].account >= 0]
    number = run.dice.pick(ready) if ready else run.number()
    return text(b"W", number, weight(run), length(run))


def length_line(run):
    number = run.dice.pick(run.asking() or [run.number()])
    return text(b"R", number, length(run))


def return_line(run):
    """Mostly the whole slice; now and then less, nothing, or an early end."""
    ticks = run.table.ticks
    draw = run.dice.random()
    if draw < 0.6:
        used = ticks
    elif draw < 0.72:
        used = 0
    else:
        used = run.dice.between(0, ticks)
    return text(b"U", run.table.holder, used, int(run.dice.chance(0.12)))


def call_line(run):
    """A call that is no grant or return; it keeps the crowd at its size."""
    asking = len(run.asking())
    room = bool(run.absent())
    draw = run.dice.random()
    if asking == 0 and room:
        return join_line(run)
    if draw < 0.2:
        return length_line(run)
    if draw < 0.45:
        return reweight_line(run)
    if room and (asking < run.kind.crowd or draw < 0.5):
        return join_line(run)
    return leave_line(run)


def accepted_line(run):
    if run.table.holder is not None:
        return return_line(run)
    if run.dice.chance(run.kind.restarts):
        return fresh_line(run)
    if not run.table.present or run.dice.chance(run.kind.calls):
        return call_line(run)
    # While a crowd gathers there are more joins and the grants come between.
    gathering = len(run.asking()) < run.kind.crowd and run.absent()
    if gathering and run.dice.chance(0.5):
        return join_line(run)
    return b"G"


def put_burst(run, most):
    """Several leave one after another, and nobody is granted in between."""
    for _ in range(min(most, run.dice.between(2, 12))):
        run.put(leave_line(run) if run.asking() else join_line(run))


# --------------------------------------------------------- lines to be refused

def edge(run, usual, borders):
    return run.dice.pick(borders) if run.dice.chance(0.35) else usual


def wild_line(run):
    """Fields from all over, so that several refusals apply at once."""
    number = run.number()
    heavy = edge(run, weight(run), EDGE_WEIGHTS)
    long = edge(run, length(run), EDGE_LENGTHS)
    used = edge(run, run.dice.between(0, 3), EDGE_TICKS)
    return run.dice.pick((
        text(b"J", number, heavy, long),
        text(b"L", number),
        text(b"W", number, heavy, long),
        text(b"R", number, long),
        text(b"U", number, used, run.dice.below(2)),
    ))


def refused_fresh(run):
    if run.dice.chance(0.5):
        rule = run.dice.pick((1, 2) + EDGE_RULES)
        if rule in (1, 2) or run.dice.chance(0.5):
            return text(b"S", run.dice.pick((1, 7, 100, 101)), rule, run.dice.pick(EDGE_DEFAULTS))
        return text(b"S", run.dice.pick((1, 7, 100, 101)), rule)
    return text(b"S", run.dice.pick(EDGE_LIMITS))


def refused_while_out(run):
    """Refusal 5: anything but a return; refusals 6 and 10: a wrong return."""
    number = run.dice.below(run.kind.numbers)
    return run.dice.pick((
        b"G", b"G",
        join_line(run), leave_line(run), reweight_line(run), length_line(run),
        text(b"U", number, 0, 0),
        text(b"U", run.table.holder, run.table.ticks + 1, run.dice.below(2)),
        text(b"U", run.table.holder, run.dice.between(run.table.ticks + 1, 99_999), 0),
    ))


def refused_now(run):
    """With no slice out: 6, 7, 8 and 9, and 11 where the table is empty."""
    present = list(run.table.present) or [run.number()]
    going = [n for n, q in run.table.present.items() if q.going]
    owing = [n for n in run.asking() if run.table.present[n].account < 0]
    gone = run.dice.pick(going or run.absent() or [run.number()])
    return run.dice.pick((
        text(b"U", run.dice.pick(present), run.dice.below(3), 0),
        text(b"J", run.dice.pick(present), weight(run), length(run)),
        text(b"L", gone),
        text(b"R", gone, length(run)),
        text(b"W", gone, weight(run), length(run)),
        text(b"W", run.dice.pick(owing or present), weight(run), length(run)),
        b"G" if not run.table.present else text(b"L", gone),
    ))


def refused_line(run):
    draw = run.dice.random()
    if draw < 0.06:
        return refused_fresh(run)
    if draw < 0.4:
        return wild_line(run)
    if run.table.holder is not None:
        return refused_while_out(run)
    return refused_now(run)


# ---------------------------------------------------------------- broken lines

def whole_line(run):
    """A line that would be accepted now and has fields to be broken."""
    if run.table.holder is not None:
        return return_line(run)
    return run.dice.pick((join_line, join_line, length_line, fresh_line))(run)


def at_a_space(run, line, instead):
    """One of the line's spaces replaced."""
    spaces = [place for place, byte in enumerate(line) if byte == 0x20]
    place = run.dice.pick(spaces)
    return line[:place] + instead + line[place + 1:]


def last_field(line, instead):
    return line[:line.rindex(b" ") + 1] + instead


def padded(line, size, filling):
    return line + filling * (size - len(line))


def foreign_byte(run, line):
    place = run.dice.between(0, len(line))
    return line[:place] + bytes([run.dice.between(128, 255)]) + line[place:]


# Each takes the run and a whole line and gives a line to be answered 15.
BREAKS = {
    "empty": lambda run, line: b"",
    "only a space": lambda run, line: b" ",
    "two spaces": lambda run, line: at_a_space(run, line, b"  "),
    "no space": lambda run, line: at_a_space(run, line, b""),
    "tab": lambda run, line: at_a_space(run, line, b"\t"),
    "comma": lambda run, line: at_a_space(run, line, b","),
    "no-break space": lambda run, line: at_a_space(run, line, b"\xc2\xa0"),
    "leading zero": lambda run, line: at_a_space(run, line, b" 0"),
    "plus": lambda run, line: at_a_space(run, line, b" +"),
    "minus": lambda run, line: at_a_space(run, line, b" -"),
    "two zeros": lambda run, line: last_field(line, b"00"),
    "zero and one": lambda run, line: last_field(line, b"01"),
    "six digits": lambda run, line: last_field(line, b"100000"),
    "six digits, wraps to 1": lambda run, line: last_field(line, b"4294967297"),
    "twenty digits": lambda run, line: last_field(line, b"18446744073709551617"),
    "point": lambda run, line: line + b".0",
    "underscore": lambda run, line: line + b"_0",
    "hexadecimal": lambda run, line: last_field(line, b"0x1"),
    "fullwidth digit": lambda run, line: last_field(line, "\uff11".encode()),
    "letter for digit": lambda run, line: last_field(line, b"l"),
    "missing field": lambda run, line: line[:line.rindex(b" ")],
    "missing last number": lambda run, line: line[:line.rindex(b" ") + 1],
    "extra field": lambda run, line: line + b" 0",
    "leading space": lambda run, line: b" " + line,
    "trailing space": lambda run, line: line + b" ",
    "carriage return": lambda run, line: line + b"\r",
    "carriage return inside": lambda run, line: at_a_space(run, line, b"\r"),
    "zero byte": lambda run, line: line + b"\0",
    "form feed": lambda run, line: line + b"\f",
    "byte above 127": foreign_byte,
    "byte order mark": lambda run, line: b"\xef\xbb\xbf" + line,
    "lower case": lambda run, line: line.lower(),
    "unknown letter": lambda run, line: b"X" + line[1:],
    "letter alone": lambda run, line: line[:1],
    "letter twice": lambda run, line: line[:1] + line,
    "grant with a field": lambda run, line: b"G 0",
    "grant with a space": lambda run, line: b"G ",
    "grant with a return": lambda run, line: b"G\r",
    "small grant": lambda run, line: b"g",
    "two on a line": lambda run, line: line + b" G",
    "early 2": lambda run, line: text(b"U", run.table.holder or 0, 0, 2),
    "early 10": lambda run, line: text(b"U", run.table.holder or 0, 0, 10),
    "early 00": lambda run, line: text(b"U", run.table.holder or 0, 0, b"00"),
    "40 bytes": lambda run, line: padded(line, 40, b" "),
    "41 bytes": lambda run, line: padded(line, 41, b" "),
    "40 bytes of digits": lambda run, line: padded(line, 40, b"1"),
    "41 bytes of digits": lambda run, line: padded(line, 41, b"1"),
    "40 bytes with zeros":
        lambda run, line: padded(last_field(line, b""), 39, b"0") + b"1",
    "long": lambda run, line: padded(line, run.dice.between(42, 300), b" "),
    "very long": lambda run, line: padded(line, run.dice.between(4_000, 9_000), b"0"),
}
BREAK_NAMES = list(BREAKS)


def broken_line(run):
    return BREAKS[run.dice.pick(BREAK_NAMES)](run, whole_line(run))


# -------------------------------------------------------------------- the runs

def put_some(run, most):
    """One line, or a burst of at most so many."""
    if run.dice.chance(run.kind.broken):
        run.put(broken_line(run))
    elif run.dice.chance(run.kind.refused):
        run.put(refused_line(run))
    elif not run.table.present and run.dice.chance(0.1):
        run.put(b"G")               # refusal 11
    elif run.table.holder is None and run.dice.chance(run.kind.bursts):
        put_burst(run, most)
    else:
        run.put(accepted_line(run))


def extend(run, count):
    """Lines of the run's kind until it has so many."""
    while len(run.lines) < count:
        put_some(run, count - len(run.lines))


def extend_mixed(run, count):
    """A stretch of every kind in turn, each going on from the last one's table."""
    while len(run.lines) < count:
        for name in KINDS:
            run.kind = KINDS[name]
            stretch = run.dice.between(40, 160)
            extend(run, min(count, len(run.lines) + stretch))


def drops_last_newline(dice):
    return dice.chance(0.25)


def make_run(seed, count, name=MIXED):
    """The bytes of a run."""
    dice = Dice(1000 * seed + NAMES.index(name))
    without_newline = drops_last_newline(dice)
    run = Run(dice, KINDS.get(name, KINDS["few"]))
    run.put(fresh_line(run))
    if name == MIXED:
        extend_mixed(run, count)
    else:
        extend(run, count)
    # An empty last line without its newline would be no line at all.
    if without_newline and run.lines[-1]:
        return b"\n".join(run.lines)
    return b"".join(line + b"\n" for line in run.lines)


# ----------------------------------------------------- the climb to the ceiling

CLIMBER = 6
WHOLE_REQUEST = 10_000
ROUND = 100 * (b"G\nU %d 100 0\n" % CLIMBER)    # one whole request


def put_grant(run, used):
    """A grant, and its return by whoever got it."""
    run.put(b"G")
    run.put(text(b"U", run.table.holder, used, 0))


def put_foot(run):
    """A lone queue of weight 1 that is a whole number of ticks below P.

    P isn't a multiple of 720,720, so a queue that starts at 0 can't have a
    deadline of P. These weights and ticks make the climber enter at 528,256,
    which is P's remainder; they were found by trying.
    """
    run.put(b"S 100")
    for number, heavy in enumerate((16, 16, 16, 16, 9)):
        run.put(text(b"J", number, heavy, WHOLE_REQUEST))
    put_grant(run, 4)
    run.put(text(b"J", 5, 14, WHOLE_REQUEST))
    put_grant(run, 59)
    run.put(text(b"J", CLIMBER, 1, 1))
    for number in range(CLIMBER):
        run.put(text(b"L", number))
    while len(run.table.present) > 1:   # until the going ones are released
        put_grant(run, 1)
    run.put(text(b"R", CLIMBER, WHOLE_REQUEST))
    put_grant(run, 1)


def lift(table, requests, next_length):
    """The table after so many whole requests of a lone queue of weight 1.

    Alone it has account 0 and stands at V, so nothing else has to be followed.
    """
    climber = table.present[CLIMBER]
    table.virtual += requests * WHOLE_REQUEST * oracle.UNIT
    climber.next_length = next_length
    oracle.open_request(climber, table.virtual)


def put_at_ceiling(run, ticks):
    """A deadline of exactly P is granted, one tick more is refused 12."""
    put_grant(run, 0)
    run.put(text(b"R", CLIMBER, ticks + 1))
    run.put(b"G")
    run.put(text(b"U", CLIMBER, 0, 1))
    run.put(b"G")                       # 12
    run.put(text(b"J", 0, 1, 50))       # a newcomer goes on in shorter requests
    put_grant(run, 50)
    run.put(text(b"L", CLIMBER))
    for _ in range(ticks // 50 - 2):
        put_grant(run, 50)


def put_near_ceiling(run):
    """After a refusal 12 somebody leaves and another joins."""
    if run.dice.chance(run.kind.broken):
        line = broken_line(run)
    elif run.dice.chance(run.kind.refused):
        line = refused_line(run)
    else:
        line = accepted_line(run)
    if line[:1] == b"S" and oracle.read_line(line):
        line = refused_fresh(run)       # a fresh table would start at 0 again
    if run.put(line) == 12:
        run.put(leave_line(run))
        run.put(join_line(run))


def put_tail(run, count):
    """Lengths that often, but not always, reach over P."""
    kind = run.kind
    stop = len(run.lines) + count
    while len(run.lines) < stop:
        room = oracle.CEILING - run.table.virtual
        longest = min(WHOLE_REQUEST, 2 + int(2 * room / oracle.UNIT))
        run.kind = replace(kind, lengths=(1, longest))
        put_near_ceiling(run)


def take_lines(run):
    data = b"".join(line + b"\n" for line in run.lines)
    run.lines = []
    return data


def ceiling_run(seed, count):
    """Pieces of the run: foot, climb, the ceiling, then so many lines below it."""
    run = Run(Dice(seed), Kind(numbers=12, crowd=6, restarts=0.0, bursts=0.0))
    put_foot(run)
    yield take_lines(run)
    ticks = (oracle.CEILING - run.table.virtual) / oracle.UNIT
    requests, rest = divmod(int(ticks), WHOLE_REQUEST)
    for _ in range(requests - 1):
        yield ROUND
    yield text(b"R", CLIMBER, rest) + b"\n" + ROUND
    lift(run.table, requests, rest)
    put_at_ceiling(run, rest)
    put_tail(run, count)
    yield take_lines(run)


def pieces(seed, count, name):
    if name == CEILING:
        return ceiling_run(seed, count)
    return [make_run(seed, count, name)]


def main():
    options = argparse.ArgumentParser(description="Writes a random run.")
    options.add_argument("--seed", type=int, default=1)
    options.add_argument("--lines", type=int, default=1000)
    options.add_argument("--kind", choices=[*NAMES, CEILING], default=MIXED)
    chosen = options.parse_args()
    for piece in pieces(chosen.seed, chosen.lines, chosen.kind):
        sys.stdout.buffer.write(piece)


if __name__ == "__main__":
    main()
