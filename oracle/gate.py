#!/usr/bin/env python3
"""The gate's run for bandtrace.

    python3 oracle/gate.py stdin                 prints the run
    python3 oracle/gate.py check STDIN STDOUT    compares a stored pair

The run begins with document 01's nine lines. Then come every refusal that a run
can meet, the other bench cases that a run can express, the house default, the
lone queue, one broken line of every sort, and a stretch of every kind of random
run. It is the same bytes each
time, and its last line has no newline. While it is made, every line written
down here with an answer is seen to get that answer.

`check` says whether the stored output is what the oracle prints for the stored
input; if not, it shows the first line that differs and ends with status 1.
"""

import sys
from itertools import zip_longest
from pathlib import Path

import generate
import oracle
from cases import EXAMPLE

LINES = 1500
SEED = 38                           # of report 96-038; any would do
MET_IN_A_RUN = {0, *range(2, 12), 14, 15, 23, 25}

# A line, then the answer that document 01 gives it. The table is the one that
# the line before leaves behind.
BENCH_CASES = """\
S 1=0 J 1 2 2=0 G=0 U 1 1 0=0 J 0 2 1=0 G=0 U 0 1 0=0
L 0=0 J 0 2 1=7 L 0=8 R 0 5=8 W 0 1 1=8 G=0 U 1 1 0=0 J 0 2 1=0
S 1=0 J 0 2 1=0 J 1 15 1=0 G=0 U 1 1 0=0 J 2 1 1=0 G=0 U 0 1 0=0
S 1=0 J 0 16 1=0 J 1 17 1=3 J 64 0 1=2
S 1=0 J 0 1 10000=0 J 1 1 10001=4
S 1=0 J 0 1 5=0 G=0 U 0 2 0=10 U 0 1 0=0
S 1=0 J 0 1 5=0 G=0 U 0 0 0=0 G=0 U 0 0 1=0
"""

REFUSALS = """\
S 0=14 S 101=14 S 99999=14 S 100=0 S 1=0 S 10=0
G=11 L 0=8 R 0 1=8 W 0 1 1=8 U 0 0 0=6 U 63 0 1=6
J 64 1 1=2 L 64=2 W 64 1 1=2 R 64 1=2 U 64 0 0=2 J 99999 99999 99999=2
J 0 0 1=3 J 63 17 10001=3 W 0 0 1=3 W 0 17 10001=3 W 63 99999 0=3
J 0 1 10001=4 W 0 16 10001=4 R 0 10001=4 R 63 99999=4
J 0 8 20=0 J 63 16 10000=0 J 1 1 1=0 J 0 8 1=7 J 63 1 0=7
U 0 1 0=6 L 2=8 R 2 1=8 W 2 1 1=8
G=0 G=5 J 0 1 1=5 J 2 1 1=5 L 0=5 L 2=5 W 0 1 1=5 W 2 1 1=5 R 0 1=5 R 2 0=5
J 64 1 1=2 J 2 0 1=3 J 2 1 10001=4 W 0 17 1=3 W 0 1 10001=4 R 0 10001=4 L 64=2
U 1 0 0=0 G=0 U 0 11 0=6 U 2 0 1=6 U 64 11 0=2 U 1 2 0=10 U 1 99999 1=10 U 1 1 0=0
W 1 2 3=9 W 1 0 3=3 W 1 2 10001=4 R 1 20=0 R 63 1=0
S 0=14 G=0 S 101=14 U 0 11 0=10 U 0 10 1=0
L 0=0 J 0 1 1=7 L 0=8 W 0 1 1=8 R 0 0=8 G=0 U 63 10 0=0
"""

# The house default of 8 ticks, in all three calls that have a length, and then the
# same in a table made for 20 (T-09).
DEFAULTS = """\
S 100=0 J 5 1 0=0 G=0 U 5 9 0=10 U 5 8 0=0
W 5 2 3=0 R 5 0=0 G=0 U 5 4 0=10 U 5 3 0=0 G=0 U 5 9 0=10 U 5 8 0=0
W 5 2 0=0 G=0 U 5 9 0=10 U 5 7 0=0 G=0 U 5 2 0=10 U 5 1 0=0
S 100 2 20=0 S 100 1 9=25 S 100 2 0=25 S 100 1 99999=25 S 100 3 9=23 S 0 3 9=14 S 7 0 8=23 S 101 1 8=14
J 5 1 0=0 G=0 U 5 21 0=10 U 5 20 0=0
W 5 2 3=0 R 5 0=0 G=0 U 5 4 0=10 U 5 3 0=0 G=0 U 5 21 0=10 U 5 20 0=0
W 5 2 0=0 G=0 U 5 21 0=10 U 5 19 0=0 G=0 U 5 2 0=10 U 5 1 0=0
S 100 1 8=0 J 5 1 0=0 G=0 U 5 9 0=10 U 5 8 0=0
"""

# Reweights of a lone queue: the table empties in between and goes on from where
# it rests. In the third row the queue leaves a going one behind, which is released,
# so this table empties too.
LONE = """\
S 5=0 J 7 3 4=0 G=0 U 7 4 0=0 W 7 5 2=0 G=0 U 7 1 0=0 W 7 16 20=0 G=0 U 7 5 1=0
L 7=0 G=11 J 7 1 1=0 W 7 1 1=0 L 7=0 L 7=8
J 0 2 1=0 J 1 2 1=0 G=0 U 0 1 0=0 L 0=0 W 1 3 2=0 G=0 U 1 2 0=0
"""

# T-02: the table empties and fills again, by one queue that leaves, by a leave that
# releases others behind it, and by reweights; V goes on from where it rested.
EMPTIED = """\
S 1=0 J 3 2 2=0 G=0 U 3 1 0=0 L 3=0 G=11 J 4 4 1=0 G=0 U 4 1 0=0 W 4 3 2=0 G=0 U 4 1 0=0
S 3=0 J 0 2 3=0 J 1 3 3=0 J 2 5 3=0 G=0 U 2 3 0=0 L 2=0 G=0 U 1 3 0=0 L 1=0 L 0=0 G=11
J 9 7 2=0 G=0 U 9 2 0=0 J 8 1 1=0 L 8=0 L 9=0 G=11 J 63 16 1=0 W 63 1 1=0 L 63=0 J 0 1 1=0 G=0
"""

# T-06: the same events under no rule named, rule 1 and rule 2. At the first grant 0
# and 1 are due at the same place and stand at the same position; at the second 0 has
# served a tick of two and stands ahead of 1, so rule 1 goes to 0 and rule 2 to 1.
TIES = """\
S 1=0 J 0 2 2=0 J 1 1 1=0 G=0 U 0 1 0=0 G=0 U 0 1 0=0
S 1 1=0 J 0 2 2=0 J 1 1 1=0 G=0 U 0 1 0=0 G=0 U 0 1 0=0
S 1 2=0 J 0 2 2=0 J 1 1 1=0 G=0 U 0 1 0=0 S 1 0=23 S 1 3=23 S 1 99999=23 S 0 3=14 S 101 1=14 G=0 U 1 1 0=0
"""

# T-04: when 5 leaves, 3 is released, and that makes 4 ready, whose row the walk from
# the top has passed by then: it takes a second pass.
TWO_PASSES = """\
S 7=0 J 5 1 6=0 J 3 4 1=0 J 4 13 4=0 W 5 16 21=0 G=0 U 3 1 0=0 G=0 U 4 4 0=0
L 3=0 L 4=0 L 5=0 G=11 J 0 1 1=0 G=0
"""


def put_scripted(run, script):
    for entry in split_script(script):
        line, wanted = entry.rsplit("=", 1)
        answer = run.put(line.encode())
        if answer != int(wanted):
            raise SystemExit(f"gate: {line} is answered {answer}, not {wanted}")


def split_script(script):
    """Entries end at the answer; the spaces inside an entry belong to it."""
    entry = []
    for word in script.split():
        entry.append(word)
        if "=" in word:
            yield " ".join(entry)
            entry = []


def put_broken(run):
    """One line of every sort, with no slice out and again with one out."""
    for opening in ("S 3=0 J 0 2 7=0 J 1 3 5=0", "G=0"):
        put_scripted(run, opening)
        for name, damage in generate.BREAKS.items():
            line = damage(run, generate.whole_line(run))
            answer = run.put(line)
            if answer != oracle.BROKEN_LINE:
                raise SystemExit(f"gate: {name}: {line!r} is answered {answer}")


def gate_lines():
    run = generate.Run(generate.Dice(SEED), generate.KINDS["few"])
    for line in EXAMPLE:
        run.put(line.encode())
    put_scripted(run, REFUSALS)
    put_scripted(run, BENCH_CASES)
    put_scripted(run, DEFAULTS)
    put_scripted(run, LONE)
    put_scripted(run, EMPTIED)
    put_scripted(run, TWO_PASSES)
    put_scripted(run, TIES)
    put_broken(run)
    generate.extend_mixed(run, LINES - 1)
    run.put(b"G")
    missing = MET_IN_A_RUN - run.answered
    if missing:
        raise SystemExit(f"gate: the run never meets {sorted(missing)}")
    return run.lines


def printed_by_oracle(data):
    return "".join(text + "\n" for text in oracle.answers(oracle.split_lines(data)))


def first_difference(stored, wanted):
    """Number and both texts of the first line that differs."""
    pairs = zip_longest(stored.split("\n"), wanted.split("\n"))
    for number, (found, right) in enumerate(pairs, 1):
        if found != right:
            return number, found, right
    return None


def check(stdin_file, stdout_file):
    wanted = printed_by_oracle(Path(stdin_file).read_bytes())
    stored = Path(stdout_file).read_bytes().decode("latin-1")
    difference = first_difference(stored, wanted)
    if difference is None:
        lines = wanted.count("\n") - 1
        print(f"gate: the stored output is the oracle's, {lines} lines and the header")
        return 0
    number, found, right = difference
    print(f"gate: line {number} of the stored output differs\n"
          f"  stored: {found}\n  oracle: {right}")
    return 1


def main(arguments):
    if arguments == ["stdin"]:
        sys.stdout.buffer.write(b"\n".join(gate_lines()))
        return 0
    if len(arguments) == 3 and arguments[0] == "check":
        return check(arguments[1], arguments[2])
    print("usage: gate.py stdin | gate.py check STDIN STDOUT", file=sys.stderr)
    return 2


if __name__ == "__main__":
    try:
        sys.exit(main(sys.argv[1:]))
    except oracle.CheckFailed as failure:
        sys.exit(f"gate: {failure}")
