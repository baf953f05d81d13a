#!/usr/bin/env python3
"""Puts the same random runs to bandtrace and to the oracle.

    python3 oracle/compare.py [--program PATH] [--runs N] [--lines N]
                              [--seed N] [--kind KIND]

Run k has seed SEED + k and goes through the kinds of generate.py in turn, so
`generate.py --seed S --lines N --kind KIND` gives a reported run again. Some
small runs by hand come first: empty input, no last newline, lines that are
longer than any buffer. One run in five reaches the program in small pieces.

At the first difference both lines are shown and the status is 1. The kind
"ceiling" (see generate.py) takes minutes and runs only when asked for.
"""

import argparse
import itertools
import os
import subprocess
import sys
import threading
import time
from pathlib import Path

import generate
import oracle

ROOT = Path(__file__).resolve().parent.parent
PROVED = ROOT / "crates" / "bandtrace" / "out" / "bandtrace"
PIECES_EVERY = 5

RUNS_BY_HAND = {
    "empty input": b"",
    "one newline": b"\n",
    "two newlines": b"\n\n",
    "no newline": b"G",
    "example without its last newline":
        b"S 1\nJ 1 2 2\nG\nU 1 1 0\nJ 0 2 1\nG\nU 0 1 0\nL 1\nG",
    "grant, then a carriage return at the end": b"J 0 1 1\nG\r",
    "no line is ended by a return alone": b"J 0 1 1\rG\rG\n",
    "zero bytes": b"\0\n\0",
    "one line of 200,000 bytes": b"J 0 1 1\n" + 200_000 * b"G" + b"\nG\n",
    "one line of 200,000 bytes at the end": b"J 0 1 1\n" + 200_000 * b" ",
    "overlong line that ends like a grant": b"J 0 1 1\n" + 65_535 * b" " + b"G\nG\n",
    "200,000 empty lines": 200_000 * b"\n",
    "15,000 grants and returns of 0": b"J 0 1 1\n" + 15_000 * b"G\nU 0 0 0\n",
}


def small_pieces(data):
    """Uneven small pieces, so that lines come broken up."""
    sizes = itertools.cycle((1, 2, 3, 5, 8, 13, 40, 41, 64))
    at = 0
    while at < len(data):
        size = next(sizes)
        yield data[at:at + size]
        at += size


def feed(pipe, pieces):
    """Writes the run; a program that has ended already is noticed elsewhere."""
    try:
        for piece in pieces:
            pipe.write(piece)
            pipe.flush()
        pipe.close()
    except BrokenPipeError:
        pass


def lines_of(pieces):
    """The lines of a run that comes in pieces."""
    rest = b""
    for piece in pieces:
        *whole, rest = (rest + piece).split(b"\n")
        yield from whole
    if rest:
        yield rest


class Difference(Exception):
    """The program and the oracle print different things."""


def describe(count, line, printed, wanted):
    return (f"line {count}: {'(header)' if line is None else repr(line)}\n"
            f"  program: {printed}\n  oracle:  {wanted}")


def compare_run(program, pieces, for_oracle):
    """Compares line by line, nothing is kept. Gives the number of lines."""
    process = subprocess.Popen([program], stdin=subprocess.PIPE,
                               stdout=subprocess.PIPE)
    writer = threading.Thread(target=feed, args=(process.stdin, pieces), daemon=True)
    writer.start()
    try:
        count = compare_lines(process.stdout, for_oracle)
    except Difference:
        process.kill()
        raise
    finally:
        process.stdout.close()
        status = process.wait()
    if status != 0:
        raise Difference(f"the program ended with status {status}")
    return count


def compare_lines(output, lines):
    """Each printed line beside the oracle's; the header counts as line 0."""
    given, read = itertools.tee(lines)
    inputs = itertools.chain([None], given)
    count = -1
    for wanted, line in zip(oracle.answers(read), inputs):
        count += 1
        printed = output.readline()
        if printed != wanted.encode() + b"\n":
            shown = printed.decode("latin-1").rstrip("\n") or "(nothing)"
            raise Difference(describe(count, line, shown, wanted))
    surplus = output.readline()
    if surplus:
        raise Difference(f"after the last line the program prints {surplus!r}")
    return count


def runs_by_hand(program):
    total = 0
    for name, data in RUNS_BY_HAND.items():
        try:
            total += compare_run(program, [data], oracle.split_lines(data))
        except (Difference, oracle.CheckFailed) as problem:
            raise Difference(f"run by hand, {name}: {problem}") from None
    return total


def one_random_run(program, seed, count, kind):
    try:
        if kind == generate.CEILING:
            for_oracle = lines_of(generate.ceiling_run(seed, count))
            return compare_run(program, generate.ceiling_run(seed, count), for_oracle)
        data = generate.make_run(seed, count, kind)
        pieces = small_pieces(data) if seed % PIECES_EVERY == 0 else [data]
        return compare_run(program, pieces, oracle.split_lines(data))
    except (Difference, oracle.CheckFailed) as problem:
        where = f"seed {seed}, {count} lines, kind {kind}"
        raise Difference(f"{where}, {problem}") from None


def random_runs(program, chosen):
    kinds = [chosen.kind] if chosen.kind else generate.NAMES
    total = 0
    for index in range(chosen.runs):
        kind = kinds[index % len(kinds)]
        seed = chosen.seed + index
        total += one_random_run(program, seed, chosen.lines, kind)
        end = "\n" if (index + 1) % 8 == 0 or index + 1 == chosen.runs else " "
        print(f"{seed}:{kind}", end=end, flush=True)
    return total


def read_options():
    options = argparse.ArgumentParser(
        description="Compares bandtrace with the oracle on random runs.")
    options.add_argument("--program", type=Path, default=PROVED)
    options.add_argument("--runs", type=int, default=26)
    options.add_argument("--lines", type=int, default=1000)
    options.add_argument("--seed", type=int, default=1)
    options.add_argument("--kind", choices=[*generate.NAMES, generate.CEILING])
    return options.parse_args()


def main():
    chosen = read_options()
    if not chosen.program.is_file():
        missing = os.path.relpath(chosen.program)
        print(f"compare: there is no program {missing}", file=sys.stderr)
        return 1
    program = str(chosen.program.resolve())
    began = time.perf_counter()
    try:
        by_hand = runs_by_hand(program)
        by_chance = random_runs(program, chosen)
    except Difference as difference:
        print(f"\nDIFFERENCE: {difference}")
        return 1
    taken = time.perf_counter() - began
    print(f"no difference: {by_chance} lines in {chosen.runs} random runs, "
          f"{by_hand} lines in {len(RUNS_BY_HAND)} runs by hand, {taken:.1f} s")
    return 0


if __name__ == "__main__":
    sys.exit(main())
