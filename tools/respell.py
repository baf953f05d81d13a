#!/usr/bin/env python3
"""Respells this repository's own definitions, fields and lemmas to today's Rattle: camelCase and kebab-case become snake_case; types and modules keep
their capitals. Run once, at the top, right after the port's script. Names of src/ are in snake case already, and texts of edits follow what they edit.

  tools/respell.py          rewrites the files
  tools/respell.py --list   prints old and new name of each, and the names that would fall together in a file
"""

import os
import re
import sys

# A lemma that would have the name of what it is about gets `_lem`; a field that would, a name of its own; and `first_of` is a tactic.
OTHERWISE = {
    "longest-seen": "longest_seen_lem",
    "queue-outside": "queue_outside_lem",
    "length-outside": "length_outside_lem",
    "entry-empty": "entry_empty_lem",
    "orderly-slice": "orderly_slice_lem",
    "seen_as": "seen_as_lem",
    "in-range": "in_range_lem",
    "orderly-as": "orderly_as_lem",
    "orderly-request": "orderly_request_lem",
    "orderly-row": "orderly_row_lem",
    "first_of": "first_refusal",
    "first-of": "first_or_later",
    "is-asking": "state_asking",
    "slice-least": "slice_low",
    "slice-most": "slice_high",
}
# .. and the same where another file uses the word for something else
OTHERWISE_IN = {
    "crates/head/proofs/Slice.antt": {"held_by": "held_by_lem", "orderly-holder": "orderly_holder_lem"},
    "crates/cases/": {"is_free": "stands_free", "is-going": "stands_going"},
}
DECLARED = re.compile(r"^\s*(?:(?:abbrev|unfoldable)\s+)?(?:pub\s+)?(?:abbrev\s+|unfoldable\s+)?(?:record\s+|data\s+|ruleset\s+)?([^\s:(){}]+)\s*(?:\([^=]*?\)\s*|\{[^=]*?\}\s*)*:\s", re.M)
WORD = re.compile(r"[^\s(){}\[\],;.→λ|`\"]+")
TICKED = re.compile(r"`[^`]*`")


def crates():
    for name in sorted(os.listdir("crates")):
        yield os.path.join("crates", name)


def files(*endings):
    for crate in crates():
        for folder, folders, names in os.walk(crate):
            folders[:] = sorted(f for f in folders if f != "out")
            for name in sorted(names):
                if name.endswith(endings):
                    yield os.path.join(folder, name)


def is_shared(path):
    """A file of definitions, or of lemmas that several proofs share: not a function's own proof."""
    parts = path.split(os.sep)
    return "specs" in parts or ("proofs" in parts and len(parts) == 4)


def snake(name):
    if name in OTHERWISE:
        return OTHERWISE[name]
    if "◌" in name or re.search(r"[^\w'′-]", name) or name.startswith("~"):
        return name
    new = name.replace("-", "_")
    if name[0].islower():
        new = re.sub(r"(?<=[a-z0-9])([A-Z])(?=[a-z]|$|[0-9])", lambda m: "_" + m.group(1).lower(), new)
    return new


def names():
    found = {}
    for path in files(".antt"):
        if is_shared(path):
            with open(path, encoding="utf-8") as f:
                for m in DECLARED.finditer(f.read()):
                    name = m.group(1)
                    if name[0].islower() or "-" in name or name in OTHERWISE:
                        found[name] = snake(name)
    return {old: new for old, new in found.items() if old != new}


def table_for(path, table):
    for start, more in OTHERWISE_IN.items():
        if path.startswith(start):
            table = table | more
    return table


def turned(text, table):
    return WORD.sub(lambda m: table.get(m.group(0), m.group(0)), text)


def turned_in_a_proof(text, table):
    """In the proof of a function a word behind a dot is mostly a step of the code, which has the name of what is called."""

    def one(m):
        word = m.group(0)
        if m.start() and text[m.start() - 1] == "." and word in OTHERWISE:
            return word.replace("-", "_")
        return table.get(word, word)

    return WORD.sub(one, text)


def in_comment(text, table):
    """In prose a word with a dash may be English, so only what stands in ticks is turned, and names with a capital inside."""
    text = TICKED.sub(lambda m: turned(m.group(0), table), text)
    camel = {old: new for old, new in table.items() if "-" not in old and re.search(r"[a-z][A-Z]", old)}
    return turned(text, camel)


def line(path, text, mark, table):
    code, at, rest = text.partition(mark)
    turn = turned if path.endswith(".rt") or is_shared(path) else turned_in_a_proof
    return turn(code, table) + at + in_comment(rest, table)


def rewritten(path, text, table):
    table = table_for(path, table)
    if path.endswith(".md"):
        return in_comment(text, table)
    mark = "-- " if path.endswith(".antt") else "// "
    if path.endswith(".edit"):
        return "\n".join(turned(l, table) if l.startswith(("old:", "new:")) else l for l in text.split("\n"))
    return "\n".join(line(path, l, mark, table) for l in text.split("\n"))


def main():
    table = names()
    if "--list" in sys.argv:
        for old, new in sorted(table.items()):
            print(old, new)
        for path in files(".antt", ".rt"):
            with open(path, encoding="utf-8") as f:
                words = set()
                for l in f:
                    words |= set(WORD.findall(l.partition("--")[0] if path.endswith(".antt") else l.partition("//")[0]))
            by = {}
            for w in words:
                by.setdefault(table_for(path, table).get(w, w), set()).add(w)
            for new, olds in sorted(by.items()):
                if len(olds) > 1:
                    print("together:", path, new, sorted(olds))
        return
    pages = [os.path.join(d, f) for d, _, fs in os.walk("docs") for f in fs if f.endswith(".md") and f != "PORT.md"] + ["README.md"]
    for path in list(files(".antt", ".rt", ".edit")) + pages:
        with open(path, encoding="utf-8") as f:
            old = f.read()
        new = rewritten(path, old, table)
        if new != old:
            with open(path, "w", encoding="utf-8") as f:
                f.write(new)


main()
