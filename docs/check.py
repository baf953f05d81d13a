#!/usr/bin/env python3
"""Are the documents true of the files?

    python3 docs/check.py             prints each problem on a line, and ends with status 1 if there is one
    python3 docs/check.py --counts    writes the present counts and line numbers into docs/TRUST.md and README.md first

Of README.md and docs/*.md it looks at

- files: what stands in backticks or in a link and looks like a path is there, from the root or below crates/;
- links to lines: the three to Demands.antt in README lead to the lines `-- 1.`, `-- 2.` and `-- 3.`;
- figures: README's numbers of functions, edits and compared lines;
- names: in a row of PROMISES what follows a file of proofs or definitions is declared there, what follows `code`
  is a function of some src/; in README so are the names of "`name` in `file`";
- edits: each that PROMISES names is there, each that is there is named, and the text that it replaces stands once in its file;
- TRUST: the counts in brackets, every file of specs/ is named, and what follows a file of src/ in a list is there;
- width: a line of prose has at most 160 characters.

DECISIONS is history, and its names may be gone: of it only paths are looked at, in entries that are not replaced. PORT and DESIGN-PASS set old text beside new:
of them only the width.
"""

import re
import sys
from pathlib import Path

ROOT = Path(__file__).resolve().parent.parent
CRATES = ROOT / "crates"
PROMISES, TRUST, DECISIONS, PORT, DESIGN = (ROOT / "docs" / n for n in (
    "PROMISES.md", "TRUST.md", "DECISIONS.md", "PORT.md", "DESIGN-PASS.md"))
README = ROOT / "README.md"
WIDEST = 160
WORDS = {"requires", "ensures"}         # of the language, not names
MODIFIERS = {"pub", "abbrev", "unfoldable", "private", "opaque"}
FILE = re.compile(r"[\w./·-]+\.(?:antt|rt|rs|py|md|run|txt|edit)")
BELOW = re.compile(r"[\w.·-]+(?:/[\w.·-]+)*/|[\w.·-]+(?:/[\w.·-]+)+")
NAME = re.compile(r"[^\W\d_][\w·'’-]*(?:::\w+)?")
LINK = re.compile(r"\]\(([^)#\s]+)(?:#L(\d+))?\)")
FN = re.compile(r"^\s*(?:pub(?:\(crate\))? )?(?:extern \"C\" )?fn (\w+)", flags=re.M)
TICKED = re.compile(r"`([^`]+)`")
problems = []


def problem(path, text):
    problems.append(f"{path.relative_to(ROOT)}: {text}")


def found(word, beside=None):
    """The file or folder that a document calls `word`; None if there is none."""
    word = word.removeprefix("./")
    for base in (ROOT, CRATES, beside):
        if base is not None and (base / word).exists():
            return base / word
    name = word.rstrip("/")
    if "/" not in name:                 # Lib.antt, or specs/: a name that many crates have
        return next(CRATES.glob(f"*/{name}"), None) or next(CRATES.glob(f"*/*/{name}"), None)
    return None


def declared(path):
    """The names that a file of definitions or proofs declares, fields too."""
    names = set()
    for line in path.read_text(encoding="utf-8").splitlines():
        words = line.split("--")[0].split()
        while words and words[0] in MODIFIERS:
            words = words[1:]
        if words and words[0] in ("record", "data", "ruleset") and len(words) > 1:
            names.add(words[1])
        elif ":" in words:
            before = words[:words.index(":")]
            if not any(c in w for w in before for c in "(){}=→λ"):
                names.update(before)
    return names


def functions():
    """`name` and `Type::name` of every fn in src/."""
    names = set()
    for path in CRATES.glob("*/src/**/*.rt"):
        of = None
        for line in path.read_text(encoding="utf-8").splitlines():
            if m := re.match(r"impl(?:<[^>]*>)? (\w+)", line):
                of = m[1]
            elif line.startswith("}"):
                of = None
            elif m := FN.match(line):
                names.add(m[1])
                if of:
                    names.add(f"{of}::{m[1]}")
    return names


def without_fences(text):
    return re.sub(r"^```.*?^```$", "", text, flags=re.S | re.M)


def paths(path, text, strict=False):
    """Each path in backticks and each link leads somewhere. `strict`: only what has folders and an ending is a path."""
    beside = None
    for token in TICKED.findall(text):
        for word in token.split():
            is_file, is_below = FILE.fullmatch(word), BELOW.fullmatch(word)
            if not (is_file and "/" in word if strict else is_file or is_below):
                continue
            there = found(word, beside)
            if there is None:
                problem(path, f"no file `{word}`")
            elif there.is_file():
                beside = there.parent
    for target, line in LINK.findall(text):
        if "://" in target:
            continue
        there = next((b / target for b in (path.parent, ROOT) if (b / target).exists()), None)
        if there is None:
            problem(path, f"a link to {target}, which is not there")
        elif line and int(line) > len(there.read_text(encoding="utf-8").splitlines()):
            problem(path, f"a link to line {line} of {target}, which is shorter")


def width(path, text):
    for line in text.splitlines():
        if len(line) > WIDEST and not line.startswith("|"):
            problem(path, f"{len(line)} characters in the line that starts '{line[:40]}'")


LEADS = re.compile(r"(?<=\(crates/account/proofs/Demands\.antt#L)\d+(?=\))")


def line_links(rewrite):
    text = README.read_text(encoding="utf-8")
    lines = (CRATES / "account/proofs/Demands.antt").read_text(encoding="utf-8").splitlines()
    right = [str(i + 1) for k in (1, 2, 3) for i, line in enumerate(lines) if line.startswith(f"-- {k}.")]
    at = LEADS.findall(text)
    if at == right:
        return
    if rewrite and len(at) == len(right) == 3:
        following = iter(right)
        README.write_text(LEADS.sub(lambda m: next(following), text), encoding="utf-8")
    else:
        problem(README, f"the demands stand at the lines {', '.join(right)} of Demands.antt, and the links lead to {', '.join(at)}")


def figures(rewrite):
    """The rows `| what | number | ...` of README's figures that can be counted here."""
    source = "".join(p.read_text(encoding="utf-8") for p in CRATES.glob("*/src/**/*.rt"))
    counted = {
        "functions proved": len(FN.findall(source)),
        "edits refused": len(list(CRATES.glob("*/must-fail/*.edit"))),
        "lines compared": len((CRATES / "bandtrace/stdout").read_text(encoding="utf-8").splitlines()) - 1,
    }
    for what, number in counted.items():
        text = README.read_text(encoding="utf-8")
        row = re.search(rf"(?<=^\| {what} \| )[\d,]+", text, flags=re.M)
        if row is None:
            problem(README, f"no figure for {what}")
        elif row[0] != f"{number:,}":
            if rewrite:
                README.write_text(f"{text[:row.start()]}{number:,}{text[row.end():]}", encoding="utf-8")
            else:
                problem(README, f"{what}: {number:,}, not {row[0]}")


def cells(text, wanted):
    """The cells under the head `wanted`, in each table that has it."""
    column = None
    for line in text.splitlines():
        if not line.startswith("|"):
            column = None
            continue
        row = [c.strip() for c in line.strip().strip("|").split("|")]
        heads = [i for i, c in enumerate(row) if c.startswith(wanted)]
        if column is None:
            column = heads[0] if heads else -1
        elif 0 <= column < len(row) and not set(row[column]) <= set("-: "):
            yield row[column]


def names_held(code):
    everywhere = {}
    crates = {p.name for p in CRATES.iterdir()}
    for cell in cells(PROMISES.read_text(encoding="utf-8"), "Held by"):
        file, end, beside = None, 0, None
        for m in TICKED.finditer(cell):
            between, token, end = cell[end:m.start()], m[1], m.end()
            if re.search(r"\b(?:code|contracts?)\b", between):
                file = None
            if FILE.fullmatch(token) or token.endswith("/"):
                there = found(token, beside)
                file = there if there is not None and there.suffix == ".antt" else None
                beside = there.parent if there is not None else None
                continue
            if not NAME.fullmatch(token) or token in WORDS or token in crates:
                continue
            if file is not None:
                if token not in declared(file):
                    problem(PROMISES, f"{file.relative_to(CRATES)} declares no `{token}`")
            elif token not in code:
                everywhere = everywhere or {n for p in CRATES.glob("*/specs/*.antt") for n in declared(p)}
                if token not in everywhere:
                    problem(PROMISES, f"no function of src/ is called `{token}`")


def names_in(path, code):
    some = r"`[^`]+`"
    for names, word in re.findall(rf"((?:{some}(?:, | and ))*{some}) in `([^`]+\.(?:antt|rt))`", path.read_text(encoding="utf-8")):
        there = found(word)
        if there is None or not there.is_file():
            continue
        text = there.read_text(encoding="utf-8")
        for name in filter(NAME.fullmatch, TICKED.findall(names)):
            if there.suffix == ".antt":
                known = name in declared(there)
            else:
                last = name.split("::")[-1]
                known = ("::" not in name or name in code) and re.search(rf"\b(?:fn|struct|enum|const) {last}\b", text)
            if not known:
                problem(path, f"`{name}` is not in {word}")


def edits():
    there = {f"{p.parent.parent.name}/{p.stem}" for p in CRATES.glob("*/must-fail/*.edit")}
    named = set()
    for cell in cells(PROMISES.read_text(encoding="utf-8"), "Edit"):
        named.update(re.findall(r"\b[a-z]+/(?:\w+|\*)", cell))
    for name in sorted(named):
        if not (name in there or name.endswith("/*") and any(t.startswith(name[:-1]) for t in there)):
            problem(PROMISES, f"no edit {name}")
    for name in sorted(there):
        if name not in named and name.split("/")[0] + "/*" not in named:
            problem(PROMISES, f"the edit {name} is not named")


MENTION = re.compile(r"`(\w+)/specs/`|`(\w+/(?:specs|proofs|src)/\w+\.(?:antt|rt))`(?: \((\d+)\))?|\b([A-Z]\w*)(?: \((\d+)\))?")


def edits_apply():
    """An edit whose old text has gone would fail the gate only when the gate comes to it."""
    for edit in sorted(CRATES.glob("*/must-fail/*.edit")):
        texts, name, old = {}, None, None
        for line in edit.read_text(encoding="utf-8").splitlines():
            if line.startswith("file: "):
                name = edit.parent.parent / line[len("file: "):]
            elif line.startswith("old: "):
                old = line[len("old: "):]
            elif line.startswith("new:"):
                text = texts.get(name) or (name.read_text(encoding="utf-8") if name.exists() else "")
                if text.count(old) != 1:
                    problem(edit, f"its old text stands {text.count(old)} times in {name.name}")
                texts[name] = text.replace(old, line[len("new: "):], 1)


def trust(rewrite):
    text = TRUST.read_text(encoding="utf-8")
    named, crate, out, end = set(), None, [], 0
    for m in MENTION.finditer(text):
        out.append(text[end:m.start()])
        end, whole = m.end(), m[0]
        if "\n\n" in out[-1] or "\n- " in out[-1]:
            crate = None
        path, count = None, m[3] or m[5]
        if m[1]:
            crate = m[1]
        elif m[2]:
            path = CRATES / m[2]
        elif crate and (CRATES / crate / "specs" / f"{m[4]}.antt").exists():
            path = CRATES / crate / "specs" / f"{m[4]}.antt"
        elif count:
            problem(TRUST, f"no file for {whole}")
        if path is not None and path.exists():
            named.add(path)
            lines = len(path.read_text(encoding="utf-8").splitlines())
            if count and int(count) != lines:
                if rewrite:
                    whole = whole.replace(f"({count})", f"({lines})")
                else:
                    problem(TRUST, f"{path.relative_to(CRATES)} has {lines} lines, not {count}")
        out.append(whole)
    out.append(text[end:])
    if rewrite:
        TRUST.write_text("".join(out), encoding="utf-8")
    for path in sorted(CRATES.glob("*/specs/*.antt")):
        if path.name != "Lib.antt" and path not in named:
            problem(TRUST, f"{path.relative_to(CRATES)} is not named")


def names_of_source():
    for item in re.findall(r"^- .*(?:\n  .*)*", TRUST.read_text(encoding="utf-8"), flags=re.M):
        file = None
        for token in TICKED.findall(item):
            if FILE.fullmatch(token):
                there = found(token)
                file = there if there is not None and there.suffix == ".rt" else None
            elif file is not None and NAME.fullmatch(token):
                last = token.split("::")[-1]
                if not re.search(rf"\b(?:fn|struct|enum|const) {last}\b", file.read_text(encoding="utf-8")):
                    problem(TRUST, f"{file.relative_to(CRATES)} has no `{token}`")


def main():
    rewrite = sys.argv[1:] == ["--counts"]
    if sys.argv[1:] and not rewrite:
        sys.exit("usage: python3 docs/check.py [--counts]")
    documents = [README, *sorted((ROOT / "docs").glob("*.md"))]
    code = functions()
    for path in documents:
        text = without_fences(path.read_text(encoding="utf-8"))
        width(path, text)
        if path in (PORT, DESIGN):
            continue
        if path == DECISIONS:
            entries = [e for e in text.split("\n\n") if "(replaced" not in e]
            paths(path, "\n\n".join(entries), strict=True)
        else:
            paths(path, text)
            names_in(path, code)
    line_links(rewrite)
    figures(rewrite)
    names_held(code)
    names_of_source()
    edits()
    edits_apply()
    trust(rewrite)
    for line in problems:
        print(line)
    if problems:
        sys.exit(1)
    print(f"docs: {len(documents)} documents agree with the files")


if __name__ == "__main__":
    main()
