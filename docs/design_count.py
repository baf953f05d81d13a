#!/usr/bin/env python3
"""Candidates for the points of DESIGN-PASS in src/ and proofs/, place by place.

    python3 docs/design_count.py [COMMIT]    of the working files, or of a commit

What a pattern finds is a candidate: the page says of each what it came to. The patterns:

1  enums with a variant that carries nothing or a refusal beside others; fields of type bool; numbers that stand for a kind, a refusal or "none"
2  functions whose bodies are the same once names and numbers are taken out, and loops whose bodies are
3  every loop that is written out
4  `match` arms that only say true or false, casts, `if a < b { return a; }`, byte by byte literals, functions that convert or print
5  facts that stand in the `requires` of three functions or more, and pairs of parameters that three or more have
6  a buffer and a place in it, in one signature or one struct
7  `match` whose arms are all bare calls without arguments, tables of functions
8  files and lines of answers, answers, and names of lemmas that two files of answers have
"""

import re
import subprocess
import sys
from collections import Counter, defaultdict

COMMIT = sys.argv[1] if len(sys.argv) > 1 else None


def git(*args):
    return subprocess.run(["git", *args], capture_output=True, text=True, check=True).stdout


def files(ending, folder):
    names = git("ls-tree", "-r", "--name-only", COMMIT, "crates") if COMMIT else git("ls-files", "crates")
    return [n for n in names.split() if n.endswith(ending) and f"/{folder}/" in n]


def text(name):
    return git("show", f"{COMMIT}:{name}") if COMMIT else open(name, encoding="utf-8").read()


def show(point, places):
    print(f"{point}: {len(places)}")
    for place in places:
        print(f"    {place}")


SOURCES = {name: text(name) for name in files(".rt", "src")}
FN = re.compile(r"^( *)(?:pub(?:\(crate\))? )?(?:const )?fn (\w+)(?:<[^>]*>)?\((.*?)\)(?: -> ([^\n{]*?))?\s*\n?((?:\s*(?:requires|ensures)[^\n]*\n)*)\s*\{\n(.*?)^\1\}",
                flags=re.M | re.S)


def functions():
    for name, source in SOURCES.items():
        for m in FN.finditer(source):
            yield name, m[2], re.sub(r"\s+", " ", m[3]), (m[4] or "").strip(), m[5], m[6]


def code(source):
    return "\n".join(line.split("//")[0].rstrip() for line in source.splitlines())


def where(pattern, flags=re.M):
    return [f"{name.split('crates/')[1]}:{code(source)[:m.start()].count(chr(10)) + 1}: {m[0].strip().splitlines()[0]}"
            for name, source in SOURCES.items() for m in re.finditer(pattern, code(source), flags)]


enums = [f"{name.split('crates/')[1]}: {m[1]}" for name, source in SOURCES.items()
         for m in re.finditer(r"enum (\w+) \{\n(.*?)^\}", code(source), flags=re.M | re.S)
         if re.search(r"^    (\w+),$", m[2], flags=re.M) and "(" in m[2] or "Nothing" in m[2]]
show("1 enums", enums)
show("1 flags", where(r"^ +(?:pub )?\w+: bool,"))
show("1 numbers", where(r"^ +(?:pub )?(?:faults|rule|default|answer): u64,|^    queue: crate::QUEUES,|return 64;|const BROKEN.*|fn number.*|^    (?:pub )?queue: u64,"))


def shape(body):
    body = re.sub(r"\b[a-z_]\w*\b(?!!)", "n", code(body))
    return re.sub(r"\s+", " ", re.sub(r"\b[A-Z_]\w*\b|\b\d[\d_]*\b|b'.'|\"[^\"]*\"", "N", body)).strip()


alike = defaultdict(list)
for name, fn, _, _, _, body in functions():
    if len(code(body).strip().splitlines()) > 1:
        alike["function", shape(body)].append(f"{name.split('crates/')[1]} {fn}")
    for m in re.finditer(r"^( +)(?:while|for|loop) .*?\{\n(.*?)^\1\}", body, flags=re.M | re.S):
        alike["loop", shape(m[2])].append(f"{name.split('crates/')[1]} {fn}")
show("2 the same shape", [f"{kind}: {', '.join(v)}" for (kind, _), v in alike.items() if len(v) > 1])
show("3 loops", where(r"^ *(?:while|for|loop) .*"))
show("4 arms that say true or false", where(r"^ +[\w:]+(?:\(_\)| \{ \.\. \})? => (?:true|false),"))
show("4 casts", where(r"^.* as (?:u8|u64|usize|i64)\b.*"))
show("4 the lesser by hand, bytes one by one", where(r"if (\w) < (\w) \{\s*return \1;|b'\w', b'\w', b'\w', b'\w'.*"))
show("4 conversions and printing", where(r"fn (?:number|shown|put|fill|places|dashes|sums|write_answer|zero_leads|returned|fresh_of|header|from|goes_before|lesser)\b.*"))
facts, pairs = defaultdict(set), defaultdict(set)
for name, fn, params, _, clauses, _ in functions():
    here = f"{name.split('crates/')[1]} {fn}"
    for line in re.findall(r"requires \{ (.*) \}", clauses):
        for fact in line.split(" × "):
            facts[re.sub(r"\.(?:old|now)\b", "", fact.strip("() "))].add(here)
    own = [p.split(":")[0].strip() for p in params.split(",") if ":" in p]
    for i, a in enumerate(own):
        for b in own[i + 1:]:
            pairs[a, b].add(here)
show("5 facts", [f"{k}: {len(v)}" for k, v in facts.items() if len(v) > 2])
show("5 parameters", [f"{a}, {b}: {len(v)}" for (a, b), v in pairs.items() if len(v) > 2])
show("6 buffers", [f"{name.split('crates/')[1]} {fn}({params})" for name, fn, params, _, _, _ in functions()
                   if re.search(r"\[u8\]", params) and re.search(r"\b(?:at|from|have|end): usize", params)]
     + where(r"^ +(?:pub )?(?:from|have|at): usize,"))
show("7 switches and tables", where(r"\[(?:fn|&dyn|Box<dyn).*"))
answers = {name: text(name) for name in files("Answers.antt", "proofs")}
invariants = {name: text(name) for name in files("Invariants.antt", "proofs")}
lemmas = Counter(m for t in answers.values() for m in set(re.findall(r"^ *(\w[\w'-]*) : ", t, flags=re.M)))
print(f"8 answers: {sum(len(re.findall(r'^pub [^:]* : goal', t, flags=re.M)) for t in answers.values())} in {len(answers)} files of "
      f"{sum(t.count(chr(10)) for t in answers.values())} lines; {len(invariants)} files of invariants")
show("8 lemmas of one name in two files of answers", [n for n, k in lemmas.items() if k > 1])
