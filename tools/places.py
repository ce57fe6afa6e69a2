#!/usr/bin/env python3
"""Lists the places in crates/*/src that read like an older Rattle, point by point (docs/DESIGN-PASS.md).

    python3 tools/places.py [-v] [FOLDER]

A pattern can only point at a place; whether it is one is judged on the page."""
import collections
import difflib
import itertools
import pathlib
import re
import sys

PATTERNS = {
    "1 an error that a match only passes up": r"return Err\((?:e|refusal|fault)\)|Err\((?:e|refusal|fault)\) => Err\((?:e|refusal|fault)\)",
    "1 None turned into Err by a match": r"None => Err\(",
    "1 an error in an Option": r"-> Option<Refusal>",
    "1 a flag beside a value": r"^\s+(?:pub(?:\([a-z]+\))? )?[a-z_]+: bool,",
    "1 an answer that mixes done and refused": r"^\s+(?:Refused|RefusedAt|Bad)\((?!#)",
    "3 a while loop that counts": r"while [^{]*\b(?:at|i|index|start)\b[^{]*<[^{]*\{",
    "3 a loop that adds or takes one": r"^\s+(?:at|i|index|start|count|line) [+-]= ",
    "3 a for over indices": r"for [a-z_]+ in [^{]*\.\.",
    "3 a for that only counts, tests or looks for the largest": r"^\s+(?:count \+= |deepest = |return (?:false|true|i|None);$)",
    "4 a cast where From or TryFrom exists": r" as (?:u8|u16|u32|u64|u128|usize)\b",
    "4 From or Display of an error by hand": r"^impl.* (?:From<|fmt::Display for (?:BadLine|NotDone))",
    "4 words of an enum with no Display": r"fn words?\(",
    "4 an enum compared by a match": r"^\s+_ => false,",
    "6 a length beside a lent slice or an array": r"^\s+(?:filed|written|depth|length): usize,",
    "6 records that name others by index": r"^\s+(?:pub )?(?:end|label|head): usize,",
}


def functions(text):
    """(name, parameters, clauses) of each function that has clauses or parameters."""
    for m in re.finditer(r"\bfn (\w+)(?:<[^(]*>)?\(", text):
        depth, i = 1, m.end()
        while depth:
            depth += {"(": 1, ")": -1}.get(text[i], 0)
            i += 1
        parameters = re.sub(r"\s+", " ", text[m.end() : i - 1])
        clauses = []
        while True:
            c = re.compile(r"[^;{]*?\b(?:requires|ensures)\*? ?\w* ?\{").match(text, i)
            if not c:
                break
            depth, j = 1, c.end()
            while depth:
                depth += {"{": 1, "}": -1}.get(text[j], 0)
                j += 1
            clauses.append(re.sub(r"\s+", " ", text[c.end() : j - 1]).strip())
            i = j
        yield m.group(1), parameters, clauses


def shape(body):
    """The tokens of a body, with its names and numbers made alike."""
    tokens = re.findall(r"[A-Za-z_]\w*|\d[\w]*|\S", re.sub(r"//[^\n]*", "", body))
    keywords = {"if", "else", "match", "for", "in", "while", "loop", "let", "mut", "return", "Ok", "Err", "Some", "None", "self"}
    return tuple("0" if t[0].isdigit() else t if t in keywords or not (t[0].isalpha() or t[0] == "_") else "a" for t in tokens)


def bodies(text):
    """(name, body) of each function."""
    for m in re.finditer(r"\bfn (\w+)", text):
        i, depth, clause = m.end(), 0, False
        while i < len(text) and not (text[i] in "{;" and depth == 0 and not clause):
            if re.compile(r"\b(?:requires|ensures)\b").match(text, i):
                clause = True
            depth += {"(": 1, "[": 1, "{": 1, ")": -1, "]": -1, "}": -1}.get(text[i], 0)
            if text[i] == "}" and depth == 0:
                clause = False
            i += 1
        if i == len(text) or text[i] == ";":
            continue
        j, depth = i + 1, 1
        while depth:
            depth += {"{": 1, "}": -1}.get(text[j], 0)
            j += 1
        yield m.group(1), text[i + 1 : j - 1]


def main():
    verbose = "-v" in sys.argv
    rest = [a for a in sys.argv[1:] if a != "-v"]
    top = pathlib.Path(rest[0] if rest else ".")
    files = sorted(p for p in top.glob("crates/*/src/**/*.rt"))
    found = collections.defaultdict(list)
    for path in files:
        for n, line in enumerate(path.read_text().split("\n"), 1):
            if line.lstrip().startswith(("//", "ghost use")):
                continue
            for name, pattern in PATTERNS.items():
                if re.search(pattern, line):
                    found[name].append(f"{path.relative_to(top)}:{n}: {line.strip()}")
    shapes = []
    for path in files:
        for name, body in bodies(path.read_text()):
            tokens = shape(body)
            if len(tokens) >= 22:
                shapes.append((f"{path.relative_to(top)} {name}", tokens))
    for (a, x), (b, y) in itertools.combinations(shapes, 2):
        matcher = difflib.SequenceMatcher(None, x, y, autojunk=False)
        if matcher.real_quick_ratio() >= 0.85 and matcher.quick_ratio() >= 0.85 and matcher.ratio() >= 0.85:
            found["2 two functions of nearly one shape"].append(f"{a} ~ {b}")
    for crate in sorted(top.glob("crates/*/src")):
        facts, together = collections.defaultdict(set), collections.defaultdict(set)
        for path in sorted(crate.rglob("*.rt")):
            for name, parameters, clauses in functions(path.read_text()):
                where = f"{path.relative_to(top)} {name}"
                for clause in clauses:
                    for fact in re.split(r" × ", clause):
                        fact = re.sub(r"\.(old|now)\b", ".now", fact.strip("() "))
                        facts[fact].add(where)
                names = [p.strip() for p in parameters.split(", ") if ":" in p]
                for pair in itertools.combinations(sorted(names), 2):
                    together[pair].add(where)
        for fact, places in sorted(facts.items()):
            if len(places) >= 3 and "result" not in fact:
                found["5 a fact in three or more contracts"].append(f"{crate.parent.name}: {fact}: {len(places)}")
        for pair, places in sorted(together.items()):
            if len(places) >= 3:
                found["5 parameters that travel together"].append(f"{crate.parent.name}: {', '.join(pair)}: {len(places)}")
    for name in sorted(found):
        print(f"{name}: {len(found[name])}")
        if verbose:
            for place in found[name]:
                print(f"    {place}")


main()
