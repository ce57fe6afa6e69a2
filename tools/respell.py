#!/usr/bin/env python3
"""Spells the repository's own definitions, constructors, fields and lemmas as today's Rattle does.

usage: python3 tools/respell.py [--list]     at the top, once, right after port.py

Words are in snake case; a dash stays only where it joins two names, as in length-items.
Names that Rattle makes of the code (goals, loops, branches), names of src/ and the library's stay as they are.
"""
import collections
import os
import re
import sys

DECLARED = re.compile(r"^\s*(?:(?:abbrev|unfoldable|pub|ghost)\s+)*([^\s(){};,.λ:]+)\s*:(?:\s|$)(.*)")
WORD = re.compile(r"[A-Za-z_ℕ\u0370-\u03ff][\w'′-]*[A-Za-z0-9_'′]|[A-Za-z_]")
CASED = re.compile(r"^[a-z][\w'-]*[A-Z]")
USED = re.compile(r"use\s+([\w.]+)\.\{([^}]*)\}")


# names that would fall together with another, or with a function that stands beside them
APART = {
    "and-then": "and_then_some",
    "in-loop": "body_in_loop",
    "in-while": "body_in_while",
    "loopDo": "loop_do_end",
    "whileDo": "while_do_end",
    "mark-by": "mark_from",
    "record-at": "record_at_found",
    "text-on": "text_on_page",
    "after-while": "past_while",
    "box-step": "box_step_is_written",
    "box-steps": "box_total",
    "written-steps": "written_total",
    "code-size": "code_size-flat_from",
    "flat-size": "flat_size-flat_from",
    "many-done": "many-many_done",
    "one-while": "single_while",
    "text-b": "text_b_spells",
    "text-c": "text_c_spells",
    "text-d": "text_d_spells",
    "loopNumber": "loop_count",
    "blockNumber": "block_count",
    "levelNumber": "level_count",
    "levelsAround": "blocks_around",
}


def files(*ends):
    for folder, dirs, names in os.walk("crates"):
        dirs[:] = sorted(d for d in dirs if d not in ("out", "target"))
        for f in sorted(names):
            if f.endswith(ends):
                yield os.path.join(folder, f)


def snake(word):
    word = word.replace("getD", "get_or")
    word = re.sub(r"(?<=[a-z0-9])([A-Z])", lambda m: "_" + m.group(1).lower(), word)
    return word


def main():
    texts = {p: open(p, encoding="utf-8").read() for p in files(".antt", ".rt")}
    declared = collections.defaultdict(set)
    fields = set()
    members = set()
    functions = set()
    made = set()
    library = set()
    for p, t in texts.items():
        for m in USED.finditer(t):
            if not m.group(1).startswith("Rattle.") or m.group(1).startswith("Rattle.std."):
                library |= {w.strip() for w in m.group(2).split(",")}
        if not p.endswith(".antt"):
            continue
        answers = "/proofs/" in p and not os.path.dirname(p).endswith("proofs")
        inside = built = False
        for line in t.split("\n"):
            if line and not line[0].isspace():
                inside = line.startswith(("record", "pub record"))
                built = line.startswith(("data", "pub data"))
            m = DECLARED.match(line.split("--")[0])
            if not m:
                continue
            if answers and re.search(r"\b(goal|given|need)\.", m.group(2)):
                made.add(m.group(1))
                continue
            declared[m.group(1)].add(p)
            if re.match(r"\s*(pub )?(abbrev|unfoldable)\b", line):
                functions.add(m.group(1))
            if (inside or built) and line[0].isspace():
                members.add(m.group(1))
            if inside and line[0].isspace():
                fields.add(m.group(1))
    known = {snake(n) for n in functions if "-" not in n} | library

    def respelled(name):
        parts = [snake(x) for x in name.split("-")]
        out = parts[0]
        for i in range(1, len(parts)):
            before = "_".join(parts[:i])
            after = "_".join(parts[i:])
            joins = name not in members and name not in functions and len(parts) == 2 and before in known and after in known
            out += ("-" if joins else "_") + parts[i]
        return out

    to = {}
    for n in declared:
        if n in made or n in library:
            continue
        if "-" in n or CASED.match(n):
            new = APART.get(n) or respelled(n)
            if new != n:
                to[n] = new
    back = collections.defaultdict(set)
    for a, b in to.items():
        back[b].add(a)
    bad = False
    for b, olds in sorted(back.items()):
        if len(olds) > 1 or b in declared or b in library or b in made:
            print("falls together:", b, sorted(olds), sorted(declared.get(b, [])), "library" if b in library else "")
            bad = True
    everywhere = collections.defaultdict(set)
    for p, t in texts.items():
        for m in WORD.finditer(t):
            if m.group(0) in back:
                everywhere[m.group(0)].add(p)
    for b, where in sorted(everywhere.items()):
        print("stands already:", b, sorted(back[b]), sorted(where)[:6])
    if "--list" in sys.argv:
        for a in sorted(to):
            print(a, "->", to[a], "(field)" if a in fields else "")
        return 0

    def turn(m):
        w, at = m.group(0), m.start()
        if w not in to:
            return w
        dotted = at > 0 and m.string[at - 1] == "."
        if dotted and w not in fields and not re.search(r"Rattle\.[\w.]*\.$", m.string[max(0, at - 200):at]):
            return w
        return to[w]

    for p in files(".antt", ".rt", ".edit"):
        t = open(p, encoding="utf-8").read()
        new = WORD.sub(turn, t)
        if new != t:
            with open(p, "w", encoding="utf-8") as f:
                f.write(new)
    return 0


if __name__ == "__main__":
    raise SystemExit(main())
