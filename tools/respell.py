#!/usr/bin/env python3
"""Brings this repository's own words to today's spelling: definitions, lemmas and record fields in snake case.

usage: python3 tools/respell.py [--list]     at the top of the repository, once, right behind the kit's port.py

A name counts as the repository's where a file declares it or imports it from one of its crates; the library's names stay. What src/ declares (functions,
types, constants, fields), exported C names, strings, inputs and outputs stay. Pages and must-fail edits follow, by the same table. --list prints the table.
"""

import collections
import glob
import os
import re
import sys

CRATES = sorted(os.path.basename(os.path.dirname(p)) for p in glob.glob("crates/*/src"))
DECLARED = re.compile(r"^(\s*)((?:abbrev\s+|unfoldable\s+|pub\s+)*)([^\s:(){}=λ]+(?:\s+[^\s:(){}=λ]+)*)\s+:\s")
IMPORT = re.compile(r"^(?:ghost )?(?:pub )?use Rattle\.(\w+)\.\S*?\{(.*?)\};?\s*$")
TOKEN = re.compile(r"[^\s(){}\[\],;:`\"|.]+")
WORDS = {"let", "in", "elim", "record", "data", "module", "use", "where", "as", "unfolding"}

# Names that would fall together with another's new spelling: the lemma is told apart, as in today's library.
APART = {}


class Names(set):
    """The names of a file that are the repository's, and its short names of modules."""

    aliases = frozenset()


def snake(name):
    if name in APART:
        return APART[name]
    if not (re.search(r"[a-z0-9][A-Z]", name) and name[0].islower()) and "-" not in name:
        return name
    out = re.sub(r"(?<=[a-z0-9])([A-Z])", lambda m: "_" + m.group(1).lower(), name) if name[0].islower() else name
    return out.replace("-", "_")


def shared(path):
    """Definitions and lemmas, not the proof of one function."""
    return "/specs/" in path or path.count("/") == 3


def declared(path, text):
    found = []
    for line in text.splitlines():
        m = DECLARED.match(line)
        if not m:
            continue
        names = m.group(3).split()
        if set(names) & WORDS or line.lstrip().startswith("--"):
            continue
        rest = line[m.end():]
        if not shared(path) and (rest.startswith("tie.") or "statement" in rest):
            continue
        found += names
    return found


def fields(text):
    """Names declared inside a record."""
    found, inside = set(), None
    for line in text.splitlines():
        pad = len(line) - len(line.lstrip())
        if re.match(r"\s*(?:pub )?record \S+.* where$", line):
            inside = pad
            continue
        if inside is not None and line.strip():
            if pad <= inside:
                inside = None
            else:
                m = DECLARED.match(line)
                if m:
                    found |= set(m.group(3).split())
    return found


def imported(text):
    found = set()
    for line in text.splitlines():
        m = IMPORT.match(line)
        if m and m.group(1) in CRATES:
            for it in m.group(2).split(","):
                found.add(it.split(" as ")[0].strip())
    return found


def aliases(text):
    return set(re.findall(r"(?m)^(?:ghost )?use Rattle\.\S+ as (\w+);?$", text))


def turn(line, mine, parts, comment):
    out, last = [], 0
    body = line if comment is None else line[:comment]
    for m in TOKEN.finditer(body):
        t = m.group(0)
        new = snake(t)
        if new == t:
            continue
        dotted = m.start() > 0 and body[m.start() - 1] == "."
        ahead = re.search(r"([\w'-]+)\.$", body[:m.start()])
        if (not dotted and t in mine) or (dotted and ahead and ahead.group(1) in mine.aliases) or (t in parts and (dotted or body[m.end():].startswith(" ="))):
            out += [body[last:m.start()], new]
            last = m.end()
    return "".join(out) + body[last:] + ("" if comment is None else line[comment:])


def words(text, table):
    """In prose and comments: each word of the table in place of the old one."""
    return re.sub(r"[A-Za-z][\w'-]*", lambda m: table.get(m.group(0), m.group(0)), text)


def main():
    texts = {}
    for pattern in ("crates/*/specs/**/*.antt", "crates/*/proofs/**/*.antt", "crates/*/src/**/*.rt"):
        for p in sorted(glob.glob(pattern, recursive=True)):
            with open(p, encoding="utf-8") as f:
                texts[p] = f.read()
    own = {p: set(declared(p, t)) for p, t in texts.items() if p.endswith(".antt")}
    parts = set().union(*(fields(t) for p, t in texts.items() if p.endswith(".antt") and shared(p)))
    everywhere = set().union(*(own[p] for p in own if shared(p)))

    # a lemma whose name would be that of a definition
    defined = set().union(*(own[p] for p in own if "/specs/" in p))
    groups = collections.defaultdict(set)
    for n in everywhere:
        groups[snake(n)].add(n)
    for new, olds in groups.items():
        loud = {n for n in olds if re.search(r"[a-z0-9][A-Z]", n)}
        plain = olds & defined or loud or {n for n in olds if "-" not in n}
        if len(olds) > 1:
            for n in olds - plain:
                APART[n] = new + "_lem"
            if len(plain) > 1:
                print(f"two definitions fall together: {sorted(plain)}")

    # names that fall together, in one file
    bad = 0
    for p, t in texts.items():
        if p.endswith(".antt") and not shared(p):
            continue
        scope = own.get(p, set()) | imported(t)
        tokens = set(TOKEN.findall(re.sub(r"(?m)(?:^|\s)--.*$", "", t)))
        olds = collections.defaultdict(set)
        for n in scope:
            olds[snake(n)].add(n)
        for n, o in olds.items():
            here = re.search(r"[(,] ?(?:mut )?" + re.escape(n) + r": ", t) if p.endswith(".rt") else n in tokens
            if len(o) > 1 or (n not in o and here and not (n in APART and n in scope)):
                print(f"fall together in {p}: {sorted(o)} -> {n}")
                bad += 1
    if bad:
        print(f"{bad} fall together")
        return 1

    camel = {}
    for n in everywhere:
        new = snake(n)
        camel[n] = new
        if "_" in new:
            a = new.split("_")
            camel.setdefault(a[0] + "".join(w[:1].upper() + w[1:] for w in a[1:]), new)
            camel.setdefault(new.replace("_", "-"), new)
    camel = {a: b for a, b in camel.items() if a != b}
    if "--list" in sys.argv:
        for a, b in sorted(camel.items()):
            print(a, b)
        return 0

    loud = {a: b for a, b in camel.items() if re.search(r"[a-z0-9][A-Z]", a)}
    for p, t in texts.items():
        brought = imported(t)
        mine = Names(own.get(p, set()) | brought)
        mine.aliases = aliases(t) - {"tie", "goal"}
        if not shared(p):
            # a name of one proof alone stays where it would hide one that is brought in
            mine -= {n for n in own.get(p, set()) - brought if snake(n) in {snake(b) for b in brought}}
        lines = []
        for line in t.split("\n"):
            mark = "//" if p.endswith(".rt") else "--"
            m = re.search(r"(?:^|\s)" + mark, line)
            at = m.start() if m else None
            line = turn(line, mine, parts, at)
            if at is not None:
                at = re.search(r"(?:^|\s)" + mark, line).start()
                tail = re.sub(r"`[^`]*`", lambda q: words(q.group(0), camel), line[at:])
                line = line[:at] + words(tail, loud)
            lines.append(line)
        new = "\n".join(lines)
        if new != t:
            with open(p, "w", encoding="utf-8") as f:
                f.write(new)
    pages = glob.glob("docs/**/*.md", recursive=True) + glob.glob("*.md") + glob.glob("host/**/*.md", recursive=True) + glob.glob("examples/*.md")
    for p in sorted(pages):
        with open(p, encoding="utf-8") as f:
            t = f.read()
        new = re.sub(r"`[^`\n]*`", lambda q: words(q.group(0), camel), t)
        if new != t:
            with open(p, "w", encoding="utf-8") as f:
                f.write(new)
    for p in sorted(glob.glob("crates/*/must-fail/*.edit")):
        with open(p, encoding="utf-8") as f:
            t = f.read()
        if "file: specs/" in t or "⌝" in t or "≡" in t:
            new = words(t, loud)
            if new != t:
                with open(p, "w", encoding="utf-8") as f:
                    f.write(new)
    return 0


if __name__ == "__main__":
    sys.exit(main())
