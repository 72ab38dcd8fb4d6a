#!/usr/bin/env python3
"""Brings the names of definitions and lemmas to the spelling of today's Rattle, once, after port.py.

usage: python3 tools/port_names.py    at the top of a repository that port.py has just turned

Definitions in camel case go to snake case (`keyName`, `key_name`); facts that were joined by dashes become types in
camel case (`Table-keeps`, `TableKeeps`); a lemma keeps a dash only where it joins two names of definitions or fields,
and a plain word is joined by `_` (`delay-again`, `delay_again`; `hexed-append` stays).
It renames in crates/*/specs, crates/*/proofs, in the clauses and ghost lines of crates/*/src, and in README.md and docs/.
Functions, strings, inputs and outputs keep their names. It stops, with nothing written, where a new name stands already.
"""

import os
import re

HEAD = re.compile(r"^(?:mutual\s+)?(?:(?:abbrev|unfoldable)\s+)?(?:pub\s+)?(?:data\s+|record\s+)?([^\s:(){}\[\]]+)\s*(?:\(.*\)|\{.*\})*\s*:\s")
# the answer of a goal has the goal's name, which Rattle makes
MADE = re.compile(r"^(returns|loop|invariant|decreases|overflow|bounds|slice|ensures|drop)(-|_|$)|-requires")
# a dash before one of these joins two names
NAMES = {"append", "joined", "length", "xor", "value", "bits", "high", "low", "count"}
# these would fall together with a definition or have the name of the function that they speak of
OTHER = {"flag-byte": "flag_byte_lem", "writing-keeps": "writing_keeps_lem"}
LETTER = r"[\w'\-◌·]"


def files(*kinds):
    for folder, dirs, names in os.walk("crates"):
        dirs[:] = sorted(d for d in dirs if d not in ("out", "must-fail"))
        for name in sorted(names):
            if name.endswith(kinds):
                yield os.path.join(folder, name)


def defined():
    found = set()
    for path in files(".antt"):
        with open(path, encoding="utf-8") as f:
            for line in f:
                if line.startswith(("--", "use ")):
                    continue
                m = HEAD.match(line.lstrip())
                # below a module's parameters a definition stands two blanks in; there only a dash tells it from a line of a term
                if m and line.startswith(" ") and not line.lstrip().startswith("pub ") and not (line.startswith("  ") and line[2] != " " and "-" in m.group(1)):
                    continue
                if m and not MADE.search(m.group(1)):
                    found.add(m.group(1))
    return found


def spelt(name):
    if name in OTHER:
        return OTHER[name]
    if re.fullmatch(r"[A-Z][\w-]*-[\w-]*", name):
        return "".join(p[:1].upper() + p[1:] for p in name.split("-"))
    if not re.fullmatch(r"[a-z][\w'-]*", name):
        return name
    name = re.sub(r"(?<=[a-z0-9])([A-Z])", lambda m: "_" + m.group(1).lower(), name)
    first, *rest = name.split("-")
    return first + "".join(("-" if p in NAMES else "_") + p for p in rest)


def tokens(text):
    return set(re.findall(LETTER + "+", text))


def main():
    names = defined()
    new = {n: spelt(n) for n in names if spelt(n) != n}
    texts = {p: open(p, encoding="utf-8").read() for p in files(".antt", ".rt")}
    for page in ["README.md"] + [os.path.join("docs", p) for p in sorted(os.listdir("docs")) if p.endswith(".md")]:
        texts[page] = open(page, encoding="utf-8").read()
    # a function of src/ gives its name to a folder of proofs alone, so a definition may have that name too
    standing = set()
    functions = set()
    for path, text in texts.items():
        if path.endswith(".antt"):
            standing |= tokens(text)
        else:
            functions |= set(re.findall(r"\bfn (\w+)", text))
    standing -= functions - names
    together = sorted(f"{n} -> {m}" for n, m in new.items() if m in standing)
    twice = sorted(m for m in set(new.values()) if list(new.values()).count(m) > 1)
    if twice or together:
        print("falls together:", *twice, *together, sep="\n  ")
        return 1
    word = re.compile(f"(?<!{LETTER})(" + "|".join(sorted(map(re.escape, new), key=len, reverse=True)) + f")(?!{LETTER})")
    plain = {n for n in new if not re.search(r"[A-Z]", n)}
    changed = 0
    for path, text in texts.items():
        if path.endswith(".antt"):
            out = word.sub(lambda m: new[m.group(1)], text)
        elif path.endswith(".rt"):
            out = "".join(
                word.sub(lambda m: m.group(1) if m.group(1) in plain and "ghost use" not in line else new[m.group(1)], line)
                for line in text.splitlines(keepends=True)
            )
        else:
            out = re.sub(r"`[^`\n]+`", lambda q: word.sub(lambda m: m.group(1) if m.group(1) in plain else new[m.group(1)], q.group(0)), text)
        if out != text:
            changed += 1
            with open(path, "w", encoding="utf-8") as f:
                f.write(out)
    for n in sorted(new):
        print(f"{n} -> {new[n]}")
    print(f"{len(new)} names in {changed} files")
    return 0


if __name__ == "__main__":
    raise SystemExit(main())
