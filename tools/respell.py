#!/usr/bin/env python3
"""Brings the repository's own names in specs/ and proofs/ to one spelling: words in snake case, types in camel case.

usage: python3 tools/respell.py [ROOT]

A name is the repository's own if a file of specs/ or proofs/ declares it. The names of goals are the check's, so a name that
is declared with the type of a goal stays. A dash stays in a lemma's name where it joins the names of two definitions, as in
`length-listed`. Comments keep their text but for names in backticks; the code, texts and literals of src/ stay.
"""

import os
import re
import sys

ROOT = sys.argv[1] if len(sys.argv) > 1 else "."
BREAKS = r"\s(){}\[\].,;|«»"
TOKEN = re.compile(rf"[^{BREAKS}]+")
DECLARED = re.compile(rf"^(\s*)((?:pub |abbrev |unfoldable )*)(?:(data|record) )?([^{BREAKS}]+) (?:: |[({{])(.*)$")
# Spelled otherwise by hand: a letter that stands for ℤ, a name of the library that has another name now, and a field
# whose declaration has the new spelling already.
BY_HAND = {"totalZ": "total_ℤ", "getD-listed": "get_or-listed", "in-is": "in_is"}
STD_WORDS = {"length", "map", "cond", "take", "drop", "get_or", "concat", "reverse"}


def files(*kinds):
    for folder, dirs, names in os.walk(os.path.join(ROOT, "crates")):
        dirs[:] = sorted(d for d in dirs if d != "out")
        for name in sorted(names):
            if name.endswith(kinds):
                yield os.path.join(folder, name)


def read(path):
    with open(path, encoding="utf-8") as f:
        return f.read()


def signatures(text):
    """Each declared name, whether `data` or `record` declares it, and its type with the lines that continue it."""
    lines = [line.split(" -- ")[0] for line in text.split("\n")]
    for at, line in enumerate(lines):
        if line.startswith(("use ", "--", "pub mod", "mod ")):
            continue
        found = DECLARED.match(line)
        if not found:
            continue
        space, _, kind, name, rest = found.groups()
        below = at + 1
        while below < len(lines) and lines[below].startswith(space + "    ") and " where" not in line:
            rest += " " + lines[below].strip()
            below += 1
        yield space, kind, name, rest


def snake(name):
    return name.replace("-", "_")


def camel(name):
    return "".join(part[:1].upper() + part[1:] for part in name.split("-"))


def is_type(kind, rest):
    return kind is not None or rest.rstrip().endswith("Type 0")


def lemma(name, says, words):
    """In snake case, but for a dash between two definitions that the statement names."""
    parts = name.split("-")
    named = {snake(word) for word in TOKEN.findall(says)} & words
    out = parts[0]
    for at in range(1, len(parts)):
        joins = {"_".join(parts[:at]), "_".join(parts[at:])} <= named
        out += ("-" if joins else "_") + parts[at]
    return out


def renames():
    found, says, words = {}, {}, set(STD_WORDS)
    for path in files(".antt"):
        in_specs = "/specs/" in path
        for _, kind, name, rest in signatures(read(path)):
            if re.match(r"(goal|need|needs|given)\.", rest) or name in ("with", "where"):
                continue
            found.setdefault(name, set()).add((in_specs, is_type(kind, rest)))
            says[name] = rest
            if in_specs and not is_type(kind, rest):
                words.add(snake(name))
    turned = {}
    for name, uses in found.items():
        if "-" not in name or not re.fullmatch(r"[A-Za-z_'0-9ℤℕ-]+", name):
            continue
        if any(t for _, t in uses):
            new = camel(name)
        elif any(s for s, _ in uses):
            new = snake(name)
        else:
            new = lemma(name, says[name], words)
        new = new.replace("totalZ", "total_ℤ")
        if new != name:
            turned[name] = new
    return turned | BY_HAND


def goals():
    """The names of goals: those that an answer declares with the goal as its type."""
    out = set()
    for path in files(".antt"):
        for _, _, name, rest in signatures(read(path)):
            if re.match(r"(goal|need|needs|given)\.", rest):
                out.add(name)
    return out


def turn(text, turned):
    return TOKEN.sub(lambda m: turned.get(m.group(0), m.group(0)), text)


def turn_comment(text, turned):
    return re.sub(r"`([^`]*)`", lambda m: "`" + turn(m.group(1), turned) + "`", text)


def turn_antt(text, turned):
    out = []
    for line in text.split("\n"):
        at = 0 if line.lstrip().startswith("--") else line.find(" -- ")
        code, comment = (line, "") if at < 0 else (line[:at], line[at:])
        out.append(turn(code, turned) + turn_comment(comment, turned))
    return "\n".join(out)


def turn_code(text, turned):
    """In a source file the names stand in `ghost use` lines and in clauses: outside comments and texts."""
    parts = re.split(r'(//[^\n]*|b?"(?:[^"\\]|\\.)*")', text)
    for at, part in enumerate(parts):
        if at % 2 == 0:
            parts[at] = turn(part, turned)
        elif part.startswith("//"):
            parts[at] = turn_comment(part, turned)
    return "".join(parts)


def main():
    turned = renames()
    for name in goals():
        turned.pop(name, None)
    for path in files(".antt", ".rt"):
        old = read(path)
        new = turn_antt(old, turned) if path.endswith(".antt") else turn_code(old, turned)
        if new != old:
            with open(path, "w", encoding="utf-8") as f:
                f.write(new)
    together = {}
    for old, new in turned.items():
        together.setdefault(new, []).append(old)
    for new, olds in sorted(together.items()):
        if len(olds) > 1:
            print("fall together:", new, "from", *olds)
    print(len(turned), "names")


main()
