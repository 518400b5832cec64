#!/usr/bin/env python3
"""Respells this repository's own definitions and lemmas: words in snake case, types in camel case.

usage: python3 tools/spell_names.py [--check] [FOLDER]     at the top of a checkout, once, after the kit's port.py

A word with a dash that the repository declares, or binds, turns in specs/, in proofs/ and in the ghost parts of src/:
'first-gap' to 'first_gap', 'Verdict-true' to 'VerdictTrue'. What stays: words of the library, that is those that a 'use' line
brings in from elsewhere; words that the check makes (goals, and the parts of a path behind 'c.' and 'l.', but for fields of
records of this repository); comments; and everything else in src/.
It prints names that fall together. --check writes nothing.
"""

import collections
import os
import re
import sys

NAME = re.compile(r"(?<![\w\-'≢→₀-₉◌])([A-Za-z][\w'₀-₉]*(?:-[\w'₀-₉≢→]+)+)(?![\w'])")
COMMENT = re.compile(r'(?m)(?<![^\s(){}.;,@"])--[^\n]*')
USE = re.compile(r"use\s+([\w.]+)\.\{([^}]*)\}")
GHOST = re.compile(r"(?:requires|ensures)\s*\*?\s*(?:\w+\s*)?\{|ghost\s*(?:\w+\s*(?::\s*(?:(?:owns|lends)\s*)?|=\s*))?\{|ghost\s+\w+[^{;]*\{")
ANSWERS = ("Answers.antt", "Invariants.antt", "Proof.antt")


def texts(root):
    out = {}
    for folder, dirs, files in os.walk(os.path.join(root, "crates")):
        dirs[:] = sorted(d for d in dirs if d != "out")
        for f in sorted(files):
            if f.endswith((".antt", ".rt")):
                path = os.path.join(folder, f)
                with open(path, encoding="utf-8") as it:
                    out[path] = it.read()
    return out


def new_name(name):
    if name[0].isupper():
        head, *rest = re.split("-", name)
        return head + "".join("".join(p[:1].upper() + p[1:] for p in r.split("_")) for r in rest)
    return name.replace("-", "_")


def library(text, own):
    """The words of a file that come from outside the repository, or from what the check makes."""
    words = set()
    for m in USE.finditer(text):
        head = m.group(1).split(".")
        mine = head[0] == "Rattle" and len(head) > 1 and head[1] in own and head[-1] not in ("Goals", "Given")
        if not mine:
            for it in m.group(2).split(","):
                words.add(it.split(" as ")[0].strip())
    return words


def fields(files):
    """Names of records' fields and of constructors: indented, with a colon, in the files of specs/ and of lemmas."""
    out = set()
    for path, text in files.items():
        if path.endswith(".antt") and os.path.basename(path) not in ANSWERS:
            out |= set(re.findall(r"(?m)^\s+(?:pub )?([A-Za-z][\w'-]*) :(?=\s)", text))
    return {f for f in out if "-" in f}


def declared_goals(text):
    return set(re.findall(r"(?m)^(?:abbrev )?(?:pub )?([\w'-]+) : goal\.", text))


def turn(code):
    # comments stay: turn what lies between them
    parts, last = [], 0
    spans = [(m.start(), m.end()) for m in COMMENT.finditer(code)] + [(len(code), len(code))]
    whole = code
    for a, b in spans:
        piece = whole[last:a]
        base = last

        def at(m, base=base):
            name = m.group(1)
            before = whole[max(0, base + m.start() - 80) : base + m.start()]
            return pick(name, before)

        parts.append(NAME.sub(at, piece))
        parts.append(whole[a:b])
        last = b
    return "".join(parts)


def main(argv):
    check = "--check" in argv
    rest = [a for a in argv if not a.startswith("--")]
    root = rest[0] if rest else "."
    files = texts(root)
    own = set(os.listdir(os.path.join(root, "crates")))
    own_fields = fields(files)
    everywhere = set()
    for text in files.values():
        everywhere |= library(text, own)
    seen = collections.defaultdict(collections.Counter)
    global pick
    changed = 0
    for path, text in files.items():
        answers = os.path.basename(path) in ANSWERS
        stay = everywhere | (declared_goals(text) if answers else set())

        def pick(name, before):
            if before.endswith("."):
                head = re.search(r"([\w'-]+)\.$", before)
                made = answers and head and head.group(1) in ("c", "l", "w", "fn", "initial", "new", "args")
                if before.endswith("goal.") or made:
                    seen["made"][name] += 1
                    return name
                if name not in own_fields:
                    seen["dotted"][name] += 1
                    return name
            elif name in stay:
                return name
            seen["turned"][name] += 1
            return new_name(name)

        if path.endswith(".antt"):
            new = turn(text)
        else:
            new = turn_ghost(text)
        if new != text:
            changed += 1
            if not check:
                with open(path, "w", encoding="utf-8") as it:
                    it.write(new)
    report(files, seen)
    print(f"spell_names: {changed} files, {len(seen['turned'])} names")
    return 0


def turn_ghost(text):
    """Turns the ghost parts of a .rt file: 'ghost use' items, clauses and ghost fields."""
    spans = [(m.start(), m.end()) for m in re.finditer(r"ghost\s+use\b[^;]*;", text)]
    for m in GHOST.finditer(text):
        depth, i = 1, m.end()
        while i < len(text) and depth:
            depth += {"{": 1, "}": -1}.get(text[i], 0)
            i += 1
        spans.append((m.start(), i))
    out, last = [], 0
    for a, b in sorted(spans):
        if a < last:
            continue
        out.append(text[last:a])
        piece = text[a:b]
        out.append(NAME.sub(lambda m: pick(m.group(1), piece[: m.start()]), piece))
        last = b
    out.append(text[last:])
    return "".join(out)


def report(files, seen):
    by_new = collections.defaultdict(set)
    for name in seen["turned"]:
        by_new[new_name(name)].add(name)
    words = collections.Counter()
    for text in files.values():
        words.update(set(re.findall(r"[A-Za-z][\w']*", text)))
    for new, olds in sorted(by_new.items()):
        if len(olds) > 1:
            print("together:", new, sorted(olds))
        if new in words:
            print("there already:", new, words[new])
    for kind in ("made", "dotted"):
        print(kind + ":", " ".join(f"{n}={k}" for n, k in sorted(seen[kind].items())))


if __name__ == "__main__":
    sys.exit(main(sys.argv[1:]))
