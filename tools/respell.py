#!/usr/bin/env python3
"""Respells this repository's own definitions and lemmas as today's Rattle does: words in snake case.

usage: python3 tools/respell.py    at the top of a repository that /opt/rattle/port/port.py has turned

It reads every declaration of specs/ and proofs/, gives each own name its new spelling (`zeroNode` and
`zero-node` become `zero_node`), and writes every .antt file, the clauses and `ghost use` lines of every .rt
file, and every must-fail edit. Names of src/, of the library and of what Rattle generates stay. Where two
names fall together, the one that was in kebab case, mostly a lemma about the other, gets the ending `_law`.
Comments: only names in backticks. It is meant to run once, and finds nothing to do in what it has written.
"""

import collections
import os
import re
import sys

TOKEN = re.compile(r"[A-Za-z_][A-Za-z0-9_'₀₁₂₃₄₅₆₇₈₉-]*")
DECLARED = re.compile(
    r"^\s*(?:\|\s*)?(?:(?:abbrev|unfoldable|pub)\s+)*([A-Za-z_][^\s:(){}.]*)((?:\s+[A-Za-z_][^\s:(){}.]*)*)\s*:(?:\s|$)"
)
WORDS = {"module", "record", "data", "use", "where", "unfolding", "let", "in", "pub", "abbrev", "unfoldable", "mod"}
# What Rattle generates and a proof file declares by its name.
GENERATED = re.compile(r"^(invariant|decreases|ghost)-")


def snake(name):
    if name[0].isupper():
        return name.replace("-", "_")
    spaced = re.sub(r"(?<=[a-z0-9])(?=[A-Z])", "_", name)
    return spaced.lower().replace("-", "_")


def read(path):
    with open(path, encoding="utf-8") as f:
        return f.read()


def files(root, endings):
    for folder, dirs, names in os.walk(os.path.join(root, "crates")):
        made = os.path.dirname(os.path.dirname(folder)) == root
        dirs[:] = sorted(d for d in dirs if d != "out" or not made)
        for name in sorted(names):
            # The files of today's proofs name what Rattle generates; the older form has none of them.
            if name.endswith(endings) and name not in ("Answers.antt", "Invariants.antt"):
                yield os.path.join(folder, name)


def declared(paths):
    """The names that the .antt files declare, each with the files that do."""
    found = collections.defaultdict(set)
    for path in paths:
        for line in read(path).split("\n"):
            if line.lstrip().startswith("--"):
                continue
            m = DECLARED.match(line)
            if m:
                for name in [m[1]] + m[2].split():
                    if name not in WORDS and not GENERATED.match(name):
                        found[name].add(path)
    return found


def foreign(paths, own_crates):
    """The names that some file imports from a module that is not this repository's."""
    found = set()
    for path in paths:
        for m in re.finditer(r"use\s+([^\s{;]+)\.\{([^}]*)\}", read(path)):
            parts = m[1].split(".")
            if not (parts[0] == "Rattle" and parts[1] in own_crates):
                found |= {n.strip().split(" as ")[0].strip() for n in m[2].split(",")}
            elif "declared" in parts or "contracts" in parts:
                found |= {n.strip().split(" as ")[0].strip() for n in m[2].split(",")}
            found |= {n.strip().split(" as ")[1].strip() for n in m[2].split(",") if " as " in n}
        for m in re.finditer(r"^\s*(?:pub )?use\s+[^\s{;]+ as ([^\s;]+)", read(path), re.M):
            found.add(m[1])
    return found


def table(own, kept):
    """Each own name with its new spelling, where that differs."""
    groups = collections.defaultdict(set)
    for name in own:
        if name not in kept:
            groups[snake(name)].add(name)
    new = {}
    for plain, names in groups.items():
        # A definition has the plain name before a lemma in kebab case, and that before one in mixed case.
        order = sorted(names, key=lambda n: (("-" in n) + ("-" in n and bool(re.search("[A-Z]", n))), n == plain, n))
        free = plain
        if plain in kept:
            free += "_law"
        for n in order:
            while n != free and free in own and free not in order:
                free += "_too"
            new[n] = free
            free += "_law" if not free.endswith("_law") else "_too"
    # The library has `take_at`, and this one is no lemma.
    if "takeAt" in new:
        new["takeAt"] = "take_place_at"
    return {a: b for a, b in new.items() if a != b}


def turned(text, new):
    """Every token of an antt text; none in the path of a `use`, and none that Rattle's own records have."""

    def one(m):
        word = m[0]
        if word not in new:
            return word
        before = text[max(0, m.start() - 5) : m.start()]
        after = text[m.end() : m.end() + 1]
        if before.endswith("tie.") or before.endswith("goal."):
            return word
        line = text.rfind("\n", 0, m.start()) + 1
        head = text[line : m.start()]
        if after == "." and re.match(r"\s*(pub )?(ghost )?use ", head) and "{" not in head:
            return word
        if re.match(r"\s*(pub )?(ghost )?use [^{]*$", head) and text[line:].split("\n")[0].find("{") < 0:
            return word
        return new[word]

    return TOKEN.sub(one, text)


def by_comment(text, new, mark):
    """An antt text turned: code whole, a comment where it stands in backticks."""
    out = []
    for line in text.split("\n"):
        at = line.find(mark)
        code, said = (line, "") if at < 0 else (line[:at], line[at:])
        said = re.sub(r"`[^`]*`", lambda m: TOKEN.sub(lambda w: new.get(w[0], w[0]), m[0]), said)
        out.append((code, said))
    whole = turned("\n".join(c for c, _ in out), new).split("\n")
    return "\n".join(c + s for c, (_, s) in zip(whole, out))


def clauses(text):
    """The spans of a .rt text that are antt: `ghost use` lines, and what stands in the braces of a clause."""
    spans = []
    for m in re.finditer(r"^\s*ghost use [^;]*;", text, re.M):
        spans.append(m.span())
    for m in re.finditer(r"\b(?:requires|ensures|ghost)\*?(?: [a-z_0-9]+)?:? \{", text):
        depth, i = 1, m.end()
        while depth:
            depth += {"{": 1, "}": -1}.get(text[i], 0)
            i += 1
        spans.append((m.end(), i - 1))
    return sorted(spans)


def source(text, new):
    out, at = [], 0
    for a, b in clauses(text):
        if a < at:
            continue
        out += [text[at:a], turned(text[a:b], new)]
        at = b
    text = "".join(out + [text[at:]])
    lines = []
    for line in text.split("\n"):
        at = line.find("//")
        if at >= 0:
            said = re.sub(r"`[^`]*`", lambda m: TOKEN.sub(lambda w: new.get(w[0], w[0]), m[0]), line[at:])
            line = line[:at] + said
        lines.append(line)
    return "\n".join(lines)


def edit(text, new):
    """An edit: the texts of an .antt file whole, of a .rt file where a line is a clause."""
    file, out = "", []
    for line in text.split("\n"):
        if line.startswith("file: "):
            file = line[6:].strip()
        m = re.match(r"(old|new): (.*)$", line)
        if m and (file.endswith(".antt") or re.search(r"\b(requires|ensures|ghost use)\b|≡", m[2])):
            said = turned(m[2], new).replace("′", "'")
            # Every own name is in snake case by now, also those that port.py turned.
            said = re.sub(r"(?<![.\w])[a-z][a-z0-9]*(?:[A-Z][a-z0-9]*)+", lambda w: snake(w[0]), said)
            line = m[1] + ": " + said
        out.append(line)
    return "\n".join(out)


def main():
    root = os.getcwd()
    crates = set(os.listdir(os.path.join(root, "crates")))
    antt = list(files(root, (".antt",)))
    own = declared(antt)
    kept = foreign(antt + list(files(root, (".rt",))), crates)
    new = table(own, kept)
    for path in antt:
        text = read(path)
        done = by_comment(text, new, "--")
        if done != text:
            with open(path, "w", encoding="utf-8") as f:
                f.write(done)
    for path in files(root, (".rt",)):
        text = read(path)
        done = source(text, new)
        if done != text:
            with open(path, "w", encoding="utf-8") as f:
                f.write(done)
    for path in files(root, (".edit",)):
        text = read(path)
        done = edit(text, new)
        if done != text:
            with open(path, "w", encoding="utf-8") as f:
                f.write(done)
    kept_own = sorted(n for n in own if n in kept and snake(n) != n)
    print(f"respell: {len(new)} names; left, since a library has the name: {' '.join(kept_own) or 'none'}")
    laws = sorted(f"{a} -> {b}" for a, b in new.items() if b.endswith(("_law", "_too")) and not a.endswith(("-law", "Law")))
    print(f"respell: {len(laws)} fell together with another: {', '.join(laws)}")
    if "--table" in sys.argv:
        for a, b in sorted(new.items()):
            print(f"{a}\t{b}")


if __name__ == "__main__":
    main()
