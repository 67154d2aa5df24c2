#!/usr/bin/env python3
"""The places that docs/DESIGN-PASS.md counts, of the sources under crates/*/src: those of the working tree, or with a
commit as argument those of that commit. `-v` prints each place.

    python3 tools/places.py [-v] [COMMIT]
"""

import collections
import re
import subprocess
import sys

WORDS = {"let", "mut", "if", "else", "match", "while", "for", "in", "return", "self", "as", "fn", "bool", "true", "false",
         "usize", "u8", "u16", "u32", "i32"}


def git(*words):
    return subprocess.run(["git", *words], capture_output=True, text=True, check=True).stdout


def sources(commit):
    """The sources, by path: without comments, and without strings that would look like code."""
    if commit:
        paths = git("ls-tree", "-r", "--name-only", commit, "crates").split("\n")
    else:
        paths = git("ls-files", "crates").split("\n")
    for path in sorted(p for p in paths if re.fullmatch(r"crates/\w+/src/.*\.rt", p)):
        text = git("show", f"{commit}:{path}") if commit else open(path).read()
        yield path, re.sub(r"//.*", "", text)


class Function:
    def __init__(self, path, text, found):
        indent = found.group(1)
        start = re.compile(rf"(\n{indent}| )\{{\n").search(text, found.start()).start()
        end = text.find(f"\n{indent}}}", start)
        self.place = f"{path.split('/')[1]}::{found.group(2)}"
        head = text[found.start():start]
        self.body = text[start:end]
        clauses = re.search(r"\n\s*(requires|ensures)\b", head)
        self.signature = head[:clauses.start()] if clauses else head
        self.requires = re.findall(r"requires(?: \w+)? \{(.*?)\}\s*(?=\n|$)", head, re.S)
        self.parameters = re.findall(r"(\w+): ([^,()]+(?:\([^)]*\))?[^,()]*)", self.signature.split("->")[0])
        self.answer = self.signature.split("->")[1].strip() if "->" in self.signature else ""

    def shape(self):
        """The body with one word for every name and one for every number."""
        def word(token):
            if re.match(r"\d", token):
                return "0"
            return token if token in WORDS or not re.match(r"\w", token) else "x"
        return " ".join(word(token) for token in re.findall(r"\w+|[^\s\w]", self.body))


def functions(all_sources):
    for path, text in all_sources:
        for found in re.finditer(r"^( *)(?:pub(?:\([^)]*\))? )?(?:const )?fn (\w+)", text, re.M):
            if re.match(r"[^{]*;\n", text[found.end():]) is None:
                yield Function(path, text, found)


def types(all_sources, kind):
    for path, text in all_sources:
        for found in re.finditer(rf"(?:pub(?:\([^)]*\))? )?{kind} (\w+)[^{{;]*\{{(.*?)\n\}}", text, re.S):
            yield f"{path.split('/')[1]}::{found.group(1)}", [line.strip() for line in found.group(2).split("\n") if line.strip()]


def two_ways(variants):
    """Two variants, at least one of them with nothing or one thing in it, as Option and Result have them."""
    return len(variants) == 2 and all(variant.count(",") <= 1 + variant.endswith(",") for variant in variants)


def one(files, listed):
    for name, variants in types(files, "enum"):
        if two_ways(variants):
            yield f"an enum of two ways: {name}"
    for name, fields in types(files, "struct"):
        flags = [field for field in fields if re.match(r"(pub )?\w+: bool\b", field)]
        if len(flags) == 1 and 1 < len(fields):
            yield f"a flag with values beside it: {name}"
        if any(re.search(r": (Step|Verdict|TextVerdict|Slot|Found|Finish|Answer)\b", field) for field in fields) and len(fields) > 1:
            yield f"a state with values beside it: {name}"
    for function in listed:
        if function.answer == "u8" and re.search(r"^\s*(\d+|.*=> \d+,?|\} else \{ \d+ \}.*)$", function.body, re.M):
            yield f"a number for a kind or a refusal: {function.place}"


def two(files, listed):
    groups = collections.defaultdict(list)
    for function in listed:
        if 12 <= len(function.shape().split()):
            groups[function.shape()].append(function.place)
    for places in groups.values():
        if 1 < len(places):
            for place in places:
                yield f"{place}, of the shape of {len(places) - 1} more: {', '.join(p for p in places if p != place)}"


def three(files, listed):
    for function in listed:
        for test in re.findall(r"^\s*while (?!let)(.*) \{$", function.body, re.M):
            yield f"{function.place}: while {test}"


def four(files, listed):
    for function in listed:
        name = function.place.split("::")[1]
        if re.match(r"same_|is_zero|is_same|equal|copy_|clone_|no_fields|no_template|no_rows|stores_none|is_free\b|is_stop\b|is_unset\b|all_unset\b", name):
            yield f"equality or copying: {function.place}"
        if re.search(r"=> (\d+|b\"[^\"]*\"),?$", function.body, re.M) and "match" in function.body:
            yield f"conversion or printing by a table: {function.place}"


def five(files, listed):
    facts = collections.defaultdict(list)
    groups = collections.defaultdict(set)
    for function in listed:
        crate = function.place.split("::")[0]
        for clause in function.requires:
            facts[crate, re.sub(r"\s+", " ", clause.strip())].append(function.place)
        names = [(name, kind.strip()) for name, kind in function.parameters]
        for i in range(len(names)):
            for j in range(i + 1, len(names)):
                groups[crate, names[i], names[j]].add(function.place)
    for (crate, fact), places in sorted(facts.items()):
        if 3 <= len(places):
            yield f"a fact, {crate}: {fact} ({len(places)})"
    for (crate, left, right), places in sorted(groups.items()):
        if 6 <= len(places):
            yield f"parameters, {crate}: {left[0]}: {left[1]}, {right[0]}: {right[1]} ({len(places)})"


def six(files, listed):
    for name, fields in types(files, "struct"):
        arrays = [field for field in fields if re.search(r": \[.*; ", field)]
        counts = [field for field in fields if re.search(r"\b(count|stored|length|addresses|failed|full)\w*: usize", field)]
        if arrays and counts:
            yield f"a buffer with its count: {name}"
        if 1 < len(arrays):
            yield f"arrays beside one another: {name}"
    for function in listed:
        kinds = [kind.strip() for _, kind in function.parameters]
        if sum(kind.startswith("&mut [") for kind in kinds) > 1:
            yield f"two lent buffers: {function.place}"


def seven(files, listed):
    for function in listed:
        if re.search(r"while 0 < count|while more|goes_on\(", function.body):
            yield f"a loop whose step is written into it: {function.place}"


POINTS = [("1", one), ("2", two), ("3", three), ("4", four), ("5", five), ("6", six), ("7", seven)]


def main():
    words = [word for word in sys.argv[1:] if word != "-v"]
    files = list(sources(words[0] if words else None))
    listed = list(functions(files))
    print(f"{len(files)} files, {len(listed)} functions")
    for name, count in POINTS:
        places = list(count(files, listed))
        print(f"point {name}: {len(places)}")
        if "-v" in sys.argv:
            for place in places:
                print(f"    {place}")


main()
