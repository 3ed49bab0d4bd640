#!/usr/bin/env python3
"""Counts the places in crates/*/src that have a form of the older language; docs/DESIGN-PASS.md says what each point is about.

    python3 tools/places.py [--list] [COMMIT]

It goes by the text of the files, of the tree or of a commit, so it finds what may have to change and not what has to."""

import collections
import itertools
import re
import subprocess
import sys

# What a line has that hands a result on by hand, takes a number for a kind, or keeps a flag beside a value.
BY_HAND = re.compile(
    r"(Ok|Some)\((\w+)\) => (Ok|Some)\(\2\)|Err\(\w+\) => (return )?Err\(|Err\(_\w*\) => return|None => (return )?(Err|None)\b"
    r"|Ok\(_\) => Ok\(\(\)\)"
)
KIND_NUMBER = re.compile(r"(method|choice|choices\.\w+|rates) [!=]= \d")
FLAG = re.compile(r"^\s*(pub(\(crate\))? )?\w+: bool,$")
OWN_ENUM = re.compile(r"^\s*(pub(\(crate\))? )?enum \w+")
INDEX_LOOP = re.compile(r"^\s*(while |for \w+ in [\w.()]+\.\.)")
CONVERSION = re.compile(r"fn (refusal|from|fmt|eq|cmp|partial_cmp|clone|own_number|numbers)\b|const EMPTY\b")
PRINTED = re.compile(r"print(ln)?!\(")
PLACE_PAIR = re.compile(r"(text|out): &(mut )?\[u8\],?\s+at: usize")
LENGTH_BESIDE = re.compile(r"&(mut )?\w+(\.\w+)*\[0?\.\.\w+(\.\w+)*( as usize)?\]")
STEP = re.compile(r"\bdyn\b|\bfn\(|&\[fn|Box<")
CONSTANT = re.compile(r"^\s*(?:pub(?:\(crate\))? )?const (\w+): (\w+) = ([\d_]+);")


def sources(commit):
    """The files of src/ with their lines."""
    if commit is None:
        names = subprocess.run(["git", "ls-files", "crates/*/src/*.rt"], capture_output=True, text=True, check=True).stdout.split()
        return {name: open(name, encoding="utf-8").read().split("\n") for name in names}
    names = subprocess.run(["git", "ls-tree", "-r", "--name-only", commit, "crates"], capture_output=True, text=True, check=True).stdout
    show = lambda name: subprocess.run(["git", "show", f"{commit}:{name}"], capture_output=True, text=True, check=True).stdout
    return {name: show(name).split("\n") for name in names.split() if re.fullmatch(r"crates/\w+/src/.*\.rt", name)}


def signatures(lines):
    """(line, name, parameters, clauses) of each function."""
    text = "\n".join(lines)
    for found in re.finditer(r"^ *(?:pub(?:\(crate\))? |const |extern \"C\" )*fn (\w+)(?:<[^(]*>)?\(", text, re.M):
        depth, end = 1, found.end()
        while depth:
            depth += {"(": 1, ")": -1}.get(text[end], 0)
            end += 1
        inner = re.sub(r"\s+", " ", text[found.end() : end - 1]).strip()
        parameters = [p.strip() for p in re.split(r",(?![^(<]*[)>])", inner) if ":" in p]
        head = re.match(r"(?:[^{;]|\{ [^\n]*\}(?=\n))*", text[end:]).group(0)
        clauses = re.findall(r"(?:requires|ensures)\*? ?\w* ?\{ (.*) \}$", head, re.M)
        yield text.count("\n", 0, found.start()) + 1, found.group(1), parameters, clauses


def lines_with(pattern, files):
    return [f"{name}:{i}: {line.strip()}" for name, lines in files.items() for i, line in enumerate(lines, 1) if pattern.search(line)]


def twins(files):
    """Constants of one value in several crates, and structs and functions of one body."""
    values = collections.defaultdict(list)
    bodies = collections.defaultdict(list)
    for name, lines in files.items():
        for i, line in enumerate(lines, 1):
            constant = CONSTANT.match(line)
            if constant and int(constant.group(3).replace("_", "")) > 50:
                values[int(constant.group(3).replace("_", ""))].append(f"{name}:{i}: {line.strip()}")
        text = "\n".join(lines)
        for found in re.finditer(r"^( *)(?:pub(?:\(crate\))? )?(struct|fn) (\w+)[^{;]*\{\n(.*?)^\1\}", text, re.M | re.S):
            body = re.sub(r"\b[A-Z]\w*\b|\d+|'.'|b'.'", "_", re.sub(r"//.*", "", found.group(4)))
            bodies[re.sub(r"\s+", " ", body)].append(f"{name}:{text.count(chr(10), 0, found.start()) + 1}: {found.group(2)} {found.group(3)}")
    same = [v for v in values.values() if len({x.split("/")[1] for x in v}) > 1]
    return [x for group in same + [b for b in bodies.values() if len(b) > 1] for x in group]


def together(files):
    """Clauses that stand in three functions of a crate or more, and pairs of parameters that do."""
    facts, pairs = collections.defaultdict(list), collections.defaultdict(list)
    for name, lines in files.items():
        crate = name.split("/")[1]
        for i, function, parameters, clauses in signatures(lines):
            place = f"{name}:{i}: {function}"
            for clause in set(clauses):
                facts[crate, re.sub(r"\b(self|terms|contract|values|lines|units|result)\.?(now|old|new)?\b", "_", clause)].append(place)
            for pair in itertools.combinations(sorted(p for p in parameters if "HostRuntime" not in p), 2):
                pairs[crate, pair].append(place)
    found = [(f"{crate}: {fact}", places) for (crate, fact), places in facts.items() if len(set(places)) > 2]
    found += [(f"{crate}: {a}, {b}", places) for (crate, (a, b)), places in pairs.items() if len(set(places)) > 2]
    return [f"{what} [{len(places)}]: " + "; ".join(p.split(": ")[-1] for p in places) for what, places in found]


def main():
    arguments = [a for a in sys.argv[1:] if a != "--list"]
    files = sources(arguments[0] if arguments else None)
    counts = [
        ("1 results handed on by hand", lines_with(BY_HAND, files)),
        ("1 numbers for kinds", lines_with(KIND_NUMBER, files)),
        ("1 flags", lines_with(FLAG, files)),
        ("1 enums", lines_with(OWN_ENUM, files)),
        ("2 twins", twins(files)),
        ("3 loops by index or while", lines_with(INDEX_LOOP, files)),
        ("4 conversions and the like", lines_with(CONVERSION, files)),
        ("4 prints", lines_with(PRINTED, files)),
        ("5 facts and parameters together", together(files)),
        ("6 a place or a length beside", lines_with(PLACE_PAIR, files) + lines_with(LENGTH_BESIDE, files)),
        ("7 steps by dyn, pointer or box", lines_with(STEP, files)),
    ]
    for what, places in counts:
        print(f"{what}: {len(places)}")
        if "--list" in sys.argv:
            print("".join(f"    {place}\n" for place in places), end="")


main()
