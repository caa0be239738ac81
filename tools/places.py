#!/usr/bin/env python3
"""Counts, in the sources of all crates, the places that docs/DESIGN-PASS.md speaks of, a line for each point.

    tools/places.py [POINT]    with a point (1 to 8), lists its places

It goes by text: a place that it counts is one to look at, not yet one to change. Tests are left out.
"""
import pathlib
import re
import sys
from collections import Counter, defaultdict

ROOT = pathlib.Path(__file__).resolve().parent.parent
CRATES = ROOT / "crates"


def sources():
    """Each source file without its tests and comments, as (path, lines)."""
    for path in sorted(CRATES.glob("*/src/*.rt")):
        text = path.read_text().split("#[cfg(test)]")[0]
        yield path.relative_to(CRATES), [re.sub(r"//.*", "", line) for line in text.split("\n")]


def matches(pattern):
    for path, lines in sources():
        for number, line in enumerate(lines, 1):
            if re.search(pattern, line):
                yield f"{path}:{number}: {line.strip()[:100]}"


def functions():
    """Each function as (place, name, clauses, body)."""
    for path, lines in sources():
        text = "\n".join(lines)
        for found in re.finditer(r"\bfn (\w+)", text):
            head = text.find("\n{", found.start())
            inner = text.find("\n    {", found.start())
            short = text.find("{}", found.start())
            following = text.find("fn ", found.end())
            end_of_head = min((p for p in (head, inner, short) if p > 0), default=-1)
            plain = re.compile(r"\)[^;{]*\{\n").search(text, found.start())
            if plain and (end_of_head < 0 or plain.end() < end_of_head):
                end_of_head = plain.end() - 2
            if end_of_head < 0 or (0 < following < end_of_head):
                continue
            start = text.index("{", end_of_head)
            depth, at = 0, start
            while at < len(text):
                depth += {"{": 1, "}": -1}.get(text[at], 0)
                at += 1
                if depth == 0:
                    break
            line = text.count("\n", 0, found.start()) + 1
            yield f"{path}:{line}", found.group(1), text[found.start():start], text[start:at]


def shape(body):
    words = re.findall(r"\w+|[^\w\s]", body)
    keep = {"match", "if", "else", "for", "in", "return", "let", "mut", "Ok", "Err", "Some", "None", "self"}
    return tuple(w if w in keep or not re.match(r"\w", w) else "_" for w in words)


def point1():
    """numbers for kinds, and enums of which each has to be read"""
    yield from matches(r"\b(kind|stage|number|code): u8\b|-> Result<bool|fn (number|from_number)\b")
    yield from matches(r"^\s*(pub(\(crate\))? )?enum ")


def point2():
    """functions whose bodies have one shape, of 14 words and signs at least"""
    alike = defaultdict(list)
    for place, name, _, body in functions():
        if len(shape(body)) >= 14:
            alike[shape(body)].append(f"{place} {name}")
    for places in alike.values():
        if len(places) > 1:
            yield from (f"{place} (like {places[0]})" for place in places[1:])


def point3():
    """loops over a range, and numbers counted up by hand"""
    yield from matches(r"\bfor .* in .*\.\.")
    yield from matches(r"= \w+(\.\w+)?\.saturating_add\(1\)|\+= 1;")


def point4():
    """equality, conversion and printing by hand"""
    yield from matches(r"\bimpl.* (fmt::)?(Display|Debug|PartialEq|Clone|PartialOrd|Ord|Hash) for ")
    yield from matches(r"\bimpl.* (From|TryFrom|FromStr)(<.*)? for ")
    yield from matches(r"fn (number|from_number|text|of_\w+|from_\w+|as_\w+|to_\w+|block)\((&?self|\w+:)")


def point5():
    """terms in brackets, of four names at least, that stand in the clauses of three functions or more"""
    seen = defaultdict(set)
    for place, name, head, _ in functions():
        clauses = head[head.find("requires"):] if "requires" in head else head[head.find("ensures"):]
        stack = []
        for at, sign in enumerate(clauses):
            if sign == "(":
                stack.append(at)
            elif sign == ")" and stack:
                term = clauses[stack.pop():at + 1]
                if len(re.findall(r"[\w.]+", term)) >= 4:
                    seen[re.sub(r"\s+", " ", re.sub(r"\.(old|new|now)\b", "", term))].add(f"{place} {name}")
    for term, places in sorted(seen.items(), key=lambda x: -len(x[1])):
        if len(places) >= 3:
            yield f"{len(places)} functions: {term}"


def point6():
    """arrays that are filled by a copy, and places of a slice that are passed as numbers"""
    yield from matches(r"copy_from_slice")
    yield from matches(r"fn .*\b(at|start|place|k|from): usize")


def point7():
    """matches all of whose arms make a call, function pointers, dyn"""
    for place, name, _, body in functions():
        arms = re.findall(r"=> *([^{\n]+),?\n", body)
        if body.count("match ") == 1 and len(arms) >= 3 and all(re.search(r"\w\(", arm) for arm in arms):
            yield f"{place} {name}"
    yield from matches(r"\bdyn \w|: fn\(")


def point8():
    """files of answers, and answers that are one search"""
    for path in sorted(CRATES.glob("*/proofs/**/Answers.antt")):
        yield str(path.relative_to(CRATES))
    for path in sorted(CRATES.glob("*/proofs/**/*.antt")):
        for line in path.read_text().split("\n"):
            if re.match(r"\S+( \w+)* = search rules$", line):
                yield f"{path.relative_to(CRATES)}: {line}"


def main():
    points = [point1, point2, point3, point4, point5, point6, point7, point8]
    if len(sys.argv) > 1:
        print("\n".join(points[int(sys.argv[1]) - 1]()))
        return
    for number, point in enumerate(points, 1):
        print(f"{number}. {len(list(point())):4}  {point.__doc__}")


main()
