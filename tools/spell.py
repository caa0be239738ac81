#!/usr/bin/env python3
"""Spells the definitions, lemmas and record fields of this repository as today's Rattle does, and names two crates anew.

usage: python3 tools/spell.py        at the top of the repository, once, after port.py

A word is in snake case, and a type in camel case: `le-number` becomes `le_number`, `Numbers-differ` becomes
`NumbersDiffer`. Names that Rattle makes (goals, steps) keep their dashes, and so do words in strings. The kit has
libraries named bytes and hex, so those crates are named octets and hex_text.
"""
import os
import re
import sys

NAME = r"[^\s(){}\[\]:;,.λ→≡∷×⊎`\"]+"
DECLARED = re.compile(r"^ *(?:(?:pattern|unfoldable|abbrev|axiom|pub) )*(" + NAME + r")(?: \{[^}]*\})? :(?: |$)")
NOMINAL = re.compile(r"^ *(?:(?:abbrev|pub) )*(?:record|data) (" + NAME + r")")
CASE = re.compile(r"^ +(" + NAME + r") : ")
FIELD = re.compile(r"^ +(?:pub )?(" + NAME + r") : ")
TOKEN = re.compile(r"[\w'◌-]+")
SPECIAL = {"getD-field": "get_or_field", "getD-xored": "get_or_xored", "came-by": "CameBy", "came_by": "CameBy", "Powered-up": "PowersUp"}
CRATES = {"bytes": "octets", "hex": "hex_text"}


def files(suffixes):
    for folder, dirs, names in os.walk("crates"):
        dirs[:] = sorted(d for d in dirs if d != "out")
        for name in sorted(names):
            if name.endswith(suffixes):
                yield os.path.join(folder, name)


def read(path):
    with open(path, encoding="utf-8") as f:
        return f.read()


def write(path, text):
    with open(path, "w", encoding="utf-8") as f:
        f.write(text)


def indent(line):
    return len(line) - len(line.lstrip())


def signature(lines, i):
    text = lines[i]
    for line in lines[i + 1 :]:
        if not line.strip() or indent(line) <= indent(lines[i]):
            break
        text += " " + line.strip()
    return text


def is_type(text):
    return re.match(r"Type\b", text.split("→")[-1].split(" : ")[-1].strip()) is not None


def respelt(name, kind):
    if name in SPECIAL:
        return SPECIAL[name]
    if kind == "type":
        return "".join(w[:1].upper() + w[1:] for w in re.split(r"[-_]", name))
    return name.replace("-", "_")


def is_made(path):
    return os.path.basename(path) in ("Answers.antt", "Invariants.antt", "Proof.antt")


def declared():
    words, fields = {}, {}
    for path in files((".antt",)):
        made = is_made(path)
        lines = read(path).split("\n")
        for i, line in enumerate(lines):
            m = None if made and line.startswith(" ") else DECLARED.match(line)
            if m:
                text = signature(lines, i)
                if made and re.search(r"\b(?:goal|need|given)\." + re.escape(m[1]) + r"(?![\w'-])", text):
                    continue
                new = respelt(m[1], "type" if is_type(text) else "word")
                if new != m[1] and ("-" in m[1] or m[1] in SPECIAL):
                    words[m[1]] = new
            m = CASE.match(line)
            if m and "-" in m[1] and not made:
                words[m[1]] = respelt(m[1], "word")
            m = NOMINAL.match(line)
            if m and "-" in m[1]:
                words[m[1]] = respelt(m[1], "type")
            m = None if made else FIELD.match(line)
            if m and "-" in m[1]:
                fields[m[1]] = respelt(m[1], "word")
    return words, fields


def pieces(text, rust):
    """Text outside strings, and strings, in turn."""
    return re.split(r'("(?:[^"\\]|\\.)*")', text) if rust else re.split(r'("[^"\n]*")', text)


def turn(text, words, fields, rust, made):
    def one(m, piece):
        word = m[0]
        before = piece[: m.start()]
        if before.endswith("."):
            owner = re.search(r"([\w'-]+)\.$", before)
            if word in fields:
                return fields[word]
            if word in words and (not made or word[:1].isupper() or (owner and owner[1][:1].isupper())):
                return words[word]
            return word
        if word in words:
            return words[word]
        if word in fields and re.match(r"\s*(=|:)(?!:)", piece[m.end() :]):
            return fields[word]
        if word in fields and re.search(r"open [\w'.-]+ use \{[^}]*$", before):
            return fields[word]
        return word

    out = []
    for k, piece in enumerate(pieces(text, rust)):
        out.append(piece if k % 2 else TOKEN.sub(lambda m: one(m, piece), piece))
    return "".join(out)


def recrate(text):
    for old, new in CRATES.items():
        text = re.sub(r"\bRattle\." + old + r"\.", f"Rattle.{new}.", text)
        text = re.sub(r"(?<![\w.:])" + old + r"::", new + "::", text)
        text = re.sub(r"\buse " + old + r"\b(?=::|;| as)", f"use {new}", text)
    return text


def main():
    words, fields = declared()
    together = {}
    for old, new in sorted((words | fields).items()):
        together.setdefault(new, set()).add(old)
    for new, olds in together.items():
        if len(olds) > 1:
            print(f"fall together: {sorted(olds)} as {new}")
    for path in files((".antt", ".rt", ".edit")):
        text = read(path)
        rust = path.endswith((".rt", ".edit"))
        had = set(TOKEN.findall(text))
        for old in sorted(had & set(words)):
            if words[old] in had:
                print(f"look: {path} had both {old} and {words[old]}")
        new = recrate(turn(text, words, fields, rust, is_made(path)))
        if new != text:
            write(path, new)
    lines = read("crates.txt").split("\n")
    write("crates.txt", "\n".join(l if l.startswith("#") else re.sub(r"\b(bytes|hex)\b", lambda m: CRATES[m[1]], l) for l in lines))
    for old, new in CRATES.items():
        if os.path.isdir(f"crates/{old}"):
            os.rename(f"crates/{old}", f"crates/{new}")
    print(f"{len(words)} names and {len(fields)} fields")


if __name__ == "__main__":
    sys.exit(main())
