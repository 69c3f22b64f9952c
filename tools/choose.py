#!/usr/bin/env python3
"""Gives the project's choice by a test another name than the library's: `if b then x else y` of specs/, proofs/ and clauses becomes
`ifᵇ b then x else y`, in the crates and in the wrong programs; it means what it did. The code, and its tests, stay. Run in the repository's root; run again it changes
nothing."""
import glob, re, sys

NAME = "if◌then◌else◌"
WORD = re.compile(r"(?<![\w.◌ᵇ'-])if(?=[\s(]|$)")
CLAUSE = re.compile(r"^\s*(requires|ensures|invariant)\b.*\bif\b.*\bthen\b")


def code_of(line):
    """What of a line is no comment, and the comment."""
    found = re.search(r"(^|\s)--(\s|$)", line)
    return (line[:found.start()], line[found.start():]) if found else (line, "")


def renamed(code):
    return WORD.sub("ifᵇ", re.sub(r"(?<!ᵇ)\bif◌then◌else◌", "ifᵇ◌then◌else◌", code))


def proof(text):
    return "\n".join("".join((renamed(code), comment)) for code, comment in map(code_of, text.split("\n")))


def source(text):
    return "\n".join(renamed(line) if CLAUSE.search(line) or line.startswith("ghost use") and NAME in line else line
                     for line in text.split("\n"))


def edit(text):
    lines, turn = [], source
    for line in text.split("\n"):
        word, _, rest = line.partition(": ")
        if word == "file":
            turn = source if rest.startswith("src/") else proof
        lines.append(f"{word}: {turn(rest)}" if word in ("old", "new") else line)
    return "\n".join(lines)


changed = 0
for places, turn in ((("crates/*/specs/**/*.antt", "crates/*/proofs/**/*.antt"), proof), (("crates/*/src/**/*.rt",), source),
                     (("crates/*/must-fail/*.edit", "tests/edits/*/*.edit"), edit)):
    for file in sorted(file for place in places for file in glob.glob(place, recursive=True)):
        with open(file, encoding="utf-8") as opened:
            text = opened.read()
        new = turn(text)
        if new != text:
            changed += 1
            with open(file, "w", encoding="utf-8") as opened:
                opened.write(new)
print(f"choose: {changed} files changed")
