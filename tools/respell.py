#!/usr/bin/env python3
"""Brings the project's own definitions and lemmas to the newer Rattle's spelling: words in snake case.

Run once at the top, on what port.py made of the landed tree. A name of specs/ or proofs/ that is written with dashes or
humps gets underscores, in specs/, proofs/, the clauses of src/, the edits and the names between backticks of the pages.
Functions of src/, names that Rattle makes and names of its library keep theirs. Where two names fall together in a file,
the definition keeps the plain one, and the lemma or the field ends in _lem or _is.
"""
import collections
import os
import re
import sys

OWN = set(os.listdir("crates"))
WORD = r"[A-Za-zͰ-Ͽ₀-₉_][\w'′₀-₉]*(?:-[\w'′₀-₉]+)*"
TOKEN = re.compile(r"(?<![\w'′₀-₉-])" + WORD + r"(?![\w'′₀-₉])")
MODIFIERS = r"(?:(?:abbrev|unfoldable|pub|cycle|opaque|pattern|field|where)[ \t]+)*"
SIGNATURE = re.compile(r"^[ \t]*" + MODIFIERS + r"((?:" + WORD + r"[ \t]+)*" + WORD + r")[ \t]*:[ \t\n]", re.M)
DATA = re.compile(r"^[ \t]*" + MODIFIERS + r"(?:data|record)[ \t]+(" + WORD + ")", re.M)
ALIAS = re.compile(r" as (" + WORD + r")(?=[ ,}])")
MIXFIX = re.compile(r"◌([\w-]+)◌[ \t]*:[ \t\n]")
STRING = re.compile(r'"(?:[^"\\\n]|\\.)*"')
IMPORT = re.compile(r"^[ \t]*(?:ghost )?(?:pub )?use[ \t]+([\w.+'-]+)\.\{([^}]*)\}", re.M)

# Names that fall together with another that stands in the same file. Each holds in these files alone, or in every one.
LEMMA = "answer-by begin-step blank-lines by-bend by-check by-depth by-search by-speed bytes-s digits-read entry-on expected-texts field-of figure-by figures-in form-lines form-rows form-text held-level in-turn is-over lines-by lines-of-all lines-of-s name-end natural-depth next-number of-sheet past-bend past-depth past-entries place-within read-text route-class rows-text starred-sheets text-of-s typed-s with-ship written-number".split()
FIELD = "datum-depth depth-class ship-class width-class sheets-printed sheets-shown".split()
SNAKE = {
    "at_level": ["design/proofs/answers/Worked.antt"],
    "by_entries": ["both/proofs/Standing.antt", "design/proofs/answers/Ways.antt"],
    "by_level": ["design/proofs/answers/Worked.antt"],
    "other_step": ["texts/proofs/meaning/Sound.antt"],
    "read_number": ["sheet/proofs/Promises.antt"],
}


def files(top, endings):
    for folder, dirs, names in os.walk(top):
        dirs[:] = sorted(d for d in dirs if d not in ("out", ".git", "target"))
        for name in sorted(names):
            if name.endswith(endings):
                yield os.path.join(folder, name)


def read(path):
    with open(path, encoding="utf-8") as f:
        return f.read()


def write(path, old, new):
    if new != old:
        with open(path, "w", encoding="utf-8") as f:
            f.write(new)


def snake(name):
    name = re.sub(r"([a-z0-9])([A-Z])", lambda m: m.group(1) + "_" + m.group(2).lower(), name)
    return name.replace("-", "_").replace("′", "'")


def spelled(name):
    if name in LEMMA:
        return snake(name) + "_lem"
    if name in FIELD:
        return snake(name) + "_is"
    return snake(name)


def defined():
    """The project's own names: what has a signature in specs/ or proofs/."""
    names = set()
    for path in files("crates", (".antt",)):
        text = re.sub(r"--.*", "", read(path))
        for m in SIGNATURE.finditer(text):
            names.update(m.group(1).split())
        names.update(DATA.findall(text))
        names.update(ALIAS.findall(text))
        names.update(MIXFIX.findall(text))
    return {n for n in names if not n[0].isupper()}


def foreign(text):
    """The names that a file takes in from elsewhere."""
    names = set()
    for path, items in IMPORT.findall(text):
        parts = path.split(".")
        if parts[0] != "Rattle" or parts[1] not in OWN:
            names.update(re.findall(WORD, items))
    return names


def turn(text, names, own_rule):
    def one(m):
        name = m.group(0)
        before = m.string[max(0, m.start() - 5) : m.start()]
        if name not in names or before.endswith(("tie.", "goal.")):
            return name
        return own_rule(name)

    return outside_strings(text, lambda part: TOKEN.sub(one, part))


def outside_strings(text, change):
    parts, at = [], 0
    for m in STRING.finditer(text):
        parts += [change(text[at : m.start()]), m.group(0)]
        at = m.end()
    return "".join(parts) + change(text[at:])


def clauses(text):
    """The spans of a source file that are of specs/: its `ghost use` lines, its contracts and its ghost items."""
    spans = [m.span() for m in re.finditer(r"ghost use [^;]*;", text)]
    for m in re.finditer(r"\b(?:requires|ensures|ghost)\b[^{};]*\{", text):
        depth, at = 1, m.end()
        while depth and at < len(text):
            depth += {"{": 1, "}": -1}.get(text[at], 0)
            at += 1
        spans.append((m.end(), at))
    return sorted(spans)


def main():
    names = defined()
    turned = {n for n in names if n != snake(n)}
    for path in files("crates", (".antt", ".rt")):
        text = read(path)
        here = turned - foreign(text)
        kept = turned & foreign(text)
        if kept:
            print(f"{path}: of the library, as they are: {' '.join(sorted(kept))}")
        short = os.path.relpath(path, "crates")
        if path.endswith(".antt"):
            new = text
            for name, where in SNAKE.items():
                if short in where:
                    new = re.sub(r"(?<![\w.'-])" + name + r"(?![\w'-])", name + "_lem", new)
            new = turn(new, here, spelled)
        else:
            parts, at = [], 0
            for start, end in clauses(text):
                if start < at:
                    continue
                parts += [text[at:start], turn(text[start:end], here, spelled)]
                at = end
            new = "".join(parts) + text[at:]
        write(path, text, new)
    after = {spelled(n) for n in names} | defined()

    def as_now(name):
        return spelled(name) if spelled(name) in after else name

    def old_form(text):
        return outside_strings(text, lambda part: TOKEN.sub(lambda m: as_now(m.group(0)) if m.group(0) != snake(m.group(0)) and m.group(0)[0].islower() else m.group(0), part))

    for path in list(files("crates", (".edit",))) + list(files("tests/edits", (".edit",))):
        text = read(path)
        lines = [line[:5] + old_form(line[5:]) if line.startswith(("old: ", "new: ")) else line for line in text.split("\n")]
        write(path, text, "\n".join(lines))
    for path in list(files("docs", (".md",))) + ["README.md"]:
        text = read(path)
        write(path, text, re.sub(r"`[^`\n]+`", lambda m: old_form(m.group(0)), text))
    return 0


if __name__ == "__main__":
    sys.exit(main())
