#!/usr/bin/env python3
"""Lists the places of src/ that docs/DESIGN-PASS.md counts, a line each: `python3 tools/places.py POINT [FOLDER]`, with POINT from 1 to 8
and the FOLDER of a checkout (this one, if none is named). The last line has the count. It goes by the text of the sources and by
names that a reader found in them; docs/DESIGN-PASS.md says what it cannot see."""
import collections, itertools, os, re, sys

POINT = sys.argv[1] if len(sys.argv) > 1 else ""
ROOT = sys.argv[2] if len(sys.argv) > 2 else os.path.join(os.path.dirname(os.path.abspath(__file__)), "..")
CRATES = os.path.join(ROOT, "crates")

# The files of src/, each with its text.
def sources():
    for folder, _, files in sorted(os.walk(CRATES)):
        parts = os.path.relpath(folder, CRATES).split(os.sep)
        if "src" in parts and "out" not in parts:
            for name in sorted(files):
                if name.endswith(".rt"):
                    path = os.path.join(folder, name)
                    yield os.path.relpath(path, CRATES), open(path, encoding="utf-8").read()

FN = re.compile(r"^(?P<in>    )?(?:#\[.*\] )?(?:pub(?:\(crate\))? )?(?:extern \"C\" )?fn (?P<name>\w+)", re.M)

# The functions of a text: name, line, signature with clauses, body.
def functions(text):
    for found in FN.finditer(text):
        indent = found["in"] or ""
        end = re.search(rf"^{indent}\}}\s*$", text[found.start():], re.M)
        whole = text[found.start():found.start() + (end.end() if end else 0)]
        opening = re.search(r"\{\s*$", whole, re.M)
        cut = opening.end() if opening else len(whole)
        yield found["name"], text.count("\n", 0, found.start()) + 1, whole[:cut], whole[cut:]

# The enums and structs of a text: kind, name, line, and the lines of the body without comments.
def types(text):
    for found in re.finditer(r"^(?:pub )?(enum|struct) (\w+)[^\n]*\{\n(.*?)^\}", text, re.M | re.S):
        body = [line.strip() for line in found[3].split("\n")]
        yield found[1], found[2], text.count("\n", 0, found.start()) + 1, [line for line in body if line and not line.startswith("//")]

# The parameters of a function, as they are written.
def parameters(head):
    inside = re.search(r"\((.*?)\)\s*(?:->|\n|requires|ensures|\{)", head, re.S)
    return [part.strip() for part in re.split(r",(?![^<]*>)", inside[1] if inside else "") if ":" in part]

# Names of fields that hold a kind by its number, as the sheet's fields do.
KINDS = {"soil", "interval", "lanes", "water", "handling", "aids", "bottom", "cargo", "left", "right", "class"}
# A comment that says which number stands for none.
FOR_NONE = re.compile(r"\b0( and 0)?,? (where (?!it lies)|unless|beyond|for none|for no )|\b28 where|reached is 0")

# 1: an enum in the shape of Option or Result; a flag beside other fields; a number for none; a number for a kind or a refusal.
def shapes():
    for path, text in sources():
        for kind, name, line, body in types(text):
            if kind == "enum" and not name.endswith(("Fault", "Reason")):
                paid = [arm for arm in body if "(" in arm]
                if paid and (len(body) == 2 or any(re.match(r"No|Failed|.*Fault\)", arm) for arm in body)) or "Fine," in body:
                    yield f"{path}:{line} enum {name}"
            if kind == "struct":
                for field in body:
                    if field.endswith(": bool,") and len(body) > 1:
                        yield f"{path}:{line} struct {name}: flag {field[:-1]}"
                coded = [field for field in body if field.endswith(": u8,") and re.sub(r"pub |:.*", "", field) in KINDS]
                if name == "Classes":
                    coded = body
                if coded and name != "Items":
                    yield f"{path}:{line} struct {name}: {len(coded)} kinds by number"
        for mark in re.finditer(r"^(?:pub )?const (NONE|ENDLESS|NO_FIGURE|DASH): (?:u\w+) ", text, re.M):
            yield f"{path}:{text.count(chr(10), 0, mark.start()) + 1} const {mark[1]}: a number for none"
        rows = text.split("\n")
        for n, row in enumerate(rows):
            if row.strip().startswith("//") and FOR_NONE.search(row) and "const " not in rows[n + 1]:
                named = next((re.search(r"(?:fn|struct|trait) \w+|\w+(?=: u8)", later) for later in rows[n + 1:n + 6] if re.search(r"(?:fn|struct|trait) \w+|\w+: u8", later)), None)
                yield f"{path}:{n + 1} {named[0] if named else ''}: a number for none"
        for name, line, head, body in functions(text):
            if re.search(r"(fault_number|reason_number)$", name) and "=>" in body:
                yield f"{path}:{line} fn {name}: numbers of refusals"

WORDS = {"let", "mut", "if", "else", "match", "while", "for", "in", "return", "as", "true", "false", "loop", "Some", "None", "Ok", "Err", "self"}

# A body with its names and numbers taken out, but for the types whose arms it names.
def shape_of(body):
    out = []
    for token in re.findall(r"b?\"[^\"]*\"|[A-Z]\w+::|\w+|[^\s\w]", re.sub(r"//[^\n]*", "", body)):
        if token in WORDS or token.endswith("::") or not re.match(r"[\w\"]", token):
            out.append(token)
        else:
            out.append("n" if token[0].isdigit() else "x")
    return " ".join(out)

# Functions that a reader found to be twins, where the text of their bodies differs in more than names and numbers.
READ = """gauge/design_level gauge/level_steps|gauge/level_by_range gauge/steps_by_range|gauge/widened record/widened|speed/row_speed speed/slope_speed speed/full_speed
    width/bed_item width/depth_item|class/width_class class/width_limits|width/watered width/both width/open_only|lines/put_run lines/put_counts|typed/put_tenths typed/put_hundredths
    depth/column_number trial/column_figure|depth/dug_to engine/dug_of speed/dug_of|depth/last_line worksheet/last_of|blanks/put_byte worksheet/put_byte|blanks/lacking worksheet/lacking
    sheet/read_fault_field sheet/write_fault_field|worksheet/one worksheet/two worksheet/three worksheet/four worksheet/five worksheet/six|texts/happened channel/is_over
    channel/print_block channel/show_block|channel/print_some channel/show_some|channel/print_all channel/show_all|channel/put_bytes channel/put_typed"""

# A body that only reads a table: a match from patterns to numbers or constants.
TABLE = re.compile(r"match [^{]*\{ (?:[^(){}]*(?:\( _ \) )?= > [nx] , )+\} \}")

# 2: functions with one body but for names and numbers; types with the same fields; what a reader found. A line a group.
def twins():
    bodies, fields, named = (collections.defaultdict(list) for _ in range(3))
    for path, text in sources():
        crate = path.split(os.sep)[0]
        for name, line, head, body in functions(text):
            place = f"{path}:{line} fn {name}"
            named[f"{crate}/{name}"].append(place)
            shape = shape_of(body)
            if len(shape.split()) > 9 and not TABLE.fullmatch(shape):
                bodies[shape].append(place)
        for kind, name, line, body in types(text):
            if len(body) > 1:
                fields[kind, tuple(re.sub(r"^pub ", "", field) for field in body)].append(f"{path}:{line} {kind} {name}")
    groups = [group for table in (bodies, fields) for group in table.values()]
    groups += [[place for name in said.split() for place in named[name]] for said in re.split(r"[|\n]", READ)]
    seen = []
    for group in sorted((group for group in groups if len(group) > 1), key=lambda group: (-len(group), group)):
        if not any(set(group) <= set(other) for other in seen):
            seen.append(group)
    for k, group in enumerate(sorted(seen), 1):
        yield f"group {k}: {', '.join(group)}"

# 3: loops that count an index, or move a place, by hand.
def loops():
    for path, text in sources():
        for name, line, head, body in functions(text):
            for turn in re.finditer(r"^( *)while ([^\n]*) \{\n(.*?)^\1\}", body, re.M | re.S):
                used = set(re.findall(r"\w+", turn[2]))
                steps = {step[1] for step in re.finditer(r"\b(\w+) [+-]= \w+;", turn[3])} | {step[1] for step in re.finditer(r"\b(\w+) = (?:to|end|next|cutting::line_after\([^;]*\));", turn[3])}
                if used & steps or re.search(r"\b(place|i|j|at) -= 1;", turn[3]):
                    yield f"{path}:{line + head.count(chr(10)) + body.count(chr(10), 0, turn.start())} fn {name}: while {turn[2]}"

# 4: equality, order, copying, conversion and printing by hand: by the functions' names, where the body does not call the library for it.
BY_HAND = """same_\\w+ least greater_of route_class magnitude dug_of lacking copy_bytes begins_with front_stands whole_stands letter lane_count column_number column_figure column_at
    squat_reading water_of speed_band_of widened with_more small short wide unsigned signed small_number depth_number level_number bed_of bed_figure source_figure level_figure level_source
    word_of uncounted_of band_word water_word reading_of byte word is_over either happened is_whole goes_on in_number"""

LIBRARY = re.compile(r"from_be_bytes|starts_with|saturating_|\.min\(|\.max\(|matches!|try_from|div_ceil|unwrap_or|unsigned_abs")

def by_hand():
    names = re.compile("|".join(BY_HAND.split()))
    for path, text in sources():
        for name, line, head, body in functions(text):
            if names.fullmatch(name) and "self" not in head and not LIBRARY.search(body):
                yield f"{path}:{line} fn {name}"

# 5: a clause of requires in three functions or more; two parameters of one crate that stand together in three functions or more, and apart in one of four at most.
def together():
    facts, singles, pairs = collections.defaultdict(list), collections.Counter(), collections.defaultdict(list)
    for path, text in sources():
        crate = path.split(os.sep)[0]
        for name, line, head, body in functions(text):
            for clause in re.findall(r"requires(?: \w+)? \{ (.*) \}", head):
                facts[re.sub(r"\d+", "n", clause)].append(f"{path}:{line} fn {name}")
            asked = sorted(set(parameters(head)))
            singles.update((crate, part) for part in asked)
            for pair in itertools.combinations(asked, 2):
                pairs[crate, pair].append(f"{path}:{line} fn {name}")
    for fact, places in sorted(facts.items(), key=lambda item: (-len(item[1]), item[0])):
        if len(places) > 2:
            yield f"requires {fact}: {len(places)} functions: {', '.join(places)}"
    for (crate, pair), places in sorted(pairs.items(), key=lambda item: (-len(item[1]), item[0])):
        if len(places) > 2 and 4 * len(places) >= 3 * max(singles[crate, part] for part in pair):
            yield f"parameters of {crate} {', '.join(pair)}: {len(places)} functions: {', '.join(places)}"

# 6: a buffer with a place beside it, an array with a count beside it, text or figures padded to one length.
def buffers():
    for path, text in sources():
        for name, line, head, body in functions(text):
            flat = " ".join(head.split())
            if re.search(r"buffer: &mut \[u8\], at: usize", flat):
                yield f"{path}:{line} fn {name}: buffer and place"
            if re.search(r"\[Figure; ?\w+\]|\[u8; (?:16|24|36|96)\]|\[u8; WORD\]", flat):
                yield f"{path}:{line} fn {name}: padded"
        for padded in re.finditer(r"^(?:pub )?const (\w+): \[u8; (?:16|24|36|96)\]|^(?:pub )?struct (\w+)(?: \{\n[^}]*?|\(.*)\[u8; 16\]", text, re.M):
            yield f"{path}:{text.count(chr(10), 0, padded.start()) + 1} {padded[1] or padded[2]}: padded"
        for kind, name, line, body in types(text):
            if kind == "struct" and any(re.search(r": \[\w+; \w+\],", field) for field in body) and any(re.match(r"(?:pub )?(count|n): ", field) for field in body):
                yield f"{path}:{line} struct {name}: an array and a count"

# 7: a match, or a chain of tests, on which step to run.
def switches():
    for path, text in sources():
        for name, line, head, body in functions(text):
            for found in re.finditer(r"match (\w+) \{\s*(?:Form|Task|Source|Pass)::", body):
                yield f"{path}:{line} fn {name}: match {found[1]}"
            if len(re.findall(r"if same_word\(|if word == ", body)) > 2:
                yield f"{path}:{line} fn {name}: a chain of words"

# 8: files of answers in proofs/, and how many answers each has.
def answers():
    for folder, _, files in sorted(os.walk(CRATES)):
        if "Answers.antt" in files and f"{os.sep}out{os.sep}" not in folder:
            path = os.path.join(folder, "Answers.antt")
            yield f"{os.path.relpath(path, CRATES)}: {len(re.findall(r'^pub [^ ]+ :', open(path, encoding='utf-8').read(), re.M))} answers"

POINTS = {"1": shapes, "2": twins, "3": loops, "4": by_hand, "5": together, "6": buffers, "7": switches, "8": answers}
if POINT not in POINTS:
    sys.exit(__doc__)
places = list(POINTS[POINT]())
print(*places, sep="\n")
more = f", {sum(int(place.split()[-2]) for place in places)} answers" if POINT == "8" else ""
print(f"point {POINT}: {len(places)} places{more}")
