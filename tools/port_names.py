#!/usr/bin/env python3
"""Spells the repository's own names as today's Rattle does, once, after port.py: definitions and fields in snake case, a dash in a
lemma's name only between two names, a plain word behind `_`. Functions of src/, strings, inputs and outputs keep their names.

tools/port_names.py [FOLDER]           turns crates/ below FOLDER (this repository if not given), and writes tools/port_names.tsv
tools/port_names.py --check [FOLDER]   prints the table and writes nothing
"""
import collections, glob, os, re, sys

ARGS = [a for a in sys.argv[1:] if a != "--check"]
TOP = ARGS[0] if ARGS else os.path.dirname(os.path.dirname(os.path.abspath(__file__)))
WORD = r"[^\s(){}.;,@\"«»:]+"
DECLARED = re.compile(rf"^( *)((?:(?:abbrev|unfoldable|pub|record|data|ruleset|private) +)*)({WORD})((?: \{{[^}}\n]*\}})*) :(?!:)", re.M)
# Words of the kit that a lemma's name may join by a dash.
KIT = set("length take drop append map filter set mem get_or suc zero add mul sub div mod min max replicate eqb leb ltb not cond or and sum concat reverse any all count from nil cons".split())


def read(path):
    with open(path, encoding="utf-8") as f:
        return f.read()


def files(pattern):
    return sorted(glob.glob(os.path.join(TOP, "crates", "*", pattern), recursive=True))


def snake(part):
    """A part of a name in snake case; a case's name, as C1 or F6, in small letters."""
    part = re.sub(r"(?<=[a-z0-9])([A-Z])", lambda m: "_" + m[1].lower(), part)
    return part.lower() if re.match(r"[A-Z]\d", part) else part


def code(text):
    return re.sub(r"--[^\n]*", "", text)


# Where each name is declared: in specs (a definition or a field) or in proofs (a lemma).
specs, lemmas = collections.Counter(), collections.Counter()
for f in files("specs/**/*.antt"):
    for m in DECLARED.finditer(code(read(f))):
        specs[m[3]] += 1
fields = collections.Counter()
for f in files("proofs/**/*.antt"):
    if f.endswith("/Proof.antt"):  # a function's own goals, which get the names that the check gives them
        continue
    text = code(read(f))
    in_record = False
    for line in text.split("\n"):
        if re.match(r"(pub )?record ", line):
            in_record = True
        elif line and not line.startswith(" "):
            in_record = False
        m = DECLARED.match(line)
        if m:
            (fields if in_record and m[1] else lemmas)[m[3]] += 1
taken = set(specs) | set(lemmas) | set(fields)
# Fields that would fall together with a definition.
OTHERS = {"heads-in": "heads_inside", "parents-in": "parents_inside"}
words = {snake(n) for n in specs if "-" not in n} | KIT


def spelled(name):
    if name in OTHERS:
        return OTHERS[name]
    if name in specs or name in fields:
        return "_".join(snake(p) for p in name.split("-"))
    parts = [snake(p) for p in name.split("-")]
    out = parts[0]
    for a, b in zip(parts, parts[1:]):
        out += ("-" if a.split("_")[-1] in words and b.split("_")[0] in words or a in words and b in words else "_") + b
    return out


table = {}
for n in sorted(taken):
    if not re.match(r"[A-Za-z]", n) or n[0].isupper() and "-" not in n or re.fullmatch(r"[A-Z]\w*", n.split("-")[0]) and not re.match(r"[A-Z]\d", n):
        continue
    new = spelled(n)
    if new != n:
        table[n] = new
# Names that would fall together: a lemma gets `_lem`, by the kit's rule; two definitions are an error.
by_new = collections.defaultdict(list)
for n, new in table.items():
    by_new[new].append(n)
for new, old in sorted(by_new.items()):
    every = old + ([new] if new in taken and new not in table else [])
    if len(every) > 1:
        first = [n for n in every if n in specs] or [new if new in every else every[0]]
        for n in every:
            if n != first[0] and n in table:
                table[n] = new + "_lem" if n not in specs else new
                if n in specs:
                    print(f"look: {every} fall together as {new}")
                while table[n] in taken or [o for o in table if o != n and table[o] == table[n] and n not in specs]:
                    table[n] += "_2"

kept = set()  # behind a dot these are fields or goals
# A lemma that port.py has given the name that a definition gets here.
for n, new in sorted(table.items()):
    if n in specs and new in lemmas and new not in specs and new not in table:
        table[new] = new + "_lem"
        kept.add(new)

BEHIND = re.compile(rf"(?:«)?({WORD})(?:»)?")


def turn(text):
    return BEHIND.sub(lambda m: table[m[1]] if m[1] in table and not (m[1] in kept and text[m.start() - 1 : m.start()] == ".") else m[0], text)


def turn_antt(text):
    """Code, and names between backticks in comments."""
    out = []
    for line in text.split("\n"):
        at = re.search(r"(?<![^\s(){}.;,@])--", line)
        head, note = (line[: at.start()], line[at.start() :]) if at else (line, "")
        out.append(turn(head) + re.sub(r"`[^`]*`", lambda m: turn(m[0]), note))
    return "\n".join(out)


CLAUSE = re.compile(r"(?:requires|ensures)\*?(?:\s+\w+)?\s*\{|ghost\s+use\b|ghost\s+\w+\s*:\s*\{|#\[tactic\(")


def turn_rt(text):
    """Clauses, ghost items and the tactics' lists; names between backticks in comments."""
    out, at = [], 0
    for m in CLAUSE.finditer(text):
        if m.start() < at:
            continue
        out.append(text[at : m.start()])
        if m[0].startswith("ghost use") or "use" in m[0].split():
            end = text.index(";", m.start()) + 1
        else:
            depth, end = 0, m.end() - 1
            while True:
                depth += {"{": 1, "(": 1, "}": -1, ")": -1}.get(text[end], 0)
                end += 1
                if depth == 0:
                    break
        # The head of a clause, its label with it, stays.
        head = m[0] if "{" in m[0] else ""
        out.append(head + turn(text[m.start() + len(head) : end]))
        at = end
    out.append(text[at:])
    text = "".join(out)
    return re.sub(r"(?m)//[^\n]*", lambda m: re.sub(r"`[^`]*`", lambda s: turn(s[0]), m[0]), text)


def turn_edit(text):
    out, kind = [], ""
    for line in text.split("\n"):
        if line.startswith("file: "):
            kind = line.rsplit(".", 1)[-1]
        if line.startswith(("old: ", "new: ")):
            body = line[5:]
            spec = kind == "antt" or re.search(r"ensures|requires|ghost|⌜|λ|≡", body)
            line = line[:5] + (turn(body) if spec else body)
        out.append(line)
    return "\n".join(out)


if __name__ == "__main__":
    if "--check" in sys.argv:
        for n in sorted(table):
            print(n + "\t" + table[n])
        raise SystemExit
    changed = 0
    for pattern, how in (("specs/**/*.antt", turn_antt), ("proofs/**/*.antt", turn_antt), ("src/**/*.rt", turn_rt), ("must-fail/*.edit", turn_edit)):
        for f in files(pattern):
            old = read(f)
            new = how(old)
            if new != old:
                changed += 1
                with open(f, "w", encoding="utf-8") as out:
                    out.write(new)
    with open(os.path.join(TOP, "tools", "port_names.tsv"), "w", encoding="utf-8") as out:
        for n in sorted(table):
            out.write(n + "\t" + table[n] + "\n")
    print(f"{len(table)} names, {changed} files")
