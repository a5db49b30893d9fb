#!/usr/bin/env python3
"""Brings the names that this repository declares in specs/ and proofs/ to today's spelling, after the kit's port.py: functions, lemmas,
fields and binders in snake case (setOf: set_of, has-and: has_and), types and facts as they are.

usage: respell.py [--check]      once, at the top of the repository; --check writes nothing and lists the table and what stays

It turns whole words alone, by the kit's own snake.py: in .antt files, in the clauses and `ghost use` items of .rt files, in code spans of
.md files, and in must-fail edits. What stays as it is: names out of src/, which are in snake case already; the answers to goals, which
Rattle names (declared at a type `tie.` or `goal.`); and a name with a dash whose new spelling another name has, which keeps the dash, as a
lemma of that name may. GIVEN has the few names that would fall together with another, and what they are called instead.
"""

import glob
import os
import re
import subprocess
import sys
import tempfile

sys.dont_write_bytecode = True

WORD = re.compile(r'[^\s(){}.;,@"«»]+')
QUIET = re.compile(r'"(?:[^"\\\n]|\\.)*"|(?<![^\s(){}.;,@"«»])--[^\n]*|\{-.*?-\}', re.S)
USE = re.compile(r"\buse ([^\s;{]+)(\{[^;]*?\}(?=;|[ \t]*$))?", re.M)
DECLARED = re.compile(r"(?m)^ *(?:(?:pub|abbrev|unfoldable|data|record) )*([^\s(){}.;,:⟨]+)(?: \{[^{}\n]*\})* : *(\S*)")
CAMEL = re.compile(r"[a-z][\w'-]*[a-z0-9][A-Z][\w'-]*")
PARAMETER = re.compile(r"\b(?:mut )?(\w+): ")


def snake(name):
    if not name[0].islower():
        return name
    parts = re.sub(r"(?<=[a-z0-9])[A-Z]", lambda m: "_" + m[0].lower(), name)
    return parts.replace("-", "_")


def texts(kind):
    found = glob.glob(f"crates/*/**/*.{kind}", recursive=True)
    return sorted(p for p in found if "/out/" not in p)


def read(path):
    with open(path, encoding="utf-8") as f:
        return f.read()


def code_of(path):
    return QUIET.sub(" ", read(path))


def is_own(path):
    steps = path.split(".")
    return steps[0] == "Rattle" and steps[1] not in ("std", "core")


GIVEN = {
    "handed_out": "handed_out_lem",
    "value_after": "value_after_lem",
    "write_granted": "write_granted_lem",
    "inOrder": "is_in_order",
}


def table_and_kept():
    """Each name with its new spelling, and the names that stay, each with the reason."""
    codes = {p: code_of(p) for p in texts("antt")}
    names, theirs = set(), set()
    for code in codes.values():
        for path, items in USE.findall(code):
            if not is_own(path):
                theirs |= set(WORD.findall(items or ""))
        for name, kind in DECLARED.findall(code):
            if not kind.startswith(("tie.", "goal.")):
                names.add(name)
        names |= {w for w in WORD.findall(code) if CAMEL.fullmatch(w)}
    table = {n: GIVEN.get(n, snake(n)) for n in names - theirs}
    table = {a: b for a, b in table.items() if a != b}
    kept, seen = {}, {}
    for a in sorted(table, key=lambda n: ("-" in n, n)):
        if table[a] in seen:
            kept[a] = f"{seen[table[a]]} is {table[a]} too"
        else:
            seen[table[a]] = a
    # In one file, neither the steps of a path nor a field can be mistaken for a name.
    for p in texts("antt") + texts("rt"):
        code = codes.get(p) or read(p)
        items = USE.sub(lambda m: " " + (m[2] or "") + " ", code)
        here = {m[0] for m in WORD.finditer(items) if items[m.start() - 1] != "."}
        if p.endswith(".rt"):
            here = {a for a in table if re.search(rf"(?<![\w-]){re.escape(a)}(?![\w-])", code)} | set(PARAMETER.findall(code))
        for a in here & set(table):
            if table[a] in here and table[a] not in table:
                kept.setdefault(a, f"{table[a]} stands in {p}")
    return table, kept


def main(args):
    check = "--check" in args
    table, kept = table_and_kept()
    if check:
        for a in sorted(kept):
            print(f"stays: {a}: {kept[a]}")
    for a in kept:
        table.pop(a)
    if check:
        for a in sorted(table):
            print(f"{a}\t{table[a]}")
        return 0
    kit = os.path.dirname(subprocess.run(["rt", "doc"], capture_output=True, text=True, check=True).stdout.strip())
    script = os.path.join(kit, "port", "notes", "2026-11-18-names-are-in-snake-case", "snake.py")
    with tempfile.NamedTemporaryFile("w", suffix=".tsv", delete=False, encoding="utf-8") as f:
        f.write("".join(f"{a}\t{b}\n" for a, b in sorted(table.items())))
    for kinds, where in (("antt,rt", ["crates"]), ("md", ["README.md", "docs"])):
        done = subprocess.run([sys.executable, script, "--table", f.name, "--only", kinds, *where], capture_output=True, text=True)
        print(done.stdout[-2000:], done.stderr[-2000:])
    for p in sorted(glob.glob("crates/*/must-fail/*.edit")):
        old = read(p)
        new = WORD.sub(lambda m: table.get(m[0], m[0]), old)
        if new != old:
            with open(p, "w", encoding="utf-8") as out:
                out.write(new)
    os.unlink(f.name)
    return 0


if __name__ == "__main__":
    raise SystemExit(main(sys.argv[1:]))
