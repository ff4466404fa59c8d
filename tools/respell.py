#!/usr/bin/env python3
"""Brings the names of this repository's definitions, laws and lemmas to the spelling of PORTING.md, part 3: words in snake
case, types and modules in camel case. usage: tools/respell.py [--names] [ROOT]

Functions, fields and parameters of src/, exported C names, strings, inputs and outputs keep their names, and so do the names
of the kit and those that the check makes for its goals. It runs after the kit's own script and changes nothing when it runs
again. With --names it lists the names only. A lemma that would fall together with the definition that it speaks of gets
`_lem`, as CONTRACT_STYLE.md has it.
"""
import os
import re
import sys

WORD = r"[A-Za-z][A-Za-z0-9_'₀-₉]*(?:-[A-Za-z0-9_'₀-₉]+)*"
TOKEN = re.compile(r"(?<![A-Za-z0-9_'₀-₉-])" + WORD + r"(?![A-Za-z0-9_'₀-₉-])")
DEFINED = re.compile(r"\s*(?:(?:pub|abbrev|unfoldable|data|record) )*(" + WORD + r")(?=\s)(?![^:]*=)[^:=]*\s?:\s*(\S*)")
USED = re.compile(r"use ([A-Za-z0-9_.·]+)\.\{([^}]*)\}")
TICKED = re.compile(r"`[^`\n]*`")
MADE = ("Answers.antt", "Invariants.antt", "Proof.antt")


def snake(name):
    parts = name.split("-")
    humps = r"(?<=[a-z0-9])[A-Z]|(?<=[A-Z])[A-Z](?=[a-z])"
    lower = [re.sub(humps, lambda m: "_" + m[0], p).lower() if p[0].islower() else p for p in parts]
    return "_".join(lower)


def is_camel(name):
    return name[0].islower() and re.search(r"[a-z0-9][A-Z]", name.split("-")[0]) is not None


def walk(root, folder, ends):
    for at, dirs, names in os.walk(os.path.join(root, folder)):
        dirs[:] = sorted(d for d in dirs if d not in ("out", "target", ".git"))
        for name in sorted(names):
            if name.endswith(ends):
                yield os.path.join(at, name)


def read(path):
    with open(path, encoding="utf-8") as f:
        return f.read()


def is_made(path):
    """whether the file answers goals, whose names the check makes"""
    return "/proofs/" in path and os.path.basename(path) in MADE


def of_kit(text):
    """the names that a file takes from the kit"""
    found = set()
    for m in USED.finditer(text):
        if not (m[1].startswith("Rattle.") and m[1].split(".")[1] in CRATES):
            for item in m[2].split(","):
                found.add(item.strip().split(" as ")[0].strip())
    return found


def code_of(line):
    """where the comment of an antt line begins"""
    at = 0 if line.lstrip().startswith("--") else line.find(" -- ")
    return len(line) if at < 0 else at


class Names:
    """the repository's own names, old to new"""

    def __init__(self, root):
        self.defined, self.fields, laws = set(), set(), set()
        for path in walk(root, "crates", ".antt"):
            if os.path.basename(path) == "Lib.antt":
                continue
            for line in read(path).split("\n"):
                m = DEFINED.match(line)
                if not m or line.lstrip().startswith("--") or (is_made(path) and m[2].startswith("goal")):
                    continue
                (self.defined if "/specs/" in path else laws).add(m[1])
                if "/specs/" in path or line.startswith(" "):
                    self.fields.add(m[1])
        self.new = {n: snake(n) for n in self.defined}
        taken = set(self.new.values())
        for n in laws - self.defined:
            self.new[n] = snake(n) + ("_lem" if snake(n) in taken and snake(n) != n else "")
        self.new = {n: to for n, to in self.new.items() if n != to}

    # In a file that answers goals a name with a dash behind a dot is the check's, unless it is a field.
    def turn(self, name, kit, free, made_field=False):
        if name in kit or (made_field and "-" in name and name not in self.fields):
            return name
        if name in self.new:
            return self.new[name]
        if is_camel(name) or free:
            return snake(name)
        return name


def turned(names, text, kit, free):
    def one(m):
        field = text[m.start() - 1 : m.start()] == "."
        return names.turn(m[0], kit, free and not field, field and not free)

    return TOKEN.sub(one, text)


def turned_ticks(names, text):
    return TICKED.sub(lambda t: TOKEN.sub(lambda m: names.new.get(m[0], m[0]), t[0]), text)


def antt(names, path):
    text, out = read(path), []
    kit, free = of_kit(text), not is_made(path)
    for line in text.split("\n"):
        at = code_of(line)
        out.append(turned(names, line[:at], kit, free) + turned_ticks(names, line[at:]))
    return "\n".join(out)


def rattle(names, path):
    """Clauses alone cite the names: no name of src/ is in lower camel case or has a dash."""
    out = []
    for line in read(path).split("\n"):
        at = line.find("//")
        at = len(line) if at < 0 else at
        code = TOKEN.sub(lambda m: m[0] if m[0] not in names.new else names.new[m[0]], line[:at])
        out.append(code + turned_ticks(names, line[at:]))
    return "\n".join(out)


def edit(names, path):
    """An edit's texts are lines of the file that it names."""
    free = re.search(r"^file: .*\.antt$", read(path), re.M) is not None
    out = []
    for line in read(path).split("\n"):
        if line.startswith(("old: ", "new: ")):
            line = line[:5] + TOKEN.sub(lambda m: names.turn(m[0], (), False) if free else names.new.get(m[0], m[0]), line[5:])
        out.append(line)
    return "\n".join(out)


def page(names, path):
    return turned_ticks(names, read(path))


def main(words):
    only = "--names" in words
    words = [w for w in words if w != "--names"]
    root = words[0] if words else "."
    global CRATES
    CRATES = set(os.listdir(os.path.join(root, "crates")))
    names = Names(root)
    if only:
        for old in sorted(names.new):
            print(old, names.new[old])
        return
    turns = [(p, antt) for p in walk(root, "crates", ".antt")] + [(p, rattle) for p in walk(root, "crates", ".rt")]
    turns += [(p, edit) for p in walk(root, "crates", ".edit")]
    turns += [(p, page) for p in walk(root, "docs", ".md")] + [(os.path.join(root, "README.md"), page)]
    changed = 0
    for path, turn in turns:
        if not os.path.exists(path):
            continue
        old = read(path)
        new = turn(names, path)
        if new != old:
            changed += 1
            with open(path, "w", encoding="utf-8") as f:
                f.write(new)
    print(f"respell: {len(names.new)} names, {changed} files")


if __name__ == "__main__":
    main(sys.argv[1:])
