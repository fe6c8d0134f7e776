#!/usr/bin/env python3
"""Brings the names of the repository's own definitions and lemmas to snake case: run once at the top, behind port.py.

A capital inside a name becomes _ and a small letter; a dash stays where it joins the name of a definition to another name, and else becomes _.
Names of functions in src/, of types and of facts keep their spelling, and so does every name that a file brings in from elsewhere.
"""

import os
import re

LETTERS = r"[^\s(){}\[\].,;:⌜⌝\"]+"
SIGNATURE = re.compile(r"^( *)((?:abbrev |pub |unfoldable )*)(" + LETTERS + r")((?: *[({][^=]*[)}])*) :(?: |$)")
WORDS = {"module", "use", "mod", "where", "let", "elim", "in", "abbrev", "pub", "data", "record", "infix", "infixl", "infixr", "unfolding", "λ", "--"}
# Words that antt or its library has for something else.
OTHER = {"first_of": "first_refusal"}
# Names that would meet a variable or a parameter of their spelling.
TAKEN = {}


def texts(ends):
    for folder, dirs, files in os.walk("crates"):
        dirs[:] = sorted(d for d in dirs if d != "out")
        for f in sorted(files):
            if f.endswith(ends):
                yield os.path.join(folder, f)


def read(path):
    with open(path, encoding="utf-8") as f:
        return f.read()


def plain(part):
    if part[:1].isupper():
        return part
    return re.sub(r"(?<=[a-z0-9?])([A-Z])(?=[a-zA-Z0-9?→]|$)", lambda m: "_" + m.group(1).lower(), part)


def tokens(line):
    return re.split("(" + LETTERS + ")", line)


def main():
    own, specs = {}, set()
    for path in texts(".antt"):
        if re.search(r"/proofs/.*/", path):
            continue
        for line in read(path).splitlines():
            m = SIGNATURE.match(line)
            if m and m.group(3) not in WORDS:
                own.setdefault(m.group(3), set()).add(path)
                if "/specs/" in path:
                    specs.add(m.group(3))

    def turned(name):
        if name in OTHER:
            return OTHER[name]
        if not re.search("[a-z]", name) or "◌" in name or name[:1].isupper() and "-" not in name or re.search(r"[^\w?'→-]", name) or name.startswith("μ-"):
            return name
        parts = name.split("-")
        if "" in parts:
            return name
        made = plain(parts[0])
        for before, part in zip(parts, parts[1:]):
            joins = before[:1].isupper() or before in specs and part in specs
            made += ("-" if joins else "_") + plain(part)
        return made

    names = {n: turned(n) for n in own}
    # Names that would fall together keep their dashes.
    seen = {}
    for n, t in sorted(names.items()):
        seen.setdefault(t, []).append(n)
    for t, ns in seen.items():
        if len(ns) > 1:
            for n in ns:
                if n != t and "-" in n:
                    names[n] = "-".join(plain(p) for p in n.split("-"))
    # A lemma that would have its function's name.
    for n, t in list(names.items()):
        if n != t and names.get(t) == t and t not in specs:
            names[t] = t + "_lem"
    for n, t in TAKEN.items():
        if n in names:
            names[n] = t
    names = {n: t for n, t in names.items() if n != t}
    if len(set(names.values())) != len(names) or set(names.values()) & (set(own) - set(names)):
        twice = [n for n, t in names.items() if list(names.values()).count(t) > 1 or t in set(own) - set(names)]
        raise SystemExit(f"respell: names fall together: {twice}")

    def elsewhere(text):
        """The names that a file brings in from a library, or from what the check makes."""
        found = set()
        for m in re.finditer(r"use ([\w.+·-]+)\.\{([^}]*)\}", text):
            where = m.group(1)
            own_module = where.startswith("Rattle.") and where.split(".")[1] in crates
            made = re.search(r"\.proofs\.\+?[a-z_0-9]+(\.|$)|\.proofs\.[a-z]\w*\.|specs\.declared", where)
            if not own_module or made:
                found.update(w.strip().split(" ")[0] for w in m.group(2).split(","))
                found.update(w.strip().split(" ")[-1] for w in m.group(2).split(","))
        return found

    crates = set(os.listdir("crates"))
    fields = set()
    for path in texts(".antt"):
        inside = False
        for line in read(path).splitlines():
            if re.match(r"^ *(pub )?(record|data) ", line):
                inside = True
            elif inside and re.match(r"^\S", line):
                inside = False
            m = SIGNATURE.match(line)
            if inside and m and m.group(1):
                fields.add(m.group(3))

    def meets(path, text, keep):
        """The new names that stand in the file already, for something else."""
        stand = set()
        for line in text.split("\n"):
            parts = tokens(line)
            stand.update(p for i, p in enumerate(parts) if i % 2 and not parts[i - 1].endswith("."))
        for n, t in names.items():
            if n in stand and n not in keep and t in stand and t not in names:
                print(f"look: {path}: {n} -> {t} stands there")

    def meets_parameter(path, params, line, keep):
        for part in tokens(line)[1::2]:
            if part in names and part not in keep and names[part] in params and not line.startswith("ghost use"):
                print(f"look: {path}: {part} -> {names[part]} is a parameter")

    def respelled(text, keep):
        aliases = {m.group(2) for m in re.finditer(r"use (Rattle\.[\w.]+) as (\S+?);?\s", text) if not re.search(r"\.proofs\.[+a-z]", m.group(1)) and "declared" not in m.group(1)}
        out = []
        for line in text.split("\n"):
            parts = tokens(line)
            comment = line.find("--")
            at = 0
            for i, part in enumerate(parts):
                if i % 2 and part in names and part not in keep:
                    behind = parts[i - 1].endswith(".")
                    alias = behind and i >= 2 and parts[i - 2] in aliases
                    if not behind or alias or part in fields or parts[i - 1].endswith(".{"):
                        parts[i] = names[part]
                at += len(part)
            out.append("".join(parts))
        return "\n".join(out)

    changed = 0
    for path in texts(".antt"):
        text = read(path)
        keep = elsewhere(text)
        meets(path, text, keep)
        new = respelled(text, keep)
        if new != text:
            changed += 1
            with open(path, "w", encoding="utf-8") as f:
                f.write(new)
    for path in texts(".rt"):
        text = read(path)
        keep = elsewhere(text)
        out, depth, params = [], 0, set()
        for line in text.split("\n"):
            if line.startswith("ghost use") or re.match(r" *(requires|ensures|ghost)\b", line) or depth:
                depth += line.count("{") - line.count("}") if not line.startswith("ghost use") else 0
                meets_parameter(path, params, line, keep)
                line = respelled(line, keep)
            elif " fn " in " " + line:
                params = set()
            params.update(re.findall(r"\b([a-z_0-9]+): ", line))
            out.append(line)
        new = "\n".join(out)
        if new != text:
            changed += 1
            with open(path, "w", encoding="utf-8") as f:
                f.write(new)
    for path in texts(".edit"):
        text = read(path)
        if re.search(r"^file: .*\.antt", text, re.M) or re.search(r"^(old|new): *(requires|ensures)", text, re.M):
            new = "\n".join(l if not re.match("(old|new):", l) else respelled(l, set()) for l in text.split("\n"))
            if new != text:
                changed += 1
                with open(path, "w", encoding="utf-8") as f:
                    f.write(new)
    for n, t in sorted(names.items()):
        print(f"{n}\t{t}")
    print(f"respell: {len(names)} names, {changed} files")


if __name__ == "__main__":
    main()
