#!/usr/bin/env python3
"""Spells the repository's own names of specs/ and proofs/ as today's Rattle does: snake case for all but types and modules.

usage: python3 tools/spell.py       once, at the top of a checkout that the kit's port.py has just turned

A name that is imported from a library of the kit, or that the check makes from the code, stays. A lemma that would take the name of a
definition gets `_lem`. What code, strings and exported functions are called stays too.
"""
import os
import re
import sys

# Names that are types, and lemmas that the port has brought to the name of a definition.
TYPES = {"told-by": "ToldBy", "toLine": "ToLine"}
LEMMAS = {"by_number": "by_number_lem", "last_line": "last_line_lem"}
# Fields and variables that are named as a definition is, which they do not hide.
FIELDS = {"dating": {"is-date": "is_date"}, "church": {"is-date": "is_date", "in-span": "inside"}}
MADE = re.compile(r"\.(Statement|Tie|Goals|Given|contracts\b.*|declared\b.*)$")
TOKEN = re.compile(r"[^\s(){}\[\].,;:«»`\"λ]+")
MARKS = r"(?:(?:abbrev|unfoldable|pattern|pub|opaque|data|record) )*"
DECLARED = re.compile(r"^[ \t]*" + MARKS + r"([^\s(){}\[\].,;:«»`\"λ◌]+)(?: \{[^}\n]*\}| \([^)\n]*\))* :(?= |$)", re.M)
USE = re.compile(r"^\s*(?:ghost )?use ([^;{}\n]*?)\.\{([^}]*)\}", re.M)


def files(ending):
    for folder, dirs, names in os.walk("crates"):
        dirs[:] = sorted(d for d in dirs if d != "out")
        for name in sorted(names):
            if name.endswith(ending):
                yield os.path.join(folder, name)


def read(path):
    with open(path, encoding="utf-8") as f:
        return f.read()


def is_old(name):
    return bool(re.search(r"[a-z0-9]'*[A-Z]", name)) if name[0].islower() and "-" not in name else "-" in name and name[0].islower()


def snake(name):
    return re.sub(r"(?<=[a-z0-9])[A-Z]", lambda m: "_" + m.group().lower(), name).replace("-", "_")


def crate_of(path):
    return path.split(os.sep)[1]


def main():
    antt = {p: read(p) for p in files(".antt")}
    own = {crate_of(p) for p in antt}
    names = set()
    for text in antt.values():
        names |= {n for n in DECLARED.findall(text) if is_old(n)}
    made = {n for n in names if n.endswith("-spec")}
    names -= made
    camel = {n: snake(n) for n in names if "-" not in n and n not in TYPES}
    taken = set(camel.values())
    spelled = dict(camel)
    for n in sorted(names - set(camel)):
        spelled[n] = TYPES.get(n) or snake(n) + ("_lem" if snake(n) in taken else "")
    spelled.update(LEMMAS)
    back = {}
    for n, s in spelled.items():
        if s in back:
            sys.exit(f"{n} and {back[s]} would both be {s}")
        back[s] = n

    def fixed(text):
        """The names that a file has from elsewhere."""
        kept = set()
        for module, items in USE.findall(text):
            path = module.split(".")
            if path[0] != "Rattle" or path[1] not in own or MADE.search(module):
                kept |= {i.split(" as ")[-1].strip() for i in items.split(",")}
        return kept

    def respell(text, crate, kept, locals_too):
        given = {n: s for n, s in spelled.items() if n not in kept} | FIELDS.get(crate, {})

        def one(m):
            token = m.group()
            if token in given:
                return given[token]
            before = text[m.start() - 1 : m.start()]
            if locals_too and before != "." and "◌" not in token and is_old(token) and token not in kept and re.fullmatch(r"[a-zA-Z0-9_'-]+", token) and not token.endswith("-spec"):
                return snake(token)
            return token

        return TOKEN.sub(one, text)

    for path, text in antt.items():
        kept = fixed(text)
        lines = []
        for line in text.split("\n"):
            code, dash, comment = line.partition("--") if line.lstrip().startswith("--") or " -- " in line else (line, "", "")
            comment = re.sub(r"`[^`]*`", lambda m: respell(m.group(), crate_of(path), kept, False), comment)
            comment = re.sub(r"\b[a-z]+[A-Z]\w*", lambda m: spelled.get(m.group(), m.group()), comment)
            lines.append(respell(code, crate_of(path), kept, True) + dash + comment)
        new = "\n".join(lines)
        before, after = set(TOKEN.findall(text)), set(TOKEN.findall(new))
        for n in sorted(before - after):
            s = snake(n)
            if s in before:
                print(f"look: {path}: {n} joins {s}")
        if new != text:
            with open(path, "w", encoding="utf-8") as f:
                f.write(new)
    whole = re.compile(r"(?<![\w'-])[a-z]\w*[A-Z]\w*(?![\w'-])")
    for path in list(files(".rt")) + list(files(".edit")):
        text = read(path)
        new = whole.sub(lambda m: camel.get(m.group(), m.group()), text)
        if new != text:
            with open(path, "w", encoding="utf-8") as f:
                f.write(new)
    # the pages name them between backticks, and quote definitions
    for folder, _, pages in os.walk("docs"):
        for page in pages:
            path = os.path.join(folder, page)
            text = read(path)
            new = whole.sub(lambda m: camel.get(m.group(), m.group()), text)
            new = re.sub(r"`[a-z][a-z0-9]*(?:-[a-z0-9]+)+`", lambda m: f"`{spelled.get(m.group()[1:-1], m.group()[1:-1])}`", new)
            if new != text:
                with open(path, "w", encoding="utf-8") as f:
                    f.write(new)


main()
