#!/usr/bin/env python3
"""Spells the repository's own definitions and lemmas as today's Rattle does: words in snake case, types in camel case.

usage: python3 tools/spell.py [--list]     at the top of a checkout that the kit's port.py has turned

It looks for the names that specs/ and proofs/ declare, and writes the new ones into every .antt and .edit file, into the
clauses and the `ghost use` lines of the .rt files, and into what README.md, Makefile and docs/ have between backquotes.
A name of src/, a string, an input and an output stay. With --list it writes nothing and prints the names.
"""
import os
import re
import sys

TOKEN = r"[^\s(){}.;,@\"«»`]+"
DECLARED = re.compile(r"(?m)^ *(?:(?:abbrev|unfoldable|pub) )*(" + TOKEN + r")(?: \{[^{}\n]*\})* : (.*(?:\n +→ .*)*)")
# The constants, which others read behind their module's name.
CONSTANTS = {"Refusal": "crates/answers/specs/Refusal.antt", "Kind": "crates/mctp/specs/Kind.antt"}
# Names whose plain spelling is taken: a lemma with its function's name gets `_lem`, and others a word more.
TAKEN = {"Runs": "run_ends", "Integrity": "integrity_bit", "sameAnswer": "same_bool"}


def files(end):
    for folder, dirs, names in os.walk("crates"):
        dirs[:] = sorted(d for d in dirs if d != "out")
        for n in sorted(names):
            if n.endswith(end):
                yield os.path.join(folder, n)


def read(path):
    with open(path, encoding="utf-8") as f:
        return f.read()


def is_type(of):
    """Whether a signature's result is a type."""
    return re.search(r"(^|→ )Type \d$", " ".join(of.split())) is not None


def spelled(name, of):
    words = name.replace("′", "'")
    if words[0].isupper():
        if is_type(of):
            return words
        if "-" in words:  # a type, with a dash before what is said of it
            head, rest = words.split("-", 1)
            return head + "-" + rest.replace("-", "_")
        words = words[0].lower() + words[1:]
    words = re.sub(r"(?<=[a-z0-9])([A-Z])", lambda m: "_" + m[1].lower(), words)
    return words.replace("-", "_")


def names():
    """The names that change, and those of the constants apart, by their module."""
    table, constants = {}, {module: {} for module in CONSTANTS}
    modules = {path: module for module, path in CONSTANTS.items()}
    declared = []
    for path in files(".antt"):
        by_hand = path.endswith("/Proof.antt")
        for name, of in DECLARED.findall(read(path)):
            if by_hand and not name.endswith("-spec") or "◌" in name or not re.match(r"[^\W\d]", name):
                continue
            new = TAKEN.get(name) or spelled(name, of)
            if path in modules and name[0].isupper():
                constants[modules[path]][name] = new
            else:
                declared.append((name, new))
    kept = {name for name, new in declared if name == new}
    turned = {new for name, new in declared if "-" not in name and name != new}
    for name, new in declared:
        if "-" in name and "-" not in new and new in kept | turned and not new.endswith("_spec"):
            new += "_lem"
        if name != new:
            table[name] = new
    return table, constants


def turn(text, table):
    return re.sub(TOKEN, lambda m: table.get(m[0], m[0]), text)


def turn_constants(text, constants):
    for module, names in constants.items():
        behind = rf"(?<![\w.]){module}\.(" + "|".join(names) + r")(?![\w'-])"
        text = re.sub(behind, lambda m: f"{module}.{names[m[1]]}", text)
        inside = rf"(?<=specs\.{module}\.)\{{[^}}]*\}}"
        text = re.sub(inside, lambda m: turn(m[0], names), text)
    return text


CLAUSES = re.compile(r"(?m)^ghost use .*;$|^( *)(?:ensures|requires)\*? (?:\w+ )?\{(?:.*\}$|(?:.*\n)*?\1\}$)")


def main():
    table, constants = names()
    if "--list" in sys.argv:
        for old, new in sorted(table.items()):
            print(old, new)
        for module, names_of in constants.items():
            for old, new in names_of.items():
                print(f"{module}.{old} {module}.{new}")
        return
    write = {}
    for path in files(".antt"):
        text = read(path)
        for module, where in CONSTANTS.items():
            if path == where:
                text = re.sub(r"(?m)^(?!--).*$", lambda m: turn(m[0], constants[module]), text)
        write[path] = turn_constants(turn(text, table), constants)
    for path in files(".rt"):
        write[path] = CLAUSES.sub(lambda m: turn_constants(turn(m[0], table), constants), read(path))
    for path in files(".edit"):
        text = read(path)
        lines = []
        for line in text.splitlines(keepends=True):
            antt = "file: specs/" in text or "file: proofs/" in text or line.startswith("#")
            lines.append(turn_constants(turn(line, table), constants) if antt else line)
        write[path] = "".join(lines)
    pages = ["README.md", "Makefile"] + [os.path.join(f, n) for f, _, ns in sorted(os.walk("docs")) for n in ns if n.endswith(".md")]
    all_new = {table.get(name, name) for path in files(".antt") for name, _ in DECLARED.findall(read(path))}

    def in_page(m):
        """Also a name that port.py turned before, which the pages still have as it was."""
        words = re.sub(TOKEN, lambda t: table.get(t[0]) or (t[0] if t[0] in all_new or t[0][0].isupper() or spelled(t[0], "") not in all_new else spelled(t[0], "")), m[0])
        return turn_constants(words, constants)

    for path in pages:
        write[path] = re.sub(r"`[^`\n]+`", in_page, read(path))
    for path, text in write.items():
        if text != read(path):
            with open(path, "w", encoding="utf-8") as f:
                f.write(text)


if __name__ == "__main__":
    main()
