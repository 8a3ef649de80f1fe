#!/usr/bin/env python3
"""Spells the names that this repository's specs/ and proofs/ declare as Rattle spells names.

    python3 tools/snake_names.py          at the top of the repository

A definition, a constructor, a field, a lemma or a local name with dashes gets underscores (`byte-read` becomes
`byte_read`), and a type or fact gets camel case (`Worked-examples` becomes `WorkedExamples`). Names that the library
declares, names that Rattle makes (goals and steps), functions of src/, strings and comments are left alone. It was run
once, after the kit's own port.py, and changes nothing when it is run again.
"""
import glob
import re
import sys

TOKEN = re.compile(r"[^\s(){}.,;=\[\]|⟨⟩]+")
# a token that is no part of a path and no field that is taken of a value
BARE = re.compile(r"(?<![^\s(){},;=\[\]|⟨⟩])[^\s(){}.,;=\[\]|⟨⟩]+(?!\.)")
WORD = r"[^\s(){}.,;=\[\]|:]+"


def code(line):
    """The line without its comment."""
    return re.sub(r"(^|\s)--(\s.*)?$", "", line)


def declared(text):
    """The names that a file declares, but for the goals that it answers."""
    names = set()
    for line in map(code, text.split("\n")):
        if re.match(r"\s*(pub )?use ", line):
            continue
        head = re.match(
            r"\s*(?:(?:abbrev|unfoldable|pub|data|record|let|where|in|module)\s+)*((?:[^\s(){}.,;=\[\]|:⊢λ→]+\s+)+):\s(.*)", line)
        if head and not head.group(2).startswith("goal."):
            names.update(head.group(1).split())
        names.update(re.findall(r"\b(?:let|where)\s+(" + WORD + r")\s*[=:]", line))
        names.update(re.findall(r"\b(?:data|record)\s+(" + WORD + ")", line))
        for group in re.findall(r"[({]((?:" + WORD + r"\s+)+):\s", line):
            names.update(group.split())
    return {name for name in names if "-" in name.strip("-") and re.match(r"[A-Za-z]", name)}


def borrowed(text):
    """The names that a file imports from the library."""
    names = set()
    for module, inside in re.findall(r"^\s*(?:pub )?use (\S+?)\.\{([^}]*)\}", text, re.M):
        if not module.startswith("Rattle.") or module.startswith("Rattle.std"):
            names.update(name.strip().split(" as ")[0] for name in inside.split(","))
    return names


def spelled(name):
    parts = name.split("-")
    if name[0].isupper():
        return "".join(part[0].upper() + part[1:] for part in parts)
    return "_".join(parts)


def respell(line, names, comment):
    """Each whole token of the line's code that is one of the names, in its new spelling."""
    at = re.search(comment, line)
    end = at.start() if at else len(line)
    return TOKEN.sub(lambda m: names.get(m.group(0), m.group(0)), line[:end]) + line[end:]


def main():
    proofs = sorted(glob.glob("crates/*/specs/**/*.antt", recursive=True) + glob.glob("crates/*/proofs/**/*.antt", recursive=True))
    sources = sorted(glob.glob("crates/*/src/**/*.rt", recursive=True))
    texts = {path: open(path, encoding="utf-8").read() for path in proofs + sources}
    own = set().union(*(declared(texts[path]) for path in proofs))
    own -= set().union(*(borrowed(texts[path]) for path in proofs))
    names = {name: spelled(name) for name in own}
    met = sorted(name for name in names if list(names.values()).count(names[name]) > 1)
    for path in proofs:
        here = set(BARE.findall("\n".join(map(code, texts[path].split("\n")))))
        met += sorted(path + ": " + name for name in names if name in here and names[name] in here)
    if met:
        sys.exit("these names would fall together with others: " + ", ".join(met))
    for path, text in texts.items():
        comment = r"(^|\s)--(\s|$)" if path.endswith(".antt") else r"(^|\s)//"
        new = "\n".join(respell(line, names, comment) for line in text.split("\n"))
        if new != text:
            open(path, "w", encoding="utf-8").write(new)
    for name in sorted(names):
        print(name, "→", names[name])


main()
