#!/usr/bin/env python3
"""Brings the repository's own definitions and lemmas to the spelling of today's Rattle: facts and types in upper camel case, all else in snake case.

usage: python3 tools/respell.py            at the top of the repository, once, right after the toolchain's port script

It renames what the .antt files of specs/ and proofs/ declare (definitions, lemmas, records, fields, constructors) wherever that is named: in .antt files, in the `ghost use`
lines and clauses of .rt files, where it drops the aliases that only respelled a name, and between backticks in comments and documents.
Functions of src/, strings, inputs and outputs keep their names. It stops, with nothing written, where two names of one file would become one.
"""

import collections
import os
import re
import sys

TOKEN = re.compile(r"[^\s(){}\[\];,.⟦⟧⌜⌝`]+")
DECLARED = re.compile(
    r"^\s*(?:(?:abbrev|unfoldable|pub|mutual)\s+)*(?:(record|data)\s+)?(?:(?:abbrev|unfoldable|pub)\s+)*([^\s(){}:;,.]+)\s*(.*)$"
)
WORDS = {"use", "module", "let", "in", "elim", "rw", "pub", "ruleset", "where", "λ"}
# names that are respelled by more than their dashes and capitals
WHOLE = {
    "Struck": "is_struck",  # `struck` is a variable beside it
    "isSome_cond": "is_some_cond",
    "isSome_gone": "is_some_gone",
    "orders_getD": "orders_get_or",
    "places_getD": "places_get_or",
    "stored_getD": "stored_get_or",
}
ALIAS = re.compile(r"([A-Za-z][\w'-]*) as (\w+)")
OWN_USE = re.compile(r"ghost use Rattle\.(\w+)\.specs\.[^;]*;")


def paths(ends):
    for folder, dirs, files in os.walk("crates"):
        dirs[:] = sorted(d for d in dirs if d != "out")
        for name in sorted(files):
            if name.endswith(ends):
                yield os.path.join(folder, name)


def cut(line):
    """The code of a line of antt, and its comment."""
    m = re.search(r"(^|\s)--(\s|$)", line)
    return (line, "") if not m else (line[: m.start()], line[m.start() :])


def read(path):
    with open(path, encoding="utf-8") as f:
        return f.read()


def is_fact(kind, rest):
    return bool(kind) or bool(re.search(r"(^|[→:] ?)Type \d$", re.sub(r"\s*where$", "", rest)))


def names():
    """Each declared name that is not spelled as today, with its new spelling."""
    facts = collections.defaultdict(bool)
    for path in paths(".antt"):
        for line in read(path).split("\n"):
            m = DECLARED.match(cut(line)[0])
            if not m or m[2] in WORDS or not (m[1] or m[3].startswith(":")) or re.match(r":?\s*goal\.", m[3]):
                continue
            facts[m[2]] |= is_fact(m[1], m[3])
    for path in paths(".antt"):
        for line in read(path).split("\n"):
            if line.startswith("use Rattle."):
                for alias in re.findall(r" as ([\w'-]+)", line):
                    facts[alias] |= alias[0].isupper()  # an alias of a variant keeps its capital
    new = {}
    for name, fact in facts.items():
        if fact and ("-" in name or not name[0].isupper()):
            new[name] = "".join(part[:1].upper() + part[1:] for part in re.split(r"[-_]", name))
        elif not fact and "-" in name:
            new[name] = name.replace("-", "_")
        if new.get(name, name) in WHOLE:
            new[name] = WHOLE[new.get(name, name)]
    return new


def respell(text, new):
    return TOKEN.sub(lambda m: new.get(m[0], m[0]), text)


def ticked(text, new):
    return re.sub(r"`[^`\n]*`", lambda m: respell(m[0], new), text)


def antt(text, new):
    out = []
    for line in text.split("\n"):
        code, comment = cut(line)
        out.append(respell(code, new) + ticked(comment, new))
    return "\n".join(out)


def same_word(a, b):
    return a.replace("-", "").replace("_", "").lower() == b.replace("-", "").replace("_", "").lower()


def rattle(text, new, own):
    """The imports of own definitions take the new names and lose their aliases, and so do the clauses that cite those."""
    lost = {}

    def use(m):
        if m[1] not in own:
            return m[0]

        def alias(a):
            name = new.get(a[1], a[1])
            if not same_word(name, a[2]):
                return f"{name} as {a[2]}"
            if a[2] != name:
                lost[a[2]] = name
            return name

        for token in TOKEN.findall(m[0]):
            if token in new:
                lost[token] = new[token]
        once = lambda g: "{" + ", ".join(dict.fromkeys(re.split(r",\s*", g[1].strip().rstrip(",")))) + "}"
        return re.sub(r"\{([^{}]*)\}", once, respell(ALIAS.sub(alias, m[0]), new))

    text = OWN_USE.sub(use, text)
    for old, name in lost.items():
        text = re.sub(rf"(?<![\w.:'-]){re.escape(old)}(?![\w'-])", name, text)
    return "\n".join(ticked(line, new) if line.lstrip().startswith("//") else line for line in text.split("\n"))


def together(new):
    """Files in which a name and its new spelling both stand, as something other than a part of a path."""
    for path in paths(".antt"):
        code = "\n".join(cut(line)[0] for line in read(path).split("\n"))
        plain = set(TOKEN.findall(re.sub(r"Rattle\.[\w.+'-]+", "", code)))
        for old, name in new.items():
            if old in plain and name in plain:
                yield f"{path}: {old} and {name}"


def main():
    if not os.path.isdir("crates"):
        sys.exit("run it at the top of the repository")
    new = names()
    clash = [f"{a} and {b} both become {n}" for n, olds in collections.Counter(new.values()).items() if olds > 1 for a, b in [[o for o in new if new[o] == n][:2]]]
    clash += list(together(new))
    if clash:
        sys.exit("names fall together, nothing is written:\n" + "\n".join(clash))
    own = set(os.listdir("crates"))
    docs = [os.path.join("docs", f) for f in sorted(os.listdir("docs")) if f.endswith(".md") and not f.startswith("PORT")] + ["README.md"]
    turned = {p: antt(read(p), new) for p in paths(".antt")}
    turned |= {p: rattle(read(p), new, own) for p in paths(".rt")}
    turned |= {p: ticked(read(p), new) for p in docs}
    for path, text in turned.items():
        if text != read(path):
            with open(path, "w", encoding="utf-8") as f:
                f.write(text)
    for old, name in sorted(new.items()):
        print(f"{old} -> {name}")


if __name__ == "__main__":
    main()
