#!/usr/bin/env python3
"""Brings the repository's own names in specs/ and proofs/ to today's spelling. It ran once, right after port.py.

usage: tools/respell.py [--try]     at the top of the repository; --try prints the names and changes nothing

A definition, lemma, constructor or field is in snake case: `refusedAt` is `refused_at`, `given-not-told` is
`given_not_told`. A lemma that would have a definition's name gets `_lem`. Names that Rattle makes, of a function's goals,
facts and fields, and the names of src/ stay.
"""

import glob
import os
import re
import sys

WORD = re.compile(r"[^\s(){}\[\];,.:`\"]+")
HEAD = re.compile(r"^(?:[ ]*)((?:(?:abbrev|unfoldable|pub|data|record) )*)([^\s:(){}λ→=,;.|`]+)[ ]*((?:\{[^}]*\}[ ]*|\([^)]*\)[ ]*)*):(?!:)(.*)$")
# Where a plain reading gives a name that is taken.
OWN = {
    "inFrame": "is_in_frame",
    "inOrder": "is_in_order",
    "loses-few": "few_lost",
    "goes_on": "goes_on_lem",
    "sent_word": "sent_word_lem",
    "hands_out": "hands_out_lem",
}


def snake(name):
    name = re.sub(r"([a-z0-9])([A-Z])", r"\1_\2", name)
    return name.lower().replace("-", "_")


def antt(root):
    return sorted(p for p in glob.glob(f"{root}/crates/*/**/*.antt", recursive=True) if "/out/" not in p)


def sources(root):
    return sorted(p for p in glob.glob(f"{root}/crates/*/src/**/*.rt", recursive=True))


def read(path):
    with open(path, encoding="utf-8") as f:
        return f.read()


def declared(path):
    """The names that a file declares at its top level, in a `module`, a `record` or a `data`, with how each is declared."""
    for line in read(path).split("\n"):
        m = HEAD.match(line)
        if not m or line.lstrip().startswith("--"):
            continue
        indent = len(line) - len(line.lstrip())
        if indent > 4 or re.match(r"^(let|in|elim|λ|\()", line.lstrip()):
            continue
        yield m.group(2), m.group(1), m.group(3) + ":" + m.group(4), indent


def is_goal(signature):
    """Whether a declaration of a function's proof is a goal, or an invariant, that Rattle names."""
    return bool(re.search(r":\s*tie\.|:\s*goal\.|statement\b", signature))


# What the toolchain's library has under the same name.
KEPT = ("and-true", "and-false")


def wanted(name):
    """Whether the name has another spelling today. Names with other than letters, digits, dashes and `'` stay."""
    if name in KEPT or not re.fullmatch(r"[a-z][A-Za-z0-9_'-]*", name):
        return False
    return name != snake(name)


def collect(root):
    """The names to change, and where each is declared."""
    where = {}
    kinds = {}
    for path in antt(root):
        in_function = os.path.basename(path) == "Proof.antt"
        for name, kind, signature, indent in declared(path):
            if is_goal(signature) or (in_function and indent):
                continue
            if wanted(name):
                where.setdefault(name, set()).add(path)
            kinds.setdefault(name, set()).add(path)
    return where, kinds


def scope(path):
    """The words of a file outside its comments."""
    text = re.sub(r"--[^\n]*", "", read(path)) if path.endswith(".antt") else re.sub(r"//[^\n]*", "", read(path))
    return set(WORD.findall(text))


def plan(root):
    """The new name of each, and the words that would fall together all the same."""
    where, kinds = collect(root)
    new = {n: OWN.get(n, snake(n)) for n in list(where) + list(OWN)}
    paths = antt(root)
    words_of = {p: scope(p) for p in paths}
    # A lemma that would have the name of a definition beside it gets `_lem`.
    for name in sorted(n for n in new if "-" in n and n not in OWN):
        for p in paths:
            if name in words_of[p] and any(w != name and new.get(w, w) == snake(name) for w in words_of[p]):
                new[name] = snake(name) + "_lem"
    clash = {}
    for path in paths:
        seen = {}
        for w in sorted(words_of[path]):
            seen.setdefault(new.get(w, w), []).append(w)
        for n, olds in seen.items():
            if len(olds) > 1 and any(o in new for o in olds):
                clash.setdefault((n, tuple(olds)), []).append(path)
    return new, clash


def members(root):
    """The fields and constructors of the repository's own records and types."""
    return {name for path in antt(root) for name, kind, signature, indent in declared(path) if indent}


def turn_words(text, new, fields):
    def one(m):
        word = m.group(0)
        if word not in new:
            return word
        before = text[: m.start()]
        if before.endswith("."):
            owner = re.search(r"([^\s(){}\[\];,:`\"]*)\.$", before).group(1).split(".")[-1]
            if not owner[:1].isupper() and word not in fields:
                return word
        return new[word]

    return WORD.sub(one, text)


def turn_comment(text, new, fields):
    camel = {n: new[n] for n in new if re.search("[a-z][A-Z]", n)}
    text = WORD.sub(lambda m: camel.get(m.group(0), m.group(0)), text)
    return re.sub(r"`[^`\n]*`", lambda m: turn_words(m.group(0), new, fields), text)


def turn_antt(text, new, fields):
    parts = re.split(r"(--[^\n]*)", text)
    return "".join(turn_comment(p, new, fields) if p.startswith("--") else turn_words(p, new, fields) for p in parts)


def turn_source(text, new, fields):
    """Of a source: the imports, and every word that no name of Rust could be."""
    camel = {n: new[n] for n in new if re.search("[a-z][A-Z]", n)}
    text = re.sub(r"ghost use [^;]*;", lambda m: turn_words(m.group(0), new, fields), text)
    imported = {n for n in re.findall(WORD, " ".join(re.findall(r"ghost use [^;]*;", text)))}
    parts = re.split(r"(\"(?:[^\"\\\n]|\\.)*\")", text)
    return "".join(p if i % 2 else WORD.sub(lambda m: camel.get(m.group(0), m.group(0)), p) for i, p in enumerate(parts))


def main():
    root = "."
    new, clash = plan(root)
    fields = members(root)
    if "--try" in sys.argv:
        for (n, olds), paths in sorted(clash.items()):
            print("CLASH", n, olds, [p.replace("./crates/", "") for p in paths[:4]], len(paths))
        print(len(new), "names")
        return
    for path in antt(root):
        with open(path, "r+", encoding="utf-8") as f:
            text = turn_antt(f.read(), new, fields)
            f.seek(0)
            f.truncate()
            f.write(text)
    for path in sources(root):
        with open(path, "r+", encoding="utf-8") as f:
            text = turn_source(f.read(), new, fields)
            f.seek(0)
            f.truncate()
            f.write(text)


if __name__ == "__main__":
    main()
