#!/usr/bin/env python3
"""Brings this repository's own names to the spelling that the library uses: words in snake case, types and modules in camel case.

usage: tools/spelling.py [--list] ROOT

Turned are, in the .antt and .rt files below ROOT/crates: each name of a definition, lemma or variable that has a capital inside a word
(settingsOf: settings_of), and each dashed field of a record in specs/ (lower-chosen: lower_chosen). A dash that joins two names in a lemma's name stays,
and so does a part that begins with a capital, which is a type's name. Names that come from the toolchain's libraries stay as they are.
It prints each name that would fall together with another one, and then turns nothing. --list prints old and new names, and turns nothing.
"""
import os
import re
import sys

TOKEN = re.compile(r"[^\s(){}\[\];,.\"@⌜⌝«»`]+")
HUMP = re.compile(r"(?<=[a-z0-9])([A-Z])")
FIELD = re.compile(r"^  (?:pub )?([a-z][^\s():]*-[^\s():]*) :", re.M)
USE = re.compile(r"^(?:ghost |pub )*use ([^\s{;]+?)(?:\.\{([^}]*)\})?(?: as [^\s;]+)?;?$", re.M)


def files(root):
    for folder, dirs, names in os.walk(os.path.join(root, "crates")):
        dirs[:] = sorted(d for d in dirs if d not in ("out", "must-fail"))
        for name in sorted(names):
            if name.endswith((".antt", ".rt")):
                yield os.path.join(folder, name)


# A word that the library respelled itself, inside our names.
LIBRARY = {"getD": "get_or"}
# A word that would be hidden by the parameter of a call that cites it.
HIDDEN = {"balanceBox": "balance_box_at"}


def part(word):
    if word in LIBRARY or word in HIDDEN:
        return LIBRARY.get(word) or HIDDEN[word]
    return re.sub(r"_+", "_", HUMP.sub(lambda m: "_" + m.group(1).lower(), word)) if re.match(r"_?[a-z]", word) else word


def respelled(token):
    return "-".join(part(it) for it in token.split("-"))


def bound(text, name):
    """A name that Rust code binds: a clause beside it would read it in place of the word."""
    return re.search(r"(?<![\w.])" + name + r": |let (?:mut )?" + name + r"\b", text)


def table(root):
    """The names to turn; the lemmas that have such a word's new name, which get the ending _lem; and what would fall together all the same."""
    own = set(os.listdir(os.path.join(root, "crates")))
    texts = {p: open(p, encoding="utf-8").read() for p in files(root)}
    foreign, tokens, bare, words, fields, clash = set(), set(), set(), {}, {}, []
    for p, t in texts.items():
        for path, names in USE.findall(t):
            parts = path.split(".")
            if not (parts[0] == "Rattle" and len(parts) > 1 and parts[1] in own):
                foreign |= set(TOKEN.findall(re.sub(r" as \S+", "", names or "")))
        if p.endswith(".antt"):
            code = re.sub(r"--[^\n]*", "", t)
            found = [(m.group(0), code[m.start() - 1 : m.start()]) for m in TOKEN.finditer(code)]
            tokens |= {it for it, _ in found}
            bare |= {it for it, before in found if before != "."}
            if "/specs/" in p and "/ints/" not in p:
                fields.update({it: respelled(it).replace("-", "_") for it in FIELD.findall(t)})
    for t in tokens:
        if t not in foreign and re.search(r"(^|[-_'])[a-z][a-z0-9]*[A-Z]", t) and respelled(t) != t:
            words[t] = respelled(t)
    new = list(words.values())
    fields = {a: b for a, b in fields.items() if a not in words and b not in bare and b not in new and list(fields.values()).count(b) == 1}
    lemmas = {b: b + "_lem" for b in new if b in bare}
    clash += [(a, b) for a, b in words.items() if new.count(b) > 1]
    clash += [(a, b) for a, b in words.items() for t in [t for p, t in texts.items() if p.endswith(".rt")] if TOKEN_OF(a).search(t) and bound(t, b)]
    clash += [(a, b) for a, b in lemmas.items() if b in tokens]
    return texts, words | fields, lemmas, clash


def TOKEN_OF(name):
    return re.compile(r"(?<![\w-])" + re.escape(name) + r"(?![\w'-])")


def main(argv):
    root = [a for a in argv if not a.startswith("--")][0]
    texts, turned, lemmas, clash = table(root)
    for a, b in clash:
        print(f"together: {a} and {b}")
    if "--list" in argv:
        for a, b in sorted((turned | lemmas).items()):
            print(f"{a} {b}")
    if clash or "--list" in argv:
        return 1 if clash else 0
    for p, t in texts.items():

        def one(m):
            it = m.group(0)
            if it in lemmas and p.endswith(".antt") and t[m.start() - 1 : m.start()] != ".":
                return lemmas[it]
            return turned.get(it, it)

        new = TOKEN.sub(one, t)
        if new != t:
            with open(p, "w", encoding="utf-8") as f:
                f.write(new)
    return 0


if __name__ == "__main__":
    raise SystemExit(main(sys.argv[1:]))
