#!/usr/bin/env python3
"""Respells the repository's own definitions and lemmas: functions, lemmas, fields and constructors in snake case.

usage: python3 tools/respell.py [--list]     at the top of the repository, once, after the port's own script

A name counts as the repository's own if a file of specs/ or proofs/ defines it, and no file takes it from the library.
Names of goals belong to the toolchain. Of its own names, those such as fooBar and foo-bar are written foo_bar, and so are the names that a file gives to what it imports. A dash stays behind the name of a fact, and behind `length`, where it joins two names.
Types keep their camel case, and functions of src/ keep their names. --list prints old and new names, and changes nothing.
The crate `check` becomes `flowcheck`: the toolchain has a library of the old name.
"""

import glob
import os
import re
import sys

WORD = r"[^\s(){}\[\];:,.\"`⌜⌝λ→×∷←≡≤<>=+*|!&?@#$%^/\\~]"
TOKEN = re.compile(WORD + "+")
DEFINED = re.compile(
    r"^\s*(?:(?:abbrev|unfoldable|opaque|mutual)\s+)*(?:pub\s+)?(?:(?:data|record|ruleset)\s+)?(" + WORD + r"+)\s*(?::|\(|\{|$)"
)
KEYWORDS = {"use", "module", "where", "mod", "pub", "let", "in", "elim", "record", "abbrev", "unfolding", "unfold", "data"}
# Names that would fall together with another one of the repository or with one of the library.
OTHERWISE = {
    "carriedOn": "carried_openly",
    "end-behind": "end_behind_lem",
    "events-ahead": "events_ahead_lem",
    "length-refused": "length_refused",
    "same-paper": "same_paper_lem",
    "second-part": "second_part_lem",
}


def texts():
    for kind in ("specs", "proofs"):
        yield from sorted(glob.glob(f"crates/*/{kind}/**/*.antt", recursive=True))


def snake(name):
    head, dash, tail = name.partition("-")
    if dash and (head[:1].isupper() or head == "length"):
        return head + "-" + snake(tail)
    name = re.sub(r"(?<=[a-z0-9])([A-Z])", lambda m: "_" + m.group(1).lower(), name)
    return name.replace("-", "_")


def defined():
    names, others = set(), set()
    for path in texts():
        with open(path, encoding="utf-8") as f:
            text = f.read()
        for line in text.splitlines():
            m = DEFINED.match(line)
            if m and m.group(1) not in KEYWORDS and not m.group(1).startswith("-"):
                names.add(m.group(1))
            if m and re.search(r":\s*(goal|given|needs?|choices?)\.", line):
                others.add(m.group(1))
        for m in re.finditer(r"use (?:Rattle\.std\.|borrow\.|denote\.|mathlib\.|native\.|lib\.|Prim\.)[^{}]*\{([^}]*)\}", text):
            for item in m.group(1).split(","):
                others.update(w.strip() for w in item.split(" as "))
        for m in re.finditer(r"use \S+\.(?:Goals|Given|Needs|Choices)\.\{([^}]*)\}", text):
            for item in m.group(1).split(","):
                others.update(w.strip() for w in item.split(" as "))
    return names - others


def table():
    out = {}
    for name in sorted(defined()):
        if re.search(r"[◌\d]$", name) and not re.search(r"[a-z]", name):
            continue
        if name[:1].isupper() and "-" not in name:
            continue
        new = OTHERWISE.get(name, snake(name))
        if new != name:
            out[name] = new
    return out


def main():
    words = table()
    if "--list" in sys.argv:
        for a, b in words.items():
            print(a, b)
        return
    changed = 0
    paths = glob.glob("crates/**/*.antt", recursive=True) + glob.glob("crates/**/*.rt", recursive=True)
    paths += glob.glob("crates/*/must-fail/*.edit") + ["README.md"] + glob.glob("docs/*.md")
    for path in sorted(paths):
        if "/out/" in path:
            continue
        with open(path, encoding="utf-8") as f:
            old = f.read()
        new = TOKEN.sub(lambda m: words.get(m.group(0), m.group(0)), old) if path.endswith(".antt") else GHOST(path, old, words)
        if new != old:
            changed += 1
            with open(path, "w", encoding="utf-8") as f:
                f.write(new)
    print(f"respell: {len(words)} names, {changed} files")
    respell_aliases()
    rename_crate()


# A name that a file gives to what it imports.
ALIAS = re.compile(r"\bas ([a-z]+[A-Z]\w*)(?=\s*[,}])")


def respell_aliases():
    for path in glob.glob("crates/**/*.antt", recursive=True) + glob.glob("crates/**/*.rt", recursive=True):
        if "/out/" in path:
            continue
        with open(path, encoding="utf-8") as f:
            old = f.read()
        words = {name: snake(name) for name in ALIAS.findall(old)}
        for name, new in words.items():
            if re.search(rf"(?<![\w'-]){new}(?![\w'-])", old):
                sys.exit(f"{path}: {new} is there already")
        new = TOKEN.sub(lambda m: words.get(m.group(0), m.group(0)), old)
        if new != old:
            with open(path, "w", encoding="utf-8") as f:
                f.write(new)


# The crate that has the name of one of the toolchain's libraries.
OLD, NEW = "check", "flowcheck"


def rename_crate():
    if not os.path.isdir(f"crates/{OLD}/src"):
        return
    os.rename(f"crates/{OLD}", f"crates/{NEW}")
    paths = glob.glob("crates/**/*.antt", recursive=True) + glob.glob("crates/**/*.rt", recursive=True)
    paths += glob.glob("crates/*/must-fail/*.edit") + ["README.md", "crates.txt"] + glob.glob("docs/*.md")
    for path in paths:
        with open(path, encoding="utf-8") as f:
            old = f.read()
        new = old.replace(f"Rattle.{OLD}.", f"Rattle.{NEW}.").replace(f"crates/{OLD}/", f"crates/{NEW}/")
        if path.endswith((".rt", ".edit", ".md")):
            new = re.sub(rf"\buse {OLD}::", f"use {NEW}::", new)
            new = re.sub(rf"`{OLD}::", f"`{NEW}::", new)
        if path == "crates.txt":
            new = re.sub(rf"(?m)^([^#\n]*)", lambda m: re.sub(rf"\b{OLD}\b", NEW, m.group(1)), new)
        if new != old:
            with open(path, "w", encoding="utf-8") as f:
                f.write(new)


def GHOST(path, text, words):
    if path.endswith(".md"):
        return re.sub(r"`[^`\n]*`", lambda m: TOKEN.sub(lambda t: words.get(t.group(0), t.group(0)), m.group(0)), text)
    return TOKEN.sub(lambda m: words.get(m.group(0), m.group(0)), text)


main()
