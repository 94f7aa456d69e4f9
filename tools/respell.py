#!/usr/bin/env python3
"""Brings the repository's own names in specs/, proofs/ and ghost clauses to snake case, and its own types to camel case.

Names with a hyphen that a file declares are respelled wherever they stand, but for names that a file takes from a
library. Code, comments, strings, inputs and outputs stay as they are. Run at the top of the repository, once.
With --list it writes nothing and prints each old and new name, and the new names that stood already.
"""

import collections
import os
import re
import sys

NAME = r"[A-Za-zα-ωκλμ_][\w'₀-₉]*(?:-[\w'₀-₉]+)+"
TOKEN = re.compile(r"(?<![\w'◌-])" + NAME + r"(?![\w'-])")
DECLARED = re.compile(
    r"(?m)^\s*(?:(?:abbrev|unfoldable|pub|data|record|mutual|ruleset|rec|let|in)\s+)*(" + NAME + r")(?:\s*[:({=]|\s+[\w'({]+.*[:=])"
)
BOUND = re.compile(r"[({]\s*(" + NAME + r")(?:\s+[\w'-]+)*\s*:")
LOCAL = re.compile(r"\b(?:let|in)\s+(" + NAME + r")\b")
ALIAS = re.compile(r"\bas\s+(" + NAME + r")")
USE = re.compile(r"(?m)^\s*(?:ghost )?(?:pub )?use ([\w.·']+)\.\{([^}]*)\}")
# names of code, of a law or of a ghost member, that no declaration of the above shapes shows
OTHERS = {"of-suit", "ones-plan", "Bad-hand", "Bool-set", "After-layouts"}
CAMEL = re.compile(r"^[A-ZΑ-Ω]")
# ghost members of traits, which stand in camel case
MEMBERS = re.compile(r"(?m)^\s*ghost ([a-z]+(?:[A-Z][a-z]*)+)\s*[:=]")


def files():
    for folder, dirs, names in os.walk("crates"):
        dirs[:] = sorted(d for d in dirs if d != "out")
        for name in sorted(names):
            if name.endswith((".rt", ".antt")):
                yield os.path.join(folder, name)


def plain(path, text):
    """The text without comments and strings, of the same length."""
    mark = r"//[^\n]*" if path.endswith(".rt") else r"--[^\n]*"
    blank = lambda m: " " * len(m.group())
    return re.sub(r'"(?:[^"\\\n]|\\.)*"|' + mark, blank, text)


def lemma_file(path):
    parts = path.split(os.sep)
    return path.endswith(".antt") and (parts[2] == "specs" or len(parts) == 4)


def respelled(name):
    if CAMEL.match(name):
        first, *rest = name.split("-")
        return first + "".join(p[0].upper() + p[1:] for p in rest)
    if "-" in name:
        return name.replace("-", "_")
    return re.sub(r"(?<=[a-z])([A-Z])", lambda m: "_" + m.group(1).lower(), name)


def taken(text, own):
    """The names that a file takes from a library."""
    names = set()
    for path, items in USE.findall(text):
        crate = path.split(".")[1] if path.startswith("Rattle.") else None
        if crate not in own:
            for item in items.split(","):
                words = item.split()
                if words:
                    names.add(words[-1])
    return names


def main():
    own = {d for d in os.listdir("crates")}
    texts = {p: open(p, encoding="utf-8").read() for p in files()}
    names = set(OTHERS)
    members = set()
    for path, text in texts.items():
        bare = plain(path, text)
        if lemma_file(path):
            names |= set(DECLARED.findall(bare)) | set(LOCAL.findall(bare))
        if path.endswith(".antt"):
            names |= set(BOUND.findall(bare))
        else:
            members |= set(MEMBERS.findall(bare))
        names |= {n for n in ALIAS.findall(bare) if n not in taken(bare, own)}
    new = {n: respelled(n) for n in names | members}
    if "--list" in sys.argv:
        words = collections.Counter()
        for path, text in texts.items():
            words.update(re.findall(r"[A-Za-zα-ωκλμ_][\w'₀-₉]*", plain(path, text)))
        for old in sorted(new):
            print(old, new[old], "STOOD" if words[new[old]] else "")
        return
    member = re.compile(r"(?<![\w'-])(?:" + "|".join(sorted(members, key=len, reverse=True)) + r")(?![\w'-])") if members else None
    for path, text in texts.items():
        bare = plain(path, text)
        library = taken(bare, own)
        out, at = [], 0
        spots = [(m.start(), m.group()) for m in TOKEN.finditer(bare) if m.group() in names and m.group() not in library]
        if member:
            spots += [(m.start(), m.group()) for m in member.finditer(bare)]
        for start, name in sorted(spots):
            out.append(text[at:start] + new[name])
            at = start + len(name)
        out.append(text[at:])
        now = "".join(out)
        if now != text:
            with open(path, "w", encoding="utf-8") as f:
                f.write(now)


main()
