#!/usr/bin/env python3
"""Brings definitions and lemmas in camel case to snake case, everywhere in crates/, README.md and docs/. A second run changes nothing.

usage: tools/respell.py      at the top of the repository, after the kit's port.py

A name of a type, a module or a constructor begins with a capital and stays. A lemma that would fall together with the definition that it
speaks of gets '_lem' first. Functions of src/ are in snake case already.
"""

import os
import re
import sys

# Lemmas whose name is the new spelling of a definition: the file that declares each, or that uses it, tells them apart.
LEMMAS = ["any_order", "body_bytes", "end_test", "entry_in", "flat_after", "in_order"]
# The same where the name is also a function's or a step's elsewhere: only in these files.
LOCAL = {
    "crates/order/proofs/Scans.antt": ["read_at"],
    "crates/order/proofs/inner/scan/scan/Proof.antt": ["read_at"],
    "crates/order/proofs/Turnings.antt": ["is_open"],
}
TOKEN = re.compile(r"[^\s(){}.;,:@\"«»\[\]\\`'|/*<>=!&?#]+'*")
CAMEL = re.compile(r"(?:^|-)[a-z][a-z0-9]*[A-Z]")


def snake(name):
    return re.sub(r"(?<=[a-z0-9])([A-Z])", lambda m: "_" + m.group(1).lower(), name)


def lemmas(text, names):
    for name in names:
        text = re.sub(r"(?<![\w.\-'])" + name + r"(?![\w\-'])(?!\.)", name + "_lem", text)
    return text


def declared(texts):
    """The names in camel case that stand in specs/ and proofs/, comments and strings left out."""
    out = set()
    for path, text in texts.items():
        if path.endswith(".antt"):
            text = re.sub(r"--[^\n]*|\"(?:[^\"\\]|\\.)*\"", "", text)
            out |= {it for it in TOKEN.findall(text) if CAMEL.search(it)}
    return out


def turned(token, names):
    bare = token.rstrip("'")
    if token in names:
        return snake(token)
    return snake(bare) + token[len(bare):] if bare in names else token


def main():
    texts = {}
    for top in ("crates", "docs"):
        for folder, dirs, files in os.walk(top):
            dirs[:] = [d for d in dirs if d != "out"]
            for f in files:
                if f.endswith((".rt", ".antt", ".edit", ".md")):
                    texts[os.path.join(folder, f)] = None
    texts["README.md"] = None
    for path in texts:
        with open(path, encoding="utf-8", newline="") as it:
            texts[path] = it.read()
    names = declared(texts)
    if not names:
        return 0
    for path, text in texts.items():
        new = text
        if path.endswith(".antt"):
            new = lemmas(new, LEMMAS)
            new = lemmas(new, LOCAL.get(path, []))
        new = TOKEN.sub(lambda m: turned(m.group(0), names), new)
        if new != text:
            with open(path, "w", encoding="utf-8", newline="") as it:
                it.write(new)
            print(path)
    return 0


sys.exit(main())
