#!/usr/bin/env python3
"""Brings this repository's own definitions and lemmas to today's spelling, once, after the kit's port.py.

usage: python3 tools/respell.py        at the top of the repository; --dry says what it would do

A word that begins small and has a capital inside becomes snake case. In a lemma's name a dash stays only between two names of
definitions (or of the library's functions on lists and numbers), and else becomes an underscore. Names that Rattle makes, of goals
and steps in proofs/FUNCTION/, are left alone, and so are strings. It stops where two names of a file would fall together.
"""

import collections
import os
import re
import sys

DECLARED = re.compile(r"^\s*(?:(?:abbrev|unfoldable|pub|private)\s+)*([^\s:{}()=]+)\s*:\s")
RECORD = re.compile(r"^\s*(?:(?:abbrev|unfoldable|pub|private)\s+)*(?:record|data|module)\s+([^\s:{}()=]+)")
WORD = re.compile(r"[^\W\d][\w'\u2080-\u2089-]*")
CAMEL = re.compile(r"^[a-z][\w']*[A-Z]")
# Lemmas that would have their function's name.
LEMMAS = {n: n.replace("-", "_") + "_lem" for n in "each_word last_line lines-from meta-code items_at word-ends rows-at fields_in".split()}
LIBRARY = set("length take drop append map reverse set sets get_or sum all add sub mul div mod rem le lt eq zero suc one cons nil and or not snoc".split())


def snake(word):
    return re.sub(r"(?<=[a-z0-9_])([A-Z])", lambda m: "_" + m.group(1).lower(), word).replace("__", "_")


def files():
    for root, folders, names in os.walk("crates"):
        folders[:] = sorted(f for f in folders if f != "out")
        for name in sorted(names):
            if name.endswith((".rt", ".antt", ".edit")):
                yield os.path.join(root, name)


def of_function(path):
    """A file in proofs/FUNCTION/, whose dashed names are mostly Rattle's own."""
    parts = path.split(os.sep)
    return len(parts) > 4 and parts[2] == "proofs"


def declared(text):
    for line in text.splitlines():
        if line.lstrip().startswith("--"):
            continue
        for pattern in (DECLARED, RECORD):
            m = pattern.match(line)
            if m:
                yield m.group(1)


def table(texts):
    definitions, lemmas = set(), set()
    for path, text in texts.items():
        if path.endswith(".antt"):
            if os.sep + "specs" + os.sep in path:
                definitions.update(snake(n) for n in declared(text))
            if not of_function(path):
                lemmas.update(declared(text))
    names = {n for n in definitions if n[0].islower()} | LIBRARY
    says = {}
    for path, text in texts.items():
        if path.endswith(".antt"):
            for n in declared(text):
                if CAMEL.match(n) and "-" not in n:
                    says[n] = snake(n)
    for n in lemmas:
        if "-" in n and re.match(r"[a-z][\w'-]*$", n):
            parts = snake(n).split("-")
            said = parts[0]
            for before, after in zip(parts, parts[1:]):
                said += ("-" if before in names and after in names else "_") + after
            if said != n:
                says[n] = said
    says.update(LEMMAS)
    return says


STRING = re.compile(r'("(?:[^"\\\n]|\\.)*")')


def spelling(path, text, says):
    """What a word of this file is called: in a function's own proof a field and a goal keep the name that Rattle makes; elsewhere a
    lemma of the file that would have the name of a definition used there gets `_lem`."""
    own = set(declared(text)) if of_function(path) else set()
    if path.endswith(".antt") and not of_function(path) and os.sep + "specs" + os.sep not in path:
        made = {says[w] for w in set(WORD.findall(text)) if CAMEL.match(w) and w in says}
        says = {**says, **{n: n + "_lem" for n in declared(text) if n in made and n not in says}}

    def word(m):
        w = m.group(0)
        if of_function(path) and not CAMEL.match(w) and (w in own or m.string[m.start() - 1 : m.start()] == "."):
            return w
        return says.get(w, w)

    return word


def respelled(path, text, says):
    word = spelling(path, text, says)
    return "".join(piece if piece.startswith('"') else WORD.sub(word, piece) for piece in STRING.split(text))


def main():
    texts = {}
    for path in files():
        with open(path, encoding="utf-8") as f:
            texts[path] = f.read()
    says = table(texts)
    together = 0
    for path, text in texts.items():
        if of_function(path):
            continue  # it names its own function beside the definition, in paths and steps
        word = spelling(path, text, says)
        made = collections.defaultdict(set)
        for piece in STRING.split(text):
            if not piece.startswith('"'):
                for m in WORD.finditer(piece):
                    made[word(m)].add(m.group(0))
        for n, words in made.items():
            # a function of src/ and the definition that its contract cites may have one name
            function = path.endswith((".rt", ".edit")) and len(words) == 2 and n in words and (re.search(r"\bfn " + n + r"\b|\." + n + r"\(|\b" + n + r"[(,;]", text))
            if len(words) > 1 and not function:
                together += 1
                print(f"{path}: {', '.join(sorted(words))} would all be {n}")
    print(f"respell: {len(says)} names, {together} that fall together")
    if "--dry" in sys.argv:
        for n in sorted(says):
            print(f"  {n} {says[n]}")
        return 0
    if together:
        return 1
    for path, text in texts.items():
        said = respelled(path, text, says)
        if said != text:
            with open(path, "w", encoding="utf-8") as f:
                f.write(said)
    return 0


if __name__ == "__main__":
    raise SystemExit(main())
