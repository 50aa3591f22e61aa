#!/usr/bin/env python3
"""Brings the repository's own definitions and lemmas to snake case: `answerOf` and `host-alike` become `answer_of` and `host_alike`.

usage: tools/snake_names.py [--list]   at the top of the repository, once, after port.py

It renames what specs/*.antt and the lemma files right in proofs/ declare (definitions, constructors, record fields, lemmas,
local helpers), wherever it stands as a whole word: in those files, in clauses and `ghost use` lines of src/, in the
proofs of functions, in must-fail edits, and between backticks in pages. Functions of src/ keep their names. Where a definition
and a lemma would get one name, the lemma takes `_law` behind it. --list prints the names and writes nothing.
"""
import glob
import os
import re
import sys

WORD = r"[^\s(){}.;,@\"«»\[\]\\`|:/]+"
TOKEN = re.compile(WORD)
# lemmas whose name in snake case stood already, or would be a definition's: the lemma is told apart by its ending
LAWS = {
    "id-of", "set-one", "line-of", "and-then", "part-at", "in-range", "ends-at", "pair-at", "name-at",
    "number_read", "text_at", "whole_part", "one_byte", "no_byte", "whole_by", "pair_parts", "is_name", "some_end",
    "split_at", "from_parts", "cut_short",
}


def snake(name):
    out = re.sub(r"(?<=[a-z0-9])([A-Z])", lambda m: "_" + m.group(1).lower(), name)
    return out.replace("-", "_")


def read(path):
    with open(path, encoding="utf-8", newline="") as it:
        return it.read()


def lemma_files():
    return sorted(glob.glob("crates/*/specs/**/*.antt", recursive=True) + glob.glob("crates/*/proofs/*.antt"))


def declared(text):
    """The names that a file declares: NAME .. : at any depth of layout."""
    names = set()
    for line in text.split("\n"):
        m = re.match(r"^\s*(?:(?:abbrev|pub|unfoldable)\s+)*((?:[a-z][^\s(){}.;,@\"«»\[\]\\:]*\s+)+):\s", line)
        if m and not re.match(r"^\s*(use|mod|module|open|let|in|where|elim|by|rw|data|record)\b", line):
            names |= set(m.group(1).split()) - {"abbrev", "pub", "unfoldable", "let", "in"}
    return names


def imported(text):
    """The names that an antt file takes from elsewhere than the repository."""
    names = set()
    for m in re.finditer(r"^(?:ghost )?use (?!Rattle\.(?!std\b))[A-Za-z.]*\.\{([^}]*)\}", text, re.M):
        names |= {it.split(" as ")[-1].strip() for it in m.group(1).split(",")}
    return names


def turned():
    own, others = set(), set()
    for path in lemma_files():
        own |= declared(read(path))
    for path in glob.glob("crates/**/*.antt", recursive=True):
        if "/out/" not in path:
            others |= imported(read(path))
    names, taken = {}, {}
    for n in sorted(own - others):
        if n in LAWS:
            names[n] = snake(n) + "_law"
        elif snake(n) != n:
            names[n] = snake(n)
            taken.setdefault(snake(n), []).append(n)
    for m, both in taken.items():
        if len(both) > 1:
            for n in both:
                if "-" in n:
                    names[n] = m + "_law"
    return names


def main(argv):
    names = turned()
    if "--list" in argv:
        for n in sorted(names):
            print(n, names[n])
        return 0
    lemmas = set(lemma_files())
    paths = glob.glob("crates/*/src/**/*.rt", recursive=True) + glob.glob("crates/**/*.antt", recursive=True)
    paths += glob.glob("crates/*/must-fail/*.edit") + glob.glob("docs/**/*.md", recursive=True) + ["README.md"]
    for path in sorted(set(paths)):
        if "/out/" in path or path.endswith("PORT.md"):
            continue
        text = read(path)
        of_a_function = path.endswith(".antt") and path not in lemmas
        local = set()
        if of_a_function:
            # a proof of a function: what it declares itself and does not import keeps its name, and so do goals and steps
            uses = set(re.findall(WORD, "\n".join(re.findall(r"^use [^\n]*", text, re.M))))
            local = {d for d in declared(text) if d not in uses}

        def turn(m):
            word, before = m.group(0), text[m.start() - 1 : m.start()]
            if word not in names or word in local:
                return word
            if of_a_function and before == "." and "-" in word:
                return word
            if word in LAWS and (before == "." or not path.endswith(".antt")):
                return word
            return names[word]

        if path.endswith(".md"):
            new = re.sub(r"`[^`\n]*`", lambda s: re.sub(WORD, lambda m: names.get(m.group(0), m.group(0)), s.group(0)), text)
        else:
            new = TOKEN.sub(turn, text)
        if new != text:
            with open(path, "w", encoding="utf-8", newline="") as it:
                it.write(new)
    return 0


if __name__ == "__main__":
    raise SystemExit(main(sys.argv[1:]))
