#!/usr/bin/env python3
"""Respells the names of this repository's definitions and lemmas as today's Rattle spells names: `python3 tools/respell.py`, once, at the
top, after the kit's port.py and before the result is committed. The names that stood are read off the last commit.

- Words are in snake case: `halfOf` is `half_of`. A type, a module and a constructor keep their capital.
- A dash joins the names of two definitions, as in `length-put`; any other word is added with `_`, as in `put_starts`.
- A lemma that would have its definition's name gets `_lem`.
- Names of the library keep their spelling.

In .antt files all text turns; in .rt files clauses, ghost items and comments; in must-fail edits and their twins words in camel case; in the
documents code spans. Functions of src/, strings, inputs and outputs keep their names."""
import collections
import os
import re
import subprocess

WORD = re.compile(r'[^\s(){}.;,@"«»\[\]`:!?*/]+')
NAME = re.compile(r"_?[a-z][A-Za-z0-9_'₀-₉-]*")
USE = re.compile(r"^\s*(?:ghost )?use\s+([\w.·'-]+?)(?:\.\{([^}]*)\}|\s+as\s+(\S+)|)\s*;?$", re.M)
DEFINED = re.compile(r"^\s*(?:abbrev |unfoldable )?(?:pub )?([a-z][\w'-]*) :(?= )", re.M)
CLAUSE = re.compile(r"(?:requires|ensures|ghost use|ghost)\b[^\n]*(?:\n(?!\s*(?:\{\s*$|pub |fn |use |mod |requires|ensures))[^\n]*)*")


COMMENT = re.compile(r"(?<!\S)--[^\n]*")
# words of the library that are read off a module of its own, and a field that keeps the word of the phase that it is about
LIBRARY = re.compile(r"Memᴰ\.[\w-]+")
FIELDS = {"at-rest", "at_rest"}


def words_of(text):
    """The words of a file's code."""
    return WORD.findall(LIBRARY.sub(" ", COMMENT.sub(" ", text)))


def in_snake_case(word):
    word = re.sub(r"(?<=[a-z0-9])[A-Z]+(?![a-z])|(?<=[a-z0-9])[A-Z]", lambda m: "_" + m[0].lower(), word)
    return word


def is_camel(word):
    return bool(re.match(r"_?[a-z][a-z0-9_]*[A-Z]", word)) and "-" not in word


def spelled(word, known):
    """The spelling of a name of ours: the longest names of definitions in it are joined by dashes, other words by `_`."""
    parts = [in_snake_case(p) for p in word.split("-")]
    groups, at = [], 0
    while at < len(parts):
        end = next((e for e in range(len(parts), at, -1) if "_".join(parts[at:e]) in known), at + 1)
        groups.append("_".join(parts[at:end]))
        at = end
    out = groups[0]
    for before, after in zip(groups, groups[1:]):
        joins = before in known and after in known
        out += ("-" if joins else "_") + after
    return out


def files(top, ends):
    for folder, inside, names in os.walk(top):
        inside[:] = sorted(d for d in inside if d not in ("out", ".git"))
        for name in sorted(names):
            if name.endswith(ends):
                yield os.path.join(folder, name)


def read(path):
    with open(path, encoding="utf-8") as text:
        return text.read()


def write(path, text):
    with open(path, "w", encoding="utf-8") as out:
        out.write(text)


def stood():
    """All words of the .antt files of the last commit."""
    archive = subprocess.run(["git", "grep", "-hI", "", "HEAD", "--", "crates/*.antt"], capture_output=True, text=True, check=True).stdout
    return set(words_of(archive))


def foreign(code):
    """The names that a file takes from the library."""
    names = set()
    for path, items, _ in USE.findall(code):
        if path.startswith("Rattle.") and not path.startswith("Rattle.std"):
            continue
        for item in items.split(","):
            names.update(item.split(" as ")[0].split())
    return names


def main():
    sources = list(files("crates", ".antt"))
    crates = sorted(os.listdir("crates"))
    texts = {path: read(path) for path in sources}
    # what definitions are called: of specs/ here, and of the library as far as this repository imports them
    known = set()
    for path, text in texts.items():
        if "/specs/" in path:
            known.update(in_snake_case(w) for w in DEFINED.findall(text))
        known.update(w for w in foreign(text) if re.fullmatch(r"[a-z]\w*", w))
    old = stood()
    table, sides = {}, collections.defaultdict(set)

    def turned(word):
        if word not in table:
            plain = NAME.fullmatch(word) and ("-" in word or is_camel(word))
            table[word] = spelled(word, known) if plain and not word.endswith("-") else word
        return table[word]

    camel_names = {in_snake_case(w) for w in old if is_camel(w)}
    lemmas, here = {}, collections.defaultdict(set)
    for path, text in texts.items():
        if os.path.basename(path) == "Proof.antt":
            continue
        taken = foreign(text)
        for word in set(words_of(text)) - taken:
            sides[(path, turned(word))].add(word)
        for word in taken:
            sides[(path, word)].add(word)
    for (path, new), olds in sorted(sides.items()):
        # the definition keeps the name: the word in camel case, or the one that the kit's script has turned from it
        lemma = {w for w in olds if "-" in w} or {w for w in olds if w == new and any(is_camel(o) for o in olds)}
        for word in lemma - FIELDS if len(olds) > 1 and new in camel_names else ():
            lemmas[word] = new + "_lem"
            here[path].add(word)
        if len(olds) - len(lemma) != 1 and len(olds) > 1:
            print(f"fall together: {path}: {', '.join(sorted(olds))} are all {new}")
    # a word that stays but for its ending turns only in the files that have it as a lemma: elsewhere it may be a function's name
    snake = {word for word in lemmas if "-" not in word}
    table.update({word: new for word, new in lemmas.items() if word not in snake})
    for word, new in sorted(lemmas.items()):
        print(f"lemma: {word} is {new}")
    ours = old | set(table)

    def turn(word, taken=()):
        return word if word in taken else turned(word)

    for path, text in texts.items():
        taken = foreign(text)
        mine = set(words_of(text))
        lent = {i.strip() for p, items, _ in USE.findall(text) if p.startswith("Rattle.") and ".proofs." in p for i in items.split(",")}
        here[path] |= snake & lent
        if os.path.basename(path) == "Proof.antt":
            mine = {i.strip() for p, items, _ in USE.findall(text) if p.startswith("Rattle.") for i in items.split(",")}
        word = lambda m: lemmas[m[0]] if m[0] in here[path] else turn(m[0], taken) if m[0] in mine or is_camel(m[0]) else m[0]
        part = lambda m: m[0] if LIBRARY.match(m[0]) else WORD.sub(word, m[0])
        new = re.sub(LIBRARY.pattern + r"|(?:(?!Memᴰ\.).|\n)+", part, text)
        if new != text:
            write(path, new)
    camel = lambda m: turn(m[0]) if is_camel(m[0]) and m[0] in ours else m[0]
    for path in files("crates", ".rt"):
        text = read(path)
        new = re.sub(r'"(?:[^"\\\n]|\\.)*"|[^"]+', lambda m: m[0] if m[0][0] == '"' else WORD.sub(camel, m[0]), text)
        if new != text:
            write(path, new)
    for path in [*files("crates", ".edit"), *files("tests/twins", ".edit")]:
        text = read(path)
        new = WORD.sub(camel, text)
        if new != text:
            write(path, new)
    span = lambda m: WORD.sub(lambda w: turn(w[0]) if w[0] in old and w[0] in ours else w[0], m[0])
    for path in [*files("docs", ".md"), *files("bench", ".md"), *files("demo", ".md"), "README.md"]:
        text = read(path)
        new = re.sub(r"`[^`\n]+`", span, text)
        if new != text:
            write(path, new)
    print(f"{sum(a != b for a, b in table.items())} names respelled in {len(crates)} crates")


if __name__ == "__main__":
    main()
