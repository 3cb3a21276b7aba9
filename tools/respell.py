#!/usr/bin/env python3
"""Brings the repository's own definitions and lemmas to snake case, and facts to camel case.

usage: python3 tools/respell.py     at the top of the repository, once, after the kit's port.py

Words of specs/ and proofs/ in camel case become snake case, a lemma of plain words is joined by underscores, and a lemma that would have a
definition's name gets _lem. Functions, fields and types of src/ keep their names, and so do strings.
"""

import os
import re

# Facts, which are spelled as types.
FACTS = {"isCodes": "IsCodes"}
LETTER = r"[A-Za-z_0-9'\u2115\u2080-\u2089\u0370-\u03ff]"
TOKEN = re.compile(rf"(?<!\\){LETTER}+(?:[-\u00b7]{LETTER}+)*")
CAMEL = re.compile(r"^[a-z][a-z0-9_]*[A-Z]")
HEAD = re.compile(r"^(\s*)(?:pub |abbrev |unfoldable )*(?:(?:data|record) )?([^\s(){}:;.,\"]+)(?=[ :])")
OUTER = {"use", "mod", "unfolding", "where", "let", "in", "elim", "pub", "--"}


def files(root, *ends):
    for folder, dirs, names in os.walk(root):
        dirs[:] = sorted(d for d in dirs if d not in ("out", ".git", "data"))
        for name in sorted(names):
            if name.endswith(ends):
                yield os.path.join(folder, name)


def read(path):
    with open(path, encoding="utf-8") as f:
        return f.read()


def snake(word):
    if word in FACTS:
        return FACTS[word]
    return re.sub(r"(?<=[a-z0-9])([A-Z])", lambda m: "_" + m.group(1).lower(), word)


def declared():
    """Names that specs/ and the shared files of proofs/ declare; each with whether it stands at the margin."""
    names = set()
    for path in files("crates", ".antt"):
        if os.path.basename(path) == "Proof.antt":
            continue
        for line in read(path).splitlines():
            m = HEAD.match(line)
            if not m or m.group(2) in OUTER:
                continue
            typed = re.search(r"\S :( |$)", line) or re.match(r"\s*(pub )?(data|record) ", line)
            if typed and not line.strip().startswith("--"):
                names.add(m.group(2))
    return names


def lemma(name):
    """Plain words are joined by underscores; a dash stays beside the name of a definition."""
    parts = name.split("-")
    out = snake(parts[0])
    for left, right in zip(parts, parts[1:]):
        joint = "-" if CAMEL.match(left) or CAMEL.match(right) or left[:1].isupper() or right[:1].isupper() else "_"
        out += joint + snake(right)
    return out


def renames():
    names = declared()
    words = {part for name in names for part in re.split("[-\u00b7]", name) if CAMEL.match(part)}
    words = {word: snake(word) for word in words}
    whole = {}
    taken = set(words.values()) | {name for name in names if "-" not in name and not CAMEL.match(name)}
    for name in sorted(names):
        if "-" not in name or "\u00b7" in name or not re.match(r"^[a-z]", name):
            continue
        new = lemma(name)
        if new in taken:
            new += "_lem"
        taken.add(new)
        whole[name] = new
    # Lemmas whose names the kit's script joined, where a definition has the same words.
    clashes = {name for name in names if "_" in name and "-" not in name and name in words.values()}
    return words, whole, clashes


def turn(text, words, whole, clashes):
    def one(m):
        token = m.group(0)
        if token in whole:
            return whole[token]
        if token in clashes and text[m.start() - 1 : m.start()] != "." and text[m.end() : m.end() + 1] != ".":
            return token + "_lem"
        return "".join(words.get(part, part) for part in re.split("([-\u00b7])", token))

    return TOKEN.sub(one, text)


def quoted(text, change):
    return re.sub(r"`[^`\n]*`", lambda m: change(m.group(0)), text)


def main():
    words, whole, clashes = renames()
    for path in files("crates", ".antt", ".rt", ".edit"):
        code = path.endswith(".rt")
        text = read(path)
        if code:
            new = turn(text, words, {}, set())
        elif path.endswith(".edit"):
            new = "".join(
                turn(line, words, whole if ".antt" in text else {}, set()) if re.match("(old|new): ", line) else line
                for line in text.splitlines(keepends=True)
            )
        else:
            proof = os.path.basename(path) == "Proof.antt"
            own = whole
            if proof:
                imported = set(TOKEN.findall(" ".join(re.findall(r"^use .*", text, re.M))))
                own = {old: name for old, name in whole.items() if old in imported}
            here = {c for c in clashes if re.search(rf"(?m)^(pub )?{c} :|[{{ ,]{c}[,}}]", text)}
            new = turn(text, words, own, here)
        if new != text:
            with open(path, "w", encoding="utf-8") as f:
                f.write(new)
    for path in ["README.md", *(p for p in files("docs", ".md"))]:
        text = read(path)
        new = quoted(text, lambda t: turn(t, words, whole, set()))
        if new != text:
            with open(path, "w", encoding="utf-8") as f:
                f.write(new)
    print(f"respell: {len(words)} words, {len(whole)} lemmas, {len(clashes)} lemmas beside a definition")


if __name__ == "__main__":
    main()
