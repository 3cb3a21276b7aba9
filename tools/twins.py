#!/usr/bin/env python3
"""Lists functions and structs of src/ that have the same shape: the same text once each name stands for its place among
the names and each number for a number. Twins differ in a type, a size or a constant. Run at the top of the repository;
an argument gives the fewest words that count (30)."""
import glob
import re
import sys

FEWEST = int(sys.argv[1]) if len(sys.argv) > 1 else 30
KEYWORDS = set("fn pub crate struct enum let mut if else match while loop for in return break continue as use const impl ref self true false".split())
TOKEN = re.compile(r"[A-Za-z_][A-Za-z_0-9]*|0x[0-9a-fA-F_]+|b?'.'|[0-9_]+|[^\s\w]")


def code_of(text):
    text = re.sub(r"//.*", "", text)
    text = re.sub(r"\b(requires|ensures)\b[^{}]*\{[^{}]*(\{[^{}]*\}[^{}]*)*\}", "", text)
    return re.sub(r"^ghost use .*$", "", text, flags=re.M)


def items(text):
    for found in re.finditer(r"^(?:pub(?:\(crate\))? )?(?:fn|struct) (\w+)", text, flags=re.M):
        start = text.find("{", found.end())
        depth, at = 0, start
        while at < len(text):
            depth += {"{": 1, "}": -1}.get(text[at], 0)
            at += 1
            if depth == 0:
                break
        yield found.group(1), text[found.start():at]


def shape(text):
    places = {}
    words = []
    for token in TOKEN.findall(text):
        if token in KEYWORDS:
            words.append(token)
        elif re.match(r"[A-Za-z_]", token):
            words.append("n%d" % places.setdefault(token, len(places)))
        elif re.match(r"[0-9b']", token):
            words.append("0")
        else:
            words.append(token)
    return words


groups = {}
for name in sorted(glob.glob("crates/*/src/**/*.rt", recursive=True)):
    for item, text in items(code_of(open(name).read())):
        words = shape(text)
        if FEWEST <= len(words):
            groups.setdefault(" ".join(words), []).append("%s: %s" % (name[len("crates/"):], item))
twins = [group for group in groups.values() if 1 < len(group)]
for group in sorted(twins):
    print("; ".join(group))
print(len(twins), "groups,", sum(map(len, twins)), "items")
