#!/usr/bin/env python3
"""Brings the repository's own definitions and lemmas to the spelling of today's Rattle, over crates/*.

Words that are written in camel case and begin with a small letter become snake case (`refusalOf` is `refusal_of`), in
every .antt file and in the clauses of every .rt file. A dash in a name that specs/ declares becomes an underscore.
--list prints each name, and what it would fall together with. Each root file gets the line that lets the check try its tactics.

usage: tools/respell.py [--list]      at the top of the repository, once, after /opt/rattle/port/port.py
"""
import glob
import re
import sys

CAMEL = re.compile(r"(?<![\w'·-])[a-z][a-z0-9]*(?:[A-Z][a-z0-9]*)+'?(?![\w'-])")
WORD = re.compile(r"(?<![\w'-])[A-Za-z_][\w']*(?:-[\w']+)*(?![\w'])")
DECLARED = re.compile(r"^\s*(?:abbrev |lemma |pub |instance )*([a-z][\w']*(?:-[\w']+)+) :", re.M)
# lemmas that would fall together with the definition that they are about
LEMMAS = [r"(?<!\.)above_word(?!\.)", "read_number", "rows_in", "whole_part"]


def snake(word):
    word = re.sub(r"([a-z0-9])([A-Z])", r"\1_\2", word)
    word = re.sub(r"([A-Z])([A-Z][a-z])", r"\1_\2", word)
    return word.lower()


def files(kind):
    return sorted(f for f in glob.glob("crates/*/**/*." + kind, recursive=True) if "/out/" not in f)


def read(f):
    with open(f, encoding="utf-8") as it:
        return it.read()


def names():
    """Each name that changes, and what it becomes."""
    turned = {}
    for f in files("antt"):
        text = read(f)
        for word in CAMEL.findall(text):
            turned[word] = snake(word)
        if "/specs/" in f:
            for word in DECLARED.findall(text):
                turned[word] = snake(word.replace("-", "_"))
    for f in files("rt"):
        for line in read(f).splitlines():
            if re.match(r"\s*(ghost use|requires|ensures|ghost)\b", line):
                for word in CAMEL.findall(line):
                    turned[word] = snake(word)
    return {a: b for a, b in turned.items() if a != b}


def tactics(text):
    """The root file with #![tactic(auto)] after its first comment."""
    lines = text.split("\n")
    if any("tactic(auto)" in line for line in lines):
        return text
    i = 0
    while lines[i].startswith("//"):
        i += 1
    return "\n".join(lines[:i] + ["#![tactic(auto)]", ""] + lines[i:])


def main():
    before = {}
    for f in files("antt") + files("rt"):
        before[f] = read(f)
        if f.endswith(".antt"):
            for word in LEMMAS:
                before[f] = re.sub(r"(?<![\w'-])" + word + r"(?![\w'-])", r"\g<0>_lem", before[f])
    turned = names()
    there = {}
    for f in files("antt") + files("rt"):
        for word in WORD.findall(before[f]):
            there.setdefault(word, set()).add(f)
    twice = [b for b in turned.values() if list(turned.values()).count(b) > 1]
    if "--list" in sys.argv:
        for a, b in sorted(turned.items()):
            print(a, b, "FALLS ON " + " ".join(sorted(there[b])[:4]) if b in there else "")
        print("twice:", sorted(set(twice)))
        return
    words = re.compile(r"(?<![\w'-])(" + "|".join(sorted(map(re.escape, turned), key=len, reverse=True)) + r")(?![\w'-])")
    for f in files("antt") + files("rt"):
        old = before[f]
        if f.endswith(".antt"):
            new = words.sub(lambda m: turned[m.group(1)], old)
        else:
            new = "\n".join(words.sub(lambda m: turned[m.group(1)], line) if re.match(r"\s*(ghost use|requires|ensures|ghost|use)\b", line) else line for line in old.split("\n"))
        if re.search(r"/src/(lib|main)\.rt$", f):
            new = tactics(new)
        if new != read(f):
            with open(f, "w", encoding="utf-8") as it:
                it.write(new)


main()
