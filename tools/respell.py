#!/usr/bin/env python3
"""Brings the repository's own definitions and lemmas to today's spelling: snake case for what is not a type.

Run once at the top of a checkout, right after the kit's port.py. It goes by whole words, in the definitions (*.antt), in the
sources (*.rt, strings aside) and in the edits of must-fail/. What has a name in src/ keeps it; a definition that would fall
together with such a name, or with another word in use, gets `_lem` at its end. With --list it prints old and new names alone.
"""
import glob
import re
import sys

WORD = r"[A-Za-z_][A-Za-z0-9_'\-]*"
NAME_END = r"[A-Za-z0-9_'\-·◌]"
USED = re.compile(r"(?<!%s)%s(?!%s)" % (NAME_END, WORD, NAME_END))
SIGNATURE = re.compile(r"^\s*(?:(?:pub|abbrev|unfoldable)\s+)*((?:%s\s+)*%s)\s*:(?=\s|$)" % (WORD, WORD))
HEADED = re.compile(r"^\s*(?:pub\s+)?(?:ruleset|data|record|syntax)\s+(?:pub\s+)?(%s)" % WORD)
FROM_KIT = re.compile(r"\buse\s+(?!Rattle\.(?:%s)\b)([A-Za-zℕ_.]+)\.\{([^}]*)\}")
# words of lists and numbers that a dash joins, as in std's own lemmas
JOINED = set("length take drop append map filter sum set get_or reverse concat all any count add mul mod div some".split())


def snake(word):
    word = re.sub(r"getD", "get_or", word)
    return re.sub(r"(?<=[a-z0-9])([A-Z])(?=[a-z0-9]|$|_|-)", lambda m: "_" + m.group(1).lower(), word)


def main():
    definitions = sorted(glob.glob("crates/**/*.antt", recursive=True))
    sources = sorted(glob.glob("crates/*/src/**/*.rt", recursive=True))
    edits = sorted(glob.glob("crates/*/must-fail/*.edit"))
    crates = "|".join(sorted({path.split("/")[1] for path in sources}))
    from_kit = re.compile(FROM_KIT.pattern % crates)

    own, said, foreign, in_use = set(), set(), set(), set()
    for path in definitions:
        text = open(path).read()
        for line in text.split("\n"):
            found = SIGNATURE.match(line) or HEADED.match(line)
            if found:
                for name in found.group(1).split():
                    own.add(name)
                    if "/specs/" in path:
                        said.add(name)
        in_use.update(USED.findall(text))
    for path in definitions + sources:
        for _, names in from_kit.findall(open(path).read()):
            for name in re.split(r"[,\s]+", names):
                if name:
                    foreign.add(name)
    functions = set()
    for path in sources:
        text = open(path).read()
        functions.update(re.findall(r"\b(?:fn|mod|const|static)\s+([A-Za-z_0-9]+)", text))
        in_use.update(re.findall(r"[A-Za-z_][A-Za-z0-9_]*", text))
    keep = {"pub", "abbrev", "unfoldable"}

    new = {}
    taken = set()
    # the definitions of specs/ first, so that they get the plain names
    for name in sorted(own - foreign - keep, key=lambda name: (name not in said, "-" in name, name)):
        if not name[0].islower() or name.startswith(("loop-", "invariant-", "decreases-", "returns")):
            continue
        parts = snake(name).split("-")
        to = parts[0]
        for before, part in zip(parts, parts[1:]):
            to += ("-" if before in JOINED and part in JOINED and parts[-1] != "spec" else "_") + part
        if to == name:
            continue
        while to in functions or to in in_use or to in taken:
            to += "_lem" if not to.endswith("_lem") else "'"
        taken.add(to)
        new[name] = to
    if "--list" in sys.argv:
        for name in sorted(new):
            print(name, new[name])
        return

    def respelled(text):
        return USED.sub(lambda m: new.get(m.group(0), m.group(0)), text)

    def outside_strings(text):
        return "".join(part if part[:1] == '"' else respelled(part) for part in re.split(r'("(?:\\.|[^"\\\n])*")', text))

    for path in definitions + edits + sources:
        text = open(path).read()
        to = outside_strings(text) if path.endswith(".rt") else respelled(text)
        if to != text:
            open(path, "w").write(to)


main()
