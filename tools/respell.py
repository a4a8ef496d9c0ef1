#!/usr/bin/env python3
"""Brings the repository's own antt names to today's spelling: words in snake case, types and facts in camel case.

Run once, at the top, after port.py of the kit. It renames what specs/ and proofs/ declare with a dash between its words,
and local names there: 'nodes-with' becomes 'nodes_with', 'Came-about' becomes 'CameAbout'. Names of the library, of goals and of
steps of the code, functions of src/, strings and comments stay. --list prints the table, and what would fall together.
"""
import collections
import glob
import os
import re
import sys

WORD = re.compile(r"[^\s(){}.;,@\"«»\[\]|⌜⌝]+")
DASHED = re.compile(r"^[A-Za-z][\w']*(?:-[\w']+)+\??$")
QUIET = re.compile(r'"(?:[^"\\\n]|\\.)*"|--[^\n]*')


def antt():
    return sorted(glob.glob("crates/*/specs/**/*.antt", recursive=True) + glob.glob("crates/*/proofs/**/*.antt", recursive=True))


def of_goals(path):  # names there are of goals, unless the file gives them another type
    return os.path.basename(path) in ("Answers.antt", "Invariants.antt")


def new_name(name):
    if name[0].isupper():
        return "".join(p[0].upper() + p[1:] for p in name.split("-"))
    return name.replace("-", "_")


def imported(text):  # what the file's use lines name of other places, by whether it is the repository's
    own, other = set(), set()
    for m in re.finditer(r"\buse ([\w.·]+)\.\{([^}]*)\}", text):
        crate = m.group(1).split(".")[1] if m.group(1).startswith("Rattle.") else ""
        into = own if os.path.isdir(os.path.join("crates", crate)) and crate else other
        for item in m.group(2).split(","):
            into.update(item.split(" as ")[0].split())
    return own, other


def declared():
    names, library = set(), set()
    for path in antt():
        text = QUIET.sub(lambda m: " " * len(m.group()), open(path, encoding="utf-8").read())
        own, other = imported(text)
        library |= other
        for m in re.finditer(r"^( *)(?:(?:pub|abbrev|unfoldable) )*(?:(?:record|data) )?([^\s(){}.;,@\"«»\[\]]+)((?: [^\n:=]*)?) : ([^\n]*)", text, re.M):
            name, kind = m.group(2), m.group(4)
            if not DASHED.match(name):
                continue
            if of_goals(path) and (kind.startswith("goal.") or kind.startswith("need.")):
                continue
            names.add(name)
        for m in re.finditer(r"(?:\blet\b|λ|\() *\(?([^\s(){}.;,@\"«»\[\]]+)(?= [=:,)])", text):
            if DASHED.match(m.group(1)):
                names.add(m.group(1))
        # names bound by a tuple of a let, and parameters
        for m in re.finditer(r"\blet \(([^()=]*)\) =", text):
            names.update(w for w in WORD.findall(m.group(1)) if DASHED.match(w))
        for m in re.finditer(r"[({]([\w' \-?]+) : ", text):
            names.update(w for w in m.group(1).split() if DASHED.match(w))
    return names, library


def main():
    names, library = declared()
    clash = names & library
    table = {n: new_name(n) for n in sorted(names - library)}
    if "--list" in sys.argv:
        words = collections.defaultdict(set)
        for path in antt():
            text = QUIET.sub("", open(path, encoding="utf-8").read())
            for w in WORD.findall(text):
                words[w].add(path)
        for old, new in table.items():
            fall = words.get(new)
            print(old, new, "FALLS" if fall else "", *(sorted(fall)[:4] if fall else []))
        back = collections.Counter(table.values())
        print("twice:", [n for n in back if back[n] > 1], "library:", sorted(clash))
        return
    paths = antt() + sorted(glob.glob("crates/*/src/**/*.rt", recursive=True))
    for path in paths:
        text = open(path, encoding="utf-8").read()
        local = set()
        if of_goals(path):  # a goal keeps its name
            local = {m.group(1) for m in re.finditer(r"^(?:abbrev )?pub ([^\s]+) : (?:goal|need)\.", text, re.M)}
        if path.endswith(".rt"):
            turned = turn_rust(text, table)
        else:
            parts, at = [], 0
            for m in QUIET.finditer(text):
                parts += [turn(text[at:m.start()], table, local), m.group()]
                at = m.end()
            turned = "".join(parts) + turn(text[at:], table, local)
        if turned != text:
            open(path, "w", encoding="utf-8").write(turned)


def turn(text, table, local=frozenset()):
    def one(m):
        w = m.group()
        if w in local or w not in table:
            return w
        before = text[: m.start()]
        if re.search(r"(?<![\w.])(?:goal|need|c|w|l)\.$", before):  # a goal, a step or a variable of the code
            return w
        return table[w]

    return WORD.sub(one, text)


def turn_rust(text, table):  # only clauses, ghost members and imports have such names, and no other code has a dash between letters with no space
    out = []
    for line in text.split("\n"):
        code = line
        if not line.lstrip().startswith("//"):
            code = turn(line, table)
        out.append(code)
    return "\n".join(out)


main()
