#!/usr/bin/env python3
"""Brings the repository's own definitions and lemmas to today's spelling: words in snake case, types in camel case.

usage: python3 tools/respell.py [FOLDER]     at the top of a repository that port.py has just turned, once

Names are collected where specs/ and proofs/ declare them, and turned wherever they are cited: in .antt files, and in the clauses and
imports of .rt files. Functions of src/, what the libraries declare, names that the prover makes, strings and must-fail edits stay.
The letters of document 01 (B, O, L, W, E, C, T, D, S, P8) keep their capital.
"""

import collections
import glob
import os
import re
import sys

# Names that would fall together with another in one scope, and types.
CHOSEN = {
    "commonIn": "told_common",
    "nodeIn": "told_node",
    "tableIn": "told_table",
    "reportOf": "sent_report",
    "round-of": "round_of_told",
    "numbers-in": "numbers_within",
    "release-of": "release_told",
    "Sound-turn": "SoundTurn",
    "Takes-at-most": "TakesAtMost",
    "Bytes-in": "BytesIn",
    "Demand-3": "Demand3",
    "A-and-B": "AAndB",
    "All-held": "AllHeld",
    "Taken-again": "TakenAgain",
}
# By crate, where two crates have one old name.
CHOSEN_IN = {("lists", "roundIn"): "told_round", ("cabinet", "roundIn"): "told_round", ("reader", "roundIn"): "answered_round", ("intake", "roundIn"): "answered_round", ("turn", "roundIn"): "answered_round"}

BREAK = " \t\n(){}[];,.\"λ→⌜⌝|"
NAME = re.compile("[^" + re.escape(BREAK) + "]+")
PATH = re.compile(r"[^" + re.escape(BREAK.replace(".", "")) + r"]+")
SIGNATURE = re.compile(r"\s*(?:unfoldable |abbrev |pub |data |record |let |where )*([^\s:(){}]+)\s+:(?!=)")
CAMEL = re.compile(r"[a-z][a-z0-9]*(?:[A-Z][a-z0-9]+)+")
IMPORT = re.compile(r"^\s*(?:ghost )?(?:pub )?use ([^\s{;]+?)\.\{([^}]*)\}", re.M)


def files(root, ends):
    for p in sorted(glob.glob(os.path.join(root, "crates", "**", "*" + ends), recursive=True)):
        if "/out/" not in p and "/must-fail/" not in p:
            yield p


def bare(line):
    """A line's code and its comment."""
    m = re.search(r"(^|\s)--(\s|$)", line)
    return (line, "") if not m else (line[: m.start()], line[m.start() :])


def collect(root):
    own = set(os.listdir(os.path.join(root, "crates")))
    declared, fields, library = set(), set(), set()
    for p in files(root, ".antt"):
        with open(p, encoding="utf-8") as f:
            text = f.read()
        for m in IMPORT.finditer(text):
            of = re.match(r"Rattle\.(\w+)\.", m.group(1))
            if not (of and of.group(1) in own):
                library |= set(re.split(r"[,\s]+", m.group(2)))
        record = None
        for line in text.split("\n"):
            line = bare(line)[0]
            if not line.strip():
                continue
            indent = len(line) - len(line.lstrip())
            if record is not None and indent <= record:
                record = None
            if re.match(r"\s*(pub )?(record|data) .*where\s*$", line):
                record = indent
            m = SIGNATURE.match(line)
            if m:
                declared.add(m.group(1))
                if record is not None and indent > record:
                    fields.add(m.group(1))
            m = re.match(r"\s*(?:pub )?(?:record|data)\s+(\S+)", line)
            if m:
                declared.add(m.group(1))
            for m in re.finditer(r"[({]\s*((?:[^\s:(){}]+\s+)+):", line):
                declared |= set(m.group(1).split())
            for m in re.finditer(r"let\s+([^\s:=(){}]+)\s*[:=]", line):
                declared.add(m.group(1))
            for m in re.finditer(r"λ ((?:[^\s.(){}λ]+ ?)+)\.", line):
                declared |= set(m.group(1).split())
            declared |= set(w for w in NAME.findall(line) if CAMEL.fullmatch(w))
    turned = set()
    for n in declared - library:
        if ("-" in n.strip("-") and not n.startswith("-")) or CAMEL.fullmatch(n):
            turned.add(n)
    return turned, fields


def snake(name):
    if CAMEL.fullmatch(name):
        return re.sub(r"(?<=[a-z0-9])([A-Z])", lambda m: "_" + m.group(1).lower(), name)
    return name.replace("-", "_")


def respeller(turned, fields, crate):
    def new(name):
        if name not in turned:
            return name
        return CHOSEN_IN.get((crate, name)) or CHOSEN.get(name) or snake(name)

    def path(m):
        whole = m.group(0)
        parts = whole.split(".")
        if parts[0] in ("tie", "goal"):
            return whole
        out = [new(parts[0])]
        for p in parts[1:]:
            out.append(new(p) if p in fields or parts[0] not in ("c", "w") else p)
        return ".".join(out)

    return lambda code: PATH.sub(path, code)


def antt(text, turn):
    out = []
    for line in text.split("\n"):
        code, said = bare(line)
        out.append(turn(code) + re.sub(r"`([^`]*)`", lambda m: "`" + turn(m.group(1)) + "`", said))
    return "\n".join(out)


def rust(text, turn):
    """In a .rt file only what ghost text says: imports, and clauses from their word to the brace that ends them."""
    out, depth, inside = [], 0, False
    for line in text.split("\n"):
        word = re.match(r"\s*(ghost|requires|ensures)\b", line)
        if word and not inside:
            inside, depth = True, 0
        if inside:
            code, mark, said = line.partition(" //")
            depth += code.count("{") - code.count("}")
            line = turn(code) + mark + said
            if depth <= 0:
                inside = False
        out.append(line)
    return "\n".join(out)


def main(root):
    turned, fields = collect(root)
    taken = collections.defaultdict(set)
    for ends, how in ((".antt", antt), (".rt", rust)):
        for p in files(root, ends):
            crate = os.path.relpath(p, os.path.join(root, "crates")).split(os.sep)[0]
            with open(p, encoding="utf-8") as f:
                text = f.read()
            done = how(text, respeller(turned, fields, crate))
            if done != text:
                with open(p, "w", encoding="utf-8") as f:
                    f.write(done)
    for n in turned:
        taken[CHOSEN.get(n) or snake(n)].add(n)
    for n, olds in sorted(taken.items()):
        if len(olds) > 1:
            print("look: fell together as", n + ":", ", ".join(sorted(olds)))
    print(len(turned), "names turned")
    return 0


if __name__ == "__main__":
    raise SystemExit(main(sys.argv[1] if len(sys.argv) > 1 else "."))
