#!/usr/bin/env python3
"""Respells the repository's own definitions and lemmas: words in snake case, types and modules in camel case.

usage: tools/respell.py [--dry]     at the top of the repository, once, after the toolchain's own script

A name is the repository's own if a file of specs/ or proofs/ declares it. In proof files of a function the steps, goals and records
that the checker makes are respelled too: there a dash joins parts, and the name of a function keeps its underscores.
"""

import collections
import os
import re
import sys

STOP = r"\s(){}\[\].,;«»\"`"
TOKEN = re.compile(rf"[^{STOP}]+")
DECLARED = re.compile(r"^(\s*)((?:(?:unfoldable|abbrev|pub|data|record|ruleset)\s+)*)((?:[^\s(){}\[\].,;«»\"`:=]+\s+)*[^\s(){}\[\].,;«»\"`:=]+)\s+:(?=\s|$)(.*)$")
BOUND = re.compile(r"[({]([^(){}:]+?) : ")
LET = re.compile(r"\blet ([^\s(){}:=]+) (?:: [^=]*)?= ")
IMPORT = re.compile(r"^\s*(?:ghost |pub )*use ([^\s{;]+?)(?:\.\{([^}]*)\})?;?\s*$")
# A word that is a tactic's, with what it is called now.
TACTICS = {"search": "whole_search"}
# Names that would fall together with another in one file.
APART = {"headerOf": "header_bytes", "signed-of": "signed_of_lem", "toldOf": "outcome_told", "bit-and": "bit_and_lem", "bit-or": "bit_or_lem", "bit-xor": "bit_xor_lem"}


def snake(name):
    if name.startswith("◌") or not re.match(r"[a-zα-ωℕℤ_]", name):
        return name
    out = name.replace("-", "_")
    out = re.sub(r"(?<=[a-z0-9])([A-Z])", lambda m: "_" + m.group(1).lower(), out)
    return out


def files(root):
    for top in ("crates",):
        for folder, dirs, names in os.walk(os.path.join(root, top)):
            dirs[:] = sorted(d for d in dirs if d not in ("out", ".git", "target"))
            for n in sorted(names):
                if n.endswith((".rt", ".antt", ".edit")):
                    yield os.path.join(folder, n)


def own_path(path):
    m = re.match(r"Rattle\.(\w+)\.(specs|proofs)\.", path + ".")
    return bool(m) and os.path.isdir(os.path.join("crates", m.group(1)))


def function_folder(path):
    return "/proofs/" in path and not re.match(r".*/proofs/[A-Z]\w*\.antt$", path)


def main():
    dry = "--dry" in sys.argv
    texts = {p: open(p, encoding="utf-8").read() for p in files(".")}
    own = set()
    for p, t in texts.items():
        if not p.endswith(".antt"):
            continue
        for line in t.splitlines():
            if line.lstrip().startswith("--"):
                continue
            m = DECLARED.match(line)
            if m:
                if re.match(r"\s*tie\.", m.group(4)):
                    continue
                for n in m.group(3).split():
                    own.add(n)
            for m in BOUND.finditer(line):
                own.update(m.group(1).split())
            for m in LET.finditer(line):
                own.add(m.group(1))
    turned = {n: APART.get(n, snake(n)) for n in own if snake(n) != n}
    # names of the library or of the checker that a file takes in stay there
    known = collections.defaultdict(set)
    for p, t in texts.items():
        for line in t.splitlines():
            m = IMPORT.match(line)
            if m and m.group(2) and not own_path(m.group(1)):
                known[p].update(x.strip().split(" as ")[0] for x in m.group(2).split(","))
    functions = set()
    for p, t in texts.items():
        if p.endswith(".rt"):
            functions.update(re.findall(r"\bfn (\w+)", t))
    made = {f.replace("_", "-"): f for f in functions if "_" in f}
    n = 0
    for p, t in sorted(texts.items()):
        inside = function_folder(p)

        def turn(tok):
            if tok in known[p]:
                return tok
            if tok in turned:
                return turned[tok]
            if inside:
                if tok in made:
                    return made[tok]
                # SPEC of a function, a call's requires, records After-f
                m = re.match(r"^(Need-|After-)?(.+?)((?:-(?:requires|spec))?(?:-\d+)?)$", tok)
                if m and m.group(2) in made:
                    tail = m.group(3).replace("-spec", "_spec") if m.group(3) == "-spec" else m.group(3)
                    return (m.group(1) or "") + made[m.group(2)] + tail
            return tok

        tactic = [w for w in TACTICS if re.search(rf"^\s*(?:ghost |pub )*use Rattle\.\w+\.(?:specs|proofs)\.\S*\{{[^}}]*(?<![\w-]){w}(?![\w-])", t, re.M)]
        own_word = [w for w in TACTICS if re.search(rf"(?m)^(?:unfoldable |abbrev |pub )*{w} :", t)]
        lines = []
        for line in t.split("\n"):
            comment = None
            body = line
            mark = "--" if p.endswith(".antt") else "//"
            if p.endswith((".antt", ".rt")) and line.lstrip().startswith(mark):
                body = re.sub(r"`([^`]+)`", lambda m: "`" + TOKEN.sub(lambda k: turn(k.group(0)), m.group(1)) + "`", line)
            else:
                body = TOKEN.sub(lambda k: turn(k.group(0)), line)
                clause = p.endswith(".antt") or re.match(r"\s*(?:ghost use|requires|ensures)\b", line)
                for w in set(tactic + own_word) if clause else ():
                    body = re.sub(rf"(?<![\w.-]){w}(?![\w-])(?! \(?(?:rules|needs)\b)", TACTICS[w], body)
            lines.append(body)
        new = "\n".join(lines)
        if new != t:
            n += 1
            if not dry:
                with open(p, "w", encoding="utf-8") as f:
                    f.write(new)
    print(f"respelled {n} files, {len(turned)} names")
    # names that fall together
    back = collections.defaultdict(set)
    for a, b in turned.items():
        back[b].add(a)
    for b, many in sorted(back.items()):
        also = {b} & own
        if len(many) > 1 or also:
            print("together:", b, sorted(many | also))
    return 0


if __name__ == "__main__":
    raise SystemExit(main())
