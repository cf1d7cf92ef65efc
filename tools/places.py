"""Counts the places in crates/*/src and crates/*/proofs that are written as in the older language.

    python3 tools/places.py           the counts, a line for each kind of place
    python3 tools/places.py --list    each place too

docs/DESIGN-PASS.md says what the points are.
"""

import glob
import re
import sys

FILES = sorted(glob.glob("crates/*/src/**/*.rt", recursive=True))
FUNCTION = re.compile(r"^( *)(?:pub )?fn (\w+)(?:<[^>]*>)?\(([^{]*?)\)([^{]*?)((?:\n *(?:requires|ensures)[^\n]*)*)\n\1\{\n(.*?)\n\1\}", re.S | re.M)


def lines(pattern):
    found = []
    for name in FILES:
        for number, line in enumerate(open(name).read().split("\n"), 1):
            if re.search(pattern, line.split("//")[0]):
                found.append(f"{name}:{number}: {line.strip()}")
    return found


def functions():
    for name in FILES:
        text = open(name).read()
        for match in FUNCTION.finditer(text):
            number = text.count("\n", 0, match.start()) + 1
            indent, title, parameters, result, clauses, body = match.groups()
            parameters = [it.strip() for it in re.split(r",\s*(?![^\[<(]*[\]>)])", parameters) if it.strip()]
            yield f"{name}:{number}: {title}", title, parameters, result, clauses, body


def shape(parameters, body):
    """A function's text with each name, type and number blanked, in the order of first use."""
    text = ", ".join(parameters) + "{" + body
    text = re.sub(r"//[^\n]*", "", text)
    text = re.sub(r"b?\"[^\"]*\"", "''", text)
    keep = {"if", "else", "for", "in", "while", "let", "mut", "return", "match", "true", "false", "as"}
    return re.sub(r"\b\w+\b", lambda m: m.group() if m.group() in keep else "_", re.sub(r"\s+", " ", text))


def twins():
    groups = {}
    for place, title, parameters, result, clauses, body in functions():
        if body.count("\n") >= 2:
            groups.setdefault(shape(parameters, body), []).append(place)
    return [it for group in groups.values() if len(group) > 1 for it in group]


def spans(pattern):
    return [it[0] for it in functions() if re.search(pattern, it[5])]


def main():
    old = r"\b(byte|u8_to_u32|u8_to_u64|u16_to_usize|i8_to_i32|i32_to_i64|smaller|larger)\("
    points = [
        ("1 own enums shaped as Option or Result", lines(r"^(pub )?enum (?!Status|Refusal)")),
        ("1 a flag or the number of a refusal beside a value, in a struct", lines(r"^ +(pub )?(refusal|found|more|failed|going): (u8|bool),|^ +(pub )?answer: Reading,")),
        ("1 a flag with a value beside it, in parameters", lines(r"\bgiven: bool")),
        ("1 functions that answer the number of a refusal", [it[0] for it in functions() if it[1].startswith("judge") and "u8" in it[3]]),
        ("1 tests of such a number, and refusals made of it", lines(r"\b(number|refusal|other|wrong|header) != 0|Refused\(|refused_\w+\(\d|unprepared\(")),
        ("1 kinds by number", lines(r"\bkind == |\bkind\b.* -> usize|edges_of\(.*, [012]\)")),
        ("2 functions of one shape, of three lines and more", twins()),
        ("3 loops that count over a range", lines(r"^ *('\w+: )?for \w+ in .*\.\.")),
        ("3 while and loop", lines(r"^ *('\w+: )?(while|loop)\b")),
        ("4 conversions and comparisons by functions of this repository", lines(old)),
        ("4 functions of one comparison or cast", [it[0] for it in functions() if re.fullmatch(r"\s*(\w+ == \w+|\w+ as \w+|[a-z]+ [-+] \w+)\s*", it[5])]),
        ("5 functions of seven parameters and more", [it[0] for it in functions() if len(it[2]) >= 7]),
        ("6 an array with a count beside it, in structs", lines(r"^ +pub (count|found|n_free|n_edges|n_triangles): usize")),
        ("6 an array of fixed length, in parameters", [it[0] for it in functions() if any(re.search(r"&(mut )?\[\w+; ", p) for p in it[2])]),
        ("6 columns and values as two parameters", [it[0] for it in functions() if {"columns", "values"} <= {p.split(":")[0] for p in it[2]} or {"row_columns", "row_values"} <= {p.split(":")[0] for p in it[2]}]),
        ("7 a switch on which step to run", lines(r"\bby_passes: bool")),
        ("8 proofs that walk the code by hand", sorted(it for it in glob.glob("crates/*/proofs/**/Proof.antt", recursive=True) if "Tie as tie" in open(it).read())),
    ]
    for title, found in points:
        print(f"{len(found):5}  {title}")
        if "--list" in sys.argv:
            for it in found:
                print(f"       {it}")


main()
