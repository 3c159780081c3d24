#!/usr/bin/env python3
"""Turns the repository's own definitions and lemmas from camel case to the spelling of Rattle's words, snake case. Run once, behind the kit's port.py.

usage: tools/respell.py            in the repository: rewrites crates/ (.antt, .rt, .edit) and the names in its pages

A word counts where it begins small, has a capital behind a small letter or a digit, and stands in a file of specs/ or proofs/.
Functions, types, fields, strings and file names keep their names. ELSE has the words that would fall together with another.
"""
import glob
import re

# a field, a parameter or a lemma has the plain name already
ELSE = {
    "curveCount": "curve_count_of",
    "gradeCount": "grade_count_of",
    "powerCount": "power_count_of",
    "curveNet": "net_of_curves",
    "gradeNet": "net_of_grades",
    "massPerBrake": "mass_per_brake_of",
    "offsetInLink": "offset_in_link_of",
    "resCoeff": "res_coeff_record",
    "allTrue": "all_hold",
    "withinAll": "is_within_all",
}
WORD = re.compile(r"[^\s(){}\[\];:,.=λ∷+*<>≤≡→×&|∙\"←⊎\\/`]+")
CAMEL = re.compile(r"[a-z][a-z0-9₀-₉']*(?:[A-Z][A-Za-z0-9₀-₉_']*)+")
TEXT = re.compile(r'"(?:[^"\\]|\\.)*"')


def snake(part):
    if not CAMEL.fullmatch(part):
        return part
    if part in ELSE:
        return ELSE[part]
    part = re.sub(r"([a-z0-9₀-₉'])([A-Z])", r"\1_\2", part)
    return re.sub(r"([A-Z])([A-Z][a-z])", r"\1_\2", part).lower()


def spelled(word):
    return "-".join(snake(p) for p in word.split("-"))


def files(*kinds):
    return sorted(p for k in kinds for p in glob.glob(k, recursive=True) if "/out/" not in p)


def outside_texts(line, turn):
    out, at = [], 0
    for m in TEXT.finditer(line):
        out += [turn(line[at:m.start()]), m.group()]
        at = m.end()
    return "".join(out + [turn(line[at:])])


def main():
    own = set()
    for p in files("crates/*/specs/**/*.antt", "crates/*/proofs/**/*.antt"):
        own |= {w for w in WORD.findall(open(p, encoding="utf-8").read()) if spelled(w) != w}
    turn = lambda text: WORD.sub(lambda m: spelled(m.group()) if m.group() in own else m.group(), text)
    changed = 0
    pages = files("crates/**/*.edit") + files("docs/*.md", "README.md", "CONTRIBUTING.md", "tools/oracle/README.md")
    known = set()
    for p in files("crates/**/*.antt") + files("crates/**/*.rt") + pages:
        old = open(p, encoding="utf-8").read()
        if p in pages:  # port.py turns no edit and no page: what it respelled elsewhere counts there too
            own |= {w for w in WORD.findall(old) if spelled(w) != w and spelled(w) in known}
        new = "".join(outside_texts(line, turn) for line in old.splitlines(keepends=True))
        known |= set(WORD.findall(new)) if p.endswith(".antt") else set()
        if new != old:
            open(p, "w", encoding="utf-8").write(new)
            changed += 1
    print(f"respell: {len(own)} words, {changed} files")


main()
