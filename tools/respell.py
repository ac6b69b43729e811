#!/usr/bin/env python3
"""Respells the names that this repository's own specs/ and proofs/ define, after the kit's port.py.

usage: python3 tools/respell.py [ROOT]     (ROOT: a checkout; this one if none is named)

A name joined by dashes becomes snake case (`price-at`, price_at), or upper camel case where it begins with a capital, as
facts and types do (`Drops-freely`, DropsFreely; Laid_out, which port.py made of `Laid-out`, becomes LaidOut). OWN
lists the few that would fall together with another name or that hold a capital, and five that no line declares. Names that the
source code or Rattle itself makes are left alone, and so is prose: comments and pages are turned only inside backquotes.
Functions of src/, strings, inputs, outputs and the edits in must-fail/ stay as they are.
"""

import os
import re
import sys

OWN = {
    "bit-and": "bit_and_lem",
    "bit-or": "bit_or_lem",
    "breaks-iff-no-closed-walk-avoids": "breaks_iff_no_closed_walk_avoids_lem",
    "not-live-stages-are-a-plan": "not_live_stages_are_a_plan_lem",
    "reading-accepts-exactly-the-layout": "reading_accepts_exactly_the_layout_lem",
    "getD-zeros": "get_or_zeros",
    # names bound in a proof, not declared
    "now-more": "now_more",
    "now-prices": "now_prices",
    "now-text": "now_text",
    "same-prices": "same_prices",
    # the clause of a contract
    "off-unpaired-loops": "off_unpaired_loops",
}
DECLARED = re.compile(r"^\s*(?:pub\s+|abbrev\s+|unfoldable\s+|data\s+|record\s+)*([^\s:(){}]+)\s*(?:[({].*)?:(?:\s|$)")
ANSWER = re.compile(r": goal\.")
NAME = re.compile(r"(?<![\w'-])(?:[A-Za-z][\w']*(?:-[\w']+)+|[A-Z][a-z]+(?:_[a-z]+)+)(?![\w'-])")
QUOTED = re.compile(r"`[^`]*`")
CLAUSE = re.compile(r"^\s*(?:ghost |requires|ensures|pub ghost )")


def files(root, *endings):
    for folder, dirs, names in os.walk(root):
        dirs[:] = sorted(d for d in dirs if d not in ("out", "target", ".git"))
        for name in sorted(names):
            if name.endswith(endings):
                yield os.path.join(folder, name)


def lines(path):
    with open(path, encoding="utf-8") as f:
        return f.read().splitlines(keepends=True)


def respelled(name):
    if name[0].isupper():
        return "".join(part[:1].upper() + part[1:] for part in re.split("[-_]", name))
    return name.replace("-", "_")


def declared(root):
    for path in files(os.path.join(root, "crates"), ".antt"):
        for line in lines(path):
            found = DECLARED.match(line)
            if found and NAME.fullmatch(found[1]) and not line.lstrip().startswith("--") and not ANSWER.search(line):
                yield found[1]


def turn(path, table):
    def named(text):
        return NAME.sub(lambda m: table.get(m[0], m[0]), text)

    def quoted(text):
        return QUOTED.sub(lambda m: named(m[0]), text)

    out = []
    for line in lines(path):
        if path.endswith(".md"):
            out.append(quoted(line))
        elif path.endswith(".antt"):
            code, dash, prose = line.partition("-- ")
            out.append(named(code) + dash + quoted(prose))
        else:
            out.append(named(line) if CLAUSE.match(line) else line)
    return "".join(out)


def main():
    root = sys.argv[1] if len(sys.argv) > 1 else os.path.join(os.path.dirname(os.path.realpath(__file__)), "..")
    table = {name: respelled(name) for name in declared(root)} | OWN
    together = {new for new in table.values() if list(table.values()).count(new) > 1}
    if together:
        raise SystemExit(f"respell: names fall together: {sorted(together)}")
    turned = 0
    pages = [p for p in files(root, ".md") if os.path.relpath(p, root) not in ("docs/PORT.md",)]
    for path in [*files(os.path.join(root, "crates"), ".antt", ".rt"), *pages]:
        new = turn(path, table)
        if new != "".join(lines(path)):
            turned += 1
            with open(path, "w", encoding="utf-8") as f:
                f.write(new)
    print(f"respell: {len(table)} names, {turned} files turned")


main()
