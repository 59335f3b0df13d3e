#!/usr/bin/env python3
"""Brings the repository's own definitions, lemmas, fields and constructors to today's spelling: words in snake case, types
and modules in camel case. Run once, at the top, after /opt/rattle/port/port.py (docs/PORT.md). It changes .antt files
and, in .rt files, only lines that hold clauses or imports for them; functions of src/ keep their names.

usage: tools/rename.py [--list]      --list prints old and new names, and changes nothing
"""
import collections
import os
import re
import sys

ROOT = "crates"
# A token of antt: all that holds no space and no bracket or punctuation. A dot ends one, so a path or a projection is several.
TOKEN = re.compile(r"[^\s(){}\[\];,.:\u03bb\u231c\u231d\u00ab\u00bb\"|`]+")
SIGNATURE = re.compile(r"^\s*(?:pub |abbrev |unfoldable )*([^\s(){}\[\];,.:\u03bb\"|]+)(?:\s+\{[^}]*\})*(?:\s+\([^()]*\))*\s*:(?:\s|$)")
KIND = re.compile(r"^\s*(?:pub |abbrev |unfoldable )*(?:data|record)\s+([^\s(){}:]+)")

# Two names joined: the dash stays (a law of the one about the other). And names that would fall together with another's.
CHOSEN = {
    "length-listed": "length-listed",
    "length-map": "length-map",
    "length-put": "length-put",
    "length-records": "length-records",
    "getD-listed": "get_or-listed",
    "getD-map": "get_or-map",
    "map-listed": "map-listed",
    "value-decimal": "value-decimal",
    "value-digits": "value-digits",
    "records-long": "length-records_bytes",
    "roll-long": "length-roll_bytes",
    "records-at": "records_at_preface",
    "plan-in": "plan_in_row",
    "ends-in": "ends_in_true",
    "numberIs": "result_number",
    "placeIs": "result_place",
    "blocksAre": "result_blocks",
}


def lib_file(path):
    """A file of definitions or lemmas: right in specs/ or proofs/, and so not the proof of one function."""
    return os.path.basename(os.path.dirname(path)) in ("specs", "proofs") and path.endswith(".antt")


def files():
    for folder, dirs, names in os.walk(ROOT):
        dirs[:] = sorted(d for d in dirs if d != "out")
        for n in sorted(names):
            if n.endswith((".antt", ".rt")):
                yield os.path.join(folder, n)


def snake(name):
    if name in CHOSEN:
        return CHOSEN[name]
    if name[0].isupper() and "-" not in name:
        return name
    if "-" not in name and not re.search(r"[a-z0-9][A-Z]", name):
        return name
    name = re.sub(r"([a-z0-9])([A-Z])", r"\1_\2", name)
    return name.replace("-", "_").lower()


def declared():
    found = collections.defaultdict(set)
    for p in files():
        if not lib_file(p):
            continue
        with open(p, encoding="utf-8") as f:
            for line in f:
                if line.lstrip().startswith(("--", "use ", "pub use ", "mod ", "pub mod ")):
                    continue
                m = KIND.match(line) or SIGNATURE.match(line)
                if m:
                    found[m.group(1)].add(p)
    return found


def turn(text, to, rt):
    def one(m):
        return to.get(m.group(0), m.group(0))

    out = []
    for line in text.split("\n"):
        if rt and not re.match(r"\s*(ghost use|requires|ensures|ghost )", line):
            out.append(line)
            continue
        body, dash, comment = (line, "", "") if rt else cut(line)
        words = TOKEN.sub(one, body)
        # In a comment only names between backquotes are names.
        comment = re.sub(r"`[^`]*`", lambda q: TOKEN.sub(one, q.group(0)), comment)
        out.append(words + dash + comment)
    return "\n".join(out)


def cut(line):
    m = re.search(r"(^|\s)--(\s|$)", line)
    return (line[: m.start()], line[m.start() : m.end()], line[m.end() :]) if m else (line, "", "")


def main():
    found = declared()
    to = {n: snake(n) for n in found if snake(n) != n}
    words = collections.defaultdict(set)
    for p in files():
        if lib_file(p):
            with open(p, encoding="utf-8") as f:
                for line in f:
                    for w in TOKEN.findall(cut(line)[0]):
                        words[w].add(p)
    met = collections.defaultdict(set)
    for old, new in to.items():
        met[new].add(old)
        if new in words or new in found:
            met[new].add(new)
    bad = {n: o for n, o in met.items() if len(o) > 1}
    if "--list" in sys.argv:
        for old in sorted(to):
            print(old, "->", to[old])
    for n, o in sorted(bad.items()):
        print("falls together:", n, "<-", {w: sorted(found.get(w, words[w]))[:3] for w in sorted(o)}, file=sys.stderr)
    if bad:
        return 1
    if "--list" in sys.argv:
        return 0
    for p in files():
        with open(p, encoding="utf-8") as f:
            text = f.read()
        new = turn(text, to, p.endswith(".rt"))
        if new != text:
            with open(p, "w", encoding="utf-8") as f:
                f.write(new)
    print(f"rename: {len(to)} names")
    return 0


if __name__ == "__main__":
    sys.exit(main())
