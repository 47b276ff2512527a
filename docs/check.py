#!/usr/bin/env python3
"""Whether the documents lead somewhere: run it from anywhere, no argument; it says what is wrong and ends with 1, or ends with 0.

- Every claim (a declaration `abbrev pub Name : Type 0` in a file specs/Claims.antt, or one that docs/CLAIMS.md names) has a proof:
  a declaration `name-in-parts : Name` in a folder proofs/ or in a file of laws in specs/.
- Every file, function and must-fail edit that docs/CLAIMS.md names is there.
- Every must-fail edit finds each text that it replaces, exactly once: what the gate says of it only after the proofs.
- The README's map has the crates of crates.txt, each once.
"""
import glob
import itertools
import os
import re
import sys

ROOT = os.path.join(os.path.dirname(os.path.abspath(__file__)), "..")
wrong = []


def text(path):
    with open(os.path.join(ROOT, path), encoding="utf-8") as f:
        return f.read()


def files(pattern):
    return sorted(os.path.relpath(p, ROOT) for p in glob.glob(os.path.join(ROOT, pattern), recursive=True))


def in_parts(name):
    return re.sub(r"(?<!^)(?=[A-Z])", "-", name).lower()


def claims_and_proofs():
    stated, proved = {}, set()
    for path in files("crates/*/specs/**/*.antt"):
        for name in re.findall(r"(?m)^abbrev pub ([A-Z]\w*) : Type 0$", text(path)):
            stated.setdefault(name, []).append(path)
    for path in files("crates/*/proofs/**/*.antt") + files("crates/*/specs/**/*.antt"):
        for name, claim in re.findall(r"(?m)^(?:unfoldable |abbrev )?(?:pub )?([\w-]+) : ([A-Z]\w*)$", text(path)):
            proved.add((name, claim))
    return stated, proved


def expanded(path):
    """a/{B,C}.antt -> a/B.antt, a/C.antt"""
    parts = [p.split(",") if i % 2 else [p] for i, p in enumerate(re.split(r"\{([^}]*)\}", path))]
    return ["".join(p).strip() for p in itertools.product(*parts)]


def edits_that_miss():
    for path in files("crates/*/must-fail/*.edit"):
        crate, place, old, texts = path.split(os.sep)[1], None, None, {}
        for line in text(path).splitlines():
            if line.startswith("file: "):
                place = "crates/%s/%s" % (crate, line[6:])
            elif line.startswith("old: "):
                old = line[5:]
            elif line.startswith("new:"):
                before = texts.get(place) or text(place)
                if before.count(old) != 1:
                    yield "%s: its old text stands %d times in %s" % (path, before.count(old), place)
                texts[place] = before.replace(old, line[4:].removeprefix(" "))


def main():
    claims = text("docs/CLAIMS.md")
    named = set(re.findall(r"`([^`\n]+)`", claims))
    stated, proved = claims_and_proofs()
    for name, paths in stated.items():
        is_claim = any(os.path.basename(p) == "Claims.antt" for p in paths) or name in named
        if is_claim and (in_parts(name), name) not in proved:
            wrong.append("%s: %s has no proof %s" % (paths[0], name, in_parts(name)))
    sources = {}
    for path in files("crates/*/src/**/*.rt"):
        sources.setdefault(path.split(os.sep)[1], []).append(text(path))
    for word in sorted(named):
        edit = re.fullmatch(r"([a-z_]+): ([a-z0-9_]+)", word)
        call = re.fullmatch(r"([a-z_]+)::(?:[a-z_]+::)*([a-z_0-9]+)", word)
        if edit and not os.path.exists(os.path.join(ROOT, "crates", edit[1], "must-fail", edit[2] + ".edit")):
            wrong.append("docs/CLAIMS.md: there is no edit %s" % word)
        elif call and not any(re.search(r"\b(?:fn|mod) %s\b" % call[2], s) for s in sources.get(call[1], [])):
            wrong.append("docs/CLAIMS.md: there is no %s" % word)
        elif re.fullmatch(r"[\w]+/(specs|proofs)/\S+\.antt", word):
            for path in expanded(word):
                if not os.path.exists(os.path.join(ROOT, "crates", path)):
                    wrong.append("docs/CLAIMS.md: there is no file crates/%s" % path)
    wrong.extend(edits_that_miss())
    crates = re.findall(r"(?m)^(\w+)(?: staticlib)?:", text("crates.txt"))
    mapped = re.findall(r"(?m)^\| `(\w+)` \|", text("README.md").split("## The crates")[1])
    wrong.extend("README.md: crate %s is not in the map" % c for c in crates if c not in mapped)
    wrong.extend("README.md: crate %s is in the map and not in crates.txt" % c for c in mapped if c not in crates)
    wrong.extend("README.md: crate %s is in the map twice" % c for c in set(mapped) if mapped.count(c) > 1)
    print("\n".join(wrong) or "%d claims of %d types have their proofs; files, functions, edits and crates are there" % (
        sum(1 for n, c in proved if c in stated), len(stated)))
    return 1 if wrong else 0


if __name__ == "__main__":
    sys.exit(main())
