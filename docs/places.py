#!/usr/bin/env python3
"""Counts, in the sources under crates/*/src, the places that docs/DESIGN-PASS.md speaks of.

    docs/places.py [-v] [ROOT]

Each place is a line of the code; -v prints them. What a pattern can't tell, whether a place needs another form, that page says.
"""
import re
import sys
from collections import defaultdict
from pathlib import Path

PARAMETERS = 5
CONTRACTS = 3


def items(path):
    """The functions of a file: line, name, parameters, result, clauses."""
    text = path.read_text()
    for found in re.finditer(r"\bfn (\w+)", text):
        at = text.find("(", found.end())
        depth, end = 0, at
        for end in range(at, len(text)):
            depth += (text[end] in "([{") - (text[end] in ")]}")
            if depth == 0:
                break
        inner, depth, parts = text[at + 1 : end], 0, [""]
        for c in inner:
            depth += (c in "([{<") - (c in ")]}>")
            if c == "," and depth == 0:
                parts.append("")
            else:
                parts[-1] += c
        parts = [part for part in (" ".join(part.split()) for part in parts) if part]
        head = re.split(r"\n\{|\n    \{\n|\n        \{\n", text[end + 1 :], maxsplit=1)[0]
        result = re.match(r"\s*->\s*([^\n{]+)", head)
        yield text.count("\n", 0, found.start()) + 1, found[1], parts, result[1].strip() if result else "", head


def main():
    words = [word for word in sys.argv[1:] if word != "-v"]
    root = Path(words[0]) if words else Path(__file__).parent.parent
    places, clauses, travelling = defaultdict(list), defaultdict(list), defaultdict(list)
    for path in sorted(root.glob("crates/*/src/**/*.rt")):
        where = str(path.relative_to(root))
        lines = path.read_text().splitlines()
        for number, line in enumerate(lines, 1):
            code = line.split("//")[0]
            spot = f"{where}:{number}: {line.strip()}"
            for point, pattern in (
                ("1 enums of the repository", r"^\s*(pub )?enum \w+"),
                ("1 flags in structs and parameters", r"^\s*(pub )?\w+: bool,"),
                ("1 numbers for kinds (byte constants)", r"^\s*(pub )?const \w+: u8 = "),
                ("1 numbers for kinds (tests of a byte against a constant)", r"(==|!=) (\w+::)?[A-Z][A-Z_0-9]+\b"),
                ("3 while loops", r"^\s*while "),
                ("3 loops over a range of indices", r"^\s*for \w+ in .*\.\."),
                ("6 lengths beside a buffer", r"^\s*(pub )?(len|out|err|num|cnt|taken|forward|filled): usize,"),
                ("6 flat tables with their lengths beside", r"^\s*(pub )?const \w*LENGTHS\b"),
                ("7 switches on which step to run", r"^\s*match (want|kind|step|walk)\b"),
            ):
                if re.search(pattern, code):
                    places[point].append(spot)
        for number, name, parameters, result, head in items(path):
            spot = f"{where}:{number}: fn {name}"
            if result in ("u8", "usize") and re.search(r"refus|status|place|idle|due|empty|free", name + head):
                places["1 results as a number (status or sentinel)"].append(f"{spot} -> {result}")
            if re.match(r"(with|same|copy|clear|write|read|get|put)_\w+$|\w+_(of|bytes|word)$|wide$|signed_of$|twos_complement$", name):
                places["4 conversions, copies and setters by name"].append(spot)
            if len(parameters) >= PARAMETERS:
                places[f"5 functions of {PARAMETERS} parameters or more"].append(f"{spot}: {len(parameters)}")
            for clause in re.findall(r"(?:requires|ensures)\*?\s*\w*\s*\{\s*(.*?)\s*\}\s*(?=requires|ensures|$)", head, re.S):
                clauses[" ".join(clause.split())].append(spot)
            if len(parameters) >= 2:
                travelling[tuple(parameter.split(":")[0].strip() for parameter in parameters[:2])].append(spot)
    for clause, spots in clauses.items():
        if len(spots) >= CONTRACTS:
            places[f"5 clauses word for word in {CONTRACTS} contracts or more"].append(f"{len(spots)} times: {clause}")
    for pair, spots in travelling.items():
        if len(spots) >= 2 * CONTRACTS:
            places["5 first two parameters of one name in six functions or more"].append(f"{len(spots)} times: {', '.join(pair)}")
    proofs = [path for path in root.glob("crates/*/proofs/**/*.antt")]
    print(f"{len([p for p in proofs if p.name == 'Answers.antt']):5}  8 files of answers")
    print(f"{len([p for p in proofs if p.name == 'Invariants.antt']):5}  8 files of invariants")
    print(f"{sum(p.read_text().count(chr(10)) for p in proofs):5}  8 lines of proofs")
    for point in sorted(places):
        print(f"{len(places[point]):5}  {point}")
        if "-v" in sys.argv:
            print("\n".join("         " + spot for spot in places[point]))


main()
