#!/usr/bin/env python3
"""Whether what the documents name is there: run it from anywhere, no argument; it says what is not, and ends with 1, or ends with 0.

It reads what stands between backquotes in README.md, docs/, docs/landings/ and oracle/README.md, but for blocks of code and for docs/PORT.md,
docs/DESIGN-PASS.md and docs/LOOK-BACK.md, which hold names of before:

- a path or a file's name: a file of this repository, at the top or below crates/, a crate, docs/, oracle/ or rust/, but for what is built;
- `crate: edit`: that must-fail edit; `crate::function`: a function, module or type of that crate;
- a word: a crate, a module, or what a file of specs/ or proofs/ declares (definition, lemma, type, field, constructor), what a file of src/
  declares, an edit, a name of the header, of oracle/ or of rust/.

The notes of the landings name some edits and functions by the crate that had them then; there the last part alone has to be there.
"""
import glob
import os
import re
import sys

sys.dont_write_bytecode = True
from check import ROOT, expanded, files, text

# What is none of this repository's: the Rust's, the system's, Rattle's, words of commands and answers, and patterns.
ELSEWHERE = set("""
    src/picman.rs src/enc/mod.rs api/frame.rs picman.rs util.rs def.rs api/mod.rs enc/mod.rs enc/tbl.rs ../shared/docs/src
    picman_move_pic picman_remove_pic_from_pb EVC_ERR EVC_ERR_UNKNOWN EVC_ERR_UNSUPPORTED EvceCtx PRINT_DPB Rc RefCell continue disable_hgop
    read write errno strerror_r memcpy memset stdin stdout REVC_SRC
    f32 i32 u8 u64 foldl ensures requires search static Result TryFrom wrapping_add wrapping_neg arrayvec itoa ArrayVec ArrayString
    fly idr ref gap intra every mixed withdrawn SomeClaim some-claim some_claim NAME/must-fail/X.edit
""".split()) | {"init: done", "put: done", "NAME: X"}

# What the notes of the landings tell of as gone, or by the name or place that it had then.
GONE = set("""
    andThen withBackward PassEnd ForwardOfB is-seven CallNotBadPlan LineNotBadPlan age_after_the_side highest_is_eighteen
    plan_interval_for_length read_from_the_start machine_why_rows_for_registers machine_why_of_the_first_slot
    seq/specs/Reverse.antt seq/specs/Table.antt entry/proofs/Opening.antt
    Passed on_side passes::on_side backward_list passes::backward_list choosing::backward_list poc_derivation answer_for
    answers/specs/Answers.antt is_refusal_number def::is_refusal_number next_answer
""".split())

WORD = r"[A-Za-z_][\w'-]*"


def of_logic(path):
    """What a file of specs/ or proofs/ declares."""
    for line in text(path).splitlines():
        if not line.startswith(("--", "use ", "open ")):
            named = re.match(r"\s{0,4}(?:(?:abbrev|unfoldable|pub) )*([^\s(){};:,.«»`|=]+(?: [^\s(){};:,.«»`|=]+)*?)(?: [({].*?)? :(?: |$)", line)
            yield from named[1].split() if named else []
            yield from re.findall(r"^\s*(?:pub )?(?:data|record|mod) ([^\s(){}:]+)", line)


def of_code(path):
    """What a file of src/ declares, fields, variants, clauses and ghost members too."""
    yield from re.findall(r"\b(?:ensures|requires) (\w+) \{", text(path))
    yield from re.findall(r"(?m)^\s*ghost (\w+)\s*[:=]", text(path))
    yield from re.findall(r"\b(?:fn|struct|enum|const|static|mod|type|trait)\s+(\w+)", text(path))
    yield from re.findall(r"(?m)^\s*(?:pub )?(\w+)\s*[:,(]", text(path))


def names_and_crates():
    names, crates = set(re.findall(r"\b(?:picman|PICMAN)_\w+", text("include/picman.h"))), {}
    for path in files("crates/*"):
        crate = os.path.basename(path)
        crates[crate] = set()
        for code in files(path + "/src/**/*.rt"):
            crates[crate].update(of_code(code))
        for logic in files(path + "/specs/**/*.antt") + files(path + "/proofs/**/*.antt"):
            names.update(of_logic(logic))
        names.update(os.path.splitext(os.path.basename(p))[0] for p in files(path + "/must-fail/*.edit"))
        names.update(os.path.basename(p) for p in files(path + "/data/*"))
        names.update({crate}, crates[crate])
    for path in files("oracle/src/**/*.rs") + files("rust/src/**/*.rs"):
        names.update({os.path.splitext(os.path.basename(path))[0]}, of_code(path))
    return names, crates


def is_file(path):
    places = ("", "crates", "crates/*", "crates/*/specs", "crates/*/proofs", "docs", "oracle", "rust", "rust/*")
    built = re.match(r"target/oracle/|crates/\w+/out/", path)
    return built or all(any(glob.glob(os.path.join(ROOT, place, p)) for place in places) for p in expanded(path))


def is_there(word, names, crates, is_note):
    edit, call = re.fullmatch(r"(\w+): (\w+)", word), re.fullmatch(r"(\w+)::(?:\w+::)*(\w+)", word)
    last = edit[2] if edit else word
    if word in ELSEWHERE or (is_note and last in GONE) or re.fullmatch(r"[0-9a-f]+", word):
        return True
    if "/" in word and " " not in word or re.fullmatch(r"[\w.]+\.(?:antt|rt|rs|c|h|py|md|txt)", word):
        return is_file(word)
    if edit:
        return os.path.exists(os.path.join(ROOT, "crates", edit[1], "must-fail", edit[2] + ".edit")) or (is_note and edit[2] in names)
    if call:
        return call[2] in crates.get(call[1], ()) or (is_note and call[2] in names)
    return not re.fullmatch(WORD, word) or word in names


def main():
    names, crates = names_and_crates()
    wrong, count = [], 0
    pages = [page for page in files("docs/*.md") if not page.endswith(("/PORT.md", "/DESIGN-PASS.md", "/LOOK-BACK.md"))]
    for document in ["README.md", "oracle/README.md"] + pages + files("docs/landings/*.md"):
        prose = re.sub(r"(?ms)^```.*?^```$", "", text(document))
        words = re.findall(r"`([^`\n]+)`", prose)
        count += len(words)
        missing = {w for w in words if not is_there(w, names, crates, document.startswith("docs/landings/"))}
        wrong += ["%s: there is no %s" % (document, w) for w in sorted(missing)]
    print("\n".join(wrong) or "%d names and words between backquotes, and what they name is there" % count)
    return 1 if wrong else 0


if __name__ == "__main__":
    sys.exit(main())
