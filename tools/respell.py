#!/usr/bin/env python3
"""Spells the definitions and lemmas of this repository as today's Rattle spells names: snake case.

usage: tools/respell.py [PATH..]      (default: crates, README.md, docs)

A part of a name that begins with a small letter and goes on with capitals turns: nodeStep to node_step. Types keep
their capitals. Where two names would fall together, the table APART says what the one is called. In .rt and .antt
files every word turns but in quotes; in .md files the words of code spans and code blocks. Functions of src/ and
exported names have no capitals and stay. Run it once, right after port.py.
"""
import os
import re
import sys

WORD = re.compile(r"[^\s(){}.;,@\"«»⌜⌝`|]+")
BIT = re.compile(r'"(?:[^"\\\n]|\\.)*"|' + WORD.pattern)
SPAN = re.compile(r"```.*?```|`[^`\n]+`", re.S)

# A lemma or a field had this spelling already, in these files; the new word of the definition stays free for it.
APART = {
    "all_under": ("all_under_lem", ["tree_forms/proofs/Growing.antt"]),
    "byte_fits": ("byte_fits_lem", ["machine_image/proofs/Statuses.antt", "machine_image/proofs/Read.antt",
                                    "resolve_record/proofs/StateLaws.antt", "machine_check/proofs/CheckRight.antt"]),
    "count_at": ("count_at_lem", ["tally_library/proofs/MonthLaws.antt"]),
    "plain_by": ("plain_by_lem", ["resolve_library/proofs/by/plain/Proof.antt", "resolve_library/proofs/ByTableLaws.antt"]),
    "rest_ok": ("rest_ok_lem", ["sample_library/proofs/TextLaws.antt"]),
    "same_row": ("same_row_lem", ["table_decode/proofs/Accepting.antt"]),
    "shared_of": ("shared_of_lem", ["table_decode/proofs/Decoding.antt", "node_search/proofs/MarkLaws.antt"]),
    "small_of": ("small_of_lem", ["claims_demands/proofs/FirstNumber.antt", "claims_demands/proofs/SmallLaws.antt",
                                  "resolve_small/proofs/Claims.antt", "resolve_small/proofs/FormLaws.antt"]),
    "target_right": ("target_right_lem", ["machine_check/proofs/CheckRight.antt"]),
    "node_at": ("node_at_lem", ["tree_nodes/proofs/ByArrays.antt", "tree_decode/proofs/Composed.antt",
                                "machine_symbols/proofs/NumberRight.antt", "machine_symbols/proofs/StepRight.antt"]),
}
# A lemma that many files cite had this spelling already: it turns wherever it is brought in from this module.
CITED = {"text_in": ("text_in_lem", re.compile(r"TextLaws\.\{[^}]*\btext_in\b(?!_)|^pub text_in :", re.M))}
# A field of the same records is spelled kept_of; a word of the RFC stays.
OTHER = {"keptOf": "kept_answer_of", "absoluteURI": "absoluteURI"}


def part(p):
    if not p[:1].islower() or not re.search(r"[a-z0-9][A-Z]", p):
        return p
    return re.sub(r"([a-z0-9])([A-Z])", lambda m: m.group(1) + "_" + m.group(2).lower(), p)


def word(w):
    if "/" in w or ":" in w:
        return w
    return OTHER.get(w) or "-".join(part(p) for p in w.split("-"))


def turned(text, apart):
    def one(m):
        w = m.group(0)
        return apart[w] if w in apart and text[m.start() - 1:m.start()] != "." else word(w)

    return BIT.sub(lambda m: m.group(0) if m.group(0).startswith('"') else one(m), text)


def files(paths):
    for p in paths:
        if os.path.isfile(p):
            yield p
        for folder, folders, names in os.walk(p):
            folders[:] = sorted(f for f in folders if f != "out")
            yield from (os.path.join(folder, n) for n in sorted(names))


def main(paths):
    changed = 0
    for path in files(paths):
        if not path.endswith((".rt", ".antt", ".md")):
            continue
        with open(path, encoding="utf-8") as f:
            text = f.read()
        if path.endswith(".md"):
            new = SPAN.sub(lambda m: WORD.sub(lambda w: word(w.group(0)), m.group(0)), text)
        else:
            apart = {w: n for w, (n, at) in APART.items() if path.endswith(tuple("/" + a for a in at))}
            apart.update({w: n for w, (n, cites) in CITED.items() if cites.search(text)})
            new = turned(text, apart)
        if new != text:
            with open(path, "w", encoding="utf-8") as f:
                f.write(new)
            changed += 1
    print(f"respell: {changed} files changed")


main(sys.argv[1:] or ["crates", "README.md", "docs"])
