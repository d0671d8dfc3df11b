#!/usr/bin/env python3
"""Says which must-fail edits cannot be applied to the sources as they stand.

usage: tools/edits.py [CRATE..]      (default: all crates; run at the top of the repository)

For each file crates/*/must-fail/*.edit every `old:` text must stand exactly once in the file named before it, after the
earlier pairs of the same edit have been applied. It also tells of a pair that changes nothing, and of old spelling in an
edit of a .antt file: a name like oldName, a field with a blank before its dot, an operator like _+_. The last line counts
edits and faults; the exit status is 1 if there is a fault.
"""
import glob
import os
import re
import sys

OLD_SPELLING = re.compile(r"(?<![\w'])[a-z]+[A-Z]\w*|(?<=[\w)]) \.[a-z]|(?<![\w'])_[^\s\w]+_|·|\bgetD\b")


def faults(path):
    """Yields what is wrong with the edit at this path."""
    crate = os.path.dirname(os.path.dirname(path))
    file, old, texts, pairs = None, None, {}, 0
    with open(path, encoding="utf-8") as f:
        lines = f.read().split("\n")
    for line in lines:
        kind, _, rest = line.partition(" ")
        if kind == "file:":
            file = rest.strip()
        elif kind == "old:":
            old = rest
        elif kind == "new:":
            pairs += 1
            if file is None or old is None:
                yield "a pair has no file: or no old:"
                return
            if file not in texts:
                try:
                    with open(os.path.join(crate, file), encoding="utf-8") as f:
                        texts[file] = f.read()
                except OSError:
                    yield f"there is no file {file}"
                    return
            if texts[file].count(old) != 1:
                yield f"old: stands {texts[file].count(old)} times in {file}: {old}"
            if old == rest:
                yield f"old: and new: are the same: {old}"
            for text in (old, rest) if file.endswith(".antt") else ():
                bare = re.sub(r'"[^"]*"', '""', text)
                for m in OLD_SPELLING.finditer(bare):
                    yield f"old spelling `{m.group(0).strip()}`: {text}"
            texts[file] = texts[file].replace(old, rest)
            old = None
    if not pairs:
        yield "it has no pair of old: and new:"


def main(names):
    edits = sorted(glob.glob("crates/*/must-fail/*.edit"))
    edits = [e for e in edits if not names or e.split(os.sep)[1] in names]
    count = 0
    for edit in edits:
        for fault in faults(edit):
            print(f"{edit}: {fault}")
            count += 1
    print(f"edits: {len(edits)} edits, {count} faults")
    return 1 if count else 0


sys.exit(main(sys.argv[1:]))
