#!/usr/bin/env python3
"""design.py [POINT]: counts the places in src/ that docs/DESIGN-PASS.md speaks of, point by point; with a point, lists them."""
import glob
import re
import sys

NONE = r"None|Refused|Stray|NoEnding|Unclosed|Skipped|Fault"
REFUSALS = (
    r"\b(VALUE_TOO_LONG|VALUE_MISFIT|TOO_MANY_ENTRIES|TABLE_[A-Z_]+|TOO_MANY_STATES|IMAGE_[A-Z_]+|NO_ENTRY|TOO_MANY_VALUES|"
    r"NOT_COUNTED|BAD_TREE|FORM_NO_ROOM|UNKNOWN_[A-Z]+|SHARED_CATEGORY|BAD_LOG|SAMPLE_NO_ROOM|BAD_CLASSES|BAD_RECORD)\b"
)


def sources():
    for name in sorted(glob.glob("crates/*/src/**/*.rt", recursive=True)):
        with open(name, encoding="utf-8") as f:
            yield name, f.read()


def lines(pattern, skip=None):
    for name, text in sources():
        for number, line in enumerate(text.split("\n"), 1):
            code = line.split("//")[0]
            if skip and re.search(skip, name + ":" + code):
                continue
            if re.search(pattern, code):
                yield f"{name}:{number}: {line.strip()}"


def blocks(head):
    """What stands between the braces after each head."""
    for name, text in sources():
        for m in re.finditer(head, text):
            start = text.index("{", m.end() - 1)
            depth, end = 1, start + 1
            while depth:
                depth += {"{": 1, "}": -1}.get(text[end], 0)
                end += 1
            yield name, text.count("\n", 0, m.start()) + 1, m, text[start + 1 : end - 1]


def parts(text):
    """What commas part, outside of brackets."""
    depth, part, found = 0, "", []
    for c in text.replace("->", "  "):
        depth += 1 if c in "([{<" else -1 if c in ")]}>" else 0
        if c == "," and depth == 0:
            found.append(part.strip())
            part = ""
        else:
            part += c
    return [p for p in found + [part.strip()] if p]


def functions():
    for name, text in sources():
        for m in re.finditer(r"\bfn (\w+)(<[^{(]*>)?\(", text):
            depth, end = 1, m.end()
            while depth:
                depth += {"(": 1, ")": -1}.get(text[end], 0)
                end += 1
            yield name, text.count("\n", 0, m.start()) + 1, m.group(1), parts(text[m.end() : end - 1]), text, end


def code_of(text, end):
    """A function's body: the first block after its parameters that is not a clause."""
    at = end
    while True:
        at = re.compile(r"[{;]").search(text, at).start()
        if text[at] == ";":
            return ""
        depth, stop = 1, at + 1
        while depth:
            depth += {"{": 1, "}": -1}.get(text[stop], 0)
            stop += 1
        head = text[text.rfind("\n", 0, at) + 1 : at]
        if not re.search(r"\b(ensures|requires|ghost)\b", head):
            return text[at + 1 : stop - 1]
        at = stop


def flags():
    """A field of a struct that says whether the others mean something, or with which number they are refused."""
    for name, line, m, body in blocks(r"\bstruct (\w+)[^;{(]*\{"):
        fields = dict(p.split(":", 1) for p in parts(re.sub(r"//.*|pub(\(crate\))? ", "", body)) if ":" in p)
        for field, kind in fields.items():
            if len(fields) > 1 and (
                kind.strip() == "bool" and re.match(r"ok|fits|found|enough|walks|last|ends|new|accepted|more|failed|begun", field)
                or kind.strip() == "u8" and field in ("refusal", "fault")
            ):
                yield f"{name}:{line}: struct {m.group(1)}: {field}: {kind.strip()}"


def own_options():
    for name, line, m, body in blocks(r"\benum (\w+)[^;{(]*\{"):
        if re.search(rf"\b({NONE})\b", re.sub(r"//.*", "", body)):
            yield f"{name}:{line}: enum {m.group(1)}"


def twins():
    """Functions of one shape: the same tokens but for names and numbers, of 18 tokens or more."""
    shapes = {}
    for name, line, function, ps, text, end in functions():
        tokens = re.findall(r"\w+|[^\w\s]", re.sub(r"//.*|(\w+::)+(?=[a-z])", "", code_of(text, end)))
        if len(tokens) < 18:
            continue
        names, shape = {}, []
        for t in tokens:
            if re.match(r"(if|else|while|loop|for|in|return|let|mut|match|true|false|break|continue|as)$|\W", t):
                shape.append(t)
            else:
                shape.append(names.setdefault(t, len(names)))
        shapes.setdefault(tuple(shape), []).append(f"{name}:{line}: {function}")
    for group in shapes.values():
        if len(group) > 1:
            yield " = ".join(group)


def long_lists():
    for name, line, function, ps, text, end in functions():
        if len(ps) > 7:
            yield f"{name}:{line}: {function}: {len(ps)} parameters"


def pairs():
    """Parameters that are arrays side by side."""
    for name, line, function, ps, text, end in functions():
        arrays = [p for p in ps if re.search(r"&\s*('\w+ )?(mut )?\[", p) and ";" in p]
        if len(arrays) > 1:
            yield f"{name}:{line}: {function}: {len(arrays)} arrays"


def answers():
    for name in sorted(glob.glob("crates/*/proofs/**/Answers.antt", recursive=True)):
        with open(name, encoding="utf-8") as f:
            for m in re.finditer(r"^pub (\S+) : goal\.", f.read(), re.M):
                yield f"{name}: {m.group(1)}"


POINTS = {
    "1a own enums of the shape of Option or Result": own_options,
    "1b flags and refusal numbers beside values in structs": flags,
    "1c lines that name a refusal by its number's constant": lambda: lines(REFUSALS, r"base_numbers|: *(pub )?use |^[^:]*: +[A-Z_, ]+$"),
    "1d numbers that stand for none": lambda: lines(r"^\s*(return )?(MOST|OVER)_[A-Z]+;?$"),
    "2 groups of functions of one shape": twins,
    "3 loops that count by hand": lambda: lines(r"^\s*('\w+: )?(while|loop)\b"),
    "4a own conversions, minima, maxima, choices": lambda: lines(
        r"\b(at_most|wide|wider|in_range|larger|pick|pick_bool|flag|whole_at|lent::\w+|same)\(", r"text|compare"
    ),
    "4b casts": lambda: lines(r"\bas (u8|u16|u32|u64|usize)\b"),
    "5 functions with eight parameters or more": long_lists,
    "6 functions with arrays side by side": pairs,
    "7 function pointers and dyn": lambda: lines(r"\bdyn\b|: fn\("),
    "8 answers in proofs/": answers,
}

if __name__ == "__main__":
    for title, places in POINTS.items():
        if len(sys.argv) == 1:
            print(f"{len(list(places())):5}  {title}")
        elif title.split()[0].startswith(sys.argv[1]):
            print(title)
            for place in places():
                print("  " + place)
