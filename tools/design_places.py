#!/usr/bin/env python3
"""Lists the places of older forms in crates/*/src (and specs/, proofs/ for point 8), point by point.

    python3 tools/design_places.py [-c] [FOLDER]     FOLDER: a checkout, by default this one; -c: counts alone

It goes by text, so each line it prints is a candidate that somebody has to read; docs/DESIGN-PASS.md says what
was made of them. A line that is kept with a reason has a comment `// Form:` at most six lines above it, or on the
item that it stands in; such lines are marked `kept`."""
import collections
import pathlib
import re
import sys

LINE_RULES = [
    ("1 enum with a case for nothing or for a refusal", r"^\s*(None|Nothing|Empty|Held|Missing|Failed|Refused),$"),
    ("1 flag that says whether the value beside it counts", r"^\s*(pub(\(crate\))? )?\w+: bool,"),
    ("1 bool for refused or misread", r"(-> (anyhow::)?(Result<)?bool\b.*|false (if|at) .*)"),
    ("1 number for a kind or a refusal", r"^\s*(pub )?fn (saving|loading|number|fault_of|waiting_identifier|digit)\b.*-> \(?u(8|16)"),
    ("1 misread as an accepted value", r"Result<Option<\w+>>"),
    ("1 a match that a method of Option or Result says", r"^\s*(Some\(\w+\) => (Some|Ok)\(.*|None => (None|Err\(.*|0|true|false|\w+),|Err\(_\) => .*|Ok\(\(\)\) => .*)$"),
    ("1 Option made by if and else", r"^\s*(Some\(.*\)|None)$"),
    ("3 index counted by hand", r"(for \w+ in \(?\d*\w*\.\.|for \(\w+, \w+\) in .*enumerate|\b(start|i|k|place|number|at) \+= )"),
    ("3 loop over a rest that is cut by hand", r"^\s*(loop \{|while .*)"),
    ("4 number of a case by a match", r"^\s*(\w+::)\w+ => \d+,$"),
    ("4 text of a case by a match", r"^\s*(\w+::)\w+ => b?\".*\",$"),
    ("4 conversion or equality by a function", r"^\s*(pub )?(const )?fn (from_\w+|same|why|layer_name|word|long|two_bytes|four_bytes)\b"),
    ("4 cast that an into says", r"\bas (u|i)(16|32|64|size)\b"),
    ("6 array or list with a length or places beside it", r"(: \[\w+; \w+\],$|\[0(u8)?; ?\w+\]|Vec<Record>)"),
    ("7 flag or enum that picks a step", r"(\b\w+: bool, |Column::\w+|column: Column)"),
]
LINE_RULES = [(kind, re.compile(rule)) for kind, rule in LINE_RULES]


def sources(root):
    return sorted(p for p in root.glob("crates/*/src/**/*.rt"))


def functions(lines):
    """(first line, header, clauses, body) of each function."""
    k = 0
    while k < len(lines):
        if re.match(r"\s*(pub(\(crate\))? )?(const )?fn \w+", lines[k]):
            first, text = k, []
            depth, begun = 0, False
            while k < len(lines):
                line = lines[k]
                text.append(line)
                if re.match(r"\s*(requires|ensures)", line) or begun or line.strip() in ("{", "}") or line.rstrip().endswith("{"):
                    if not re.match(r"\s*(requires|ensures)", line):
                        depth += line.count("{") - line.count("}")
                        begun = begun or depth > 0
                if (begun and depth <= 0) or (not begun and line.rstrip().endswith(";")):
                    break
                k += 1
            yield first, text
        k += 1


def shape(text):
    """The function without its names, types and constants."""
    body = " ".join(line for line in text if not re.match(r"\s*(requires|ensures|//)", line))
    keep = r"\b(if|else|match|for|in|while|let|return|mut|loop|fn|self|Some|None|Ok|Err)\b|[^\w\s]"
    return "".join(m.group(0) for m in re.finditer(keep, body))


def main():
    args = [a for a in sys.argv[1:] if a != "-c"]
    counts_only = "-c" in sys.argv
    root = pathlib.Path(args[0] if args else pathlib.Path(__file__).resolve().parent.parent)
    found = collections.OrderedDict((kind, []) for kind, _ in LINE_RULES)
    shapes, bodies = collections.defaultdict(list), collections.defaultdict(list)
    clauses, pairs, constants = (collections.defaultdict(list) for _ in range(3))
    for path in sources(root):
        name = str(path.relative_to(root / "crates")).replace("/src/", "/")
        lines = path.read_text().splitlines()
        for k, line in enumerate(lines):
            for kind, rule in LINE_RULES:
                if rule.search(line) and not line.lstrip().startswith(("//", "ghost", "ensures", "requires")):
                    kept = any("// Form:" in above for above in lines[max(0, k - 6):k + 1])
                    found[kind].append((name, k + 1, ("kept " if kept else "") + line.strip()))
            constant = re.match(r"\s*(pub(\(crate\))? )?const \w+: [^=]+ = (.+);", line)
            if constant:
                constants[constant.group(3)].append((name, k + 1, line.strip()))
        for first, text in functions(lines):
            where = (name, first + 1, text[0].strip())
            key = shape(text)
            if len(key) > 24:
                shapes[key].append(where)
            header = " ".join(text).split("{")[0]
            names = re.findall(r"(\w+): (?!&impl|&HostRuntime)", header)
            for a, b in {(a, b) for i, a in enumerate(names) for b in names[i + 1:]}:
                pairs[(a, b)].append(where)
            for clause in {m.group(2) for line in text for m in [re.match(r"\s*(requires|ensures \w+|ensures) \{ (.*) \}", line)] if m}:
                for part in clause.split(" × "):
                    part = re.sub(r"\b(self|\w+)\.(now|old|new|entry)\b", "_", part).strip("() ")
                    if re.search(r"[≤<]|OrNone|≡ true|ghost_name", part):
                        clauses[part].append(where)
    for key, where in shapes.items():
        if len(where) > 1:
            found.setdefault("2 functions of one shape", []).extend(where)
    for value, where in constants.items():
        if len(where) > 1:
            found.setdefault("2 one constant in two places", []).extend(where)
    for fact, where in clauses.items():
        if len(where) > 2:
            found.setdefault("5 fact in three or more contracts: " + fact, []).extend(where)
    for pair, where in pairs.items():
        if len(where) > 2:
            found.setdefault("5 parameters of three or more functions: %s, %s" % pair, []).extend(where)
    for kind in sorted(found):
        kept = sum(1 for _, _, text in found[kind] if text.startswith("kept "))
        print("%4d (%d kept)  %s" % (len(found[kind]), kept, kind))
        for name, line, text in [] if counts_only else found[kind]:
            print("      %s:%d: %s" % (name, line, text))
    answers = [p for p in root.glob("crates/*/proofs/**/Answers.antt")]
    lemmas = [p for p in root.glob("crates/*/proofs/*.antt")]
    print("%4d  8 answer files, %d lines; %d lemma files, %d lines" % (
        len(answers), sum(len(p.read_text().splitlines()) for p in answers),
        len(lemmas), sum(len(p.read_text().splitlines()) for p in lemmas)))


main()
