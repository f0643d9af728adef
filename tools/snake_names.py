#!/usr/bin/env python3
"""Respells this repository's own definitions, record fields, constructors and lemmas: usage: snake_names.py [--dry] (at the top).

Words go into snake case (`frontOf` to `front_of`, `bytes-at` to `bytes_at`), types into camel case (`Reads-back` to `ReadsBack`).
Names that Rattle makes (goals, invariants, steps) and names of src/ stay. Only antt files and the clauses of .rt files are written.
OTHER gives another name where the plain spelling would fall together with a name that is there already.
"""

import os
import re
import sys

# name -> spelling, where the plain one is taken
OTHER = {
    "data-by": "data_by_lem",
    "data-bytes": "data_bytes_lem",
    "data-size": "data_size_lem",
    "entry-at": "entry_at_lem",
    "feed-by": "feed_by_lem",
    "first-is-byte": "first_is_byte_lem",
    "is-front-by": "is_front_by_lem",
    "moment-frames": "moment_frames_lem",
    "packets-by": "packets_by_lem",
    "size_fits": "size_fits_lem",
    "tick-by": "tick_by_lem",
    "valid-flags": "valid_flags_lem",
    "valid-profile": "valid_profile_lem",
    "wake-up": "wake_up_lem",
}

STOP = r"\s(){}\[\].,;:λ@\"|«»!&#/"
NAME = re.compile(rf"[^{STOP}]+")
MANY = re.compile(r"^\s*(?:pub |abbrev |unfoldable )*(?:data |record |ruleset )?((?:[^\s(){}:;.,λ→=]+ )*[^\s(){}:;.,λ→=]+)(?:\s*[({][^)}]*[)}])*\s*:(?:\s|$)")
TOP = re.compile(r"^((?:pub |abbrev |unfoldable |private )*)(data |record |ruleset )?([^\s(){}:;.,λ]+)(.*)$")
MADE = re.compile(r":\s*(?:goal|given|Goals|Given)\.|:\s*\S*Goals\.")
WORDS = {"use", "pub", "mod", "open", "infix", "infixl", "infixr", "deriving", "unfolding", "import", "module", "where"}


def files():
    for folder, dirs, names in os.walk("crates"):
        dirs[:] = sorted(d for d in dirs if d not in ("out", "target"))
        for n in sorted(names):
            if n.endswith((".antt", ".rt")):
                yield os.path.join(folder, n)


COMMENT = re.compile(r"(?:^|(?<=\s))--(?=\s|$|-).*$")


def code(line):
    """The line without its comment."""
    return COMMENT.sub("", line)


def declared(path):
    """The names that an antt file declares."""
    found, block = set(), None
    for line in open(path, encoding="utf-8"):
        line = code(line.rstrip("\n"))
        if not line.strip():
            continue
        # what a module with parameters holds, and several names with one type
        many = MANY.match(line)
        if many and not MADE.search(line):
            found |= {n for n in many[1].split() if "-" in n or re.search("[a-z][A-Z]", n)} - WORDS
        if not line.startswith(" "):
            m = TOP.match(line)
            block = None
            if not m or m[3] in WORDS or line.startswith("--"):
                continue
            head = (m[1] + (m[2] or "")).split()
            block = "data" if "data" in head else "record" if "record" in head else None
            if re.search(r"(?:^|[\s)}])[:=](?:\s|$)", m[4]) or block:
                if re.match(r"(?:\s*[({][^)}]*[)}])*\s*:", m[4]) or block or m[2]:
                    if not MADE.search(line):
                        found.add(m[3])
        elif block == "record":
            m = re.match(r"^\s+(?:pub )?([^\s(){}:;.,λ]+)\s*:", line)
            if m:
                found.add(m[1])
        elif block == "data":
            m = re.match(r"^  ([^\s(){}:;.,λ→]+)\s*:", line)
            if m:
                found.add(m[1])
    return found


def spelling(name):
    if name in OTHER:
        return OTHER[name]
    if re.match(r"[A-Z]", name):
        return "".join(p[:1].upper() + p[1:] for p in name.split("-"))
    s = name.replace("-", "_")
    s = re.sub(r"(?<=[a-z0-9])([A-Z])", lambda m: "_" + m[1].lower(), s)
    return s


def clauses(text):
    """The parts of a .rt file that are antt: ghost lines and clauses, as spans."""
    spans = []
    for m in re.finditer(r"\bghost use [^;]*;", text):
        spans.append(m.span())
    for m in re.finditer(r"\b(?:requires|ensures|ghost|invariant|decreases)\*?(?: [\w']+)*:?[^{};\n]*\{", text):
        i, deep = m.end(), 1
        while deep:
            deep += (text[i] == "{") - (text[i] == "}")
            i += 1
        spans.append((m.end(), i))
    for m in re.finditer(r"#!?\[tactic\(.*?\)\]", text, re.S):
        spans.append(m.span())
    spans.sort()
    merged = []
    for a, b in spans:
        if merged and a < merged[-1][1]:
            merged[-1] = (merged[-1][0], max(b, merged[-1][1]))
        else:
            merged.append((a, b))
    return merged


def main():
    dry = "--dry" in sys.argv
    names, tokens = set(), {}
    for p in files():
        text = open(p, encoding="utf-8").read()
        if p.endswith(".antt"):
            names |= declared(p)
            for line in text.split("\n"):
                for t in NAME.findall(code(line)):
                    tokens.setdefault(t, set()).add(p)
        else:
            for a, b in clauses(text):
                for t in NAME.findall(text[a:b]):
                    tokens.setdefault(t, set()).add(p)
    names = {n for n in names if re.fullmatch(r"[A-Za-z][A-Za-z0-9_'-]*", n)}
    if "sizeFits" not in names:
        names.discard("size_fits")  # a second run: the lemma has its other name already
    turn = {n: spelling(n) for n in names if spelling(n) != n}
    back = {}
    for n, s in sorted(turn.items()):
        back.setdefault(s, []).append(n)
    bad = 0
    for s, ns in sorted(back.items()):
        if len(ns) > 1 or s in tokens:
            bad += 1
            print("same name:", s, ns, sorted(tokens.get(s, ()))[:4], "old in", [sorted(tokens[n])[:2] for n in ns])
    print(f"{len(turn)} names, {bad} that were there already in another place (a function of src/, a path, a field)")
    if dry:
        for n, s in sorted(turn.items()):
            print(n, s)
        return 0

    def turned(text):
        out = []
        for line in text.split("\n"):
            head = code(line)
            out.append(NAME.sub(lambda m: turn.get(m[0], m[0]), head) + line[len(head):])
        return "\n".join(out)

    for p in files():
        text = open(p, encoding="utf-8").read()
        if p.endswith(".antt"):
            out = turned(text)
        else:
            out, at = "", 0
            for a, b in clauses(text):
                out += text[at:a] + turned(text[a:b])
                at = b
            out += text[at:]
        if out != text:
            open(p, "w", encoding="utf-8").write(out)
    return 0


if __name__ == "__main__":
    raise SystemExit(main())
