#!/usr/bin/env python3
"""Writes docs/PLANTED.md from what `rt must-fail` printed: each planted bug, and the goal at which the prover refused it.
A bug that is in none of the logs keeps its line, and one that has neither is named on standard error.

Usage: tools/planted_page.py LOG..
"""
import os
import re
import sys

TOP = os.path.join(os.path.dirname(os.path.abspath(__file__)), "..")
LINE = re.compile(r"must-fail (\w+)/(\w+)\.edit: refused, as it must be: (.*)")
PROOF = re.compile(r"\./proofs/([\w/+]+?)(?:/Answers|/Invariants)?\.antt:\d+:\d+: (?:error: )?`?([\w-]+)?")
SOURCE = re.compile(r"(src/[\w/]+\.rt):(\d+):\d+: (.*)")
GOAL = re.compile(r"\(`([\w-]+)`\)")


def function_at(crate, path, line):
    """The function that a line of a source file begins or belongs to."""
    with open(os.path.join(TOP, "crates", crate, path)) as source:
        lines = source.read().split("\n")
    at = int(line) - 1
    begins = re.match(r"\s*(#\[|//|pub|fn )", lines[at] if at < len(lines) else "")
    for text in lines[at:] if begins else reversed(lines[: at + 1]):
        found = re.search(r"\bfn (\w+)", text)
        if found:
            return found.group(1)
    return path


def place(crate, why):
    """The function or proof, and the goal, at which a bug was refused."""
    source = SOURCE.search(why)
    if source:
        goal = GOAL.search(source.group(3))
        return f"`{function_at(crate, source.group(1), source.group(2))}`", goal.group(1) if goal else ""
    proof = PROOF.search(why)
    if proof:
        return f"`{proof.group(1).split('/')[-1]}`", proof.group(2) or ""
    spec = re.search(r"\./specs/([\w/]+)\.antt", why)
    return (f"`{spec.group(1)}`" if spec else ""), ""


def file_of(folder, crate, label):
    """The file that a bug is planted in, and whether it is planted in others alike."""
    with open(os.path.join(TOP, folder.format(crate), label + ".edit")) as edit:
        files = [line.split(":", 1)[1].strip() for line in edit if line.startswith("file:")]
    return f"`{files[0]}`" + (" and alike" if len(set(files)) > 1 else "")


def bugs():
    """The planted bugs by crate: label, file and who tries it."""
    for crate in sorted(os.listdir(os.path.join(TOP, "crates"))):
        for folder, tried in (("crates/{}/must-fail", "the gate"), ("planted/{}", "planted")):
            path = os.path.join(TOP, folder.format(crate))
            for edit in sorted(os.listdir(path) if os.path.isdir(path) else []):
                label = edit.removesuffix(".edit")
                yield crate, label, file_of(folder, crate, label), tried


def page_lines(path):
    """The lines in front of the first crate, and each crate's lines by the bug."""
    with open(path) as page:
        top, *sections = page.read().split("\n## ")
    kept = {}
    for section in sections:
        crate, *lines = section.split("\n")
        for line in lines:
            cells = line.split(" | ")
            if len(cells) == 5 and not line.startswith("| Bug"):
                kept[crate, cells[0].removeprefix("| ")] = cells[3:]
    return top.rstrip("\n"), kept


def main():
    found_at = {}
    for log in sys.argv[1:]:
        with open(log) as text:
            for line in text:
                found = LINE.search(line)
                if found:
                    found_at[found.group(1), found.group(2)] = place(found.group(1), found.group(3))
    path = os.path.join(TOP, "docs", "PLANTED.md")
    top, kept = page_lines(path)
    rows = {}
    for crate, label, file, tried in bugs():
        name = label.replace("_", " ")
        where, goal = found_at.get((crate, label)) or (cell.removesuffix(" |") for cell in kept.get((crate, name), ("", "")))
        if not where:
            print(f"planted_page: nothing is known of {crate}/{label}", file=sys.stderr)
        rows.setdefault(crate, []).append(f"| {name} | {file} | {tried} | {where} | {goal} |")
    out = [top]
    for crate, lines in sorted(rows.items()):
        out += ["", f"## {crate}", "", "| Bug | In | Tried by | Refused at | Goal |", "|---|---|---|---|---|", *sorted(lines)]
    with open(path, "w") as page:
        page.write("\n".join(out) + "\n")


main()
