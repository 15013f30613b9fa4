#!/usr/bin/env python3
"""Spells the repository's own definitions, lemmas and fields in snake case, and its facts and types in camel case, by respell.tsv beside this file.

usage: python3 tools/respell.py [FOLDER]      FOLDER is the top of a checkout; the checkout of this file if left out

Run it once, right after the kit's port.py. In .antt files names are turned wherever they stand but in comments; a label that the check makes
(behind 'goal.' and 'c.' in a function's own files, or its signature there) stays. In .rt files strings stay too. In pages (*.md) only what stands between backticks is turned.
Names with no dash are turned in comments as well. Functions of src/, strings, inputs and outputs keep their names.
"""

import os
import re
import sys

HERE = os.path.dirname(os.path.realpath(__file__))
NAME = re.compile(r"[^\s(){}\[\];,.:λ→×≡⊎«»?|\\@=↦⟨⟩`]+")
STRING = re.compile(r'"(?:\\.|[^"\\])*"')
LABEL = re.compile(r"(?m)^(?:abbrev )?pub (\S+) : (?:goal|need|given)\.")


def table():
    with open(os.path.join(HERE, "respell.tsv"), encoding="utf-8") as f:
        return dict(line.rstrip("\n").split("\t") for line in f if line.strip())


def turned(text, names, labels, own):
    """The text with each name turned that stands in the table; own: these are a function's files, where labels stand behind 'goal.' and 'c.'."""

    def one(m):
        word, at = m.group(0), m.start()
        if word in labels or (own and re.search(r"(?:\bgoal|\bneed|\bc|\bw)\.$", text[max(0, at - 6) : at])):
            return word
        return names.get(word, word)

    return NAME.sub(one, text)


def split_comment(line, mark):
    """A line's code and its comment; a mark within a string is none."""
    blank = STRING.sub(lambda m: " " * len(m.group(0)), line)
    at = blank.find(mark)
    return (line, "") if at < 0 else (line[:at], line[at:])


def file(text, path, names):
    plain = {a: b for a, b in names.items() if "-" not in a}
    rust = path.endswith(".rt")
    own = not rust and re.search(r"/(Answers|Invariants)\.antt$", path) is not None
    labels = set(LABEL.findall(text)) if own else set()
    out = []
    for line in text.split("\n"):
        code, comment = split_comment(line, "//" if rust else "--")
        if rust:
            parts, last = [], 0
            for m in STRING.finditer(code):
                parts += [turned(code[last : m.start()], names, labels, own), m.group(0)]
                last = m.end()
            code = "".join(parts) + turned(code[last:], names, labels, own)
        else:
            code = turned(code, names, labels, own)
        out.append(code + turned(comment, plain, labels, False))
    return "\n".join(out)


def page(text, names):
    return re.sub(r"`[^`\n]+`", lambda m: turned(m.group(0), names, set(), False), text)


def main():
    root = sys.argv[1] if len(sys.argv) > 1 else os.path.dirname(HERE)
    names, changed = table(), 0
    for folder, dirs, files in os.walk(root):
        dirs[:] = sorted(d for d in dirs if d not in (".git", "out", "target", "tools"))
        for f in sorted(files):
            path = os.path.join(folder, f)
            if not f.endswith((".rt", ".antt", ".md")):
                continue
            with open(path, encoding="utf-8") as it:
                text = it.read()
            new = page(text, names) if f.endswith(".md") else file(text, path, names)
            if new != text:
                changed += 1
                with open(path, "w", encoding="utf-8") as it:
                    it.write(new)
    print(f"respell: {changed} files changed")


main()
