#!/usr/bin/env python3
"""Respells names of definitions and lemmas, by the list names.txt beside this script.

usage: respell.py [FOLDER]    the top of a repository; without it the folder above tools/

In .antt, .rt and .edit files every name is turned that stands outside comments and texts, in comments and in pages (.md) those between backticks.
What the prover names itself, behind `goal.` and `c.`, stays. The names of src/ are in no line of the list.
"""
import os
import re
import sys

HERE = os.path.dirname(os.path.realpath(__file__))
NAME = re.compile(r"(?<![^\s(){}:;,.\[\]|`«»≡@])((?:(?:goal|c)\.)?)([^\s(){}:;,.\[\]|`«»≡@\"]+)")
MARKED = re.compile(r"`[^`]*`")
TEXT = re.compile(r'"(?:[^"\\]|\\.)*"')


def table():
    everywhere, by_file = {}, {}
    with open(os.path.join(HERE, "names.txt"), encoding="utf-8") as f:
        for line in f:
            words = line.split()
            if line.startswith("#") or not words:
                continue
            if len(words) == 3:
                by_file.setdefault(words[2][1:], {})[words[0]] = words[1]
            else:
                everywhere[words[0]] = words[1]
    return everywhere, by_file


def turned(text, names):
    return NAME.sub(lambda m: m.group(1) + (m.group(2) if m.group(1) else names.get(m.group(2), m.group(2))), text)


def turned_code(text, names):
    """Texts between quotes stay."""
    out, at = [], 0
    for m in TEXT.finditer(text):
        out += [turned(text[at : m.start()], names), m.group(0)]
        at = m.end()
    return "".join(out + [turned(text[at:], names)])


def turned_line(line, names, comment):
    at = len(line) if comment is None else line.find(comment)
    at = len(line) if at < 0 else at
    return turned_code(line[:at], names) + MARKED.sub(lambda m: turned(m.group(0), names), line[at:])


def main(root):
    everywhere, by_file = table()
    for folder, dirs, files in os.walk(root):
        dirs[:] = sorted(d for d in dirs if d not in (".git", "out", "target", "respell"))
        for name in sorted(files):
            path = os.path.join(folder, name)
            end = os.path.splitext(name)[1]
            if end not in (".antt", ".rt", ".edit", ".md"):
                continue
            names = everywhere | by_file.get(os.path.relpath(path, root), {})
            with open(path, encoding="utf-8") as f:
                old = f.read()
            if end == ".md":
                new = MARKED.sub(lambda m: turned(m.group(0), names), old)
            else:
                comment = {".antt": "--", ".rt": "//", ".edit": None}[end]
                new = "\n".join(turned_line(l, names, comment) for l in old.split("\n"))
            if new != old:
                with open(path, "w", encoding="utf-8") as f:
                    f.write(new)


if __name__ == "__main__":
    main(os.path.realpath(sys.argv[1] if len(sys.argv) > 1 else os.path.join(HERE, "..", "..")))
