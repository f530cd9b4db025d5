#!/usr/bin/env python3
"""Gives the definitions and lemmas of this repository the spelling of the installed kit: words in snake case, types in camel case.

usage: tools/respell.py            at the top of the repository, once, after the kit's own script
The table is tools/respelled.txt, a line for each name: OLD NEW. Names of src/, strings and what programs read and write stay.
"""
import os
import re

TABLE = dict(line.split() for line in open(os.path.join(os.path.dirname(os.path.abspath(__file__)), "respelled.txt")))
# what a name is made of; a dash or a dot inside it belongs to it or parts two names
NAME = re.compile(r"[^\s(){}\[\],;:.«»`\"|]+")
STRING = re.compile(r'"(?:[^"\\\n]|\\.)*"')
# a call that an answer cites by the function's name: it is the function's spelling, not the lemma's
CALLS = re.compile(r"\bc\.wire-in\b")


def respell(text):
    return NAME.sub(lambda m: TABLE.get(m.group(0), m.group(0)), text)


def code(text, comment):
    """Respells what stands before each line's comment; in the comment only names that are no words of English."""
    lines = []
    for line in text.split("\n"):
        at = line.find(comment)
        head, tail = (line, "") if at < 0 else (line[:at], line[at:])
        head = CALLS.sub("c.wire_in", head)
        parts, last = [], 0
        for m in STRING.finditer(head):
            parts += [respell(head[last : m.start()]), m.group(0)]
            last = m.end()
        parts.append(respell(head[last:]))
        tail = NAME.sub(lambda m: TABLE.get(m.group(0), m.group(0)) if re.search("[a-z][A-Z]", m.group(0)) else m.group(0), tail)
        lines.append("".join(parts) + tail)
    return "\n".join(lines)


def main():
    for folder, dirs, files in os.walk("crates"):
        dirs[:] = [d for d in dirs if d != "out"]
        for name in files:
            path = os.path.join(folder, name)
            if name.endswith((".rt", ".antt")):
                with open(path, encoding="utf-8") as f:
                    old = f.read()
                new = code(old, "//" if name.endswith(".rt") else "--")
                if new != old:
                    with open(path, "w", encoding="utf-8") as f:
                        f.write(new)


main()
