#!/usr/bin/env python3
"""Brings the repository's own definitions and lemmas to today's spelling, once, after the kit's port.py.

Words are in snake case, types in camel case. tools/respelled.txt has a line for each name: the old one, then the new one.
Names of src/, exported names, strings, inputs and outputs are left as they are.
"""
import glob
import os
import re
import sys

HERE = os.path.dirname(os.path.realpath(__file__))
TOP = os.path.dirname(HERE) if len(sys.argv) < 2 else sys.argv[1]
TOKEN = re.compile(r"[^\s(){}\[\];.,:λ\"`|]+")


def table():
    with open(os.path.join(HERE, "respelled.txt"), encoding="utf-8") as f:
        return dict(line.split() for line in f if line.strip())


def turn(text, names):
    return TOKEN.sub(lambda m: names.get(m.group(0), m.group(0)), text)


def in_ticks(text, names):
    return re.sub(r"`[^`]*`", lambda m: turn(m.group(0), names), text)


def code_line(line, mark, names):
    """The code of a line is turned, strings are left, and in a comment only what stands between backticks is turned."""
    out, rest = "", line
    while rest:
        m = re.match(r'"(?:[^"\\]|\\.)*"', rest)
        if m:
            out, rest = out + m.group(0), rest[m.end():]
            continue
        if rest.startswith(mark) and (not out or out[-1] in " \t"):
            return out + in_ticks(rest, names)
        m = TOKEN.match(rest)
        if m:
            out, rest = out + names.get(m.group(0), m.group(0)), rest[m.end():]
        else:
            out, rest = out + rest[0], rest[1:]
    return out


def main():
    names = table()
    for pattern, mark in (("*.antt", "--"), ("*.rt", "//"), ("*.edit", "\0")):
        for path in sorted(glob.glob(os.path.join(TOP, "crates", "**", pattern), recursive=True)):
            with open(path, encoding="utf-8") as f:
                old = f.read()
            new = "\n".join(code_line(line, mark, names) for line in old.split("\n"))
            if new != old:
                with open(path, "w", encoding="utf-8") as f:
                    f.write(new)


main()
