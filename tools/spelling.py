#!/usr/bin/env python3
"""Brings the repository's own names to today's spelling: a definition's name in snake case (`windowTicks` to `window_ticks`),
types and modules as they are. Run once at the top of a checkout, after the kit's port.py. Lemmas keep the dash that joins
two names; the six below lost it to port.py and get it back, since a definition has that name now."""
import glob
import re

CAMEL = re.compile(r"(?<![A-Za-z0-9_])[a-z][a-z0-9]*(?:[A-Z][a-z0-9]*)+(?![A-Za-z0-9_])")
DASHED = ["same_key", "key_fits", "same_bytes", "none_left", "joins_after", "in_order"]
LEMMA = re.compile(r"(?<![A-Za-z0-9_.«\x60'-])(%s)(?![A-Za-z0-9_»'\x60-])" % "|".join(DASHED))
STRING = re.compile(r'"(?:[^"\\\n]|\\.)*"')
SPAN = re.compile(r"`[^`\n]+`")


def snake(name):
    return re.sub(r"[A-Z]", lambda m: "_" + m.group(0).lower(), name)


def respelled(text):
    return CAMEL.sub(lambda m: snake(m.group(0)), text)


def outside_strings(text):
    out, last = [], 0
    for m in STRING.finditer(text):
        out += [respelled(text[last : m.start()]), m.group(0)]
        last = m.end()
    return "".join(out + [respelled(text[last:])])


def write(path, text, new):
    if new != text:
        with open(path, "w", encoding="utf-8") as f:
            f.write(new)


def read(path):
    with open(path, encoding="utf-8") as f:
        return f.read()


def main():
    own = set()
    for path in glob.glob("crates/*/*/**/*.antt", recursive=True):
        text = read(path)
        own |= {m.group(0) for m in CAMEL.finditer(text)}
        write(path, text, respelled(LEMMA.sub(lambda m: m.group(1).replace("_", "-"), text)))
    for path in glob.glob("crates/*/src/**/*.rt", recursive=True):
        text = read(path)
        write(path, text, outside_strings(text))
    for path in ["README.md", *glob.glob("docs/*.md"), *glob.glob("lessons/*.md")]:
        text = read(path)
        word = lambda m: snake(m.group(0)) if m.group(0) in own else m.group(0)
        write(path, text, SPAN.sub(lambda m: CAMEL.sub(word, m.group(0)), text))


main()
