#!/usr/bin/env python3
"""Spells this repository's own definitions and lemmas in snake case, as the kit's library does: floorDiv as floor_div.

usage: respell.py, at the top of the repository. A second run changes nothing.

A name turns where a small letter or a digit meets a capital, part by part between dashes; a part that begins with a capital is
a type's name and stays. In .antt, .rt and .edit files every such name turns, in .md files those in code spans.
Where a lemma would then meet the definition that it is about, it first gets `_lem` after its name (MEETING).
"""
import glob
import re

NAME = re.compile(r"(?<![A-Za-z0-9_'])[a-z][a-z0-9_]*(?:[A-Z][A-Za-z0-9_]*)")
# The page on the port, which says old names beside new ones.
PAGE = "docs/PORT.md"
SPAN = re.compile(r"`[^`\n]+`")
# The lemmas that would meet a definition, each with the files that have it beside that definition's name in the old spelling.
MEETING = {
    "nothing_left": ("nothingLeft", ["crates/blocks/specs/Laws/Fitting.antt", "crates/blocks/specs/Laws/Theorems.antt"]),
}


def snake(match):
    return re.sub(r"(?<=[a-z0-9])[A-Z]+", lambda m: "_" + m[0].lower(), match[0])


def turned(path, text):
    if path.endswith(".md"):
        return SPAN.sub(lambda m: NAME.sub(snake, m[0]), text)
    for lemma, (definition, files) in MEETING.items():
        if path in files and definition in text:
            text = re.sub(rf"(?<![\w'-]){lemma}(?![\w'-])", lemma + "_lem", text)
    return NAME.sub(snake, text)


def main():
    for path in sorted(glob.glob("crates/**/*.*", recursive=True) + glob.glob("*.md") + glob.glob("docs/*.md")):
        if path.endswith((".antt", ".rt", ".edit", ".md")) and "/out/" not in path and path != PAGE:
            with open(path, encoding="utf-8") as file:
                text = file.read()
            new = turned(path, text)
            if new != text:
                with open(path, "w", encoding="utf-8") as file:
                    file.write(new)


main()
