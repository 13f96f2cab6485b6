"""Fills the paragraphs and list items of pages to 100 columns: python3 scripts/fill.py PAGE.. (tables, code and headings stay)."""

import re
import sys

WIDTH = 100
ITEM = re.compile(r"^( *)([-*+]|\d+\.) +")
FIXED = re.compile(r"^(\||#|<|\[[^\]]*\]: )")
MARKER = re.compile(r"^([-*+>#|]|\d+\.)")


def pieces(text):
    """The parts of a text between which a line may end: words, and code as a whole."""
    found = []
    for word in re.findall(r"\S+", text):
        open_code = found and found[-1].count("`") % 2 == 1
        if open_code or (found and MARKER.match(word)):
            found[-1] += " " + word
        else:
            found.append(word)
    return found


def fill(text, first, rest):
    lines, line = [], first
    bare = True
    for piece in pieces(text):
        if bare:
            line += piece
        elif len(line) + 1 + len(piece) <= WIDTH:
            line += " " + piece
        else:
            lines.append(line)
            line = rest + piece
        bare = False
    return lines + [line]


def filled(page):
    out, block, first, rest = [], [], "", ""
    code = False

    def flush():
        nonlocal block
        if block:
            out.extend(fill(" ".join(block), first, rest))
        block = []

    for line in page.split("\n"):
        if line.lstrip().startswith("```"):
            flush()
            code = not code
            out.append(line)
        elif code or not line.strip() or FIXED.match(line):
            flush()
            out.append(line)
        elif ITEM.match(line):
            flush()
            first = ITEM.match(line).group()
            rest = " " * len(first)
            block = [line[len(first):]]
        elif line.startswith("> "):
            if not (block and first == "> "):
                flush()
                first = rest = "> "
            block.append(line[2:])
        else:
            if not block:
                first = rest = re.match(" *", line).group()
            block.append(line.strip())
    flush()
    return "\n".join(out)


for name in sys.argv[1:]:
    with open(name, encoding="utf-8") as file:
        before = file.read()
    after = filled(before)
    if "".join(before.split()) != "".join(after.replace("\n> ", "\n").split()) and "> " not in before:
        sys.exit(f"{name}: the words would change")
    if after != before:
        with open(name, "w", encoding="utf-8") as file:
            file.write(after)
