#!/usr/bin/env python3
"""Brings the names of this repository's definitions and lemmas to today's spelling: words in snake case, the standard's operations among them.

Run once, at the top, after the kit's port.py. It reads tools/respell.tsv, and
- turns those names in the code and the comments of .antt, .rt and .edit files and in docs/ and README.md. A name that the standard spells
  with a capital (MakeDay) turns in definitions, proofs and clauses, and stays where a comment speaks of the standard;
- moves specs/Contracts.antt, whose name the toolchain now takes for itself, to specs/Inner.antt, and turns the paths that name it.
"""

import os
import re
import subprocess

TOP = os.path.dirname(os.path.dirname(os.path.realpath(__file__)))
NAME = re.compile(r"[^\s(){}\[\].;,@\"«»:`|/]+")
SPAN = re.compile(r"`[^`\n]*`")


def tables():
    """The two parts of respell.tsv, each behind its heading."""
    parts = []
    with open(os.path.join(TOP, "tools", "respell.tsv"), encoding="utf-8") as f:
        for line in f:
            if line.startswith("#"):
                parts.append({})
            else:
                old, new = line.rstrip("\n").split("\t")
                parts[-1][old] = new
    return parts


ROWS, TURNED = tables()
# a comment and a page speak of the standard by its own spelling, which has capitals or begins with ms
OWN = {old: new for old, new in ROWS.items() if old[0].islower() and not re.match("ms(Per|FromTime$)", old)}


def turn(text, rows):
    return NAME.sub(lambda m: rows.get(m[0], m[0]), text)


def turn_antt(text):
    """The code by every row, a comment by our own names."""
    lines = []
    for line in text.split("\n"):
        code, dashes, comment = line.partition("--") if re.search(r"(^|\s)--", line) else (line, "", "")
        if dashes:
            at = re.search(r"(^|\s)--", line).end() - 2
            code, comment = line[:at], line[at + 2 :]
        lines.append(turn(code, ROWS) + dashes + turn(comment, OWN))
    return "\n".join(lines)


def turn_rt(text):
    """Clauses and ghost items by every row, the rest by our own names."""
    lines = []
    for line in text.split("\n"):
        clause = re.match(r"\s*(ghost|requires|ensures)\b", line)
        lines.append(turn(line, ROWS if clause else OWN))
    return "\n".join(lines)


def turn_edit(text):
    """The paths too, which port.py leaves in an edit."""
    text = re.sub(r"Rattle·(\w+)·(specs|proofs)\.\2\b", r"Rattle.\1.\2", text)
    text = re.sub(r"Rattle·(\w+)", r"Rattle.\1", text)
    text = turn(text, TURNED)
    return turn_antt(text) if re.search(r"^file: .*\.antt", text, re.M) else turn_rt(text)


def turn_md(text, rows=OWN):
    """Code spans by our own names, since a page may speak of the Rust or of the standard."""
    return SPAN.sub(lambda m: turn(m[0], {**TURNED, **rows}), text)


def turn_promises(text):
    """PROMISES.md speaks of the definitions."""
    return turn_md(text, ROWS)


def moved(text):
    text = re.sub(r"\bspecs\.Contracts\b", "specs.Inner", text)
    text = re.sub(r"\bspecs/Contracts\b", "specs/Inner", text)
    return re.sub(r"^(pub mod|mod) Contracts$", r"\1 Inner", text, flags=re.M)


def files():
    for top in ("crates", "docs"):
        for folder, dirs, names in os.walk(os.path.join(TOP, top)):
            dirs[:] = sorted(d for d in dirs if d != "out")
            yield from (os.path.join(folder, n) for n in sorted(names))
    yield os.path.join(TOP, "README.md")


TURNS = {".antt": turn_antt, ".rt": turn_rt, ".edit": turn_edit, ".md": turn_md}


def main():
    changed = 0
    for path in list(files()):
        way = turn_promises if path.endswith("docs/PROMISES.md") else TURNS.get(os.path.splitext(path)[1])
        if way is None:
            continue
        with open(path, encoding="utf-8") as f:
            old = f.read()
        new = moved(way(old))
        if new != old:
            changed += 1
            with open(path, "w", encoding="utf-8") as f:
                f.write(new)
        if path.endswith("specs/Contracts.antt"):
            subprocess.run(["git", "mv", path, os.path.join(os.path.dirname(path), "Inner.antt")], cwd=TOP, check=True)
    print(f"respell: {changed} files changed")


if __name__ == "__main__":
    main()
